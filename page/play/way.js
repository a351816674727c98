// ---------------------------------------------------------------- the way: steps taken, and those undone

let way = []; // of each step [stream, state that it led to]
const stateAt = (n) => (n === 0 ? 0 : way[n - 1][1]);
const here = () => stateAt(view.at);

/** The ends that step n put out of reach. */
function lostIn(n) {
  const after = new Set(endsAhead(stateAt(n)));
  return endsAhead(stateAt(n - 1)).filter((e) => !after.has(e));
}

/** The step since which no right end could be reached; 0 where one can, or never could. */
function pointOfNoReturn() {
  const isOpen = (w) => endsAhead(w).some((e) => data.ends[e].right);
  if (!isOpen(0) || isOpen(here())) return 0;
  return Array.from({ length: view.at }, (_, i) => i + 1).find((n) => !isOpen(stateAt(n)));
}

/** The last step up to n that made a word as full or empty as it is then; 0 where it was so at the start. */
function turnedIn(a, n) {
  const isFull = (m) => wordAt(stateAt(m), a)[1] & 1;
  let m = n;
  while (m > 0 && isFull(m - 1) === isFull(n)) m--;
  return m;
}

/** Whether what can still come is shown: as the reader wants it, and where a game is at an end; never in a vote. */
const isAheadShown = () => !view.vote && (view.ahead || (view.goal !== null && endHere() !== undefined));

/** Whether the reader has a goal: an end, or a stream that is to wait forever. */
const hasGoal = () => view.goal !== null || view.waiter !== null;

/** The end that is reached here: that of the goal, if it is one of them. A loop that is never left is no end if the
  goal is that a stream waits in it. */
function endHere() {
  const w = here();
  if (view.waiter !== null && ["spinning", "looping"].includes(data.ends[endIn.get(w)]?.kind)) return undefined;
  return view.goal !== null && toGo[view.goal][w] === 0 ? view.goal : endIn.get(w);
}
