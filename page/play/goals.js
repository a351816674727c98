// ---------------------------------------------------------------- goals

const won = new Map(); // goal: the fewest steps in which it was reached without a hint
const GOALS = 8;

function goalText(e) {
  const end = data.ends[e];
  const kind = kinds[e];
  if (kind === "deadlock") return `reach the ${end.label}`;
  if (kind === "stopped") return `make it trap: ${end.label}`;
  const isOnly = data.ends.filter((other) => other.kind === kind).length === 1;
  if (kind === "spinning") return `make it spin forever${isOnly ? "" : `: ${end.label}`}`;
  if (kind === "right") return `bring it to a right end: ${bareLabel(e)}`;
  if (kind === "broken") return `break the claim: ${end.label}`;
  const isLost = end.findings.some((text) => text.startsWith("lost update"));
  if (kind === "wrong") return `${isLost ? "lose an update" : "make it go wrong"}: ${end.label}`;
  return `reach ${end.label}`;
}
/** What the reader did who has reached a goal. */
function wonText(e) {
  if (kinds[e] === "broken") return "the claim does not hold";
  if (kinds[e] === "wrong") return foundTo(view.at).some((finding) => finding.kind === "lost") ? "you lost an update"
    : "you made it go wrong";
  if (kinds[e] === "deadlock") return "no stream can go on";
  return { right: "it ends right", stopped: "a trap stops it", spinning: "it never ends" }[kinds[e]] ?? label(e);
}
const goalOrder = data.ends.map((_, e) => e)
  .sort((a, b) => (kinds[a] === "right") - (kinds[b] === "right") || data.ends[a].shortest - data.ends[b].shortest)
  .slice(0, GOALS);
const upper = (text) => text[0].toUpperCase() + text.slice(1);

function showGoals() {
  const focused = document.activeElement?.dataset?.goal;
  const free = html("button", { type: "button", class: "goal free", "data-goal": "free",
    "aria-pressed": String(!hasGoal()) }, "Look around");
  free.addEventListener("click", () => setGoal(null));
  const nodes = goalOrder.map((e) => {
    const best = won.get(e);
    const node = html("button", { type: "button", class: "goal", "data-goal": e,
      "aria-pressed": String(view.goal === e) }, signOf(e), upper(goalText(e)),
      ...(best === undefined ? [] : [html("span", { class: "done" }, `✓ ${steps(best)}`)]));
    node.addEventListener("click", () => setGoal(e));
    return node;
  });
  byId("goals").replaceChildren(html("span", {}, "Your goal:"), free, ...nodes, ...waiterNodes());
  if (focused) byId("goals").querySelector(`[data-goal="${focused}"]`)?.focus();
}

/** The goals of streams that can wait forever. */
function waiterNodes() {
  return waiters.slice(0, WAITERS).map(({ k }) => {
    const best = won.get(waitingText(k));
    const node = html("button", { type: "button", class: "goal", "data-goal": `waits ${names[k]}`,
      "aria-pressed": String(view.waiter === k) }, upper(waitingText(k)),
      ...(best === undefined ? [] : [html("span", { class: "done" }, `✓ ${steps(best)}`)]));
    node.addEventListener("click", () => setGoal(null, k));
    return node;
  });
}

/** Begins anew, with an end as the goal, or with a stream that is to wait forever. */
function setGoal(e, waiter = null) {
  stop();
  view.ahead = e === null && waiter === null;
  Object.assign(view, { goal: e, waiter, hints: 0, shown: null, hinted: null, vote: null, at: 0 });
  way = [];
  refresh();
}

function hint() {
  if (view.waiter !== null) return hintOfWaiter();
  if (view.goal === null) return say([html("b", {}, "A hint needs a goal."), " Choose one above."]);
  const left = toGo[view.goal][here()];
  if (left === 0) return say([html("b", {}, "You are there.")]);
  view.hints++;
  if (left < 0) {
    let n = view.at;
    while (toGo[view.goal][stateAt(n)] < 0) n--;
    return say([html("b", {}, "Hint: "), `from here no schedule reaches your goal. Undo ${steps(view.at - n)}.`]);
  }
  view.hinted = shortestWay(here(), view.goal)[0];
  return say([html("b", {}, "Hint: "), `take a step of ${names[view.hinted]}. Your goal is ${steps(left)} away.`,
    ...whyParts(here(), view.goal, view.hinted)]);
}

/** Tells something in place of the step. */
function say(told) {
  view.told = told;
  show();
}
