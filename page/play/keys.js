// ---------------------------------------------------------------- keys and buttons

function setHex() {
  view.hex = !view.hex;
  show();
}
function setAhead() {
  view.ahead = !view.ahead;
  refresh();
}
function openTexts() {
  stop();
  byId("as-schedule").value = scheduleText();
  byId("as-result").value = resultText();
  byId("as-link").value = `${location.href.split("#")[0]}${view.at ? `#${linkText()}` : ""}`;
  byId("copied").textContent = "";
  byId("texts").showModal();
}
async function copyText(id, what) {
  byId(id).select();
  try {
    await navigator.clipboard.writeText(byId(id).value);
    byId("copied").textContent = `${what} is copied.`;
  } catch {
    byId("copied").textContent = `${what} is selected: copy it with Ctrl+C.`;
  }
}
const pause = () => (view.timer ? stop() : view.at < way.length && play());

const KEYS = {
  ArrowLeft: () => goTo(view.at - 1), ArrowRight: () => goTo(view.at + 1), Backspace: () => goTo(view.at - 1),
  Home: () => goTo(0), End: () => goTo(way.length), h: hint, b: () => data.ends.length > 1 && setAhead(), x: setHex,
    c: openTexts,
  l: setLecture, n: skip, v: vote, " ": pause, "?": () => byId("keys").showModal(),
};
const VOTE_KEYS = { Backspace: takeVoteBack, Escape: stopVote };

function onKey(event) {
  if (event.ctrlKey || event.metaKey || event.altKey || byId("keys").open || byId("texts").open) return;
  const control = event.target.closest("button, a");
  if (control && [" ", "Enter"].includes(event.key)) return;
  const list = event.target.closest("#choices, #goals");
  if (list && /^Arrow(Up|Down)$/.test(event.key)) {
    const all = [...list.querySelectorAll("button:not([hidden])")];
    all[all.indexOf(control) + (event.key === "ArrowUp" ? -1 : 1)]?.focus();
  } else if (/^[1-9]$/.test(event.key)) take(Number(event.key) - 1);
  else if (view.vote && Object.hasOwn(VOTE_KEYS, event.key)) VOTE_KEYS[event.key]();
  else if (Object.hasOwn(KEYS, event.key)) KEYS[event.key]();
  else return;
  event.preventDefault();
}

function listen() {
  addEventListener("keydown", onKey);
  const acts = { reset: KEYS.Home, undo: KEYS.ArrowLeft, redo: KEYS.ArrowRight, hint, ahead: setAhead, hex: setHex,
    copy: openTexts, help: KEYS["?"], lecture: setLecture, vote, "skip-on": skip,
    "copy-schedule": () => copyText("as-schedule", "The schedule"), "copy-link": () =>
      copyText("as-link", "The link"),
    "copy-result": () => copyText("as-result", "The result") };
  for (const [id, act] of Object.entries(acts)) byId(id).addEventListener("click", act);
  byId("skip").addEventListener("click", (event) => {
    event.preventDefault();
    choiceNodes.find((node) => !node.hidden)?.focus();
  });
  byId("track").addEventListener("click", (event) => {
    const n = event.target.closest("[data-n]")?.dataset.n;
    if (n !== undefined) goTo(Number(n));
  });
  byId("graph").addEventListener("click", (event) => {
    const w = event.target.closest("[data-state]")?.dataset.state;
    if (w !== undefined) goToState(Number(w));
  });
  addEventListener("hashchange", followLink);
  addEventListener("resize", () => (showWay(), showMap()));
}

byId("program").textContent = cut(data.name, 80);
byId("counted").textContent = `with ${N === 1 ? "" : "all "}${begunSteps ? "" : "its "}${count(N, "state", "states")} `
  + `${begunSteps ? `that it reaches after ${steps(begunSteps)} that ${begunSteps === 1 ? "is" : "are"} given, ` : ""}`
  + `and ${count(data.counted.steps, "step", "steps")} between them`;
makeChoices();
makeSource();
listen();
if (data.goal !== null && !location.hash) setGoal(data.goal);
else followLink();
