// ---------------------------------------------------------------- source, ends, streams, words

let lineRows = [];
const LINE_SHOWN = 300; // letters
const LINES_SHOWN = 2000;

function makeSource() {
  lineRows = data.source.slice(0, LINES_SHOWN).map((text, i) => {
    const from = text.indexOf(";");
    const [before, after] = from < 0 ? [text, ""] : [text.slice(0, from), text.slice(from)];
    const body = html("span", { class: "text" });
    if (before.trim() || !after) body.append(html("span", { class: "code" }, cut(before.trimEnd(), LINE_SHOWN)));
    if (after) body.append(html("span", { class: "comment" }, cut(after, LINE_SHOWN)));
    const marks = html("span", { class: "marks" });
    const node = html("div", { class: "line", "data-line": i + 1 }, marks,
      html("span", { class: "count", "aria-hidden": "true" }, String(i + 1)), body);
    return { node, marks };
  });
  byId("lines").classList.toggle("long", data.source.length >= 1000);
  byId("lines").replaceChildren(...lineRows.map((row) => row.node));
}

function showSource() {
  for (const { node, marks } of lineRows) {
    marks.replaceChildren();
    node.classList.remove("from");
  }
  const w = here();
  const stepped = view.at ? way[view.at - 1][0] : -1;
  const standing = new Map();
  names.forEach((_, k) => {
    const line = runs(w, k) ? data.program[content(w, k).pc]?.[0] : undefined;
    if (line) standing.set(line, [...(standing.get(line) ?? []), k]);
  });
  for (const [line, all] of standing) {
    const row = lineRows[line - 1];
    if (!row) continue;
    const shown = all.length === 2 && all.every((k) => names[k].length < 4) ? all : all.slice(0, 1);
    for (const k of shown) row.marks.append(html("span",
      { class: `mark${k === stepped ? " own" : ""}${isBlocked(w, k) ? " blocked" : ""}` }, names[k]));
    if (all.length > shown.length) row.marks.append(html("span", { class: "mark",
      title: and(all.map((k) => names[k])) }, `+${all.length - shown.length}`));
  }
  const line = view.at ? data.program[content(stateAt(view.at - 1), stepped).pc]?.[0] : [...standing.keys()][0];
  const row = lineRows[line - 1];
  if (row && view.at) row.node.classList.add("from");
  const pane = byId("lines");
  if (row && (row.node.offsetTop < pane.scrollTop || row.node.offsetTop + 30 > pane.scrollTop + pane.clientHeight)) {
    pane.scrollTop = row.node.offsetTop - pane.clientHeight / 2;
  }
}

function showEnds() {
  const w = here();
  const after = new Set(endsAhead(w));
  const focused = document.activeElement?.closest("#ends li")?.dataset.end;
  if (!isAheadShown()) {
    byId("ends").replaceChildren(html("h2", {}, "What can still come"),
      html("p", { class: "muted" }, "Hidden for the game; ", html("kbd", {}, "b"), " shows it."));
    return;
  }
  const rows = data.ends.slice(0, ENDS_SHOWN).map((_, e) => {
    const left = toGo[e][w];
    const isAhead = after.has(e);
    const show = html("button", { type: "button", class: "show",
      "aria-label": `Show a shortest way to ${label(e)}${isAhead ? "" : ", from the start"}` },
      isAhead ? "Show" : "From start");
    show.addEventListener("click", () => showEnd(e));
    const told = left === 0 ? "here" : isAhead ? `in ${steps(left)}` : "out of reach";
    return html("li", { "data-end": e, "data-left": left }, badge(e, !isAhead), html("span", { class: "togo" }, told),
      ...(left === 0 ? [] : [show]));
  });
  const more = data.ends.length - rows.length;
  byId("ends").replaceChildren(html("h2", {}, "What can still come"), html("ul", { "aria-label": "Ends" }, ...rows),
    ...(more > 0 ? [html("p", { class: "muted" }, `${count(more, "more end", "more ends")}.`)] : []), ...runNotes(), ...judgeNotes());
  if (focused) (byId("ends").querySelector(`[data-end="${focused}"] .show`)
    ?? byId("undo")).focus({ preventScroll: true });
}
const ENDS_SHOWN = 40;

/** A line of a file of expectations that an end meets. */
function expectedLine(end) {
  const [a, , value] = end.words.find(([, was, is]) => was !== is) ?? [];
  return a === undefined ? "finished" : `word ${givenName(a) || a} ${value}`;
}

/** Where no end is judged: what a mark of an end means, and how the page can know right ends from wrong ones. */
function judgeNotes() {
  if (isJudged) return [];
  const found = kinds.indexOf("found");
  const finished = data.ends.filter((end) => end.kind === "finished");
  const end = finished.find((one) => !one.findings.length) ?? finished[0];
  const marked = found < 0 ? [] : [html("p", { class: "muted marked" }, signOf(found),
    ` An end with this sign has a finding in a shortest schedule${begins}.`)];
  return [...marked, html("p", { class: "muted judged" }, "Nothing says which ends are right. Write what you expect "
    + "into a file, a line each", ...(end ? [", such as ", code(expectedLine(end))] : []), ", and make the page with ",
  code("--expect FILE"), ".")];
}

const HIDDEN = new Set(["status", "pc"]);

/** What a stream holds, as rows: what is not 0, and what the last step changed. */
function streamItems(now, before) {
  const all = Object.keys({ ...before, ...now }).filter((name) => !HIDDEN.has(name));
  const order = (name) => (name[0] === "r" && name !== "retries" ? 0 : 100) + (parseInt(name.slice(1), 10) || 0);
  all.sort((a, b) => order(a) - order(b));
  return all.flatMap((name) => {
    const say = (value) => (/^t\d$/.test(name) ? targetWords : name === "codes" ? codesText : number)(value);
    const [old, young] = [partOf(before, name), partOf(now, name)];
    if (String(old) === String(young)) return [html("div", { "data-place": name, "data-value": young },
      html("dt", {}, name), html("dd", {}, say(young)))];
    return [html("div", { "data-place": name, "data-value": young }, html("dt", {}, name),
      html("dd", {}, change(say(old), say(young))))];
  });
}

function codesText(codes) {
  const all = [0, 4, 8, 12].map((at) => ["zero", "negative", "carry", "overflow"].filter((_, bit) =>
    (codes >> at) & (1 << bit)).join(" + ") || "none");
  while (all.length > 1 && all.at(-1) === "none") all.pop();
  return all.join(", before it ");
}

function streamCard(name, k) {
  const w = here();
  const now = content(w, k);
  const old = view.at ? content(stateAt(view.at - 1), k) : now;
  const state = stateOf(k);
  const kind = state === "waits" ? "blocked" : state === "stopped" ? "stopped" : "";
  const isGone = !now.status;
  const isStepped = view.at > 0 && way[view.at - 1][0] === k;
  const note = state === "waits" ? [html("p", { class: "waiting" }, ...waitParts(recordOf(w, k), view.at, true),
    ".")] : [];
  const at = isGone ? [] : [html("span", { class: "at" }, "at ", code(placeOf(now.pc)))];
  const items = isGone ? [] : streamItems(now, old.status ? old : {});
  return html("div", { class: `stream${isStepped ? " stepped" : ""}`, "data-name": name, "data-status": now.status
    ?? "idle", "data-pc": now.pc },
    html("h3", {}, name, html("span", { class: `tag ${kind}` }, state), ...at), ...note,
      ...(items.length ? [html("dl", {}, ...items)] : []));
}

function showState() {
  byId("streams").replaceChildren(html("h2", {}, "Streams"), ...names.map(streamCard));
  const w = here();
  const before = view.at ? stateAt(view.at - 1) : w;
  const waiting = new Map();
  names.forEach((name, k) => {
    if (!isBlocked(w, k)) return;
    const record = recordOf(w, k);
    waiting.set(record[4], [...(waiting.get(record[4]) ?? []), name]);
  });
  const rows = wordKeys.slice(0, 200).map((a) => {
    const [[was, wasTags], [is, tags]] = [wordAt(before, a), wordAt(w, a)];
    const who = waiting.get(a);
    return html("tr", { class: was !== is || wasTags !== tags ? "changed" : null },
      html("th", { scope: "row" }, wordName(a)),
      html("td", { "data-word": a, "data-value": is, "data-tags": tags }, was === is ? number(is)
        : change(number(was), number(is))),
      html("td", {}, html("span", { class: `bit ${fullText(tags)}`, "aria-hidden": "true" }),
        `${fullText(tags)}${tags & 14 ? `, ${tagsText(tags)}` : ""}`),
      html("td", { class: "note" }, cut(noteOf(a), 60),
        ...(who ? [html("span", { class: "waiting" }, ` ${and(who)} wait${who.length > 1 ? "" : "s"}`)] : [])));
  });
  const rest = shownWords.length - rows.length;
  byId("words").replaceChildren(html("h2", {}, "Words"), html("table", { "aria-label": "Words" },
    html("tbody", {}, ...rows)),
    ...(rest > 0 ? [html("p", { class: "muted" }, `${rest} more${wordKeys.length > rows.length ? ""
      : ` that no step ${begunSteps ? "from here on " : ""}touches`}.`)] : []));
}
