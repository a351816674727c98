// ---------------------------------------------------------------- instructions and ends by name

const mnemonic = (pc) => statement(pc).split("|")[0].trim().split(/\s+/)[0].replace(/^@.*/, "@");

/** The short name of an end. */
const label = (e) => data.ends[e].label;
const bareLabel = (e) => label(e).replace(/^finished /, "");

const shortLabels = new Map(); // letters: of each end its label in so many

/** The label of an end in so many letters. Labels that begin alike get the end's number: none looks like another. */
function shortLabel(e, letters, labelOf = label) {
  if (!shortLabels.has(letters)) shortLabels.set(letters, cutApart(data.ends.map((_, i) => labelOf(i)), letters));
  return shortLabels.get(letters)[e];
}

function cutApart(texts, letters) {
  const cutTexts = texts.map((text) => cut(text, letters));
  const counts = new Map();
  for (const text of cutTexts) counts.set(text, (counts.get(text) ?? 0) + 1);
  return cutTexts.map((text, i) => {
    const tail = ` (${i + 1})`;
    return counts.get(text) === 1 ? text : `${cut(texts[i], Math.max(1, letters - tail.length))}${tail}`;
  });
}
const theLabel = (e) => (["finished", "broken"].includes(data.ends[e].kind) ? label(e) : `the ${label(e)}`);

/** A word's name and comment. */
const noteOf = (a) => [givenName(a), remark(a).replace(/^word \d+(: |$)/, "")].filter(Boolean).join(": ");

/** Some words that differ from the start at an end, by a name, and first those whose tags tell it from others. */
function endWords(end, nameOf) {
  const tags = new Map(end.tags);
  const changed = new Map(end.words.filter(([, was, is]) => was !== is).map(([a, , is]) => [a, number(is)]));
  return [...new Set([...tags.keys(), ...changed.keys()])].slice(0, 4).map((a) => {
    const [value, text] = [changed.get(a), tags.get(a)];
    return `${nameOf(a)} is ${value === undefined ? text : text ? `${value} (${text})` : value}`;
  });
}

/** Who waits forever at a deadlock, or as it may. */
const waitersText = (end) => `${and(end.waiting.map(([who]) => who))} wait${end.waiting.length > 1 ? "" : "s"} forever`;

/** The streams that a trap stopped, at an end that has its name of something else. */
const alsoStopped = (end) =>
  (end.stopped.length ? `; a trap stopped ${and(end.stopped.map(([who, trap]) => `${who} (${trapName(trap)})`))}` : "");

/** What was found on the way to an end that nobody judges. */
const foundText = (e) => (kinds[e] === "found"
  ? `; ${data.ends[e].findings[0].split(": ")[0]} in a shortest schedule${begins}` : "");

/** An end in words. */
function endText(e) {
  const end = data.ends[e];
  const values = endWords(end, namedWord);
  const tail = values.length ? `: ${and(values)}` : "";
  if (end.kind === "finished") return `finished${tail}${foundText(e)}`;
  if (end.kind === "broken") return `a claim does not hold: ${end.text}`;
  if (end.kind === "deadlock") return `deadlock: ${waitersText(end)}${alsoStopped(end)}`;
  if (end.kind === "waiting") return `waiting: ${waitersText(end)}${alsoStopped(end)}${tail}`;
  if (end.kind === "looping") return `looping: it runs forever, as it may${alsoStopped(end)}`;
  if (end.kind === "stopped") return `stopped by a trap: ${and(end.stopped.map(([who]) => who))}`;
  return `spinning: it runs forever${alsoStopped(end)}`;
}

const signOf = (e, tag = "span") => html(tag, { class: `sign ${kinds[e]}`, "aria-hidden": "true" }, SIGNS[kinds[e]]);

const BADGE_LETTERS = 34;

function badge(e, isGone) {
  return html(isGone ? "s" : "span",
    { class: `badge ${kinds[e]}${isGone ? " gone" : ""}`, title: `${isGone ? "no longer: " : ""}${endText(e)}` },
    signOf(e), html("span", { class: "text" }, shortLabel(e, BADGE_LETTERS)));
}
