// ---------------------------------------------------------------- what is told in words: waits, steps, findings

const changed = (before, now) =>
  html("span", { class: "change" }, whole(number(before)), " → ", html("b", {}, number(now)));

/** What made a stream wait for a word that is not full, or not empty, and what lets it go on. */
const turnedWords = (wait) => (wait.for === "full" ? ["emptied", "filled"] : ["filled", "emptied"]);

/** What a wait is for, and who made it wait, as it stands after step n; `since` names its first try. */
function waitText(wait, n, since) {
  const [turned, mended] = turnedWords(wait);
  const first = since ? ["since ", stepLink(since), " "] : [];
  const start = ["waits ", ...first, `for ${fullName(wait.word)} to be ${wait.for}`];
  const made = turnedIn(wait.word, n);
  if (!made) return [...start, `; no step has ${turned} it, it was so at the start`];
  const by = steps[made - 1].who;
  const isMet = fullText(stateAt(wait.word, n)[2]) === wait.for;
  if (isMet) return [...start, `; ${by} ${mended} it in `, stepLink(made), ", and it has not tried since"];
  return [...start, `, which ${by === wait.stream ? `it ${turned} itself` : `${by} ${turned}`} in `, stepLink(made)];
}

/** The value and the tags of a word after step n. */
function wordAfter(address, n) {
  const [, value, tags] = wordStates.has(address) ? stateAt(address, n) : [0, ...startWord(address)];
  return [value, tags];
}

/** Whether the machine has the stream of a step: each of its processors has begun with a stream. */
const hasStream = ({ p, s }) => Boolean(head.start.places[`${p}.scur`]) && s < head.slim;

/** Why nothing came of a skipped step. */
function skippedText(step, n) {
  if (!hasStream(step)) return "there is no such stream";
  const isStopped = stepsOf.get(step.who).some((one) => one < n && sign(steps[one - 1]) === "stopped");
  return isStopped ? "has stopped: nothing happens" : "does not run: nothing happens";
}

/** What step n did, in the words of `mta_lab view`. */
function sentence(step, n) {
  if (isSkipped(step)) return [skippedText(step, n)];
  return joined(sentenceParts(step, step.ref ? wordAfter(step.ref[3], n) : []));
}

/** Who made the stream of a step wait, or let it through. */
function waitNote(step, n) {
  const freed = waitsOf.get(step.who)?.find((wait) => wait.to === n && wait.met);
  if (freed) return [` ${namedWord(freed.word)} is ${freed.for} since `, stepLink(freed.met), "."];
  const wait = step.o === "blocked" ? waitAt(step.who, n) : undefined;
  if (!wait) return [];
  const [turned] = turnedWords(wait);
  const made = turnedIn(wait.word, n);
  if (!made) return [` No step has ${turned} it, it was so at the start.`];
  const by = steps[made - 1].who;
  return [` ${by === wait.stream ? "The stream itself" : by} ${turned} it in `, stepLink(made), "."];
}

// ---------------------------------------------------------------- findings

const FINDINGS = {
  lost: { title: "An update is lost here: ", one: "a lost update", many: "lost updates" },
  unread: { title: "Overwritten unread: ", one: "a store that no stream read", many: "stores that no stream read" },
  torn: { title: "A torn read: ", one: "a torn read", many: "torn reads" },
};
const WROTE = { FADD: "added", STORE: "stored" };

/** What step n wrote: what it added or stored, else the value that its word has then, as TAGSET writes no value of its own. */
const wrote = (step, n) => {
  const [operation, , , address, value] = step.ref;
  const deed = WROTE[operation];
  return deed ? `${deed} ${number(value)}` : `wrote ${number(wordAfter(address, n)[0])}`;
};

/** A finding in words; `isHere` where the step itself is being told. */
function findingText(finding, isHere) {
  if (finding.kind === "torn") return tornText(finding);
  const [over, stored] = [steps[finding.over - 1], steps[finding.stored - 1]];
  const value = number(stored.ref[4]);
  const start = isHere
    ? [`this ${value} is stored`]
    : [html("b", {}, stored.who), ` stored ${value} into ${fullName(finding.word)} in `, stepLink(finding.stored)];
  const overLink = stepLink(finding.over);
  if (finding.kind === "unread") {
    return [...start, ` over the ${number(over.ref[4])} of ${over.who} in `, overLink, ", which no stream had read."];
  }
  const read = steps[finding.read - 1];
  const made = `, made from the ${number(read.ref[5])} that ${stored.who} had read in `;
  const between = `. Between them ${over.who} ${wrote(over, finding.over)} in `;
  return [...start, made, stepLink(finding.read), between, overLink, ", which is lost."];
}

function tornText({ stale, fresh, reads, writes }) {
  const [old, young] = reads.map((n) => steps[n - 1]);
  const writer = steps[writes[0] - 1].who;
  return [
    html("b", {}, old.who), " saw half of a change: it read ", html("b", {}, "the old "),
    `${fullName(stale)}, ${number(old.ref[5])}, in `, stepLink(reads[0]), `, before ${writer} changed it in `,
    stepLink(writes[0]), ", and ", html("b", {}, "the new "), `${fullName(fresh)}, ${number(young.ref[5])}, in `,
    stepLink(reads[1]), `, after ${writer} changed it in `, stepLink(writes[1]), ".",
  ];
}

// ---------------------------------------------------------------- this step in a sentence

function tell() {
  const n = view.position;
  const step = steps[n - 1];
  if (!step) return byId("told").replaceChildren(html("b", {}, "The start"), ", before the first step.");
  const told = html("span", { class: `outcome ${sign(step)}` }, ...sentence(step, n));
  const out = [html("b", {}, step.who), isSkipped(step) && !hasStream(step) ? ": " : " "];
  if (!isSkipped(step)) out.push("at ", html("b", {}, stepPlace(step)), " ", code(cut(stepStatement(step), 90)), ": ");
  out.push(told, ".", ...waitNote(step, n));
  for (const finding of run.findings) {
    if (lastOfFinding(finding) !== n) continue;
    out.push(" ", html("b", { class: "lost" }, FINDINGS[finding.kind].title), ...findingText(finding, true));
  }
  byId("told").replaceChildren(...out);
}
