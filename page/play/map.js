// ---------------------------------------------------------------- the map: every state, by the fewest steps to it

const DRAWN = 150; // states
const DRAWN_HEIGHT = 230;
let layout = null; // of each state its place, in layers

/** The states in layers, ordered so that few steps cross. */
function makeLayout() {
  const layers = [];
  for (let w = 0; w < N; w++) (layers[depthOf[w]] ??= []).push(w);
  const into = Array.from({ length: N }, () => []);
  const out = Array.from({ length: N }, () => []);
  for (const to of leads) {
    to.forEach((j, w) => {
      if (j === w) return;
      into[j].push(w);
      out[w].push(j);
    });
  }
  const at = new Float64Array(N);
  const place = (layer) => layer.forEach((w, i) => (at[w] = i - (layer.length - 1) / 2));
  layers.forEach(place);
  for (let round = 0; round < 24; round++) {
    const isDown = round % 2 === 0;
    for (const layer of isDown ? layers : [...layers].reverse()) {
      const mean = new Map(layer.map((w) => {
        const near = (isDown ? into : out)[w];
        return [w, near.length ? near.reduce((sum, j) => sum + at[j], 0) / near.length : at[w]];
      }));
      layer.sort((a, b) => mean.get(a) - mean.get(b) || a - b);
      place(layer);
    }
  }
  return { layers, at, most: Math.max(...layers.map((layer) => layer.length)) };
}

/** What the map draws a state as: one that breaks a claim is wrong, whatever can still come. */
const mapClass = (w) => (kinds[endIn.get(w)] === "broken" ? "wrong" : stateClass(w));

function shape(w, size) {
  const kind = isAheadShown() || endIn.has(w) ? mapClass(w) : "plain";
  const e = endIn.get(w);
  const r = e === undefined ? 5.5 * size : 9;
  if (kind === "dead") return svg("rect", { class: "shape", x: -r, y: -r, width: 2 * r, height: 2 * r, rx: 1 });
  if (kind === "wrong") return e === undefined ? svg("path", { class: "shape", d: "M0-7l7 7-7 7-7-7z",
    transform: `scale(${size})` }) : svg("rect", { class: "shape", x: -r, y: -r, width: 2 * r, height: 2 * r,
    rx: 3 });
  return svg("circle", { class: "shape", r });
}

/** How wide the map may be. */
const mapRoom = () => Math.max(260, (byId("graph").clientWidth - 16) / scale());

/** Where the map puts each state, and how large it is. */
function mapLayout() {
  layout ??= makeLayout();
  const room = mapRoom();
  const deep = layout.layers.length - 1;
  const dx = Math.max(11, Math.min(74, (room - 40) / Math.max(1, deep)));
  const dy = Math.max(15, Math.min(30, DRAWN_HEIGHT / layout.most));
  const height = Math.max(84, (layout.most - 1) * dy + 46);
  const width = Math.max(room, deep * dx + 40);
  const start = (width - deep * dx) / 2;
  return { dx, width, height, size: Math.min(1, dx / 17), x: (w) => start + depthOf[w] * dx,
    y: (w) => height / 2 + layout.at[w] * dy };
}

/** The steps between states by kind: others, the next ones, those undone, the way; and the keys of the next ones. */
function mapSteps({ dx, x, y }) {
  const key = (a, b) => a * N + b;
  const onWay = new Map();
  for (let n = 1; n <= way.length; n++) onWay.set(key(stateAt(n - 1), stateAt(n)), n <= view.at ? "path" : "redo");
  const edges = { plain: [], next: [], redo: [], path: [], keys: [] };
  const w0 = here();
  leads.forEach((to, k) => {
    to.forEach((j, w) => {
      if (j === w) return;
      const kind = onWay.get(key(w, j)) ?? (w === w0 ? "next" : "plain");
      const isBack = depthOf[j] <= depthOf[w];
      const bend = `Q${(x(w) + x(j)) / 2} ${Math.max(y(w), y(j)) + 40} `;
      const d = `M${x(w)} ${y(w)}${isBack ? bend : "L"}${x(j)} ${y(j)}`;
      edges[kind].push(svg("path", { class: `edge ${kind}`, d }));
      if (w === w0 && k < 9) edges.keys.push(mapKey(k, w, j, { dx, x, y }));
    });
  });
  return edges;
}

/** The key of a next step, beside its line. */
function mapKey(k, w, j, { dx, x, y }) {
  const isUp = y(j) < y(w);
  const middle = [(x(w) + x(j)) / 2, (y(w) + y(j)) / 2 + (isUp ? -3 : 11)];
  const at = dx < 24 ? [x(j), y(j) + (y(j) <= y(w) ? -9 : 17)] : middle;
  return svg("text", { class: "key", x: at[0], y: at[1] }, String(k + 1));
}

function mapState(w, { x, y, size }) {
  const e = endIn.get(w);
  const isHere = w === here();
  const isPlain = !isAheadShown() && e === undefined;
  const node = svg("g", { class: `state ${isPlain ? "plain" : mapClass(w)}${isHere ? " here" : ""}`,
    transform: `translate(${x(w)} ${y(w)})`, "data-state": w },
  svg("circle", { class: "halo", r: (isHere ? 13 : 9) * (e === undefined ? size : 1) }), shape(w, size));
  if (e !== undefined) node.append(svg("text", { class: "letter", y: 4 }, SIGNS[kinds[e]]));
  return node;
}

function drawGraph() {
  const places = mapLayout();
  const { plain, next, redo, path, keys } = mapSteps(places);
  const states = Array.from({ length: N }, (_, w) => mapState(w, places));
  states.push(states[here()]); // on top of the others
  byId("graph").replaceChildren(picture("pic", places.width, places.height, ...plain, ...next, ...redo, ...path,
    ...states, ...keys));
}

/** Of a large graph: how many states there are after so many steps, by what can still come,
  and the way through them. */
const CLASS_ORDER = ["right", "open", "plain", "wrong", "dead"];
let bands = null;

function makeBands() {
  const made = [];
  for (let w = 0; w < N; w++) {
    const layer = (made[depthOf[w]] ??= Object.fromEntries(CLASS_ORDER.map((name) => [name, 0])));
    layer[stateClass(w)]++;
  }
  return made;
}

function drawBands() {
  bands ??= makeBands();
  const room = mapRoom();
  const dx = (room - 20) / bands.length;
  const gap = [1, 5, 10, 20, 50, 100, 200, 500, 1000].find((n) => n * dx > 26) ?? 5000;
  const tall = 110;
  const total = (layer) => CLASS_ORDER.reduce((sum, name) => sum + layer[name], 0);
  const most = Math.max(...bands.map(total));
  const scale = (n) => (tall - 10) * Math.sqrt(n / most);
  const parts = [];
  const middle = new Map();
  bands.forEach((layer, d) => {
    const all = total(layer);
    let y = tall - scale(all);
    for (const name of isAheadShown() ? CLASS_ORDER : ["plain"]) {
      const n = isAheadShown() ? layer[name] : all;
      if (!n) continue;
      const height = (scale(all) * n) / all;
      parts.push(svg("rect", { class: `layer ${name}`, x: 10 + d * dx + 0.5, width: Math.max(1, dx - 1), y,
        height: Math.max(0.7, height) }));
      middle.set(`${d} ${name}`, y + height / 2);
      y += height;
    }
    if (d % gap === 0) parts.push(svg("text", { class: "number", x: 10 + (d + 0.5) * dx, y: tall + 14 },
      String(d)));
  });
  const at = (w) => [10 + (depthOf[w] + 0.5) * dx,
    middle.get(`${depthOf[w]} ${isAheadShown() ? stateClass(w) : "plain"}`)];
  const points = Array.from({ length: view.at + 1 }, (_, n) => at(stateAt(n)).join(" "));
  if (points.length > 1) parts.push(svg("path", { class: "way", d: `M${points.join("L")}` }));
  const [cx, cy] = at(here());
  parts.push(svg("circle", { class: "dot", cx, cy, r: 6 }));
  byId("graph").replaceChildren(picture("pic", room, tall + 20, ...parts));
}

function showMap() {
  const isDrawn = N <= DRAWN;
  byId("map-title").textContent = isDrawn
    ? `${N === 1 ? "" : "All "}${count(N, "state", "states")} that any schedule${begins} reaches`
    : `All ${count(N, "state", "states")}${begunSteps ? " after the steps that are given" : ""}: how many there are `
      + "after so many steps";
  if (isDrawn) drawGraph();
  else drawBands();
  showLegend();
  const from = begunSteps ? [", with the same ", code("--from"), ","] : [];
  byId("explored").replaceChildren(code("mta_lab explore --plain"), ...from,
    ` visits the same ${count(N, "state", "states")}. Without `, code("--plain"),
    " it may count fewer: it leaves out states that its ends do not need.");
}

const LEGEND = { open: isJudged ? "right and wrong" : "several ends", right: "right", wrong: "wrong",
  dead: "a deadlock", plain: "one end" };

function showLegend() {
  const used = new Set(classes);
  const small = (name) => {
    const isBand = N > DRAWN;
    const shapes = { open: () => svg("circle", { class: "shape", r: 5 }), right: () =>
      svg("circle", { class: "shape", r: 5.5 }), plain: () => svg("circle", { class: "shape", r: 5 }),
      wrong: () => svg("path", { class: "shape", d: "M0-6.5l6.5 6.5-6.5 6.5-6.5-6.5z" }), dead: () =>
        svg("rect", { class: "shape", x: -5.5, y: -5.5, width: 11, height: 11 }) };
    const node = isBand ? svg("rect", { class: `layer ${name}`, x: -7, y: -7, width: 14, height: 14 })
      : svg("g", { class: `state ${name}` }, shapes[name]());
    return svg("svg", { class: "pic", width: 16, height: 16, viewBox: "-8 -8 16 16", "aria-hidden": "true" }, node);
  };
  const items = isAheadShown() ? CLASS_ORDER.filter((name) => used.has(name)).map((name) =>
    html("span", {}, small(name), LEGEND[name])) : [];
  const line = svg("svg", { class: "pic", width: 22, height: 16, viewBox: "0 0 22 16", "aria-hidden": "true" },
    svg("path", { class: N > DRAWN ? "way" : "edge path", d: "M1 8h20" }));
  byId("legend").replaceChildren(...(items.length ? [html("span", {}, "still ahead:"), ...items] : []),
    html("span", {}, line, "your way"));
}
