// ---- The tree: rows that fold, are marked by a click or a key, and are shown in parts
const FIRST = 1000, MORE = 10000;  // rows that are shown at first, and more at a click
const PAGE = 20;  // rows that PageUp and PageDown pass
const NO_RANGE = { from: 0, to: 0 };

let folded = new Map(), current = -1;  // the folded rows, each with the row after its item; the marked row
const ranges = { marked: NO_RANGE, hovered: NO_RANGE };

// An element in place of the rows from one to another, which shows some of them at a click.
function gap(from, to) {
  const made = element("div", `${(to - from).toLocaleString("en")} more lines: show them`, "gap");
  made.setAttribute("role", "treeitem");
  made.setAttribute("aria-level", "1");
  made.setAttribute("aria-selected", "false");
  made.dataset.from = from;
  made.dataset.to = to;
  return made;
}

// Shows rows from one to another in a gap.
function fill(place, from, to) {
  const shown = [], start = Number(place.dataset.from), end = Number(place.dataset.to);
  if (start < from) shown.push(gap(start, from));
  for (let first = from; first < to; first += 100) {
    const block = element("div", "", "block");
    block.setAttribute("role", "none");
    block.append(...Array.from({ length: Math.min(100, to - first) }, (_, i) => rowElement(first + i)));
    shown.push(block);
  }
  if (to < end) shown.push(gap(to, end));
  place.replaceWith(...shown);
  if (folded.size) hideFolded();
  if (ranges.marked.to) classify("marked", ranges.marked, true);
  colourVerified();
}

function plant() {
  folded = new Map();
  current = -1;
  ranges.marked = ranges.hovered = NO_RANGE;
  const place = gap(0, rows.count);
  at("rows").replaceChildren(place);
  at("rows").removeAttribute("aria-activedescendant");
  at("item").hidden = true;
  fill(place, 0, Math.min(FIRST, rows.count));
}

function numberOf(made) {
  return Number(made.id.slice(4));
}

// Returns the elements of the rows in a range that are shown.
function shownIn({ from, to }) {
  const all = at("rows").getElementsByClassName("row");
  if (to - from > all.length) return [...all].filter(it => from <= numberOf(it) && numberOf(it) < to);
  return Array.from({ length: to - from }, (_, i) => at(`row-${from + i}`)).filter(Boolean);
}

function classify(name, range, isOn) {
  for (const it of shownIn(range)) it.classList.toggle(name, isOn);
}

function setRange(name, range) {
  if (ranges[name].from === range.from && ranges[name].to === range.to) return;
  classify(name, ranges[name], false);
  ranges[name] = range;
  classify(name, range, true);
}

// Returns the outermost folded row that hides this one, or -1.
function hiddenBy(i) {
  let outer = -1;
  for (const [from, to] of folded) if (from < i && i < to && (outer < 0 || from < outer)) outer = from;
  return outer;
}

function hideFolded() {
  for (const it of at("rows").getElementsByClassName("row")) it.hidden = hiddenBy(numberOf(it)) >= 0;
  for (const it of at("rows").getElementsByClassName("gap")) it.hidden = Number(it.dataset.to) <= (folded.get(hiddenBy(Number(it.dataset.from))) ?? 0);
}

function fold(i, isFolded) {
  if (!isParent(i) || folded.has(i) === isFolded) return;
  if (isFolded) folded.set(i, behind(i));
  else folded.delete(i);
  at(`row-${i}`)?.setAttribute("aria-expanded", String(!isFolded));
  hideFolded();
}

function mark(i) {
  at(`row-${current}`)?.setAttribute("aria-selected", "false");
  current = i;
  setRange("marked", { from: i, to: behind(i) });
  at(`row-${i}`)?.setAttribute("aria-selected", "true");
  at("rows").setAttribute("aria-activedescendant", `row-${i}`);
  at("item").hidden = false;
}

// Marks a row, and shows it if it is in a gap or folded.
function go(i) {
  if (i < 0 || i >= rows.count) return;
  for (let outer = hiddenBy(i); outer >= 0; outer = hiddenBy(i)) fold(outer, false);
  const hidden = [...at("rows").querySelectorAll(".gap")].find(it => Number(it.dataset.from) <= i && i < Number(it.dataset.to));
  if (hidden) fill(hidden, Math.max(Number(hidden.dataset.from), i - 200), Math.min(Number(hidden.dataset.to), i + 200));
  mark(i);
  at(`row-${i}`).scrollIntoView({ block: "nearest" });
}

// Returns the row that is shown some rows after this one, or before it.
function stepped(i, steps) {
  for (let left = Math.abs(steps); left > 0; left--) {
    const next = steps > 0 ? folded.get(i) ?? i + 1 : i - 1;
    if (next < 0 || next >= rows.count) break;
    i = steps > 0 || hiddenBy(next) < 0 ? next : hiddenBy(next);
  }
  return i;
}

function right(i) {
  if (!isParent(i)) return i;
  if (!folded.has(i)) return i + 1;
  fold(i, false);
  return i;
}

function left(i) {
  if (!isParent(i) || folded.has(i)) return Math.max(parentOf(i), 0);
  fold(i, true);
  return i;
}

function toggle(i) {
  fold(i, !folded.has(i));
  return i;
}

const KEYS = {
  ArrowDown: i => stepped(i, 1), ArrowUp: i => stepped(i, -1), PageDown: i => stepped(i, PAGE), PageUp: i => stepped(i, -PAGE),
  ArrowRight: right, ArrowLeft: left, Home: () => 0, End: () => stepped(rows.count, -1), Enter: toggle, " ": toggle,
};

function moved(event) {
  if (!KEYS[event.key] || event.ctrlKey || event.metaKey || event.altKey) return;
  event.preventDefault();
  go(current < 0 ? 0 : KEYS[event.key](current));
}

function clicked(event) {
  const made = event.target.closest(".row, .gap");
  if (!made) return;
  if (made.className === "gap") return fill(made, Number(made.dataset.from), Math.min(Number(made.dataset.from) + MORE, Number(made.dataset.to)));
  if (event.target.className === "fold") toggle(numberOf(made));
  mark(numberOf(made));
}

function hovered(event) {
  const made = event.target.closest(".row"), i = made ? numberOf(made) : -1;
  setRange("hovered", made ? { from: i, to: behind(i) } : NO_RANGE);
}

function listenToTree() {
  at("rows").onclick = clicked;
  at("rows").onkeydown = moved;
  at("rows").onmouseover = hovered;
  at("rows").onmouseleave = () => setRange("hovered", NO_RANGE);
  at("copy-bytes").onclick = event => copied(event.target, digitsOf(current, behind(current)));
  at("copy-notation").onclick = event => copied(event.target, notationOf(current, behind(current)));
}
