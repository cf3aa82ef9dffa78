// ---- Rows of an answer. Each is parsed when it is shown
const ROWS = 0, ANNOTATED = 1;  // forms
const COVERS = { s: "covered by the signature", a: "covered by MAC or cipher", n: "not covered", u: "not covered", r: "refused" };
const CLOSING = /^(\]|\}|\)|>>)/;  // the text of an item's last row
const OPENING = /(\[|\{|\(|<<)(_\d?)?$/;  // the text of an item's first row
const DATE = /\d{4}-\d\d-\d\d[T ]\d\d:\d\d(?::\d\d)?(?:Z| UTC)/g;
const HERE = new Intl.DateTimeFormat("en-GB", { dateStyle: "medium", timeStyle: "short" });

let rows = { bytes: NO_BYTES, starts: new Uint32Array(1), count: 0 };

// The answer's first line, the start of each further line, and the notes, which come last and begin with `=`.
function parsed(bytes) {
  let lines = 0;
  for (let end = bytes.indexOf(10); end >= 0; end = bytes.indexOf(10, end + 1)) lines++;
  const starts = new Uint32Array(lines + 1), line = i => decoder.decode(bytes.subarray(starts[i], starts[i + 1] - 1));
  for (let i = 0; i < lines; i++) starts[i + 1] = bytes.indexOf(10, starts[i]) + 1;
  let count = lines - 1;
  while (count > 0 && bytes[starts[count]] === 61) count--;
  const notes = Array.from({ length: lines - 1 - count }, (_, i) => line(count + 1 + i).slice(1));
  const [said, summary = ""] = line(0).split("\t");
  return { bytes, starts: starts.subarray(1), count, notes, said, summary };
}

function row(i, of = rows) {
  const [cover, depth, digits, text, note] = decoder.decode(of.bytes.subarray(of.starts[i], of.starts[i + 1] - 1)).split("\t");
  return { cover, depth: Number(depth), digits, text, note };
}

// Returns the depth of a row, or 0 if there is no such row.
function depthOf(i) {
  let depth = 0;
  for (let place = rows.starts[i] + 2; place < rows.bytes.length && rows.bytes[place] !== 9; place++) depth = 10 * depth + rows.bytes[place] - 48;
  return depth;
}

function isRefused(i) {
  return rows.bytes[rows.starts[i]] === 114;
}

function isParent(i) {
  return i + 1 < rows.count && depthOf(i + 1) > depthOf(i);
}

// Returns the row after an item's last one. The rows of its content are deeper, and its end is as deep as its beginning.
function behind(i) {
  const depth = depthOf(i);
  let last = i + 1;
  while (last < rows.count && depthOf(last) > depth) last++;
  const isOpen = last > i + 1 || OPENING.test(row(i).text);  // an empty item of indefinite length has two rows
  const isEnd = isOpen && last < rows.count && CLOSING.test(row(last).text);
  return isEnd && depthOf(last) === depth ? last + 1 : last;
}

// Returns the row of the item that this row's item is in, or the first row of an item for its last one. Returns -1 if there is none.
function parentOf(i) {
  const depth = depthOf(i) - (CLOSING.test(row(i).text) ? 0 : 1);
  let parent = i - 1;
  while (parent >= 0 && depthOf(parent) > depth) parent--;
  return parent;
}

// Returns the bytes of rows in hexadecimal. Of all rows, these are the bytes of the input.
function digitsOf(from, to, of = rows) {
  return Array.from({ length: to - from }, (_, i) => row(from + i, of).digits).join("");
}

// Returns the rows' diagnostic notation.
function notationOf(from, to) {
  const first = depthOf(from);
  return Array.from({ length: to - from }, (_, i) => "  ".repeat(depthOf(from + i) - first) + row(from + i).text).join("\n").replace(/,$/, "");
}

// Returns the dates of a text in the browser's time zone, or nothing if that is UTC.
function localDates(text) {
  const dates = (text.match(DATE) ?? []).map(it => new Date(it.replace(" UTC", "Z").replace(" ", "T")));
  return dates.filter(it => !isNaN(it) && it.getTimezoneOffset() !== 0).map(it => HERE.format(it)).join(", ");
}

function rowElement(i) {
  const { cover, depth, digits, text, note } = row(i), made = element("div", "", `row ${cover}`), meaning = element("span", "", "meaning");
  const code = element("code"), hint = element("em");
  made.id = `row-${i}`;
  made.setAttribute("role", "treeitem");
  made.setAttribute("aria-level", depth + 1);
  made.setAttribute("aria-selected", "false");
  meaning.style.setProperty("--depth", Math.min(depth, 32));
  addText(code, cut(text, `${text.length} characters`));
  addText(hint, note);
  meaning.append(code, note && " ", note && hint);
  if (localDates(note)) meaning.append(" ", element("small", `${localDates(note)} here`));
  if (isParent(i)) {
    made.setAttribute("aria-expanded", String(!folded.has(i)));
    meaning.prepend(element("span", "", "fold"));
  }
  made.append(meaning, element("span", COVERS[cover] ?? "", "cover"), element("code", cut(digits, `${digits.length / 2} bytes`), "bytes"));
  return made;
}

function noteElement(note) {
  const place = note.lastIndexOf(": "), digits = note.slice(place + 2), made = element("section", "", "note");
  made.append(element("h2", note.slice(0, place)), element("code", cut(digits, `${digits.length / 2} bytes`)));
  made.append(button("Copy", event => copied(event.target, digits)));
  return made;
}

let refusedAt = -1, refusedOf = null;
function firstRefused() {
  if (refusedOf !== rows) {
    refusedOf = rows;
    refusedAt = -1;
    for (let i = 0; i < rows.count && refusedAt < 0; i++) if (isRefused(i)) refusedAt = i;
  }
  return refusedAt;
}
