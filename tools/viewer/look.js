// ---- The fields
const KINDS = {
  auto: "as its tag says, or what fits", cwt: "web token (CWT)", value: "any CBOR", sign1: "COSE_Sign1", sign: "COSE_Sign", mac: "COSE_Mac",
  mac0: "COSE_Mac0", encrypt: "COSE_Encrypt", encrypt0: "COSE_Encrypt0", countersignature: "COSE_Countersignature", key: "COSE_Key",
  keyset: "COSE_KeySet", claims: "claims of a web token", kdf: "COSE_KDF_Context",
};
const LINK = 4000;  // the most bytes of an input that a link contains
const MINUTE = 60000;

let file = null, waiting = null;  // a file that was dropped or opened: its name and its bytes; the last call of `show` or `open`
let keyWaiting = null;  // the last call of `openKey`
let sampleKey = "";  // the key of the sample that is shown

// Returns the moment by which times are judged, in seconds since 1970, or NaN.
function moment() {
  if (at("clock").checked) return Math.floor(Date.now() / 1000);
  return Math.floor(new Date(at("moment").value).getTime() / 1000);
}

// Returns the arguments of a look at what the fields contain.
function given() {
  const digits = at("aad").value.replace(/\s/g, ""), isHex = digits.length % 2 === 0 && !/[^0-9a-f]/i.test(digits), now = moment();
  at("aad").setAttribute("aria-invalid", String(!isHex));
  at("aad-said").textContent = isHex ? "" : "not hexadecimal: taken as empty";
  at("moment").disabled = at("clock").checked;
  if (!isHex || isNaN(now)) at("more").open = true;  // what is wrong there must be seen
  at("date").textContent = isNaN(now) ? "no moment: times are not judged" : `${new Date(1000 * now).toISOString().slice(0, 16).replace("T", " ")} UTC`;
  const input = file ? file.bytes : encoder.encode(at("input").value);
  return [input, Object.keys(KINDS).indexOf(at("kind").value), ROWS, now, isHex ? bytesOfHex(digits) : NO_BYTES];
}

function isEmpty() {
  return !file && at("input").value.trim() === "";
}

// ---- The answer

function say(of, word, text = "") {
  at("status").className = of;
  at("status").replaceChildren(word ? element("strong", word) : "", word && text ? ": " : "");
  addText(at("status"), cut(text, "cut"));
}

// Shows the summary, with its dates also in the browser's time zone, and with the moment of times that the clock doesn't judge.
function saySummary(summary) {
  const here = localDates(summary), date = at("date").textContent;
  say(firstRefused() < 0 ? "" : "refused", "", summary);
  if (here) at("status").append(" ", element("small", `(${here} here)`));
  if (!at("clock").checked) at("status").append(" ", element("small", isNaN(moment()) ? `(${date})` : `(times are judged at ${date})`));
}

// Returns a summary of an answer that has none.
function plainSummary(status) {
  const fault = firstRefused();
  return fault < 0 ? (status === 0 ? "Well-formed." : "") : row(fault).note;
}

// Says whether the answer is one to what the fields contained before.
function setStale(isStale) {
  document.body.classList.toggle("stale", isStale);
  at("result").setAttribute("aria-busy", String(isStale));
}

function put(status, answered) {
  setStale(false);
  rows = answered;
  verdicts = [];
  plant();
  rows.summary = rows.summary || plainSummary(status);
  at("notes").replaceChildren(...rows.notes.map(noteElement));
  for (const id of ["result", "after"]) at(id).hidden = rows.count === 0;
  at("fault").hidden = firstRefused() < 0;
  at("read").textContent = rows.count || rows.summary ? rows.said : "";
  for (const id of ["verdicts", "key-said"]) at(id).replaceChildren();
  at("ciphers").hidden = true;
  if (rows.summary) saySummary(rows.summary);
  else say(status === 0 ? "" : "refused", "", rows.said);
}

// Shows what the fields ask for. Of several calls at once, only the last one is shown.
async function show() {
  const mine = waiting = {};
  try {
    const asked = given();
    if (!isReady) return;
    if (isEmpty()) return clearResult();
    setStale(true);  // until there is an answer to what the fields contain now
    await asking;
    if (mine !== waiting) return;
    const { status, text } = await call("look", ...asked);
    if (mine !== waiting) return;
    put(status, parsed(new Uint8Array(text)));
    await verify(asked, () => mine === waiting);
  } catch (error) {
    if (mine === waiting) clearResult(), say("refused", "No answer", error.message || String(error));
  }
}

function clearResult() {
  setStale(false);
  for (const id of ["result", "after", "ciphers"]) at(id).hidden = true;
  for (const id of ["verdicts", "key-said"]) at(id).replaceChildren();
  at("read").textContent = "";
  say("", "", isReady ? "Ready" : "Loading");
}

function showAgain() {
  globalThis.showing = show();
}

// Judges times again by the browser's clock, unless a file is opened. If the answer differs, shows it with the same rows folded and marked.
async function judgeAgain() {
  if (!isReady || isEmpty() || !at("clock").checked || waiting?.isFile) return;
  const before = waiting;
  try {
    const { text } = await call("look", ...given());
    if (decoder.decode(text) === decoder.decode(rows.bytes)) return;
  } catch {
    // Another try follows, and shows the error.
  }
  if (before !== waiting) return;
  const was = [...folded.keys()], marked = current;
  showAgain();
  const mine = waiting;
  await globalThis.showing;
  if (mine !== waiting) return;
  for (const i of was) fold(i, true);
  if (marked >= 0) mark(marked);
}

// ---- Copying

async function copied(from, text) {
  const before = from.dataset.name ??= from.textContent;
  try {
    await navigator.clipboard.writeText(text);
    from.textContent = "Copied";
  } catch {
    from.textContent = "The browser doesn't let this page copy";
  }
  setTimeout(() => from.textContent = before, 2000);
}

async function copyAll(event) {
  try {
    const asked = given();
    asked[2] = ANNOTATED;
    const { text } = await call("look", ...asked);
    copied(event.target, decoder.decode(text));
  } catch (error) {
    at("read").textContent = `not copied: ${error.message || error}`;
  }
}

// Returns what a link leaves out, and what it gives away.
function linkRemarks() {
  const found = [];
  if (at("kind").value !== "auto" || at("aad").value.trim() !== "") found.push("the link has only the input, without the kind and external_aad");
  if (location.protocol === "file:") found.push("the link has the path of this page's file on your computer");
  return found;
}

function copyLink(event) {
  const digits = digitsOf(0, rows.count);
  if (digits.length > 2 * LINK) return at("read").textContent = `no link: it would contain more than ${LINK} bytes`;
  if (hasSecret()) return at("read").textContent = "no link: it may contain a private or symmetric key";
  if (hasPrivateInformation()) return at("read").textContent = "no link: it would contain SuppPrivInfo, which is private";
  if (mayHide()) return at("read").textContent = "no link: bytes that aren't taken apart may be a private or symmetric key";
  if (linkRemarks().length) at("read").textContent = linkRemarks().join("; ");
  copied(event.target, `${location.href.split("#")[0]}#${digits}`);
}

// ---- Input: files, samples, links, typing

async function open(files) {
  if (!files.length) return;
  const [{ name }] = files, mine = waiting = { isFile: true };
  try {
    const bytes = new Uint8Array(await files[0].arrayBuffer());
    if (mine !== waiting) return;
    file = { name, bytes };
  } catch (error) {
    if (mine !== waiting) return;
    clearResult();
    say("refused", "Not read");
    return at("status").append(": ", element("bdi", visible(name)), ` can't be read. The browser says: ${error.message || error}`);
  }
  at("input").value = "";
  at("file").value = "";
  leaveSample();
  const others = files.length > 1 ? `; of ${files.length} files, the first is shown` : "";
  at("dropped").replaceChildren(element("bdi", visible(name)), `, ${file.bytes.length.toLocaleString("en")} bytes${others}`);
  showAgain();
}

// Puts a file into the key field: as text, or in hexadecimal if it is none. Several files are refused, since one of them would be missing
// without a word. Of several calls at once, only the last one has a result.
async function openKey(files) {
  const mine = keyWaiting = {}, before = at("key").value;
  try {
    if (files.length > 1) throw new Error(`${files.length} files were dropped, and the field takes one`);
    const bytes = new Uint8Array(await files[0].arrayBuffer()), text = decoder.decode(bytes);
    if (mine !== keyWaiting || at("key").value !== before) return;
    at("key").value = isText(text) ? text : hexOf(bytes);
    showAgain();
  } catch (error) {
    if (mine === keyWaiting) at("key-said").replaceChildren(problemElement(`no key file is read: ${error.message || error}`));
  }
}

function type(text) {
  file = null;
  at("dropped").textContent = "";
  if (text !== undefined) at("input").value = text;
  else leaveSample();
  showAgain();
}

// Leaves the sample for another input. Its key goes too, unless the user changed it: private parts of these keys are published.
function leaveSample() {
  at("sample").value = "";
  if (at("key").value.trim() === sampleKey.trim()) at("key").value = "";
  sampleKey = "";
}

// Shows a sample with its key.
function showSample(i) {
  const { input, key = "" } = SAMPLES[i];
  clearFields();
  at("sample").value = i;
  at("key").value = key;
  sampleKey = at("key").value;
  type(input);
}

// Clears what the input doesn't have: the sample, the kind, the key, external_aad and the moment.
function clearFields() {
  for (const id of ["sample", "key", "aad", "moment"]) at(id).value = "";
  sampleKey = "";
  at("kind").value = "auto";
  at("clock").checked = true;
}

// Shows the input of the address, behind `#`. Returns false if there is none.
function showLinked() {
  let text = location.hash.slice(1);
  try {
    text = decodeURIComponent(text);
  } catch {
    // The text has a % that begins no character.
  }
  if (text) clearFields(), type(text);
  return text !== "";
}

function dropped(event) {
  document.body.classList.remove("over");
  if (!event.dataTransfer.types.includes("Files")) return;
  event.preventDefault();
  const files = [...event.dataTransfer.files];
  if (event.target === at("key") && files.length) openKey(files);
  else open(files);
}

function draggedOver(event) {
  if (!event.dataTransfer.types.includes("Files")) return;
  event.preventDefault();
  document.body.classList.add("over");
}

// ---- The start

function listen() {
  for (const [kind, words] of Object.entries(KINDS)) at("kind").add(new Option(words, kind));
  for (const [i, { name }] of SAMPLES.entries()) at("sample").add(new Option(name, i));
  at("input").oninput = () => type();
  for (const id of ["kind", "clock", "moment", "aad", "key"]) at(id).oninput = showAgain;
  at("form").onsubmit = event => event.preventDefault();
  at("sample").onchange = () => at("sample").value && showSample(Number(at("sample").value));
  at("clear").onclick = () => (clearFields(), type(""));
  at("file").onchange = event => open([...event.target.files]);
  at("copy").onclick = copyAll;
  at("link").onclick = copyLink;
  at("fault").onclick = () => (go(firstRefused()), at("rows").focus());
  listenToTree();
  globalThis.onhashchange = showLinked;
  setInterval(judgeAgain, MINUTE);
  document.onvisibilitychange = judgeAgain;
  document.ondragover = draggedOver;
  document.ondragleave = () => document.body.classList.remove("over");
  document.ondrop = dropped;
}

// Returns what this browser lacks, or nothing.
function lacks() {
  if (!globalThis.WebAssembly) return "WebAssembly";
  if (!globalThis.Worker) return "workers";
  return globalThis.DecompressionStream ? "" : "DecompressionStream";
}

async function start() {
  listen();
  if (!showLinked()) showSample(0);
  try {
    if (lacks()) throw new Error(`it has no ${lacks()}`);
    await loadModule();
    await (globalThis.showing = show());
  } catch (error) {
    say("refused", "This browser can't run the page", error.message);
  }
  globalThis.ready = performance.now();
}

start();
