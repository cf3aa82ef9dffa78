"use strict";
// Elements, bytes and hexadecimal.
const NO_BYTES = new Uint8Array(0);
const CHARACTERS = 2000;  // the most characters of a text or of digits that one place shows
const decoder = new TextDecoder("utf-8", { ignoreBOM: true }), encoder = new TextEncoder();

function at(id) {
  return document.getElementById(id);
}

function element(name, text = "", of = "") {
  const made = document.createElement(name);
  made.textContent = text;
  made.className = of;
  return made;
}

function button(text, action) {
  const made = element("button", text);
  made.type = "button";
  made.onclick = action;
  return made;
}

function bytesOfHex(digits) {
  const bytes = new Uint8Array(digits.length >> 1);
  for (let i = 0; i < bytes.length; i++) bytes[i] = parseInt(digits.slice(2 * i, 2 * i + 2), 16);
  return bytes;
}

function hexOf(bytes) {
  return Array.from(bytes, it => it.toString(16).padStart(2, "0")).join("");
}

// Returns true if the characters that bytes were decoded to are those of a text.
function isText(text) {
  return !/[^\P{Cc}\s]|\ufffd/u.test(text);
}

function cut(text, rest) {
  return text.length > CHARACTERS ? `${text.slice(0, CHARACTERS)}… (${rest})` : text;
}

// Returns a text with escapes for the characters that a reader wouldn't see, or that move others.
function visible(text) {
  return text.replace(/[\p{C}\p{Zl}\p{Zp}\p{Default_Ignorable_Code_Point}]/gu, it => `\\u{${it.codePointAt(0).toString(16)}}`);
}

// Adds a text to an element. Each string in it with other letters than Latin is isolated, so that it can't move its neighbours.
function addText(to, text) {
  if (!/[^\x00-\x7f]/.test(text)) return to.append(text);
  for (const [i, part] of text.split(/("(?:[^"\\]|\\.)*"?|'(?:[^'\\]|\\.)*'?)/).entries()) {
    to.append(i % 2 ? element("bdi", part) : part);
  }
}

// ---- The module, in a worker: one call at a time

let worker = null, isReady = false, asking = Promise.resolve();

function answer() {
  return new Promise((done, failed) => {
    worker.onmessage = ({ data }) => data.failed ? failed(new Error(data.failed)) : done(data);
    worker.onerror = event => failed(new Error(event.message));
  });
}

// Returns what a call of the module returns: its status, and its text as bytes.
function call(...asked) {
  const next = asking.then(() => {
    const told = answer();
    worker.postMessage({ asked });
    return told;
  });
  asking = next.catch(() => {});
  return next;
}

// Returns the bytes that digits of base 85 spell: five digits stand for four bytes. The last group of n bytes has n + 1 digits.
function base85(text) {
  const values = new Uint8Array(128);
  [...DIGITS].forEach((digit, value) => { values[digit.charCodeAt(0)] = value; });
  const digits = text + DIGITS[84].repeat((5 - text.length % 5) % 5), view = new DataView(new ArrayBuffer(digits.length / 5 * 4));
  for (let start = 0; start < digits.length; start += 5) {
    let group = 0;
    for (let at = start; at < start + 5; at++) group = group * 85 + values[digits.charCodeAt(at)];
    view.setUint32(start / 5 * 4, group);
  }
  return new Uint8Array(view.buffer, 0, Math.floor(text.length * 4 / 5));
}

async function loadModule() {
  worker = new Worker(URL.createObjectURL(new Blob([at("engine").textContent], { type: "text/javascript" })));
  const module = base85(at("module").textContent), told = answer();
  worker.postMessage({ module }, [module.buffer]);
  await told;
  isReady = true;
}
