"use strict";
// Runs in a worker: makes calls of the module.
const MOST = 2 ** 32 - 1;  // the largest length that the module takes
const OUT_OF_MEMORY = 2, SHORT = 3;  // statuses
let compiled;

// Makes a call, and returns its status and its text as bytes. Bytes among the arguments are copied into the module's memory. Each call
// has an instance of its own, since the heap keeps what it was given, and a module that stopped is in an unknown state.
function call(name, ...given) {
  const { memory, block, [name]: make } = new WebAssembly.Instance(compiled).exports;
  const place = length => {
    const at = length <= MOST ? block(length) >>> 0 : 0;
    if (!at) throw new RangeError("memory ran out");
    return at;
  };
  const lent = bytes => {
    const at = place(bytes.length || 1);
    new Uint8Array(memory.buffer, at, bytes.length).set(bytes);
    return [at, bytes.length];
  };
  const words = given.flatMap(it => it instanceof Uint8Array ? lent(it) : it), [length] = lent(new Uint8Array(8));
  for (let room = 65536 + 24 * given[0].length; ;) {
    const out = place(room), status = make(...words, out, room, length), written = new DataView(memory.buffer);
    const needed = written.getUint32(length, true) + 2 ** 32 * written.getUint32(length + 4, true);
    if (status === OUT_OF_MEMORY) throw new RangeError("memory ran out");
    if (status !== SHORT) return [status, memory.buffer.slice(out, out + needed)];
    room = needed;
  }
}

async function load(zipped) {
  // A worker of a page from a file can't read the stream of a Blob in WebKit.
  const stream = new Response(zipped).body.pipeThrough(new DecompressionStream("gzip"));
  compiled = await WebAssembly.compile(await new Response(stream).arrayBuffer());
}

onmessage = async ({ data }) => {
  try {
    if (data.module) {
      await load(data.module);
      return postMessage({ ready: true });
    }
    const [status, text] = call(...data.asked);
    postMessage({ status, text }, [text]);
  } catch (error) {
    postMessage({ failed: error instanceof RangeError ? error.message : String(error) });
  }
};
