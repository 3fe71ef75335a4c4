// The calls of the library for C as WebAssembly. Its memory has 64 bits, so addresses and sizes are BigInt, and node 20 needs
// the flag --experimental-wasm-memory64.
"use strict";
const fs = require("fs");

const PAGE_BYTES = 65536;

// The number that these bytes are, the lowest first.
const numberOf = (bytes) => bytes.reduceRight((number, byte) => (number << 8n) | BigInt(byte), 0n);

// Words as a call takes them.
const bytesOf = (words) => new Uint8Array(BigUint64Array.from(words).buffer);

// Ends the process where a call failed, by the number of the error.
function accept(error) {
  if (error === 0) return;
  console.error(`error ${error}`);
  process.exit(error);
}

// The calls of the module in a file: they take the name of an export without `linsjoar_`, and its arguments. The process ends
// where one fails, but for those of `attempt`, which returns the number of the error. Bytes that are passed are copied
// into the memory of the module, and back. A program with large messages keeps these there, and passes their address.
function load(path) {
  const library = new WebAssembly.Instance(new WebAssembly.Module(fs.readFileSync(path))).exports;
  const grow = library.memory.grow.bind(library.memory);
  let [block, room] = [0n, 0];

  // Makes room by a block of its own. An engine may count pages by integers of 64 bits.
  function reserve(bytes) {
    if (bytes <= room) return;
    const pages = Math.ceil((2 * bytes) / PAGE_BYTES);
    try {
      block = BigInt(grow(pages)) * BigInt(PAGE_BYTES);
    } catch (error) {
      block = grow(BigInt(pages)) * BigInt(PAGE_BYTES);
    }
    room = pages * PAGE_BYTES;
  }

  function attempt(name, ...given) {
    reserve(given.reduce((sum, value) => sum + (value.length ?? 0) + 8, 0));
    const blocks = given.filter((value) => value instanceof Uint8Array);
    const at = new Map();
    let free = block;
    for (const bytes of blocks) {
      at.set(bytes, free);
      new Uint8Array(library.memory.buffer, Number(free), bytes.length).set(bytes);
      free += BigInt(8 * Math.ceil(bytes.length / 8));
    }
    const error = library[`linsjoar_${name}`](...given.map((value) => at.get(value) ?? value));
    for (const bytes of blocks) bytes.set(new Uint8Array(library.memory.buffer, Number(at.get(bytes)), bytes.length));
    return error;
  }

  return { attempt, call: (name, ...given) => accept(attempt(name, ...given)) };
}

module.exports = { accept, numberOf, bytesOf, load };
