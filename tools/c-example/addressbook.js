// Reads the address book on standard input (crates/capnpc_sample/schemas/addressbook.capnp), a framed message, and
// writes it built anew, by crates/capnp_c as WebAssembly: framed, or packed. The status is the number of an error, and 0 without one.
//
//   node --experimental-wasm-memory64 addressbook.js LINSJOAR.WASM [packed] < FRAMED > BUILT
"use strict";
const fs = require("fs");
const { accept, load, numberOf, bytesOf } = require("./linsjoar.js");

const BUFFER_NOT_LARGE_ENOUGH = 2;
const STRUCTS = 7;
const { attempt, call } = load(process.argv[2]);
const message = new Uint8Array(fs.readFileSync(0));
const [reader, builder] = [new Uint8Array(272), new Uint8Array(8)];
let region = new Uint8Array(16);

// What a call writes, of these sizes in bytes: 8 is a number, else it is a struct.
function read(name, given, ...sizes) {
  const written = sizes.map((size) => new Uint8Array(size));
  call(name, ...given, ...written);
  return written.map((bytes) => (bytes.length === 8 ? numberOf(bytes) : bytes));
}

const follow = (name, given, ...sizes) => read(name, [message, BigInt(message.length), reader, ...given], ...sizes);

// What a call that builds writes, a number. Where the region is full, a larger one begins with the same bytes.
function build(name, ...given) {
  const written = new Uint8Array(8);
  const error = attempt(name, builder, region, BigInt(region.length), ...given, written);
  if (error !== BUFFER_NOT_LARGE_ENOUGH) {
    accept(error);
    return numberOf(written);
  }
  const larger = new Uint8Array(2 * region.length);
  larger.set(region);
  region = larger;
  return build(name, ...given);
}

// A number of a struct, of this size; 0n past the struct's data.
function numberIn(fields, index, size) {
  const start = Number(numberOf(fields.subarray(0, 8)));
  const end = start + Number(numberOf(fields.subarray(8, 16)));
  return numberOf(message.subarray(start + index * size, Math.min(start + (index + 1) * size, end)));
}

// A pointer of a struct; undefined for null.
function pointerOf(fields, index) {
  const [pointer] = read("struct_pointer", [fields, index], 24);
  const [kind] = follow("kind", [pointer], 8, 8);
  return kind === 0n ? undefined : pointer;
}

// What a struct points to is added before it. These return the orphan of what they add, a number; 0n is null.
function addText(fields, index) {
  const pointer = pointerOf(fields, index);
  if (pointer === undefined) return 0n;
  const [start, length] = follow("text", [pointer], 8, 8);
  return build("add_text", message.slice(Number(start), Number(start + length)), length);
}

function addStructs(fields, index, wordsOf, dataWords, pointers) {
  const pointer = pointerOf(fields, index);
  if (pointer === undefined) return 0n;
  const [list] = follow("list", [pointer, STRUCTS], 48);
  const count = Number(numberOf(list.subarray(32, 36)));
  const words = [];
  for (let i = 0; i < count; i++) words.push(...wordsOf(...read("list_struct", [list, i], 48)));
  return build("add_structs", bytesOf(words), BigInt(words.length), BigInt(count), dataWords, pointers);
}

// A struct's words are its data, and then its orphans.
const wordsOfPhone = (phone) => [numberIn(phone, 0, 2), addText(phone, 0)];

function wordsOfPerson(person) {
  const employment = numberIn(person, 2, 2);
  const hasPlace = employment === 1n || employment === 2n;
  return [
    numberIn(person, 0, 4) | (employment << 32n),
    addText(person, 0),
    addText(person, 1),
    addStructs(person, 2, wordsOfPhone, 1, 1),
    hasPlace ? addText(person, 3) : 0n,
  ];
}

call("open", message, BigInt(message.length), reader);
call("begin", builder, region, BigInt(region.length));
const [root] = follow("root", [], 24);
const [book] = follow("struct", [root], 48);
const people = addStructs(book, 0, wordsOfPerson, 1, 4);
const orphan = build("add_struct", bytesOf([]), 0n, bytesOf([people]), 1n);
call("set_root", builder, region, BigInt(region.length), orphan);
const length = build("finish");
const framed = region.slice(0, Number(length));
// Of n words the packed bytes are at most 10 n.
const packed = new Uint8Array((framed.length * 10) / 8);
const unpacked = new Uint8Array(framed.length);
const [packedLength] = read("pack_message", [framed, length, packed, BigInt(packed.length)], 8);
const lengths = [...read("unpack_message", [packed, packedLength, unpacked, length], 8, 8), ...read("next_message", [framed, length], 8)];
if (Buffer.compare(framed, unpacked) !== 0 || String(lengths) !== String([length, packedLength, length])) {
  throw new Error("the packed message is another one");
}
process.stdout.write(process.argv[3] === "packed" ? packed.subarray(0, Number(packedLength)) : framed);
