// The bytes that a text stands for, as tools/playground/pack writes it: their number, their sum, and characters. A module of
// its own, compiled of unpack.c, makes them of it.
"use strict";

// The bytes that letters stand for, in base64.
function bytesOfLetters(letters) {
  const each = atob(letters), bytes = new Uint8Array(each.length);
  for (let at = 0; at < each.length; at++) bytes[at] = each.charCodeAt(at);
  return bytes;
}

function unpacked(text, unpacker) {
  const [length, sum] = text.split(" ", 2).map(Number);
  const packed = new TextEncoder().encode(text.slice(`${length} ${sum} `.length));
  const {memory, unpack, __heap_base: {value: at}} = new WebAssembly.Instance(new WebAssembly.Module(bytesOfLetters(unpacker))).exports;
  const made = at + packed.length;
  memory.grow(Math.ceil((made + length) / 65536));
  new Uint8Array(memory.buffer).set(packed, at);
  if (!unpack(at, packed.length, made, length, sum)) throw new Error("its programs are damaged");
  return new Uint8Array(memory.buffer, made, length);
}
