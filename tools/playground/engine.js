// Calls of the programs in the module: words and files in, what they write and their status out. Addresses in its memory have
// 8 bytes, and are BigInt in calls.
"use strict";

const PROGRAMS = ["mscrun", "mscview"];

class Engine {
  // Of a WebAssembly.Module. A call that throws leaves an instance that isn't called again: make another Engine.
  constructor(module) {
    this.calls = new WebAssembly.Instance(module, {}).exports;
    this.encoder = new TextEncoder();
    this.room = {out: 1 << 16, err: 1 << 12};
  }

  // The module's memory as it is now: where it grows it is another one.
  get bytes() {
    return new Uint8Array(this.calls.memory.buffer);
  }

  // Answers the words of a command line, without the program's name. A word that is the name of one of the files {name,
  // bytes} stands for it. Where there was too little room for what is written, the call is made again.
  answer(program, words, files) {
    for (;;) {
      const answer = this.withBlocks((take) => this.call(take, PROGRAMS.indexOf(program), words, files));
      if (answer !== undefined) return answer;
    }
  }

  call(take, program, words, files) {
    const lines = this.texts(take, words.map((word) => this.encoder.encode(word)));
    const names = this.texts(take, files.map((file) => this.encoder.encode(file.name)));
    const [, ...contents] = this.texts(take, files.map((file) => file.bytes));
    const rooms = [this.room.out, this.room.err].map((room) => [take.block(room), BigInt(room)]);
    const lengths = take.words([0n, 0n]);
    const status = this.calls.page_answer(BigInt(program), ...lines, ...names, ...contents, ...rooms.flat(), lengths);
    const [out, err] = [...new BigUint64Array(this.calls.memory.buffer, Number(lengths), 2)].map(Number);
    if (out > this.room.out || err > this.room.err) {
      this.room = {out: Math.max(this.room.out, out), err: Math.max(this.room.err, err)};
      return undefined;
    }
    const [outAt, errAt] = rooms.map(([at]) => Number(at));
    return {status, out: this.bytes.slice(outAt, outAt + out), err: this.bytes.slice(errAt, errAt + err)};
  }

  // Texts in the module's memory: how many they are, and arrays of their addresses and lengths.
  texts(take, all) {
    const places = all.map((bytes) => take.bytes(bytes));
    return [BigInt(all.length), take.words(places), take.words(all.map((bytes) => BigInt(bytes.length)))];
  }

  // Calls with what takes blocks of the module's memory, which are given back then.
  withBlocks(call) {
    const blocks = [];
    const block = (size) => {
      const at = this.calls.page_take(BigInt(size));
      if (at === 0n) throw new Error("no memory is left for the texts");
      blocks.push(at);
      return at;
    };
    const bytes = (bytes) => {
      const at = block(bytes.length);
      this.bytes.set(bytes, Number(at));
      return at;
    };
    const words = (numbers) => {
      const at = block(8 * numbers.length);
      new BigUint64Array(this.calls.memory.buffer, Number(at), numbers.length).set(numbers);
      return at;
    };
    const answer = call({block, bytes, words});
    for (const at of blocks) this.calls.page_give(at);
    return answer;
  }
}
