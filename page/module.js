// page/module.js: one call of the proved program, over files in memory.
//
// The page's worker and the tests under node use this file alike. It knows how bytes are laid out
// in the module's memory, and nothing of what the commands mean.
"use strict";

// The status of the program for want of memory. Its text is empty, and it hands back no file.
const WANT_OF_MEMORY = 9;

// What stands in the place of a length where no file has the wanted name.
const NO_FILE = 0xffffffffffffffffn;

const SPACE = 0x20;

// The room for the answer where the caller names none. Memory that is not written costs nothing.
const ROOM_SIZE = 64 * 1024 * 1024;

class NoMemory extends Error {}

// The compiled module, from the bytes of the file. It is made once, and serves any number of calls.
async function load(bytes) {
  return WebAssembly.compile(bytes);
}

// The bytes of a word or a name: a text in UTF-8, or bytes as they are.
function bytesOf(text) {
  return typeof text === "string" ? new TextEncoder().encode(text) : text;
}

// The words with one space between two. A word with a space in it cannot be said.
function lineOf(words) {
  const parts = words.map(bytesOf);
  if (parts.some((part) => part.includes(SPACE))) {
    throw new TypeError("a word of a command holds a space");
  }
  const line = new Uint8Array(parts.reduce((size, part) => size + part.length + 1, 0));
  let at = 0;
  for (const part of parts) {
    line.set(part, at);
    line[at + part.length] = SPACE;
    at += part.length + 1;
  }
  return line.subarray(0, Math.max(0, at - 1));
}

// The memory of one instance. A slice is an address and a length, each a BigInt, since the module
// was made for addresses of 64 bits.
class Memory {
  constructor(exports) {
    this.exports = exports;
  }

  // A slice of so many bytes, which are not set yet. Growing moves the memory, so no view is kept.
  take(size) {
    const address = this.exports.page_alloc(BigInt(Math.max(1, size)));
    if (address === 0n) {
      throw new NoMemory("the module has no memory left");
    }
    return [address, BigInt(size)];
  }

  bytes([address, length]) {
    return new Uint8Array(this.exports.memory.buffer, Number(address), Number(length));
  }

  put(bytes) {
    const slice = this.take(bytes.length);
    this.bytes(slice).set(bytes);
    return slice;
  }

  // A slice of `count` structs, whose fields are these slices one after another.
  putStructs(count, slices) {
    const fields = slices.flat();
    const whole = this.take(8 * fields.length);
    const view = new DataView(this.exports.memory.buffer, Number(whole[0]));
    fields.forEach((field, index) => view.setBigUint64(8 * index, field, true));
    return [whole[0], BigInt(count)];
  }
}

// Reads lengths of 8 bytes, the highest first, and the bytes that follow them.
class AnswerReader {
  constructor(bytes) {
    this.bytes = bytes;
    this.at = 0;
  }

  // The next part, copied out of the module's memory. Null where no file has the name.
  part() {
    const view = new DataView(this.bytes.buffer, this.bytes.byteOffset + this.at, 8);
    const length = view.getBigUint64(0, false);
    this.at += 8;
    if (length === NO_FILE) {
      return null;
    }
    const start = this.at;
    this.at += Number(length);
    if (this.at > this.bytes.length) {
      throw new RangeError("the answer is longer than its room");
    }
    return this.bytes.slice(start, this.at);
  }
}

// What is answered: the status, the text that was printed (its bytes in `printed`), and the wanted
// files by their names, null where there is none. The names are keys of an object of no prototype.
function answerOf(status, printed, wanted, part) {
  const files = Object.create(null);
  for (const name of wanted) {
    files[name] = part();
  }
  return { status, text: new TextDecoder().decode(printed), printed, files };
}

function wantOfMemory(wanted) {
  return answerOf(WANT_OF_MEMORY, new Uint8Array(0), wanted, () => null);
}

// A new instance. A browser that has no memory for it says so by a RangeError.
function instanceOf(module) {
  try {
    return new WebAssembly.Instance(module);
  } catch (error) {
    throw error instanceof RangeError ? new NoMemory(error.message) : error;
  }
}

// Bytes of a page of the module's memory, and of the smallest page of a system.
const PAGE = 65536;
const SYSTEM_PAGE = 4096;

// Writes a zero to each page of new memory, where zeros are, so that the system hands it out now.
function touch(bytes) {
  for (let at = 0; at < bytes.length; at += SYSTEM_PAGE) {
    bytes[at] = 0;
  }
  return bytes;
}

// A new instance that has more memory than it began with: for a room of that size, which a call
// takes first and hardly fills, and so many bytes behind it that the system has handed out.
function instanceWith(module, roomSize, size) {
  const instance = instanceOf(module);
  const { memory } = instance.exports;
  const begin = memory.buffer.byteLength + roomSize;
  memory.grow(Math.ceil((roomSize + size) / PAGE));
  touch(new Uint8Array(memory.buffer, begin));
  return instance;
}

// A call of the program that is laid out in the memory of a new instance, or of `instance`, which
// had no call. The bytes of each file are put in their place there, and then it runs, once. It
// throws where a word holds a space, a NoMemory where memory is wanting, and where the module
// itself stops, which would be a fault. `words` and `wanted` are arrays of texts, or of bytes where
// they are no UTF-8; `sizes` has a name and a length for each file; `roomSize` is what text and
// wanted files may take at most.
class Call {
  constructor(module, words, sizes, wanted = [], roomSize = ROOM_SIZE, instance = null) {
    const line = lineOf(words);
    this.wanted = wanted;
    this.instance = instance || instanceOf(module);
    this.memory = new Memory(this.instance.exports);
    this.room = this.memory.take(Math.max(8, roomSize));
    const lineSlice = this.memory.put(line);
    const files = sizes.map(([name, size]) => [
      this.memory.put(bytesOf(name)),
      this.memory.take(size),
    ]);
    const wantedSlices = wanted.map((name) => this.memory.put(bytesOf(name)));
    const filesSlice = this.memory.putStructs(files.length, files.flat());
    const wantedSlice = this.memory.putStructs(wanted.length, wantedSlices);
    this.places = files.map(([, place]) => place);
    this.slices = [lineSlice, filesSlice, wantedSlice, this.room];
  }

  // The place of the bytes of a file, by its number among the sizes, until the program runs.
  place(number) {
    return this.memory.bytes(this.places[number]);
  }

  // What the program answers: { status, text, printed, files }.
  run() {
    // The status is a byte, and the bits above it are any.
    const status = this.instance.exports.page_run(...this.slices.flat()) & 0xff;
    if (status === WANT_OF_MEMORY) {
      return wantOfMemory(this.wanted);
    }
    const reader = new AnswerReader(this.memory.bytes(this.room));
    return answerOf(status, reader.part(), this.wanted, () => reader.part());
  }
}

// Runs the command of these words over files that are there, a Map or an object of Uint8Arrays by
// name. Where memory is wanting, the status is 9.
function call(module, words, files, wanted = [], roomSize = ROOM_SIZE) {
  const entries = files instanceof Map ? [...files] : Object.entries(files);
  const sizes = entries.map(([name, bytes]) => [name, bytes.length]);
  try {
    const begun = new Call(module, words, sizes, wanted, roomSize);
    entries.forEach(([, bytes], number) => begun.place(number).set(bytes));
    return begun.run();
  } catch (error) {
    if (error instanceof NoMemory) {
      return wantOfMemory(wanted);
    }
    throw error;
  }
}

// Under node this is a module; in the page it is the head of the script.
if (typeof exports === "object") {
  Object.assign(exports, { load, call });
}
