// portable/host.js: the calls of the system that the program makes, on node. The program calls them
// through system.c. Each answers as Linux's own call does: with what it gives, or with the number of
// an error below 0. Above each stands what it has to keep, since no proof looks below this line.
//
// Files have the numbers that the system gave them. 0, 1 and 2 are the standard streams; node sees
// to it that these are open.
"use strict";

const fs = require("fs");
const { NUMBERS, answerOf } = require("./errors.js");
const { advise, DROP_COPIES, lockRange } = require("./helper.js");

const HERE = -100; // AT_FDCWD
const EMPTY_PATH = 0x1000; // AT_EMPTY_PATH
const NO_FOLLOW = 0x100; // AT_SYMLINK_NOFOLLOW
const UNCHANGED = 0xffffffff; // an owner or a group that stays
const MOST_PRECISE = BigInt(Number.MAX_SAFE_INTEGER);
const ACCESS = 3;
const RANDOM = { path: "/dev/urandom", device: 0x109n }; // the system's generator

// Linux's flags of `open`, and the names that every system has for them. Those that decide whether a
// file is made or cut must not be lost: a flag without a name here is refused.
const FLAGS = {
  O_CREAT: 0o100, O_EXCL: 0o200, O_NOCTTY: 0o400, O_TRUNC: 0o1000, O_APPEND: 0o2000,
};
const CLOSE_ON_EXEC = 0o2000000; // node sets it on every file that it opens

function flagsHere(flags) {
  let rest = flags & ~ACCESS & ~CLOSE_ON_EXEC;
  let here = flags & ACCESS;
  for (const [name, flag] of Object.entries(FLAGS)) {
    if (rest & flag) {
      here |= fs.constants[name] ?? 0;
      rest &= ~flag;
    }
  }
  return rest === 0 ? here : null;
}

// The two numbers of a device, as Linux cuts its number. Elsewhere they are only compared.
function deviceParts(device) {
  const major = ((device >> 8n) & 0xfffn) | ((device >> 32n) & 0xfffff000n);
  const minor = (device & 0xffn) | ((device >> 12n) & 0xffffff00n);
  return [major, minor];
}

// What `status` hands over, in the order that system.c reads.
function numbersOf(found) {
  return [
    found.mode, found.nlink, found.uid, found.gid, found.ino, found.size, found.blocks,
    found.blksize, ...deviceParts(found.dev), ...deviceParts(found.rdev),
    found.atimeNs, found.mtimeNs, found.ctimeNs, found.birthtimeNs,
  ];
}

// The program's memory. It moves as it grows, so a view of it is kept until then alone.
class Memory {
  // `exports` are the module's, once it is there.
  attach(exports) {
    this.exports = exports;
    this.view = new Uint8Array(0);
  }

  all() {
    const { buffer } = this.exports.memory;
    if (this.view.buffer !== buffer) {
      this.view = new Uint8Array(buffer);
    }
    return this.view;
  }

  bytes(place, count) {
    return new Uint8Array(this.exports.memory.buffer, place >>> 0, count >>> 0);
  }

  // A name, in its bytes, which need not be UTF-8. It is copied, since the memory may move.
  name(place, length) {
    return Buffer.from(this.bytes(place, length));
  }

  // Puts as many of the bytes there as have room, and answers how many.
  put(bytes, place, room) {
    const count = Math.min(bytes.length, room >>> 0);
    this.bytes(place, count).set(bytes.subarray(0, count));
    return count;
  }

  putNumbers(numbers, place) {
    const view = new DataView(this.exports.memory.buffer, place >>> 0, 8 * numbers.length);
    numbers.forEach((number, index) => view.setBigInt64(8 * index, BigInt(number), true));
  }
}

// A file that the program opened. `at` is where the next `read` or `write` of a regular file begins.
// `isFresh` is whether the system's copies of its pages were dropped, and nothing was written or
// failed to be synced since: so what is read of it is what is on the disk, once it was synced.
class Opened {
  constructor(isRegular, appends) {
    this.at = 0;
    this.isRegular = isRegular;
    this.appends = appends;
    this.isFresh = false;
  }
}

class Host {
  // `words` are the program's words in their bytes, its own name first; `say` takes a line for a
  // person.
  constructor(words, say) {
    this.words = words;
    this.say = say;
    this.memory = new Memory();
    this.files = new Map();
  }

  // The calls by their names, for the module: errors of node become numbers there.
  calls() {
    const named = {};
    for (const [name, call] of Object.entries(CALLS)) {
      named[name] = WITH_WORDS[call.length]((...given) => {
        try {
          return call.apply(this, given);
        } catch (error) {
          const answer = answerOf(error);
          return WIDE.includes(name) ? BigInt(answer) : answer;
        }
      });
    }
    return named;
  }

  opened(file) {
    return this.files.get(file);
  }

  // What is written through one number may be of a file that has another too.
  noneIsFresh() {
    this.files.forEach((opened) => {
      opened.isFresh = false;
    });
  }

  // Makes a sync, and forgets of all files that they are fresh where it fails.
  synced(sync) {
    try {
      sync();
    } catch (error) {
      this.noneIsFresh();
      throw error;
    }
    return 0;
  }
}

// Fills the bytes from the system's generator, and answers whether it could: node's own way to it
// takes longer to load than most commands run.
function filledByDevice(bytes) {
  let file;
  try {
    file = fs.openSync(RANDOM.path, "r");
    const found = fs.fstatSync(file, { bigint: true });
    const isDevice = found.isCharacterDevice() && found.rdev === RANDOM.device;
    return isDevice && fs.readSync(file, bytes) === bytes.length;
  } catch {
    return false;
  } finally {
    if (file !== undefined) {
      fs.closeSync(file);
    }
  }
}

// Those whose answers have 64 bits.
const WIDE = ["seek", "time"];

// By their number: the same function as one of exactly so many words. Of any other, V8 compiles
// another way to call it as the program starts.
const WITH_WORDS = [
  (call) => () => call(),
  (call) => (a) => call(a),
  (call) => (a, b) => call(a, b),
  (call) => (a, b, c) => call(a, b, c),
  (call) => (a, b, c, d) => call(a, b, c, d),
  (call) => (a, b, c, d, e) => call(a, b, c, d, e),
];

// A place in a file: node's numbers are exact up to 2^53, and a place above is none of a file.
function placeOf(at) {
  if (at < 0n || at > MOST_PRECISE) {
    throw new RangeError("no place in a file");
  }
  return Number(at);
}

// Where a seek counts from: the start, here, or the end; null where it is none of these.
function startOf(file, opened, from) {
  switch (from) {
    case 0:
      return 0;
    case 1:
      return opened.at;
    case 2:
      return fs.fstatSync(file).size;
    default:
      return null;
  }
}

const CALLS = {
  // A file is made only where the flags ask for it, and under O_EXCL only where nothing has the
  // name, no link either; then with this mode, narrowed by the umask and never widened. Nothing is
  // cut but by O_TRUNC. The number is the lowest that is free, so never 0, 1 or 2.
  open(place, length, flags, mode) {
    const here = flagsHere(flags);
    if (here === null) {
      return -NUMBERS.EINVAL;
    }
    const file = fs.openSync(this.memory.name(place, length), here, mode);
    const appends = (flags & FLAGS.O_APPEND) !== 0;
    this.files.set(file, new Opened(fs.fstatSync(file).isFile(), appends));
    return file;
  },

  // The last close of a file gives up its lock. What the program didn't open isn't its to close.
  close(file) {
    if (!this.files.delete(file)) {
      return -NUMBERS.EBADF;
    }
    fs.closeSync(file);
    return 0;
  },

  // Bytes from where the last call ended; 0 at the end alone.
  read(file, into, count) {
    const opened = this.opened(file);
    const at = opened?.isRegular ? opened.at : null;
    const got = fs.readSync(file, this.memory.all(), into >>> 0, count >>> 0, at);
    if (opened) {
      opened.at += got;
    }
    return got;
  },

  // Bytes from that place on; 0 behind the end alone. It moves nothing.
  pread(file, into, count, at) {
    return fs.readSync(file, this.memory.all(), into >>> 0, count >>> 0, placeOf(at));
  },

  // It says how many bytes were taken, and never more than were. Of a file that appends they land
  // at its end, wherever the last call ended. Standard streams are shared, so their place is the
  // system's.
  write(file, from, count) {
    const opened = this.opened(file);
    this.noneIsFresh();
    const at = opened?.isRegular && !opened.appends ? opened.at : null;
    const put = fs.writeSync(file, this.memory.all(), from >>> 0, count >>> 0, at);
    if (opened) {
      opened.at += put;
    }
    return put;
  },

  // The same at that place: the store's pages and its log. It moves nothing.
  pwrite(file, from, count, at) {
    this.noneIsFresh();
    return fs.writeSync(file, this.memory.all(), from >>> 0, count >>> 0, placeOf(at));
  },

  // Where the next `read` or `write` begins: from the start, from here, or from the end.
  seek(file, by, from) {
    const opened = this.opened(file);
    if (!opened?.isRegular) {
      return BigInt(-(opened ? NUMBERS.ESPIPE : NUMBERS.EBADF));
    }
    const start = startOf(file, opened, from);
    if (start === null) {
      return BigInt(-NUMBERS.EINVAL);
    }
    opened.at = placeOf(BigInt(start) + by);
    return BigInt(opened.at);
  },

  // Cuts the file, or adds zeros, and leaves the place of the next call.
  resize(file, length) {
    this.noneIsFresh();
    fs.ftruncateSync(file, placeOf(length));
    return 0;
  },

  // Once it answers 0, what was written is on the disk, the length and the entry of a folder too.
  // The order of the log and of the store rests on this. An error is never passed over.
  sync(file) {
    return this.synced(() => fs.fsyncSync(file));
  },

  // The same, but for times. An error is never passed over.
  sync_data(file) {
    return this.synced(() => fs.fdatasyncSync(file));
  },

  // The very mode: the store and its log are their owner's alone.
  change_mode(file, mode) {
    fs.fchmodSync(file, mode);
    return 0;
  },

  // An owner or a group that is named as unchanged stays: node has no such number, so it is told
  // the one that is.
  change_owner(file, owner, group) {
    const found = fs.fstatSync(file);
    const [newOwner, newGroup] = [owner >>> 0, group >>> 0];
    fs.fchownSync(
      file,
      newOwner === UNCHANGED ? found.uid : newOwner,
      newGroup === UNCHANGED ? found.gid : newGroup,
    );
    return 0;
  },

  // Which file it is (its device and its number there), how long, of which kind and mode, and by how
  // many names: of an open file, of the file at a path, or of a link itself. Nothing is rounded.
  status(file, place, length, flags, into) {
    const exact = { bigint: true };
    let found;
    if (length === 0 && flags & EMPTY_PATH) {
      found = fs.fstatSync(file, exact);
    } else if (file !== HERE) {
      return -NUMBERS.ENOSYS;
    } else if (flags & NO_FOLLOW) {
      found = fs.lstatSync(this.memory.name(place, length), exact);
    } else {
      found = fs.statSync(this.memory.name(place, length), exact);
    }
    this.memory.putNumbers(numbersOf(found), into);
    return 0;
  },

  // What stands in a link, as it stands there.
  read_link(place, length, into, room) {
    const target = fs.readlinkSync(this.memory.name(place, length), { encoding: "buffer" });
    return this.memory.put(target, into, room);
  },

  // The path with no link in it. One that has no room is refused, since a part of it names another.
  real_path(place, length, into, room) {
    const name = this.memory.name(place, length);
    const path = fs.realpathSync.native(name, { encoding: "buffer" });
    return path.length > room ? -NUMBERS.ENAMETOOLONG : this.memory.put(path, into, room);
  },

  // 0 only where nobody else, the built program and sqlite3 among them, can have that range of the
  // file until it is closed here; and it must end with this process, however that ends.
  lock(file, kind, start, length) {
    const opened = this.opened(file);
    if (!opened) {
      return -NUMBERS.EBADF;
    }
    const { error, hasDropped } = lockRange(file, kind, start, length, this.say);
    opened.isFresh = hasDropped;
    return -error;
  },

  // What is read next is what is on the disk, and no copy that an earlier sync failed to write: so
  // the one advice that asks for this is handed on, but where the lock did as much. A page that
  // couldn't be dropped then, since it was still to be written, has been written by the sync that
  // stands before this call, or the sync has failed. All other advice is of speed alone.
  advise(file, start, length, advice) {
    const opened = this.opened(file);
    if (!opened) {
      return -NUMBERS.EBADF;
    }
    const isDone = advice !== DROP_COPIES || opened.isFresh;
    return isDone ? 0 : -advise(file, start, length, advice, this.say);
  },

  // Random bytes, of the system's generator.
  random(into, count) {
    const bytes = this.memory.bytes(into, count);
    if (!filledByDevice(bytes)) {
      require("crypto").randomFillSync(bytes);
    }
    return 0;
  },

  // The clock of the day, or one that never goes back, in nanoseconds.
  time(clock) {
    return clock === 0 ? BigInt(Date.now()) * 1000000n : process.hrtime.bigint();
  },

  word_count() {
    return this.words.length;
  },

  // A word in its bytes: its length, -1 where there is none, -2 where it has no room.
  word(number, into, room) {
    const word = this.words[number >>> 0];
    if (word === undefined) {
      return -1;
    }
    const count = this.memory.put(word, into, room);
    return count < word.length ? -2 : count;
  },
};

module.exports = { Host };
