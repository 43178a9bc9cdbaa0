// page/work.js: what takes time, done in a Worker of its own, which ends with it.
//
// The Worker runs the page's whole script once more, so that the policy's one hash covers all code.
// `serve` is its end, and `Queue` the page's: one piece of work after another, each with a Worker
// that had no work before, so that no memory is left of it and it can be stopped at any moment.
const Work = (() => {
  // Bytes of a file that are read at once: into memory that is there, and into new memory
  const PART = 1024 * 1024;
  const PIECE = 8 * 1024 * 1024;

  // More than the heads of all boards and claim files that there can be
  const HEAD = 6 * 1024 * 1024;

  // Bytes whose digest takes longer than another Worker does, and for which memory is taken before
  // they are there
  const LONG = 2 * 1024 * 1024;

  // The most memory that is taken before it is wanted, for the module and for a copy; and what the
  // module takes beside the files
  const MOST_AHEAD = 96 * 1024 * 1024;
  const MOST_COPIED = 32 * 1024 * 1024;
  const BESIDE = 4 * 1024 * 1024;

  const NEWLINE = 0x0a;

  // Why there is no answer, by a word that the page has a sentence for.
  class Fault extends Error {
    constructor(kind, about = "") {
      super(kind);
      this.kind = kind;
      this.about = about;
    }
  }

  function room(size) {
    try {
      return new Uint8Array(size);
    } catch {
      throw new Fault("memory");
    }
  }

  // The readers that are at work. Chromium collects one as garbage that nothing but its own promise
  // leads to, and then that promise is never kept.
  const readers = new Set();

  // The bytes of a file, part by part, into the same memory again and again.
  async function streamed(reader, put) {
    readers.add(reader);
    let room = new ArrayBuffer(PART);
    try {
      for (;;) {
        const { done, value } = await reader.read(new Uint8Array(room));
        if (done) {
          return;
        }
        put(value);
        room = value.buffer;
      }
    } finally {
      readers.delete(reader);
    }
  }

  // The same of a short file, and in a browser that can't read into memory that is there.
  async function pieces(file, put) {
    for (let at = 0; at < file.size; at += PIECE) {
      put(new Uint8Array(await file.slice(at, at + PIECE).arrayBuffer()));
    }
  }

  // What reads a long file; null for a short one, and where this browser can't.
  function readerOf(file) {
    try {
      return file.size > PART ? file.stream().getReader({ mode: "byob" }) : null;
    } catch {
      return null;
    }
  }

  // Puts the bytes of a file in places of its length as they come.
  async function fill(places, file, name) {
    let at = 0;
    const put = (part) => {
      places.forEach((place) => place.set(part, at));
      at += part.length;
    };
    const reader = readerOf(file);
    await (reader ? streamed(reader, put) : pieces(file, put)).catch(() => {
      throw new Fault("unreadable", name);
    });
    if (at !== file.size) {
      throw new Fault("unreadable", name);
    }
  }

  const ROUND_KEYS = Int32Array.of(
    0x428a2f98, 0x71374491, 0xb5c0fbcf, 0xe9b5dba5, 0x3956c25b, 0x59f111f1, 0x923f82a4, 0xab1c5ed5,
    0xd807aa98, 0x12835b01, 0x243185be, 0x550c7dc3, 0x72be5d74, 0x80deb1fe, 0x9bdc06a7, 0xc19bf174,
    0xe49b69c1, 0xefbe4786, 0x0fc19dc6, 0x240ca1cc, 0x2de92c6f, 0x4a7484aa, 0x5cb0a9dc, 0x76f988da,
    0x983e5152, 0xa831c66d, 0xb00327c8, 0xbf597fc7, 0xc6e00bf3, 0xd5a79147, 0x06ca6351, 0x14292967,
    0x27b70a85, 0x2e1b2138, 0x4d2c6dfc, 0x53380d13, 0x650a7354, 0x766a0abb, 0x81c2c92e, 0x92722c85,
    0xa2bfe8a1, 0xa81a664b, 0xc24b8b70, 0xc76c51a3, 0xd192e819, 0xd6990624, 0xf40e3585, 0x106aa070,
    0x19a4c116, 0x1e376c08, 0x2748774c, 0x34b0bcb5, 0x391c0cb3, 0x4ed8aa4a, 0x5b9cca4f, 0x682e6ff3,
    0x748f82ee, 0x78a5636f, 0x84c87814, 0x8cc70208, 0x90befffa, 0xa4506ceb, 0xbef9a3f7, 0xc67178f2,
  );

  const turned = (word, by) => (word >>> by) | (word << (32 - by));

  // One block of SHA-256 (FIPS 180-4), into the eight words of the state.
  function compress(state, view, at, words) {
    for (let place = 0; place < 16; place++) {
      words[place] = view.getInt32(at + 4 * place);
    }
    for (let place = 16; place < 64; place++) {
      const early = words[place - 15];
      const late = words[place - 2];
      const first = turned(early, 7) ^ turned(early, 18) ^ (early >>> 3);
      const second = turned(late, 17) ^ turned(late, 19) ^ (late >>> 10);
      words[place] = (words[place - 16] + first + words[place - 7] + second) | 0;
    }
    let [a, b, c, d, e, f, g, h] = state;
    for (let place = 0; place < 64; place++) {
      const chosen = (e & f) ^ (~e & g);
      const key = (ROUND_KEYS[place] + words[place]) | 0;
      const left = (h + (turned(e, 6) ^ turned(e, 11) ^ turned(e, 25)) + chosen + key) | 0;
      const most = (a & b) ^ (a & c) ^ (b & c);
      const right = ((turned(a, 2) ^ turned(a, 13) ^ turned(a, 22)) + most) | 0;
      h = g;
      g = f;
      f = e;
      e = (d + left) | 0;
      d = c;
      c = b;
      b = a;
      a = (left + right) | 0;
    }
    const added = [a, b, c, d, e, f, g, h];
    for (let place = 0; place < 8; place++) {
      state[place] += added[place];
    }
  }

  // SHA-256, for a browser that gives a page like this one no digest of its own.
  function sha256(bytes) {
    const state = Int32Array.of(
      0x6a09e667, 0xbb67ae85, 0x3c6ef372, 0xa54ff53a,
      0x510e527f, 0x9b05688c, 0x1f83d9ab, 0x5be0cd19,
    );
    const words = new Int32Array(64);
    const whole = bytes.length - (bytes.length % 64);
    const view = new DataView(bytes.buffer, bytes.byteOffset, bytes.length);
    for (let at = 0; at < whole; at += 64) {
      compress(state, view, at, words);
    }
    const rest = bytes.subarray(whole);
    const last = new Uint8Array(rest.length < 56 ? 64 : 128);
    last.set(rest);
    last[rest.length] = 0x80;
    const end = new DataView(last.buffer);
    end.setBigUint64(last.length - 8, 8n * BigInt(bytes.length));
    for (let at = 0; at < last.length; at += 64) {
      compress(state, end, at, words);
    }
    state.forEach((word, place) => end.setInt32(4 * place, word));
    return last.slice(0, 32);
  }

  const digitsOf = (byte) => byte.toString(16).padStart(2, "0");
  const digits = (bytes) => Array.from(bytes, digitsOf).join("");

  async function digestOf(bytes) {
    if (globalThis.crypto && crypto.subtle) {
      return digits(new Uint8Array(await crypto.subtle.digest("SHA-256", bytes)));
    }
    return digits(sha256(bytes));
  }

  // The digest of bytes by the Worker at the other end of a port, which they go to. Some browsers
  // compute a digest where it is asked for, and nothing else goes on there meanwhile.
  function digestBeside(port, bytes) {
    return new Promise((done, refuse) => {
      port.onmessage = ({ data: { answer, fault, about } }) => {
        if (fault) {
          refuse(new Fault(fault, about));
        } else {
          done(answer);
        }
      };
      port.postMessage(bytes, [bytes.buffer]);
    });
  }

  // Where the first line begins that has these bytes at its start, or -1.
  function lineWith(start, bytes) {
    const has = (at) => start.every((byte, place) => bytes[at + place] === byte);
    let at = bytes.indexOf(start[0]);
    while (at >= 0 && !((at === 0 || bytes[at - 1] === NEWLINE) && has(at))) {
      at = bytes.indexOf(start[0], at + 1);
    }
    return at;
  }

  // What stands before the first lane of a board or a claim file, its seals among it, as a text of
  // one letter for each byte; nothing where there is no lane.
  function headOf(bytes) {
    const lane = lineWith(new TextEncoder().encode("lane "), bytes.subarray(0, HEAD));
    return new TextDecoder("latin1").decode(bytes.subarray(0, Math.max(0, lane)));
  }

  // The module: as it was compiled once, or from its bytes.
  async function compiled({ module, code }) {
    if (typeof WebAssembly !== "object") {
      throw new Fault("no WebAssembly");
    }
    return module || load(code);
  }

  // What was taken in this Worker before it was wanted: an instance of the module that had no call,
  // and memory for a copy of a file.
  let taken = null;

  // Takes memory for files that come to `size` bytes, the longest of them to `longest`: the system
  // takes longer to hand memory out than it takes to fill. In the module each file lies twice, and
  // a block has up to a quarter more than what it is for. Where that fails the call will say it.
  function provide({ module, roomSize, size, longest }) {
    const inModule = Math.min(MOST_AHEAD, 2.25 * size + BESIDE);
    const copied = longest > MOST_COPIED ? 0 : longest;
    try {
      const instance = instanceWith(module, roomSize, inModule);
      taken = { instance, copy: touch(new Uint8Array(copied)) };
    } catch {
      taken = null;
    }
  }

  // Memory for a copy of so many bytes, as far as there is none yet.
  function roomForCopy(size) {
    return taken && size <= taken.copy.length ? taken.copy.subarray(0, size) : room(size);
  }

  // What a Worker can be asked to do, by the word `task`.
  const TASKS = {
    async digest({ file, name }) {
      const bytes = roomForCopy(file.size);
      await fill([bytes], file, name);
      return digestOf(bytes);
    },

    // Serves another Worker, which asks for digests at a port.
    async digests({ port }) {
      port.onmessage = async ({ data }) => port.postMessage(await outcome(digestOf(data)));
    },

    // The compiled module, if this browser takes it, and the digest of its bytes.
    async module({ code }) {
      const module = await compiled({ code });
      return { module, digest: await digestOf(code) };
    },

    // Runs a command of the program over files, in an instance of its own. Of the file `main` the
    // digest and the head come too, so that they are of the very bytes that were judged. Where
    // there is a `port`, it leads to a Worker for that digest.
    async command({ module, code, words, files, main, wanted, roomSize, port }) {
      const sizes = files.map(([name, file]) => [name, file.size]);
      const own = taken ? null : await compiled({ module, code });
      const begun = new Call(own, words, sizes, wanted, roomSize, taken && taken.instance);
      const number = files.findIndex(([name]) => name === main);
      const copy = port ? roomForCopy(files[number][1].size) : null;
      const places = (at) => (at === number && copy ? [copy] : []).concat(begun.place(at));
      await Promise.all(files.map(([name, file], at) => fill(places(at), file, name)));
      if (number < 0) {
        return { ...begun.run(), digest: null, head: null };
      }
      const bytes = begun.place(number);
      const digest = copy ? digestBeside(port, copy) : digestOf(bytes);
      const head = headOf(bytes);
      return { ...begun.run(), digest: await digest, head };
    },
  };

  // A module that a browser takes only if it has SIMD: its one function makes a vector.
  const SIMD = Uint8Array.of(
    0, 97, 115, 109, 1, 0, 0, 0, 1, 5, 1, 96, 0, 1, 123, 3, 2, 1, 0,
    10, 10, 1, 8, 0, 65, 0, 253, 15, 253, 98, 11,
  );

  function faultOf(error) {
    if (error instanceof Fault) {
      return { fault: error.kind, about: error.about };
    }
    const about = String((error && error.message) || error);
    if (/^(Compile|Link)Error$/.test(error && error.name)) {
      return { fault: WebAssembly.validate(SIMD) ? "module" : "no SIMD", about };
    }
    const kinds = [RangeError, NoMemory];
    const memory = kinds.some((kind) => error instanceof kind) || /memory/i.test(about);
    return { fault: memory ? "memory" : "stopped", about };
  }

  // What becomes of a promise, as it is told to who asked.
  const outcome = (promise) => promise.then((answer) => ({ answer }), faultOf);

  // The Worker's end: one message comes, and one with an answer or a fault goes back. Before it
  // there may be one that asks for memory, to which nothing is answered.
  function serve(scope) {
    scope.onmessage = async ({ data }) => {
      if (data.task === "provide") {
        provide(data);
      } else {
        scope.postMessage(await outcome(TASKS[data.task](data)));
      }
    };
  }

  // Calls a function when the page has nothing else to do, and not before an answer is shown.
  function whenIdle(then) {
    setTimeout(globalThis.requestIdleCallback ? () => requestIdleCallback(then) : then, 100);
  }

  // The page's end. A piece of work has a message for the Worker, and is told what becomes of it by
  // its methods began(), answered(answer) and failed(fault, about). While nothing is asked for, the
  // `practice` is done, which is work that nobody waits for; then a spare Worker is made for the
  // next piece of work, and takes the memory that is `expected` to be wanted. What is added while
  // the practice runs stops it and calls its halted(), and it begins anew later.
  class Queue {
    constructor(address) {
      this.address = address;
      this.waiting = [];
      this.running = null;
      this.workers = [];
      this.spare = null;
      this.expected = null;
      this.hasMemory = false;
      this.practice = null;
    }

    add(work) {
      this.waiting.push(work);
      const { practice } = this;
      if (practice && this.running === practice) {
        this.end(practice, () => practice.halted());
      }
      this.next();
    }

    next() {
      if (!this.running && this.waiting.length) {
        const worker = this.spare;
        this.spare = null;
        this.start(this.waiting.shift(), worker);
      }
    }

    // Starts a piece of work in this Worker, or in a new one.
    start(work, worker) {
      this.running = work;
      work.began();
      try {
        const first = this.employ(work, worker || new Worker(this.address));
        first.onmessage = ({ data }) => this.hear(work, data);
        const port = this.beside(work);
        first.postMessage({ ...work.message, port }, port ? [port] : []);
      } catch (error) {
        this.end(work, () => work.failed("no Worker", String(error)));
      }
    }

    // A Worker that ends with a piece of work.
    employ(work, worker) {
      this.workers.push(worker);
      worker.onerror = ({ message }) => {
        this.end(work, () => work.failed("no Worker", message || ""));
      };
      return worker;
    }

    // A port to a second Worker, for the digest of a long file; null where there is none.
    beside(work) {
      const { files = [], main } = work.message;
      if (!files.some(([name, file]) => name === main && file.size > LONG)) {
        return null;
      }
      try {
        const { port1, port2 } = new MessageChannel();
        const second = this.employ(work, new Worker(this.address));
        second.postMessage({ task: "digests", port: port2 }, [port2]);
        return port1;
      } catch {
        return null;
      }
    }

    // What is done while there is nothing else.
    rest() {
      if (this.running) {
        return;
      }
      if (this.practice) {
        this.start(this.practice, null);
      } else {
        this.prepare();
        this.provide();
      }
    }

    // Expects files that come to so many bytes, the longest to `longest`, in the next piece of
    // work, with the module and a room of that size; or none that are long.
    expect({ module, roomSize, size, longest }) {
      const isLong = module !== null && size > LONG;
      const expected = isLong ? { task: "provide", module, roomSize, size, longest } : null;
      if (expected?.size === this.expected?.size) {
        return;
      }
      this.expected = expected;
      if (this.spare && this.hasMemory) {
        this.spare.terminate();
        this.spare = null;
      }
      whenIdle(() => this.rest());
    }

    // Has the spare Worker take the memory that is expected to be wanted.
    provide() {
      if (this.spare && this.expected && !this.hasMemory) {
        this.hasMemory = true;
        this.spare.postMessage(this.expected);
      }
    }

    // Makes the spare Worker. Where that fails nothing is said: the next piece of work makes one
    // for itself, and says it.
    prepare() {
      if (this.spare) {
        return;
      }
      try {
        const spare = new Worker(this.address);
        spare.onerror = () => {
          if (this.spare === spare) {
            this.spare = null;
          }
        };
        this.spare = spare;
        this.hasMemory = false;
      } catch {
        this.spare = null;
      }
    }

    hear(work, data) {
      const tell = () => {
        if ("answer" in data) {
          work.answered(data.answer);
        } else {
          work.failed(data.fault, data.about);
        }
      };
      this.end(work, tell, this.waiting.length === 0);
    }

    // Ends a piece of work. Its Workers end at once, or else `soon`: once it is shown what came of
    // it, since it takes a while to give their memory back.
    end(work, then, soon = false) {
      if (this.running !== work) {
        return;
      }
      const workers = this.workers.splice(0);
      const leave = () => workers.forEach((worker) => worker.terminate());
      if (soon) {
        setTimeout(leave, 20);
      } else {
        leave();
      }
      this.running = null;
      then();
      this.next();
      whenIdle(() => this.rest());
    }

    // Whether it was there to be stopped.
    stop(work) {
      const place = this.waiting.indexOf(work);
      if (place >= 0) {
        this.waiting.splice(place, 1);
        return true;
      }
      const runs = this.running === work;
      this.end(work, () => {});
      return runs;
    }
  }

  return { serve, Queue, digits, digestOf };
})();
