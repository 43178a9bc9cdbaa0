// page/archive.js: files in one file, as `tar` packs and unpacks them (POSIX ustar), for their
// owner alone.
const Archive = (() => {
  const BLOCK = 512;
  const LONGEST_NAME = 100;

  // Why bytes are no archive of this page's.
  class Damaged extends Error {}

  const rounded = (size) => Math.ceil(size / BLOCK) * BLOCK;
  const octal = (number, length) => `${number.toString(8).padStart(length - 1, "0")}\0`;

  // Where the fields of a header stand, and how long they are
  const NAME = [0, 100];
  const SIZE = [124, 12];
  const TIME = [136, 12];
  const SUM = [148, 8];

  const textAt = (block, [at, length]) => {
    const text = new TextDecoder("latin1").decode(block.subarray(at, at + length));
    return text.slice(0, Math.max(0, text.indexOf("\0")));
  };

  function headerOf(name, size, time) {
    const block = new Uint8Array(BLOCK);
    const put = (text, at) => block.set(new TextEncoder().encode(text), at);
    put(name, NAME[0]);
    put(octal(0o600, 8), 100);
    put(octal(0, 8), 108);
    put(octal(0, 8), 116);
    put(octal(size, 12), SIZE[0]);
    put(octal(time, 12), TIME[0]);
    put(" ".repeat(8), SUM[0]);
    put("0", 156);
    put("ustar\x0000", 257);
    const sum = block.reduce((all, byte) => all + byte, 0);
    put(`${octal(sum, 7)} `, SUM[0]);
    return block;
  }

  // Packs files, given as names and bytes; `time` is in seconds since 1970.
  function pack(entries, time) {
    const parts = entries.flatMap(([name, bytes]) => {
      if (!/^[!-~]+$/.test(name) || name.length >= LONGEST_NAME) {
        throw new TypeError(`no name for an archive: ${name}`);
      }
      return [headerOf(name, bytes.length, time), bytes, rounded(bytes.length) - bytes.length];
    });
    parts.push(2 * BLOCK);
    const lengths = parts.map((part) => (typeof part === "number" ? part : part.length));
    const whole = new Uint8Array(lengths.reduce((all, length) => all + length, 0));
    let at = 0;
    parts.forEach((part, place) => {
      if (typeof part !== "number") {
        whole.set(part, at);
      }
      at += lengths[place];
    });
    return whole;
  }

  const numberAt = (block, field) => parseInt(textAt(block, field), 8) || 0;

  // The files of an archive, in their order. What isn't byte for byte as `pack` writes it is
  // Damaged.
  function unpack(bytes) {
    const entries = [];
    let at = 0;
    let time = 0;
    while (at + BLOCK <= bytes.length && bytes[at] !== 0) {
      const block = bytes.subarray(at, at + BLOCK);
      const size = numberAt(block, SIZE);
      time = entries.length ? time : numberAt(block, TIME);
      at += BLOCK;
      if (at + size > bytes.length) {
        throw new Damaged("it is cut off");
      }
      entries.push([textAt(block, NAME), bytes.slice(at, at + size)]);
      at += rounded(size);
    }
    if (!same(bytes, packedAgain(entries, time))) {
      throw new Damaged("it isn't as this page has written it");
    }
    return new Map(entries);
  }

  function packedAgain(entries, time) {
    try {
      return pack(entries, time);
    } catch {
      throw new Damaged("it has a name that this page writes nowhere");
    }
  }

  function same(one, other) {
    return one.length === other.length && one.every((byte, place) => byte === other[place]);
  }

  return { Damaged, pack, unpack, same };
})();
