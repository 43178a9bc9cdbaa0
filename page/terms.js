// page/terms.js: the announcement of an auction, as docs/FORMATS.md has it: read, written, and its
// amounts in the announced unit.
const Terms = (() => {
  const DEADLINES = ["seals", "secrets", "board", "draw", "reply"];
  const LONGEST_LINE = 256;
  const NEWLINE = 0x0a;

  // Why bytes are no announcement: the number of the first line that isn't what it has to be.
  class FaultLine extends Error {
    constructor(line) {
      super(`line ${line}`);
      this.line = line;
    }
  }

  // ---- Fields of lines: each reader answers a value, or undefined where the text is none

  const numberFrom = (least, most) => (text) => {
    const fits = /^(0|[1-9][0-9]{0,14})$/.test(text) && +text >= least && +text <= most;
    return fits ? +text : undefined;
  };

  const idOf = (text) => (/^[0-9a-f]{32}$/.test(text) ? text : undefined);

  function textOf(text) {
    const size = new TextEncoder().encode(text).length;
    const plain = !/[\u0000-\u001f\u007f-\u009f]/.test(text) && text === text.replace(/^ | $/g, "");
    return plain && size >= 1 && size <= 200 ? text : undefined;
  }

  function kindOf(text) {
    const found = /^(vickrey|(uniform|matching) ([1-9][0-9]?))$/.exec(text);
    if (!found || +found[3] > (found[2] === "uniform" ? 64 : 16)) {
      return undefined;
    }
    return found[2] ? { kind: found[2], count: +found[3] } : { kind: "vickrey", count: null };
  }

  function isDay(year, month, day) {
    const leap = year % 4 === 0 && (year % 100 > 0 || year % 400 === 0);
    const days = [31, leap ? 29 : 28, 31, 30, 31, 30, 31, 31, 30, 31, 30, 31];
    return month >= 1 && month <= 12 && day >= 1 && day <= days[month - 1];
  }

  // A time of the calendar in UTC, as its text.
  function timeOf(text) {
    const found = /^(\d{4})-(\d\d)-(\d\d)T(\d\d):(\d\d):(\d\d)Z$/.exec(text);
    if (!found) {
      return undefined;
    }
    const [year, month, day, hour, minute, second] = found.slice(1).map(Number);
    const holds = isDay(year, month, day) && hour < 24 && minute < 60 && second < 60;
    return holds ? text : undefined;
  }

  function timeFrom(last) {
    return (text) => {
      const time = timeOf(text);
      return time !== undefined && time >= last ? time : undefined;
    };
  }

  const orNone = (reader) => (text) => (text === "none" ? null : reader(text));

  // ---- Reading

  class Lines {
    constructor(bytes) {
      Object.assign(this, { bytes, at: 0, number: 0 });
    }

    // The next line without its line feed.
    next() {
      this.number++;
      const end = this.bytes.indexOf(NEWLINE, this.at);
      const line = this.bytes.subarray(this.at, end);
      this.at = end + 1;
      if (end < 0 || line.length >= LONGEST_LINE) {
        throw new FaultLine(this.number);
      }
      try {
        return new TextDecoder("utf-8", { fatal: true, ignoreBOM: true }).decode(line);
      } catch {
        throw new FaultLine(this.number);
      }
    }

    // What a reader makes of the text behind a word and a space.
    field(word, reader) {
      const line = this.next();
      const value = line.startsWith(`${word} `) ? reader(line.slice(word.length + 1)) : undefined;
      if (value === undefined) {
        throw new FaultLine(this.number);
      }
      return value;
    }

    end() {
      if (this.next() !== "end") {
        throw new FaultLine(this.number);
      }
      if (this.at < this.bytes.length) {
        throw new FaultLine(this.number + 1);
      }
    }
  }

  // How many seats there may be.
  function seatCountOf({ kind, count }) {
    if (kind === "matching") {
      return numberFrom(2 * count ** 2, 2 * count ** 2);
    }
    return kind === "uniform" ? numberFrom(count, 512) : numberFrom(1, 64);
  }

  function readDeadlines(lines) {
    const found = {};
    let last = "";
    for (const name of DEADLINES) {
      found[name] = lines.field(name, orNone(timeFrom(last)));
      last = found[name] || last;
    }
    return found;
  }

  // Who sits where: a seat and a name each, ascending.
  function readSeats(lines, count) {
    const seats = [];
    let last = 0;
    for (let place = 0; place < count; place++) {
      const [seat, name] = lines.field("seat", (text) => {
        const space = text.indexOf(" ");
        const number = numberFrom(last + 1, 65535)(text.slice(0, Math.max(0, space)));
        const held = textOf(text.slice(space + 1));
        return space > 0 && number && held !== undefined ? [number, held] : undefined;
      });
      seats.push({ seat, name });
      last = seat;
    }
    return seats;
  }

  function readLines(lines) {
    lines.field("vickrey-announcement", (text) => (text === "1" ? text : undefined));
    const id = lines.field("auction", idOf);
    const kind = lines.field("kind", kindOf);
    const width = lines.field("width", numberFrom(1, kind.kind === "matching" ? 16 : 40));
    const count = lines.field("lanes", numberFrom(1, 64));
    const below = kind.kind === "vickrey" ? numberFrom(0, 2 ** width - 1) : () => undefined;
    const reserve = lines.field("reserve", orNone(below));
    const unit = lines.field("unit", textOf);
    const decimals = lines.field("decimals", numberFrom(0, 9));
    const auditors = lines.field("auditors", numberFrom(0, 16));
    const deadlines = readDeadlines(lines);
    const key = lines.field("key", orNone(textOf));
    const place = lines.field("place", textOf);
    const seats = readSeats(lines, lines.field("seats", seatCountOf(kind)));
    lines.end();
    const numbers = { width, lanes: count, reserve, unit, decimals, auditors };
    return { id, ...kind, ...numbers, deadlines, key, place, seats };
  }

  // What an announcement says, or a FaultLine.
  const read = (bytes) => readLines(new Lines(bytes));

  // ---- Writing

  const orWord = (value) => (value === null ? "none" : value);

  function write(said) {
    const lines = [
      "vickrey-announcement 1",
      `auction ${said.id}`,
      `kind ${said.kind}${said.count === null ? "" : ` ${said.count}`}`,
      `width ${said.width}`,
      `lanes ${said.lanes}`,
      `reserve ${orWord(said.reserve)}`,
      `unit ${said.unit}`,
      `decimals ${said.decimals}`,
      `auditors ${said.auditors}`,
      ...DEADLINES.map((name) => `${name} ${orWord(said.deadlines[name])}`),
      `key ${orWord(said.key)}`,
      `place ${said.place}`,
      `seats ${said.seats.length}`,
      ...said.seats.map(({ seat, name }) => `seat ${seat} ${name}`),
    ];
    return [...lines, "end", ""].join("\n");
  }

  // ---- For people

  // A whole number as an amount: 1048575 is 10,485.75 EUR with two decimals.
  function amount({ unit, decimals }, number) {
    const digits = String(number).padStart(decimals + 1, "0");
    const cut = digits.length - decimals;
    const whole = BigInt(digits.slice(0, cut)).toLocaleString("en");
    return `${decimals ? `${whole}.${digits.slice(cut)}` : whole} ${unit}`;
  }

  // The whole number of an amount that was typed, or null.
  function numberOf({ unit, decimals }, typed) {
    const text = typed.trim().endsWith(unit) ? typed.trim().slice(0, -unit.length) : typed;
    const found = /^([0-9]{1,15})(?:\.([0-9]{1,9}))?$/.exec(text.trim());
    const part = (found && found[2]) || "";
    if (!found || part.length > decimals) {
      return null;
    }
    const number = BigInt(found[1] + part.padEnd(decimals, "0"));
    return number < 2n ** 40n ? Number(number) : null;
  }

  const timeSaid = (time) => `${time.slice(0, 10)} ${time.slice(11, 16)} UTC`;

  return { DEADLINES, FaultLine, read, write, textOf, timeOf, amount, numberOf, timeSaid };
})();

// Under node this is a module, for its trial.
if (typeof exports === "object") {
  Object.assign(exports, { Terms });
}
