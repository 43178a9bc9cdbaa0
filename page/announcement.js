// page/announcement.js: the announcement, the file that everybody starts from: how it is read, by
// the rules of docs/FORMATS.md, and said in sentences.
const Announcement = (() => {
  const DEADLINES = ["seals", "secrets", "board", "draw", "reply"];
  const MOST_SEATS = { vickrey: 64, uniform: 512, matching: 512 };
  const LONGEST_LINE = 256;
  const LONGEST_TEXT = 200;

  // What each line has to be, for whoever made a mistake in it
  const WANTED = [
    "vickrey-announcement 1",
    "auction, and 32 digits 0 to 9 and a to f",
    "kind vickrey; or kind uniform, and 1 to 64 units; or kind matching, and 1 to 16 couples",
    "width, and 1 to 40 (at most 16 for a matching)",
    "lanes, and 1 to 64",
    "reserve, and a whole number below 2^width, or none (always none but with kind vickrey)",
    "unit, and 1 to 200 bytes of text",
    "decimals, and 0 to 9",
    "auditors, and 0 to 16",
    ...DEADLINES.map(
      (name) =>
        `${name}, and a time as 2026-12-01T12:00:00Z that is no earlier than those above, or none`,
    ),
    "key, and 1 to 200 bytes of text, or none",
    "place, and 1 to 200 bytes of text",
    "seats, and how many: 1 to 64; 2N^2 for N couples, and N at least for N units",
  ];
  const SEAT_WANTED =
    "seat, its number, above the one before it, and a name of 1 to 200 bytes of text; or `end` " +
    "behind the last seat";

  // A line isn't what its place demands.
  class Fault extends Error {
    constructor(line) {
      super(`Line ${line} of the announcement has to be: ${WANTED[line - 1] || SEAT_WANTED}.`);
      this.line = line;
    }
  }

  // ---- What may stand behind a word: each reader answers null of what is none

  // A canonical decimal between the two.
  const number = (least, most) => (said) =>
    /^(0|[1-9][0-9]{0,19})$/.test(said) && BigInt(said) >= least && BigInt(said) <= most
      ? BigInt(said)
      : null;

  // A text, from one letter for each of its bytes.
  function text(said) {
    const bytes = Uint8Array.from(said, (letter) => letter.charCodeAt(0));
    let found = null;
    try {
      found = new TextDecoder("utf-8", { fatal: true, ignoreBOM: true }).decode(bytes);
    } catch {
      return null;
    }
    const isOdd = /[\0-\x1f\x7f-\x9f]/.test(found) || found.startsWith(" ") || found.endsWith(" ");
    return bytes.length < 1 || bytes.length > LONGEST_TEXT || isOdd ? null : found;
  }

  function kind(said) {
    const found = /^(?:vickrey|(uniform|matching) ([1-9][0-9]?))$/.exec(said);
    if (!found || Number(found[2]) > (found[1] === "matching" ? 16 : 64)) {
      return null;
    }
    return found[1] ? { kind: found[1], count: Number(found[2]) } : { kind: said, count: null };
  }

  // A time of the calendar, in UTC, as its text.
  function time(said) {
    const form = /^([0-9]{4})-([0-9]{2})-([0-9]{2})T([0-9]{2}):([0-9]{2}):([0-9]{2})Z$/;
    const [year, month, day, hour, minute, second] = (form.exec(said) || []).slice(1).map(Number);
    const isLeap = year % 4 === 0 && (year % 100 !== 0 || year % 400 === 0);
    const days = [31, isLeap ? 29 : 28, 31, 30, 31, 30, 31, 31, 30, 31, 30, 31];
    const isDay = day >= 1 && day <= days[month - 1];
    return isDay && hour < 24 && minute < 60 && second < 60 ? said : null;
  }

  // The lines of a file one after another, with one letter for each byte.
  class Lines {
    constructor(bytes) {
      // The decoder named latin1 has other letters for the bytes from 0x80 to 0x9f.
      this.said = Array.from(bytes, (byte) => String.fromCharCode(byte)).join("");
      this.at = 0;
      this.number = 0;
    }

    fault() {
      return new Fault(this.number);
    }

    line() {
      this.number++;
      const end = this.said.indexOf("\n", this.at);
      if (end < 0 || end - this.at >= LONGEST_LINE) {
        throw this.fault();
      }
      const found = this.said.slice(this.at, end);
      this.at = end + 1;
      return found;
    }

    // What stands behind a word in the next line, by its reader.
    next(word, read) {
      const line = this.line();
      const found = line.startsWith(`${word} `) ? read(line.slice(word.length + 1)) : null;
      if (found === null) {
        throw this.fault();
      }
      return found;
    }

    // The same, or null where that is the word `none`.
    nextOrNone(word, read) {
      const NONE = {};
      const found = this.next(word, (said) => (said === "none" ? NONE : read(said)));
      return found === NONE ? null : found;
    }

    exactly(text) {
      if (this.line() !== text) {
        throw this.fault();
      }
    }

    end() {
      this.exactly("end");
      this.number++;
      if (this.at < this.said.length) {
        throw this.fault();
      }
    }
  }

  function readDeadlines(lines) {
    const found = {};
    let last = "";
    for (const name of DEADLINES) {
      const read = (said) => (time(said) !== null && said >= last ? said : null);
      found[name] = lines.nextOrNone(name, read);
      last = found[name] || last;
    }
    return found;
  }

  // The seats with their names, as a Map in their order.
  function readSeats(lines, count) {
    const seats = new Map();
    let last = 0n;
    for (let place = 0n; place < count; place++) {
      lines.next("seat", (said) => {
        const cut = said.indexOf(" ");
        const seat = cut < 0 ? null : number(last + 1n, 65535n)(said.slice(0, cut));
        const name = seat === null ? null : text(said.slice(cut + 1));
        if (name !== null) {
          seats.set(String(seat), name);
          last = seat;
        }
        return name;
      });
    }
    return seats;
  }

  function seatCount({ kind, count }) {
    if (kind === "matching") {
      const exactly = BigInt(2 * count * count);
      return number(exactly, exactly);
    }
    return number(BigInt(count || 1), BigInt(MOST_SEATS[kind]));
  }

  // What the bytes of a file announce. A Fault tells the first line that is wrong.
  function read(bytes) {
    const lines = new Lines(bytes);
    lines.exactly("vickrey-announcement 1");
    const auction = lines.next("auction", (said) => (/^[0-9a-f]{32}$/.test(said) ? said : null));
    const sort = lines.next("kind", kind);
    const width = lines.next("width", number(1n, sort.kind === "matching" ? 16n : 40n));
    const count = lines.next("lanes", number(1n, 64n));
    const below = sort.kind === "vickrey" ? number(0n, 2n ** width - 1n) : () => null;
    const reserve = lines.nextOrNone("reserve", below);
    const name = lines.next("unit", text);
    const unit = new Amounts.Unit(name, Number(lines.next("decimals", number(0n, 9n))));
    const auditors = Number(lines.next("auditors", number(0n, 16n)));
    const deadlines = readDeadlines(lines);
    const key = lines.nextOrNone("key", text);
    const place = lines.next("place", text);
    const seats = readSeats(lines, lines.next("seats", seatCount(sort)));
    lines.end();
    const most = 2n ** width - 1n;
    const numbers = { width: String(width), lanes: String(count), reserve, most, auditors };
    return { auction, ...sort, ...numbers, unit, deadlines, key, place, seats };
  }

  // ---- Sentences, those of checker/sentences.py

  // 1, 3 and 9
  function listed(all) {
    const front = all.slice(0, -1);
    const last = String(all[all.length - 1]);
    return front.length ? `${front.join(", ")} and ${last}` : last;
  }

  // 2026-12-01T12:00:00Z as 2026-12-01 12:00 UTC
  const timeSaid = (time) => `${time.slice(0, -1).replace("T", " ").replace(/:00$/, "")} UTC`;

  const many = (count, what) => `${count} ${what}${Number(count) === 1 ? "" : "s"}`;

  const STABLE = "so that no two would rather leave their partners for each other";

  function rule({ kind, count, reserve }) {
    const units = `${count === 1 ? "1 unit" : `${count} equal units`} are sold.`;
    const men = count === 1 ? "1 man and 1 woman" : `${count} men and ${count} women`;
    const said = {
      vickrey: "The highest bid wins, and pays the highest of the other bids",
      uniform: `${units} The highest bids win one each, and pay the highest of the other bids`,
      matching: `${men} are matched ${STABLE}`,
    }[kind];
    return reserve === null ? `${said}.` : `${said}, or the reserve where that is more.`;
  }

  function bids({ kind, unit, most, reserve }) {
    if (kind === "matching") {
      return `Ranks are whole numbers from 0 to ${most.toLocaleString("en")}; less is better.`;
    }
    const form = unit.decimals ? ` with ${many(unit.decimals, "decimal")}` : ", in whole numbers";
    const said = `Bids are in ${unit.name}${form}, from ${unit.plain(0n)} to ${unit.plain(most)}.`;
    if (kind === "uniform") {
      return said;
    }
    return reserve === null
      ? `${said} There is no reserve: a lone bidder pays ${unit.plain(0n)}.`
      : `${said} Nothing is sold below ${unit.plain(reserve)}.`;
  }

  function draw({ auditors, lanes }) {
    const who = ["A challenger draws the challenge alone", "One auditor draws the challenge"];
    const said = who[auditors] || `${auditors} auditors draw the challenge together`;
    return `${said}: one bit for each of ${many(lanes, "lane")}.`;
  }

  const DUTIES = {
    seals: "every seal is public",
    secrets: "every secret is handed in",
    board: "what the auctioneer proves is public, with its digest",
    draw: "the challenge is drawn",
    reply: "the reply is public",
  };

  const keySaid = ({ key }) =>
    key === null
      ? "No key is announced to which secrets are encrypted."
      : `Secrets are encrypted to the key ${key}.`;

  return { read, Fault, DEADLINES, DUTIES, listed, timeSaid, many, rule, bids, draw, keySaid };
})();
