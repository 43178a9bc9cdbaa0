// page/sell_terms.js: what a seller types becomes an announcement, where none stands above.
const SellTerms = (() => {
  const { find, typed, mark, goTo } = Fields;

  // What isn't as it has to be, with the field that it stands in, if it is one.
  class Unfit extends Error {
    constructor(message, field = null) {
      super(message);
      this.field = field;
    }
  }

  // What a reader makes of the field of that name.
  function readField(name, reader, form) {
    const field = find(`sell-terms-${name}`);
    const value = reader(typed(field.id));
    mark(field, value === undefined ? `This has to be ${form}.` : "");
    if (value === undefined) {
      throw new Unfit("Something above isn't of its form.", field);
    }
    return value;
  }

  const orNone = (reader) => (text) => (text === "none" ? null : reader(text));

  const numberUpTo = (most) => (text) =>
    /^(0|[1-9][0-9]?)$/.test(text) && Number(text) <= most ? Number(text) : undefined;

  function amountOf(unit, most) {
    return (text) => {
      const number = Terms.numberOf(unit, text);
      return number === null || number > most ? undefined : number;
    };
  }

  // A time as `2026-12-01 12:00`, or as the announcement has it, no earlier than the last one.
  function timeFrom(last) {
    return (text) => {
      const found = /^(\d{4}-\d\d-\d\d)[T ](\d\d:\d\d)(:\d\d)?Z?$/.exec(text);
      const time = found ? Terms.timeOf(`${found[1]}T${found[2]}${found[3] || ":00"}Z`) : undefined;
      return time !== undefined && time >= last ? time : undefined;
    };
  }

  function readTimes() {
    const found = {};
    let last = "";
    for (const name of Terms.DEADLINES) {
      const form = "a time as 2026-12-01 12:00, no earlier than those above, or none";
      found[name] = readField(name, orNone(timeFrom(last)), form);
      last = found[name] || last;
    }
    return found;
  }

  // Who sits where, a line each, with the seat's number in front or without; ascending.
  function seatsOf(text) {
    const seats = [];
    for (const line of text.split("\n").map((each) => each.trim()).filter(Boolean)) {
      const [, number, name] = /^(?:([1-9][0-9]{0,4})\s+)?(.+)$/.exec(line);
      const last = seats.length ? seats[seats.length - 1].seat : 0;
      const seat = number ? Number(number) : last + 1;
      if (seat <= last || seat > 65535 || Terms.textOf(name) === undefined) {
        return undefined;
      }
      seats.push({ seat, name });
    }
    return seats.length >= 1 && seats.length <= 64 ? seats : undefined;
  }

  const widthOf = (highest) => Math.max(1, highest.toString(2).length);

  const isEncrypted = () => find("sell-terms-encrypted").checked;

  // The announcement of what is typed, with an id that is drawn here, and this key where one was
  // made.
  function typedTerms(key) {
    const name = readField("unit", Terms.textOf, "a text, as EUR");
    const decimals = readField("decimals", numberUpTo(9), "0 to 9");
    const unit = { unit: name, decimals };
    const amount = `an amount, as ${decimals ? "15.50" : "1550"}`;
    const width = widthOf(readField("highest", amountOf(unit, 2 ** 40 - 1), amount));
    const below = amountOf(unit, 2 ** width - 1);
    return {
      id: Asked.drawn(16),
      kind: "vickrey",
      count: null,
      width,
      reserve: readField("reserve", orNone(below), `${amount}, no higher than bids, or none`),
      lanes: readField("lanes", (text) => numberUpTo(64)(text) || undefined, "1 to 64"),
      ...unit,
      auditors: readField("auditors", numberUpTo(16), "0 to 16"),
      deadlines: readTimes(),
      key: key ? key.text : readField("key", orNone(Terms.textOf), "a text, or none"),
      place: readField("place", Terms.textOf, "a text: where everybody can look"),
      seats: readField(
        "seats",
        seatsOf,
        "1 to 64 lines, each a seat's number and a name, ascending",
      ),
    };
  }

  // The announcement that stands above all tools.
  function above() {
    if (Announced.now().kind !== "vickrey") {
      throw new Unfit("No house takes an auction of this kind: only those of the kind vickrey.");
    }
    return { announcement: Announced.bytes(), key: null };
  }

  // The bytes of the announcement, and the private key to it if one is made; an Unfit where there
  // is none.
  async function read() {
    if (Announced.now()) {
      return above();
    }
    try {
      const key = isEncrypted() ? await Locked.makeKey() : null;
      const announcement = Asked.bytesOf(Terms.write(typedTerms(key)));
      return { announcement, key: key && key.pem };
    } catch (error) {
      if (error instanceof Unfit && error.field) {
        goTo(error.field);
      }
      throw error;
    }
  }

  // What is asked where an announcement stands above, and where none does.
  function show(now) {
    find("sell-terms-above").hidden = now === null;
    find("sell-terms-typed").hidden = now !== null;
  }

  const showKey = () => {
    find("sell-terms-key-box").hidden = isEncrypted();
  };

  function begin() {
    const box = find("sell-terms-encrypted");
    box.disabled = !Locked.isPossible();
    box.defaultChecked = !box.disabled;
    box.addEventListener("change", showKey);
    find("sell-terms").addEventListener("reset", () => setTimeout(showKey));
    showKey();
    Announced.onChange(show);
  }

  return { Unfit, begin, read };
})();
