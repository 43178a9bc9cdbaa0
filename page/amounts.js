// page/amounts.js: the whole numbers of files as people write them in the announced unit, and back.
const Amounts = (() => {
  const SMALL = (
    "zero one two three four five six seven eight nine ten eleven twelve thirteen fourteen " +
    "fifteen sixteen seventeen eighteen nineteen"
  ).split(" ");
  const TENS = "- - twenty thirty forty fifty sixty seventy eighty ninety".split(" ");
  const LARGE = [
    [10n ** 12n, "trillion"],
    [10n ** 9n, "billion"],
    [10n ** 6n, "million"],
    [1000n, "thousand"],
    [100n, "hundred"],
  ];

  // A number below 10^15 in words.
  function inWords(number) {
    const found = LARGE.find(([size]) => number >= size);
    if (found) {
      const [size, name] = found;
      const rest = number % size;
      const link = size === 100n ? " and " : " ";
      return `${inWords(number / size)} ${name}${rest ? link + inWords(rest) : ""}`;
    }
    if (number < 20n) {
      return SMALL[number];
    }
    const [ten, one] = [number / 10n, number % 10n];
    return one ? `${TENS[ten]}-${SMALL[one]}` : TENS[ten];
  }

  // What bids are in: a name, or null, and how many decimals a bid has.
  class Unit {
    constructor(name, decimals) {
      Object.assign(this, { name, decimals, size: 10n ** BigInt(decimals) });
    }

    decimalsOf(number) {
      return String(number % this.size).padStart(this.decimals, "0");
    }

    // A whole number as an amount, without the name: 1048575 is 10,485.75 with two decimals.
    plain(number) {
      const whole = (BigInt(number) / this.size).toLocaleString("en");
      return this.decimals ? `${whole}.${this.decimalsOf(BigInt(number))}` : whole;
    }

    amount(number) {
      return this.name === null ? this.plain(number) : `${this.plain(number)} ${this.name}`;
    }

    // The whole number of an amount that somebody typed, with or without the name; null of none.
    number(typed) {
      const bare = typed.trim();
      const named = this.name !== null && bare.endsWith(this.name);
      const text = named ? bare.slice(0, -this.name.length).trim() : bare;
      const found = /^([0-9]+)(?:\.([0-9]+))?$/.exec(text);
      if (!found || (found[2] || "").length > this.decimals) {
        return null;
      }
      return BigInt(found[1] + (found[2] || "").padEnd(this.decimals, "0"));
    }

    // How an amount is written.
    form() {
      const count = this.decimals === 1 ? "1 decimal" : `${this.decimals} decimals`;
      const form = this.decimals ? `digits, and a point before at most ${count}` : "digits alone";
      return `${form}, as ${this.plain((1550n * this.size) / 100n)}`;
    }

    // A whole number as an amount in words: fifteen point five zero EUR.
    words(number) {
      const whole = inWords(BigInt(number) / this.size);
      const digits = this.decimals ? [...this.decimalsOf(BigInt(number))] : [];
      const part = digits.length ? ` point ${digits.map((digit) => SMALL[digit]).join(" ")}` : "";
      return whole + part + (this.name === null ? "" : ` ${this.name}`);
    }
  }

  // Where no unit is known
  const PLAIN = new Unit(null, 0);

  // The unit that was announced, once that is known
  const setting = { unit: PLAIN };

  return { Unit, PLAIN, setting };
})();
