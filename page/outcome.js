// page/outcome.js: what a board or a claim file says before its first lane, whatever stands there,
// and its outcome in a sentence. The rules are those of checker/heads.py and checker/sentences.py.
const Outcome = (() => {
  const { listed } = Announcement;

  // The number that a piece of text says, or null.
  const whole = (said) => (/^(0|[1-9][0-9]{0,12})$/.test(said) ? BigInt(said) : null);

  // The head of what is published.
  class Head {
    constructor(text) {
      const plain = (line) => line.replace(/[^a-z0-9 -]/g, "?");
      this.lines = text.replace(/\n$/, "").split("\n").map(plain);
      this.auction = this.said(2, "auction");
      this.lanes = this.said(4, "lanes");
      const seals = this.lines.filter((line) => line.startsWith("seal "));
      this.seats = seals.map((line) => line.split(" ")[1]);
    }

    // What stands behind the word in a line of this number.
    said(number, word) {
      const line = this.lines[number - 1] || "";
      return line.startsWith(`${word} `) ? line.slice(word.length + 1) : "";
    }

    // The seal at a seat as the text of its file; null where there is none.
    sealText(seat) {
      const start = this.lines.indexOf(`seal ${seat}`) + 1;
      if (start === 0) {
        return null;
      }
      const rest = this.lines.slice(start);
      const length = rest.findIndex((line) => !line.startsWith("x "));
      const digests = length < 0 ? rest : rest.slice(0, length);
      const first = [`auction ${this.auction}`, `seat ${seat}`, `lanes ${this.lanes}`];
      return ["vickrey-seal 1", ...first, ...digests, "end", ""].join("\n");
    }
  }

  // The head of a board. The reserve is empty where it names none.
  class BoardHead extends Head {
    constructor(text) {
      super(text);
      this.what = "board";
      this.kind = "vickrey";
      this.isReserved = this.lines[0] === "vickrey-board 2";
      this.width = this.said(3, "width");
      this.reserve = this.isReserved ? this.said(6, "reserve") : "";
      const line = this.isReserved ? 7 : 6;
      this.winner = this.said(line, "winner");
      this.isUnsold = this.isReserved && this.lines[line - 1] === "unsold";
      this.price = whole(this.said(line + 1, "price"));
    }

    outcome() {
      const winner = whole(this.winner);
      if (this.price === null || (winner === null && !this.isUnsold)) {
        return null;
      }
      const winners = winner === null ? [] : [String(winner)];
      const reserve = whole(this.reserve);
      return { kind: "vickrey", winners, price: this.price, reserve, women: [] };
    }
  }

  // The head of a claim file.
  class ClaimHead extends Head {
    constructor(text) {
      super(text);
      this.what = "claim file";
      this.kind = this.said(3, "kind");
      const count = Math.min(Number(whole(this.said(6, "numbers")) || 0), 128);
      const numbers = Array.from({ length: count }, (_, place) => this.said(7 + place, "n"));
      this.numbers = numbers.map(whole);
      this.width = count ? numbers[0] : "";
    }

    // The seats of the winners, of a sale of equal units.
    winners() {
      const seats = this.numbers.slice(2).map((place) => this.seats[Number(place) - 1]);
      return seats.filter(Boolean);
    }

    outcome() {
      if (this.numbers.includes(null) || this.numbers.length < 2) {
        return null;
      }
      if (this.kind === "matching") {
        const women = this.numbers.slice(1);
        return { kind: "matching", winners: [], price: null, reserve: null, women };
      }
      const winners = this.winners();
      const price = this.numbers[1];
      return winners.length ? { kind: "uniform", winners, price, reserve: null, women: [] } : null;
    }
  }

  const headOf = (text) =>
    text.startsWith("vickrey-claim ") ? new ClaimHead(text) : new BoardHead(text);

  // The outcome, without a full stop.
  function sentence(outcome, unit) {
    const { kind, winners, price, reserve, women } = outcome;
    if (kind === "matching") {
      const couples = women.map((woman, man) => `man ${man + 1} with woman ${woman}`);
      return `Matched are ${listed(couples)}`;
    }
    if (kind === "uniform" && winners.length > 1) {
      return `Seats ${listed(winners)} win one unit each and pay ${unit.amount(price)}`;
    }
    if (kind === "uniform") {
      return `Seat ${winners[0]} wins one unit and pays ${unit.amount(price)}`;
    }
    return winners.length
      ? `Seat ${winners[0]} wins and pays ${unit.amount(price)}`
      : `Nothing is sold: every bid is below the reserve of ${unit.amount(reserve)}`;
  }

  return { headOf, sentence, whole };
})();
