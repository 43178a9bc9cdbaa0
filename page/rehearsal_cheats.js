// page/rehearsal_cheats.js: auctioneers who cheat, each in one way, and what finds them.
//
// Who knows the bits of a challenge can make a wrong board that passes them: of each number only
// the half that the bit names is opened, and the other one may be anything. So the seals and
// secrets of false bids are made with the bidders' own opened halves, the program proves the
// outcome of these, and on its board the bidders' own seals take their place.
const RehearsalCheats = (() => {
  const { bytesOf, textOf, drawn } = Asked;
  const { LANES, SEATS, begin, sealAll, houseOf, play, challenged, draw, publish, reply } =
    RehearsalAuction;
  const MODULUS = 2n ** 61n - 1n;

  // Bytes of a number, the highest first.
  function bytesOfNumber(number, length) {
    const digits = number.toString(16).padStart(2 * length, "0");
    return Uint8Array.from(digits.match(/../g), (pair) => parseInt(pair, 16));
  }

  const fromDigits = (digits) => bytesOfNumber(BigInt(`0x${digits}`), digits.length / 2);

  // A commitment, as docs/FORMATS.md has it.
  function commitment({ id, seat, lane, slot, key, value }) {
    const parts = [
      bytesOf("VKC1"), fromDigits(id), bytesOfNumber(BigInt(seat), 2),
      bytesOfNumber(BigInt(lane), 2), bytesOfNumber(BigInt(slot), 4), fromDigits(key),
      bytesOfNumber(value, 8),
    ];
    return Work.digestOf(Uint8Array.from(parts.flatMap((part) => [...part])));
  }

  const modulo = (number) => ((number % MODULUS) + MODULUS) % MODULUS;

  // One lane of a false bid: the line of its secret, and that of its seal. The half that the bit
  // names is the bidder's own.
  async function falseLane(at, bit, [secretLine, sealLine], rise) {
    const [, mask, key0, key1] = secretLine.split(" ");
    const [, digest0, digest1] = sealLine.split(" ");
    const own = BigInt(mask);
    if (bit === "0") {
      const value = modulo(BigInt(at.bid) + rise - own);
      const made = await commitment({ ...at, slot: 1, key: key1, value });
      return [secretLine, `x ${digest0} ${made}`];
    }
    const value = modulo(own + rise);
    const made = await commitment({ ...at, slot: 0, key: key0, value });
    return [`x ${value} ${key0} ${key1}`, `x ${made} ${digest1}`];
  }

  // The seal and the secret of another bid than the one that was sealed, for these bits.
  async function falseFiles(auction, seat, bid, bits) {
    const secret = textOf(auction.kept[`secret-${seat}`]).split("\n");
    const seal = textOf(auction.open[`seal-${seat}`]).split("\n");
    const sealed = secret[3].split(" ")[1];
    const rise = BigInt(bid) - BigInt(sealed);
    for (let lane = 1; lane <= LANES; lane++) {
      const at = { id: auction.said.id, seat, lane, bid: sealed };
      const lines = [secret[4 + lane], seal[3 + lane]];
      const made = await falseLane(at, bits[lane - 1], lines, rise);
      [secret[4 + lane], seal[3 + lane]] = made;
    }
    secret[3] = `bid ${bid}`;
    return {
      [`secret-${seat}`]: bytesOf(secret.join("\n")),
      [`seal-${seat}`]: bytesOf(seal.join("\n")),
    };
  }

  // The board with the bidders' own seals.
  function withOwnSeals(auction, board) {
    const lines = textOf(board).split("\n");
    for (const { seat } of SEATS) {
      const own = textOf(auction.open[`seal-${seat}`]).split("\n").slice(4, 4 + LANES);
      lines.splice(lines.indexOf(`seal ${seat}`) + 1, LANES, ...own);
    }
    return bytesOf(lines.join("\n"));
  }

  // A board with the outcome of false bids, and the reply to the challenge that it was made for.
  async function forged(auction, place, bids, bits) {
    const files = {};
    for (const { seat } of SEATS) {
      Object.assign(files, await falseFiles(auction, seat, bids[seat], bits));
    }
    const house = challenged({ ...houseOf(auction, files), seed: drawn(32) }, bits);
    const answer = await play(place, "Making the board", house);
    return { board: withOwnSeals(auction, answer.files.board), reply: answer.files.reply };
  }

  const drawnBits = () =>
    Array.from(crypto.getRandomValues(new Uint8Array(LANES)), (byte) => byte & 1).join("");

  const honest = (auction, seats) => ({
    ...houseOf(auction, { ...auction.open, ...auction.kept }, seats),
    seed: drawn(32),
  });

  async function played(auction, place, house) {
    const answer = await play(place, "Making the board", house);
    return answer.files;
  }

  // ---- The ways to cheat

  // The friend at seat 1 wins for little
  const FRIEND = { 1: 500, 2: 300, 3: 100 };

  // The winner pays more than the second highest bid
  const DEARER = { 1: 1200, 2: 1750, 3: 1800 };

  // The board is published as it is for the draw; when the bits are known, another one is.
  async function exchanged(auction, place) {
    const house = honest(auction);
    await publish(auction, (await played(auction, place, house)).board);
    const bits = await draw(auction, place);
    const made = await forged(auction, place, DEARER, bits);
    auction.open.board = made.board;
    reply(auction, bits, made.reply);
  }

  // The auditors tell the auctioneer their shares before it makes the board.
  async function foreseen(auction, place) {
    const bits = await draw(auction, place);
    const made = await forged(auction, place, FRIEND, bits);
    await publish(auction, made.board);
    reply(auction, bits, made.reply);
  }

  // The highest bid is left out.
  async function leftOut(auction, place) {
    const house = honest(auction, [1, 2]);
    await publish(auction, (await played(auction, place, house)).board);
    const bits = await draw(auction, place);
    reply(auction, bits, (await played(auction, place, challenged(house, bits))).reply);
  }

  // The price on an honest board is written over.
  async function otherPrice(auction, place) {
    const house = honest(auction);
    const { board } = await played(auction, place, house);
    await publish(auction, bytesOf(textOf(board).replace(/^price [0-9]+$/m, "price 1700")));
    const bits = await draw(auction, place);
    reply(auction, bits, (await played(auction, place, challenged(house, bits))).reply);
  }

  // The auctioneer answers bits of its own, for which it has made the board.
  async function ownBits(auction, place) {
    const bits = drawnBits();
    const made = await forged(auction, place, DEARER, bits);
    await publish(auction, made.board);
    await draw(auction, place);
    reply(auction, bits, made.reply);
  }

  // Two challenges are answered, from two copies of one house.
  async function twice(auction, place) {
    const house = honest(auction);
    await publish(auction, (await played(auction, place, house)).board);
    const bits = await draw(auction, place);
    reply(auction, bits, (await played(auction, place, challenged(house, bits))).reply);
    const other = [...bits].map((bit) => (bit === "0" ? "1" : "0")).join("");
    auction.open["challenge-2"] = bytesOf(House.challengeText(other));
    auction.open["reply-2"] = (await played(auction, place, challenged(house, other))).reply;
  }

  // By name: what was done, the check that finds it, why no other does, and how.
  const CHEATS = {
    exchanged: {
      what: "It exchanged the board when the bits were known",
      by: "digest",
      why:
        "The second board was made for these bits, so its reply is accepted. Only the digest " +
        "that you wrote down before the draw tells the two boards apart.",
      make: exchanged,
    },
    foreseen: {
      what: "It knew the challenge before it made the board",
      by: "bid",
      why:
        "All auditors worked with it. The digest, the coin and the reply are in order: no check " +
        "of files sees when a bit was known. But you bid more than the price, and didn't win: " +
        "that can't be, and your secret proves it. One honest auditor would have prevented it.",
      make: foreseen,
    },
    leftOut: {
      what: "It left a seal out",
      by: "seals",
      why:
        "The outcome is right for the seals that are on the board. The seal of seat 3 was " +
        "public, and isn't there: Cleo bid more than anybody.",
      make: leftOut,
    },
    otherPrice: {
      what: "It wrote another price on the board",
      by: "accepted",
      why:
        "The board was proved for another price. In some lane the numbers that the reply opens " +
        "don't come to what the board says.",
      make: otherPrice,
    },
    ownBits: {
      what: "It answered a challenge of its own",
      by: "coin",
      why:
        "Its board passes the bits that it chose, and no others. The auditors' shares, with the " +
        "parts that were public before, come to other bits.",
      make: ownBits,
    },
    twice: {
      what: "It answered two challenges",
      by: "once",
      why:
        "Each reply by itself is in order, and the outcome is right. But both together open " +
        "every bid. The program refuses a second answer; it came from a copy of its house.",
      make: twice,
    },
  };

  // A new auction in which the auctioneer cheats so.
  async function make(name, place) {
    const auction = begin();
    await sealAll(auction, place);
    await CHEATS[name].make(auction, place);
    return auction;
  }

  return { CHEATS, make };
})();
