// page/rehearsal_auction.js: an auction to try, made by the program's own commands.
//
// Three bidders; the reader is the one at seat 2. Everything of it is a real file.
const RehearsalAuction = (() => {
  const { bytesOf, textOf, drawn, command } = Asked;
  const LANES = 20;
  const WIDTH = 14;
  const OWN = 2;
  const AUDITORS = [1, 2, 3];

  const SEATS = [
    { seat: 1, name: "Ann" },
    { seat: OWN, name: "you" },
    { seat: 3, name: "Cleo" },
  ];

  // Where nobody types another one
  const BIDS = { 1: 1200, 2: 1550, 3: 1800 };

  const deadlines = Object.fromEntries(Terms.DEADLINES.map((name) => [name, null]));

  // What the auctioneer announces, with an id that is drawn here.
  function announced() {
    return {
      id: drawn(16), kind: "vickrey", count: null, width: WIDTH, lanes: LANES, reserve: null,
      unit: "EUR", decimals: 2, auditors: AUDITORS.length, deadlines, key: null,
      place: "this page", seats: SEATS,
    };
  }

  // A new auction: `open` has what is public, and `kept` what only one person has.
  function begin() {
    const said = announced();
    return { said, open: { announcement: bytesOf(Terms.write(said)) }, kept: {}, parts: [] };
  }

  const must = (answer) => {
    if (answer.status !== 0) {
      throw new Error(`${answer.words[0]} ended with status ${answer.status}: ${answer.text}`);
    }
    return answer;
  };

  // A bid is sealed: the seal is public, the secret isn't.
  async function seal(auction, place, seat, bid) {
    const { id } = auction.said;
    const numbers = [id, seat, bid, WIDTH, LANES].map(String);
    const more = { wanted: ["secret", "seal"], room: 256 * 1024 };
    const words = ["seal", ...numbers, drawn(32), "secret", "seal"];
    const { files } = must(await command(place, `Sealing at seat ${seat}`, words, {}, more));
    auction.kept[`secret-${seat}`] = files.secret;
    auction.open[`seal-${seat}`] = files.seal;
  }

  async function sealAll(auction, place, own = BIDS[OWN]) {
    for (const { seat } of SEATS) {
      await seal(auction, place, seat, seat === OWN ? own : BIDS[seat]);
    }
  }

  // The house of an auction that takes these seals with these secrets, both by their names.
  function houseOf(auction, files, seats = SEATS.map(({ seat }) => seat)) {
    const names = seats.flatMap((seat) => [`seal-${seat}`, `secret-${seat}`]);
    const held = new Map(names.map((name) => [name, files[name]]));
    return { said: auction.said, taken: seats, seed: null, bits: null, files: held };
  }

  // What a house comes to: what was printed, its board, and its reply if it has a challenge.
  async function play(place, doing, house) {
    const files = House.scriptFiles(house);
    const wanted = [...(house.seed ? ["board"] : []), ...(house.bits ? ["reply"] : [])];
    const more = { wanted, room: 8 * 1024 * 1024 };
    return must(await command(place, doing, ["ceremony", "script"], files, more));
  }

  // The same house with a challenge, once its bits are known.
  function challenged(house, bits) {
    const challenge = bytesOf(House.challengeText(bits));
    return { ...house, bits, files: new Map([...house.files, ["challenge", challenge]]) };
  }

  // An auditor's part, which is public, and its share, which is shown later.
  async function part(auction, place, auditor) {
    const numbers = [auction.said.id, String(auditor), String(LANES)];
    const words = ["coin-part", ...numbers, drawn(32), "share"];
    const more = { wanted: ["share"], room: 64 * 1024 };
    const answer = must(await command(place, `Auditor ${auditor} draws`, words, {}, more));
    const [line] = Asked.linesOf(answer);
    auction.parts.push(line.split(" ")[3]);
    auction.open[`share-${auditor}`] = answer.files.share;
  }

  // The auditors draw: their parts, their shares, and the coin of both. The bits.
  async function draw(auction, place) {
    for (const auditor of AUDITORS) {
      await part(auction, place, auditor);
    }
    const lines = auction.parts.map((digest, at) => `part ${at + 1} ${digest}\n`);
    auction.open.parts = bytesOf(lines.join(""));
    const shares = AUDITORS.map((auditor) => new Blob([auction.open[`share-${auditor}`]]));
    const coin = Audit.coinText(auction.parts, await Promise.all(shares.map(Audit.shareOf)));
    auction.open.coin = bytesOf(coin);
    const more = { wanted: ["challenge"], room: 64 * 1024 };
    const held = { coin: auction.open.coin };
    const words = ["coin-join", "coin", "challenge"];
    const { files } = must(await command(place, "Joining the shares", words, held, more));
    return textOf(files.challenge).split("\n")[1].replace("bits ", "");
  }

  // Publishes a board: everybody writes its digest down.
  async function publish(auction, board) {
    auction.open.board = board;
    auction.digest = await Work.digestOf(board);
  }

  function reply(auction, bits, bytes) {
    auction.open.challenge = bytesOf(House.challengeText(bits));
    auction.open.reply = bytes;
  }

  return {
    LANES, OWN, SEATS, BIDS, begin, sealAll, houseOf, play, challenged, draw, publish, reply,
  };
})();
