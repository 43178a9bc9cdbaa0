// page/rehearsal_checks.js: the six checks of an audit, each by itself, of an auction that was made
// to try. Each answers whether it holds, what it saw, and what the program said if it was asked.
const RehearsalChecks = (() => {
  const { textOf, command } = Asked;
  const { OWN, SEATS } = RehearsalAuction;

  const line = (board, word) => (new RegExp(`^${word} (.+)$`, "m").exec(textOf(board)) || [])[1];

  // The board's digest, and the one that was written down before the draw.
  async function digest({ open, digest: written }) {
    const found = await Work.digestOf(open.board);
    const note = `it begins with ${Asked.fingerprint(found)}`;
    return found === written
      ? { holds: true, note }
      : { holds: false, note: `${note}, and the written one with ${Asked.fingerprint(written)}` };
  }

  const digestsOf = (text) => text.split("\n").filter((each) => each.startsWith("x ")).join("\n");

  // The lines of a seal on the board, or nothing.
  function sealOn(board, seat) {
    const rest = textOf(board).split(`\nseal ${seat}\n`)[1];
    return rest ? rest.split(/^(?!x )/m)[0].trim() : "";
  }

  // Each public seal on the board, and the numbers that were announced.
  async function seals({ said, open }) {
    const numbers = [`auction ${said.id}`, `width ${said.width}`, `lanes ${said.lanes}`];
    const other = numbers.filter((each) => !textOf(open.board).includes(`\n${each}\n`));
    if (other.length) {
      return { holds: false, note: `the announcement has ${other[0]}, and the board hasn't` };
    }
    const wrong = SEATS.filter(({ seat }) => {
      return sealOn(open.board, seat) !== digestsOf(textOf(open[`seal-${seat}`]));
    });
    return wrong.length
      ? { holds: false, note: `the public seal of seat ${wrong[0].seat} isn't on the board` }
      : { holds: true, note: "of all three seats, byte for byte" };
  }

  // The challenge, and the coin of the parts that were written down.
  async function coin({ open, parts }, place) {
    const held = textOf(open.coin).match(/^part [0-9]+ [0-9a-f]{64}$/gm);
    if (held.map((each) => each.split(" ")[2]).join() !== parts.join()) {
      return { holds: false, note: "the coin has other parts than those that were public" };
    }
    const more = { wanted: ["challenge"], room: 64 * 1024 };
    const words = ["coin-join", "coin", "challenge"];
    const answer = await command(place, "Joining the shares", words, { coin: open.coin }, more);
    const { challenge } = answer.files;
    return challenge && textOf(challenge) === textOf(open.challenge)
      ? { holds: true, note: "the shares of all three auditors come to it", answer }
      : { holds: false, note: "the auditors' shares come to another one", answer };
  }

  // The reply, judged by the program.
  async function accepted({ open }, place) {
    const { board, challenge, reply } = open;
    const words = ["verify", "board", "challenge", "reply"];
    const answer = await command(place, "Checking the reply", words, { board, challenge, reply });
    return { holds: answer.status === 0, note: `it says '${answer.text.trim()}'`, answer };
  }

  // The reader's own bid, and the price.
  async function bid({ said, open, kept }) {
    const own = Number(line(kept[`secret-${OWN}`], "bid"));
    const price = Number(line(open.board, "price"));
    const won = line(open.board, "winner") === String(OWN);
    const [yours, paid] = [own, price].map((number) => Terms.amount(said, number));
    const amounts = `you bid ${yours}, and the price is ${paid}`;
    return won
      ? { holds: price <= own, note: `you won; ${amounts}` }
      : { holds: own <= price, note: `you didn't win; ${amounts}` };
  }

  // Whether there is one reply alone; two replies open every bid.
  async function once({ open }, place) {
    if (!open["reply-2"]) {
      return { holds: true, note: "one reply is public" };
    }
    const files = {
      board: open.board, "challenge-1": open.challenge, "reply-1": open.reply,
      "challenge-2": open["challenge-2"], "reply-2": open["reply-2"],
    };
    const answer = await command(place, "Extracting", ["extract", ...Object.keys(files)], files);
    const bids = SEATS.map(({ seat }) => {
      const found = new RegExp(`^lane [0-9]+ seat ${seat} bid ([0-9]+)$`, "m").exec(answer.text);
      return `seat ${seat} ${found ? found[1] : "?"}`;
    });
    return { holds: false, note: `two are public, and open every bid: ${bids.join(", ")}`, answer };
  }

  // The checks by name, in the order in which an audit makes them.
  const CHECKS = [
    ["digest", "The board's digest is the one that was public before the draw", digest],
    ["seals", "Every public seal stands on the board, and the announced numbers", seals],
    ["coin", "The challenge is the one that the auditors drew", coin],
    ["accepted", "The program accepts the reply", accepted],
    ["bid", "Your own bid isn't above the price, or you won", bid],
    ["once", "There is one reply, and no second one", once],
  ].map(([name, title, run]) => ({ name, title, run }));

  return { CHECKS, line };
})();
