// page/look.js: is my seal on the board, does my secret open it, and can the outcome be right?
//
// A complaint is advised of the board alone. Where a file is another one than belongs here, that is
// said, and nothing else.
const Look = (() => {
  const { given, copied } = Fields;
  const { bad, good, odd } = Sentences;

  // The first four lines of a secret
  const SECRET =
    /^vickrey-secret 1\nauction ([0-9a-f]{32})\nseat ([1-9]\d{0,4})\nbid (0|[1-9]\d{0,12})\n/;

  // The auction, the seat and the bid of a whole secret; null of what is none.
  function secretOf(text) {
    const [, auction, seat, bid] = SECRET.exec(text) || [];
    return auction && text.endsWith("\nend\n") ? { auction, seat, bid: BigInt(bid) } : null;
  }

  // Whether the outcome can be right for a bid at a seat: an item of a list. The bid isn't shown.
  function bidItem(facts, seat, bid) {
    const price = BigInt(facts.price);
    if (facts.winner === null) {
      const below = bid < BigInt(facts.reserve);
      return [below ? "ok" : "wrong", "nothing was sold, and my bid is below the reserve"];
    }
    if (seat === facts.winner) {
      return [price <= bid ? "ok" : "wrong", "I won, and the price isn't above my bid"];
    }
    return [bid <= price ? "ok" : "wrong", "my bid isn't above the price"];
  }

  // What the auctioneer's command says of the secret and the seal, in a house of its own.
  function openedItem({ status, text }) {
    const line = text.split("\n").find((found) => /^(house|malformed|too long)/.test(found)) || "";
    return [status === 0 ? "ok" : "open", "my secret opens my seal", line];
  }

  const COMPLAIN = "Complain now, in public, before the challenge is drawn.";

  function missing(seat, name) {
    return bad(
      `The board doesn't have the seal of seat ${seat} as it stands in ${name}.`,
      "If that is the seal that was public, complain in public, before the challenge is drawn. " +
        "If you sealed more than once, look first which of the seals was published.",
    );
  }

  // The sentence for what was found of seal, secret and bid, each an item of a list.
  function found(list, seat, name) {
    const [seal, opened, bid] = list.map(([state]) => state);
    if (seal === "wrong") {
      return missing(seat, name);
    }
    if (opened === "open") {
      return odd(
        "Your seal stands on the board, unchanged. You chose another secret: it doesn't open it.",
        "So nothing was found out about your bid and the price.",
      );
    }
    if (bid === "wrong") {
      return bad("Your seal stands on the board, but its outcome is wrong for your bid.", COMPLAIN);
    }
    return good("Your seal stands on the board, unchanged.");
  }

  const WRITE_DOWN =
    "Write the board's digest down before the challenge is drawn: all hangs on it.";

  function show(place, report, list, name, opened) {
    const [, seat] = /seat (\d+)/.exec(list[0][1]);
    const head = Outcome.headOf(report.head);
    const says = `The board says: ${Outcome.sentence(head.outcome(), Amounts.setting.unit)}.`;
    const parts = [
      Parts.checklist(list),
      Fields.make("p", {}, `${says} ${WRITE_DOWN}`),
      Keep.publish(report.digest, "the board's digest"),
    ];
    Parts.show(place, report, parts, found(list, seat, name), opened ? [opened] : []);
  }

  // Hands seal and secret to the auctioneer's command `submit`, in a house that ends with the call.
  function openSeal(place, facts, { seal, secret }, then) {
    const script =
      `vickrey-script 1\nannounce ${facts.auction} ${facts.width} ${facts.lanes}\nsubmit ` +
      `${facts.auction} seal secret\nend\n`;
    const files = {
      script: Parts.textFile(script, "made here, of the board's id, width and lanes"),
      seal: { file: seal },
      secret: { file: secret },
    };
    Parts.command(place, "Opening the seal", ["ceremony", "script"], files, {}, then);
  }

  // The items on the secret and its bid.
  function secretItems(facts, text, opened) {
    const item = openedItem(opened);
    const known = SECRET.exec(text);
    if (item[0] !== "ok" || !facts.seats.includes(known[2])) {
      const why = "it has to be the bid of a seal on the board";
      return [item, ["open", "my bid and the price", why]];
    }
    return [item, bidItem(facts, known[2], BigInt(known[3]))];
  }

  function compare(place, report, files) {
    if (report.status !== 0) {
      Parts.show(place, report);
      return;
    }
    const facts = Parts.factsOf(report.text);
    const item = Parts.sealItem(report.head, files.text);
    const { name } = files.seal;
    if (!files.secret) {
      show(place, report, [item], name, null);
      return;
    }
    openSeal(place, facts, files, async (opened) => {
      const text = await Kinds.headOf(files.secret, 256);
      show(place, report, [item, ...secretItems(facts, text, opened)], name, opened);
    });
  }

  // Why these files don't belong together, or null.
  async function apart(board, seal, secret) {
    const files = [["the board", board], ["the seal", seal], ["the secret", secret]];
    const known = files.filter(([, file]) => file);
    const look = async ([name, file]) => [name, await Kinds.look(file)];
    const looks = await Promise.all(known.map(look));
    return Kinds.apart("auction", looks) || Kinds.apart("seat", looks);
  }

  async function run(place) {
    const { turn } = place;
    const board = given("mine-board");
    const seal = await copied(given("mine-seal"));
    const secret = given("mine-secret") && (await copied(given("mine-secret")));
    const whole = await Parts.sealOf(seal);
    const other = whole.other || (await apart(board, seal, secret));
    if (turn !== place.turn) {
      return;
    }
    if (other) {
      place.tell(odd(other));
      return;
    }
    const held = { seal, secret, text: whole.text };
    const then = (report) => compare(place, report, held);
    const files = { board: { file: board } };
    Parts.command(place, "Reading the board", ["report", "board"], files, {}, then);
  }

  // The files that are here go on to Check, where none are yet.
  function handOn() {
    for (const [from, to] of [["board", "board"], ["seal", "seals"], ["secret", "secret"]]) {
      const file = given(`mine-${from}`);
      if (file && !given(`check-${to}`)) {
        Fields.give(Fields.find(`check-${to}`), [file]);
      }
    }
  }

  function begin() {
    Parts.beginTool("mine", run);
    Fields.beginAll("mine");
    Way.entering.check = handOn;
  }

  return { begin, secretOf };
})();
