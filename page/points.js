// page/points.js: the audit's list, point by point, as checker/audit.py has it.
//
// A point is [state, what was found]. `ok` and `wrong` are found; `open` wasn't compared here, and
// says in a third part under which condition the outcome holds; `missing` can't be found out here.
const Points = (() => {
  const { listed } = Announcement;

  // The start of what somebody else wrote.
  const printable = (said, most) => said.slice(0, most).replace(/[^ -~]/g, "?");

  const ok = (said) => ["ok", said];
  const wrong = (said) => ["wrong", said];
  const open = (said, condition) => ["open", said, condition];
  const missing = (said) => ["missing", said];

  const holds = (isSo, said, why) => (isSo ? ok(said) : wrong(`${said}: ${why}`));

  // Whether what was announced or written down is what was found. What isn't known is left open.
  function same(said, wanted, found, condition) {
    if (wanted === null) {
      return open(`${said}: compare it, it is ${printable(found, 80)}`, condition);
    }
    return String(wanted) === found
      ? ok(`${said}: ${wanted}`)
      : wrong(`${said}: not ${wanted}, but '${printable(found, 80)}'`);
  }

  // ---- The file and its head

  function digestPoint({ digest }, { head, found }) {
    const said = `the ${head.what}'s digest is the one that was public before the draw`;
    return same(said, digest, found, `the ${head.what}'s digest was public before the draw`);
  }

  function reservePoints({ reserve }, head) {
    if (reserve === undefined) {
      const said = head.isReserved ? `a reserve of ${head.reserve}` : "no reserve";
      return [open(`the board's reserve: compare it, it names ${said}`, `${said} was announced`)];
    }
    if (reserve !== null) {
      return [same("the board's reserve is the announced one", reserve, head.reserve)];
    }
    const why = "the board has the announced terms: it names a reserve, and none was announced";
    return head.isReserved ? [wrong(why)] : [];
  }

  function kindPoints({ kind, count }, head) {
    if (!kind) {
      const said = `the claim file's kind: compare it, it is ${head.kind}`;
      return [open(said, "that kind was announced")];
    }
    const points = [same("the claim file's kind is the announced one", kind, head.kind)];
    if (kind === "uniform") {
      const winners = String(Math.max(head.numbers.length - 2, 0));
      points.push(same("as many win as there are units", count, winners));
    }
    return points;
  }

  const ORDER = "the announced ones, in their order";

  function headPoints(announced, head) {
    const { what } = head;
    const seats = announced.seats && announced.seats.join(",");
    const condition = (name) => `the announced ${name} is that of the ${what}`;
    const one = (name, said, word, wanted, found) =>
      same(`the ${what}'s ${name} ${said}`, wanted, found, condition(word));
    const points = [
      one("id", "is the announced one", "id", announced.auction, head.auction),
      one("width", "is the announced one", "width", announced.width, head.width),
      one("lanes", "are the announced ones", "number of lanes", announced.lanes, head.lanes),
      one("seats", `are ${ORDER}`, "order of seats", seats, head.seats.join(",")),
    ];
    const isBoard = head.what === "board";
    return [...points, ...(isBoard ? reservePoints(announced, head) : kindPoints(announced, head))];
  }

  // ---- Seals

  function sealPoint(seat, given, head) {
    const where = head.what === "board" ? "on the board" : "in the claim file";
    const said = `the seal of seat ${seat} stands ${where}`;
    if (!given) {
      return open(`${said}: choose the file seal-${seat}, to compare it`, seat);
    }
    if (given.fault) {
      return open(`${said}: the file that you chose is damaged, in line ${given.fault}`, seat);
    }
    return holds(given.text === head.sealText(seat), said, "it doesn't, or not as it was public");
  }

  // Where the seats weren't announced, those of the chosen seals are looked at.
  function sealPoints({ seats }, seals, head) {
    const known = seats || [...seals.keys()];
    const points = known.map((seat) => sealPoint(seat, seals.get(seat), head));
    if (!seats && known.length === 0) {
      const said = "the public seals stand there";
      points.push(open(`${said}: choose them`, said));
    }
    const others = [...seals.keys()].filter((seat) => !known.includes(seat));
    const said = "is a public seal, and its seat isn't among the announced ones";
    return [...points, ...others.map((seat) => wrong(`seal-${seat} ${said}`))];
  }

  // ---- The challenge

  const CHALLENGE = /^vickrey-challenge 1\nbits ([01]{1,64})\nend\n$/;
  const challengeText = (bits) => `vickrey-challenge 1\nbits ${bits}\nend\n`;

  function coinPoint(announced, parts, { coin, head }) {
    const said = "the coin has the parts that were public";
    const auditors = announced.auditors === null ? parts.length : announced.auditors;
    const [auction, lanes] = [announced.auction || head.auction, announced.lanes || head.lanes];
    const lines = [`auction ${auction}`, `bits ${lanes}`, `auditors ${auditors}`, ...parts];
    const wanted = ["vickrey-coin 1", ...lines, ""].join("\n");
    if (parts.length !== auditors) {
      return wrong(`${said}: there are ${auditors} auditors, and ${parts.length} parts`);
    }
    return coin.own.split(/^show /m)[0] === wanted
      ? ok(`${said}, of ${parts.length} auditors`)
      : wrong(`${said}: it has others, or another head`);
  }

  function joinPoint({ status, text, made }, challenge) {
    const said = "the program joins the shares to the challenge";
    if (status !== 0) {
      const [line] = text.split("\n");
      return wrong(`${said}: it says '${printable(line, 120)}', status ${status}`);
    }
    return holds(made === challenge, said, "they come to other bits");
  }

  function challengePoints(announced, { bits, parts }, files) {
    const { challenge, coin } = files;
    const points = [];
    const said = "the challenge is the one that the challenger published";
    const [, drawn = "none"] = CHALLENGE.exec(challenge) || [];
    if (bits !== null) {
      const why = "the file 'challenge' has other bits, or isn't there";
      points.push(holds(challenge === challengeText(bits), said, why));
    } else if (parts === null || !coin) {
      const condition = `the challenger published the bits ${drawn}`;
      points.push(open(`${said}: compare it, its bits are ${drawn}`, condition));
    }
    if (coin && parts === null) {
      const why = "type the parts, as you wrote them down before the shares were shown";
      points.push(open(`the coin has the parts that were public: ${why}`, "they were public"));
    }
    if (!coin && (parts !== null || announced.auditors > 0)) {
      const why = "choose the coin, the file of all parts and shares";
      const condition = "the auditors' shares come to this challenge";
      points.push(open(`the shares come to the challenge: ${why}`, condition));
    }
    if (coin && parts !== null) {
      points.push(coinPoint(announced, parts, files));
    }
    if (coin) {
      points.push(joinPoint(coin, challenge));
      points.push(missing("check.py joins the shares to the challenge"));
    }
    return points;
  }

  // ---- The verdict, and a bidder's own bid

  function acceptPoints({ status, text }) {
    const said = "the program accepts the reply";
    const [line] = text.split("\n");
    const why = `it says '${printable(line, 120)}', status ${status}`;
    return [holds(status === 0, said, why), missing("check.py accepts the reply")];
  }

  // Whether the outcome can be right for it. The bid itself isn't said.
  function bidPoint({ seat, bid }, head) {
    const outcome = head.outcome();
    if (outcome === null || outcome.price === null) {
      return wrong(`my bid and the price: the ${head.what} has no such price`);
    }
    const { winners, price, reserve } = outcome;
    if (winners.length === 0) {
      const said = "nothing was sold, and my bid is below the reserve";
      return holds(bid < (reserve || 0n), said, "it isn't");
    }
    return winners.includes(seat)
      ? holds(price <= bid, "I won, and the price isn't above my bid", "it is")
      : holds(bid <= price, "my bid isn't above the price", "it is, and I didn't win");
  }

  // ---- All of it

  // The list of what was announced, what was written down, and what the files have; a short one
  // where the board's head wasn't read.
  function listOf(announced, written, files, isRead) {
    const { head } = files;
    if (!isRead) {
      return [digestPoint(written, files), ...acceptPoints(files.accepts)];
    }
    const points = [
      digestPoint(written, files),
      ...headPoints(announced, head),
      ...sealPoints(announced, files.seals, head),
      ...challengePoints(announced, written, files),
      ...acceptPoints(files.accepts),
    ];
    if (files.secret) {
      points.push(bidPoint(files.secret, head));
    }
    return points;
  }

  const count = (points, state) => points.filter(([found]) => found === state).length;

  // Seats in the conditions are those whose seals weren't compared.
  function conditionsOf(points) {
    const all = points.filter(([state]) => state === "open").map(([, , condition]) => condition);
    const seats = all.filter((condition) => /^\d+$/.test(condition));
    const others = all.filter((condition) => !/^\d+$/.test(condition));
    const named = seats.length === 1 ? "the seal of seat" : "the seals of the seats";
    const verb = seats.length === 1 ? "stands" : "stand";
    return seats.length ? [...others, `${named} ${listed(seats)} ${verb} there`] : others;
  }

  // One sentence that can be repeated.
  function sentence(points, head, unit) {
    const [passed, failed] = [count(points, "ok"), count(points, "wrong")];
    const checks = passed + failed;
    if (failed) {
      const one = failed === 1 ? "1 of them" : `${failed} of them`;
      return `Don't rely on this outcome: of ${checks} checks ${one} FAILED.`;
    }
    const conditions = conditionsOf(points);
    const said = conditions.length > 2 ? ["what is left open below holds"] : conditions;
    const condition = said.length ? `, if ${listed(said)}` : "";
    return `${Outcome.sentence(head.outcome(), unit)}${condition}. All ${checks} checks hold.`;
  }

  const WORDS = { ok: "ok      ", wrong: "FAILED  ", open: "open    ", missing: "missing " };

  // The list as a text, with what it comes to.
  function report(front, points, said) {
    const lines = points.map(([state, text]) => WORDS[state] + text);
    const counted = `${count(points, "ok")} ok, ${count(points, "wrong")} FAILED`;
    return [...front, "", ...lines, counted, "", said, ""].join("\n");
  }

  return { listOf, sentence, report, count };
})();
