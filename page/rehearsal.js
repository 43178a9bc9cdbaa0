// page/rehearsal.js: a whole auction to try, step by step, with the reader as one of its bidders.
const Rehearsal = (() => {
  const { find, make, typed, mark } = Fields;
  const { good, bad } = Sentences;
  const { begin: beginAuction, sealAll, houseOf, play, challenged, draw, publish, reply } =
    RehearsalAuction;
  const { CHECKS } = RehearsalChecks;

  let auction = null;
  let place = null;

  // How many steps are done.
  let done = 0;

  const paragraph = (...parts) => make("p", {}, ...parts);
  const printed = (answer) => SellView.code(answer.text.trim());

  // ---- The steps: each does its work, and answers what is told of it and which files it has made

  async function announce() {
    auction = beginAuction();
    return {
      told: [
        paragraph(
          "The auctioneer publishes an announcement: who sits where, how high a bid may be, and " +
            "who draws. Nobody changes it later. You sit at seat 2.",
        ),
      ],
      files: { announcement: auction.open.announcement },
    };
  }

  // The bid that is typed, or null where it is none.
  function ownBid() {
    const field = find("rehearsal-bid");
    const bid = Terms.numberOf(auction.said, typed(field.id));
    const fits = bid !== null && bid < 2 ** auction.said.width;
    const most = Terms.amount(auction.said, 2 ** auction.said.width - 1);
    mark(field, fits ? "" : `This has to be an amount from 0 to ${most}, as 15.50.`);
    return fits ? bid : null;
  }

  async function bid() {
    const own = ownBid();
    if (own === null) {
      find("rehearsal-bid").focus();
      return null;
    }
    await sealAll(auction, place, own);
    const { open, kept } = auction;
    return {
      told: [
        paragraph(
          `You bid ${Terms.amount(auction.said, own)}. The program makes two files of it: the ` +
            "seal fixes the bid and shows nothing of it, and you publish it; the secret opens " +
            "it, and you keep it. Ann and Cleo do the same.",
        ),
      ],
      files: {
        "seal-1": open["seal-1"], "seal-2": open["seal-2"], "seal-3": open["seal-3"],
        "secret-2": kept["secret-2"],
      },
    };
  }

  async function handIn() {
    auction.house = houseOf(auction, { ...auction.open, ...auction.kept });
    const answer = await play(place, "Taking the seals", auction.house);
    return {
      told: [
        paragraph(
          "All seals are public, so the bidders hand their secrets to the auctioneer, and to " +
            "nobody else. The program takes a seal only with the secret that opens it.",
        ),
        printed(answer),
      ],
      files: {},
    };
  }

  async function board() {
    auction.house.seed = Asked.drawn(32);
    const answer = await play(place, "Proving the outcome", auction.house);
    await publish(auction, answer.files.board);
    auction.outcome = SellView.outcomeOf(auction.said, answer.text);
    return {
      told: [
        paragraph(
          `The auctioneer proves the outcome. ${auction.outcome} It publishes the board, and the ` +
            "board's digest. You write down how that begins: ",
          make("code", { textContent: Asked.fingerprint(auction.digest) }),
          ".",
        ),
      ],
      files: { board: auction.open.board },
    };
  }

  async function look() {
    const { holds, note } = await CHECKS.find(({ name }) => name === "seals").run(auction);
    return {
      told: [
        paragraph(
          "Before anything is drawn, you look whether your seal stands on the board. Who misses " +
            "its seal complains now.",
        ),
        Parts.checklist([[holds ? "ok" : "wrong", "every public seal stands on the board", note]]),
      ],
      files: {},
    };
  }

  async function drawn() {
    auction.bits = await draw(auction, place);
    const { open } = auction;
    const parts = new TextDecoder().decode(open.parts).trim();
    return {
      told: [
        paragraph(
          "Three auditors draw the challenge, a bit for each lane. Each publishes a part first, " +
            "which fixes its share. You write the parts down:",
        ),
        SellView.code(parts),
        paragraph(
          "Then all show their shares, and anybody joins them. If one auditor is honest, nobody " +
            `could know these bits before: ${auction.bits}.`,
        ),
      ],
      files: { parts: open.parts, coin: open.coin },
    };
  }

  async function answer() {
    const house = challenged(auction.house, auction.bits);
    const said = await play(place, "Answering", house);
    reply(auction, auction.bits, said.files.reply);
    return {
      told: [
        paragraph(
          "The auctioneer answers this challenge, once and for all. Of each number the reply " +
            "opens one half, and so no bid.",
        ),
      ],
      files: { challenge: auction.open.challenge, reply: auction.open.reply },
    };
  }

  async function check() {
    const items = [];
    for (const { title, run } of CHECKS) {
      const { holds, note } = await run(auction, place);
      items.push([holds ? "ok" : "wrong", title, note]);
    }
    const failed = items.filter(([state]) => state === "wrong").length;
    const verdict = failed
      ? `${failed} of ${items.length} checks FAILED.`
      : `${auction.outcome} All ${items.length} checks hold.`;
    return {
      told: [
        paragraph("Anybody audits, with what is public and what was written down."),
        Parts.checklist(items),
      ],
      files: {},
      verdict: failed ? bad(verdict) : good(verdict),
    };
  }

  const STEPS = [
    ["Announce", announce], ["Bid", bid], ["Hand in", handIn], ["Board", board], ["Look", look],
    ["Draw", drawn], ["Reply", answer], ["Check", check],
  ];

  // ---- How they are shown

  function showSteps() {
    const items = STEPS.map(([name], at) => {
      const item = make("li", { textContent: name, className: at < done ? "done" : "" });
      if (at === done) {
        item.setAttribute("aria-current", "step");
      }
      return item;
    });
    find("rehearsal-steps").replaceChildren(...items);
    const next = STEPS[done];
    find("rehearsal-run").hidden = !next;
    find("rehearsal-run").textContent = next ? `Next: ${next[0]}` : "";
    find("rehearsal-bid-box").hidden = done !== 1;
    find("rehearsal-cheat").hidden = Boolean(next);
  }

  // What was done: the newest step is open, and those before it can be opened again.
  function showStep(name, { told, files }) {
    const list = find("rehearsal-told");
    [...list.children].forEach((each) => {
      each.open = false;
    });
    const links = Object.entries(files).flatMap(([file, bytes]) => [place.link(file, bytes), " "]);
    const summary = make("summary", { textContent: `${done}. ${name}` });
    list.append(make("details", { open: true }, summary, ...told, SellView.line(...links)));
  }

  async function next() {
    const [name, run] = STEPS[done];
    const at = done;
    const found = await run();
    if (!found || at !== done) {
      return;
    }
    done++;
    showSteps();
    showStep(name, found);
    const title = `Step ${done} of ${STEPS.length} is done: ${name}.`;
    place.tell(found.verdict || { mood: "", title });
    (done === 1 ? find("rehearsal-bid") : find("rehearsal-run")).focus();
  }

  function restart() {
    done = 0;
    auction = null;
    place.clear();
    find("rehearsal-told").replaceChildren();
    showSteps();
    place.follow(next);
  }

  function open() {
    document.body.classList.add("rehearsing");
    find("rehearsal").hidden = false;
    find("rehearse").setAttribute("aria-expanded", "true");
    if (done === 0) {
      restart();
    }
    find("rehearsal").scrollIntoView({ block: "start" });
  }

  function close() {
    ["rehearsal", "cheats", "guess"].forEach((id) => {
      find(id).hidden = true;
    });
    done = 0;
    place.clear();
    document.body.classList.remove("rehearsing");
    find("rehearse").setAttribute("aria-expanded", "false");
    find("rehearse").focus();
  }

  function begin() {
    place = new Parts.Place(find("rehearsal-work"));
    find("rehearse").addEventListener("click", open);
    find("rehearsal").addEventListener("submit", (event) => {
      event.preventDefault();
      if (place.jobs.length === 0) {
        place.follow(next);
      }
    });
    find("rehearsal-close").addEventListener("click", close);
    find("rehearsal-cheat").addEventListener("click", RehearsalFind.open);
    RehearsalFind.begin();
  }

  return { begin };
})();
