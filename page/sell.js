// page/sell.js: the tab Sell. An auction from its announcement to its reply, by a script that
// grows.
//
// Each step makes the next house. That is saved and opened again before anything is handed out.
const Sell = (() => {
  const { find, notice } = Fields;
  const { bad, good, odd } = Sentences;

  // The auction that is open: its house as it was saved, with that file's digest; what the program
  // made of it; the `next` house while that isn't saved; and how to let go of it.
  let auction = null;
  let place = null;

  // ---- What is seen

  const FORMS = {
    announced: ["sell-take"],
    taken: ["sell-prove"],
    proved: ["sell-draw"],
    answered: ["sell-pack", "sell-draw"],
  };

  function showForms() {
    const ready = auction && !auction.next;
    const phase = auction && auction.house && House.phaseOf(auction.house);
    const shown = auction ? (ready && FORMS[phase]) || [] : ["sell-terms"];
    ["sell-terms", "sell-take", "sell-prove", "sell-draw", "sell-pack"].forEach((id) => {
      find(id).hidden = !shown.includes(id);
    });
    find("sell-close").hidden = !auction;
    find("sell-about").hidden = Boolean(auction);
    find("sell-house-box").hidden = Boolean(ready);
    const label = auction ? "Open the saved house" : "Open a house, a file";
    find("sell-house-label").textContent = label;
    SellView.markSteps(phase);
  }

  // Takes what was shown of the last step away.
  function clearForms() {
    SellForms.clear();
    place.clear();
  }

  const aboutMemory = (id) =>
    Guard.recall(id) === undefined
      ? "This browser keeps nothing for this page, so an older copy of the house can't be told: " +
        "take care of that yourself."
      : "";

  // ---- Saving

  const WITHOUT_BIDS = "Nothing is handed out before that.";
  const WITH_BIDS =
    "Nothing is handed out before that: who publishes a board and loses its house can't answer " +
    "for it. Keep the house where nobody else reads it: it has every bid that came in.";

  // Asks for the next house of what is `open` to be saved; what was made with it is handed out when
  // it was.
  async function offer(open, house, made, what) {
    const bytes = await House.pack(house);
    const digest = await Work.digestOf(bytes);
    if (open !== auction) {
      return;
    }
    auction.next = { house, made, digest };
    Parts.unsaved.add(auction);
    clearForms();
    showForms();
    place.tell(odd(`${what} Save the house now, and open the saved file.`));
    const name = House.nameOf(house);
    const more = [house.taken ? WITH_BIDS : WITHOUT_BIDS];
    place.result.replaceChildren(
      SellView.line(place.link(name, bytes)),
      ...Parts.paragraphs(more),
      ...(house.number === 1 ? [SellView.terms(house.said)] : []),
    );
    find("sell-house").focus();
  }

  // The next house was saved, and is opened: what was made with it is handed out.
  async function saved() {
    const { house, made, digest } = auction.next;
    Parts.unsaved.delete(auction);
    Object.assign(auction, { house, made, digest, next: null });
    await show(`House ${house.number} is saved.`);
    find("panel-sell").focus();
  }

  // Whether the announcement above all tools is that of a house.
  const isAbove = ({ announcement }) => Archive.same(announcement, Announced.bytes() || []);

  async function show(what) {
    const open = auction;
    const { house, made, digest } = open;
    if (!isAbove(house)) {
      await Announced.take(house.announcement);
      Announced.goOn();
    }
    if (open !== auction) {
      return;
    }
    const kept = Guard.remember(house.said.id, house.number, digest);
    showForms();
    SellForms.begin(house);
    place.tell(good(what));
    place.result.replaceChildren(
      SellView.words(`Auction ${house.said.id}, of ${house.said.seats.length} seats.`),
      ...SellView.handedOut(place, house, made),
      ...Parts.paragraphs(kept ? [] : [aboutMemory(house.said.id)]),
    );
  }

  // ---- Opening

  const ELSEWHERE =
    "This auction is open in another tab of this browser. Close it there first: two tabs could " +
    "answer two challenges.";

  const UNKNOWN =
    "This browser has no way to see whether another tab works on this auction. Work in one tab.";

  // Takes hold of an auction for this tab: a sentence against it, or nothing.
  async function hold(id) {
    const release = await Guard.hold(id);
    if (release === null) {
      return ELSEWHERE;
    }
    auction = { house: null, made: null, digest: "", next: null, release: release || (() => {}) };
    notice(release ? "" : UNKNOWN, "odd");
    return "";
  }

  function close() {
    if (auction) {
      const { house } = auction;
      Parts.unsaved.delete(auction);
      auction.release();
      auction = null;
      if (house && isAbove(house)) {
        Announced.putAway();
      }
    }
    clearForms();
    showForms();
  }

  // Has the program do the script of a house.
  const ceremony = (at, doing, house, wanted) =>
    Asked.command(at, doing, ["ceremony", "script"], House.scriptFiles(house), { wanted });

  const isAccepted = ({ status, text }) => status === 0 && text.endsWith("\nend\n");

  // What the program makes of a house by its script, which is what it made when it was saved.
  async function madeOf(house) {
    if (!house.seed) {
      return { announcement: await Work.digestOf(house.announcement) };
    }
    const wanted = house.bits ? ["board", "reply"] : ["board"];
    const answer = await ceremony(place, "Making it again", house, wanted);
    const { board, reply } = answer.files;
    const same = isAccepted(answer) && (await Work.digestOf(board)) === house.board;
    if (!same || (house.bits && (await Work.digestOf(reply)) !== house.reply)) {
      throw new House.Unfit("Its script makes other files than it says.");
    }
    return { board, reply, text: answer.text };
  }

  // Opens a house that isn't the one which was just made.
  async function openHouse(bytes, digest) {
    const house = await House.open(bytes);
    const old = Guard.against(house, digest);
    const against = old || (await hold(house.said.id));
    if (against) {
      throw new House.Unfit(against);
    }
    const opened = auction;
    const made = await madeOf(house);
    if (opened === auction) {
      Object.assign(auction, { house, made, digest });
      await show(`House ${house.number} is open.`);
    }
  }

  const OTHER =
    "This isn't the house that was just made. Save that one, and open it; or close this auction, " +
    "and open another house.";

  // What a file is that is no house; nothing of one that may be a damaged one.
  async function otherFile(file) {
    const look = await Kinds.look(file);
    const mayBe = ["house", "other"].includes(look.kind);
    return mayBe ? "" : `You chose another file: ${Kinds.what(look)}.`;
  }

  async function opened(file) {
    const other = await otherFile(file);
    if (other) {
      throw new House.Unfit(`${other} Here the house belongs.`);
    }
    if (file.size > House.MOST_BYTES) {
      throw new House.Unfit("It is no house: it is too long for one.");
    }
    const bytes = new Uint8Array(await file.arrayBuffer());
    const digest = await Work.digestOf(bytes);
    if (auction && auction.next && auction.next.digest === digest) {
      await saved();
    } else if (auction && auction.next) {
      throw new House.Unfit(OTHER);
    } else {
      close();
      await openHouse(bytes, digest);
    }
  }

  // Opens the house in a file that was chosen or dropped.
  function chosen([file]) {
    const waits = auction && auction.next;
    place.follow(async () => {
      try {
        await opened(file);
      } catch (error) {
        if (!(error instanceof House.Unfit)) {
          throw error;
        }
        if (!waits) {
          close();
        }
        place.tell(bad(error.message));
      }
    });
  }

  // ---- Steps

  const BEGUN =
    "This browser has seen a house of this auction: open its newest one. An auction that is " +
    "begun twice could answer two challenges.";

  // A new auction, by its announcement, with the private key to it if the page made that.
  async function announce({ announcement, key }) {
    const house = House.following(House.begun(announcement, key), "", {});
    const against = Guard.recall(house.said.id) ? BEGUN : await hold(house.said.id);
    if (against) {
      throw new House.Unfit(against);
    }
    const open = auction;
    const made = { announcement: await Work.digestOf(announcement) };
    await offer(open, house, made, "The announcement is made.");
  }

  // The seals and secrets that were tried are taken.
  async function take(changes) {
    const house = House.following(auction.house, auction.digest, changes);
    await offer(auction, house, {}, `All ${changes.taken.length} seals are taken.`);
  }

  // Proves the outcome, from a seed that is drawn here. What the program says against it.
  async function prove(at) {
    const open = auction;
    const before = House.following(auction.house, auction.digest, { seed: Asked.drawn(32) });
    const answer = await ceremony(at, "Proving", before, ["board"]);
    if (!isAccepted(answer)) {
      Parts.show(at, answer, [], bad("The program refuses. Its line says why."));
      return;
    }
    const house = { ...before, board: await Work.digestOf(answer.files.board) };
    const made = { board: answer.files.board, text: answer.text };
    await offer(open, house, made, "The board is made.");
  }

  // Answers a challenge. `extra` are files that are kept with it: a coin.
  async function reply(at, bits, extra) {
    const open = auction;
    const challenge = Asked.bytesOf(House.challengeText(bits));
    const files = new Map([...auction.house.files, ...extra, ["challenge", challenge]]);
    const before = House.following(auction.house, auction.digest, { bits, files });
    const answer = await ceremony(at, "Answering", before, ["board", "reply"]);
    if (!isAccepted(answer)) {
      Parts.show(at, answer, [], bad("The program refuses. Its line says why."));
      return;
    }
    const made = { board: answer.files.board, reply: answer.files.reply, text: answer.text };
    const house = { ...before, reply: await Work.digestOf(made.reply) };
    await offer(open, house, made, "The reply is made.");
  }

  // A second challenge, which the program refuses by the script that has answered the first.
  async function again(at, bits) {
    const { house } = auction;
    const other = Asked.bytesOf(House.challengeText(bits));
    const more = [`answer ${house.said.id} other again`];
    const files = { ...House.scriptFiles(house, more), other };
    const asked = { wanted: ["again"] };
    const answer = await Asked.command(at, "Asking", ["ceremony", "script"], files, asked);
    const same = answer.status === 0 && Archive.same(answer.files.again, auction.made.reply);
    const told = same
      ? good("This is the challenge that was answered. Its reply is the one above, byte for byte.")
      : bad(
          `Refused, for ever: this auction has answered ${house.bits}, and answers nothing else.`,
          "Two replies to one board open every bid. Whoever asks for a second one is told that.",
        );
    Parts.show(at, answer, [], told);
  }

  // Answers a challenge, or says that one was answered.
  const answer = (at, bits, extra) =>
    auction.house.bits ? again(at, bits) : reply(at, bits, extra);

  const current = () => auction;

  function begin() {
    place = new Parts.Place(find("sell-work"));
    SellForms.takeFiles("sell", "sell-house", chosen);
    find("sell").addEventListener("submit", (event) => event.preventDefault());
    find("sell-close").addEventListener("click", () => {
      close();
      notice("");
      find("sell-house").focus();
    });
    SellForms.start({ announce, take, prove, answer, current });
    showForms();
  }

  return { begin };
})();
