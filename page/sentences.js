// page/sentences.js: what the program's status and lines mean, in a sentence or two for people.
//
// Nothing is decided here. The status and the lines stand beside each sentence, and they count.
const Sentences = (() => {
  const good = (title, ...more) => ({ mood: "good", title, more });
  const bad = (title, ...more) => ({ mood: "bad", title, more });
  const odd = (title, ...more) => ({ mood: "odd", title, more });

  // What each status says, as the manual page has it.
  const STATUSES = [
    "done",
    "refused",
    "no command",
    "clash",
    "a file is malformed or too long",
    "a file is missing",
    "outside fault",
    "same challenge",
    "the command refuses",
    "not enough memory",
  ];

  // The names that the page gives to files, in the words of people.
  const NAMES = {
    announcement: "the announcement",
    board: "the board",
    claim: "the claim file",
    challenge: "the challenge",
    "challenge-1": "the first challenge",
    "challenge-2": "the second challenge",
    reply: "the reply",
    "reply-1": "the first reply",
    "reply-2": "the second reply",
    secret: "the secret",
    seal: "the seal",
    seals: "a seal",
    share: "a share",
    shares: "a share",
    coin: "the coin",
  };

  const named = (name) => NAMES[name] || name;
  const begun = (text) => text.charAt(0).toUpperCase() + text.slice(1);

  const ASK_AGAIN =
    "Compare the files' digests with the published ones, and get them again. If these are the " +
    "published files, the auctioneer gives its answer again, to the same challenge; if that is " +
    "refused too, the outcome isn't shown, and nothing is sold.";

  const FORESEEN =
    "By itself this says nothing: whoever knew the challenge when the board was made can make a " +
    "wrong board that is accepted. So the board's digest has to be the one that was public " +
    "before the draw, and the challenge the one that was drawn.";

  const TWO_OPENINGS =
    "One commitment was opened with two values. Then a seal or the board no longer fixes a " +
    "number: nothing follows from this board, and nothing is sold by it. The line below is all " +
    "that anybody needs to see it. Keep all files.";

  function malformed(name, line) {
    const of = begun(named(name));
    if (name.startsWith("reply")) {
      return bad(
        `${of} can't be read as one to this challenge: line ${line} isn't what it has to be.`,
        "Either the file is damaged, or it is an honest reply to another challenge. Compare the " +
          "challenge first.",
        ASK_AGAIN,
      );
    }
    return bad(
      `${of} can't be read: line ${line} is the first one that isn't what it has to be.`,
      "It is damaged, cut off, or another kind of file. Compare its digest with the published " +
        "one, and get it again.",
    );
  }

  // The sentence of a line `refused NAME ..` that names a place in a reply.
  function refusedAt(name, words) {
    const [, lane, what, number, ...rest] = words;
    const of = named(name);
    if (what === "row") {
      return bad(
        `Refused: in lane ${lane} the numbers that ${of} opens don't come to what the board says.`,
        `Row ${number} is the first that doesn't come out. ${ASK_AGAIN}`,
      );
    }
    const why =
      rest[0] === "set"
        ? "the two opened numbers of a pair don't belong together"
        : `the opened number isn't the one that the board fixed (digest ${rest[1]})`;
    return bad(`Refused: in lane ${lane}, at wire ${number}, ${why}.`, ASK_AGAIN);
  }

  const REFUSED = {
    price: "no board of such seals may publish this price, or this reserve",
    winner: "no seal on the board has the winner's seat",
    public: "what the claim file publishes may not stand in one of its kind",
    lanes: "the board, the challenge and the reply don't have the same number of lanes",
  };

  function refused([name, ...words]) {
    if (words[0] === "lane") {
      return refusedAt(name, words);
    }
    if (words[0] === "part") {
      return bad(
        `Refused: the share of auditor ${words[1]} doesn't open the part of auditor ${words[1]}.`,
        "It is another share than the one that was fixed, or a part was copied wrong. No " +
          "challenge comes of these.",
      );
    }
    const others = "Look whether all three files are of this auction.";
    const more = words[0] === "lanes" ? others : ASK_AGAIN;
    return bad(`Refused: ${REFUSED[words[0]] || words.join(" ")}.`, more);
  }

  // What status 8 says, by the first words of the line.
  const REFUSALS = [
    [
      "seal bid too large",
      "The bid isn't below 2^width, so it was not sealed.",
      "Look at the width, and at the unit of bids.",
    ],
    [
      "seal dry seed",
      "This seed gives no numbers, which hardly ever happens.",
      "Seal again: another seed is drawn.",
    ],
    [
      "house dry seed",
      "This number makes a seed that gives no numbers, which hardly ever happens.",
      "Take another number.",
    ],
    [
      "confront no seal",
      "The board has no seal at the seat of your secret.",
      "Your seal was left out, or the secret is of another auction.",
    ],
    [
      "confront mismatch auction",
      "Your secret is of another auction than this board.",
      "Look whether you gave the right files.",
    ],
    [
      "confront mismatch",
      "At your seat the board has another seal than the one of your secret.",
      "If the secret is of this auction and this seat, your seal was changed. Your public, " +
        "signed seal shows it.",
    ],
  ];

  function declined(line) {
    const found = REFUSALS.find(([start]) => line.startsWith(start));
    return found ? bad(...found.slice(1)) : bad("The program refuses.", "Its line says why.");
  }

  const opening = (number) =>
    number === "1" ? "the one share opens its part" : `all ${number} shares open their parts`;

  // What a command says that was done, by its name and its lines.
  const DONE = {
    verify: () => good("Accepted: the reply fits the board and the challenge."),
    "claim-verify": () => good("Accepted: the reply fits the claim file and the challenge."),
    report: () => good("The file is a whole board."),
    seal: ([line]) =>
      good(
        `Sealed for seat ${line.split(" ")[2]}.`,
        "Save all of them before you close this page: nothing of them is kept here.",
      ),
    confront: ([line]) =>
      good(
        `Held: the bid that is opened at seat ${line.split(" ")[2]} is the one in your secret.`,
        "But two replies are public, so every bid of this auction is.",
      ),
    extract: (lines) =>
      odd(
        "Both replies are accepted, and they open every bid.",
        lines.some((line) => / differs$/.test(line))
          ? "Some seat's bids differ from lane to lane. The outcome is right in each lane."
          : "The outcome on the board is right for these bids.",
      ),
    "claim-extract": () =>
      odd(
        "Both replies are accepted, and they open every sealed value.",
        "What the claim file says is right for these values.",
      ),
    "coin-part": ([line]) =>
      good(
        `Drawn: your part, as auditor ${line.split(" ")[1]}, is below.`,
        "Publish the part now. Save the share, and show it to nobody before all parts are public.",
      ),
    "coin-join": ([line]) =>
      good(
        `Joined: ${opening(line.split(" ")[2])}, and the challenge is below.`,
        "The program can't know which parts were public and how many auditors there should be: " +
          "compare the coin's parts with those that you wrote down before the first share was " +
          "shown.",
      ),
    "coin-board": () =>
      odd(
        "Derived from the board's bytes.",
        "Never rely on this challenge alone: whoever makes a board can try boards until it suits " +
          "one.",
      ),
    sample: () =>
      good("Made and checked: both replies are accepted, and the bids were extracted again."),
    "claim-sample": () =>
      good("Made and checked: both replies are accepted, and the values were extracted again."),
  };

  const OTHER = {
    2: () => bad("The program doesn't take these words.", "Something isn't of its form."),
    3: () => bad("A clash: somebody broke a commitment.", TWO_OPENINGS),
    5: ([line]) => bad(`A file is missing: ${named(line.split(" ")[1] || "")}.`),
    6: () => bad("The program could not read or write.", "Here that should never happen."),
    7: () =>
      odd(
        "Both replies answer the same challenge, so they show no bid.",
        "That is how it should be: one challenge, and one reply to it.",
      ),
    9: () =>
      bad(
        "There isn't enough memory here, so nothing was found out.",
        "Close other pages, or take a machine with more memory, or the program itself.",
      ),
  };

  // A sentence on the answer of a command: its mood is good, bad or odd.
  function explain(command, status, text) {
    const lines = text.split("\n");
    const words = lines[0].split(" ");
    if (status === 0) {
      return DONE[command](lines);
    }
    if (status === 1) {
      return refused(words.slice(1));
    }
    if (status === 4 && words[0] === "too") {
      return bad(`${begun(named(words[2]))} is too long: no file has more than 2^30 bytes.`);
    }
    if (status === 4) {
      return malformed(words[1], words[3]);
    }
    if (status === 8) {
      return declined(lines[0]);
    }
    return (OTHER[status] || (() => odd(`The program ended with status ${status}.`)))(lines);
  }

  const UNKNOWN = "Nothing was found out about the files.";

  // A sentence on a fault of the page, the browser or the machine, which gave no answer.
  const FAULTS = {
    memory: OTHER[9],
    unreadable: (name) =>
      bad(
        `${begun(named(name))} can't be read.`,
        "It was moved, changed or removed after you chose it, or it is a folder. Choose it again.",
      ),
    "no WebAssembly": () =>
      bad(
        "This browser runs no WebAssembly, so it can't run the program.",
        "Some browsers switch it off in a strict mode. Take another browser, or the program " +
          "itself.",
      ),
    "no SIMD": () =>
      bad(
        "This browser's WebAssembly has no SIMD, which the program needs.",
        "Take a newer browser (Chromium 91, Firefox 89 or Safari 16.4, or later), or the program " +
          "itself.",
      ),
    module: (about) => bad("This browser doesn't take the program's module.", UNKNOWN, about),
    "no Worker": (about) => bad("This browser starts no Worker for this page.", UNKNOWN, about),
    page: (about) => bad("This page made a mistake.", UNKNOWN, about),
    stopped: (about) =>
      bad("The program stopped without an answer, which it never should.", UNKNOWN, about),
  };

  const fault = (kind, about) => (FAULTS[kind] || FAULTS.stopped)(about);

  const status = (number) => `${number} (${STATUSES[number] || "unknown"})`;

  return { explain, fault, status, named, good, bad, odd, FORESEEN };
})();
