// page/sell_view.js: how a house is told: where it stands, what was announced, what is handed out.
const SellView = (() => {
  const { find, make } = Fields;
  const { fingerprint } = Asked;

  const STEPS = ["announced", "taken", "proved", "answered"];

  const line = (...parts) => make("p", { className: "doing" }, ...parts);
  const words = (...parts) => make("p", {}, ...parts);
  const about = (file, why) => words(Fields.quoted(file.name), `: ${why}.`);
  const code = (textContent) => make("pre", { className: "publish", tabIndex: 0, textContent });

  // Marks how far the auction is: `phase` is what was done last, or nothing.
  function markSteps(phase) {
    const done = phase ? STEPS.indexOf(phase) + 1 : 0;
    [...find("sell-steps").children].forEach((step, place) => {
      step.className = place < done ? "done" : "";
      if (place === done) {
        step.setAttribute("aria-current", "step");
      } else {
        step.removeAttribute("aria-current");
      }
    });
  }

  const seatsShown = (seats) => seats.join(", ");

  function outcomeOf(said, text) {
    const found = /^proved (?:winner (\d+) price (\d+)|unsold)$/m.exec(text);
    if (!found) {
      return "";
    }
    return found[1]
      ? `Seat ${found[1]} wins and pays ${Terms.amount(said, Number(found[2]))}.`
      : `Nothing is sold: every bid is below the reserve of ${Terms.amount(said, said.reserve)}.`;
  }

  const due = (said, name) => {
    const time = said.deadlines[name];
    return time ? `, by ${Terms.timeSaid(time)}` : "";
  };

  function drawOf({ auditors }) {
    if (auditors === 0) {
      return "a challenger, alone";
    }
    return auditors === 1 ? "one auditor" : `${auditors} auditors together`;
  }

  // What an announcement says, as rows of a table.
  function termRows(said) {
    const times = Terms.DEADLINES.map((name) => {
      const time = said.deadlines[name];
      return [`Deadline ${name}`, time ? Terms.timeSaid(time) : "none"];
    });
    const seats = said.seats.map(({ seat, name }) => `${seat} ${name}`);
    return [
      ["Auction's id", said.id],
      ["Bids", `from ${Terms.amount(said, 0)} to ${Terms.amount(said, 2 ** said.width - 1)}`],
      ["Reserve", said.reserve === null ? "none" : Terms.amount(said, said.reserve)],
      ["Lanes", String(said.lanes)],
      ["Who draws", drawOf(said)],
      ...times,
      ["Key for secrets", said.key === null ? "none" : said.key],
      ["Public place", said.place],
      ["Seats, in the order of their seals", seats.join("; ")],
    ];
  }

  const terms = (said) =>
    Parts.table("What is announced", ["What", "The announcement says"], termRows(said));

  const digestShown = (textContent) => make("code", { className: "digest", textContent });

  // ---- What is handed out at each step

  function announced(place, house, digest) {
    return [
      words(
        "Publish the announcement with its digest, before the first seal. Nobody changes a term " +
          "later.",
      ),
      line(place.link("announcement", house.announcement)),
      words("SHA-256 of the announcement: ", digestShown(digest)),
    ];
  }

  function taken(house) {
    const left = house.leftOut.length ? ` Left out: ${seatsShown(house.leftOut)}.` : "";
    return [words(`Taken, in this order: seats ${seatsShown(house.taken)}.${left}`)];
  }

  function proved(place, house, made) {
    const text = `${outcomeOf(house.said, made.text)}\nSHA-256 of the board: ${house.board}`;
    return [
      words(
        `Publish the board and its digest now${due(house.said, "board")}. No bit of the ` +
          "challenge is drawn before everybody can see this digest, and there is one draw only.",
      ),
      code(text),
      line(place.link("board", made.board)),
      words(`Fingerprint of the board: ${fingerprint(house.board)}.`),
    ];
  }

  function answered(place, house, made) {
    return [
      ...proved(place, house, made).slice(1, 3),
      words(
        `The challenge ${house.bits} is answered, once and for all. Publish the ` +
          `reply${due(house.said, "reply")}.`,
      ),
      line(
        place.link("challenge", Asked.bytesOf(House.challengeText(house.bits))),
        " ",
        place.link("reply", made.reply),
      ),
    ];
  }

  // What is handed out of a house that was saved. `made` has what the program made of it.
  function handedOut(place, house, made) {
    const phase = House.phaseOf(house);
    if (phase === "announced") {
      return announced(place, house, made.announcement);
    }
    if (phase === "taken") {
      return taken(house);
    }
    return phase === "proved" ? proved(place, house, made) : answered(place, house, made);
  }

  // ---- The rows of the intake

  function rowShown(row) {
    const { seat, name, leftOut, fault, print } = row;
    const box = make("input", { type: "checkbox", id: `sell-left-${seat}`, checked: leftOut });
    box.addEventListener("change", () => {
      row.leftOut = box.checked;
    });
    const label = make("label", { htmlFor: box.id }, box, ` Seat ${seat} is left out`);
    const head = make("strong", { textContent: `Seat ${seat}` });
    const parts = [head, ", ", make("bdi", { textContent: name })];
    const told = make("p", { className: "told of-a-seat" });
    if (fault !== null && !leftOut) {
      told.classList.add(fault ? "bad" : "good");
      told.textContent = fault ? `Not taken: ${fault}.` : `Taken on trial. Its seal is ${print}.`;
    }
    return make("li", {}, make("p", {}, ...parts), told, label);
  }

  const rowsShown = (rows) => make("ul", { className: "intake" }, ...rows.map(rowShown));

  return { markSteps, outcomeOf, due, terms, handedOut, rowsShown, line, words, about, code };
})();
