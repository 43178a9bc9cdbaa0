// page/rehearsal_find.js: an auctioneer cheats in one way of six, and the reader finds which.
const RehearsalFind = (() => {
  const { find, make } = Fields;
  const { good, bad, odd } = Sentences;
  const { CHEATS, make: makeCheat } = RehearsalCheats;
  const { CHECKS } = RehearsalChecks;

  let place = null;
  let said = null;

  // The auction that is looked at, and in which way its auctioneer cheats; the ways that are left.
  let auction = null;
  let cheat = "";
  let left = [];

  // One of the ways that the reader hasn't seen.
  function drawCheat() {
    left = left.length ? left : Object.keys(CHEATS);
    const [number] = crypto.getRandomValues(new Uint32Array(1));
    return left.splice(number % left.length, 1)[0];
  }

  const NAMES = [
    "announcement", "seal-1", "seal-2", "seal-3", "board", "parts", "coin", "challenge", "reply",
    "challenge-2", "reply-2",
  ];

  function publicLinks() {
    const names = NAMES.filter((name) => auction.open[name]);
    const links = names.map((name) => place.link(name, auction.open[name]));
    const own = place.link("secret-2", auction.kept["secret-2"]);
    const summary = make("summary", { textContent: "All its files, to save" });
    return make("details", {}, summary, SellView.line(...links, own));
  }

  // A check that the reader can make: its button, and what came of it.
  function checkShown({ name, title, run }) {
    const button = Parts.smallButton("Check");
    const told = make("p", { className: "told" });
    button.setAttribute("aria-label", `Check: ${title}`);
    told.setAttribute("aria-live", "polite");
    button.addEventListener("click", () => {
      const looked = auction;
      place.follow(async () => {
        const { holds, note, answer } = await run(auction, place);
        if (looked !== auction) {
          return;
        }
        told.className = `told ${holds ? "good" : "bad"}`;
        told.textContent = `${holds ? "ok" : "FAILED"}: ${note}.`;
        if (answer) {
          told.append(` By the program's ${answer.words[0]}.`);
        }
      });
    });
    const head = make("p", {}, make("strong", { textContent: title }));
    const item = make("li", {}, head, button, told);
    item.dataset.check = name;
    return item;
  }

  const WRITTEN =
    "You are the bidder at seat 2. These are your secret, what is public, and what you wrote " +
    "down: the board's digest and the auditors' parts, when they were public.";

  function show() {
    const parts = auction.parts.map((digest, at) => `part ${at + 1} ${digest}`).join("\n");
    place.tell(odd("Made. One of the six checks finds what is wrong."));
    place.result.replaceChildren(
      ...Parts.paragraphs([WRITTEN, `The board says: ${outcome()}.`]),
      SellView.code(`${auction.digest}  board\n${parts}`),
      publicLinks(),
      make("ul", { className: "intake" }, ...CHECKS.map(checkShown)),
    );
    find("guess").hidden = false;
    find("cheats-run").textContent = "Make another one";
  }

  function outcome() {
    const [winner, price] = ["winner", "price"].map((word) => {
      return RehearsalChecks.line(auction.open.board, word);
    });
    return `seat ${winner} wins and pays ${Terms.amount(auction.said, Number(price))}`;
  }

  async function another() {
    find("guess").hidden = true;
    said.tell({ mood: "", title: "" });
    said.result.replaceChildren();
    cheat = drawCheat();
    auction = await makeCheat(cheat, place);
    show();
  }

  // What the reader says that the auctioneer did.
  function guess() {
    const { what, by, why } = CHEATS[cheat];
    const right = find("guess-what").value === cheat;
    const check = CHECKS.find(({ name }) => name === by).title;
    const wrong = "That isn't what it did. Make the checks above.";
    said.tell(right ? good(`Right. ${what}.`) : bad(wrong));
    const more = right ? [`What finds it: ${check}.`, why] : [];
    said.result.replaceChildren(...Parts.paragraphs(more));
  }

  function open() {
    find("cheats").hidden = false;
    find("cheats").scrollIntoView({ block: "start" });
    find("cheats-run").focus();
  }

  function begin() {
    place = Parts.beginTool("cheats", another);
    said = new Parts.Place(find("guess-work"));
    const names = Object.entries(CHEATS);
    const options = names.map(([value, { what }]) => make("option", { value, textContent: what }));
    find("guess-what").replaceChildren(...options);
    find("guess").addEventListener("submit", (event) => {
      event.preventDefault();
      guess();
    });
  }

  return { begin, open };
})();
