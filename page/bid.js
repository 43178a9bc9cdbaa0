// page/bid.js: a bid is typed, reviewed and sealed; what is made of it is kept. And the bid of two
// replies is held against its secret.
const Bid = (() => {
  const { find, make, typed, given, give, mark, goTo } = Fields;
  const { odd, bad } = Sentences;

  // 64 secret digits of the browser's own generator.
  const drawnSeed = () => Work.digits(crypto.getRandomValues(new Uint8Array(32)));

  // The place below the files that were made, and what is still to be saved of them
  let kept = null;
  const waiting = new Set();

  // ---- The review

  // What is sealed: the words of the command, and the highest bid that the auction takes.
  function reviewed() {
    const [id, seat, width, lanes] = ["id", "seat", "width", "lanes"].map((name) =>
      typed(`seal-${name}`),
    );
    const { unit } = Amounts.setting;
    const bid = unit.number(typed("seal-bid"));
    const most = 2n ** BigInt(width) - 1n;
    return { id, seat, width, lanes, bid, most, unit };
  }

  function reviewLines({ seat, bid, most, unit }) {
    const announced = Announced.now();
    const name = Announced.nameOf(seat);
    const lines = [
      `You bid ${unit.amount(bid)} at seat ${seat}${name && `, ${name}`}. The highest bid that ` +
        `this auction takes is ${unit.amount(most)}.`,
      `In words: ${unit.words(bid)}.`,
    ];
    if (announced && announced.reserve !== null && bid < announced.reserve) {
      const reserve = unit.amount(announced.reserve);
      lines.push(`It is below the reserve of ${reserve}, so it can't win.`);
    }
    return lines;
  }

  const hideReview = () => {
    find("seal-review").hidden = true;
    find("seal-run").hidden = false;
  };

  function review(place) {
    const found = reviewed();
    if (Announced.now() && found.bid > found.most) {
      mark(find("seal-bid"), `A bid is at most ${found.unit.amount(found.most)}.`);
      goTo(find("seal-bid"));
      place.tell(bad("The bid is higher than this auction takes."));
      return;
    }
    const lines = reviewLines(found).map((textContent) => make("p", { textContent }));
    find("seal-review-lines").replaceChildren(...lines);
    find("seal-review").hidden = false;
    find("seal-run").hidden = true;
    place.tell(odd("Look whether this is your bid. Nothing is sealed yet."));
    find("seal-sure").focus();
  }

  // ---- Sealing, and what is kept

  const step = (textContent) => make("li", { textContent });

  // What is to be done with the two files, with what the announcement says of it.
  function nextSteps(seat) {
    const now = Announced.now();
    const until = (name) =>
      now && now.deadlines[name] ? ` by ${Announcement.timeSaid(now.deadlines[name])}` : "";
    const place = now ? `: ${now.place}` : ", where the announcement says";
    return [
      `Publish seal-${seat}${until("seals")}${place}, signed or in person, so that all know ` +
        "that it is yours. It shows nothing of your bid.",
      `When all seals are public, ${handed(seat, now)}${until("secrets")}.`,
      "When the board is public, look whether your seal stands on it: that is the next step.",
    ];
  }

  // How the secret goes to the auctioneer.
  function handed(seat, now) {
    if (keyPoint()) {
      return (
        `send secret-${seat}.cms to the auctioneer, by any way: it is your secret, encrypted so ` +
        "that nobody else can open it. Send it"
      );
    }
    const isKey = now && now.key !== null;
    const key = isKey ? `encrypted to the key ${now.key}` : "in person, or encrypted";
    return `hand secret-${seat} to the auctioneer, and to nobody else, ${key}`;
  }

  // The announced key, where it is one that this page encrypts to.
  function keyPoint() {
    const now = Announced.now();
    return now && Locked.isPossible() ? Locked.pointOf(now.key) : null;
  }

  const isSaved = () => waiting.size === 0;

  function tellKept(mood, textContent) {
    Object.assign(find("keep-told"), { className: `told ${mood}`, textContent });
  }

  function saved(name) {
    waiting.delete(name);
    tellKept(isSaved() ? "good" : "odd", isSaved() ? "All is saved: go on." : holdsBack());
  }

  // Why one can't go on yet.
  const holdsBack = () => `Save ${Announcement.listed([...waiting])} before you go on.`;

  // Hands the two files on to the steps behind.
  function handOn(seat, { secret, seal }) {
    give(find("mine-seal"), [new File([seal], `seal-${seat}`)]);
    give(find("mine-secret"), [new File([secret], `secret-${seat}`)]);
  }

  async function sealed(place, answer) {
    if (answer.status !== 0) {
      Parts.show(place, answer);
      return;
    }
    const seat = answer.words[2];
    const { secret, seal } = answer.files;
    const point = keyPoint();
    const files = [
      [`secret-${seat}`, secret, SECRET],
      [`seal-${seat}`, seal, SEAL],
      ...(point ? [[`secret-${seat}.cms`, await Locked.lock(secret, point), LOCKED]] : []),
    ];
    files.forEach(([name]) => waiting.add(name));
    const card = ([name, bytes, about]) => Keep.card(place, name, bytes, about, () => saved(name));
    const cards = await Promise.all(files.map(card));
    const list = make("ol", { className: "hanging" }, ...nextSteps(seat).map(step));
    Parts.show(place, answer, [make("div", { className: "pair" }, ...cards), list]);
    tellKept("odd", holdsBack());
    handOn(seat, answer.files);
  }

  const SECRET = "Yours alone: it has your bid, and opens the seal. It can't be had again.";
  const SEAL = "For everybody: it fixes your bid, and shows nothing of it.";
  const LOCKED = "For the auctioneer: your secret, encrypted to the key that was announced.";

  // Two secrets that aren't saved would be one too many.
  function isFree() {
    if (!isSaved()) {
      tellKept("bad", `${holdsBack()} Or press 'Throw these files away'.`);
      find("keep-away").hidden = false;
    }
    return isSaved();
  }

  function seal() {
    const { id, seat, width, lanes, bid } = reviewed();
    hideReview();
    Way.go("keep");
    if (!isFree()) {
      return;
    }
    kept.clear();
    tellKept("", "");
    const seed = typed("seal-seed") || drawnSeed();
    const words = ["seal", id, seat, String(bid), width, lanes, seed, "secret", "seal"];
    const more = { wanted: ["secret", "seal"], hidden: { 3: "(bid)", 6: "(seed)" } };
    Parts.command(kept, "Sealing", words, {}, more, (answer) => sealed(kept, answer));
  }

  function throwAway() {
    kept.clear();
    waiting.clear();
    Parts.unsaved.clear();
    ["seal", "secret"].forEach((name) => give(find(`mine-${name}`), []));
    find("keep-away").hidden = true;
    tellKept("", "");
    Way.go("bid");
  }

  function goOn() {
    if (isSaved()) {
      Way.go("look");
    } else {
      tellKept("bad", holdsBack());
    }
  }

  // ---- The seats of the announcement

  // Where seats were announced, one of them is chosen, and not typed.
  function showSeats(announced) {
    const chosen = find("seal-seat-of");
    find("seal-seat-typed").hidden = announced !== null;
    find("seal-seat-chosen").hidden = announced === null;
    const seats = announced ? [...announced.seats] : [];
    const options = seats.map(([seat, name]) => make("option", { value: seat }, `${seat} ${name}`));
    chosen.replaceChildren(make("option", { value: "" }, "Choose your seat"), ...options);
    find("seal-seat").value = "";
    find("seal-unit").textContent = announced ? `, in ${announced.unit.name}` : ", a whole number";
    hideReview();
    const [textContent, className] = announced ? ["Go on", ""] : ["Go on without a file", "small"];
    Object.assign(find("announcement-on"), { textContent, className });
  }

  // ---- Is my bid held?

  async function confront(place) {
    const { turn } = place;
    const names = ["board", "challenge-1", "reply-1", "challenge-2", "reply-2", "secret"];
    const handed = names.map((name) => [name, { file: given(`confront-${name}`) }]);
    const look = async ([name, { file }]) => [Sentences.named(name), await Kinds.look(file)];
    const other = Kinds.apart("auction", await Promise.all([handed[0], handed[5]].map(look)));
    if (turn !== place.turn) {
      return;
    }
    if (other) {
      place.tell(odd(other));
      return;
    }
    const then = (answer) => Parts.show(place, answer);
    const words = ["confront", ...names];
    Parts.command(place, "Confronting", words, Object.fromEntries(handed), {}, then);
  }

  function begin() {
    const place = Parts.beginTool("seal", review);
    find("seal").addEventListener("input", hideReview);
    find("seal-sure").addEventListener("click", () => {
      place.clear();
      seal();
    });
    find("seal-change").addEventListener("click", () => {
      hideReview();
      place.clear();
      find("seal-bid").focus();
    });
    find("seal-seat-of").addEventListener("change", ({ target }) => {
      find("seal-seat").value = target.value;
    });
    kept = new Parts.Place(find("keep-work"));
    find("keep-on").addEventListener("click", goOn);
    find("keep-away").addEventListener("click", throwAway);
    Way.guards.keep = () => {
      tellKept(isSaved() ? "" : "bad", isSaved() ? "" : holdsBack());
      return isSaved() ? "" : holdsBack();
    };
    Announced.onChange(showSeats);
    Parts.beginTool("confront", confront);
  }

  return { begin, drawnSeed };
})();
