// page/check.js: the tab Check. The whole audit of a board or a claim file, point by point.
const Check = (() => {
  const { find, make, typed, given, isTooLong, mark, goTo } = Fields;
  const { bad, odd, good } = Sentences;

  let box = null;

  // ---- What a board says, as soon as it is chosen

  const outcomeOf = (head) => Outcome.sentence(head.outcome(), Amounts.setting.unit);

  function factRows(head) {
    return [
      ["Auction's id", head.auction],
      ["Width", `${head.width}: bids are below 2^${head.width}`],
      ["Lanes", head.lanes],
      ["Reserve", head.reserve || "none"],
      ["Seats, in the order of their seals", head.seats.join(", ")],
    ];
  }

  function folded(summary, ...parts) {
    return make("details", {}, make("summary", { textContent: summary }), ...parts);
  }

  function showReport(answer) {
    const { place } = box;
    if (answer.status !== 0) {
      const sentence = Sentences.explain("report", answer.status, answer.text);
      place.tell(sentence);
      place.result.append(...Parts.paragraphs(sentence.more), Parts.said(place, answer));
      return;
    }
    const head = Outcome.headOf(answer.head);
    const title = `The board says: ${outcomeOf(head)}. Whether that is right, the check shows.`;
    place.tell({ mood: "", title });
    const heads = ["What", "The board says"];
    const table = Parts.table("What the board publishes", heads, factRows(head));
    const about = [table, ...Parts.sealsOf(place, head), Parts.said(place, answer)];
    place.result.append(folded("All that it publishes, and its seals", ...about));
  }

  async function report(file) {
    const { turn } = box.place;
    const kind = file && !isTooLong(file) ? (await Kinds.look(file)).kind : "";
    if (kind === "board" && turn === box.place.turn) {
      const files = { board: { file } };
      Parts.command(box.place, "Reading the board", ["report", "board"], files, {}, showReport);
    }
  }

  // ---- What was announced and written down

  const numbersOf = (text) => (text === "" ? [] : text.split(","));

  // What the announcement says, without the seats that were left out.
  function byFile(now) {
    const left = numbersOf(typed("check-left-out"));
    return { ...now, seats: [...now.seats.keys()].filter((seat) => !left.includes(seat)) };
  }

  // What was typed of it. The reserve is undefined where nothing was, and null where there is none.
  function byFields() {
    const names = ["id", "width", "lanes", "reserve", "seats"];
    const texts = names.map((name) => typed(`check-${name}`) || null);
    const [auction, width, lanes, reserve, seats] = texts;
    const unknown = { kind: null, count: null, auditors: null };
    const least = reserve === null ? undefined : reserve;
    return {
      ...unknown,
      auction,
      width,
      lanes,
      reserve: reserve === "none" ? null : least,
      seats: seats && seats.split(","),
    };
  }

  const announced = () => (Announced.now() ? byFile(Announced.now()) : byFields());

  // The lines of the parts that were typed, or null where there are none. What is none of it is
  // said at the field.
  function partsTyped() {
    const field = find("check-parts");
    const lines = field.value.split("\n").map((line) => line.trim().replace(" commit ", " "));
    const found = lines.filter(Boolean);
    const form = (place) => new RegExp(`^part ${place + 1} [0-9a-f]{64}$`);
    const fault = found.findIndex((line, place) => !form(place).test(line));
    mark(field, fault < 0 ? "" : `Line ${fault + 1} has to be: part ${fault + 1} and 64 digits.`);
    return fault < 0 ? { parts: found.length ? found : null } : { field };
  }

  function digestTyped() {
    const field = find("check-digest");
    const { text, digest } = Parts.publishedDigest("check-digest");
    const fits = text === "" || digest !== null;
    mark(field, fits ? "" : "A digest has 64 digits, 0 to 9 and a to f.");
    return fits ? { digest } : { field };
  }

  // What was written down, or the field in which it isn't of its form.
  function written() {
    const found = { bits: typed("check-bits") || null, ...digestTyped() };
    return found.field ? found : { ...found, ...partsTyped() };
  }

  // ---- The files

  const FILES = { seals: "the seal", secret: "the secret", coin: "the coin" };

  async function looked(name) {
    const files = [...find(`check-${name}`).files];
    return Promise.all(
      files.map(async (file) => ({ name, file, look: await Kinds.look(file) })),
    );
  }

  // The public seals by their seats, or why they can't be taken.
  async function sealsOf(found) {
    const seals = new Map();
    for (const { file, look } of found) {
      const { text, fault } = await Parts.sealOf(file);
      const known = seals.get(look.seat);
      if (known && known.text !== text) {
        const other = `You chose two different seals of seat ${look.seat}. ${Kinds.NOTHING}`;
        return { other };
      }
      seals.set(look.seat || file.name, { text, fault });
    }
    return { seals };
  }

  // The seat and the bid of a secret, or why it can't be taken.
  async function secretOf([found], seats) {
    if (!found) {
      return { secret: null };
    }
    const secret = Look.secretOf(await Kinds.headOf(found.file, 64 * 1024));
    if (!secret) {
      return { other: `You chose a damaged secret: get your copy of it. ${Kinds.NOTHING}` };
    }
    const isKnown = seats === null || seats.includes(secret.seat);
    const other = `You chose the secret of seat ${secret.seat}, which isn't announced.`;
    return isKnown ? { secret } : { other: `${other} ${Kinds.NOTHING}` };
  }

  function kindFits(kind) {
    const now = Announced.now();
    const wanted = now && now.kind !== "vickrey" ? "claim" : "board";
    return !now || kind === wanted
      ? null
      : `You chose a ${kind === "claim" ? "claim file" : kind}, and the announcement is of the ` +
          `kind ${now.kind}. ${Kinds.NOTHING}`;
  }

  // All files beside the board, the challenge and the reply; or why one of them is another file.
  async function others(main, seats) {
    const [seals, secrets, coins] = await Promise.all(Object.keys(FILES).map(looked));
    const all = [...seals, ...secrets, ...coins];
    const names = all.map(({ name, look }) => [FILES[name], look]);
    const name = main.look.kind === "claim" ? "the claim file" : "the board";
    const apart = Kinds.apart("auction", [[name, main.look], ...names]);
    const taken = { ...(await sealsOf(seals)), ...(await secretOf(secrets, seats)) };
    const coin = coins.length ? { own: await Kinds.headOf(coins[0].file, 64 * 1024) } : null;
    const file = coins.length ? coins[0].file : null;
    const other = kindFits(main.look.kind) || apart || taken.other || null;
    return { ...taken, coin, coinFile: file, other };
  }

  // ---- The verdict

  const FORESEEN_TITLE =
    "By itself this says nothing yet: give the digest that was public before the draw.";

  // The states of the points on the digest and on the id.
  const stateOf = (points, words) =>
    (points.find(([, said]) => said.includes(words)) || ["open"])[0];

  function verdict(points, answer, head) {
    const [digest, id] = [stateOf(points, "digest is the one"), stateOf(points, "'s id is the")];
    const explained = Parts.sentenceOf(answer);
    const isOdd = answer.status > 1 && answer.status !== 3;
    if (id === "wrong" && digest !== "ok") {
      const other = `You chose the ${head.what} of another auction than the announced one.`;
      return odd(other, Kinds.NOTHING);
    }
    if (isOdd || !head.outcome()) {
      return explained;
    }
    const said = Points.sentence(points, head, Amounts.setting.unit);
    const why = answer.status === 0 ? [] : [explained.title, ...explained.more];
    const foreseen = digest === "ok" ? [] : [Sentences.FORESEEN];
    if (Points.count(points, "wrong")) {
      return bad(said, ...why, ...foreseen);
    }
    const says = `The ${head.what} says: ${outcomeOf(head)}.`;
    if (digest === "open") {
      return odd(FORESEEN_TITLE, says, Sentences.FORESEEN);
    }
    return Points.count(points, "open") ? odd(said) : good(said);
  }

  // The lines above a report: of which files it is.
  function front(answer, held) {
    const module = find("module-digest").textContent;
    const lines = ["vickrey audit, made by the page in a browser", `module SHA-256 ${module}`];
    if (Announced.now()) {
      lines.push(`announcement SHA-256 ${Announced.digest()}`);
    }
    lines.push(`${held.what} SHA-256 ${answer.digest}`);
    return lines;
  }

  function listShown(points) {
    const ofStates = (...states) =>
      points.filter(([state]) => states.includes(state)).map(([state, said]) => [state, said]);
    const [odd, held] = [ofStates("wrong", "open"), ofStates("ok", "missing")];
    const passed = Points.count(points, "ok");
    const list = folded(`All that holds: ${passed} checks`, Parts.checklist(held));
    list.open = matchMedia("(min-width: 40rem)").matches;
    return odd.length ? [Parts.checklist(odd), list] : [list];
  }

  function show(place, answer, joined, held) {
    const head = Outcome.headOf(answer.head);
    const files = { ...held, head, found: answer.digest, accepts: answer, coin: null };
    if (held.coin) {
      files.coin = { ...held.coin, ...joined, made: textOf(joined.files.challenge) };
    }
    const points = Points.listOf(held.announced, held.written, files, answer.head !== "");
    const sentence = verdict(points, answer, head);
    const text = Points.report(front(answer, { what: head.what }), points, sentence.title);
    const name = `audit-${head.auction.slice(0, 8) || "report"}.txt`;
    const save = place.link(name, new TextEncoder().encode(text), "Save the report");
    const copied = Keep.copyButton(sentence.title, "the verdict", "Copy the verdict");
    const doing = make("p", { className: "doing" }, save, " ", copied);
    Parts.show(place, answer, [...listShown(points), doing], sentence, joined ? [joined] : []);
    find("check-given").open = false;
  }

  const textOf = (bytes) => (bytes ? new TextDecoder().decode(bytes) : "");

  // ---- How it runs

  function join(place, challenge, held, then) {
    if (!held.coin) {
      then(null);
      return;
    }
    const files = { coin: { file: held.coinFile } };
    const words = ["coin-join", "coin", "joined"];
    const told = (answer) => then({ ...answer, files: { challenge: answer.files.joined } });
    if (held.turn !== place.turn) {
      return;
    }
    Parts.command(place, "Joining the shares", words, files, { wanted: ["joined"] }, told);
  }

  async function held(main, challenge) {
    const all = { announced: announced(), written: written() };
    const found = await others(main, all.announced.seats);
    return { ...all, ...found, challenge: await challenge.file.text() };
  }

  async function judge(place, main, challenge) {
    const { turn } = place;
    const all = { ...(await held(main, challenge)), turn };
    if (turn !== place.turn) {
      return;
    }
    if (all.written.field) {
      goTo(all.written.field);
      place.tell(bad("Something above is missing, or isn't of its form."));
      return;
    }
    if (all.other) {
      place.tell(odd(all.other));
      return;
    }
    const is = main.look.kind === "claim" ? "claim" : "board";
    const files = { [is]: { file: main.file }, challenge, reply: { file: given("check-reply") } };
    const words = [is === "claim" ? "claim-verify" : "verify", is, "challenge", "reply"];
    const then = (answer) =>
      join(place, challenge, all, (joined) => show(place, answer, joined, all));
    Parts.command(place, "Checking", words, files, {}, then);
  }

  async function run(place) {
    const { turn } = place;
    const file = given("check-board");
    const [challenge, look] = await Promise.all([Parts.challengeOf("check"), Kinds.look(file)]);
    if (turn !== place.turn) {
      return;
    }
    if (!challenge) {
      place.tell(bad("There is no challenge."));
      return;
    }
    await judge(place, { file, look }, challenge);
  }

  // What is asked where auditors draw the challenge, and where one challenger does; both where
  // nobody said which.
  function showAuditors(now) {
    const [few, many] = [now !== null && now.auditors > 0, now !== null && now.auditors === 0];
    find("check-alone").hidden = few;
    find("check-coin-box").hidden = many;
    find("check-parts-box").hidden = many;
    find("check-left").hidden = now === null;
  }

  function begin() {
    box = new Parts.DigestBox("check", "board", "the board");
    box.chosen = report;
    Parts.beginTool("check", run);
    Fields.beginAll("check");
    Announced.onChange(showAuditors);
  }

  return { begin };
})();
