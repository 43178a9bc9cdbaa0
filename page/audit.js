// page/audit.js: the tab Audit. Challenges of several auditors, two replies, samples.
const Audit = (() => {
  const { find, make, typed, given, give } = Fields;
  const { bad } = Sentences;

  const step = (textContent) => make("li", { textContent });
  const line = (...parts) => make("p", { className: "doing" }, ...parts);
  const code = (textContent) => make("pre", { className: "publish", tabIndex: 0, textContent });

  // ---- A share of a challenge

  function drawn(place, answer) {
    if (answer.status !== 0) {
      Parts.show(place, answer);
      return;
    }
    const auditor = answer.words[2];
    const [publish] = answer.text.split("\n");
    const steps = [
      "Publish the line above now, signed, with the board's digest beside it.",
      `share-${auditor} is yours until all parts are public. Save it now, and show it to nobody ` +
        "before.",
      "When all parts are public, and you have written them down, publish the share.",
      "The seed would make the share again. Whoever has it knows the share: tell it to nobody.",
    ];
    const save = place.secretLink(`share-${auditor}`, answer.files.share);
    const list = make("ol", {}, ...steps.map(step));
    const published = Keep.publish(publish, "your part");
    Parts.show(place, answer, [published, line(save), list]);
  }

  function part(place) {
    const seed = typed("part-seed") || Bid.drawnSeed();
    const numbers = ["id", "auditor", "lanes"].map((name) => typed(`part-${name}`));
    const more = { wanted: ["share"], hidden: { 4: "(seed)" } };
    const then = (answer) => drawn(place, answer);
    Parts.command(place, "Drawing", ["coin-part", ...numbers, seed, "share"], {}, more, then);
  }

  // ---- Shares are joined

  // What can't be put into a coin, said for people.
  class Unfit extends Error {}

  // The digests of parts, typed line by line in the order of the auditors.
  function partsOf(text) {
    const lines = text.split("\n").map((line) => line.trim());
    return lines.filter(Boolean).map((line, place) => {
      const found = /^part ([1-9][0-9]?) (?:commit )?([0-9a-f]{64})$/.exec(line);
      if (!found || Number(found[1]) !== place + 1) {
        const number = place + 1;
        throw new Unfit(`Line ${number} of the parts has to be: part ${number} and 64 digits.`);
      }
      return found[2];
    });
  }

  const HEAD_OF_SHARE = /^vickrey-share 1\nauction ([0-9a-f]{32})\nauditor ([1-9]\d?)\n/;
  const SHOW_OF_SHARE = /\nauditor \d+\nshow ([0-9a-f]{64}) ([01]{1,64})\nend\n$/;

  async function shareOf(file) {
    const text = await Kinds.headOf(file, 512);
    const head = HEAD_OF_SHARE.exec(text);
    const show = SHOW_OF_SHARE.exec(text);
    if (!head || !show || text.split("\n").length !== 6) {
      throw new Unfit(`One of the files is no share: ${file.name.slice(0, 60)}`);
    }
    const [, auction, auditor] = head;
    const [, key, bits] = show;
    return { auction, auditor: Number(auditor), key, bits };
  }

  // The text of the coin of these parts and shares. What it comes to, the program says.
  function coinText(parts, shares) {
    const [first] = shares;
    const lines = ["vickrey-coin 1", `auction ${first.auction}`, `bits ${first.bits.length}`];
    lines.push(`auditors ${parts.length}`);
    parts.forEach((digest, place) => lines.push(`part ${place + 1} ${digest}`));
    parts.forEach((_, place) => {
      const own = shares.filter(({ auditor }) => auditor === place + 1);
      if (own.length !== 1) {
        const what = own.length ? "There are two shares" : "There is no share";
        throw new Unfit(`${what} of auditor ${place + 1}. Each part needs its share.`);
      }
      lines.push(`show ${place + 1} ${own[0].key} ${own[0].bits}`);
    });
    if (shares.length !== parts.length) {
      throw new Unfit(`There are ${shares.length} shares, and ${parts.length} parts.`);
    }
    if (shares.some(({ auction }) => auction !== first.auction)) {
      throw new Unfit("You chose shares of several auctions. No challenge comes of these.");
    }
    return [...lines, "end", ""].join("\n");
  }

  async function coinOf() {
    const file = given("join-coin");
    if (file) {
      return { file };
    }
    const parts = partsOf(find("join-parts").value);
    const shares = await Promise.all([...find("join-shares").files].map(shareOf));
    if (parts.length === 0 || shares.length === 0) {
      throw new Unfit("Give the parts and the shares, or the coin.");
    }
    return Parts.textFile(coinText(parts, shares), "made of the parts and shares");
  }

  // A challenge that a command has made, to be saved.
  function challengeParts(place, bytes) {
    const bits = new TextDecoder().decode(bytes).split("\n")[1];
    return [code(bits), line(place.link("challenge", bytes))];
  }

  async function joined(place, coin, answer) {
    const parts = [];
    if (answer.status === 0) {
      parts.push(...challengeParts(place, answer.files.challenge));
      if (coin.from) {
        const bytes = new Uint8Array(await coin.file.arrayBuffer());
        parts.push(line(place.link("coin", bytes)));
      }
    }
    Parts.show(place, answer, parts);
  }

  async function join(place) {
    const { turn } = place;
    const coin = await coinOf().catch((error) => {
      if (!(error instanceof Unfit)) {
        throw error;
      }
      place.tell(bad(error.message));
    });
    if (coin && turn === place.turn) {
      const more = { wanted: ["challenge"] };
      const then = (answer) => joined(place, coin, answer);
      Parts.command(place, "Joining", ["coin-join", "coin", "challenge"], { coin }, more, then);
    }
  }

  function derive(place) {
    const files = { board: { file: given("derive-board") } };
    const then = (answer) => {
      const done = answer.status === 0;
      Parts.show(place, answer, done ? challengeParts(place, answer.files.challenge) : []);
    };
    const words = ["coin-board", "board", "challenge"];
    Parts.command(place, "Deriving", words, files, { wanted: ["challenge"] }, then);
  }

  // ---- Two replies

  // What was opened, seat by seat: the value of the first lane, as it is `shown`, and whether all
  // lanes have it.
  function openedRows(text, shown) {
    const values = new Map();
    const rows = [];
    for (const words of text.split("\n").map((line) => line.split(" "))) {
      if (words[0] === "lane" && !values.has(words[3])) {
        values.set(words[3], words[5]);
      } else if (words[0] === "seat") {
        const same = words[2] === "same";
        rows.push([words[1], same ? shown(values.get(words[1])) : "differs from lane to lane"]);
      }
    }
    return rows;
  }

  // The bids of the announced auction are in its unit; other values are whole numbers.
  function extracted(place, answer) {
    const isBoard = answer.words[0] === "extract";
    const now = Announced.now();
    const isAnnounced = isBoard && now && Outcome.headOf(answer.head).auction === now.auction;
    const shown = (value) => (isAnnounced ? now.unit.amount(BigInt(value)) : value);
    const heads = ["Seat", isBoard ? "Bid" : "Value"];
    const rows = answer.status === 0 ? openedRows(answer.text, shown) : [];
    Parts.show(place, answer, rows.length ? [Parts.table("What was opened", heads, rows)] : []);
  }

  async function extract(place) {
    const file = given("extract-board");
    const { turn } = place;
    const { kind } = await Kinds.look(file);
    if (turn !== place.turn) {
      return;
    }
    const first = kind === "claim" ? "claim" : "board";
    const rest = ["challenge-1", "reply-1", "challenge-2", "reply-2"];
    const files = { [first]: { file } };
    rest.forEach((name) => {
      files[name] = { file: given(`extract-${name}`) };
    });
    const words = [kind === "claim" ? "claim-extract" : "extract", first, ...rest];
    Parts.command(place, "Extracting", words, files, {}, (answer) => extracted(place, answer));
  }

  // ---- Samples

  const ROOM = 96 * 1024 * 1024;
  const REST = ["challenge-1", "reply-1", "challenge-2", "reply-2"];

  // Puts the files of a sample into the fields of another tool, and goes there.
  function putInto(tab, fields) {
    Object.entries(fields).forEach(([id, file]) => give(find(id), [file]));
    Page.choose(tab);
    const [first] = Object.keys(fields);
    find(first).focus();
    find(first).scrollIntoView({ block: "center" });
  }

  // What can be done with a sample at once: the button's words, the tab, and which of its files, by
  // the end of their names, go into which fields there.
  function usesOf() {
    const one = {
      "check-board": "board",
      "check-challenge": "challenge-1",
      "check-reply": "reply-1",
    };
    const two = { "extract-board": "board" };
    REST.forEach((name) => {
      two[`extract-${name}`] = name;
    });
    return [
      ["Use these to check a reply", "check", one],
      ["Use these to extract", "audit", two],
    ];
  }

  function useButtons(start, files) {
    return usesOf().map(([words, tab, fields]) => {
      const button = Parts.smallButton(words);
      button.addEventListener("click", () => {
        const given = Object.entries(fields).map(([field, end]) => {
          const name = `${start}-${end}`;
          return [field, new File([files[name]], name)];
        });
        putInto(tab, Object.fromEntries(given));
      });
      return button;
    });
  }

  function sampled(place, start, answer) {
    if (answer.status !== 0) {
      Parts.show(place, answer);
      return;
    }
    const links = Object.entries(answer.files).map(([name, bytes]) => place.link(name, bytes));
    const apart = (elements) => elements.flatMap((element) => [element, " "]);
    const buttons = useButtons(start, answer.files);
    Parts.show(place, answer, [line(...apart(buttons)), line(...apart(links))]);
  }

  function sample(place) {
    const kind = find("sample-kind").value;
    const number = typed("sample-number");
    const words = kind === "board" ? ["sample", number] : ["claim-sample", kind, number];
    const start = kind === "board" ? "sample" : "claim";
    const wanted = ["board", ...REST].map((name) => `${start}-${name}`);
    const then = (answer) => sampled(place, start, answer);
    Parts.command(place, "Making", words, {}, { wanted, roomSize: ROOM }, then);
  }

  function begin() {
    Parts.beginTool("part", part, true);
    Parts.beginTool("join", join);
    Parts.beginTool("extract", extract);
    Parts.beginTool("derive", derive);
    Parts.beginTool("sample", sample);
  }

  return { begin, Unfit, partsOf, shareOf, coinText };
})();
