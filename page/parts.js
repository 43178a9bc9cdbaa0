// page/parts.js: how work goes, and how an answer is shown; what all tools of the page share.
//
// Texts go in by textContent alone; the policy refuses any other way.
const Parts = (() => {
  const { find, make, sized, quoted, typed, given, mark, mayRun, isTooLong } = Fields;
  const { headOf } = Kinds;
  const { bad, odd } = Sentences;
  const SHOWN_LINES = 400;

  // ---- Work in a Worker, and how it goes

  // Bytes that a second does, as a first guess, by command. Each longer run makes it better.
  const rates = { digest: 150e6, report: 60e6, verify: 15e6, "claim-verify": 15e6 };
  const OTHER_RATE = 10e6;

  // Seconds of the commands that are handed no files.
  const SECONDS = { sample: 4, "claim-sample": 0.5 };

  // The module has its bytes in `code`, and is in `module` when it has been compiled, once for all
  // work on this page.
  const setting = { queue: null, code: null, module: null };

  // The room for the answer of a command, where its tool names none
  const ROOM_SIZE = 16 * 1024 * 1024;

  // Milliseconds that the practice may take, a small part of which it needs
  const PRACTICE_TIME = 5000;

  const seconds = (time) => (time < 10 ? time.toFixed(1) : String(Math.round(time)));

  // Secrets that were made here, and that nobody has saved yet.
  const unsaved = new Set();

  // The place where a tool says how its work goes, and what came of it.
  class Place {
    // Where it `keeps` what was made, each result has a title of its own.
    constructor(element, keeps = false) {
      this.keeps = keeps;
      this.say = make("p", { className: "say" });
      this.say.setAttribute("role", "status");
      this.bar = make("progress", { max: 1 });
      this.bar.setAttribute("aria-label", "How far it is, about");
      this.time = make("span", { className: "time" });
      this.stop = make("button", { type: "button", className: "small", textContent: "Stop" });
      this.row = make("div", { className: "row", hidden: true }, this.bar, this.time, this.stop);
      this.result = make("div", { className: "results" });
      element.append(this.say, this.row, this.result);
      this.form = element.closest("form");
      this.jobs = [];
      this.addresses = [];
      this.secrets = [];
      this.turn = 0;
      this.following = 0;
      this.stop.addEventListener("click", () => this.stopped());
    }

    // Does something that may read files here, and says where that fails.
    async follow(doing) {
      this.following++;
      try {
        await doing();
      } catch (error) {
        const unread = error instanceof DOMException;
        const about = unread ? "one of the files" : String(error);
        this.tell(Sentences.fault(unread ? "unreadable" : "page", about));
      } finally {
        this.following--;
      }
    }

    tell({ mood, title }) {
      Object.assign(this.say, { className: `say ${mood}`, textContent: title });
    }

    stopped() {
      this.cease("Stopped. Nothing was found out.");
      this.form?.querySelector("button[type=submit]").focus();
    }

    // Stops what runs or waits here, and says why; false if nothing did.
    cease(why) {
      const stopped = this.jobs.splice(0).filter((job) => job.stop());
      if (stopped.length) {
        this.tell(odd(why));
      }
      return stopped.length > 0;
    }

    // Takes away what is shown. What is still on its way comes in an earlier turn, and isn't shown.
    clear() {
      this.turn++;
      this.cease("");
      this.tell({ mood: "", title: "" });
      this.addresses.splice(0).forEach((address) => URL.revokeObjectURL(address));
      this.secrets.splice(0).forEach((link) => unsaved.delete(link));
      this.result.replaceChildren();
    }

    // Takes away what is shown, but for what has a secret that isn't saved.
    tidy() {
      this.cease("");
      for (const shown of [...this.result.children]) {
        if (![...unsaved].some((link) => shown.contains(link))) {
          shown.remove();
        }
      }
    }

    // A link that saves bytes as a file of that name.
    link(name, bytes, text = `Save ${name} (${sized(bytes.length)})`) {
      const type = "application/octet-stream";
      const address = URL.createObjectURL(new Blob([bytes], { type }));
      this.addresses.push(address);
      return make("a", { href: address, download: name, className: "save", textContent: text });
    }

    // The same of a secret: who leaves the page without it is asked whether that is meant.
    secretLink(name, bytes, text) {
      const link = this.link(name, bytes, text);
      this.secrets.push(link);
      unsaved.add(link);
      link.addEventListener("click", () => unsaved.delete(link));
      return link;
    }
  }

  const paragraph = (textContent) => make("p", { textContent });
  const paragraphs = (texts) => texts.filter(Boolean).map(paragraph);

  const smallButton = (textContent) =>
    make("button", { type: "button", className: "small", textContent });

  // One piece of work of the queue, with a bar that shows about how far it is. What comes of it
  // goes to `then`.
  class Job {
    constructor(place, doing, message, size, then) {
      Object.assign(this, { place, doing, message, size, then });
      this.kind = message.task === "command" ? message.words[0] : message.task;
      place.jobs.push(this);
      place.result.setAttribute("aria-busy", "true");
      place.tell(odd(`${doing}: waiting for other work on this page.`));
      setting.queue.add(this);
    }

    began() {
      this.start = performance.now();
      this.guess = SECONDS[this.kind] || this.size / (rates[this.kind] || OTHER_RATE);
      const about = this.guess > 0.5 ? `: about ${seconds(this.guess)} seconds, by its size` : "";
      this.place.tell(odd(`${this.doing}${about}.`));
      this.timer = setInterval(() => this.show(), 150);
    }

    taken() {
      return (performance.now() - this.start) / 1000;
    }

    show() {
      const { bar, time, row } = this.place;
      const taken = this.taken();
      row.hidden = taken < 0.3;
      if (taken < this.guess) {
        bar.value = Math.min(0.97, taken / this.guess);
        time.textContent = `about ${seconds(this.guess - taken)} s more`;
      } else {
        bar.removeAttribute("value");
        time.textContent = `${seconds(taken)} s so far; how much more isn't known`;
      }
    }

    over() {
      clearInterval(this.timer);
      this.place.row.hidden = true;
      this.place.jobs = this.place.jobs.filter((job) => job !== this);
      this.place.result.setAttribute("aria-busy", String(this.place.jobs.length > 0));
    }

    answered(answer) {
      if (this.size > 1e6) {
        rates[this.kind] = this.size / this.taken();
      }
      this.over();
      this.place.tell({ mood: "", title: "" });
      this.place.follow(() => this.then(answer));
    }

    failed(fault, about) {
      this.over();
      const sentence = Sentences.fault(fault, about);
      this.place.tell(sentence);
      this.place.result.prepend(make("div", { className: "result" }, ...paragraphs(sentence.more)));
    }

    stop() {
      this.over();
      return setting.queue.stop(this);
    }
  }

  function commandMessage(rest) {
    const { module, code } = setting;
    return { task: "command", ...(module ? { module } : { code }), ...rest };
  }

  // Runs a command of the program. `files` has, by the names in the words, what it is handed: each
  // with its `file`, and `from` where that was made on this page. Of the first the answer has the
  // digest and the head too.
  function command(place, doing, words, files, more, then) {
    const { wanted = [], roomSize = ROOM_SIZE, hidden = {} } = more;
    const held = Object.entries(files).map(([name, { file }]) => [name, file]);
    const size = held.reduce((sum, [, file]) => sum + file.size, 0);
    const main = held.length ? held[0][0] : null;
    const message = commandMessage({ words, files: held, main, wanted, roomSize });
    const { turn } = place;
    const tell = (answer) => then({ ...answer, words, handed: files, hidden, turn });
    return new Job(place, doing, message, size, tell);
  }

  function digestJob(place, name, file, then) {
    return new Job(place, "Computing the digest", { task: "digest", name, file }, file.size, then);
  }

  // Work that nobody waits for. A browser compiles a function well once it has been busy with it,
  // for all that share the module: so this runs an example of the program's own, and drops what
  // comes of it.
  class Practice {
    constructor() {
      const words = ["claim-sample", "uniform", "1"];
      const files = { files: [], main: null, wanted: [], roomSize: 64 * 1024 };
      this.message = commandMessage({ words, ...files });
    }

    began() {
      this.timer = setTimeout(() => this.over(), PRACTICE_TIME);
    }

    halted() {
      clearTimeout(this.timer);
    }

    over() {
      this.halted();
      setting.queue.practice = null;
      setting.queue.stop(this);
    }

    answered() {
      this.over();
    }

    failed() {
      this.over();
    }
  }

  // Compiles the module, and tells its digest.
  function moduleJob(place, then) {
    const message = { task: "module", code: setting.code };
    return new Job(place, "Looking at the module", message, 0, ({ module, digest }) => {
      setting.module = module;
      setting.queue.practice = new Practice();
      then(digest);
    });
  }

  // ---- What is shown of an answer

  // A file that was handed to the program; of the first one with its digest.
  function described([name, { file, from }], digest) {
    const what = from ? from : quoted(file.name);
    const parts = [make("code", { textContent: name }), ": ", what, `, ${sized(file.size)}`];
    if (digest) {
      parts.push(", SHA-256 ", make("code", { className: "digest", textContent: digest }));
    }
    return make("li", {}, ...parts);
  }

  // The words of a command. Those that are secret, by their places, are shown when that is asked
  // for.
  function wordsShown(words, hidden) {
    const line = (hides) => {
      const shown = words.map((word, place) => (hides && hidden[place]) || word);
      return `vickrey ${shown.join(" ")}`;
    };
    const code = make("code", { className: "words", textContent: line(true) });
    const names = Object.values(hidden).map((name) => name.slice(1, -1));
    if (!names.length) {
      return [code];
    }
    const what = names.map((name) => `the ${name}`).join(" and ");
    const button = smallButton(`Show ${what}`);
    button.addEventListener("click", () => {
      const hides = code.textContent === line(false);
      code.textContent = line(hides);
      button.textContent = `${hides ? "Show" : "Hide"} ${what}`;
    });
    return [code, " ", button];
  }

  // The printed lines; of very many the first, and the rest when that is asked for.
  function linesShown(place, text) {
    const lines = text.split("\n");
    const pre = make("pre", { tabIndex: 0, textContent: text || "(nothing)" });
    pre.setAttribute("role", "region");
    pre.setAttribute("aria-label", "Lines that the program printed");
    if (lines.length <= SHOWN_LINES) {
      return [pre];
    }
    pre.textContent = lines.slice(0, SHOWN_LINES).join("\n");
    const rest = (lines.length - 1 - SHOWN_LINES).toLocaleString("en");
    const button = smallButton(`Show ${rest} more lines`);
    button.addEventListener("click", () => {
      pre.textContent = text;
      button.remove();
      pre.focus();
    });
    const save = place.link("printed", new TextEncoder().encode(text), "Save all lines");
    return [pre, make("p", { className: "doing" }, button, " ", save)];
  }

  // The words, the status and the lines of an answer, as they are.
  function said(place, { words, status, text, handed, hidden, digest }) {
    const shown = make("strong", { className: "status", textContent: Sentences.status(status) });
    const parts = [
      make("p", {}, "Words: ", ...wordsShown(words, hidden)),
      make("p", {}, "Status: ", shown),
    ];
    const files = Object.entries(handed);
    if (files.length) {
      parts.push(make("p", { textContent: "Files that it was handed:" }));
      const list = files.map((file, number) => described(file, number === 0 && digest));
      parts.push(make("ul", {}, ...list));
    }
    parts.push(make("p", { textContent: "Lines that it printed:" }), ...linesShown(place, text));
    return make("div", { className: "said" }, ...parts);
  }

  const sentenceOf = ({ words, status, text }) => Sentences.explain(words[0], status, text);

  // Shows an answer: its sentence, more parts if there are any, and folded away what the program
  // said of it and of `others`.
  function show(place, answer, parts = [], sentence = sentenceOf(answer), others = []) {
    if (answer.turn !== place.turn) {
      return;
    }
    place.tell(sentence);
    const head = place.keeps ? [make("h3", { textContent: sentence.title })] : [];
    const summary = make("summary", { textContent: "What the program said" });
    const answers = [answer, ...others].map((each) => said(place, each));
    const exact = make("details", {}, summary, ...answers);
    const all = [...head, ...paragraphs(sentence.more), ...parts, exact];
    place.result.prepend(make("div", { className: "result" }, ...all));
  }

  const STATES = { ok: "ok", wrong: "FAILED", open: "not compared", missing: "not here" };

  // A list of what was compared: each item has a state, what it is about, and perhaps a note.
  function checklist(items) {
    const rows = items.map(([state, what, note]) => {
      const shown = make("strong", { className: "state", textContent: STATES[state] });
      const said = make("span", { textContent: note ? `${what}: ${note}` : what });
      return make("li", { className: state }, shown, " ", said);
    });
    return make("ul", { className: "checklist" }, ...rows);
  }

  function table(caption, heads, rows) {
    const head = heads.map((textContent) => make("th", { textContent, scope: "col" }));
    const body = rows.map((row) => {
      const cells = row.map((textContent) => make("td", { textContent }));
      return make("tr", {}, ...cells);
    });
    const parts = [
      make("caption", { textContent: caption }),
      make("thead", {}, make("tr", {}, ...head)),
      make("tbody", {}, ...body),
    ];
    const box = make("div", { className: "wide-table", tabIndex: 0 }, make("table", {}, ...parts));
    box.setAttribute("role", "region");
    box.setAttribute("aria-label", caption);
    return box;
  }

  // ---- What tools share

  const CHANGED = "Something here was changed since. Press the button again.";

  // Runs a tool, unless one of its files is another one than belongs there.
  async function runWith(place, run) {
    const { turn } = place;
    const other = await Fields.otherFile(place.form);
    if (turn !== place.turn) {
      return;
    }
    if (other) {
      place.tell(odd(other));
    } else {
      await run(place);
    }
  }

  // Memory is taken for the files of a form before its button is pressed.
  function expectFiles(form) {
    const fields = [...form.querySelectorAll("input[type=file]")];
    const sizes = fields.flatMap(({ files }) => [...files].map((file) => file.size));
    const size = sizes.reduce((sum, each) => sum + each, 0);
    const longest = Math.max(0, ...sizes);
    setting.queue.expect({ module: setting.module, roomSize: ROOM_SIZE, size, longest });
  }

  // A tool is a form with a place below it. What it showed goes when something in it is changed,
  // but not where it `keeps` what it made.
  function beginTool(id, run, keeps = false) {
    const form = find(id);
    const place = new Place(find(`${id}-work`), keeps);
    form.addEventListener("submit", (event) => {
      event.preventDefault();
      if (keeps) {
        place.tidy();
      } else {
        place.clear();
      }
      if (mayRun(form)) {
        place.follow(() => runWith(place, run));
      } else {
        place.tell(bad("Something above is missing, or isn't of its form."));
      }
    });
    const changed = () => {
      expectFiles(form);
      // What was pressed and still looks at its files would judge some of before and some of now.
      const had = place.following > 0 || place.result.hasChildNodes();
      if (!keeps && (place.cease(CHANGED) || had)) {
        place.clear();
        place.tell(odd(CHANGED));
      }
    };
    form.addEventListener("input", changed);
    form.addEventListener("change", changed);
    return place;
  }

  const textFile = (text, from) => ({ file: new Blob([text]), from });

  const challengeText = (bits) => `vickrey-challenge 1\nbits ${bits}\nend\n`;

  // The challenge of a tool: its file, or else one that is made of the bits that were typed. Null
  // where there is neither, which is said at the field.
  async function challengeOf(id) {
    const file = given(`${id}-challenge`);
    const bits = typed(`${id}-bits`);
    if (file) {
      return { file: await Fields.copied(file) };
    }
    if (bits) {
      return textFile(challengeText(bits), "made of the bits that were typed");
    }
    mark(find(`${id}-bits`), "Type the bits, or choose the challenge as a file.");
    Fields.goTo(find(`${id}-bits`));
    return null;
  }

  // ---- Digests

  // What stands in a field for a published digest: 64 digits, or a line of sha256sum.
  function publishedDigest(id) {
    const text = find(id).value.trim().toLowerCase();
    const found = /^([0-9a-f]{64})(\s.*)?$/.exec(text);
    return { text, digest: found ? found[1] : null };
  }

  // The digest of the file in a field, and whether it is the published one, as both come.
  class DigestBox {
    constructor(id, name, what) {
      Object.assign(this, { id, name, what, found: null });
      this.place = new Place(find(`${id}-${name}-work`));
      this.field = find(`${id}-digest`);
      this.told = find(`${id}-digest-told`);
      this.field.addEventListener("input", () => this.compare());
      find(`${id}-${name}`).addEventListener("change", () => this.begin());
    }

    begin() {
      const file = given(`${this.id}-${this.name}`);
      this.place.clear();
      this.found = null;
      this.compare();
      if (file && !isTooLong(file)) {
        digestJob(this.place, this.name, file, (digest) => this.show(file, digest));
      }
      this.chosen(file);
    }

    // What else is to be done with a file that was chosen, or with none.
    chosen() {}

    show(file, digest) {
      this.found = digest;
      const shown = make("code", { className: "digest", textContent: digest });
      this.place.result.prepend(make("p", {}, "SHA-256 digest of these bytes: ", shown));
      this.compare();
    }

    compare() {
      const { text, digest } = publishedDigest(`${this.id}-digest`);
      const tell = (mood, title) => {
        Object.assign(this.told, { className: `told ${mood}`, textContent: title });
      };
      if (!text) {
        tell("", "");
      } else if (!digest) {
        tell("bad", "A digest has 64 digits, 0 to 9 and a to f.");
      } else if (!this.found) {
        tell("", `It is compared when ${this.what} is there.`);
      } else if (digest === this.found) {
        tell("good", "Same: these are the bytes whose digest was published.");
      } else {
        tell("bad", `Different: this isn't the file that was public. Don't rely on ${this.what}.`);
      }
    }
  }

  // ---- Seals on a board

  const SEAL_BYTES = 64 * 1024;

  // What a board publishes, from the lines that `report` printed.
  function factsOf(text) {
    const facts = { seats: [], winner: null, reserve: null };
    for (const [key, value = ""] of text.split("\n").map((line) => line.split(" "))) {
      if (key === "seat") {
        facts.seats.push(value);
      } else {
        facts[key] = value;
      }
    }
    return facts;
  }

  // The seal of a seat as it stands in the head of a board, as the text of a file; null if there
  // is none.
  function sealOnBoard(head, seat) {
    const lines = head.split("\n");
    const start = lines.indexOf(`seal ${seat}`) + 1;
    if (start === 0) {
      return null;
    }
    const length = lines.slice(start).findIndex((line) => !line.startsWith("x "));
    const digests = lines.slice(start, start + length);
    const first = ["vickrey-seal 1", lines[1], `seat ${seat}`, lines[3]];
    return [...first, ...digests, "end", ""].join("\n");
  }

  // Whether the seal of this text stands in the head of a board: an item of a list.
  function sealItem(head, text) {
    const seat = /\nseat ([1-9][0-9]{0,4})\n/.exec(text)[1];
    const what = `the seal of seat ${seat} stands on the board`;
    const onBoard = sealOnBoard(head, seat);
    if (onBoard === null) {
      return ["wrong", what, "the board has none at that seat"];
    }
    return onBoard === text ? ["ok", what] : ["wrong", what, "the board has another one there"];
  }

  // The text of a seal's file, and why that is no whole seal, or null.
  async function sealOf(file) {
    const text = await headOf(file, SEAL_BYTES);
    const fault = Kinds.faultOfSeal(text);
    const damaged = `You chose a damaged seal: line ${fault} isn't what it has to be.`;
    const other = fault ? `${damaged} Get it again as a file. ${Kinds.NOTHING}` : null;
    return { text, fault, other };
  }

  // The seals of a board, each as a link that saves it as a file.
  function sealsOf(place, head) {
    const links = head.seats.map((seat) => {
      const bytes = new TextEncoder().encode(head.sealText(seat));
      return place.link(`seal-${seat}-on-board`, bytes, `Save the seal of seat ${seat}`);
    });
    return [make("p", { className: "doing" }, ...links.flatMap((link) => [link, " "]))];
  }

  return {
    Place, DigestBox, setting, unsaved, paragraphs, smallButton, command, moduleJob, show, said,
    sentenceOf, checklist, table, beginTool, textFile, challengeOf, publishedDigest, factsOf,
    sealItem, sealOf, sealsOf,
  };
})();
