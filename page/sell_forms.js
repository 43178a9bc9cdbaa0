// page/sell_forms.js: the forms of the tab Sell, one for each step, and what is asked of them.
const SellForms = (() => {
  const { find, given, typed } = Fields;
  const { bad, good, odd } = Sentences;

  const TOOLS = ["sell-terms", "sell-take", "sell-prove", "sell-draw", "sell-pack"];
  const places = {};

  // What the forms ask the tab to do: announce, take, prove, answer; and what is open, `current`.
  let steps = null;

  // The rows of the intake.
  let rows = [];

  class Unfit extends Error {}

  const KINDS_OF_UNFIT = [Unfit, SellTerms.Unfit, House.Unfit, Audit.Unfit];
  const isUnfit = (error) => KINDS_OF_UNFIT.some((kind) => error instanceof kind);

  // Does the work of a form, and says there what it can't do.
  function doing(run) {
    return async (place) => {
      try {
        await run(place);
      } catch (error) {
        if (!isUnfit(error)) {
          throw error;
        }
        place.tell(bad(error.message));
      }
    };
  }

  // Files that are chosen in a field, or dropped on its form, go to `then`.
  function takeFiles(formId, fieldId, then) {
    const field = find(fieldId);
    field.addEventListener("change", (event) => {
      event.stopPropagation();
      const files = [...field.files];
      field.value = "";
      if (files.length) {
        then(files);
      }
    });
    find(formId).addEventListener("drop", (event) => {
      const files = [...event.dataTransfer.files];
      if (files.length) {
        event.preventDefault();
        event.stopPropagation();
        document.body.classList.remove("dropping");
        then(files);
      }
    });
  }

  // ---- The intake

  const listed = (seats) =>
    seats.length > 1 ? `${seats.slice(0, -1).join(", ")} and ${seats.at(-1)}` : String(seats[0]);

  const showRows = () => find("sell-rows").replaceChildren(SellView.rowsShown(rows));

  async function tried(place) {
    await Intake.tryAll(place, steps.current().house, rows);
    showRows();
  }

  function putFiles(files) {
    const place = places["sell-take"];
    const { turn } = place;
    place.follow(async () => {
      const left = await Intake.put(steps.current().house, rows, files);
      await tried(place);
      if (turn !== place.turn) {
        return;
      }
      const ready = rows.filter((row) => row.fault === "" && !row.leftOut).length;
      const told = `Tried: of ${rows.length} seats ${ready} can be taken.`;
      const mood = ready === rows.length ? good : odd;
      place.tell(left.length ? bad(`${told} Some files are for none, see below.`) : mood(told));
      place.result.replaceChildren(...left.map(([file, why]) => SellView.about(file, why)));
    });
  }

  async function take(place) {
    await tried(place);
    const wrong = rows.filter(Intake.isWrong).map(({ seat }) => seat);
    const changes = Intake.takenBy(steps.current().house, rows);
    if (wrong.length) {
      const what = `of ${rows.length} seats ${wrong.length} can't be, ${listed(wrong)}`;
      throw new Unfit(`Nothing was taken: ${what}. The rows say what to ask for.`);
    }
    if (changes.taken.length === 0) {
      throw new Unfit("Nothing was taken: every seat is left out.");
    }
    await steps.take(changes);
  }

  // ---- The draw

  const MOST_COIN = 16 * 1024;

  // The bytes of the coin, whose parts are those that were written down.
  async function coinOf({ id, auditors }) {
    const parts = Audit.partsOf(find("sell-draw-parts").value);
    if (parts.length !== auditors) {
      throw new Unfit(
        `The announcement has ${auditors} auditors, and ${parts.length} parts are typed. Type ` +
          "the part of each, as you wrote it down before the first share was shown.",
      );
    }
    const file = given("sell-draw-coin");
    const shares = [...find("sell-draw-shares").files];
    const text = file
      ? await Asked.headOf(file, MOST_COIN)
      : Audit.coinText(parts, await Promise.all(shares.map(Audit.shareOf)));
    if (text.split("\n")[1] !== `auction ${id}`) {
      throw new Unfit("The coin, or a share, is of another auction.");
    }
    const held = [...text.matchAll(/^part [0-9]+ ([0-9a-f]{64})$/gm)].map(([, digest]) => digest);
    if (held.join() !== parts.join()) {
      throw new Unfit("The coin has other parts than those that are typed. Answer no such coin.");
    }
    return Uint8Array.from(text, (letter) => letter.charCodeAt(0));
  }

  const CHALLENGE = /^vickrey-challenge 1\nbits ([01]+)\nend\n$/;
  const bitsOf = (challenge) => (CHALLENGE.exec(challenge) || [])[1];

  // The bits that auditors drew, with their coin; null where the program refuses it.
  async function joined(place, said) {
    const coin = await coinOf(said);
    const words = ["coin-join", "coin", "challenge"];
    const more = { wanted: ["challenge"], room: 64 * 1024 };
    const answer = await Asked.command(place, "Joining the shares", words, { coin }, more);
    if (answer.status !== 0) {
      Parts.show(place, answer);
      return null;
    }
    const bits = bitsOf(Asked.textOf(answer.files.challenge));
    return { bits, extra: [["coin", coin]] };
  }

  // The bits of a challenger who drew alone.
  async function drawnAlone() {
    const file = given("sell-draw-challenge");
    const bits = file ? bitsOf(await Asked.headOf(file, 256)) : typed("sell-draw-bits");
    if (!bits) {
      const none = "There is no challenge. Type its bits, or choose its file.";
      throw new Unfit(file ? "The file isn't a challenge, or a damaged one." : none);
    }
    if (file && typed("sell-draw-bits") && bits !== typed("sell-draw-bits")) {
      throw new Unfit("The file has other bits than those that are typed.");
    }
    return { bits, extra: [] };
  }

  async function draw(place) {
    const { said } = steps.current().house;
    const alone = said.auditors === 0 || given("sell-draw-challenge") || typed("sell-draw-bits");
    const found = await (alone ? drawnAlone() : joined(place, said));
    if (!found) {
      return;
    }
    if (found.bits.length !== said.lanes) {
      const number = found.bits.length;
      throw new Unfit(`The challenge has ${number} bits, and the auction ${said.lanes} lanes.`);
    }
    await steps.answer(place, found.bits, found.extra);
  }

  // ---- The archive

  // The files that are public, by the names that the audit asks for.
  function publicFiles({ house, made }) {
    const seals = [...house.files].filter(([name]) => /^(seal-|coin$|challenge$)/.test(name));
    return [
      ["announcement", house.announcement],
      ...seals,
      ["board", made.board],
      ["reply", made.reply],
    ];
  }

  async function pack(place) {
    const open = steps.current();
    const files = publicFiles(open);
    const held = Object.fromEntries(files);
    const words = ["verify", "board", "challenge", "reply"];
    const three = Object.fromEntries(words.slice(1).map((name) => [name, held[name]]));
    const answer = await Asked.command(place, "Checking", words, three);
    if (answer.status !== 0) {
      Parts.show(place, answer);
      return;
    }
    const bytes = Archive.pack(files, Math.floor(Date.now() / 1000));
    const { id } = open.house.said;
    const audit = `check.py audit announcement ${open.house.board} .`;
    const left = open.house.leftOut.length ? ` --left-out ${open.house.leftOut.join(",")}` : "";
    const parts = open.house.files.has("coin") ? " --parts parts" : "";
    Parts.show(
      place,
      answer,
      [
        SellView.line(place.link(`auction-${id.slice(0, 8)}.tar`, bytes)),
        SellView.words("Unpacked, it is what anybody audits:"),
        SellView.code(`${audit}${parts}${left}`),
      ],
      good("Checked: the reply is accepted. The archive has all that is public, and no secret."),
    );
  }

  // ---- How the forms begin

  // Prepares the form of the step that is next.
  function begin(house) {
    const { said } = house;
    const phase = House.phaseOf(house);
    rows = Intake.rowsOf(said);
    showRows();
    find("sell-take-due").textContent = SellView.due(said, "secrets");
    find("sell-draw-due").textContent = SellView.due(said, "draw");
    find("sell-draw-many").hidden = said.auditors === 0;
    find("sell-draw-alone").open = said.auditors === 0;
    const second = phase === "answered";
    find("sell-draw-title").textContent = second ? "Did another challenge come?" : "The draw";
    find("sell-draw-run").textContent = second ? "Ask the program" : "Answer it";
    find("sell-draw-first").hidden = second;
    find("sell-draw-second").hidden = !second;
  }

  // Takes away what the forms hold and show.
  function clear() {
    TOOLS.forEach((id) => {
      find(id).querySelectorAll(".held input").forEach((field) => Fields.give(field, []));
      find(id).reset();
      places[id].clear();
    });
    rows = [];
    find("sell-rows").replaceChildren();
  }

  function start(wanted) {
    steps = wanted;
    const announce = async () => steps.announce(await SellTerms.read());
    const runs = [announce, take, (place) => steps.prove(place), draw, pack];
    TOOLS.forEach((id, at) => {
      places[id] = Parts.beginTool(id, doing(runs[at]));
    });
    SellTerms.begin();
    takeFiles("sell-take", "sell-take-files", putFiles);
    find("sell-prove-anew").addEventListener("click", () => {
      find("sell-take").hidden = false;
      find("sell-prove").hidden = true;
      find("sell-take-files").focus();
    });
  }

  return { takeFiles, begin, clear, start };
})();
