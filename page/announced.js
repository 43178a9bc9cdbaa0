// page/announced.js: the announcement above all tools. It is taken once, by file, by drop or
// pasted, and all that it says stands in the fields of the tools then, which are hidden meanwhile.
const Announced = (() => {
  const { find, make } = Fields;
  const { DEADLINES, DUTIES, listed, timeSaid, many } = Announcement;

  const MOST_BYTES = 256 * 1024;

  // What was announced, or null; the number of the last thing that was handed in here, of which
  // alone something comes; and who wants to know when that changes
  const state = { now: null, bytes: null, digest: "", turn: 0 };
  const listeners = [];

  const now = () => state.now;

  // ---- The fields of the tools

  // What a field is given, by the word in its `data-announced`.
  function said(word) {
    const { now } = state;
    if (!now) {
      return "";
    }
    const values = {
      id: now.auction,
      width: now.width,
      lanes: now.lanes,
      reserve: now.reserve === null ? "none" : String(now.reserve),
      seats: [...now.seats.keys()].join(","),
    };
    return values[word];
  }

  // Fields that the announcement fills are hidden, with what stands about them alone.
  function fillFields() {
    for (const box of document.querySelectorAll("[data-announced]")) {
      const word = box.dataset.announced;
      box.hidden = state.now !== null;
      const field = box.querySelector("input");
      if (field && word) {
        field.value = said(word);
        Fields.mark(field, "");
      }
    }
    for (const form of document.querySelectorAll("form.tool")) {
      form.dispatchEvent(new Event("change", { bubbles: true }));
    }
  }

  // ---- The card

  const line = (textContent) => make("p", { textContent });
  const seatsSaid = (seats) => [...seats].map(([seat, name]) => `${seat} ${name}`);

  function deadlineRows({ deadlines }) {
    return DEADLINES.map((name, place) => {
      const time = deadlines[name];
      const is = time === null ? "no deadline" : timeSaid(time);
      const past = time !== null && Date.parse(time) < Date.now() ? " (passed)" : "";
      return make("li", {}, `${place + 1}. ${DUTIES[name]}: `, make("strong", {}, is), past);
    });
  }

  function seatRows({ seats }) {
    return seatsSaid(seats).map((textContent) => make("li", { textContent }));
  }

  // The card's first line, by which people tell this auction from another one.
  function summary({ kind, unit, most, reserve, seats, auditors }) {
    const range = `${unit.plain(0n)} to ${unit.plain(most)} ${unit.name}`;
    const bids = kind === "matching" ? `ranks from 0 to ${most}` : `bids from ${range}`;
    const least = reserve === null ? "no reserve" : `reserve ${unit.amount(reserve)}`;
    const who = auditors ? many(auditors, "auditor") : "one challenger";
    const all = [bids, kind === "vickrey" ? least : kind, many(seats.size, "seat"), who];
    return `${all.join(", ")}`;
  }

  function showCard() {
    const { now } = state;
    const isHere = find("announced-take").contains(document.activeElement);
    find("announced-take").hidden = now !== null;
    find("announced-card").hidden = now === null;
    find("announced-away").hidden = now === null;
    find("announced-more").hidden = now === null;
    if (!now) {
      return;
    }
    if (isHere) {
      find("announced-card").focus();
    }
    find("announced-id").textContent = now.auction;
    find("announced-summary").textContent = summary(now);
    find("announced-digest").textContent = state.digest;
    find("announced-all").replaceChildren(
      line(Announcement.rule(now)),
      line(Announcement.bids(now)),
      line(Announcement.draw(now)),
      make("ul", { className: "plain" }, ...deadlineRows(now)),
      line(Announcement.keySaid(now)),
      line(`All that is public is at ${now.place}.`),
      line(`${many(now.seats.size, "seat")}, whose seals are taken in this order:`),
      make("ul", { className: "plain seats" }, ...seatRows(now)),
    );
  }

  function tell(mood, textContent) {
    Object.assign(find("announced-told"), { className: `told ${mood}`, textContent });
  }

  // What was told of what was handed in goes with the next step; the card stays.
  const goOn = () => tell("", "");

  const TAKEN = "Taken: no tool asks for what it says. Compare its digest with the published one.";
  const STAYS = "The announcement above is still the one that was taken before.";
  const LONG = `It is no announcement: it is longer than ${MOST_BYTES / 1024} kB.`;
  const GONE = "It can't be read: it is gone, or it was changed.";

  // ---- Taking one

  function become(announcement, bytes, digest) {
    Object.assign(state, { now: announcement, bytes, digest });
    Kinds.setting.auction = announcement ? announcement.auction : null;
    Amounts.setting.unit = announcement ? announcement.unit : Amounts.PLAIN;
    showCard();
    fillFields();
    document.querySelectorAll(".file input").forEach(Fields.tellFiles);
    listeners.forEach((listener) => listener(announcement));
  }

  // Something new is handed in: whether it is still the last thing that was.
  function begun() {
    const turn = ++state.turn;
    tell("", "");
    return () => turn === state.turn;
  }

  const refuse = (why) => tell("bad", state.now ? `${why} ${STAYS}` : why);

  // Takes the bytes of an announcement, or says which line of it is wrong.
  async function take(bytes, isLast = begun()) {
    let found = null;
    try {
      found = Announcement.read(bytes);
    } catch (error) {
      if (!(error instanceof Announcement.Fault)) {
        throw error;
      }
      refuse(error.message);
      return;
    }
    const digest = await Work.digestOf(bytes);
    if (isLast()) {
      become(found, bytes, digest);
      tell("", TAKEN);
    }
  }

  function putAway() {
    state.turn++;
    Fields.give(find("announced-announcement"), []);
    find("announced-text").value = "";
    become(null, null, "");
    tell("", "");
    find("announced-announcement").focus();
  }

  async function takeFile() {
    const [file] = find("announced-announcement").files;
    if (!file) {
      return;
    }
    const isLast = begun();
    const found = await Kinds.look(file);
    const bytes = await file.slice(0, MOST_BYTES + 1).arrayBuffer().catch(() => null);
    if (!isLast() || found.kind !== "announcement") {
      return;
    }
    if (bytes === null || bytes.byteLength > MOST_BYTES) {
      refuse(bytes === null ? GONE : LONG);
    } else {
      await take(new Uint8Array(bytes), isLast);
    }
  }

  // A text that was pasted. Its last line feed is often lost, and is put back.
  async function takeText() {
    const isLast = begun();
    const text = find("announced-text").value;
    if (text.trim() === "") {
      return;
    }
    const bytes = new TextEncoder().encode(`${text.replace(/\r\n/g, "\n").trimEnd()}\n`);
    const found = await Kinds.look(new Blob([bytes]));
    if (!isLast()) {
      return;
    }
    if (found.kind === "announcement") {
      await take(bytes, isLast);
    } else {
      refuse(`This is another text: ${Kinds.what(found)}. Here the announcement belongs.`);
    }
  }

  function begin() {
    find("announced-announcement").addEventListener("change", takeFile);
    find("announced-text").addEventListener("input", takeText);
    find("announced-away").addEventListener("click", putAway);
  }

  const onChange = (listener) => listeners.push(listener);
  const bytes = () => state.bytes;
  const digest = () => state.digest;
  const nameOf = (seat) => (state.now && state.now.seats.get(String(seat))) || "";

  return { begin, now, take, putAway, goOn, onChange, bytes, digest, nameOf, listed };
})();
