// page/fields.js: what is typed, chosen and dropped, and what may stand in a field.
const Fields = (() => {
  const MOST_BYTES = 2 ** 30;

  const find = (id) => document.getElementById(id);

  function make(tag, properties = {}, ...children) {
    const element = Object.assign(document.createElement(tag), properties);
    element.append(...children);
    return element;
  }

  function sized(bytes) {
    const units = ["bytes", "kB", "MB", "GB"];
    let place = 0;
    for (; bytes >= 1000 && place < 3; place++) {
      bytes /= 1000;
    }
    const shown = bytes.toLocaleString("en", { maximumFractionDigits: place ? 1 : 0 });
    return `${shown} ${units[place]}`;
  }

  // A name that somebody else gave, without marks that could turn the line or hide letters.
  function plain(name) {
    const shown = name.replace(/[\p{C}\p{Zl}\p{Zp}]/gu, "\ufffd");
    return shown.length > 80 ? `${shown.slice(0, 60)} .. ${shown.slice(-15)}` : shown;
  }

  const quoted = (name) => make("bdi", { className: "name", textContent: plain(name) });

  // Says something of the page as a whole, below its tabs.
  function notice(text, mood = "") {
    Object.assign(find("notice"), { textContent: text, className: text ? `told ${mood}` : "" });
  }

  // ---- What is typed

  const decimal = (text) => /^(0|[1-9][0-9]{0,19})$/.test(text);
  const within = (least, most) => (text) => decimal(text) && +text >= least && +text <= most;
  const below64 = (text) => decimal(text) && BigInt(text) < 2n ** 64n;

  // A bid is an amount of the announced unit, or a whole number where none is announced.
  const isPlain = () => Amounts.setting.unit === Amounts.PLAIN;
  const isBid = (text) =>
    isPlain() ? below64(text) : Amounts.setting.unit.number(text) !== null && text.length <= 30;
  const PLAIN_BID = "a whole number, with no point in it and no 0 in front";
  const bidForm = () => (isPlain() ? PLAIN_BID : Amounts.setting.unit.form());

  // What may stand in a field, and how that is said.
  const FORMS = {
    id: [(text) => /^[0-9a-f]{32}$/.test(text), "32 digits, 0 to 9 and a to f"],
    seed: [(text) => /^[0-9a-f]{64}$/.test(text), "64 digits, 0 to 9 and a to f"],
    seat: [within(1, 65535), "a whole number from 1 to 65535"],
    width: [within(1, 40), "a whole number from 1 to 40"],
    lanes: [within(1, 64), "a whole number from 1 to 64"],
    auditor: [within(1, 16), "a whole number from 1 to 16"],
    bid: [isBid, bidForm],
    number: [below64, "a whole number below 2^64"],
    reserve: [(text) => text === "none" || below64(text), "a whole number, or the word none"],
    bits: [(text) => /^[01]{1,64}$/.test(text), "1 to 64 characters, each 0 or 1"],
    seats: [
      (text) => text.split(",").every(within(1, 65535)),
      "whole numbers from 1 to 65535 with commas between",
    ],
  };

  // What is typed in a field, without spaces around it; in lists of bits and seats, with none.
  function typed(id) {
    const field = find(id);
    const text = field.value.trim();
    return ["bits", "seats"].includes(field.dataset.form) ? text.replace(/\s/g, "") : text;
  }

  // The first file that is chosen in a field, or null.
  const given = (id) => find(id).files[0] || null;

  // Says at a field what is wrong with it; an empty text says that nothing is.
  function mark(field, fault) {
    const id = `${field.id}-fault`;
    const about = (field.getAttribute("aria-describedby") || "").split(" ");
    const others = about.filter((name) => name && name !== id);
    find(id)?.remove();
    field.removeAttribute("aria-invalid");
    if (fault) {
      field.before(make("p", { id, className: "fault", textContent: fault }));
      field.setAttribute("aria-invalid", "true");
      others.push(id);
    }
    if (others.length) {
      field.setAttribute("aria-describedby", others.join(" "));
    } else {
      field.removeAttribute("aria-describedby");
    }
  }

  function faultOfFiles(files, needed) {
    if (files.length === 0) {
      return needed ? "This file is needed." : "";
    }
    return [...files].some((file) => file.size > MOST_BYTES)
      ? "This file is too long: the program takes none of more than 2^30 bytes."
      : "";
  }

  function faultOf(field) {
    const needed = "needed" in field.dataset;
    if (field.type === "file") {
      return faultOfFiles(field.files, needed);
    }
    const text = typed(field.id);
    if (text === "") {
      return needed ? "This is needed." : "";
    }
    const [holds, form] = FORMS[field.dataset.form] || [() => true, ""];
    const said = typeof form === "function" ? form() : form;
    return holds(text) ? "" : `This has to be ${said}.`;
  }

  // Gives a field the focus, where it may be in a part that is closed.
  function goTo(field) {
    const closed = field.closest("details");
    if (closed) {
      closed.open = true;
    }
    field.focus();
  }

  // The field that people see in the place of one, where that is another.
  function seen(field) {
    const other = find(field.dataset.shownAs);
    return other && !other.closest("[hidden]") ? other : field;
  }

  // Whether all fields of a form may stand. If not, the first that may not gets the focus.
  function mayRun(form) {
    const faulty = [...form.querySelectorAll("input, textarea")].filter((field) => {
      const fault = faultOf(field);
      mark(seen(field), fault);
      return fault;
    });
    if (faulty.length) {
      goTo(seen(faulty[0]));
    }
    return faulty.length === 0;
  }

  // ---- Files that are chosen or dropped

  const SMALL = 1024 * 1024;

  // A copy of a small file, for what reads it more than once: so it reads the same each time.
  async function copied(file) {
    return file.size > SMALL ? file : new File([await file.arrayBuffer()], file.name);
  }

  const kindsOf = (field) => field.dataset.kind.split(" ");

  // What belongs in a field for files, for people: by the end of its name, as the program has it.
  function placeOf(field) {
    const own = Sentences.named(field.id.replace(/^[a-z]+-/, ""));
    return kindsOf(field).includes("claim") ? "the board or claim file" : own;
  }

  // What the files of a field are; of each whether it belongs there, and what is said of it.
  async function looked(field) {
    const found = await Promise.all([...field.files].map(Kinds.look));
    return found.map((look) => ({ look, ...Kinds.told(look, kindsOf(field), placeOf(field)) }));
  }

  // Says below a field what the files in it are.
  async function tellFiles(field) {
    const told = find(`${field.id}-told`);
    const files = [...field.files];
    field.parentElement.classList.toggle("held", files.length > 0);
    const found = await looked(field);
    if (field.files.length !== files.length || field.files[0] !== files[0]) {
      return;
    }
    const fits = found.every((each) => each.fits);
    told.className = fits ? "told" : "told odd";
    const line = (file, { text }) => [quoted(file.name), `, ${sized(file.size)}. ${text} `];
    told.replaceChildren(...files.flatMap((file, place) => line(file, found[place])));
  }

  // The sentence where a form has another file than belongs there; its field gets the focus.
  async function otherFile(form) {
    const fields = [...form.querySelectorAll("input[type=file]")];
    const found = await Promise.all(fields.map(looked));
    const told = fields.map((field, place) => {
      const texts = found[place].map(({ look }) =>
        Kinds.other(look, kindsOf(field), placeOf(field)),
      );
      return texts.find(Boolean);
    });
    const first = told.findIndex(Boolean);
    if (first >= 0) {
      goTo(fields[first]);
    }
    return told[first] || null;
  }

  function give(field, files) {
    const held = new DataTransfer();
    files.forEach((file) => held.items.add(file));
    field.files = held.files;
    field.dispatchEvent(new Event("change", { bubbles: true }));
  }

  // A field for files gets a line that tells of them, and a button that takes them out.
  function beginFile(box) {
    const field = box.querySelector("input");
    const told = make("p", { id: `${field.id}-told`, className: "told" });
    told.setAttribute("aria-live", "polite");
    const remove = make("button", { type: "button", className: "small", textContent: "Remove" });
    remove.setAttribute("aria-label", `Remove: ${box.querySelector("label").textContent}`);
    remove.addEventListener("click", () => {
      give(field, []);
      field.focus();
    });
    field.after(remove, told);
    field.addEventListener("change", () => {
      mark(field, "");
      tellFiles(field);
    });
  }

  // The field of a form for a file of this kind: an empty one first, and none that is taken.
  function fieldFor(form, kind, taken) {
    const fitting = [...form.querySelectorAll("input[type=file]")].filter(
      (field) => kindsOf(field).includes(kind) && (field.multiple || !taken.has(field)),
    );
    return fitting.find((field) => field.files.length === 0) || fitting[0];
  }

  // Whether a seal can be one's own, where one's seat is known.
  function isOwn(seat) {
    const own = find("seal-seat").value;
    return own === "" || own === seat;
  }

  // The field of the announcement, which stands above all tools.
  const above = () => find("announced-announcement");

  // Gives files to the fields of a form, by their first lines, in the order of their names, and
  // tells how many were taken.
  async function share(form, files, tell = notice) {
    const order = new Intl.Collator("en", { numeric: true });
    const taken = new Map();
    const left = [];
    for (const file of files.sort((one, other) => order.compare(one.name, other.name))) {
      const look = await Kinds.look(file);
      const { kind, seat } = look;
      const field = kind === "announcement" ? above() : form && fieldFor(form, kind, taken);
      if (field && (kind !== "seal" || field.multiple || isOwn(seat))) {
        taken.set(field, [...(taken.get(field) || []), file]);
      } else {
        left.push(`${plain(file.name)} is ${Kinds.what(look)}`);
      }
    }
    taken.forEach((held, field) => give(field, held));
    const more = left.length > 3 ? `; and ${left.length - 3} more` : "";
    const said = `${left.slice(0, 3).join("; ")}${more}`;
    const why = form ? "Not taken" : "Not taken, since they belong on a tool of this page";
    const rest = left.length ? ` ${why}: ${said}.` : "";
    tell(`Taken: ${files.length - left.length} of ${files.length} files.${rest}`, rest && "bad");
  }

  // A tool's field for all files at once gives them to the tool's other fields, and holds none.
  function beginAll(tool) {
    const field = find(`${tool}-all`);
    const told = find(`${tool}-all-told`);
    field.addEventListener("change", (event) => {
      event.stopPropagation();
      const files = [...field.files];
      field.value = "";
      if (files.length) {
        share(field.form, files, (textContent, mood) => {
          Object.assign(told, { textContent, className: `told ${mood}` });
        });
      }
    });
  }

  const isFolder = (item) => Boolean(item.webkitGetAsEntry && item.webkitGetAsEntry()?.isDirectory);

  // The form that something was dropped on: where a tab has one alone, that one.
  function formAt(target) {
    const all = document.querySelectorAll("[role=tabpanel]:not([hidden]) form.tool");
    const forms = [...all].filter((form) => form.getClientRects().length);
    return target.closest("form.tool") || (forms.length === 1 ? forms[0] : null);
  }

  function drop(event) {
    event.preventDefault();
    document.body.classList.remove("dropping");
    const files = [...event.dataTransfer.files];
    const form = formAt(event.target);
    const box = event.target.closest(".file");
    if ([...event.dataTransfer.items].some(isFolder)) {
      notice("A folder can't be taken: drop the files that are in it.", "bad");
    } else if (files.length === 0) {
      notice("Nothing was taken: what was dropped is no file.", "bad");
    } else if (box && files.length === 1) {
      notice("");
      give(box.querySelector("input"), files);
    } else {
      share(form, files);
    }
  }

  // A file that is dropped beside all fields must not be opened in the place of the page.
  function beginDrops() {
    const over = (event) => {
      event.preventDefault();
      document.body.classList.add("dropping");
    };
    document.addEventListener("dragenter", over);
    document.addEventListener("dragover", over);
    document.addEventListener("dragleave", (event) => {
      if (!event.relatedTarget) {
        document.body.classList.remove("dropping");
      }
    });
    document.addEventListener("drop", drop);
  }

  return {
    find, make, sized, quoted, notice, typed, given, mark, goTo, mayRun, copied, otherFile, give,
    tellFiles, beginFile, beginAll, beginDrops, isTooLong: (file) => file.size > MOST_BYTES,
  };
})();
