// page/kinds.js: what a file is, by its first lines; said before anything is made of it.
//
// That somebody chose another file says nothing of an auction, so no sentence here is a verdict.
const Kinds = (() => {
  // More than all lines of a head that are read here
  const HEAD = 600;

  // What files of the program are called, by the word in their first line
  const NAMES = {
    announcement: "an announcement",
    board: "a board",
    claim: "a claim file",
    challenge: "a challenge",
    reply: "a reply",
    seal: "a seal",
    secret: "a secret",
    share: "a share",
    coin: "a coin",
    script: "a script for the auctioneer",
    parts: "a list of auditors' parts",
    house: "a seller's house",
  };

  // Other files that people have at hand, by how they begin
  const OTHERS = [
    [/^SQLite format 3\0/, "store", "an auctioneer's store"],
    [/^-----BEGIN ([A-Z]+ )?PRIVATE KEY/, "key", "a private key"],
    [/^-----BEGIN PUBLIC KEY/, "public key", "a public key"],
    [/^vickrey audit, made by /, "report", "a report of an audit"],
    [/^(-----BEGIN (SSH|PGP) SIGNATURE|untrusted comment: )/, "signature", "a signature"],
    [/^(age-encryption\.org\/|-----BEGIN (AGE|PGP) )/, "locked", "an encrypted file"],
    [/^0[^]{1,4}\x06\x0b\x2a\x86H\x86\xf7\r\x01\x09\x10\x01\x17/, "locked", "an encrypted file"],
    [/^announcement\0[^]{244}ustar\0/, "packed", "an archive of an auction"],
    [/^(PK\x03\x04|\x1f\x8b|7z\xbc\xaf|[^]{257}ustar)/, "packed", "a packed file"],
    [/^%PDF-/, "document", "a document (PDF)"],
    [/^(\x89PNG|\xff\xd8\xff|GIF8)/, "picture", "a picture"],
    [/^\s*<(!doctype|html)/i, "page", "a web page"],
  ];

  // How a seller's house begins: the head of its first file in an archive, and that file
  const HOUSE = /^house\0[^]{251}ustar\0[^]{249}(?=vickrey-house 1\n)/;

  const ADVICE = {
    secret: "Whoever has it knows the bid: show it to nobody but the auctioneer.",
    share: "Show it to nobody before all parts are public.",
    store: "It has every bid: give it to nobody.",
    house: "It has every bid: give it to nobody.",
    key: "It opens what is encrypted to it: give it to nobody.",
    locked: "Open it first with its key.",
    packed: "Unpack it first.",
    signature: "What was signed is a file of its own.",
    empty: "Get it again.",
  };

  // What stands behind words of the first lines, where it is of its form
  const NUMBERS = {
    auction: /^[0-9a-f]{32}$/,
    seat: /^[1-9][0-9]{0,4}$/,
    auditor: /^[1-9][0-9]?$/,
    auditors: /^[1-9][0-9]?$/,
    lanes: /^[1-9][0-9]?$/,
    seals: /^[1-9][0-9]?$/,
    bits: /^[01]{1,64}$/,
    sort: /^(uniform|matching|vickrey)\b/,
  };

  const PART = /^part [1-9][0-9]? (commit )?[0-9a-f]{64}\r?\n/;

  // The first bytes of a file as a text of one letter for each byte, whatever they are: its number
  // is the byte. A TextDecoder's latin1 has other letters for some.
  async function headOf(file, most) {
    const bytes = new Uint8Array(await file.slice(0, most).arrayBuffer());
    return Array.from(bytes, (byte) => String.fromCharCode(byte)).join("");
  }

  const isText = (head) => !/[\0-\x08\x0e-\x1f]/.test(head);

  // What no first line of the program begins.
  function foreign(head) {
    const found = OTHERS.find(([form]) => form.test(head));
    if (found) {
      return { kind: found[1], name: found[2] };
    }
    if (head === "") {
      return { kind: "empty", name: "an empty file" };
    }
    const kind = isText(head) ? "text" : "other";
    const name = kind === "text" ? "a text" : "a file of bytes";
    return { kind, name: `${name} that is none of this program's` };
  }

  function numbersOf(lines) {
    const found = {};
    for (const line of lines.slice(1, 9)) {
      const [first] = line.split(" ", 1);
      const word = first === "kind" ? "sort" : first;
      const rest = line.slice(first.length + 1);
      if (NUMBERS[word] && !(word in found) && NUMBERS[word].test(rest)) {
        found[word] = rest;
      }
    }
    return found;
  }

  // What a file is: its kind, its name for people, and what its first lines say. The kind is null
  // where the file can't be read.
  async function look(file) {
    const bytes = await headOf(file, HEAD).catch(() => null);
    if (bytes === null) {
      return { kind: null, name: "a file that can't be read" };
    }
    const text = bytes.replace(/^\xef\xbb\xbf/, "");
    const isChanged = text !== bytes || /\r\n/.test(text);
    const head = text.replace(HOUSE, "");
    if (PART.test(head)) {
      return { kind: "parts", name: NAMES.parts, isChanged };
    }
    const lines = head.split(/\r?\n/);
    const found = /^vickrey-([a-z]{4,12}) [1-9]/.exec(lines[0]);
    if (!found || !NAMES[found[1]]) {
      return foreign(head);
    }
    return { kind: found[1], name: NAMES[found[1]], isChanged, ...numbersOf(lines) };
  }

  // ---- Sentences

  const many = (count, what) => `${count} ${what}${count === "1" ? "" : "s"}`;

  // What else the first lines say, by kind.
  const DETAILS = {
    seal: ({ seat }) => seat && `of seat ${seat}`,
    secret: ({ seat }) => seat && `of seat ${seat}`,
    share: ({ auditor }) => auditor && `of auditor ${auditor}`,
    coin: ({ auditors }) => auditors && `of ${many(auditors, "auditor")}`,
    board: ({ seals }) => seals && `with ${many(seals, "seal")}`,
    claim: ({ sort }) => sort && `of the kind ${sort}`,
    challenge: ({ bits }) => bits && `of ${many(String(bits.length), "bit")}`,
    reply: ({ lanes }) => lanes && `of ${many(lanes, "lane")}`,
  };

  // The auction that was announced, once that is known
  const setting = { auction: null };

  function auctionSaid(auction) {
    if (!auction) {
      return "";
    }
    return auction === setting.auction ? "this auction" : `auction ${auction}`;
  }

  // What a file is, in a few words.
  function what(found) {
    const { kind, name, auction } = found;
    const detail = DETAILS[kind] ? DETAILS[kind](found) : "";
    const words = detail ? `${name} ${detail}` : name;
    return auction ? `${words}, ${auctionSaid(auction)}` : words;
  }

  const sentence = (text) => `${text.charAt(0).toUpperCase()}${text.slice(1)}.`;

  const UNREADABLE = "It can't be read: it is gone, or it is a folder.";
  const CHANGED =
    "Its lines were changed on the way, as mail programs and editors do: get it again as a file.";

  const ANOTHER_AUCTION = " That isn't the announced one: you chose a file of another auction.";

  // What is said of a file below the field that it is in, by the kinds that belong there and their
  // name; and whether it belongs there.
  function told(found, wanted, place) {
    if (found.kind === null) {
      return { fits: false, text: UNREADABLE };
    }
    if (!wanted.includes(found.kind)) {
      const advice = ADVICE[found.kind] || "";
      const text = `You chose another file: ${what(found)}. Here ${place} belongs. ${advice}`;
      return { fits: false, text: text.trim() };
    }
    if (found.isChanged) {
      return { fits: false, text: `${sentence(what(found))} ${CHANGED}` };
    }
    const isOther = setting.auction && found.auction && found.auction !== setting.auction;
    return { fits: !isOther, text: `${sentence(what(found))}${isOther ? ANOTHER_AUCTION : ""}` };
  }

  const NOTHING = "Nothing was found out about the auction.";

  // The sentence where a tool was handed another file, or null.
  function other(found, wanted, place) {
    if (found.kind === null || wanted.includes(found.kind)) {
      return null;
    }
    return `You chose another file in the place of ${place}: ${what(found)}. ${NOTHING}`;
  }

  // The sentence where files of a tool are of several auctions or seats, or null. Each is its name
  // for people and what it is; the first one names the auction.
  function apart(word, files) {
    const known = files.filter(([, found]) => found && found[word]);
    const odd = known.find(([, found]) => found[word] !== known[0][1][word]);
    if (!odd) {
      return null;
    }
    const said = ([name, found]) => `${name} is of ${word} ${found[word]}`;
    const [first, second] = [said(known[0]), said(odd)];
    return `You chose files of two ${word}s: ${first}, and ${second}. ${NOTHING}`;
  }

  const LINES_OF_SEAL = [
    /^vickrey-seal 1$/,
    /^auction [0-9a-f]{32}$/,
    /^seat [1-9][0-9]{0,4}$/,
    /^lanes [1-9][0-9]?$/,
  ];

  // The number of the first line of a seal's text that isn't what it has to be; 0 of a whole seal.
  function faultOfSeal(text) {
    const lines = text.split("\n");
    const lanes = Number((lines[3] || "").replace("lanes ", "")) || 0;
    const rows = Array(lanes).fill(/^x [0-9a-f]{64} [0-9a-f]{64}$/);
    const forms = [...LINES_OF_SEAL, ...rows, /^end$/, /^$/];
    const fault = forms.findIndex((form, place) => !form.test(lines[place] ?? "?"));
    if (fault >= 0) {
      return fault + 1;
    }
    return lines.length === forms.length ? 0 : forms.length;
  }

  return { look, headOf, what, told, other, apart, faultOfSeal, setting, NOTHING };
})();
