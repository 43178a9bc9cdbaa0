// page/sell_intake.js: the intake of seals and secrets. All are tried, in a house that goes away
// again, and are taken together only where each is right, by ascending seat.
const Intake = (() => {
  const { linesOf } = Asked;

  // More than a seal or a secret of 64 lanes has
  const MOST_BYTES = 64 * 1024;

  // Why files aren't taken, by how the program's line begins, and what to ask their bidder for
  const REASONS = [
    ["house other auction", "the seal is of another auction: ask NAME for that of this one"],
    ["house length", "the seal has another number of lanes: ask NAME for that of this auction"],
    ["house bid too large", "the bid is above the announced limit: the seat can be left out"],
    ["house mismatch auction", "the secret is of another auction: ask NAME for that of this one"],
    ["house mismatch seat", "the secret is of another seat: ask NAME for its own"],
    [
      "house mismatch",
      "the secret doesn't open the seal: ask NAME for the secret that was made with it",
    ],
    ["malformed secret", "the secret can't be read: ask NAME for it again, as the file that it is"],
    [
      "malformed seal",
      "the seal can't be read: get it from the public place again, as the file that it is",
    ],
  ];

  // A row for each announced seat: what came in for it, and what there is against it.
  const rowsOf = (said) =>
    said.seats.map(({ seat, name }) => ({
      seat, name, seal: null, secret: null, leftOut: false, fault: null, print: "",
    }));

  // ---- Which file is for which seat

  const NAMED = /^(seal|secret)-([1-9][0-9]{0,4})(?:[^0-9]|$)/;
  const HEAD = /^vickrey-(seal|secret) 1\nauction [0-9a-f]{32}\nseat ([1-9][0-9]{0,4})\n/;

  // What a file is, and of which seat: by its name, and else by its first lines.
  function placeOf(name, text) {
    const found = NAMED.exec(name) || HEAD.exec(text);
    return found && { kind: found[1], seat: Number(found[2]) };
  }

  const seatIn = (seal) => Number((HEAD.exec(Asked.textOf(seal)) || [])[2]);

  // What stands in the place of a secret that the house can't open.
  const SHUT = new Uint8Array(0);

  // The bytes of a file; where they are encrypted, those that are in it, or SHUT.
  async function opened(house, bytes) {
    const key = House.keyOf(house);
    if (!Locked.isLocked(bytes)) {
      return bytes;
    }
    try {
      return key === null ? SHUT : await Locked.open(bytes, key);
    } catch (error) {
      if (error instanceof Locked.Unfit) {
        return SHUT;
      }
      throw error;
    }
  }

  // Puts files into the rows; a sentence on each that is for none.
  async function put(house, rows, files) {
    const left = [];
    const filled = new Set();
    for (const file of files) {
      const held = new Uint8Array(await file.slice(0, MOST_BYTES + 1).arrayBuffer());
      const bytes = await opened(house, held);
      const place = placeOf(file.name, Asked.textOf(bytes.subarray(0, 256)));
      const row = place && rows.find(({ seat }) => seat === place.seat);
      const twice = row && filled.has(`${place.kind} ${row.seat}`);
      if (!row) {
        const what = `${Kinds.what(await Kinds.look(file))}; here seals and secrets belong`;
        left.push([file, place ? `no seat ${place.seat} was announced` : what]);
      } else if (twice) {
        left.push([file, `a second ${place.kind} of seat ${row.seat}: choose the right one`]);
        row[place.kind] = null;
      } else {
        row[place.kind] = bytes;
        filled.add(`${place.kind} ${row.seat}`);
      }
    }
    return left;
  }

  // ---- The trial

  const isLong = (bytes) => bytes.length > MOST_BYTES;

  // What is wrong with the files of a seat before the program is asked.
  function faultBefore({ seat, name, seal, secret }) {
    if (!seal) {
      return `there is no file seal-${seat}: get it from the public place`;
    }
    if (isLong(seal) || (secret && isLong(secret))) {
      return `one of the files is too long to be right: ask ${name} for both again`;
    }
    if (secret === SHUT) {
      const which = `secret-${seat} is encrypted, and the key of this house doesn't open it`;
      return `${which}: ask ${name} for it again`;
    }
    const held = seatIn(seal);
    if (!held) {
      return "the seal can't be read: get it from the public place again, as the file that it is";
    }
    if (held !== seat) {
      return `seal-${seat} is a seal of seat ${held}: get the right one`;
    }
    return secret ? "" : `there is no file secret-${seat}: ask ${name} for it`;
  }

  // What the program's line says against the files of a seat.
  function faultBy({ seat, name }, line) {
    if (line.startsWith(`taken seat ${seat} position `)) {
      return "";
    }
    const found = REASONS.find(([start]) => line.startsWith(start));
    return found
      ? `${found[1].replace("NAME", name)} (${found[0]})`
      : `the program says '${line.slice(0, 80)}'`;
  }

  function filesOf(house, rows) {
    const files = new Map();
    for (const { seat, seal, secret } of rows) {
      files.set(`seal-${seat}`, seal);
      files.set(`secret-${seat}`, secret);
    }
    const taken = rows.map(({ seat }) => seat);
    return { ...house, taken, files: House.filesWith(house, files) };
  }

  // Has the program try the files of these rows, all in one house. A file that can't be read ends
  // the program's work: then those behind it are tried in another one.
  async function tryRows(place, house, rows) {
    let rest = rows;
    while (rest.length) {
      const files = House.scriptFiles(filesOf(house, rest));
      const answer = await Asked.command(place, "Trying", ["ceremony", "script"], files);
      const lines = linesOf(answer).slice(1);
      const tried = [0, 8].includes(answer.status) ? rest.length : lines.length;
      if (tried === 0) {
        throw new TypeError(`the program tried nothing: status ${answer.status}`);
      }
      rest.slice(0, tried).forEach((row, at) => {
        row.fault = faultBy(row, lines[at] || "");
      });
      rest = rest.slice(tried);
    }
  }

  // Tries what came in: each row has then what there is against it, or nothing.
  async function tryAll(place, house, rows) {
    const ready = [];
    for (const row of rows) {
      row.fault = row.leftOut ? "" : faultBefore(row);
      row.print = row.seal ? Asked.fingerprint(await Work.digestOf(row.seal)) : "";
      if (!row.leftOut && !row.fault) {
        ready.push(row);
      }
    }
    await tryRows(place, house, ready);
  }

  const isWrong = (row) => Boolean(row.fault);

  // The house in which all seats that aren't left out are taken.
  function takenBy(house, rows) {
    const left = rows.filter(({ leftOut }) => leftOut).map(({ seat }) => seat);
    const { taken, files } = filesOf(house, rows.filter(({ leftOut }) => !leftOut));
    return { taken, files, leftOut: left };
  }

  return { rowsOf, put, tryAll, isWrong, takenBy };
})();
