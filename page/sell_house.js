// page/sell_house.js: the house, one file with all that a seller knows of an auction.
//
// It is an archive of the announcement, the script that the program's `ceremony` does, and the
// files that the script names. The file `house` in it has the digests of all others. What is made
// of it, board and reply, isn't in it: the script makes the same again.
const House = (() => {
  const { bytesOf, textOf } = Asked;
  const MOST_BYTES = 16 * 1024 * 1024;
  const KEY = "key.pem";

  // Why a file is no house that can be worked on here.
  class Unfit extends Error {}

  // A house: what was announced, with the bytes of the announcement; which seats are `taken`, an
  // array, or null before; which are left out; the seed and the bits once there are such; the
  // digests of board and reply; further files by name, the private `key` among them if it has one;
  // its number, and the digests of the earlier saved ones.
  function begun(announcement, key = null) {
    const said = Terms.read(announcement);
    const none = { taken: null, leftOut: [], seed: null, bits: null, board: null, reply: null };
    const files = new Map(key ? [[KEY, bytesOf(key)]] : []);
    return { said, announcement, ...none, files, number: 0, earlier: [] };
  }

  // The private half of the key to which secrets are encrypted, as openssl takes it; or null.
  const keyOf = ({ files }) => (files.has(KEY) ? textOf(files.get(KEY)) : null);

  // The files of a house with those of these seats in the place of others.
  function filesWith({ files }, others) {
    return new Map([...(files.has(KEY) ? [[KEY, files.get(KEY)]] : []), ...others]);
  }

  function phaseOf(house) {
    if (house.bits) {
      return "answered";
    }
    return house.seed ? "proved" : house.taken ? "taken" : "announced";
  }

  const challengeText = (bits) => `vickrey-challenge 1\nbits ${bits}\nend\n`;

  function scriptLines({ said, taken, seed, bits }) {
    const terms = [said.width, said.lanes, ...(said.reserve === null ? [] : [said.reserve])];
    return [
      `announce ${said.id} ${terms.join(" ")}`,
      ...(taken || []).map((seat) => `submit ${said.id} seal-${seat} secret-${seat}`),
      ...(seed ? [`prove ${said.id} ${seed} board`] : []),
      ...(bits ? [`answer ${said.id} challenge reply`] : []),
    ];
  }

  // The script of a house, and behind it `more` lines that aren't kept.
  function scriptOf(house, more = []) {
    return ["vickrey-script 1", ...scriptLines(house), ...more, "end", ""].join("\n");
  }

  // The files that the script reads, the script among them.
  function scriptFiles(house, more = []) {
    const files = { script: bytesOf(scriptOf(house, more)) };
    [...house.files].filter(([name]) => name !== KEY).forEach(([name, bytes]) => {
      files[name] = bytes;
    });
    return files;
  }

  // ---- Packing

  function entriesOf(house) {
    const { announcement, files } = house;
    return [["announcement", announcement], ["script", bytesOf(scriptOf(house))], ...files];
  }

  const listed = (seats) => (seats.length ? seats.join(",") : "none");

  async function stateText(house) {
    const digests = await Promise.all(entriesOf(house).map(([, bytes]) => Work.digestOf(bytes)));
    const lines = [
      "vickrey-house 1",
      `auction ${house.said.id}`,
      `number ${house.number}`,
      `left-out ${listed(house.leftOut)}`,
      `board ${house.board || "none"}`,
      `reply ${house.reply || "none"}`,
      ...house.earlier.map((digest) => `saved ${digest}`),
      ...entriesOf(house).map(([name], place) => `file ${digests[place]} ${name}`),
    ];
    const text = `${lines.join("\n")}\n`;
    return `${text}sum ${await Work.digestOf(bytesOf(text))}\n`;
  }

  async function pack(house) {
    const state = bytesOf(await stateText(house));
    return Archive.pack([["house", state], ...entriesOf(house)], Math.floor(Date.now() / 1000));
  }

  // ---- Opening

  function unpacked(bytes) {
    try {
      return Archive.unpack(bytes);
    } catch (error) {
      if (error instanceof Archive.Damaged) {
        throw new Unfit(`It is no house, or a damaged one: ${error.message}.`);
      }
      throw error;
    }
  }

  const STATE = new RegExp(
    "^vickrey-house 1\nauction ([0-9a-f]{32})\nnumber ([1-9][0-9]{0,3})\n" +
      "left-out (none|[0-9,]+)\nboard (none|[0-9a-f]{64})\nreply (none|[0-9a-f]{64})\n" +
      "((?:saved [0-9a-f]{64}\n)*)(?:file [0-9a-f]{64} [!-~]+\n)+sum [0-9a-f]{64}\n$",
  );

  const orNull = (word) => (word === "none" ? null : word);

  function stateOf(text) {
    const found = STATE.exec(text);
    if (!found) {
      throw new Unfit("It is no house, or a damaged one: the list of its files is none.");
    }
    const [, id, number, leftOut, board, reply, saved] = found;
    return {
      id,
      number: Number(number),
      leftOut: leftOut === "none" ? [] : leftOut.split(",").map(Number),
      board: orNull(board),
      reply: orNull(reply),
      earlier: (saved.match(/[0-9a-f]{64}/g) || []),
    };
  }

  function announcementOf(bytes) {
    try {
      return begun(bytes || new Uint8Array(0));
    } catch (error) {
      if (error instanceof Terms.FaultLine) {
        throw new Unfit("Its announcement isn't one.");
      }
      throw error;
    }
  }

  // What the lines of a script say was done.
  function doneBy(script, challenge) {
    const seats = [...script.matchAll(/^submit [0-9a-f]{32} seal-([1-9][0-9]{0,4}) /gm)];
    const seed = /^prove [0-9a-f]{32} ([0-9a-f]{64}) board$/m.exec(script);
    const bits = /^vickrey-challenge 1\nbits ([01]{1,64})\nend\n$/.exec(challenge);
    return {
      taken: seats.length ? seats.map(([, seat]) => Number(seat)) : null,
      seed: seed && seed[1],
      bits: bits && bits[1],
    };
  }

  const OWN = ["house", "announcement", "script"];

  // The house in the bytes of a file, or an Unfit.
  async function open(bytes) {
    const entries = unpacked(bytes);
    const text = (name) => textOf(entries.get(name) || new Uint8Array(0));
    const state = stateOf(text("house"));
    const first = announcementOf(entries.get("announcement"));
    const files = new Map([...entries].filter(([name]) => !OWN.includes(name)));
    const house = { ...first, ...state, ...doneBy(text("script"), text("challenge")), files };
    if (text("house") !== (await stateText(house)) || text("script") !== scriptOf(house)) {
      throw new Unfit("It was changed or damaged: its files aren't those whose digests it has.");
    }
    if (state.id !== first.said.id || state.earlier.length !== state.number - 1) {
      throw new Unfit("It was changed: what it says of itself doesn't agree.");
    }
    return house;
  }

  // The next house of an auction, whose last saved one had this digest: its bytes are to be saved.
  function following(house, digest, changes) {
    const earlier = digest ? [...house.earlier, digest] : house.earlier;
    return { ...house, ...changes, number: house.number + 1, earlier };
  }

  const nameOf = ({ said, number }) => `house-${said.id.slice(0, 8)}-${number}.tar`;

  return {
    Unfit, MOST_BYTES, begun, phaseOf, challengeText, scriptOf, scriptFiles, pack, open, following,
    nameOf, keyOf, filesWith,
  };
})();
