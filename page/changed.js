#!/usr/bin/env node
// page/changed.js MODULE PROGRAM [COUNT [SEED]]: COUNT (2500) sets of files, most of them changed,
// on which the module and the built program PROGRAM have to agree in status, text and what they
// write.
//
// The sets are small auctions and coins that PROGRAM makes, and claim files that
// bench/make_board.py makes. The table says how often each command ended with each status. The last
// line is `COUNT sets, N differ`. The status is 1 where any differs, or where a command was never
// done or never refused, since then the sets show too little. The same SEED (1) makes the same
// sets.
"use strict";

const fs = require("fs");
const os = require("os");
const path = require("path");
const { spawnSync } = require("child_process");
const { load } = require("./module.js");
const { Chance } = require("./chance.js");
const { command, same } = require("./command.js");

const MAKER = path.join(__dirname, "..", "bench", "make_board.py");
const ID = "000102030405060708090a0b0c0d0e0f";
const seedOf = (number) => String(number).padStart(64, "0");

function filesOf(folder) {
  const names = fs.readdirSync(folder).filter((name) => !name.startsWith("house.sqlite"));
  return new Map(names.map((name) => [name, fs.readFileSync(path.join(folder, name))]));
}

// Runs a command in a new folder with these files, hands the folder on, and takes it away.
function within(files, use) {
  const folder = fs.mkdtempSync(path.join(os.tmpdir(), "page-"));
  try {
    files.forEach((bytes, name) => fs.writeFileSync(path.join(folder, name), bytes));
    return use(folder);
  } finally {
    fs.rmSync(folder, { recursive: true });
  }
}

function runProgram(program, words, files) {
  return within(files, (folder) => {
    const done = spawnSync(program, words, { cwd: folder, stdio: ["ignore", "pipe", "ignore"] });
    if (done.error) {
      throw done.error;
    }
    const changed = [...filesOf(folder)].filter(([name, bytes]) => !same(files.get(name), bytes));
    return { status: done.status, printed: done.stdout, changed };
  });
}

// Runs what makes files, which has to succeed, and answers the files that are there then.
function made(program, words, files = new Map()) {
  return within(files, (folder) => {
    const done = spawnSync(program, words, { cwd: folder, encoding: "utf8" });
    if (done.status !== 0) {
      throw new Error(`${program} ${words.join(" ")}: ${done.stdout}${done.stderr}`);
    }
    return filesOf(folder);
  });
}

const challengeOf = (bits) => Buffer.from(`vickrey-challenge 1\nbits ${bits}\nend\n`);
const flipped = (bits) => [...bits].map((bit) => (bit === "0" ? "1" : "0")).join("");

function sealsOf(program, bids, width, lanes) {
  let files = new Map();
  bids.forEach((bid, place) => {
    const seat = place + 1;
    const terms = [ID, seat, bid, width, lanes].map(String);
    const names = [`secret-${seat}`, `seal-${seat}`];
    files = made(program, ["seal", ...terms, seedOf(seat), ...names], files);
  });
  return files;
}

function scriptOf(bids, width, lanes, reserve, reply) {
  const lines = ["vickrey-script 1", `announce ${ID} ${width} ${lanes} ${reserve}`.trimEnd()];
  bids.forEach((_, place) => lines.push(`submit ${ID} seal-${place + 1} secret-${place + 1}`));
  lines.push(`prove ${ID} ${seedOf(99)} board`);
  lines.push(`answer ${ID} challenge-${reply} reply-${reply}`, "end", "");
  return Buffer.from(lines.join("\n"));
}

// An auction that is answered for a challenge and, by a second house, for its opposite.
function auction(program, bids, width, bits, reserve = "") {
  let files = sealsOf(program, bids, width, bits.length);
  files.set("challenge-1", challengeOf(bits));
  files.set("challenge-2", challengeOf(flipped(bits)));
  for (const reply of [1, 2]) {
    files.set("day", scriptOf(bids, width, bits.length, reserve, reply));
    files = made(program, ["ceremony", "day"], files);
  }
  const two = ["board", "challenge-1", "reply-1", "challenge-2", "reply-2"];
  const commands = [
    ["verify", "board", "challenge-1", "reply-1"],
    ["verify", "board", "challenge-2", "reply-2"],
    ["extract", ...two],
    ["confront", ...two, "secret-1"],
    ["report", "board"],
    ["coin-board", "board", "derived"],
    ["ceremony", "day"],
  ];
  return { files, commands };
}

function claim(words) {
  const files = made("python3", [MAKER, ...words.slice(0, 4), ".", words[4]]);
  const two = ["claim", "challenge-1", "reply-1", "challenge-2", "reply-2"];
  const commands = [
    ["claim-verify", "claim", "challenge-1", "reply-1"],
    ["claim-verify", "claim", "challenge-2", "reply-2"],
    ["claim-extract", ...two],
  ];
  return { files, commands };
}

// The coin of so many auditors, of the parts that they print and the shares that they write.
function coin(program, auditors, bits) {
  const parts = [];
  const shows = [];
  for (let auditor = 1; auditor <= auditors; auditor++) {
    const words = ["coin-part", ID, String(auditor), String(bits), seedOf(auditor), "share"];
    const { status, printed, changed } = runProgram(program, words, new Map());
    if (status !== 0) {
      throw new Error(`${words.join(" ")}: status ${status}`);
    }
    const share = changed[0][1].toString().split("\n").find((line) => line.startsWith("show "));
    parts.push(printed.toString().trimEnd().replace(" commit ", " "));
    shows.push(share.replace("show ", `show ${auditor} `));
  }
  const head = ["vickrey-coin 1", `auction ${ID}`, `bits ${bits}`, `auditors ${auditors}`];
  const text = [...head, ...parts, ...shows, "end", ""].join("\n");
  const files = new Map([["coin", Buffer.from(text)]]);
  return { files, commands: [["coin-join", "coin", "drawn"]] };
}

// Commands that read no file.
function written() {
  const seal = ["seal", ID, "7", "13", "4", "2", seedOf(7), "secret", "seal"];
  const part = ["coin-part", ID, "3", "40", seedOf(3), "share"];
  return { files: new Map(), commands: [seal, part] };
}

function honestSets(program) {
  return [
    auction(program, [13, 9, 4], 4, "011"),
    auction(program, [5], 3, "10"),
    auction(program, [2, 2, 1, 3, 3], 2, "1"),
    auction(program, [4, 6], 3, "010", "5"),
    auction(program, [4, 6], 3, "10", "2"),
    auction(program, [4, 6], 3, "01", "7"),
    claim(["5", "4", "2", "1", "units:2"]),
    claim(["2", "2", "2", "2", "matching"]),
    coin(program, 3, 5),
    written(),
  ];
}

const OTHER_FIELDS = ["0", "1", "2", "15", "16", "18446744073709551615", "x", ""];

const isDigit = (byte) => byte >= 0x30 && byte <= 0x39;

// The bytes with those from `start` to `end` in place of others.
const spliced = (bytes, start, end, inner) =>
  Buffer.concat([bytes.subarray(0, start), inner, bytes.subarray(end)]);

// A change of one line, by the lines, which have no line feed.
const LINE_CHANGES = [
  (lines, at) => lines.splice(at, 1),
  (lines, at) => lines.splice(at, 0, lines[at]),
  (lines, at, chance) => lines.splice(at, 1, lines[chance.below(lines.length)]),
  (lines, at, chance) => {
    const other = chance.below(lines.length);
    [lines[at], lines[other]] = [lines[other], lines[at]];
  },
  (lines, at, chance) => {
    const fields = lines[at].split(" ");
    const others = lines[chance.below(lines.length)].split(" ");
    fields[chance.below(fields.length)] = chance.of(others);
    lines[at] = fields.join(" ");
  },
  (lines, at, chance) => {
    const fields = lines[at].split(" ");
    fields[fields.length - 1] = chance.of(OTHER_FIELDS);
    lines[at] = fields.join(" ");
  },
];

function changeLine(bytes, chance) {
  const lines = bytes.toString("latin1").split("\n");
  chance.of(LINE_CHANGES)(lines, chance.below(lines.length), chance);
  return Buffer.from(lines.join("\n"), "latin1");
}

// Another digit in place of one, so that the file mostly keeps its form.
function changeDigit(bytes, chance) {
  const start = chance.below(bytes.length);
  const place = bytes.findIndex((byte, index) => index >= start && isDigit(byte));
  const digit = Buffer.from(String(chance.below(10)));
  return place < 0 ? bytes : spliced(bytes, place, place + 1, digit);
}

const CHANGES = [
  (bytes) => bytes,
  changeLine,
  changeLine,
  changeDigit,
  changeDigit,
  changeDigit,
  (bytes, chance) => bytes.subarray(0, chance.below(bytes.length + 1)),
  (bytes, chance) => Buffer.concat([bytes, Buffer.from(chance.of(["\n", "end\n", "x", "\0"]))]),
  (bytes, chance) => {
    const place = chance.below(bytes.length);
    return spliced(bytes, place, place + 1, Buffer.from([chance.below(256)]));
  },
  (bytes, chance) => {
    const place = chance.below(bytes.length);
    return spliced(bytes, place, place, Buffer.from([chance.below(256)]));
  },
  (bytes, chance) => {
    const place = chance.below(bytes.length);
    return spliced(bytes, place, place + 1, Buffer.from([bytes[place] ^ (1 << chance.below(8))]));
  },
];

const OTHER_WORDS = ["", "0", "1", "01", "-1", "16", "40", "41", "64", "65", "65535", "65536", "é",
  "18446744073709551615", "18446744073709551616", "nothing", "uniform", seedOf(5), ID.toUpperCase(),
  "n".repeat(255), "n".repeat(256)];

const WORD_CHANGES = [
  (words, at) => words.splice(at, 1),
  (words, at, other) => words.splice(at, 0, other),
  (words, at, other) => words.splice(at, 1, other),
  (words, at, other) => words.splice(at, 1, other),
  (words, at, other, chance) => {
    const place = chance.below(words.length);
    [words[at], words[place]] = [words[place], words[at]];
  },
];

function changeWords(words, names, chance) {
  const changed = [...words];
  const other = chance.of([...OTHER_WORDS, ...names]);
  chance.of(WORD_CHANGES)(changed, chance.below(words.length), other, chance);
  return changed;
}

// Changes one of the files that the words name, takes it away, or puts another in its place.
function changeFile(files, words, chance) {
  const named = words.filter((word) => files.has(word));
  if (!named.length) {
    return;
  }
  const name = chance.of(named);
  const way = chance.below(20);
  if (way === 0) {
    files.delete(name);
  } else if (way === 1) {
    files.set(name, files.get(chance.of([...files.keys()])));
  } else if (files.get(name).length) {
    files.set(name, chance.of(CHANGES)(files.get(name), chance));
  }
}

// One set: a command of an honest set, none to three changed files, and at times other words.
function drawn(sets, chance) {
  const { files, commands } = chance.of(sets);
  const honest = chance.of(commands);
  const changed = new Map(files);
  const reads = honest.some((word) => files.has(word));
  const isOther = chance.next() < (reads ? 0.125 : 0.75);
  const words = isOther ? changeWords(honest, [...files.keys()], chance) : honest;
  for (let count = chance.below(4); count > 0; count--) {
    changeFile(changed, words, chance);
  }
  return { verb: honest[0], words, files: changed };
}

const sorted = (changed) => [...changed].sort(([one], [other]) => (one < other ? -1 : 1));

function differs(one, other) {
  const [left, right] = [sorted(one.changed), sorted(other.changed)];
  const isSame = ([name, bytes], place) => name === right[place][0] && same(bytes, right[place][1]);
  return one.status !== other.status || !same(one.printed, other.printed)
    || left.length !== right.length || !left.every(isSame);
}

function show({ words }, one, other) {
  const said = ({ status, printed, changed }) => {
    const text = Buffer.from(printed).toString().slice(0, 200);
    return `${status} ${JSON.stringify(text)} files ${changed.map(([name]) => name)}`;
  };
  console.log(`DIFFERENT: ${words.join(" ")}\n  module  ${said(one)}\n  program ${said(other)}`);
}

function print(counts) {
  const statuses = [0, 1, 2, 3, 4, 5, 6, 7, 8, 9];
  const line = (name, cells) => name.padEnd(14) + cells.map((cell) => cell.padStart(5)).join("");
  console.log(line("status", statuses.map(String)));
  for (const [verb, row] of [...counts].sort()) {
    console.log(line(verb, statuses.map((status) => String(row.get(status) ?? ""))));
  }
}

// Whether each command was done at times, and at times not.
function showsEnough(counts) {
  return [...counts.values()].every((row) => row.has(0) && row.size > 1);
}

async function main(wasm, program, count = 2500, seed = 1) {
  const module = await load(fs.readFileSync(wasm));
  const sets = honestSets(path.resolve(program));
  const chance = new Chance(Number(seed));
  const counts = new Map();
  let different = 0;
  for (let number = 0; number < count; number++) {
    const set = drawn(sets, chance);
    const one = command(module, set.words, set.files);
    const other = runProgram(path.resolve(program), set.words, set.files);
    if (differs(one, other)) {
      different++;
      show(set, one, other);
    }
    const row = counts.get(set.verb) ?? new Map();
    counts.set(set.verb, row.set(other.status, (row.get(other.status) ?? 0) + 1));
  }
  print(counts);
  console.log(`${count} sets, ${different} differ`);
  return different || !showsEnough(counts) ? 1 : 0;
}

if (process.argv.length < 4) {
  console.error("usage: page/changed.js MODULE PROGRAM [COUNT [SEED]]");
  process.exit(2);
}
main(...process.argv.slice(2)).then((status) => {
  process.exitCode = status;
});
