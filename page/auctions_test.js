#!/usr/bin/env node
// page/auctions_test.js MODULE: the scripts of the tab Sell and of the rehearsal that know no page,
// under node: houses and their damage, copies, the intake, and six cheats with the check that finds
// each. MODULE is the page's module. It is no part of the gate.
"use strict";

const fs = require("fs");
const path = require("path");
const vm = require("vm");
const { load, call } = require("./module.js");

const SCRIPTS = [
  "kinds", "work", "sentences", "asked", "terms", "archive", "locked", "audit", "sell_house",
  "sell_guard", "sell_intake", "rehearsal_auction", "rehearsal_checks", "rehearsal_cheats",
];

// What stands in the place of the page: commands run at once, and a browser's memory is a map.
function surroundings(module) {
  const Parts = {
    async command(place, doing, words, files, { wanted = [], roomSize = 1 << 20 }, then) {
      const held = {};
      for (const [name, { file }] of Object.entries(files)) {
        held[name] = new Uint8Array(await file.arrayBuffer());
      }
      then({ ...call(module, words, held, wanted, roomSize), words });
    },
  };
  const memory = new Map();
  const localStorage = {
    getItem: (name) => (memory.has(name) ? memory.get(name) : null),
    setItem: (name, value) => memory.set(name, value),
    clear: () => memory.clear(),
  };
  const headOf = async (file, most) => {
    return Buffer.from(await file.slice(0, most).arrayBuffer()).toString("latin1");
  };
  const Fields = { headOf };
  return { Parts, Fields, localStorage, crypto, Blob, TextEncoder, TextDecoder, console };
}

function scripts(module) {
  const text = SCRIPTS.map((name) => fs.readFileSync(path.join(__dirname, `${name}.js`), "utf8"));
  const names =
    "Archive, House, Guard, Intake, RehearsalAuction, RehearsalChecks, RehearsalCheats, Work";
  const context = vm.createContext(surroundings(module));
  return Object.assign(vm.runInContext(`${text.join("\n")}; ({ ${names} })`, context), { context });
}

let failed = 0;
let passed = 0;

function expect(holds, what) {
  if (holds) {
    passed++;
  } else {
    failed++;
    console.log(`FAILED: ${what}`);
  }
}

// ---- An auction in houses

async function taken({ RehearsalAuction, House }) {
  const auction = RehearsalAuction.begin();
  await RehearsalAuction.sealAll(auction, null);
  const first = House.following(House.begun(auction.open.announcement), "", {});
  return { auction, first };
}

async function housesHold(own) {
  const { House, Archive, Work, Guard, context } = own;
  const { auction, first } = await taken(own);
  const pack = async (house) => {
    const bytes = await House.pack(house);
    return { bytes, digest: await Work.digestOf(bytes) };
  };
  const one = await pack(first);
  const files = own.RehearsalAuction.houseOf(auction, { ...auction.open, ...auction.kept });
  const second = House.following(first, one.digest, { taken: files.taken, files: files.files });
  const two = await pack(second);
  const proved = (seed) => House.following(second, two.digest, { seed });
  const [three, other] = [await pack(proved("11".repeat(32))), await pack(proved("22".repeat(32)))];
  for (const { bytes } of [one, two, three, other]) {
    const packed = Archive.unpack(await House.pack(await House.open(bytes)));
    const files = [...Archive.unpack(bytes)];
    const again = files.filter(([name, held]) => Archive.same(held, packed.get(name)));
    expect(again.length === packed.size, "a house that is opened is packed again, byte for byte");
  }
  const judge = async ({ bytes, digest }) => Guard.against(await House.open(bytes), digest);
  const { id } = first.said;
  expect((await judge(three)) === "", "a house that nobody saw is taken");
  Guard.remember(id, 3, three.digest);
  expect((await judge(three)) === "", "the newest house is taken");
  expect((await judge(two)).startsWith("This is an older copy"), "an older copy is refused");
  expect((await judge(other)).includes("another copy"), "another line is refused");
  Guard.remember(id, 2, two.digest);
  expect((await judge(other)) === "", "a house that went on elsewhere is taken");
  context.localStorage.clear();
  return two.bytes;
}

// Each byte of a house counts: one that is changed, and one that is cut off.
async function damageIsSeen({ House }, bytes) {
  let unseen = 0;
  const tries = 300;
  for (let number = 0; number < tries; number++) {
    const at = Math.floor((bytes.length * number) / tries);
    const changed = bytes.slice();
    changed[at] ^= 1 << (number % 8);
    const fault = await House.open(changed).catch((error) => error);
    const cut = await House.open(bytes.subarray(0, at)).catch((error) => error);
    unseen += [fault, cut].filter((each) => !(each instanceof House.Unfit)).length;
  }
  expect(unseen === 0, `${unseen} of ${2 * tries} damaged houses were opened`);
}

// ---- The intake

async function intakeHolds(own) {
  const { Intake } = own;
  const { auction, first } = await taken(own);
  const file = (name, bytes) => Object.assign(new Blob([bytes]), { name });
  const held = { ...auction.open, ...auction.kept };
  const names = ["seal-3", "secret-1", "seal-1", "secret-3", "seal-2"];
  const files = names.map((name) => file(name, held[name]));
  const rows = Intake.rowsOf(first.said);
  expect((await Intake.put(first, rows, files)).length === 0, "each file is for a seat");
  await Intake.tryAll(null, first, rows);
  const faults = () => rows.map(({ fault }) => fault);
  const onlyTheSecond = (words) =>
    faults()[0] === "" && faults()[2] === "" && faults()[1].includes(words);
  expect(onlyTheSecond("there is no file secret-2"), "one is missing");
  const broken = auction.kept["secret-2"].slice(0, 300);
  await Intake.put(first, rows, [file("secret-2", broken)]);
  await Intake.tryAll(null, first, rows);
  expect(onlyTheSecond("the secret can't be read: ask you"), "one is cut");
  const twice = [file("secret-2", held["secret-2"]), file("secret-2 (1)", broken)];
  const [[, why]] = await Intake.put(first, rows, twice);
  expect(why.includes("a second secret of seat 2"), "one is there twice");
  await Intake.put(first, rows, [file("secret-2", held["secret-2"])]);
  await Intake.tryAll(null, first, rows);
  expect(rows.every((row) => !Intake.isWrong(row)), `all are right: ${faults()}`);
  expect(Intake.takenBy(first, rows).taken.join() === "1,2,3", "by ascending seat");
}

// ---- Cheats

async function cheatsAreFound({ RehearsalCheats, RehearsalChecks }) {
  const { CHEATS, make } = RehearsalCheats;
  for (const [name, { by }] of Object.entries(CHEATS)) {
    const auction = await make(name, null);
    const found = [];
    for (const check of RehearsalChecks.CHECKS) {
      const { holds } = await check.run(auction, null);
      found.push(...(holds ? [] : [check.name]));
    }
    expect(found.join() === by, `${name} is found by ${found}, and not by ${by}`);
  }
}

async function main() {
  const own = scripts(await load(fs.readFileSync(process.argv[2])));
  const bytes = await housesHold(own);
  await damageIsSeen(own, bytes);
  await intakeHolds(own);
  await cheatsAreFound(own);
  console.log(`${passed} passed, ${failed} failed`);
  process.exitCode = failed || !passed ? 1 : 0;
}

main();
