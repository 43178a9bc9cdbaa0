#!/usr/bin/env node
// page/locked_test.js: secrets that are encrypted by page/locked.js are opened by it and by
// openssl; changed ones, and ones to another key, by neither. It is no part of the gate.
"use strict";

const { spawnSync } = require("child_process");
const fs = require("fs");
const os = require("os");
const path = require("path");
const { Locked } = require("./locked.js");
const { Chance } = require("./chance.js");

const CHANGES = 300;

const folder = fs.mkdtempSync(path.join(os.tmpdir(), "locked-"));
const at = (name) => path.join(folder, name);

// What openssl makes of an encrypted file with a private key; null where it refuses.
function byOpenssl(bytes, pem) {
  fs.writeFileSync(at("file"), bytes);
  fs.writeFileSync(at("key.pem"), pem);
  const words = ["cms", "-decrypt", "-inform", "DER", "-in", at("file"), "-inkey", at("key.pem")];
  const done = spawnSync("openssl", [...words, "-binary", "-out", at("out")]);
  return done.status === 0 ? new Uint8Array(fs.readFileSync(at("out"))) : null;
}

const byPage = (bytes, pem) =>
  Locked.open(bytes, pem).catch((error) => {
    if (!(error instanceof Locked.Unfit)) {
      throw error;
    }
    return null;
  });

const same = (one, other) => one !== null && Buffer.compare(one, other) === 0;

let passed = 0;
let failed = 0;

function expect(holds, what) {
  passed += holds ? 1 : 0;
  failed += holds ? 0 : 1;
  if (!holds) {
    console.log(`FAILED: ${what}`);
  }
}

async function opened(chance) {
  const { text, pem } = await Locked.makeKey();
  const other = await Locked.makeKey();
  const point = Locked.pointOf(text);
  for (const size of [0, 1, 15, 16, 17, 127, 128, 300, 5000, 70000]) {
    const bytes = Uint8Array.from({ length: size }, () => chance.below(256));
    const locked = await Locked.lock(bytes, point);
    expect(Locked.isLocked(locked), `${size} bytes are told to be encrypted`);
    expect(same(await byPage(locked, pem), bytes), `${size} bytes are opened here`);
    expect(same(byOpenssl(locked, pem), bytes), `${size} bytes are opened by openssl`);
    expect((await byPage(locked, other.pem)) === null, `${size} bytes aren't by another key`);
    expect(byOpenssl(locked, other.pem) === null, `${size} bytes aren't by it, by openssl`);
  }
  return { point, pem };
}

// A changed file is never opened to other bytes.
async function changed(chance, { point, pem }) {
  const bytes = Uint8Array.from({ length: 200 }, () => chance.below(256));
  const locked = await Locked.lock(bytes, point);
  for (let number = 0; number < CHANGES; number++) {
    const other = locked.slice(0, locked.length - (number % 3 ? 0 : chance.below(50)));
    other[chance.below(other.length)] ^= 1 << chance.below(8);
    const found = await byPage(other, pem);
    expect(found === null || same(found, bytes), `change ${number} is opened to other bytes`);
  }
}

async function main() {
  const chance = new Chance(7);
  await changed(chance, await opened(chance));
  const texts = ["none", "cms ", "age1xyz", `cms ${"A".repeat(122)}==`, "cms MFkw"];
  texts.forEach((text) => expect(Locked.pointOf(text) === null, `${text} is no key`));
  fs.rmSync(folder, { recursive: true });
  console.log(`${passed} passed, ${failed} failed`);
  process.exitCode = failed ? 1 : 0;
}

main();
