#!/usr/bin/env node
// portable/trials/faults.js WORD..: the program on node, whose calls of the system fail as
// checks/attack/faults.c lets those of the built program fail: by the same settings, FAULT_KINDS and
// the others, which stand there. So checks/hostile.py attacks it as it does the built program.
"use strict";

const fs = require("fs");
const { Host } = require("../host.js");
const { moduleHere, run, wordsGiven } = require("../vickrey.js");

const setting = (name) => process.env[`FAULT_${name}`] ?? "";

const FROM = Number(setting("FROM"));
const TO = Number(setting("TO"));
const STEP = Number(setting("STEP") || 1);
const DO = setting("DO");
const LOG = setting("LOG") ? fs.openSync(setting("LOG"), "a", 0o600) : null;
const WHOSE = setting("WHOSE");
const STORE = setting("STORE");

// The letters of the calls. That of a close is told apart below; calls without one aren't counted.
const LETTERS = {
  open: "o", close: "c", read: "r", pread: "r", write: "w", pwrite: "w", resize: "w", seek: "l",
  sync: "y", sync_data: "y", status: "s", change_mode: "f", change_owner: "f", real_path: "f",
  lock: "f", random: "f",
};
const BY_PATH = { open: 0, real_path: 0, status: 1 }; // where their path stands among the words
const MOVING = ["read", "pread", "write", "pwrite"];

let made = 0;
const stores = new Set();
const written = new Set();

// What becomes of a call of this letter, on a file of the store or another.
function verdict(letter, onStore) {
  const whose = WHOSE === "" || (WHOSE === "store") === onStore;
  if (!setting("KINDS").includes(letter) || !whose) {
    return "go";
  }
  made += 1;
  if (LOG !== null) {
    fs.writeSync(LOG, letter);
  }
  if (made < FROM || made > TO || (made - FROM) % STEP) {
    return "go";
  }
  if (DO === "kill") {
    process.kill(process.pid, "SIGKILL");
  }
  return DO === "short" ? "short" : "fail";
}

class Faulty extends Host {
  calls() {
    const named = super.calls();
    for (const name of Object.keys(LETTERS)) {
      const call = named[name];
      named[name] = (...given) => this.faulty(name, call, given);
    }
    return named;
  }

  path(name, given) {
    const at = BY_PATH[name];
    return this.memory.name(given[at], given[at + 1]).toString("latin1");
  }

  faulty(name, call, given) {
    const [file] = given;
    const path = name in BY_PATH ? this.path(name, given) : null;
    const onStore = path === null ? stores.has(file) : STORE !== "" && path.includes(STORE);
    const unsynced = name === "close" && written.has(file) && !stores.has(file);
    const found = verdict(unsynced ? "C" : LETTERS[name], name !== "random" && onStore);
    this.note(name, file);
    if (found === "fail") {
      if (name === "close") {
        call(...given); // a close that fails has let the file go all the same
      }
      return name === "seek" ? BigInt(-DO) : -Number(DO);
    }
    if (found === "short" && MOVING.includes(name) && given[2] > 0) {
      given[2] = 1;
    }
    const answer = call(...given);
    if (name === "open" && answer >= 0) {
      this.noteOpened(answer, path);
    }
    return answer;
  }

  note(name, file) {
    if (name === "write") {
      written.add(file);
    } else if (name === "sync" || name === "sync_data") {
      written.delete(file);
    }
  }

  noteOpened(file, path) {
    const isStore = path.includes(STORE) || (path !== "/" && fs.fstatSync(file).isDirectory());
    stores[STORE !== "" && isStore ? "add" : "delete"](file);
    written.delete(file);
  }
}

if (require.main === module) {
  const words = wordsGiven();
  const say = (line) => fs.writeSync(2, `${line}\n`);
  process.exitCode = run(moduleHere(words), new Faulty(words, say));
}

module.exports = { Faulty };
