#!/usr/bin/env node
// portable/trials/helpers.js FILE: when the host starts a helper for a lock or an advice, on the file
// FILE, which it makes and removes. One that locked dropped the copies of the pages too, so the
// advice that asks for that starts none, until something is written or a sync fails. The last line
// says how many cases passed and failed. It wants perl or python3 on PATH.
"use strict";

const childProcess = require("child_process");
const fs = require("fs");

let started = 0;
const { spawnSync } = childProcess;
childProcess.spawnSync = (...given) => {
  const ended = spawnSync(...given);
  started += ended.error ? 0 : 1; // one that isn't there starts nothing
  return ended;
};
const { Host } = require("../host.js");

const [READ, WRITE, DROP_COPIES, BAD_FILE] = [0, 1, 4, -9]; // kinds of locks, an advice, EBADF
const UPDATE_NEW = 0o302; // O_RDWR | O_CREAT | O_EXCL
const count = { passed: 0, failed: 0 };

// Whether the call answers so, and starts so many helpers.
function has(name, call, answer, helpers) {
  const before = started;
  const got = call();
  const good = Number(got) === answer && started - before === helpers;
  count[good ? "passed" : "failed"] += 1;
  if (!good) {
    console.log(`FAILED: ${name}: ${got}, ${started - before} helpers`);
  }
}

// What is asked of the file here, with a sync of the system that fails where it has to.
function askedOf(path) {
  const host = new Host([], console.log);
  const memory = new WebAssembly.Memory({ initial: 1 });
  host.memory.attach({ memory });
  const name = Buffer.from(path);
  new Uint8Array(memory.buffer).set(name);
  const calls = host.calls();
  const file = calls.open(0, name.length, UPDATE_NEW, 0o600);
  const { fsyncSync } = fs;
  return {
    lock: (kind) => calls.lock(file, kind, 0n, 1n),
    drop: () => calls.advise(file, 0n, 0n, DROP_COPIES),
    write: () => calls.pwrite(file, 0, 4, 0n),
    append: () => calls.write(file, 0, 4),
    resize: () => calls.resize(file, 2n),
    sync: () => calls.sync(file),
    failedSync: () => {
      fs.fsyncSync = () => {
        throw Object.assign(new Error("no sync"), { code: "EIO", syscall: "fsync" });
      };
      const answer = calls.sync(file);
      fs.fsyncSync = fsyncSync;
      return answer;
    },
    close: () => calls.close(file),
  };
}

function tried(path) {
  const { lock, drop, write, append, resize, sync, failedSync, close } = askedOf(path);
  has("a drop before any lock", drop, 0, 1);
  has("a lock", () => lock(WRITE), 0, 1);
  has("a drop after it", drop, 0, 0);
  has("a sync", sync, 0, 0);
  has("a drop after it", drop, 0, 0);
  for (const [name, call, answer] of [
    ["a write", write, 4], ["a write at the end", append, 4], ["another length", resize, 0],
    ["a sync that fails", failedSync, -5],
  ]) {
    has(`a lock before ${name}`, () => lock(READ), 0, 1);
    has(name, call, answer, 0);
    has(`a drop after ${name}`, drop, 0, 1);
  }
  has("a close", close, 0, 0);
  has("a drop of a closed file", drop, BAD_FILE, 0);
  has("a lock of a closed file", () => lock(WRITE), BAD_FILE, 0);
}

try {
  tried(process.argv[2]);
} finally {
  fs.unlinkSync(process.argv[2]);
}
console.log(`${count.passed} passed, ${count.failed} failed`);
process.exitCode = count.failed ? 1 : 0;
