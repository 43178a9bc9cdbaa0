#!/usr/bin/env node
// portable/vickrey.js WORD..: the program `vickrey` on node, 18 or later, under Linux: the same words,
// files, texts, statuses and store as the built program's. What is behind it is in README.md.
"use strict";

const fs = require("fs");
const os = require("os");
const path = require("path");
const v8 = require("v8");
const zlib = require("zlib");
const { Host } = require("./host.js");

// Statuses that no command has: it can't run here, and the program itself stopped, a fault of ours.
const NOT_HERE = 69;
const STOPPED = 70;

const OLDEST_NODE = 18;
// Processors on which Linux's numbers of errors, flags and locks are those of x86-64.
const PROCESSORS = ["x64", "arm64", "riscv64", "loong64"];
const MODULE = path.join(__dirname, "vickrey.wasm.gz");
const UNPACKED = 4 * 1024 * 1024; // room for it in one piece

// When V8 compiles, which changes no answer. A function is compiled where it is first called. But
// the commands that open the store call half of the code: where there are several processors, all
// is compiled beforehand for these, by all of them at once, in half the time. Well compiled is only
// what was busy. Of versions that nobody tried none is set.
const WHEN_CALLED = ["--wasm-lazy-compilation", "--wasm-lazy-validation"];
const BEFOREHAND = ["--no-wasm-lazy-compilation"];
const ONCE_BUSY = "--wasm-tiering-budget=10000000";
const TRIED = [18, 20];
const WITH_STORE = ["announce", "submit", "prove", "answer", "show", "ceremony"];

class NotHere extends Error {}

function say(line) {
  fs.writeSync(2, `${line}\n`);
}

// What isn't known to keep a store and its secrets safe is refused.
function admitMachine() {
  if (process.platform !== "linux") {
    throw new NotHere(
      `it runs under Linux alone, and this is ${process.platform}: nobody has tried whether files ` +
        "are synced, locked and kept to their owner here. page/vickrey.html seals, checks and " +
        "audits in any browser",
    );
  }
  if (!PROCESSORS.includes(process.arch)) {
    throw new NotHere(`it is for processors of 64 bits (${PROCESSORS.join(", ")}), and this is ${process.arch}`);
  }
  if (version() < OLDEST_NODE) {
    throw new NotHere(`it needs node ${OLDEST_NODE} or later, and this is ${process.version}`);
  }
}

const version = () => Number(process.versions.node.split(".")[0]);

// The bytes of the module. A file that was damaged doesn't unpack.
function moduleBytes() {
  try {
    return zlib.gunzipSync(fs.readFileSync(MODULE), { chunkSize: UNPACKED });
  } catch (error) {
    throw new NotHere(`${MODULE}: ${error.message}`);
  }
}

// Whether a command's code is compiled beforehand. An old node doesn't say how many processors
// there are.
function isCompiledBeforehand(command) {
  const processors = os.availableParallelism?.() ?? 1;
  return processors > 1 && WITH_STORE.includes(command.toString());
}

// The module for these words, compiled as far as that is done beforehand.
function moduleHere([, command = ""]) {
  if (TRIED.includes(version())) {
    const when = isCompiledBeforehand(command) ? BEFOREHAND : WHEN_CALLED;
    [...when, ONCE_BUSY].forEach((flag) => v8.setFlagsFromString(flag));
  }
  return new WebAssembly.Module(moduleBytes());
}

// The words in their bytes, the program's own name first. node reads them as UTF-8, and would lose
// what isn't.
function wordsGiven() {
  const line = fs.readFileSync("/proc/self/cmdline");
  const words = [];
  for (let at = 0, end; (end = line.indexOf(0, at)) >= 0; at = end + 1) {
    words.push(line.subarray(at, end));
  }
  return words.slice(words.length - (process.argv.length - 1));
}

// Runs the program of the module on these words, and answers its status.
function run(module, host) {
  const { exports } = new WebAssembly.Instance(module, { host: host.calls() });
  host.memory.attach(exports);
  return exports.program_start() & 0xff;
}

// The status of the program, or why there is none.
function statusHere() {
  try {
    admitMachine();
    const words = wordsGiven();
    return run(moduleHere(words), new Host(words, say));
  } catch (error) {
    say(`vickrey: ${error instanceof NotHere ? error.message : `stopped: ${error.stack}`}`);
    return error instanceof NotHere ? NOT_HERE : STOPPED;
  }
}

// All that was printed is written, so node need not take itself apart before it ends.
if (require.main === module) {
  process.exit(statusHere());
}

module.exports = { moduleHere, run, wordsGiven };
