#!/usr/bin/env node
// page/command.js MODULE WORD..: runs the module as the program is run, on the files of the folder
// that it is started in. So what tries the program's commands can try the module's.
//
// It prints the text and ends with the status. Files that the command made or changed are written.
// An auctioneer's store is kept in memory, and is empty at the start of each command.
"use strict";

const fs = require("fs");
const { load, call } = require("./module.js");

// What `sample` and `claim-sample` write, whose names no word says.
const PARTS = ["board", "challenge-1", "reply-1", "challenge-2", "reply-2"];
const SAMPLE = ["sample", "claim"].flatMap((of) => PARTS.map((part) => `${of}-${part}`));

// A room for `sample 1`. A file that is longer than a part of it isn't asked for.
const ROOM_SIZE = 256 * 1024 * 1024;
const LONGEST = 64 * 1024 * 1024;

// The words, in their bytes, which need not be UTF-8.
function wordsOf() {
  const line = fs.readFileSync("/proc/self/cmdline");
  const words = [];
  for (let at = 0; at < line.length; at = line.indexOf(0, at) + 1) {
    words.push(new Uint8Array(line.subarray(at, line.indexOf(0, at))));
  }
  return words.slice(words.length - process.argv.length + 3);
}

function filesHere() {
  const names = fs.readdirSync(".").filter((name) => fs.statSync(name).isFile());
  return new Map(names.map((name) => [name, new Uint8Array(fs.readFileSync(name))]));
}

const textOf = (bytes) => (typeof bytes === "string" ? bytes : new TextDecoder().decode(bytes));

const isLong = (files, name) => files.get(name)?.length > LONGEST;

// The names that the command may write to: its words, those of its script, and those of a sample.
function namesOf(words, files) {
  const said = words.map(textOf);
  const isScript = said[0] === "ceremony" && files.has(said[1]) && !isLong(files, said[1]);
  const script = isScript ? textOf(files.get(said[1])).split(/\s/) : [];
  const names = [...said, ...script, ...SAMPLE];
  return [...new Set(names)].filter((name) => name && !isLong(files, name));
}

function same(one, other) {
  return one !== undefined && Buffer.compare(one, other) === 0;
}

// The files among the wanted ones that are new or changed.
function changedIn(answer, files) {
  return Object.entries(answer.files).filter(([name, bytes]) => {
    return bytes !== null && !same(files.get(name), bytes);
  });
}

// Runs the words over the files, and answers status, text and what is new or changed.
function command(module, words, files) {
  const answer = call(module, words, files, namesOf(words, files), ROOM_SIZE);
  return { ...answer, changed: changedIn(answer, files) };
}

async function main() {
  const module = await load(fs.readFileSync(process.argv[2]));
  const answer = command(module, wordsOf(), filesHere());
  for (const [name, bytes] of answer.changed) {
    fs.writeFileSync(name, bytes);
  }
  fs.writeSync(1, answer.printed);
  process.exitCode = answer.status;
}

if (require.main === module) {
  main();
} else {
  module.exports = { command, same };
}
