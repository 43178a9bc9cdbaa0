#!/usr/bin/env node
// portable/trials/command.js MODULE WORD..: runs a module of its own in the place of the program's,
// on the same host calls.
"use strict";

const fs = require("fs");
const { Host } = require("../host.js");
const { run, wordsGiven } = require("../vickrey.js");

const module_ = new WebAssembly.Module(fs.readFileSync(process.argv[2]));
const words = wordsGiven().slice(1);
process.exitCode = run(module_, new Host(words, (line) => fs.writeSync(2, `${line}\n`)));
