#!/usr/bin/env node
// portable/trials/forks.js ADDON SOCKET: makes the runs that launch.c asks for at SOCKET, each in a
// fork of this process, which has node and the module loaded. It is to be started with the word
// --single-threaded, since a fork has no threads, and nothing in the environment but ADDON as
// LD_PRELOAD.
"use strict";

const fs = require("fs");
const { Host } = require("../host.js");
const { moduleHere, run } = require("../vickrey.js");
const { serve, end } = require(process.argv[2]);

const STOPPED = 70;

delete process.env.LD_PRELOAD;

const say = (line) => fs.writeSync(2, `${line}\n`);

// The host of a run with these settings: its calls fail as they say, where they say so.
function hostOf(words, settings) {
  settings.forEach((setting) => {
    const [name, ...value] = setting.toString().split("=");
    process.env[name] = value.join("=");
  });
  const Kind = "FAULT_KINDS" in process.env ? require("./faults.js").Faulty : Host;
  return new Kind(words, say);
}

function statusOf(module, asked) {
  // node asked for it as it started
  Object.defineProperty(process, "pid", { value: asked.process });
  try {
    return run(module, hostOf(asked.slice(0, asked.words), asked.slice(asked.words)));
  } catch (error) {
    say(`vickrey: stopped: ${error.stack}`);
    return STOPPED;
  }
}

// All of it is compiled beforehand, as for a command that opens the store.
const module_ = moduleHere(["", "show"].map((word) => Buffer.from(word)));
end(statusOf(module_, serve(process.argv[3])));
