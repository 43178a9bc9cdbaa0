#!/usr/bin/env node
// page/heap_test.js RUNTIME [STEPS [SEED]]: tries page/runtime.c alone, as `build.sh --runtime`
// builds it: STEPS (200000) random requests of memory, whose blocks have to keep what is written to
// them, as they do only where no two meet; products of 128 bits; comparisons; and requests until
// 4 GB are used up.
"use strict";

const fs = require("fs");
const assert = require("assert");
const { Chance } = require("./chance.js");

const M = 2n ** 64n;

// A runtime of its own, with the place that its answers of two words are written to.
function runtimeOf(module) {
  const { exports } = new WebAssembly.Instance(module);
  return { ...exports, answer: exports.page_alloc(16n) };
}

// The two words of an answer: whether there is memory, and where; or a product, the low word first.
function wordsAt(runtime) {
  const view = new DataView(runtime.memory.buffer, Number(runtime.answer), 16);
  return [view.getBigUint64(0, true), view.getBigUint64(8, true)];
}

function tried(runtime, name, ...words) {
  runtime[name](runtime.answer, ...words);
  return wordsAt(runtime);
}

const bytesOf = (runtime, block, size) =>
  new Uint8Array(runtime.memory.buffer, Number(block.at), Number(size));

// Fills a block with a mark of its own.
function fill(runtime, block) {
  bytesOf(runtime, block, block.size).fill(block.mark);
}

function holds(runtime, block, size) {
  assert(bytesOf(runtime, block, size).every((byte) => byte === block.mark), "a block has changed");
}

const sizeOf = (chance) => BigInt(Math.floor(2 ** (chance.next() * chance.of([5, 9, 13, 18]))));

function allocate(runtime, blocks, chance) {
  const size = sizeOf(chance);
  const [ok, at] = tried(runtime, "rattle_alloc", size, 16n);
  assert.strictEqual(ok, 1n);
  assert.strictEqual(at % 16n, 0n);
  const block = { at, size, mark: chance.below(256) };
  fill(runtime, block);
  blocks.push(block);
}

// Makes a block larger or smaller, of which some first bytes are to be kept.
function resize(runtime, block, chance) {
  const size = sizeOf(chance);
  const kept = size < block.size ? size : block.size;
  const [ok, at] = tried(runtime, "rattle_realloc", block.at, kept, size, 16n);
  assert.strictEqual(ok, 1n);
  assert.strictEqual(at % 16n, 0n);
  block.at = at;
  holds(runtime, block, kept);
  block.size = size;
  fill(runtime, block);
}

function free(runtime, blocks, place) {
  const block = blocks[place];
  holds(runtime, block, block.size);
  runtime.rattle_dealloc(block.at);
  blocks[place] = blocks[blocks.length - 1];
  blocks.pop();
}

function tryBlocks(runtime, steps, chance) {
  const blocks = [];
  for (let step = 0; step < steps; step++) {
    const place = chance.below(300);
    if (place >= blocks.length) {
      allocate(runtime, blocks, chance);
    } else if (chance.below(2)) {
      resize(runtime, blocks[place], chance);
    } else {
      free(runtime, blocks, place);
    }
  }
  blocks.forEach((block) => holds(runtime, block, block.size));
  return `${steps} requests, memory ${runtime.memory.buffer.byteLength >> 10} KB`;
}

// Takes blocks of this size until one is refused. Those that were taken have to keep their bytes.
function takeAll(runtime, size) {
  const blocks = [];
  for (;;) {
    const [ok, at] = tried(runtime, "rattle_alloc", size, 16n);
    if (ok === 0n) {
      break;
    }
    const block = { at, size, mark: blocks.length % 251 };
    bytesOf(runtime, block, 16).fill(block.mark);
    blocks.push(block);
  }
  blocks.forEach((block) => holds(runtime, block, 16));
  return blocks;
}

// Want of memory is answered: of too large blocks at once, and of others when all is used up.
function tryWant(module) {
  const runtime = runtimeOf(module);
  for (const size of [2n ** 32n - 16n, 2n ** 32n, 2n ** 40n, 2n ** 63n - 1n]) {
    assert.strictEqual(tried(runtime, "rattle_alloc", size, 16n)[0], 0n);
    assert.strictEqual(runtime.page_alloc(size), 0n);
  }
  const size = 2n ** 26n;
  const blocks = takeAll(runtime, size);
  const last = blocks[blocks.length - 1];
  assert.strictEqual(tried(runtime, "rattle_realloc", last.at, size, 2n ** 31n, 16n)[0], 0n);
  holds(runtime, last, 16);
  assert(blocks.length >= 60, `${blocks.length} blocks`);
  runtime.rattle_dealloc(last.at);
  assert.strictEqual(tried(runtime, "rattle_alloc", size, 16n)[0], 1n);
  return `${blocks.length} blocks of 64 MB, then no more`;
}

const EDGES = [0n, 1n, 2n ** 32n - 1n, 2n ** 32n, 2n ** 61n - 1n, 2n ** 63n, M - 1n];

function tryProducts(runtime, steps, chance) {
  const word = () => {
    const drawn = (BigInt(chance.below(2 ** 32)) << 32n) | BigInt(chance.below(2 ** 32));
    return chance.below(3) ? drawn : chance.of(EDGES);
  };
  for (let step = 0; step < steps; step++) {
    const [a, b, c, d] = [word(), word(), word(), word()];
    const [low, high] = tried(runtime, "__multi3", a, b, c, d);
    const wanted = BigInt.asUintN(128, (a + b * M) * (c + d * M));
    assert.strictEqual(low + high * M, wanted);
  }
  return `${steps} products`;
}

function tryComparing(runtime, steps, chance) {
  const one = { at: runtime.page_alloc(64n) };
  const other = { at: runtime.page_alloc(64n) };
  for (let step = 0; step < steps; step++) {
    const size = chance.below(65);
    const left = bytesOf(runtime, one, 64).map(() => chance.below(256));
    const right = Uint8Array.from(left);
    right[chance.below(64)] = chance.below(256);
    bytesOf(runtime, one, 64).set(left);
    bytesOf(runtime, other, 64).set(right);
    const wanted = Buffer.compare(left.subarray(0, size), right.subarray(0, size));
    assert.strictEqual(Math.sign(runtime.memcmp(one.at, other.at, BigInt(size))), wanted);
  }
  return `${steps} comparisons`;
}

async function main(wasm, steps = 200000, seed = 1) {
  const module = await WebAssembly.compile(fs.readFileSync(wasm));
  const chance = new Chance(Number(seed));
  const runtime = runtimeOf(module);
  console.log(tryBlocks(runtime, Number(steps), chance));
  console.log(tryProducts(runtime, 20000, chance));
  console.log(tryComparing(runtime, 20000, chance));
  console.log(tryWant(module));
}

main(...process.argv.slice(2));
