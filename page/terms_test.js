#!/usr/bin/env node
// page/terms_test.js VECTORS: reads the announcements in VECTORS/announcement, each of which has
// the number of its fault line in the file `table`, or 0. What is read of a whole one is written
// again, and has to be the same bytes. It is no part of the gate.
"use strict";

const fs = require("fs");
const path = require("path");
const { Terms } = require("./terms.js");

// The fault line of bytes; 0 of an announcement that is written again byte for byte.
function lineOf(bytes) {
  try {
    const again = Buffer.from(Terms.write(Terms.read(bytes)));
    return again.equals(bytes) ? 0 : -1;
  } catch (error) {
    if (!(error instanceof Terms.FaultLine)) {
      throw error;
    }
    return error.line;
  }
}

const AMOUNTS = [
  [{ unit: "EUR", decimals: 2 }, "15.50 EUR", 1550],
  [{ unit: "EUR", decimals: 2 }, "10,485.75 EUR", 1048575],
  [{ unit: "EUR", decimals: 2 }, "0.07 EUR", 7],
  [{ unit: "points", decimals: 0 }, "1,550 points", 1550],
];

function amountsAgree() {
  return AMOUNTS.every(([unit, text, number]) => {
    return (
      Terms.amount(unit, number) === text && Terms.numberOf(unit, text.replace(",", "")) === number
    );
  });
}

function main() {
  const folder = path.join(process.argv[2], "announcement");
  const rows = fs.readFileSync(path.join(folder, "table"), "utf8").trim().split("\n");
  let failed = amountsAgree() ? 0 : 1;
  for (const [name, wanted] of rows.map((row) => row.split(" "))) {
    const line = lineOf(fs.readFileSync(path.join(folder, name)));
    if (line !== Number(wanted)) {
      failed++;
      console.log(`FAILED: ${name}: ${line}, not ${wanted}`);
    }
  }
  console.log(`${rows.length} files, ${failed} failed`);
  process.exitCode = failed || !rows.length ? 1 : 0;
}

main();
