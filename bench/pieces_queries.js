// What first queries fetch of an index in pieces. bench/pieces_sizes.py runs it.
//
// usage: node pieces_queries.js ELASTICLUNR LANGUAGES READER FOLDER < QUERIES
//
// QUERIES is a JSON list of texts. The answer is a JSON list: for each of them the bytes, after `gzip -9`, of the pieces of the
// tries that it fetches, of the titles and of the texts of the ten best pages; and the milliseconds from the head to these texts,
// with what it takes to read the files. Each of these pages must have a title.
"use strict";

const fs = require("fs"), path = require("path"), zlib = require("zlib");
const [, , library, languages, reader, folder] = process.argv.map((word) => path.resolve(word));
const elasticlunr = require(library);
require(languages)(elasticlunr);
const { open } = require(reader)(elasticlunr);

const BEST = 10;
const MOST = 8; // PIECES of browser/search.js
const sizes = new Map();

function sizeOf(name) {
  if (!sizes.has(name)) sizes.set(name, zlib.gzipSync(fs.readFileSync(path.join(folder, name)), { level: 9 }).length);
  return sizes.get(name);
}

async function main() {
  const told = [];
  for (const query of JSON.parse(fs.readFileSync(0, "utf8"))) {
    const fetched = [], begun = performance.now();
    const site = await open(async (name) => {
      fetched.push(name);
      return fs.readFileSync(path.join(folder, name), "utf8");
    });
    const hits = await site.search(query, { expand: true, minimum: 1, maxPieces: MOST });
    for (const hit of hits.slice(0, BEST)) if (!(await site.title(hit.ref))) throw new Error(hit.ref + ": no title");
    for (const hit of hits.slice(0, BEST)) await site.doc(hit.ref);
    const milliseconds = performance.now() - begun;
    const sum = (kind) => fetched.filter((name) => kind.test(name)).map(sizeOf).reduce((all, one) => all + one, 0);
    told.push([sum(/\/t\d+\.json$/), sum(/\/h\d+\.json$/), sum(/\/d\d+\.json$/), milliseconds]);
  }
  process.stdout.write(JSON.stringify(told));
}

main();
