// Searches whole indexes and their pieces in node, and tries the reader of pieces on faults. tests/pieces.py runs it.
//
// usage: node pieces.js ELASTICLUNR LANGUAGES READER < GIVEN
//
// GIVEN is a JSON object: the indexes, each with its text, its files and the names that its text has instead of references; the
// queries, each with the number of its index and its options; and the numbers of the indexes of CASES. The answer is a JSON
// object: for each query how many hits there are, how many files were fetched, and what is wrong or null; and for each case
// its name, and what is wrong or null.
"use strict";

const assert = require("assert"), fs = require("fs"), path = require("path"), vm = require("vm");
const [, , library, languages, reader] = process.argv;
const elasticlunr = require(path.resolve(library));
require(path.resolve(languages))(elasticlunr);
elasticlunr.utils.warn = () => {};
elasticlunr.Pipeline.warnIfFunctionNotRegistered = () => {};
const { open } = require(path.resolve(reader))(elasticlunr);

const HEAD = "search.json";

// A server of files, instead of a network. It counts what is fetched, and some answers are wrong.
class Server {
  constructor(files) {
    this.files = files;
    this.fetched = [];
    this.wrong = new Map(); // for a file the answers to its next fetches: a text, or an Error
    this.get = async (name) => {
      this.fetched.push(name);
      await new Promise((done) => setImmediate(done));
      const answer = this.wrong.has(name) && this.wrong.get(name).length ? this.wrong.get(name).shift() : this.files[name];
      if (answer instanceof Error) throw answer;
      if (answer === undefined) throw new Error("the server answered 404");
      return answer;
    };
  }

  answerOnce(name, answer) {
    this.wrong.set(name, [answer]);
  }

  count(name) {
    return this.fetched.filter((one) => one === name).length;
  }

  head() {
    return JSON.parse(this.files[HEAD]);
  }
}

// Hits, each with its reference and the bits of its score.
function bits(hits) {
  const view = new DataView(new ArrayBuffer(8));
  return hits.map((hit) => {
    view.setFloat64(0, hit.score);
    return [hit.ref, view.getBigUint64(0).toString(16)];
  });
}

// What elasticlunr.js finds in a whole index. A word for which `isExpanded` is false finds itself alone.
function searchWhole(index, query, options, names, isExpanded = () => true) {
  const expand = elasticlunr.InvertedIndex.prototype.expandToken;
  for (const field of index.getFields()) {
    index.index[field].expandToken = function (token, found, node) {
      if (node || isExpanded(token)) return expand.call(this, token, found, node);
      return this.getDocFreq(token) > 0 ? [token] : [];
    };
  }
  const hits = index.search(query, options);
  return bits(hits.map((hit) => ({ ref: names.get(hit.ref) || hit.ref, score: hit.score })));
}

function tokensOf(index, query) {
  const texts = typeof query === "string" ? [query] : Object.values(query);
  return new Set([].concat(...texts.map((text) => index.pipeline.run(elasticlunr.tokenizer(text)))));
}

const begins = (token, start) => token.startsWith(start) && !/[\uD800-\uDBFF]$/.test(start);

// A text whose order in UTF-16 is that of the characters of this one.
const inOrder = (text) => Array.from(text, (character) => character.codePointAt(0).toString(16).padStart(6, "0")).join("");

// In how many pieces a word may stand or, if it is expanded, a word that begins so. `tries` has the first token of each piece.
function piecesFor(word, isExpanded, tries) {
  const before = tries.filter((token) => inOrder(token) <= inOrder(word)).length;
  return Math.min(1, before) + tries.slice(before).filter((token) => isExpanded && begins(token, word)).length;
}

// Whether a word is expanded with these options.
function expansion(given, options) {
  const { minimum = 2, maxPieces = Infinity } = options || {};
  return (word) => Array.from(word).length >= minimum && piecesFor(word, true, given.tries) <= maxPieces;
}

// How many pieces of the tries a query may fetch.
function mostFetched(given, query, options) {
  const expands = JSON.stringify(options || {}).includes('"expand":true'), isExpanded = expansion(given, options);
  let most = 0;
  for (const token of tokensOf(given.index, query)) most += piecesFor(token, expands && isExpanded(token), given.tries);
  return most;
}

async function compareOne(given, query, options) {
  const want = searchWhole(given.index, query, options, given.names, expansion(given, options));
  const server = new Server(given.files), fresh = await open(server.get);
  const told = { hits: want.length, fetched: 0, wrong: null };
  for (const [name, site] of [["a site that was searched before", given.site], ["a new site", fresh]]) {
    const found = bits(await site.search(query, options));
    if (JSON.stringify(found) !== JSON.stringify(want)) {
      const at = want.findIndex((hit, at) => JSON.stringify(hit) !== JSON.stringify(found[at]));
      told.wrong = `${name}: ${found.length} hits and not ${want.length}, ${JSON.stringify(found[at])} and not ${JSON.stringify(want[at])}`;
    }
  }
  const names = server.fetched.filter((name) => name !== HEAD);
  told.fetched = names.length;
  if (new Set(names).size < names.length) told.wrong = "fetches a file twice";
  if (names.some((name) => !/\/t\d+\.json$/.test(name))) told.wrong = "fetches more than tries";
  if (names.length > mostFetched(given, query, options)) told.wrong = `fetches ${names.length} pieces`;
  return told;
}

// The documents that are stored come back with their titles, and no others.
async function compareTexts(given) {
  const { documentStore: store, fields } = JSON.parse(given.whole), hasTitles = store.save && fields.includes("title");
  for (const [name, doc] of Object.entries(store.docs)) {
    const reference = given.names.get(name) || name;
    assert.deepStrictEqual(await given.site.doc(reference), store.save ? doc : null);
    assert.strictEqual(await given.site.title(reference), hasTitles ? doc.title || "" : null);
  }
  for (const call of ["doc", "title"]) assert.strictEqual(await given.site[call]("no such reference"), null);
}

async function compare(given, queries) {
  const told = [];
  for (const [number, query, options] of queries) {
    try {
      told.push(await compareOne(given[number], query, options));
    } catch (error) {
      told.push({ hits: 0, fetched: 0, wrong: String(error.stack) });
    }
  }
  return told;
}

// An index whose words are its tokens: without a pipeline each token finds itself.
function withoutPipeline(given) {
  const whole = JSON.parse(given.whole), head = JSON.parse(given.files[HEAD]);
  whole.pipeline = head.pipeline = [];
  return { index: elasticlunr.Index.load(whole), names: given.names, files: { ...given.files, [HEAD]: JSON.stringify(head) } };
}

const piece = (head, name) => head.folder + "/" + name + ".json";
const isJson = (text) => {
  try {
    return JSON.parse(text) !== undefined;
  } catch (error) {
    return false;
  }
};

// An error that names a file. It has a cause if there was no JSON text.
function like(name, answer) {
  const isCause = (cause) => (isJson(answer) ? cause === undefined : cause instanceof Error);
  return (error) => error instanceof Error && error.file === name && error.message.startsWith(name + ": ") && isCause(error.cause);
}

// A call that fails by one wrong answer for a file names it, and the next call is right.
async function failsOnce(server, name, answer, call) {
  server.answerOnce(name, answer);
  await assert.rejects(call, like(name, answer), `${name}, as ${String(answer).slice(0, 60)}`);
  await call();
}

// The number of the first reference of each piece.
const starts = (counts) => counts.map((_, at) => counts.slice(0, at).reduce((all, one) => all + one, 0));

// Calls that need one file each, and what each must give.
async function* callsOfFiles(given) {
  const { index, files, names } = withoutPipeline(given), server = new Server(files), head = server.head();
  for (let number = 0; number < head.tries.length; number++) {
    const word = head.tries[number], name = piece(head, "t" + number), want = searchWhole(index, word, {}, names);
    assert(want.length > 0);
    yield { server, name, isRight: async (site) => assert.deepStrictEqual(bits(await site.search(word, {})), want) };
  }
  for (const [number, start] of starts(head.texts).entries()) {
    const reference = head.references[start], want = JSON.parse(given.whole).documentStore.docs[reference];
    yield { server, name: piece(head, "d" + number), isRight: async (site) => assert.deepStrictEqual(await site.doc(reference), want) };
  }
  for (const [number, start] of starts(head.titles).entries()) {
    const reference = head.references[start], { title } = JSON.parse(given.whole).documentStore.docs[reference];
    yield { server, name: piece(head, "h" + number), isRight: async (site) => assert.strictEqual(await site.title(reference), title) };
  }
}

// A head of an earlier elasticlunr: its texts have the number of the first reference of each piece, and there are no titles.
const older = (head) => ({ ...head, texts: starts(head.texts), sizes: undefined, titles: undefined, title: undefined });

// These files of an index with a head that says nothing of their sizes.
const withOlderHead = (files) => ({ ...files, [HEAD]: JSON.stringify(older(JSON.parse(files[HEAD]))) });

// Pieces of the tries that aren't what the head says: this token is the first of the piece, and `next` that of the next one.
function wrongTries(text, token, next) {
  const others = JSON.parse(text), lists = others[token];
  delete others[token];
  const withLists = (list) => `{${JSON.stringify(token)}:${list}}`;
  const inField = (list) => withLists(JSON.stringify(lists).replace(/\[\]|\[[^[\]]+\]/, list));
  const whole = ["null", "[]", "7", '"x"', "{}", JSON.stringify(others), withLists("null"), withLists("{}"), withLists("7")];
  whole.push(withLists("[]"), withLists(JSON.stringify([...lists, []])), withLists(JSON.stringify(lists.map(() => null))));
  if (next !== undefined) whole.push(JSON.stringify({ ...JSON.parse(text), [next]: lists }));
  const wrongLists = ["[0]", "[0,1,0,1]", "[1,1,0,1]", "[999,1]", "[-1,1]", "[0.5,1]", '["0",1]', "[null,1]", "[0,0]", "[0,-1]"];
  return [...whole, ...[...wrongLists, '[0,"1"]', "[0,null]", "[0,1e999]", "null", '"ab"', "{}"].map(inField)];
}

function wrongTitles(text) {
  const titles = JSON.parse(text), wrong = [null, {}, 7, "x", [], titles.slice(1), [...titles, "x"], titles.map(() => null), titles.map(() => [])];
  return wrong.map((value) => JSON.stringify(value));
}

function wrongTexts(text) {
  const docs = JSON.parse(text);
  const wrong = [null, {}, 7, "x", [], docs.slice(1), [...docs, {}], docs.map(() => null), docs.map(() => []), docs.map(() => "x")];
  return wrong.map((value) => JSON.stringify(value));
}

function wrongHeads(text) {
  const head = JSON.parse(text), wrong = [null, [], 7, "x", {}];
  for (const key of Object.keys(head)) {
    if (key === "lang") continue;
    for (const value of [undefined, null, 7, {}, [7], [null]]) wrong.push({ ...head, [key]: value });
  }
  const { fields, lengths, references, tries, texts } = head, turned = (list) => [...list].reverse();
  const others = { fields: [fields.map(() => fields[0])], references: [turned(references), references.map(() => "x")], save: [false] };
  others.lengths = [lengths.slice(1), lengths.map((list) => list.slice(1))];
  for (const length of [-1, 0.5, "1"]) others.lengths.push(lengths.map((list) => list.map(() => length)));
  others.folder = ["pieces-x", "../" + head.folder, "https://example.org/" + head.folder, head.folder + "/.."];
  others.folder.push(head.folder + "\n", head.folder.toUpperCase());
  others.tries = [turned(tries), ["", ...tries]];
  const wrongCounts = (counts) => [counts.slice(1), [0, ...counts], [...counts, 1], counts.map(() => -1), counts.map(String), counts.map((count) => count + 0.5)];
  others.texts = wrongCounts(texts);
  others.titles = wrongCounts(head.titles);
  others.sizes = [head.sizes.slice(1), [...head.sizes, 1], head.sizes.map(() => 0), head.sizes.map(() => -1), head.sizes.map(String)];
  others.title = ["no field of it", "constructor"];
  others.pipeline = [["constructor"], ["__proto__"], ["toString"], ["no such stage"]];
  for (const key of Object.keys(others)) for (const value of others[key]) wrong.push({ ...head, [key]: value });
  return wrong.map((value) => JSON.stringify(value));
}

// Each file of an index is answered wrongly once, by each text or Error that `answers` gives for it.
async function tryWrong(given, answers) {
  let tried = 0;
  for await (const { server, name, isRight } of callsOfFiles(given)) {
    for (const answer of answers(server.files[name], name, server.head())) {
      const site = await open(server.get);
      await failsOnce(server, name, answer, () => isRight(site));
      tried++;
    }
  }
  assert(tried >= 10, `only ${tried} wrong answers`);
}

async function tryWrongHeads(given, answers) {
  const server = new Server(given.files);
  for (const answer of answers) await failsOnce(server, HEAD, answer, () => open(server.get));
}

// What a call gives when it is the only one, for many calls.
function manyCalls({ index, files, names }) {
  const head = JSON.parse(files[HEAD]), options = { expand: true, minimum: 1 };
  return head.tries.map((token) => {
    const word = Array.from(token)[0], want = searchWhole(index, word, options, names);
    return async (site) => assert.deepStrictEqual(bits(await site.search(word, options)), want);
  });
}

// Runs this some seconds later, by the clock.
async function later(run) {
  const now = Date.now;
  Date.now = () => now() + 6000;
  try {
    await run();
  } finally {
    Date.now = now;
  }
}

// What a page has that loads these scripts one after another.
function pageWith(...scripts) {
  const page = vm.createContext({ console });
  page.self = page;
  for (const script of scripts) vm.runInContext(fs.readFileSync(script, "utf8"), page);
  return page;
}

const CASES = {
  async "a fetch that fails once"({ site }) {
    await tryWrong(site, () => [new Error("no network")]);
    await tryWrongHeads(site, [new Error("no network")]);
  },

  async "a file that is cut short"({ site }) {
    const cut = (text) => [0, 1, text.length >> 1, text.length - 1].map((end) => text.slice(0, end));
    await tryWrong(site, cut);
    await tryWrongHeads(site, cut(site.files[HEAD]));
  },

  async "a piece of another form"({ site }) {
    const answers = (text, name, head) => {
      const [, kind, number] = /\/([tdh])(\d+)\.json$/.exec(name), [token, next] = head.tries.slice(Number(number));
      return { t: wrongTries, d: wrongTexts, h: wrongTitles }[kind](text, token, next);
    };
    await tryWrong(site, answers);
    // Each of them is noticed by its form, too, where the head says nothing of its size.
    const { files } = withoutPipeline(site), plain = { ...site, files: withOlderHead(files) };
    for (const number of JSON.parse(files[HEAD]).tries.keys()) {
      const server = new Server(plain.files), head = server.head(), name = piece(head, "t" + number), site = await open(server.get);
      for (const answer of wrongTries(server.files[name], ...head.tries.slice(number))) {
        await failsOnce(server, name, answer, () => site.search(head.tries[number], {}));
        Object.assign(site, await open(server.get));
      }
    }
  },

  async "a piece that leaves something out"({ site }) {
    const { files } = withoutPipeline(site), head = JSON.parse(files[HEAD]);
    let tried = 0;
    for (const [number, token] of head.tries.entries()) {
      const name = piece(head, "t" + number), members = Object.entries(JSON.parse(files[name]));
      const gone = members.find(([word]) => word !== token), shorter = members.filter((member) => member !== gone), emptied = members.map(([word, lists]) => [word, word === token ? lists : lists.map(() => [])]);
      for (const answer of [shorter, emptied].map((list) => JSON.stringify(Object.fromEntries(list)))) {
        if (members.length < 2 || answer === files[name]) continue;
        const server = new Server(files), opened = await open(server.get);
        server.answerOnce(name, answer);
        await assert.rejects(() => opened.search(token, {}), (error) => error.file === name && / has \d+ bytes instead of \d+, which /.test(error.message));
        const believing = new Server({ ...withOlderHead(files), [name]: answer });
        await (await open(believing.get)).search(token, {});
        tried++;
      }
    }
    assert(tried > 2, `only ${tried} pieces`);
  },

  async "a head of an earlier elasticlunr"({ site }) {
    const { files, index, names } = withoutPipeline(site), server = new Server(withOlderHead(files)), opened = await open(server.get);
    const { tries, references } = server.head(), store = JSON.parse(site.whole).documentStore;
    for (const token of tries) assert.deepStrictEqual(bits(await opened.search(token, {})), searchWhole(index, token, {}, names));
    for (const one of references) assert.deepStrictEqual([await opened.title(one), await opened.doc(one)], [null, store.docs[one]]);
    assert.strictEqual(opened.titleField, "title");
  },

  async "titles"({ site, named }) {
    const server = new Server(named.files), opened = await open(server.get), { references } = server.head();
    assert.strictEqual(opened.titleField, "title");
    assert.deepStrictEqual(await Promise.all(references.map((one) => opened.title(one))), references.map((one) => JSON.parse(named.whole).documentStore.docs[one].title || ""));
    assert(server.fetched.every((name) => name === HEAD || /\/h\d+\.json$/.test(name)));
    const plain = new Server(site.files), { titles } = plain.head();
    assert(titles.length > 1 && titles.length < references.length * 2);
  },

  async "pieces past a bound"({ site }) {
    const { files, index, names } = withoutPipeline(site), server = new Server(files), head = server.head(), { tries } = head;
    const sizes = Object.entries(files).filter(([name]) => name !== HEAD).map(([, text]) => Buffer.byteLength(text));
    const most = 2 * Math.max(...sizes), opened = await open(server.get, { most });
    for (let turn = 0; turn < 3; turn++) {
      for (const token of tries) {
        assert.deepStrictEqual(bits(await opened.search(token, {})), searchWhole(index, token, {}, names));
        assert.deepStrictEqual(bits(await opened.search(token, {})), searchWhole(index, token, {}, names));
      }
      for (const one of head.references) await opened.doc(one);
      assert([...opened.pieces.files.keys()].map((name) => Buffer.byteLength(files[name])).reduce((all, one) => all + one, 0) <= most);
    }
    assert(server.count(piece(head, "t0")) === 3, "each turn fetches what was let go, and no more");
    await Promise.all(tries.map((token) => opened.search(token, {})));
    assert(opened.pieces.bytes <= most && opened.pieces.files.size > 0);
    for (const wrong of [0, -1, "x", NaN]) await assert.rejects(() => open(server.get, { most: wrong }), /most/);
  },

  async "a failure at each key"({ site }) {
    const given = withoutPipeline(site), server = new Server(given.files), opened = await open(server.get), calls = manyCalls(given);
    server.files = { [HEAD]: given.files[HEAD] };
    for (const isRight of [...calls, ...calls]) await assert.rejects(() => isRight(opened), (error) => /\/t\d+\.json$/.test(error.file));
    assert.strictEqual(server.count(HEAD), 2);
    await later(async () => {
      await assert.rejects(() => calls[0](opened));
      assert.strictEqual(server.count(HEAD), 3);
    });
    server.files = given.files;
    for (const isRight of calls) await isRight(opened);
    assert.strictEqual(server.count(HEAD), 3);
  },

  async "fields that every object has"({ fields }) {
    const names = Object.getOwnPropertyNames(Object.prototype), server = new Server(fields.files), opened = await open(server.get);
    assert.deepStrictEqual(opened.fields, JSON.parse(fields.whole).fields);
    assert(opened.fields.filter((field) => names.includes(field)).length > 2);
    for (const [at, field] of opened.fields.entries()) {
      const options = { expand: true, fields: { [field]: { boost: 2 } } };
      const searches = [["word", {}, 3], [`own${at}`, {}, 1], [`own${at}`, options, 1], [{ [field]: `own${at}` }, {}, 1], ["nowhere", {}, 0]];
      for (const [query, asked, count] of searches) assert.strictEqual((await opened.search(query, asked)).length, count, `${field}: ${JSON.stringify(query)}`);
      const { words } = await opened.lookUp(`own${at}`, {});
      assert.strictEqual(words[0].isIn(String(at), field), true);
      const other = opened.fields[(at + 1) % opened.fields.length];
      assert.strictEqual((await opened.search(`own${at}`, { fields: JSON.parse(`{${JSON.stringify(other)}:{}}`) })).length, 0, field);
    }
    for (const unknown of ["valueOf", "isPrototypeOf"]) assert.strictEqual((await opened.search({ [unknown]: "word" }, {})).length, 0);
  },

  async "a head of another form"({ site }) {
    await tryWrongHeads(site, wrongHeads(site.files[HEAD]));
  },

  async "a head that is replaced"({ site, other }) {
    const newer = withoutPipeline(other), server = new Server(withoutPipeline(site).files), opened = await open(server.get);
    const store = JSON.parse(other.whole).documentStore, options = { expand: true, minimum: 1 };
    const want = searchWhole(newer.index, "wo", options, newer.names);
    assert(want.length > 0);
    server.files = newer.files;
    const found = await Promise.all([1, 2, 3, 4].map(() => opened.search("wo", options)));
    for (const hits of found) assert.deepStrictEqual(bits(hits), want);
    assert.strictEqual(server.count(HEAD), 2);
    for (const isRight of manyCalls(newer)) await isRight(opened);
    for (const reference of server.head().references) assert.deepStrictEqual(await opened.doc(reference), store.docs[reference]);
    assert.strictEqual(server.count(HEAD), 2);
  },

  async "a head that is replaced before its pieces are there"({ site, other }) {
    const newer = withoutPipeline(other), server = new Server(withoutPipeline(site).files), opened = await open(server.get);
    const [isRight] = manyCalls(newer).slice(-1);
    server.files = { [HEAD]: newer.files[HEAD] };
    const { folder } = server.head();
    await assert.rejects(() => isRight(opened), (error) => error.file.startsWith(folder + "/t"));
    server.files = newer.files;
    await isRight(opened);
  },

  async "a head that is replaced, where a missing file is answered by a page"({ site, other }) {
    const newer = withoutPipeline(other), head = JSON.parse(site.files[HEAD]), page = "<!doctype html>";
    const server = new Server(withoutPipeline(site).files), opened = await open(server.get);
    server.files = { ...newer.files, [piece(head, "t0")]: page, [piece(head, "d0")]: page };
    const { documentStore } = JSON.parse(other.whole), [reference] = server.head().references;
    assert.strictEqual(await opened.doc(head.references[0]), null);
    for (const isRight of manyCalls(newer)) await isRight(opened);
    assert.deepStrictEqual(await opened.doc(reference), documentStore.docs[reference]);
    assert.strictEqual(server.count(HEAD), 2);
  },

  async "a head that stays while a piece is gone"({ site }) {
    const given = withoutPipeline(site), server = new Server(given.files), opened = await open(server.get), calls = manyCalls(given);
    server.files = { [HEAD]: given.files[HEAD] };
    for (const isRight of calls) await assert.rejects(() => isRight(opened), (error) => /\/t\d+\.json$/.test(error.file));
    server.files = {};
    await assert.rejects(() => calls[0](opened), (error) => /\/t\d+\.json$/.test(error.file));
    server.files = { [HEAD]: "<!doctype html>" };
    await assert.rejects(() => calls[0](opened), (error) => /\/t\d+\.json$/.test(error.file));
    server.files = given.files;
    for (const isRight of calls) await isRight(opened);
  },

  async "a head that is replaced after a call failed"({ site, other }) {
    const old = withoutPipeline(site), newer = withoutPipeline(other), options = { expand: true, minimum: 1 };
    const want = searchWhole(newer.index, "wo", options, newer.names);
    for (const files of [{}, { [HEAD]: old.files[HEAD] }]) {
      const server = new Server(old.files), opened = await open(server.get);
      server.files = files;
      await assert.rejects(() => opened.search("wo", options), (error) => /\/t\d+\.json$/.test(error.file));
      server.files = newer.files;
      await later(async () => assert.deepStrictEqual(bits(await opened.search("wo", options)), want));
    }
  },

  async "calls that overlap"({ site }) {
    const given = withoutPipeline(site), calls = [...manyCalls(given), ...manyCalls(given)], server = new Server(given.files);
    const opened = await open(server.get), { references } = server.head();
    const texts = references.map((reference) => [opened.doc(reference), opened.title(reference)]);
    await Promise.all([...calls.map((isRight) => isRight(opened)), ...texts.map((both) => Promise.all(both))]);
    for (const name of Object.keys(given.files)) assert.strictEqual(server.count(name), 1, name);
  },

  async "a query that changes after its call"({ site }) {
    const { index, files, names } = withoutPipeline(site), server = new Server(files), opened = await open(server.get);
    const [word, later] = server.head().tries, query = { any: word }, options = { expand: false };
    const want = searchWhole(index, word, {}, names), found = opened.search(query, options);
    query.any = later;
    options.expand = true;
    assert.deepStrictEqual(bits(await found), want);
  },

  async "the files that a call fetches"({ site }) {
    const { files } = withoutPipeline(site), { tries, references } = JSON.parse(files[HEAD]);
    const calls = [["\u0001", {}, 0], ["\u0001", { expand: true }, 0], ["", {}, 0], [null, {}, 0], [tries[2], null, 1]];
    for (const [query, options, most] of [...calls, [tries[2][0], { expand: true, minimum: 1, maxPieces: 1 }, 1], [tries[2][0], { expand: true }, 1]]) {
      const server = new Server(files), opened = await open(server.get);
      await opened.search(query, options);
      assert(server.fetched.length <= 1 + most, `${query}: ${server.fetched}`);
    }
    const server = new Server(files), opened = await open(server.get);
    for (let turn = 0; turn < 2; turn++) await opened.doc(references[0]);
    assert.deepStrictEqual(server.fetched, [HEAD, piece(server.head(), "d0")]);
    for (const wrong of [0, -1, null, "x", NaN]) {
      await assert.rejects(() => opened.search(tries[0], { maxPieces: wrong }), /maxPieces/);
      await assert.rejects(() => opened.search(tries[0], { minimum: wrong }), /minimum/);
    }
  },

  async "the words of a query"({ site }) {
    const { index, files } = withoutPipeline(site), opened = await open(new Server(files).get), { tries, references } = JSON.parse(files[HEAD]);
    assert(piecesFor("b", true, tries) > 1);
    const long = { expand: true, minimum: 1 };
    for (const options of [long, { ...long, maxPieces: 1 }, { expand: true }, { expand: false }, {}]) {
      const { hits, words } = await opened.lookUp("b beta1 nowhere b", options), isExpanded = expansion({ tries }, options);
      assert.deepStrictEqual(bits(hits), bits(await opened.search("b beta1 nowhere b", options)));
      assert.deepStrictEqual(words.map((word) => word.text).sort(), ["b", "beta1", "nowhere"]);
      for (const word of words) {
        assert.strictEqual(word.isExpanded, Boolean(options.expand) && isExpanded(word.text));
        const finds = (token) => (word.isExpanded ? token.startsWith(word.text) : token === word.text);
        for (const token of ["b", "beta1", "beta10", "a"]) assert.strictEqual(word.finds(token), finds(token), `${word.text}, ${token}`);
        const tokens = (field) => (word.isExpanded ? index.index[field].expandToken(word.text) : [word.text]);
        const isIn = (reference, field) => tokens(field).some((token) => reference in index.index[field].getDocs(token));
        for (const field of opened.fields) for (const one of references) assert.strictEqual(word.isIn(one, field), isIn(one, field), word.text);
        const want = references.filter((reference) => opened.fields.some((field) => isIn(reference, field)));
        assert.deepStrictEqual([...word.references()].sort(), want);
      }
    }
    assert.deepStrictEqual(opened.tokens("Beta1 two-words"), ["beta1", "two", "words"]);
  },

  // Doubles have another sum in another order. Here digits, which come first in an object, meet characters before and after them.
  async "sums in the order of a trie"({ sums }) {
    for (const word of ["a", "a.", "a0", "a9", "a:"]) {
      const want = searchWhole(sums.index, word, { expand: true }, sums.names);
      assert.deepStrictEqual(bits(await sums.site.search(word, { expand: true, minimum: 1 })), want, word);
      assert(want.length > 0, word);
    }
  },

  async "names that every object has"({ hostile }) {
    const before = JSON.stringify(Object.getOwnPropertyNames(Object.prototype)), names = Object.getOwnPropertyNames(Object.prototype);
    const hits = await hostile.site.search("word", {});
    for (const name of names) assert(hits.some((hit) => hit.ref === name && hit.score > 0), name);
    for (const name of names) assert.strictEqual((await hostile.site.doc(name)).body.startsWith("word"), true);
    assert.strictEqual(await hostile.site.doc("hasOwn"), null);
    assert.strictEqual(JSON.stringify(Object.getOwnPropertyNames(Object.prototype)), before);
  },

  async "members that would change every object"({ site }) {
    const before = JSON.stringify(Object.getOwnPropertyNames(Object.prototype));
    const { files } = withoutPipeline(site), head = JSON.parse(files[HEAD]), posting = JSON.stringify(head.fields.map(() => [0, 1]));
    const hostile = { ...files, [HEAD]: JSON.stringify({ ...older(head), tries: ["__proto__"], polluted: 1 }).replace('"polluted"', '"__proto__"') };
    hostile[piece(head, "t0")] = `{"__proto__":${posting},"constructor":${posting},"prototype":${posting}}`;
    hostile[piece(head, "d0")] = `[${JSON.parse(files[piece(head, "d0")]).map(() => '{"__proto__":{"polluted":1}}').join()}]`;
    const opened = await open(new Server(hostile).get);
    for (const token of ["__proto__", "constructor", "prototype"]) {
      for (const expand of [true, false]) {
        const hits = await opened.search(token, { expand });
        assert.deepStrictEqual(hits.map((hit) => hit.ref), [head.references[0]]);
      }
    }
    await opened.doc(head.references[0]);
    for (const field of ["__proto__", "constructor"]) {
      const named = { ...older(head), fields: [field], lengths: [head.lengths[0]], tries: ["a"] };
      const server = new Server({ ...files, [HEAD]: JSON.stringify(named), [piece(head, "t0")]: '{"a":[[0,1]]}' });
      assert.strictEqual((await (await open(server.get)).search("a", {})).length, 1);
    }
    assert.strictEqual({}.polluted, undefined);
    assert.strictEqual(JSON.stringify(Object.getOwnPropertyNames(Object.prototype)), before);
  },

  async "an index without texts"({ bare }) {
    const head = JSON.parse(bare.files[HEAD]), server = new Server(bare.files), opened = await open(server.get);
    assert((await opened.search("word", {})).length > 0);
    for (const reference of head.references) assert.strictEqual(await opened.doc(reference), null);
    assert(!server.fetched.some((name) => name.includes("/d")));
  },

  async "an index without documents"({ empty }) {
    const server = new Server(empty.files), opened = await open(server.get);
    assert.deepStrictEqual(await opened.search("word", { expand: true }), []);
    assert.strictEqual(await opened.doc("1"), null);
    assert.deepStrictEqual(server.fetched, [HEAD]);
  },

  async "a token of 100,000 characters"({ site }) {
    const { files } = withoutPipeline(site), head = JSON.parse(files[HEAD]), token = "a".repeat(100000);
    const server = new Server({ ...files, [HEAD]: JSON.stringify({ ...older(head), tries: [token] }) });
    server.files[piece(head, "t0")] = JSON.stringify({ [token]: head.fields.map(() => [0, 1000000]) });
    const opened = await open(server.get);
    for (const word of [token, token.slice(1)]) assert.strictEqual((await opened.search(word, { expand: true })).length, 1);
  },

  async "the address of a folder"({ site }) {
    const asked = [], answers = [], before = globalThis.fetch;
    globalThis.fetch = async (address, { cache }) => {
      const text = answers.length ? answers.shift() : site.files[address.replace(/^.*search\/|^(?=pieces)/, "")];
      asked.push([address, cache]);
      return { ok: text !== undefined, status: text === undefined ? 404 : 200, text: async () => text };
    };
    try {
      const { folder, references } = JSON.parse(site.files[HEAD]);
      for (const address of ["https://example.org/a/search", "search/", "../search"]) await open(address);
      const heads = ["https://example.org/a/search/search.json", "search/search.json", "../search/search.json"];
      assert.deepStrictEqual(asked.splice(0), heads.map((one) => [one, "no-cache"]));
      const opened = await open(""), name = folder + "/d0.json";
      answers.push(undefined);
      await assert.rejects(() => opened.doc(references[0]), (error) => error.file === name && error.message.includes("404"));
      await opened.doc(references[0]);
      assert.deepStrictEqual(asked, [[HEAD, "no-cache"], [name, "default"], [HEAD, "no-cache"], [name, "reload"]]);
    } finally {
      globalThis.fetch = before;
    }
  },

  async "a page that loads the scripts"({ site, german }) {
    const folderOf = (given) => new Server(given.files).get;
    for (const [given, scripts, word] of [[site, [library], "word0"], [site, [library, languages], "word0"], [german, [library, languages], "Wort"]]) {
      const hits = await (await pageWith(...scripts, reader).elasticlunrPieces.open(folderOf(given))).search(word);
      assert.deepStrictEqual(bits([...hits]), searchWhole(given.index, word, {}, given.names));
      assert(hits.length > 0);
    }
    const lacks = (error) => error.file === HEAD && error.message.includes('"trimmer-de"');
    await assert.rejects(() => pageWith(library, reader).elasticlunrPieces.open(folderOf(german)), lacks);
    assert.throws(() => pageWith(reader), /elasticlunr\.min\.js/);
  },
};

async function tryCases(given, numbers) {
  const indexes = Object.fromEntries(Object.entries(numbers).map(([name, number]) => [name, given[number]])), told = [];
  for (const [name, run] of Object.entries(CASES)) {
    try {
      await run(indexes);
      told.push([name, null]);
    } catch (error) {
      told.push([name, String(error.stack).slice(0, 800)]);
    }
  }
  return told;
}

// A site, or what gives its error to each call.
async function siteOf(files) {
  try {
    return await open(new Server(files).get);
  } catch (error) {
    const fail = async () => {
      throw error;
    };
    return { search: fail, doc: fail };
  }
}

async function main() {
  const { indexes, queries, cases } = JSON.parse(fs.readFileSync(0, "utf8")), given = [];
  for (const { whole, files, names } of indexes) {
    const index = elasticlunr.Index.load(JSON.parse(whole));
    given.push({ whole, files, names: new Map(names), index, tries: JSON.parse(files[HEAD]).tries, site: await siteOf(files) });
  }
  const told = await compare(given, queries), texts = [];
  for (const one of given) texts.push(await compareTexts(one).then(() => null, (error) => String(error.message).slice(0, 300)));
  process.stdout.write(JSON.stringify({ queries: told, texts, cases: await tryCases(given, cases) }));
}

main().catch((error) => {
  console.error(error);
  process.exitCode = 1;
});
