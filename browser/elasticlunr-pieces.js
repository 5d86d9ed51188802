/* Searches an index that is cut into pieces, and fetches only the pieces that a query needs. Load it after elasticlunr.min.js
   (0.9.5) and the script of the index's language, by its own script element:

     const site = await elasticlunrPieces.open("search/");
     const hits = await site.search("install", { expand: true });  // [{ ref, score }, ..], best first
     const title = await site.title(hits[0].ref);                  // its title; null where the index has no titles
     const text = await site.doc(hits[0].ref);                     // the stored document; null where there is none

   In node: require("./elasticlunr-pieces.js")(elasticlunr).open(async (name) => ..).

   `open` takes the address of the folder of search.json, or a function that gives the text of a file of that folder by name.
   `open(folder, { most: 8e6 })` says of how many bytes the pieces are that stay here; those that were used longest ago are let
   go, and fetched again when they are needed.
   Scores and order are those of `index.search` of elasticlunr.js on the whole index, with the same options. Two are added for
   `expand`, since the letter `s` would fetch each word that begins so: a word with fewer characters than `minimum` (2), or one
   that begins the words of more pieces than `maxPieces` (no limit), finds itself alone. `minimum: 1` is as elasticlunr.js.

   `site.lookUp(query, options)` gives the hits, and each word of the query with the documents that have it. `site.tokens(text)`
   has the tokens of a text, `site.fields` the names of the fields, `site.titleField` the one of the titles, and `site.folder`
   changes with each other index.

   What can't be fetched, or isn't what search.json says, is an Error whose `file` is the file's name. Its `cause` is why there
   is no JSON text; without a `cause` the text isn't what was expected. The next call tries again. References and fields such as
   `__proto__`, which break elasticlunr.js, are found like any other. */
(function (make) {
  "use strict";
  if (typeof module === "object" && module.exports) module.exports = make;
  else if (typeof elasticlunr === "undefined") throw new Error("elasticlunr.min.js has to be loaded first");
  else self.elasticlunrPieces = make(elasticlunr);
})(function (elasticlunr) {
  "use strict";

  const HEAD = "search.json";
  const MINIMUM = 2; // characters of a word that `expand` makes longer
  const MOST = 8e6; // bytes of the pieces that stay here
  const AGAIN = 5000; // milliseconds until the head is read again, where no piece has come since it was
  const TITLE = "title"; // the field of the titles, where a head doesn't say which
  const NOTHING = { docs: {}, count: 0 }; // the postings of a token that the index doesn't have

  // Order. JavaScript compares UTF-16, which isn't the order of bytes above U+FFFF: here characters are compared.

  function orderBy(rank) {
    return (one, other) => {
      const length = Math.min(one.length, other.length);
      for (let at = 0; at < length; at++) {
        const left = one.codePointAt(at), right = other.codePointAt(at);
        if (left !== right) return rank(left) - rank(right);
      }
      return one.length - other.length;
    };
  }

  const byBytes = orderBy((code) => code);

  // The order in which elasticlunr.js goes through a trie. An object of JavaScript has members whose names are digits first.
  const asInTries = orderBy((code) => code >= 48 && code <= 57 ? code - 58 : code);

  const byValue = (one, other) => one - other;

  function isSorted(list, compare) {
    return list.every((item, at) => at === 0 || compare(list[at - 1], item) < 0);
  }

  // How many items of a sorted list come before this one, or are equal to it.
  function countUpTo(list, item, compare) {
    let low = 0, high = list.length;
    while (low < high) {
      const middle = (low + high) >> 1;
      if (compare(list[middle], item) <= 0) low = middle + 1;
      else high = middle;
    }
    return low;
  }

  // Whether a token begins so. Half of a character above U+FFFF begins none.
  function begins(token, start) {
    return token.startsWith(start) && !/[\uD800-\uDBFF]$/.test(start);
  }

  // Files.

  function fault(name, why, cause) {
    const error = new Error(name + ": " + why);
    error.file = name;
    if (cause) error.cause = cause;
    return error;
  }

  // A function that fetches a file of a folder by its name, and says how caches may be used (as `cache` of `fetch`).
  function fetchFrom(address) {
    const folder = address === "" || address.endsWith("/") ? address : address + "/";
    return async (name, cache) => {
      const response = await fetch(folder + name, { cache });
      if (!response.ok) throw new Error("the server answered " + response.status);
      return response.text();
    };
  }

  // How many bytes a text has in UTF-8.
  function bytesOf(text) {
    let bytes = 0;
    for (const character of text) {
      const code = character.codePointAt(0);
      bytes += code < 0x80 ? 1 : code < 0x800 ? 2 : code < 0x10000 ? 3 : 4;
    }
    return bytes;
  }

  // The value of a file, and how many bytes its text has.
  async function fetchValue(get, name, cache) {
    let text;
    try {
      text = await get(name, cache);
    } catch (error) {
      throw fault(name, "can't be fetched: " + (error instanceof Error ? error.message : error), error || new Error("no reason"));
    }
    try {
      return { value: JSON.parse(text), bytes: bytesOf(text) };
    } catch (error) {
      throw fault(name, "is cut short, or no JSON: " + error.message, error);
    }
  }

  const hasOwn = (holder, name) => Object.prototype.hasOwnProperty.call(holder, name);
  const isObject = (value) => typeof value === "object" && value !== null && !Array.isArray(value);
  const isText = (value) => typeof value === "string";
  const isListOf = (value, isItem) => Array.isArray(value) && value.every(isItem);
  const isNumberBelow = (value, end) => Number.isInteger(value) && value >= 0 && value < end;

  // What is wrong with a head, or null.
  function wrongInHead(head) {
    if (!isObject(head)) return "isn't an object";
    const { fields, references, lengths, pipeline, tries, texts } = head;
    if (!isText(head.version) || !isText(head.ref) || typeof head.save !== "boolean") return "lacks its version, ref or save";
    if (!isListOf(fields, isText) || new Set(fields).size < fields.length) return "its fields aren't a list of different texts";
    if (!isListOf(pipeline, isText)) return "its pipeline isn't a list of texts";
    if (!isListOf(references, isText) || !isSorted(references, byBytes)) return "its references aren't in order";
    const isLength = (value) => value === null || isNumberBelow(value, Infinity);
    const isColumn = (list) => isListOf(list, isLength) && list.length === references.length;
    if (!isListOf(lengths, isColumn) || lengths.length !== fields.length) return "its lengths aren't those of its fields";
    if (!isText(head.folder) || !/^pieces-[0-9a-f]{16}$/.test(head.folder)) return "its folder isn't one of pieces";
    if (!isListOf(tries, (token) => isText(token) && token !== "") || !isSorted(tries, byBytes)) return "its tries aren't in order";
    const hasTexts = head.save && references.length > 0;
    return isOlder(head) ? wrongStarts(texts, references.length, hasTexts) : wrongCountsAndSizes(head, hasTexts);
  }

  // A head of an earlier elasticlunr says neither how large its pieces are nor where titles are, and its texts are the numbers of
  // the first references of pieces.
  const isOlder = (head) => head.sizes === undefined && head.titles === undefined && head.title === undefined;

  // What is wrong with these numbers, or null. `areThere` says whether there are pieces.
  function wrongStarts(starts, end, areThere) {
    if (!isListOf(starts, (value) => isNumberBelow(value, end)) || !isSorted(starts, byValue)) return "its texts aren't in order";
    return (areThere ? starts[0] === 0 : starts.length === 0) ? null : "its texts aren't those of its references";
  }

  const isSomeNumber = (value) => isNumberBelow(value, Infinity) && value > 0;

  // What is wrong with the numbers of references that pieces have, or null. All of them are in the pieces, or none.
  function wrongCounts(name, counts, all) {
    if (!isListOf(counts, isSomeNumber)) return `its ${name} aren't a list of numbers`;
    return counts.reduce((sum, count) => sum + count, 0) === all ? null : `its ${name} aren't those of its references`;
  }

  // What is wrong with how many references pieces have, and how many bytes, or null.
  function wrongCountsAndSizes({ fields, references, title, titles, tries, texts, sizes }, hasTexts) {
    if (!isText(title)) return "lacks the field of its titles";
    const all = hasTexts ? references.length : 0;
    const wrong = wrongCounts("texts", texts, all) || wrongCounts("titles", titles, fields.includes(title) ? all : 0);
    if (wrong) return wrong;
    const count = tries.length + texts.length + titles.length;
    return isListOf(sizes, isSomeNumber) && sizes.length === count ? null : "its sizes aren't those of its pieces";
  }

  // The stages have to be there: elasticlunr.js takes `constructor` for one.
  function checkStages(head) {
    const known = elasticlunr.Pipeline.registeredFunctions;
    const unknown = head.pipeline.find((stage) => !hasOwn(known, stage));
    if (unknown === undefined) return;
    throw fault(HEAD, "no script has its stage " + JSON.stringify(unknown) + "; load the script of its language first");
  }

  async function fetchHead(get) {
    const { value: head } = await fetchValue(get, HEAD, "no-cache"), wrong = wrongInHead(head), { version } = elasticlunr;
    if (wrong) throw fault(HEAD, wrong);
    checkStages(head);
    if (head.version !== version) elasticlunr.utils.warn(HEAD + ": version " + head.version + ", elasticlunr.js is " + version);
    return head;
  }

  // What elasticlunr.js searches instead of a trie. Of a trie it calls `expandToken`, `getDocs`, `getDocFreq` and,
  // for what it found, `getTermFrequency`.

  // Finds nothing, and remembers which words a query looks up. So elasticlunr.js itself says what it needs. A word is expanded
  // if `isExpanded` says so.
  class Wanted {
    constructor(isExpanded) {
      this.isExpanded = isExpanded;
      this.words = new Set();
      this.starts = new Set();
    }

    expandToken(token) {
      (this.isExpanded(token) ? this.starts : this.words).add(token);
      return [];
    }

    getDocs(token) {
      this.words.add(token);
      return {};
    }

    getDocFreq() {
      return 0;
    }
  }

  // The tokens that a query needs, in the order of a trie, each with its postings in each field.
  class Found {
    constructor(wanted, pieces) {
      const all = [].concat(...pieces.map((piece) => [...piece])), starts = [...wanted.starts];
      const isNeeded = (token) => wanted.words.has(token) || starts.some((start) => begins(token, start));
      const needed = all.filter(([token]) => isNeeded(token)).sort(([one], [other]) => asInTries(one, other));
      const tokens = needed.map(([token]) => token);
      this.postings = new Map(needed);
      this.longer = new Map(starts.map((start) => [start, tokens.filter((token) => begins(token, start))]));
    }

    // The tokens that a word finds, of all fields.
    tokens(word) {
      return this.longer.get(word) || [word];
    }

    in(field, token) {
      const lists = this.postings.get(token);
      return lists ? lists[field] : NOTHING;
    }
  }

  // The tokens of one field. Those without postings in it change nothing.
  class Trie {
    constructor(found, field) {
      this.found = found;
      this.field = field;
    }

    expandToken(word) {
      return this.found.tokens(word);
    }

    getDocs(token) {
      return this.found.in(this.field, token).docs;
    }

    getDocFreq(token) {
      return this.found.in(this.field, token).count;
    }

    getTermFrequency(token, name) {
      return this.getDocs(token)[name];
    }
  }

  // A word of a query, as the stages output it, and the documents that have it or, if it is expanded, a word that begins so.
  class Word {
    constructor(text, found, pieces) {
      this.text = text;
      this.isExpanded = found.longer.has(text);
      this.found = found;
      this.pieces = pieces;
    }

    finds(token) {
      return this.isExpanded ? begins(token, this.text) : token === this.text;
    }

    // Whether the document of this reference has it in this field.
    isIn(reference, field) {
      const name = this.pieces.names[this.pieces.numbers.get(reference)], at = this.pieces.head.fields.indexOf(field);
      return this.found.tokens(this.text).some((token) => hasOwn(this.found.in(at, token).docs, name));
    }

    // The references of the documents that have it in any field.
    references() {
      const names = new Set();
      for (const token of this.found.tokens(this.text)) {
        for (const { docs } of this.found.postings.get(token) || []) for (const name in docs) names.add(name);
      }
      return new Set([...names].map((name) => this.pieces.references.get(name)));
    }
  }

  // elasticlunr.js keeps scores and fields in plain objects, which have `constructor` and other members from the beginning. Where
  // a reference or a field is called so, it gets another name within elasticlunr.js.
  function namesOf(references) {
    const known = new Set(references);
    return references.map((reference) => {
      let name = reference;
      while (name in Object.prototype || (name !== reference && known.has(name))) name += "\0";
      return name;
    });
  }

  // The number of the first reference of each piece, if the pieces have so many.
  function startsOf(counts) {
    let start = 0;
    return counts.map((count) => (start += count) - count);
  }

  // An index, by its head, and the pieces of it that are here.
  class Pieces {
    constructor(get, head, most) {
      this.get = get;
      this.head = head;
      this.most = most;
      this.names = namesOf(head.references);
      this.fields = namesOf(head.fields);
      this.numbers = new Map(head.references.map((reference, number) => [reference, number]));
      this.references = new Map(this.names.map((name, number) => [name, head.references[number]]));
      this.store = this.makeStore();
      this.pipeline = elasticlunr.Pipeline.load(head.pipeline);
      this.files = new Map(); // for the name of each piece that is here its value, and its bytes once it has come
      this.bytes = 0;
      this.failed = new Set();
      this.sizes = this.sizesOf();
      this.texts = isOlder(head) ? head.texts : startsOf(head.texts);
      this.titles = isOlder(head) ? [] : startsOf(head.titles);
      this.hasCome = false; // whether a piece has come since the head was read
    }

    // The size of each piece by its name; none where the head doesn't say them.
    sizesOf() {
      const { tries, texts, titles, sizes } = this.head, named = [["t", tries], ["d", texts], ["h", titles || []]];
      const names = [].concat(...named.map(([letter, list]) => list.map((_, number) => letter + number + ".json")));
      return new Map(sizes ? names.map((name, at) => [name, sizes[at]]) : []);
    }

    // elasticlunr.js reads the length of a field only where the store has a document. The texts come later.
    makeStore() {
      const { lengths } = this.head, { fields } = this, docs = {}, docInfo = {};
      this.names.forEach((name, number) => {
        docs[name] = null;
        docInfo[name] = {};
        fields.forEach((field, at) => {
          if (lengths[at][number] !== null) docInfo[name][field] = lengths[at][number];
        });
      });
      return { docs, docInfo, length: this.names.length, save: false };
    }

    // The value of a file of the folder, read by `read`. It is fetched once, and again where that failed or it was let go.
    file(file, read) {
      const name = this.head.folder + "/" + file, known = this.files.get(name);
      if (!known) return this.fetchFile(file, name, read);
      this.files.delete(name); // what was used last stands last
      this.files.set(name, known);
      return known.coming;
    }

    fetchFile(file, name, read) {
      const entry = { bytes: 0, coming: null }, cache = this.failed.has(name) ? "reload" : "default";
      entry.coming = fetchValue(this.get, name, cache).then(({ value, bytes }) => {
        const size = this.sizes.get(file);
        if (size !== undefined && size !== bytes) throw fault(name, `has ${bytes} bytes instead of ${size}, which ${HEAD} says`);
        const made = read(value, name);
        this.take(entry, bytes);
        return made;
      });
      this.files.set(name, entry);
      entry.coming.catch(() => {
        this.files.delete(name);
        this.failed.add(name);
      });
      return entry.coming;
    }

    // Counts a piece that has come, and lets go those that were used longest ago.
    take(entry, bytes) {
      this.hasCome = true;
      entry.bytes = bytes;
      this.bytes += bytes;
      for (const [name, other] of this.files) {
        if (this.bytes <= this.most) return;
        if (other === entry || other.bytes === 0) continue; // one that hasn't come yet takes nothing
        this.files.delete(name);
        this.bytes -= other.bytes;
      }
    }

    // The tokens of a piece of the tries, each with its postings in each field.
    tokensOf(number) {
      const { tries } = this.head;
      return this.file("t" + number + ".json", (value, name) => {
        if (!isObject(value)) throw fault(name, "isn't an object");
        const tokens = Object.keys(value).sort(byBytes), last = tokens[tokens.length - 1], next = tries[number + 1];
        if (tokens[0] !== tries[number]) throw fault(name, "doesn't begin with the token that " + HEAD + " says");
        if (next !== undefined && byBytes(last, next) >= 0) throw fault(name, "has tokens of the next piece");
        return new Map(tokens.map((token) => [token, this.postings(value[token], name)]));
      });
    }

    postings(lists, name) {
      const isOne = isListOf(lists, Array.isArray) && lists.length === this.head.fields.length;
      if (!isOne) throw fault(name, "a token hasn't a list for each field");
      return lists.map((list) => this.postingsOfField(list, name));
    }

    postingsOfField(list, name) {
      const docs = {};
      let next = 0;
      for (let at = 0; at < list.length; at += 2) {
        const number = list[at], frequency = list[at + 1];
        const isInOrder = isNumberBelow(number, this.names.length) && number >= next;
        if (!isInOrder) throw fault(name, "the references of a token aren't in order");
        if (!Number.isFinite(frequency) || frequency <= 0) throw fault(name, "a reference has no frequency above 0");
        docs[this.names[number]] = frequency;
        next = number + 1;
      }
      return { docs, count: list.length / 2 };
    }

    // The items of a piece of the texts or of the titles, of which `starts` has the number of the first reference of each.
    listOf(letter, starts, number, isItem, items) {
      const { references } = this.head, isLast = number + 1 === starts.length;
      const end = isLast ? references.length : starts[number + 1];
      return this.file(letter + number + ".json", (value, name) => {
        if (!isListOf(value, isItem)) throw fault(name, "isn't a list of " + items);
        if (value.length !== end - starts[number]) throw fault(name, `hasn't as many ${items} as ${HEAD} says`);
        return value;
      });
    }

    // What such pieces have for a reference, or null where there is none.
    async itemOf(reference, letter, starts, isItem, items) {
      const number = this.numbers.get(String(reference));
      if (number === undefined || starts.length === 0) return null;
      const piece = countUpTo(starts, number, byValue) - 1;
      return (await this.listOf(letter, starts, piece, isItem, items))[number - starts[piece]];
    }

    // The numbers of the pieces in which a word may stand or, with `all`, those that begin so.
    numbersOf(word, all) {
      const { tries } = this.head, numbers = [];
      const isOne = (first) => byBytes(first, word) <= 0 || (all && begins(first, word));
      let number = Math.max(0, countUpTo(tries, word, byBytes) - 1);
      while (number < tries.length && isOne(tries[number])) numbers.push(number++);
      return numbers;
    }

    async fetchFound(wanted) {
      const numbers = new Set();
      for (const word of wanted.words) this.numbersOf(word, false).forEach((number) => numbers.add(number));
      for (const start of wanted.starts) this.numbersOf(start, true).forEach((number) => numbers.add(number));
      return new Found(wanted, await Promise.all([...numbers].map((number) => this.tokensOf(number))));
    }

    // An index of elasticlunr.js with these tries, one for the number of each field.
    indexWith(trieOf) {
      const { ref, pipeline } = this.head, { fields } = this, { version } = elasticlunr;
      const index = elasticlunr.Index.load({ version, fields, ref, pipeline, documentStore: this.store, index: {} });
      fields.forEach((field, at) => {
        index.index[field] = trieOf(at);
      });
      return index;
    }

    // An object with a member for each field, by the names that the fields have within elasticlunr.js.
    renamed(members) {
      const named = {};
      for (const field of Object.keys(members)) {
        const at = this.head.fields.indexOf(field), isLost = at < 0 && field in Object.prototype; // it is no field here
        if (!isLost) named[at < 0 ? field : this.fields[at]] = members[field];
      }
      return named;
    }

    async lookUp(given, asked, { minimum, maxPieces }) {
      const query = isObject(given) ? this.renamed(given) : given;
      const options = isObject(asked) && isObject(asked.fields) ? { ...asked, fields: this.renamed(asked.fields) } : asked;
      const isLong = (word) => Array.from(word).length >= minimum;
      const wanted = new Wanted((word) => isLong(word) && this.numbersOf(word, true).length <= maxPieces);
      this.indexWith(() => wanted).search(query, options);
      const found = await this.fetchFound(wanted), index = this.indexWith((field) => new Trie(found, field));
      const hits = index.search(query, options).map((hit) => ({ ref: this.references.get(hit.ref), score: hit.score }));
      const words = [...new Set([...wanted.starts, ...wanted.words])].map((word) => new Word(word, found, this));
      return { hits, words };
    }

    async doc(reference) {
      return this.itemOf(reference, "d", this.texts, isObject, "documents");
    }

    async title(reference) {
      return this.itemOf(reference, "h", this.titles, isText, "titles");
    }
  }

  // An option that is a number from 1, or this where it isn't given.
  function numberOf(options, name, usual) {
    const number = options && options[name] !== undefined ? options[name] : usual;
    if (!(number >= 1)) throw new Error(name + ": expected a number from 1");
    return number;
  }

  async function openPieces(get, most) {
    return new Pieces(get, await fetchHead(get), most);
  }

  // An index whose head may be replaced while it is searched.
  class Site {
    constructor(get, pieces) {
      this.get = get;
      this.pieces = pieces;
      this.renewal = null;
      this.renewed = -Infinity; // when the head was read again, and named the same folder
    }

    get titleField() {
      const { title } = this.pieces.head;
      return title === undefined ? TITLE : title;
    }

    get fields() {
      return this.pieces.head.fields;
    }

    get folder() {
      return this.pieces.head.folder;
    }

    tokens(text) {
      return this.pieces.pipeline.run(elasticlunr.tokenizer(text));
    }

    async search(query, options) {
      return (await this.lookUp(query, options)).hits;
    }

    // `query` and `options` may change while the pieces are fetched: they are copied.
    async lookUp(query, options) {
      const [text, copied] = JSON.parse(JSON.stringify([query, options]));
      const limits = { minimum: numberOf(options, "minimum", MINIMUM), maxPieces: numberOf(options, "maxPieces", Infinity) };
      return this.ask((pieces) => pieces.lookUp(text, copied === null ? {} : copied, limits));
    }

    async doc(reference) {
      return this.ask((pieces) => pieces.doc(reference));
    }

    async title(reference) {
      return this.ask((pieces) => pieces.title(reference));
    }

    // A file that is missing or wrong may be that of a head that was replaced. Then the new one is asked.
    async ask(question) {
      const { pieces } = this;
      try {
        return await question(pieces);
      } catch (error) {
        if (!error.file) throw error;
        await this.renew(pieces).catch(() => {}); // the error of the piece says more
        if (this.pieces === pieces) throw error;
      }
      return question(this.pieces);
    }

    // Reads the head again, unless another call did or does so, or it was read a moment ago and no piece has come since.
    async renew(pieces) {
      if (this.pieces !== pieces) return;
      if (!this.renewal && !pieces.hasCome && Date.now() - this.renewed < AGAIN) return;
      if (!this.renewal) {
        this.renewal = this.readAgain().finally(() => {
          this.renewal = null;
        });
      }
      await this.renewal;
    }

    // Takes the head that is there now, if it names another folder.
    async readAgain() {
      this.renewed = Date.now();
      this.pieces.hasCome = false;
      const newer = await openPieces(this.get, this.pieces.most);
      if (newer.head.folder !== this.pieces.head.folder) this.pieces = newer;
    }
  }

  async function open(folder, options) {
    const get = typeof folder === "function" ? folder : fetchFrom(String(folder));
    return new Site(get, await openPieces(get, numberOf(options, "most", MOST)));
  }

  return { open };
});
