// The script of search.html. docs/BROWSER.md says what the page reads and what a site may set.
(function () {
  "use strict";

  const PAGE = 20; // results that are drawn at a time
  const EXCERPT = 30; // words of an excerpt, and of a heading
  const BEFORE = 8; // words of an excerpt before the first marked one
  const LONGEST = 200; // characters of a query, and of a word that are read
  const WIDEST = 80; // characters of a word that are shown
  const DELAY = 40; // milliseconds from a key press to the search
  const SLICE = 16; // milliseconds of work at a time
  const STEP = 100; // words that are read between two looks at the clock
  const TEXTS = 100; // texts that stay cut into words
  const VOCABULARY = 200000; // words whose tokens are remembered
  const PIECES = 8; // of an index that are fetched at most for the words that begin like one of the query
  const TITLE = "title"; // the field of the titles
  const SLOW = 200; // milliseconds of a search after which the page says that it is loading

  const ENGLISH = {
    search: "Search",
    choice: "Find pages with",
    all: "all words",
    any: "any word",
    more: "More",
    loading: "Loading the index …",
    pages: { one: "{count} page", other: "{count} pages" },
    noneHasAll: "No page has all of this.",
    noneHasAny: "No page has any of this.",
    nothing: "Nothing to look for: the index leaves these words out.",
    tooMany: "Too many words begin so. Type more of it.",
    notLoaded: "The search index could not be loaded: {reason}",
    refused: "The search index is refused: {reason}",
    noEngine: "elasticlunr.min.js is not there",
    noReader: "elasticlunr-pieces.js is not there",
    noText: "The text could not be loaded: {reason}",
    failed: "The search failed: {reason}",
  };

  const form = document.getElementById("form"), query = document.getElementById("query"), status = document.getElementById("status");
  const results = document.getElementById("results"), more = document.getElementById("more");
  let words = ENGLISH, plural = new Intl.PluralRules("en");
  let source = null, addresses = {}, renamed = new Map();
  let wanted = [], found = [], shown = 0, bare = new Set();
  let work = null, timer = 0, isWaiting = false, isSearching = false, slow = 0, next = null;

  // What the page says: in the words of the element `search-words` where it has them, and else in English.

  function readWords() {
    const element = document.getElementById("search-words");
    if (!element) return;
    try {
      const own = JSON.parse(element.textContent);
      if (own.pages) plural = new Intl.PluralRules(document.documentElement.lang || "en");
      words = { ...ENGLISH, ...own };
    } catch (error) {
      console.error("search-words:", error);
    }
  }

  function showWords() {
    for (const element of document.querySelectorAll("[data-word]")) element.textContent = words[element.dataset.word];
    query.placeholder = words.search;
    query.setAttribute("aria-label", words.search);
  }

  function fill(text, name, value) {
    return String(text).split("{" + name + "}").join(value);
  }

  function counted(count) {
    return fill(words.pages[plural.select(count)] || words.pages.other || "{count}", "count", count);
  }

  function say(text, bad) {
    if (status.textContent !== text) status.textContent = text;
    status.classList.toggle("bad", Boolean(bad));
  }

  // Work is a generator, which stops where the browser may come in between, and gives a promise where it has to wait for one. New
  // work replaces what isn't done yet.

  function later(newWork, milliseconds) {
    clearTimeout(timer);
    forget();
    work = newWork;
    results.setAttribute("aria-busy", "true");
    timer = setTimeout(proceed, milliseconds, SLICE);
  }

  function now(newWork) {
    later(newWork, 0);
    proceed(SLICE);
  }

  function forget() {
    clearTimeout(slow);
    work = next = null;
    isWaiting = isSearching = false;
  }

  // Goes on with the work, first by `resume` where it waited.
  function proceed(milliseconds, resume) {
    const end = performance.now() + milliseconds;
    clearTimeout(timer);
    try {
      if (resume) take(resume());
      while (work && !isWaiting && performance.now() < end) take(work.next());
    } catch (error) {
      fail(error);
    }
    if (work && !isWaiting) timer = setTimeout(proceed, 0, SLICE);
    results.setAttribute("aria-busy", String(work !== null));
  }

  function take({ done, value }) {
    if (done) work = null;
    else if (value) waitFor(value);
  }

  function waitFor(promise) {
    const waiting = work, goOn = (resume) => {
      if (work !== waiting) return;
      isWaiting = false;
      proceed(SLICE, resume);
    };
    isWaiting = true;
    promise.then((value) => goOn(() => waiting.next(value)), (error) => goOn(() => waiting.throw(error)));
  }

  // Acts on the results of what is typed, once they are there.
  function onResults(action) {
    proceed(Infinity);
    if (isSearching) next = action;
    else action();
  }

  function sayFault(text, error) {
    say(fill(text, "reason", error instanceof Error ? error.message : error), true);
    console.error(error);
  }

  function fail(error) {
    forget();
    found = [];
    results.replaceChildren();
    more.hidden = true;
    sayFault(words.failed, error);
  }

  // A whole index.

  // elasticlunr.js keeps scores in plain objects, which have `constructor` and other members from the beginning. Where such a
  // name is a reference, the index gets another name for it.
  function rename(data) {
    const names = Object.keys(data.documentStore.docs).filter((ref) => ref in Object.prototype);
    if (!names.length) return;
    renamed = new Map(names.map((ref) => [ref + "\0", ref]));
    const renameIn = (holder) => renamed.forEach((ref, name) => {
      if (!Object.hasOwn(holder, ref)) return;
      holder[name] = holder[ref];
      delete holder[ref];
    });
    renameIn(data.documentStore.docs);
    renameIn(data.documentStore.docInfo);
    for (const trie of Object.values(data.index)) nodesBelow("", trie.root).forEach((node) => renameIn(node.docs));
  }

  // The tokens below a node of a trie, whose path spells `start`, each with its own node.
  function nodesBelow(start, top) {
    const nodes = new Map(), open = top ? [[start, top]] : [];
    while (open.length) {
      const [token, node] = open.pop();
      if (node.df > 0) nodes.set(token, node);
      for (const step in node) if (step !== "docs" && step !== "df") open.push([token + step, node[step]]);
    }
    return nodes;
  }

  function nodeOf(trie, token) {
    return elasticlunr.InvertedIndex.prototype.getNode.call(trie, token);
  }

  // elasticlunr.js goes down a trie again for each posting that it scores, and finds longer tokens by a recursion that a token of
  // some thousand characters overflows. Here it gets the nodes that were found for a word of the query.
  function quicken(field, trie) {
    let nodes = new Map();
    trie.expandToken = (token) => {
      const start = wanted.find((start) => start.text === token);
      nodes = start ? start.nodes.get(field) : nodesBelow(token, nodeOf(trie, token));
      return [...nodes.keys()];
    };
    trie.getNode = (token) => nodes.get(token) || nodeOf(trie, token);
  }

  // A word of the query, and what the index has for it: in each field the tokens that begin so, with their nodes. They are among
  // those of a shorter beginning.
  class Start {
    constructor(index, text, shorter) {
      const nodes = (field) => shorter
        ? new Map([...shorter.nodes.get(field)].filter(([token]) => token.startsWith(text)))
        : nodesBelow(text, nodeOf(index.index[field], text));
      this.text = text;
      this.nodes = new Map(index.getFields().map((field) => [field, nodes(field)]));
      this.isExpanded = true;
      this.known = null;
    }

    finds(token) {
      return token.startsWith(this.text);
    }

    // Whether the document of this reference has such a word in a field.
    isIn(ref, field) {
      for (const node of this.nodes.get(field).values()) if (Object.hasOwn(node.docs, ref)) return true;
      return false;
    }

    // The references of the documents that have such a word in any field.
    references() {
      if (this.known) return this.known;
      this.known = new Set();
      for (const nodes of this.nodes.values()) {
        for (const node of nodes.values()) for (const ref in node.docs) this.known.add(ref);
      }
      return this.known;
    }
  }

  class Whole {
    constructor(data) {
      if (typeof elasticlunr === "undefined") throw new Error(words.noEngine);
      rename(data);
      this.index = elasticlunr.Index.load(data);
      this.fields = this.index.getFields();
      this.titleField = TITLE;
      for (const field of this.fields) quicken(field, this.index.index[field]);
    }

    tokens(text) {
      return this.index.pipeline.run(elasticlunr.tokenizer(text));
    }

    startsOf(text) {
      const before = wanted, same = (token) => before.find((start) => start.text === token);
      const shorter = (token) => before.find((start) => token.startsWith(start.text));
      return [...new Set(tokens(text))].map((token) => same(token) || new Start(this.index, token, shorter(token)));
    }

    *search(text, all) {
      wanted = this.startsOf(text);
      found = !wanted.length ? [] : ofAll(all, () => this.index.search(text, { expand: true, bool: "OR" }));
    }
  }

  // An index in pieces, which are fetched by a search, and by the results that it draws.
  class InPieces {
    constructor(site) {
      this.site = site;
      this.folder = site.folder;
    }

    get fields() {
      return this.site.fields;
    }

    get titleField() {
      return this.site.titleField;
    }

    tokens(text) {
      return this.site.tokens(text);
    }

    // The titles of hits, null where there is none. One that can't be had comes with the text.
    titles(hits) {
      const missing = (error) => {
        console.error(error);
        return null;
      };
      return Promise.all(hits.map((hit) => this.site.title(hit.ref).catch(missing)));
    }

    *search(text, all) {
      const { hits, words } = yield this.site.lookUp(text, { expand: true, bool: "OR", minimum: 1, maxPieces: PIECES });
      if (this.site.folder !== this.folder) vocabulary.clear(); // a site that was published again may have another language
      this.folder = this.site.folder;
      wanted = words.filter((word) => word.text !== "");
      found = ofAll(all, () => hits);
    }

    // The document of a result, or why it can't be had.
    text(result) {
      return this.site.doc(result.hit.ref).then((doc) => ({ result, doc }), (error) => ({ result, error }));
    }
  }

  // The search. A word is found by its beginning.

  function tokens(text) {
    return source.tokens(text).filter(Boolean);
  }

  // elasticlunr.js can ask for all words in one field. Here each of them may stand in another one.
  function ofAll(all, hits) {
    if (!all || wanted.length < 2) return hits();
    const sets = wanted.map((start) => start.references());
    return sets.every((set) => set.size) ? hits().filter((hit) => sets.every((set) => set.has(hit.ref))) : [];
  }

  function outcome(text, all) {
    if (!text) return "";
    if (!wanted.length) return words.nothing;
    if (found.length) return counted(found.length);
    if (wanted.some((start) => !start.isExpanded)) return words.tooMany;
    return all ? words.noneHasAll : words.noneHasAny;
  }

  // The old results stay until the new ones are there.
  function* search() {
    const text = query.value.trim(), all = form.elements.bool.value === "AND";
    more.hidden = true;
    putIntoAddress(text);
    isSearching = true;
    slow = setTimeout(say, SLOW, words.loading);
    if (text) yield* source.search(text, all);
    else wanted = found = [];
    const titles = yield* titlesFrom(0);
    clearTimeout(slow);
    isSearching = false;
    if (results.contains(document.activeElement)) query.focus();
    results.replaceChildren();
    shown = 0;
    bare = new Set();
    say(outcome(text, all));
    yield* draw(titles);
  }

  // The titles of the results that are drawn next, where they come by themselves.
  function* titlesFrom(start) {
    return source instanceof InPieces ? yield source.titles(found.slice(start, start + PAGE)) : [];
  }

  // Changes the query in the page's address, and nothing else of it.
  function putIntoAddress(text) {
    const url = new URL(location.href), parts = url.search.slice(1).split("&").filter(Boolean);
    const isQuery = (part) => new URLSearchParams(part).has("q");
    const at = parts.findIndex(isQuery), others = parts.filter((part) => !isQuery(part));
    try {
      if (text) others.splice(at < 0 ? others.length : at, 0, "q=" + encodeURIComponent(text));
      url.search = others.join("&");
      if (url.href !== location.href) history.replaceState(history.state, "", url.href);
    } catch (error) {
      console.warn(error); // half a character, or more changes than a browser allows in a time
    }
  }

  // Texts, cut into words.

  const vocabulary = new Map(), texts = new Map();

  // A word as it stands in texts: its tokens, and which words of the query they begin with.
  class Word {
    constructor(raw) {
      this.tokens = tokens(raw);
      this.asked = null;
      this.starts = [];
    }

    wantedStarts() {
      if (this.asked !== wanted) {
        this.asked = wanted;
        this.starts = wanted.filter((start) => this.tokens.some((token) => start.finds(token)));
      }
      return this.starts;
    }
  }

  function wordOf(raw) {
    const read = raw.slice(0, LONGEST);
    let word = vocabulary.get(read);
    if (!word) {
      if (vocabulary.size >= VOCABULARY) vocabulary.clear();
      word = new Word(read);
      vocabulary.set(read, word);
    }
    return word;
  }

  // A text and its words, which stand between white space and hyphens. It is cut only as far as it is asked for.
  class Text {
    constructor(text) {
      this.text = text;
      this.words = [];
      this.starts = [];
      this.ends = [];
      this.pattern = /[^\s-]+/g;
    }

    // Whether there is a word at this place.
    has(place) {
      while (this.pattern && this.words.length <= place) {
        const match = this.pattern.exec(this.text);
        if (match) this.add(match[0], match.index);
        else this.pattern = null;
      }
      return place < this.words.length;
    }

    add(raw, start) {
      this.words.push(wordOf(raw));
      this.starts.push(start);
      this.ends.push(start + raw.length);
    }

    raw(place) {
      return shorten(this.text.slice(this.starts[place], this.ends[place]), WIDEST);
    }

    // What stands before a word, or after the last one.
    gap(place) {
      return shorten(this.text.slice(place > 0 ? this.ends[place - 1] : 0, this.starts[place]), WIDEST);
    }
  }

  function shorten(text, most) {
    return text.length > most ? text.slice(0, most).replace(/[\uD800-\uDBFF]$/, "") + "…" : text;
  }

  // The text of a document, cut as far as when it was drawn before. Those that were drawn longest ago are forgotten.
  function cutText(ref, text) {
    const before = texts.get(ref), known = before && before.text === text ? before : new Text(text);
    texts.delete(ref);
    texts.set(ref, known);
    if (texts.size > TEXTS) texts.delete(texts.keys().next().value);
    return known;
  }

  // The word at which the excerpt begins: the first passage in which as many of these words stand as in any.
  function* beginOfExcerpt(text, starts) {
    const latest = new Map(starts.map((start) => [start, -Infinity]));
    let begin = 0, most = 0;
    for (let at = 0; most < starts.length && text.has(at); at++) {
      if (at % STEP === 0) yield;
      const first = at - EXCERPT + 1, there = text.words[at].wantedStarts();
      const isNew = there.some((start) => latest.get(start) < first);
      for (const start of there) latest.set(start, at);
      if (!isNew) continue;
      const near = [...latest.values()].filter((seen) => seen >= first);
      if (near.length > most) {
        most = near.length;
        begin = Math.max(0, first, Math.min(...near) - BEFORE);
      }
    }
    return text.has(begin + EXCERPT) ? begin : Math.max(0, text.words.length - EXCERPT);
  }

  // A found word, marked from its first to its last letter or digit.
  function marked(raw) {
    const letters = /[\p{L}\p{N}\p{M}](?:.*[\p{L}\p{N}\p{M}])?/su.exec(raw) || { 0: raw, index: 0 };
    const mark = document.createElement("mark");
    mark.textContent = letters[0];
    return [raw.slice(0, letters.index), mark, raw.slice(letters.index + letters[0].length)];
  }

  // The passage that begins at this word: texts, with marks between them.
  function passage(text, begin) {
    const nodes = [];
    let plain = begin > 0 ? "…\u00a0" : "", at = begin;
    for (; at < begin + EXCERPT && text.has(at); at++) {
      if (at === 0 || at > begin) plain += text.gap(at);
      if (text.words[at].wantedStarts().length) {
        const [before, mark, after] = marked(text.raw(at));
        nodes.push(plain + before, mark);
        plain = after;
      } else {
        plain += text.raw(at);
      }
    }
    nodes.push(plain + (text.has(at) ? "\u00a0…" : text.gap(at)));
    return nodes;
  }

  // Results.

  // The text of a field, which may lack it. Of numbers and lists elasticlunr.js makes texts, too.
  function fieldText(doc, field) {
    const parts = doc && Object.hasOwn(doc, field) ? [].concat(doc[field]) : [];
    return parts.filter((part) => typeof part === "string" || typeof part === "number").join(" ").trim();
  }

  // What is shown of a document: its title, or else its first text, and the longest of the others.
  function shownTexts(doc) {
    const texts = source.fields.map((field) => ({ field, text: fieldText(doc, field) })).filter((one) => one.text);
    const heading = texts.find((one) => one.field === source.titleField) || texts[0];
    const [body] = texts.filter((one) => one !== heading).sort((one, other) => other.text.length - one.text.length);
    return { heading, body };
  }

  function place(ref) {
    const known = Object.hasOwn(addresses, ref) ? addresses[ref] : null;
    return typeof known === "string" ? known : ref;
  }

  // The address as the browser itself reads it, which drops blanks and control characters; null where a link may not lead.
  function address(place) {
    try {
      const url = new URL(place, location.href);
      return url.protocol === "http:" || url.protocol === "https:" ? url.href : null;
    } catch (error) {
      return null;
    }
  }

  function element(name, ...parts) {
    const made = document.createElement(name);
    made.append(...parts);
    return made;
  }

  function* excerpt(ref, body) {
    const text = cutText(ref, body.text), starts = wanted.filter((start) => start.isIn(ref, body.field));
    const made = element("p", ...passage(text, yield* beginOfExcerpt(text, starts)));
    made.className = "excerpt";
    made.dir = "auto";
    return made;
  }

  // A result without its texts: its title, or else its reference. It is written from the side on which its heading begins, and
  // its excerpt from its own.
  function bareResult(hit, heading) {
    const ref = renamed.get(hit.ref) ?? hit.ref, there = place(ref), href = address(there);
    const title = element(href === null ? "b" : "a", shorten(ref, LONGEST));
    const item = element("li", title, element("small", element("bdi", shorten(there, LONGEST))));
    if (href !== null) title.href = href;
    item.dir = "auto";
    if (heading) addTitle(title, heading.trim());
    return { hit, item, title };
  }

  function addTitle(title, text) {
    try {
      if (text) title.replaceChildren(...passage(new Text(text), 0));
    } catch (error) {
      console.error(error); // a title that can't be shown hides no result
    }
  }

  function* addTexts({ hit, title }, doc) {
    try {
      const { heading, body } = shownTexts(doc);
      if (heading) title.replaceChildren(...passage(new Text(heading.text), 0));
      if (body) title.after(yield* excerpt(hit.ref, body));
    } catch (error) {
      console.error(error); // a document that can't be shown hides no other
    }
  }

  function* draw(titles) {
    const start = shown, end = Math.min(found.length, shown + PAGE);
    while (shown < end) {
      const hit = found[shown++], result = bareResult(hit, titles[shown - 1 - start]);
      if (source instanceof InPieces) bare.add(result);
      else yield* addTexts(result, hit.doc);
      results.append(result.item);
    }
    more.hidden = shown >= found.length;
    if (next) next();
    next = null;
    yield* drawTexts();
  }

  // Adds the texts in the order in which they come.
  function* drawTexts() {
    const coming = new Map([...bare].map((result) => [result, source.text(result)]));
    while (coming.size) {
      const { result, doc, error } = yield Promise.race(coming.values());
      coming.delete(result);
      bare.delete(result);
      if (error) addMissing(result, error);
      else yield* addTexts(result, doc);
    }
  }

  function addMissing({ title }, error) {
    const note = element("p", fill(words.noText, "reason", error.message));
    note.className = "bad";
    title.after(note);
    console.error(error);
  }

  // The keyboard: arrow keys go through the results and back to the box, Enter opens the first one, Escape begins again. While a
  // syllable is being composed the keys are the input method's alone.

  function key(event) {
    const step = { ArrowDown: 1, ArrowUp: -1 }[event.key];
    if (event.isComposing || event.keyCode === 229) {
      if (event.key === "Enter" || event.key === "Escape") event.preventDefault();
    } else if (event.key === "Escape") {
      event.preventDefault();
      query.value = "";
      query.focus();
      now(search());
    } else if (step && !event.shiftKey && !event.ctrlKey && !event.altKey && !event.metaKey) {
      move(event, step);
    }
  }

  function move(event, step) {
    const isInBox = event.target === query;
    if (isInBox) onResults(() => go(step));
    else if (!go(step)) return;
    if (!isInBox || step > 0) event.preventDefault();
  }

  // Goes so many results on, or to the box: whether there is something before.
  function go(step) {
    const stops = [query, ...results.querySelectorAll("a")], at = stops.indexOf(document.activeElement);
    if (at < 0 || at + step < 0) return false;
    if (at + step < stops.length) stops[at + step].focus();
    return true;
  }

  function openFirst(event) {
    event.preventDefault();
    onResults(() => {
      const first = results.querySelector("a");
      if (first) first.click();
    });
  }

  function showMore() {
    proceed(Infinity);
    if (more.hidden) return;
    const before = shown;
    later(drawMore(), 0);
    next = () => {
      const link = results.children[before] && results.children[before].querySelector("a");
      if (link) link.focus();
    };
    proceed(Infinity);
  }

  function* drawMore() {
    yield* draw(yield* titlesFrom(shown));
  }

  function listen() {
    query.addEventListener("input", () => later(search(), DELAY));
    form.elements.bool.forEach((choice) => choice.addEventListener("change", () => now(search())));
    more.addEventListener("click", showMore);
    document.addEventListener("keydown", key);
  }

  // An address begins with its scheme or server. Any other name is the path of a file or a folder, in which `#`, `?` and `%`
  // have no special meaning.
  function addressOf(name) {
    return /^(https?:)?\/\//i.test(name) ? name : name.split("/").map(encodeURIComponent).join("/");
  }

  async function load(name) {
    const response = await fetch(addressOf(name));
    if (!response.ok) throw new Error(name + " (" + response.status + ")");
    return response.json();
  }

  // What was loaded, and isn't what it should be.
  class Refused extends Error {}

  function check(holds, why) {
    if (!holds) throw new Refused(why);
  }

  async function openWhole(name) {
    const data = await load(name);
    return () => new Whole(data);
  }

  async function openPieces(name) {
    check(typeof elasticlunr !== "undefined", words.noEngine);
    check(typeof elasticlunrPieces !== "undefined", words.noReader);
    try {
      const site = await elasticlunrPieces.open(addressOf(name));
      return () => new InPieces(site);
    } catch (error) {
      check(!error.file || error.cause, error.message);
      throw error;
    }
  }

  async function loadAndRead() {
    const names = document.body.dataset;
    let fault = words.notLoaded;
    try {
      const opening = names.pieces === undefined ? openWhole(names.index) : openPieces(names.pieces);
      const [read, list] = await Promise.all([opening, names.addresses ? load(names.addresses) : null]);
      fault = words.refused;
      addresses = list || {};
      source = read();
      return true;
    } catch (error) {
      sayFault(error instanceof Refused ? words.refused : fault, error);
      return false;
    }
  }

  async function start() {
    readWords();
    showWords();
    say(words.loading);
    form.addEventListener("submit", openFirst);
    if (!(await loadAndRead())) return;
    query.maxLength = LONGEST;
    query.disabled = false;
    query.value = (new URLSearchParams(location.search).get("q") || "").slice(0, LONGEST);
    query.focus();
    listen();
    now(search());
  }

  start();
})();
