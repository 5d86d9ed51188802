/* What a page needs so that elasticlunr.js 0.9.5 reads a query as the index was built.
   Load it after elasticlunr.min.js, by its own script element; in node:

     const elasticlunr = require('./elasticlunr.min.js');
     require('./elasticlunr-languages.js')(elasticlunr);

   Printed by the program elasticlunr_script; change nothing here. */
(function (extend) {
  'use strict';
  if (typeof module === 'object' && module.exports) module.exports = extend;
  else if (typeof elasticlunr === 'undefined') throw new Error('elasticlunr.min.js has to be loaded first');
  else extend(elasticlunr);
})(function (elasticlunr) {
  'use strict';
  var FACTS = {"between":[9,14,32,33,45,46,133,134,160,161,5760,5761,8192,8203,8232,8234,8239,8240,8287,8288,12288,12289],"lower":["Aa","Bb","Cc","Dd","Ee","Ff","Gg","Hh","Ii","Jj","Kk","Ll","Mm","Nn","Oo","Pp","Qq","Rr","Ss","Tt","Uu","Vv","Ww","Xx","Yy","Zz","Àà","Áá","Ââ","Ãã","Ää","Åå","Ææ","Çç","Èè","Éé","Êê","Ëë","Ìì","Íí","Îî","Ïï","Ðð","Ññ","Òò","Óó","Ôô","Õõ","Öö","Øø","Ùù","Úú","Ûû","Üü","Ýý","Þþ","Āā","Ăă","Ąą","Ćć","Ĉĉ","Ċċ","Čč","Ďď","Đđ","Ēē","Ĕĕ","Ėė","Ęę","Ěě","Ĝĝ","Ğğ","Ġġ","Ģģ","Ĥĥ","Ħħ","Ĩĩ","Īī","Ĭĭ","Įį","İi̇","Ĳĳ","Ĵĵ","Ķķ","Ĺĺ","Ļļ","Ľľ","Ŀŀ","Łł","Ńń","Ņņ","Ňň","Ŋŋ","Ōō","Ŏŏ","Őő","Œœ","Ŕŕ","Ŗŗ","Řř","Śś","Ŝŝ","Şş","Šš","Ţţ","Ťť","Ŧŧ","Ũũ","Ūū","Ŭŭ","Ůů","Űű","Ųų","Ŵŵ","Ŷŷ","Ÿÿ","Źź","Żż","Žž","Șș","Țț","Ѐѐ","Ёё","Ђђ","Ѓѓ","Єє","Ѕѕ","Іі","Її","Јј","Љљ","Њњ","Ћћ","Ќќ","Ѝѝ","Ўў","Џџ","Аа","Бб","Вв","Гг","Дд","Ее","Жж","Зз","Ии","Йй","Кк","Лл","Мм","Нн","Оо","Пп","Рр","Сс","Тт","Уу","Фф","Хх","Цц","Чч","Шш","Щщ","Ъъ","Ыы","Ьь","Ээ","Юю","Яя"],"stages":[{"class":[65,91,97,123,170,171,186,187,192,215,216,247,248,697,736,741,7424,7462,7468,7517,7522,7526,7531,7544,7545,7615,7680,7936,8305,8306,8319,8320,8336,8352,8490,8492,8498,8499,8526,8527,8544,8585,11360,11392,42786,42888,42891,42974,42978,42979,42993,43008,43824,43867,43868,43877,43878,43882,43884,43886,64256,64263,65313,65339,65345,65371,67456,67462,67463,67505,67506,67520,122624,122754,122768,122775,122829,122867,122869,122880],"name":"trimmer-no"},{"name":"stopWordFilter-no","words":["","alle","at","av","bare","begge","ble","blei","bli","blir","blitt","både","båe","da","de","deg","dei","deim","deira","deires","dem","den","denne","der","dere","deres","det","dette","di","din","disse","ditt","du","dykk","dykkar","då","eg","ein","eit","eitt","eller","elles","en","enn","er","et","ett","etter","for","fordi","fra","før","ha","hadde","han","hans","har","hennar","henne","hennes","her","hjå","ho","hoe","honom","hoss","hossen","hun","hva","hvem","hver","hvilke","hvilken","hvis","hvor","hvordan","hvorfor","i","ikke","ikkje","ingen","ingi","inkje","inn","inni","ja","jeg","kan","kom","korleis","korso","kun","kunne","kva","kvar","kvarhelst","kven","kvi","kvifor","man","mange","me","med","medan","meg","meget","mellom","men","mi","min","mine","mitt","mot","mykje","ned","no","noe","noen","noka","noko","nokon","nokor","nokre","nå","når","og","også","om","opp","oss","over","på","samme","seg","selv","si","sia","sidan","siden","sin","sine","sitt","sjøl","skal","skulle","slik","so","som","somme","somt","så","sånn","til","um","upp","ut","uten","var","vart","varte","ved","vere","verte","vi","vil","ville","vore","vors","vort","vår","være","vært","å"]},{"name":"stemmer-no","table":"0 26 7 3\n+sa \n*sa ^aeiouyæåø\n.s- aeiouyæåø\n*sa aeiouyæåø\n.s- ^aeiouyæåø\n&s- 3 4\n&s- 2 5\n&s- 1 6\n+-a er\n.s- bcdfghjlmnoprtvyz\n.s- k\n&s- 10 4\n|s- 9 11\n!s- 12\n!s- 13\n--- 1 0 hetenes 0 hetene 0 hetens 0 heten 0 heter 0 endes 0 ande 0 ende 8 erte 0 edes 0 enes 0 ede 0 ane 0 ene 0 ens 0 ers 0 ets 0 het 8 ert 0 ast 0 en 0 ar 0 er 0 as 0 es 0 et 0 a 0 e 14 s\n|-a 15 0\n-s- 1 0 dt 0 vt\n!s- 17\n!s- 18\n.s- ^\n&s- 19 20\n|sa 21 0\n-s- 1 0 hetslov 0 eleg 0 elig 0 elov 0 slov 0 leg 0 eig 0 lig 0 els 0 lov 0 ig\n|sa 23 0\n&sa 22 24\n&-a 16 25"}]};

  // A class is a list of marks: it begins at the first, ends before the second, begins again at
  // the third.
  function has(marks, character) {
    var code = character.codePointAt(0), low = 0, high = marks.length;
    while (low < high) {
      var middle = (low + high) >> 1;
      if (marks[middle] <= code) low = middle + 1;
      else high = middle;
    }
    return low % 2 === 1;
  }

  // Each character that changes, with what replaces it.
  function table(pairs) {
    return new Map(pairs.map(function (pair) {
      var characters = Array.from(pair);
      return [characters[0], characters.slice(1).join('')];
    }));
  }

  // The words of a text, in lower case.
  var LOWER = table(FACTS.lower);
  function words(text) {
    var found = [], word = '';
    for (var character of String(text)) {
      if (!has(FACTS.between, character)) word += LOWER.get(character) || character;
      else if (word !== '') {
        found.push(word);
        word = '';
      }
    }
    if (word !== '') found.push(word);
    return found;
  }

  var before = elasticlunr.tokenizer;
  elasticlunr.tokenizer = function (text) {
    var texts = Array.isArray(text) ? text : [text];
    return [].concat.apply([], texts.map(function (one) {
      return one === null || one === undefined ? [] : words(one);
    }));
  };
  Object.keys(before).forEach(function (key) { elasticlunr.tokenizer[key] = before[key]; });

  // Cuts off both ends what is not of the class; a token of which nothing is left goes.
  function trimmer(marks) {
    return function (token) {
      var characters = Array.from(token), first = 0, end = characters.length;
      while (first < end && !has(marks, characters[first])) first++;
      while (first < end && !has(marks, characters[end - 1])) end--;
      return first < end ? characters.slice(first, end).join('') : undefined;
    };
  }

  function stopWords(list) {
    var listed = new Set(list);
    return function (token) { return listed.has(token) ? undefined : token; };
  }

  // Takes the first character of one class away, and changes the first one of a table.
  function stemmer(marks, pairs) {
    var changes = table(pairs);
    return function (token) {
      var characters = Array.from(token);
      var at = characters.findIndex(function (character) { return has(marks, character); });
      if (at >= 0) characters.splice(at, 1);
      at = characters.findIndex(function (character) { return changes.has(character); });
      if (at >= 0) characters[at] = changes.get(characters[at]);
      return characters.join('') || undefined;
    };
  }

  // The numbers of the characters of a text.
  function codes(text) {
    var found = [];
    for (var at = 0; at < text.length; at++) {
      found.push(text.codePointAt(at));
      if (found[found.length - 1] > 0xFFFF) at++;
    }
    return found;
  }

  // A class of a table: its characters, or behind a circumflex all others.
  function group(word) {
    var others = word[0] === '^', marked = [];
    codes(others ? word.slice(1) : word).forEach(function (code) {
      while (marked.length <= code) marked.push(others);
      marked[code] = !others;
    });
    return function (code) { return code < marked.length ? marked[code] : others; };
  }

  // The suffixes of a step as a tree, from their last characters.
  function suffixes(words) {
    var tree = { next: new Map(), step: -1 };
    for (var at = 1; at < words.length; at += 2) {
      var node = tree;
      codes(words[at + 1]).reverse().forEach(function (code) {
        if (!node.next.has(code)) node.next.set(code, { next: new Map(), step: -1 });
        node = node.next.get(code);
      });
      if (node.step < 0) node.step = Number(words[at]);
    }
    return tree;
  }

  // The stemmer of a table. Its first line has the numbers of the step before and of the main step,
  // and the marks; each other line is a step. A step takes the length of a text, whose characters
  // `text` begins with, and gives the length of what it makes of it, or -1 where it doesn't apply;
  // then it has changed nothing, because only a safe table is read. Steps are nested 400 deep at
  // most: what lies deeper changes nothing.
  var FIRST = /^[0-9]{1,4} [0-9]{1,4}( [0-9]{1,4} [0-9]{1,4})*$/;
  var STEP = new RegExp('^([+.:*]F W|[@!]F N|[&|=]F N N|-F N( N W)*|~F W N)$'
    .replace(/F/g, '[s-][a-]').replace(/W/g, '[^ ]*').replace(/N/g, '[0-9]{1,4}'));
  function tableStemmer(lines, name) {
    var numbers = lines[0].split(' ').map(Number), rows = lines.slice(1), text, regions, steps;
    if (!FIRST.test(lines[0]) || !rows.every(isSafe)) {
      throw new Error('the table of ' + name + ' is damaged');
    }

    // What a step declares: that it only shortens a text, and that it always applies.
    function shortens(number) { return !rows[number] || rows[number][1] === 's'; }
    function applies(number) { return !rows[number] || rows[number][2] === 'a'; }

    // Whether the line is a step that is what it declares, and tries only what changes nothing.
    function isSafe(line) {
      var sign = line[0], words = line.slice(4).split(' '), a = Number(words[0]), b = Number(words[1]);
      var isShort = sign === '+' ? words[0] === ''
        : sign === '-' ? words.every(function (word, at) { return at % 2 === 0 || shortens(Number(word)); })
        : sign === '&' || sign === '|' ? shortens(a) && shortens(b)
        : sign !== '=' && sign !== '~';
      var isSure = sign === '&' || sign === '=' ? applies(a) && applies(b)
        : sign === '|' ? applies(a) || applies(b)
        : sign === '+' || sign === '*' || sign === '~';
      var isFirm = sign === '&' ? shortens(a) || applies(b) : sign === '!' || sign === '=' ? shortens(a) : true;
      return STEP.test(line) && (isShort || line[1] === '-') && (isSure || line[2] === '-') && isFirm;
    }

    function apply(number, length, depth) {
      return depth && steps[number] ? steps[number](length, depth - 1) : length;
    }

    function stepOf(line) {
      var words = line.slice(4).split(' '), a = Number(words[0]), b = Number(words[1]);
      var end = codes(words[0]), isIn = group(words[0]), tree = line[0] === '-' && suffixes(words);
      return {
        '+': function (length) {
          for (var at = 0; at < end.length; at++) text[length++] = end[at];
          return length;
        },
        '@': function (length) { return length < (regions[a] || 0) ? -1 : length; },
        '.': function (length) { return length && isIn(text[length - 1]) ? length - 1 : -1; },
        ':': function (length) {
          var last = text[length - 1];
          return length > 1 && last === text[length - 2] && isIn(last) ? length - 1 : -1;
        },
        '*': function (length) {
          while (length && isIn(text[length - 1])) length--;
          return length;
        },
        '-': function (length, depth) {
          var start = regions[a] || 0, node = length < start ? undefined : tree, found = -1, rest = 0;
          while (node) {
            if (node.step >= 0) {
              found = node.step;
              rest = length;
            }
            node = length > start ? node.next.get(text[--length]) : undefined;
          }
          return found < 0 ? -1 : apply(found, rest, depth);
        },
        '&': function (length, depth) {
          var left = apply(a, length, depth);
          return left < 0 ? -1 : apply(b, left, depth);
        },
        '|': function (length, depth) {
          var left = apply(a, length, depth);
          return left < 0 ? apply(b, length, depth) : left;
        },
        '!': function (length, depth) { return apply(a, length, depth) < 0 ? length : -1; },
        '=': function (length, depth) {
          var front = apply(a, length, depth);
          if (front < 0) return -1;
          var rest = text.slice(front, length), left = apply(b, front, depth);
          for (var at = 0; left >= 0 && at < rest.length; at++) text[left++] = rest[at];
          return left;
        },
        '~': function (length, depth) {
          var typed = length, before, left;
          while (typed && !isIn(text[typed - 1])) typed--;
          if (!typed) return length;
          before = text.slice(0, length);
          typed = 0;
          for (var at = 0; at < length; at++) {
            text[typed++] = before[at];
            left = apply(b, typed, depth);
            if (left >= 0) typed = left;
          }
          return typed;
        }
      }[line[0]];
    }

    // What the step makes of a word, and nothing where it doesn't apply.
    function run(number, word) {
      text = word.slice();
      var left = apply(number, word.length, 400);
      return left < 0 ? undefined : text.slice(0, left);
    }

    return function (token) {
      var word = codes(token), starts = [0], stem = '';
      steps = steps || lines.slice(1).map(stepOf);
      regions = [];
      word = run(numbers[0], word) || word;
      for (var at = 2; at < numbers.length; at += 2) {
        var rest = run(numbers[at], word.slice().reverse()) || [];
        starts.push(Math.max(numbers[at + 1], word.length - rest.length));
      }
      regions = starts;
      word = run(numbers[1], word) || word;
      for (at = 0; at < word.length; at++) stem += String.fromCodePoint(word[at]);
      return stem || undefined;
    };
  }

  FACTS.stages.forEach(function (stage) {
    var run = stage['class'] ? trimmer(stage['class'])
      : stage.words ? stopWords(stage.words)
      : stage.drops ? stemmer(stage.drops, stage.changes)
      : stage.table ? tableStemmer(stage.table.split('\n'), stage.name)
      : function (token) { return token; };
    delete elasticlunr.Pipeline.registeredFunctions[stage.name];
    elasticlunr.Pipeline.registerFunction(run, stage.name);
  });

  // A printed trie has one step for each character; one that elasticlunr.js made has two above
  // U+FFFF.
  elasticlunr.InvertedIndex.prototype.getNode = function (token) {
    if (!token) return null;
    var node = this.root;
    for (var character of token) {
      if (node[character]) node = node[character];
      else if (character.length === 2 && node[character[0]]) node = node[character[0]][character[1]];
      else node = undefined;
      if (!node) return null;
    }
    return node;
  };
  elasticlunr.InvertedIndex.prototype.hasToken = function (token) { return this.getNode(token) !== null; };

  return elasticlunr;
});
