/* What a page needs so that elasticlunr.js 0.9.5 reads a query as the index was built.
   Load it after elasticlunr.min.js, by its own script element; in node:

     const elasticlunr = require('./elasticlunr.min.js');
     require('./elasticlunr-languages.js')(elasticlunr);

   Printed by the program elasticlunr_script; change nothing here. */
(function (extend) {
  'use strict';
  if (typeof module === 'object' && module.exports) module.exports = extend;
  else if (typeof elasticlunr === 'undefined') throw new Error('elasticlunr.min.js has to be loaded first');
  else extend(elasticlunr);
})(function (elasticlunr) {
  'use strict';
  var FACTS = {"between":[9,14,32,33,45,46,133,134,160,161,5760,5761,8192,8203,8232,8234,8239,8240,8287,8288,12288,12289],"lower":["Aa","Bb","Cc","Dd","Ee","Ff","Gg","Hh","Ii","Jj","Kk","Ll","Mm","Nn","Oo","Pp","Qq","Rr","Ss","Tt","Uu","Vv","Ww","Xx","Yy","Zz","Àà","Áá","Ââ","Ãã","Ää","Åå","Ææ","Çç","Èè","Éé","Êê","Ëë","Ìì","Íí","Îî","Ïï","Ðð","Ññ","Òò","Óó","Ôô","Õõ","Öö","Øø","Ùù","Úú","Ûû","Üü","Ýý","Þþ","Āā","Ăă","Ąą","Ćć","Ĉĉ","Ċċ","Čč","Ďď","Đđ","Ēē","Ĕĕ","Ėė","Ęę","Ěě","Ĝĝ","Ğğ","Ġġ","Ģģ","Ĥĥ","Ħħ","Ĩĩ","Īī","Ĭĭ","Įį","İi̇","Ĳĳ","Ĵĵ","Ķķ","Ĺĺ","Ļļ","Ľľ","Ŀŀ","Łł","Ńń","Ņņ","Ňň","Ŋŋ","Ōō","Ŏŏ","Őő","Œœ","Ŕŕ","Ŗŗ","Řř","Śś","Ŝŝ","Şş","Šš","Ţţ","Ťť","Ŧŧ","Ũũ","Ūū","Ŭŭ","Ůů","Űű","Ųų","Ŵŵ","Ŷŷ","Ÿÿ","Źź","Żż","Žž","Șș","Țț","Ѐѐ","Ёё","Ђђ","Ѓѓ","Єє","Ѕѕ","Іі","Її","Јј","Љљ","Њњ","Ћћ","Ќќ","Ѝѝ","Ўў","Џџ","Аа","Бб","Вв","Гг","Дд","Ее","Жж","Зз","Ии","Йй","Кк","Лл","Мм","Нн","Оо","Пп","Рр","Сс","Тт","Уу","Фф","Хх","Цц","Чч","Шш","Щщ","Ъъ","Ыы","Ьь","Ээ","Юю","Яя"],"stages":[{"class":[65,91,97,123,170,171,186,187,192,215,216,247,248,697,736,741,7424,7462,7468,7517,7522,7526,7531,7544,7545,7615,7680,7936,8305,8306,8319,8320,8336,8352,8490,8492,8498,8499,8526,8527,8544,8585,11360,11392,42786,42888,42891,42974,42978,42979,42993,43008,43824,43867,43868,43877,43878,43882,43884,43886,64256,64263,65313,65339,65345,65371,67456,67462,67463,67505,67506,67520,122624,122754,122768,122775,122829,122867,122869,122880],"name":"trimmer-fr"},{"name":"stopWordFilter-fr","words":["","ai","aie","aient","aies","ait","as","au","aura","aurai","auraient","aurais","aurait","auras","aurez","auriez","aurions","aurons","auront","aux","avaient","avais","avait","avec","avez","aviez","avions","avons","ayant","ayez","ayons","c","ce","ceci","celà","ces","cet","cette","d","dans","de","des","du","elle","en","es","est","et","eu","eue","eues","eurent","eus","eusse","eussent","eusses","eussiez","eussions","eut","eux","eûmes","eût","eûtes","furent","fus","fusse","fussent","fusses","fussiez","fussions","fut","fûmes","fût","fûtes","ici","il","ils","j","je","l","la","le","les","leur","leurs","lui","m","ma","mais","me","mes","moi","mon","même","n","ne","nos","notre","nous","on","ont","ou","par","pas","pour","qu","que","quel","quelle","quelles","quels","qui","s","sa","sans","se","sera","serai","seraient","serais","serait","seras","serez","seriez","serions","serons","seront","ses","soi","soient","sois","soit","sommes","son","sont","soyez","soyons","suis","sur","t","ta","te","tes","toi","ton","tu","un","une","vos","votre","vous","y","à","étaient","étais","était","étant","étiez","étions","été","étée","étées","étés","êtes"]},{"name":"stemmer-fr","table":"31 166 36 0 40 0 48 0\n.s- aeiouyàâèéêëîïôùû\n!s- 0\n!s- 1\n+-a U\n&-- 2 3\n+-a I\n&-- 2 5\n--- 0 6 i 4 u\n=-- 0 7\n+sa \n|-a 8 9\n.s- aeoàâèéêëîïôùû\n.s- ^aeiouyàâèéêëîïôùû\n.s- iu\n&s- 12 13\n|s- 11 14\n+-a Y\n--- 0 16 y\n=-- 15 17\n|-a 18 9\n&-- 2 16\n+-a He\n+-a Hi\n+-a qU\n--- 0 23 qu 20 y 21 ë 22 ï\n|-a 24 9\n&-a 19 25\n&-a 10 26\n~-a uiyëï 27\n=-- 13 17\n|-a 29 9\n&-a 28 30\n*sa ^aeiouyàâèéêëîïôùû\n*sa aeiouyàâèéêëîïôùû\n&s- 33 12\n&s- 0 34\n&s- 32 35\n&s- 12 36\n&s- 33 37\n&s- 0 38\n&s- 32 39\n.s- ^\n&s- 0 41\n&s- 0 42\n-s- 0 9 loc 9 rap 9 pat\n&s- 32 0\n&s- 41 45\n|s- 44 46\n|s- 43 47\n@s- 2\n|-a 53 9\n+-a i\n+-a c\n--- 0 51 Y 52 ç\n&-- 49 50\n+-a iqU\n|-a 49 55\n--- 0 56 ic\n|-a 57 9\n&-- 49 58\n&-- 59 50\n+-a log\n&-- 49 61\n&-- 62 50\n+-a u\n&-- 49 64\n&-- 65 50\n+-a ent\n&-- 49 67\n&-- 68 50\n@s- 3\n-s- 0 49 at\n|sa 71 9\n&s- 49 72\n@s- 1\n+-a eux\n&-- 74 75\n|-- 49 76\n&-- 70 51\n--- 0 49 iqU 49 abl 78 Ièr 78 ièr 77 eus 73 iv\n|-a 79 9\n&-- 70 80\n&-- 81 50\n+-a abl\n|-a 49 83\n--- 0 84 abil 56 ic 49 iv\n|-a 85 9\n&-- 49 86\n&-- 87 50\n--- 0 59 at\n|-a 89 9\n&-- 49 90\n&-- 91 50\n+-a eau\n&-a 93 50\n+-a al\n&-- 74 95\n&-- 96 50\n&-- 77 50\n!s- 12\n!s- 99\n&s- 74 100\n&-- 101 50\n+-a ant\n|-a 114 130\n.s- ^Haeiouyàâèéêëîïôùû\n&s- 105 70\n!s- 106\n!s- 107\n-s- 3 108 issantes 108 issaIent 108 issante 108 issions 108 issants 108 iraIent 108 issais 108 irions 108 issons 108 issait 108 issant 108 issent 108 issiez 108 isses 108 irais 108 irons 108 irait 108 irent 108 iront 108 iriez 108 issez 108 isse 108 irai 108 iras 108 îmes 108 îtes 108 irez 108 ira 108 ies 108 ie 108 ir 108 is 108 it 108 ît 108 i\n-s- 3 9 e\n|sa 110 9\n-s- 3 111 assions 9 eraIent 9 erions 111 assent 111 assiez 111 asses 111 antes 9 erais 9 erons 9 erait 111 aIent 9 èrent 9 eront 9 eriez 111 asse 111 ante 9 erai 9 eras 111 âmes 111 âtes 49 ions 111 ants 9 erez 9 era 9 ées 111 ais 111 ait 111 ant 9 iez 9 ée 111 ai 9 er 111 as 9 és 111 ât 9 ez 111 a 9 é\n|s- 109 112\n&-- 113 50\n-s- 0 9 Hi\n!s- 115\n!s- 116\n.s- ^aiousè\n!s- 118\n!s- 119\n|s- 117 120\n-s- 0 121 s\n|sa 122 9\n-s- 3 9 s 9 t\n!s- 124\n!s- 125\n&s- 49 126\n--- 3 51 Ière 51 ière 127 ion 51 Ier 51 ier 9 e\n|-a 128 9\n&-a 123 129\n&-a 103 104\n&-- 70 131\n&-a 67 104\n&-- 70 133\n&s- 0 70\n!s- 135\n!s- 136\n&-- 137 104\n--- 0 102 issements 102 issement 60 atrices 60 atrice 63 logies 66 usions 60 ations 66 utions 60 ateurs 82 ements 132 amment 134 emment 63 logie 66 usion 60 ation 66 ution 60 ateur 54 iqUes 54 ances 69 ences 54 ables 54 ismes 98 euses 54 istes 138 ments 82 ement 54 iqUe 54 ance 69 ence 54 able 54 isme 98 euse 54 iste 92 ives 88 ités 138 ment 94 eaux 92 ive 92 ifs 97 aux 54 eux 88 ité 92 if\n|-a 139 104\n-s- 0 9 eill 9 ell 9 enn 9 onn 9 ett\n!s- 141\n!s- 142\n&s- 143 41\n|sa 144 9\n&s- 12 32\n+-a e\n--- 0 147 è 147 é\n=-- 146 148\n|-a 149 9\n.s- ^ei\n-s- 0 9 H\n=-- 151 152\n|-a 153 9\n+-a ë\n+-a ï\n+-a y\n--- 0 155 He 156 Hi 51 I 64 U 157 Y\n|-a 158 9\n&-a 154 159\n~-a UIYH 160\n|sa 152 9\n&-a 161 162\n&-a 150 163\n&-a 145 164\n&-a 140 165"}]};

  // A class is a list of marks: it begins at the first, ends before the second, begins again at
  // the third.
  function has(marks, character) {
    var code = character.codePointAt(0), low = 0, high = marks.length;
    while (low < high) {
      var middle = (low + high) >> 1;
      if (marks[middle] <= code) low = middle + 1;
      else high = middle;
    }
    return low % 2 === 1;
  }

  // Each character that changes, with what replaces it.
  function table(pairs) {
    return new Map(pairs.map(function (pair) {
      var characters = Array.from(pair);
      return [characters[0], characters.slice(1).join('')];
    }));
  }

  // The words of a text, in lower case.
  var LOWER = table(FACTS.lower);
  function words(text) {
    var found = [], word = '';
    for (var character of String(text)) {
      if (!has(FACTS.between, character)) word += LOWER.get(character) || character;
      else if (word !== '') {
        found.push(word);
        word = '';
      }
    }
    if (word !== '') found.push(word);
    return found;
  }

  var before = elasticlunr.tokenizer;
  elasticlunr.tokenizer = function (text) {
    var texts = Array.isArray(text) ? text : [text];
    return [].concat.apply([], texts.map(function (one) {
      return one === null || one === undefined ? [] : words(one);
    }));
  };
  Object.keys(before).forEach(function (key) { elasticlunr.tokenizer[key] = before[key]; });

  // Cuts off both ends what is not of the class; a token of which nothing is left goes.
  function trimmer(marks) {
    return function (token) {
      var characters = Array.from(token), first = 0, end = characters.length;
      while (first < end && !has(marks, characters[first])) first++;
      while (first < end && !has(marks, characters[end - 1])) end--;
      return first < end ? characters.slice(first, end).join('') : undefined;
    };
  }

  function stopWords(list) {
    var listed = new Set(list);
    return function (token) { return listed.has(token) ? undefined : token; };
  }

  // Takes the first character of one class away, and changes the first one of a table.
  function stemmer(marks, pairs) {
    var changes = table(pairs);
    return function (token) {
      var characters = Array.from(token);
      var at = characters.findIndex(function (character) { return has(marks, character); });
      if (at >= 0) characters.splice(at, 1);
      at = characters.findIndex(function (character) { return changes.has(character); });
      if (at >= 0) characters[at] = changes.get(characters[at]);
      return characters.join('') || undefined;
    };
  }

  // The numbers of the characters of a text.
  function codes(text) {
    var found = [];
    for (var at = 0; at < text.length; at++) {
      found.push(text.codePointAt(at));
      if (found[found.length - 1] > 0xFFFF) at++;
    }
    return found;
  }

  // A class of a table: its characters, or behind a circumflex all others.
  function group(word) {
    var others = word[0] === '^', marked = [];
    codes(others ? word.slice(1) : word).forEach(function (code) {
      while (marked.length <= code) marked.push(others);
      marked[code] = !others;
    });
    return function (code) { return code < marked.length ? marked[code] : others; };
  }

  // The suffixes of a step as a tree, from their last characters.
  function suffixes(words) {
    var tree = { next: new Map(), step: -1 };
    for (var at = 1; at < words.length; at += 2) {
      var node = tree;
      codes(words[at + 1]).reverse().forEach(function (code) {
        if (!node.next.has(code)) node.next.set(code, { next: new Map(), step: -1 });
        node = node.next.get(code);
      });
      if (node.step < 0) node.step = Number(words[at]);
    }
    return tree;
  }

  // The stemmer of a table. Its first line has the numbers of the step before and of the main step,
  // and the marks; each other line is a step. A step takes the length of a text, whose characters
  // `text` begins with, and gives the length of what it makes of it, or -1 where it doesn't apply;
  // then it has changed nothing, because only a safe table is read. Steps are nested 400 deep at
  // most: what lies deeper changes nothing.
  var FIRST = /^[0-9]{1,4} [0-9]{1,4}( [0-9]{1,4} [0-9]{1,4})*$/;
  var STEP = new RegExp('^([+.:*]F W|[@!]F N|[&|=]F N N|-F N( N W)*|~F W N)$'
    .replace(/F/g, '[s-][a-]').replace(/W/g, '[^ ]*').replace(/N/g, '[0-9]{1,4}'));
  function tableStemmer(lines, name) {
    var numbers = lines[0].split(' ').map(Number), rows = lines.slice(1), text, regions, steps;
    if (!FIRST.test(lines[0]) || !rows.every(isSafe)) {
      throw new Error('the table of ' + name + ' is damaged');
    }

    // What a step declares: that it only shortens a text, and that it always applies.
    function shortens(number) { return !rows[number] || rows[number][1] === 's'; }
    function applies(number) { return !rows[number] || rows[number][2] === 'a'; }

    // Whether the line is a step that is what it declares, and tries only what changes nothing.
    function isSafe(line) {
      var sign = line[0], words = line.slice(4).split(' '), a = Number(words[0]), b = Number(words[1]);
      var isShort = sign === '+' ? words[0] === ''
        : sign === '-' ? words.every(function (word, at) { return at % 2 === 0 || shortens(Number(word)); })
        : sign === '&' || sign === '|' ? shortens(a) && shortens(b)
        : sign !== '=' && sign !== '~';
      var isSure = sign === '&' || sign === '=' ? applies(a) && applies(b)
        : sign === '|' ? applies(a) || applies(b)
        : sign === '+' || sign === '*' || sign === '~';
      var isFirm = sign === '&' ? shortens(a) || applies(b) : sign === '!' || sign === '=' ? shortens(a) : true;
      return STEP.test(line) && (isShort || line[1] === '-') && (isSure || line[2] === '-') && isFirm;
    }

    function apply(number, length, depth) {
      return depth && steps[number] ? steps[number](length, depth - 1) : length;
    }

    function stepOf(line) {
      var words = line.slice(4).split(' '), a = Number(words[0]), b = Number(words[1]);
      var end = codes(words[0]), isIn = group(words[0]), tree = line[0] === '-' && suffixes(words);
      return {
        '+': function (length) {
          for (var at = 0; at < end.length; at++) text[length++] = end[at];
          return length;
        },
        '@': function (length) { return length < (regions[a] || 0) ? -1 : length; },
        '.': function (length) { return length && isIn(text[length - 1]) ? length - 1 : -1; },
        ':': function (length) {
          var last = text[length - 1];
          return length > 1 && last === text[length - 2] && isIn(last) ? length - 1 : -1;
        },
        '*': function (length) {
          while (length && isIn(text[length - 1])) length--;
          return length;
        },
        '-': function (length, depth) {
          var start = regions[a] || 0, node = length < start ? undefined : tree, found = -1, rest = 0;
          while (node) {
            if (node.step >= 0) {
              found = node.step;
              rest = length;
            }
            node = length > start ? node.next.get(text[--length]) : undefined;
          }
          return found < 0 ? -1 : apply(found, rest, depth);
        },
        '&': function (length, depth) {
          var left = apply(a, length, depth);
          return left < 0 ? -1 : apply(b, left, depth);
        },
        '|': function (length, depth) {
          var left = apply(a, length, depth);
          return left < 0 ? apply(b, length, depth) : left;
        },
        '!': function (length, depth) { return apply(a, length, depth) < 0 ? length : -1; },
        '=': function (length, depth) {
          var front = apply(a, length, depth);
          if (front < 0) return -1;
          var rest = text.slice(front, length), left = apply(b, front, depth);
          for (var at = 0; left >= 0 && at < rest.length; at++) text[left++] = rest[at];
          return left;
        },
        '~': function (length, depth) {
          var typed = length, before, left;
          while (typed && !isIn(text[typed - 1])) typed--;
          if (!typed) return length;
          before = text.slice(0, length);
          typed = 0;
          for (var at = 0; at < length; at++) {
            text[typed++] = before[at];
            left = apply(b, typed, depth);
            if (left >= 0) typed = left;
          }
          return typed;
        }
      }[line[0]];
    }

    // What the step makes of a word, and nothing where it doesn't apply.
    function run(number, word) {
      text = word.slice();
      var left = apply(number, word.length, 400);
      return left < 0 ? undefined : text.slice(0, left);
    }

    return function (token) {
      var word = codes(token), starts = [0], stem = '';
      steps = steps || lines.slice(1).map(stepOf);
      regions = [];
      word = run(numbers[0], word) || word;
      for (var at = 2; at < numbers.length; at += 2) {
        var rest = run(numbers[at], word.slice().reverse()) || [];
        starts.push(Math.max(numbers[at + 1], word.length - rest.length));
      }
      regions = starts;
      word = run(numbers[1], word) || word;
      for (at = 0; at < word.length; at++) stem += String.fromCodePoint(word[at]);
      return stem || undefined;
    };
  }

  FACTS.stages.forEach(function (stage) {
    var run = stage['class'] ? trimmer(stage['class'])
      : stage.words ? stopWords(stage.words)
      : stage.drops ? stemmer(stage.drops, stage.changes)
      : stage.table ? tableStemmer(stage.table.split('\n'), stage.name)
      : function (token) { return token; };
    delete elasticlunr.Pipeline.registeredFunctions[stage.name];
    elasticlunr.Pipeline.registerFunction(run, stage.name);
  });

  // A printed trie has one step for each character; one that elasticlunr.js made has two above
  // U+FFFF.
  elasticlunr.InvertedIndex.prototype.getNode = function (token) {
    if (!token) return null;
    var node = this.root;
    for (var character of token) {
      if (node[character]) node = node[character];
      else if (character.length === 2 && node[character[0]]) node = node[character[0]][character[1]];
      else node = undefined;
      if (!node) return null;
    }
    return node;
  };
  elasticlunr.InvertedIndex.prototype.hasToken = function (token) { return this.getNode(token) !== null; };

  return elasticlunr;
});
