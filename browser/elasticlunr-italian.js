/* What a page needs so that elasticlunr.js 0.9.5 reads a query as the index was built.
   Load it after elasticlunr.min.js, by its own script element; in node:

     const elasticlunr = require('./elasticlunr.min.js');
     require('./elasticlunr-languages.js')(elasticlunr);

   Printed by the program elasticlunr_script; change nothing here. */
(function (extend) {
  'use strict';
  if (typeof module === 'object' && module.exports) module.exports = extend;
  else if (typeof elasticlunr === 'undefined') throw new Error('elasticlunr.min.js has to be loaded first');
  else extend(elasticlunr);
})(function (elasticlunr) {
  'use strict';
  var FACTS = {"between":[9,14,32,33,45,46,133,134,160,161,5760,5761,8192,8203,8232,8234,8239,8240,8287,8288,12288,12289],"lower":["Aa","Bb","Cc","Dd","Ee","Ff","Gg","Hh","Ii","Jj","Kk","Ll","Mm","Nn","Oo","Pp","Qq","Rr","Ss","Tt","Uu","Vv","Ww","Xx","Yy","Zz","Àà","Áá","Ââ","Ãã","Ää","Åå","Ææ","Çç","Èè","Éé","Êê","Ëë","Ìì","Íí","Îî","Ïï","Ðð","Ññ","Òò","Óó","Ôô","Õõ","Öö","Øø","Ùù","Úú","Ûû","Üü","Ýý","Þþ","Āā","Ăă","Ąą","Ćć","Ĉĉ","Ċċ","Čč","Ďď","Đđ","Ēē","Ĕĕ","Ėė","Ęę","Ěě","Ĝĝ","Ğğ","Ġġ","Ģģ","Ĥĥ","Ħħ","Ĩĩ","Īī","Ĭĭ","Įį","İi̇","Ĳĳ","Ĵĵ","Ķķ","Ĺĺ","Ļļ","Ľľ","Ŀŀ","Łł","Ńń","Ņņ","Ňň","Ŋŋ","Ōō","Ŏŏ","Őő","Œœ","Ŕŕ","Ŗŗ","Řř","Śś","Ŝŝ","Şş","Šš","Ţţ","Ťť","Ŧŧ","Ũũ","Ūū","Ŭŭ","Ůů","Űű","Ųų","Ŵŵ","Ŷŷ","Ÿÿ","Źź","Żż","Žž","Șș","Țț","Ѐѐ","Ёё","Ђђ","Ѓѓ","Єє","Ѕѕ","Іі","Її","Јј","Љљ","Њњ","Ћћ","Ќќ","Ѝѝ","Ўў","Џџ","Аа","Бб","Вв","Гг","Дд","Ее","Жж","Зз","Ии","Йй","Кк","Лл","Мм","Нн","Оо","Пп","Рр","Сс","Тт","Уу","Фф","Хх","Цц","Чч","Шш","Щщ","Ъъ","Ыы","Ьь","Ээ","Юю","Яя"],"stages":[{"class":[65,91,97,123,170,171,186,187,192,215,216,247,248,697,736,741,7424,7462,7468,7517,7522,7526,7531,7544,7545,7615,7680,7936,8305,8306,8319,8320,8336,8352,8490,8492,8498,8499,8526,8527,8544,8585,11360,11392,42786,42888,42891,42974,42978,42979,42993,43008,43824,43867,43868,43877,43878,43882,43884,43886,64256,64263,65313,65339,65345,65371,67456,67462,67463,67505,67506,67520,122624,122754,122768,122775,122829,122867,122869,122880],"name":"trimmer-it"},{"name":"stopWordFilter-it","words":["","a","abbia","abbiamo","abbiano","abbiate","ad","agl","agli","ai","al","all","alla","alle","allo","anche","avemmo","avendo","avesse","avessero","avessi","avessimo","aveste","avesti","avete","aveva","avevamo","avevano","avevate","avevi","avevo","avrai","avranno","avrebbe","avrebbero","avrei","avremmo","avremo","avreste","avresti","avrete","avrà","avrò","avuta","avute","avuti","avuto","c","che","chi","ci","coi","col","come","con","contro","cui","da","dagl","dagli","dai","dal","dall","dalla","dalle","dallo","degl","degli","dei","del","dell","della","delle","dello","di","dov","dove","e","ebbe","ebbero","ebbi","ed","era","erano","eravamo","eravate","eri","ero","essendo","faccia","facciamo","facciano","facciate","faccio","facemmo","facendo","facesse","facessero","facessi","facessimo","faceste","facesti","faceva","facevamo","facevano","facevate","facevi","facevo","fai","fanno","farai","faranno","farebbe","farebbero","farei","faremmo","faremo","fareste","faresti","farete","farà","farò","fece","fecero","feci","fosse","fossero","fossi","fossimo","foste","fosti","fu","fui","fummo","furono","gli","ha","hai","hanno","ho","i","il","in","io","l","la","le","lei","li","lo","loro","lui","ma","mi","mia","mie","miei","mio","ne","negl","negli","nei","nel","nell","nella","nelle","nello","noi","non","nostra","nostre","nostri","nostro","o","per","perché","più","quale","quanta","quante","quanti","quanto","quella","quelle","quelli","quello","questa","queste","questi","questo","sarai","saranno","sarebbe","sarebbero","sarei","saremmo","saremo","sareste","saresti","sarete","sarà","sarò","se","sei","si","sia","siamo","siano","siate","siete","sono","sta","stai","stando","stanno","starai","staranno","starebbe","starebbero","starei","staremmo","staremo","stareste","staresti","starete","starà","starò","stava","stavamo","stavano","stavate","stavi","stavo","stemmo","stesse","stessero","stessi","stessimo","steste","stesti","stette","stettero","stetti","stia","stiamo","stiano","stiate","sto","su","sua","sue","sugl","sugli","sui","sul","sull","sulla","sulle","sullo","suo","suoi","ti","tra","tu","tua","tue","tuo","tuoi","tutti","tutto","un","una","uno","vi","voi","vostra","vostre","vostri","vostro","è"]},{"name":"stemmer-it","table":"18 98 24 0 28 0 37 0\n+-a à\n+-a è\n+-a ì\n+-a ò\n+-a ù\n+-a qU\n--- 0 5 qu 0 á 1 é 2 í 3 ó 4 ú\n~-a áéíóúq 6\n.s- aeiouàèìòù\n!s- 8\n!s- 9\n+-a U\n&-- 10 11\n+-a I\n&-- 10 13\n--- 0 14 i 12 u\n=-- 8 15\n~-a ui 16\n&-a 7 17\n*sa ^aeiouàèìòù\n*sa aeiouàèìòù\n.s- ^aeiouàèìòù\n&s- 20 21\n&s- 8 22\n&s- 19 23\n&s- 21 24\n&s- 20 25\n&s- 8 26\n&s- 19 27\n.s- ^\n&s- 19 8\n&s- 21 30\n&s- 29 31\n&s- 8 23\n&s- 8 29\n&s- 21 34\n|s- 33 35\n|s- 32 36\n@s- 3\n+-a ando\n&-- 38 39\n+-a endo\n&-- 38 41\n+-a are\n&-- 38 43\n+-a ere\n&-- 38 45\n+-a ire\n&-- 38 47\n--- 0 40 ando 42 endo 44 ar 46 er 48 ir\n--- 0 49 gliela 49 gliele 49 gliene 49 glieli 49 glielo 49 cela 49 mela 49 tela 49 vela 49 cele 49 mele 49 tele 49 vele 49 cene 49 mene 49 sene 49 tene 49 vene 49 celi 49 meli 49 teli 49 veli 49 celo 49 melo 49 telo 49 velo 49 gli 49 la 49 le 49 ne 49 ci 49 li 49 mi 49 si 49 ti 49 vi 49 lo\n+sa \n|-a 50 51\n@s- 2\n-s- 0 53 ic\n|sa 54 51\n&s- 53 55\n+-a log\n&-- 53 57\n+-a u\n&-- 53 59\n+-a ente\n&-- 53 61\n@s- 1\n-s- 0 53 at\n|sa 64 51\n&s- 53 65\n-s- 0 53 abil 53 ic 53 os 66 iv\n|sa 67 51\n&s- 63 68\n-s- 0 53 abil 53 ic 53 iv\n|sa 70 51\n&s- 53 71\n-s- 0 56 at\n|sa 73 51\n&s- 53 74\n--- 0 53 atrice 60 usione 56 azione 60 uzione 69 amente 53 atrici 60 usioni 56 azioni 60 uzioni 38 amenti 38 imenti 38 amento 38 imento 58 logia 58 logie 53 abile 53 ibile 56 atore 53 mente 53 abili 53 ibili 56 atori 53 ista 53 anza 62 enza 53 iche 53 ante 53 iste 53 anze 62 enze 53 ichi 53 ismi 53 anti 53 isti 53 ismo 53 istà 53 istè 53 istì 53 ica 53 osa 75 iva 53 ice 53 ose 75 ive 53 ici 53 osi 75 ivi 53 ico 53 oso 75 ivo 72 ità\n-s- 3 51 erebbero 51 irebbero 51 erebbe 51 irebbe 51 ereste 51 ireste 51 eresti 51 iresti 51 assimo 51 eremmo 51 iremmo 51 iscano 51 eranno 51 iranno 51 iscono 51 assero 51 essero 51 issero 51 avate 51 evate 51 ivate 51 erete 51 irete 51 avamo 51 evamo 51 ivamo 51 eremo 51 iremo 51 avano 51 evano 51 ivano 51 arono 51 erono 51 irono 51 isca 51 enda 51 isce 51 ende 51 asse 51 erai 51 irai 51 isci 51 endi 51 erei 51 irei 51 assi 51 isco 51 ando 51 endo 51 Yamo 51 iamo 51 ammo 51 emmo 51 immo 51 ata 51 ita 51 uta 51 ava 51 eva 51 iva 51 are 51 ere 51 ire 51 ate 51 ete 51 ite 51 ute 51 ati 51 iti 51 uti 51 avi 51 evi 51 ivi 51 ano 51 ono 51 ato 51 ito 51 uto 51 avo 51 evo 51 ivo 51 erà 51 irà 51 erò 51 irò 51 ar 51 ir\n|-- 76 77\n|-a 78 51\n.s- aeioàèìò\n-s- 0 38 i\n|sa 81 51\n&s- 38 82\n&s- 80 83\n|sa 84 51\n.s- cg\n&s- 86 38\n!s- 87\n!s- 88\n-s- 0 89 h\n|sa 90 51\n+-a i\n--- 0 92 I 59 U\n~-a UI 93\n&-a 91 94\n&-a 85 95\n&-a 79 96\n&-a 52 97"}]};

  // A class is a list of marks: it begins at the first, ends before the second, begins again at
  // the third.
  function has(marks, character) {
    var code = character.codePointAt(0), low = 0, high = marks.length;
    while (low < high) {
      var middle = (low + high) >> 1;
      if (marks[middle] <= code) low = middle + 1;
      else high = middle;
    }
    return low % 2 === 1;
  }

  // Each character that changes, with what replaces it.
  function table(pairs) {
    return new Map(pairs.map(function (pair) {
      var characters = Array.from(pair);
      return [characters[0], characters.slice(1).join('')];
    }));
  }

  // The words of a text, in lower case.
  var LOWER = table(FACTS.lower);
  function words(text) {
    var found = [], word = '';
    for (var character of String(text)) {
      if (!has(FACTS.between, character)) word += LOWER.get(character) || character;
      else if (word !== '') {
        found.push(word);
        word = '';
      }
    }
    if (word !== '') found.push(word);
    return found;
  }

  var before = elasticlunr.tokenizer;
  elasticlunr.tokenizer = function (text) {
    var texts = Array.isArray(text) ? text : [text];
    return [].concat.apply([], texts.map(function (one) {
      return one === null || one === undefined ? [] : words(one);
    }));
  };
  Object.keys(before).forEach(function (key) { elasticlunr.tokenizer[key] = before[key]; });

  // Cuts off both ends what is not of the class; a token of which nothing is left goes.
  function trimmer(marks) {
    return function (token) {
      var characters = Array.from(token), first = 0, end = characters.length;
      while (first < end && !has(marks, characters[first])) first++;
      while (first < end && !has(marks, characters[end - 1])) end--;
      return first < end ? characters.slice(first, end).join('') : undefined;
    };
  }

  function stopWords(list) {
    var listed = new Set(list);
    return function (token) { return listed.has(token) ? undefined : token; };
  }

  // Takes the first character of one class away, and changes the first one of a table.
  function stemmer(marks, pairs) {
    var changes = table(pairs);
    return function (token) {
      var characters = Array.from(token);
      var at = characters.findIndex(function (character) { return has(marks, character); });
      if (at >= 0) characters.splice(at, 1);
      at = characters.findIndex(function (character) { return changes.has(character); });
      if (at >= 0) characters[at] = changes.get(characters[at]);
      return characters.join('') || undefined;
    };
  }

  // The numbers of the characters of a text.
  function codes(text) {
    var found = [];
    for (var at = 0; at < text.length; at++) {
      found.push(text.codePointAt(at));
      if (found[found.length - 1] > 0xFFFF) at++;
    }
    return found;
  }

  // A class of a table: its characters, or behind a circumflex all others.
  function group(word) {
    var others = word[0] === '^', marked = [];
    codes(others ? word.slice(1) : word).forEach(function (code) {
      while (marked.length <= code) marked.push(others);
      marked[code] = !others;
    });
    return function (code) { return code < marked.length ? marked[code] : others; };
  }

  // The suffixes of a step as a tree, from their last characters.
  function suffixes(words) {
    var tree = { next: new Map(), step: -1 };
    for (var at = 1; at < words.length; at += 2) {
      var node = tree;
      codes(words[at + 1]).reverse().forEach(function (code) {
        if (!node.next.has(code)) node.next.set(code, { next: new Map(), step: -1 });
        node = node.next.get(code);
      });
      if (node.step < 0) node.step = Number(words[at]);
    }
    return tree;
  }

  // The stemmer of a table. Its first line has the numbers of the step before and of the main step,
  // and the marks; each other line is a step. A step takes the length of a text, whose characters
  // `text` begins with, and gives the length of what it makes of it, or -1 where it doesn't apply;
  // then it has changed nothing, because only a safe table is read. Steps are nested 400 deep at
  // most: what lies deeper changes nothing.
  var FIRST = /^[0-9]{1,4} [0-9]{1,4}( [0-9]{1,4} [0-9]{1,4})*$/;
  var STEP = new RegExp('^([+.:*]F W|[@!]F N|[&|=]F N N|-F N( N W)*|~F W N)$'
    .replace(/F/g, '[s-][a-]').replace(/W/g, '[^ ]*').replace(/N/g, '[0-9]{1,4}'));
  function tableStemmer(lines, name) {
    var numbers = lines[0].split(' ').map(Number), rows = lines.slice(1), text, regions, steps;
    if (!FIRST.test(lines[0]) || !rows.every(isSafe)) {
      throw new Error('the table of ' + name + ' is damaged');
    }

    // What a step declares: that it only shortens a text, and that it always applies.
    function shortens(number) { return !rows[number] || rows[number][1] === 's'; }
    function applies(number) { return !rows[number] || rows[number][2] === 'a'; }

    // Whether the line is a step that is what it declares, and tries only what changes nothing.
    function isSafe(line) {
      var sign = line[0], words = line.slice(4).split(' '), a = Number(words[0]), b = Number(words[1]);
      var isShort = sign === '+' ? words[0] === ''
        : sign === '-' ? words.every(function (word, at) { return at % 2 === 0 || shortens(Number(word)); })
        : sign === '&' || sign === '|' ? shortens(a) && shortens(b)
        : sign !== '=' && sign !== '~';
      var isSure = sign === '&' || sign === '=' ? applies(a) && applies(b)
        : sign === '|' ? applies(a) || applies(b)
        : sign === '+' || sign === '*' || sign === '~';
      var isFirm = sign === '&' ? shortens(a) || applies(b) : sign === '!' || sign === '=' ? shortens(a) : true;
      return STEP.test(line) && (isShort || line[1] === '-') && (isSure || line[2] === '-') && isFirm;
    }

    function apply(number, length, depth) {
      return depth && steps[number] ? steps[number](length, depth - 1) : length;
    }

    function stepOf(line) {
      var words = line.slice(4).split(' '), a = Number(words[0]), b = Number(words[1]);
      var end = codes(words[0]), isIn = group(words[0]), tree = line[0] === '-' && suffixes(words);
      return {
        '+': function (length) {
          for (var at = 0; at < end.length; at++) text[length++] = end[at];
          return length;
        },
        '@': function (length) { return length < (regions[a] || 0) ? -1 : length; },
        '.': function (length) { return length && isIn(text[length - 1]) ? length - 1 : -1; },
        ':': function (length) {
          var last = text[length - 1];
          return length > 1 && last === text[length - 2] && isIn(last) ? length - 1 : -1;
        },
        '*': function (length) {
          while (length && isIn(text[length - 1])) length--;
          return length;
        },
        '-': function (length, depth) {
          var start = regions[a] || 0, node = length < start ? undefined : tree, found = -1, rest = 0;
          while (node) {
            if (node.step >= 0) {
              found = node.step;
              rest = length;
            }
            node = length > start ? node.next.get(text[--length]) : undefined;
          }
          return found < 0 ? -1 : apply(found, rest, depth);
        },
        '&': function (length, depth) {
          var left = apply(a, length, depth);
          return left < 0 ? -1 : apply(b, left, depth);
        },
        '|': function (length, depth) {
          var left = apply(a, length, depth);
          return left < 0 ? apply(b, length, depth) : left;
        },
        '!': function (length, depth) { return apply(a, length, depth) < 0 ? length : -1; },
        '=': function (length, depth) {
          var front = apply(a, length, depth);
          if (front < 0) return -1;
          var rest = text.slice(front, length), left = apply(b, front, depth);
          for (var at = 0; left >= 0 && at < rest.length; at++) text[left++] = rest[at];
          return left;
        },
        '~': function (length, depth) {
          var typed = length, before, left;
          while (typed && !isIn(text[typed - 1])) typed--;
          if (!typed) return length;
          before = text.slice(0, length);
          typed = 0;
          for (var at = 0; at < length; at++) {
            text[typed++] = before[at];
            left = apply(b, typed, depth);
            if (left >= 0) typed = left;
          }
          return typed;
        }
      }[line[0]];
    }

    // What the step makes of a word, and nothing where it doesn't apply.
    function run(number, word) {
      text = word.slice();
      var left = apply(number, word.length, 400);
      return left < 0 ? undefined : text.slice(0, left);
    }

    return function (token) {
      var word = codes(token), starts = [0], stem = '';
      steps = steps || lines.slice(1).map(stepOf);
      regions = [];
      word = run(numbers[0], word) || word;
      for (var at = 2; at < numbers.length; at += 2) {
        var rest = run(numbers[at], word.slice().reverse()) || [];
        starts.push(Math.max(numbers[at + 1], word.length - rest.length));
      }
      regions = starts;
      word = run(numbers[1], word) || word;
      for (at = 0; at < word.length; at++) stem += String.fromCodePoint(word[at]);
      return stem || undefined;
    };
  }

  FACTS.stages.forEach(function (stage) {
    var run = stage['class'] ? trimmer(stage['class'])
      : stage.words ? stopWords(stage.words)
      : stage.drops ? stemmer(stage.drops, stage.changes)
      : stage.table ? tableStemmer(stage.table.split('\n'), stage.name)
      : function (token) { return token; };
    delete elasticlunr.Pipeline.registeredFunctions[stage.name];
    elasticlunr.Pipeline.registerFunction(run, stage.name);
  });

  // A printed trie has one step for each character; one that elasticlunr.js made has two above
  // U+FFFF.
  elasticlunr.InvertedIndex.prototype.getNode = function (token) {
    if (!token) return null;
    var node = this.root;
    for (var character of token) {
      if (node[character]) node = node[character];
      else if (character.length === 2 && node[character[0]]) node = node[character[0]][character[1]];
      else node = undefined;
      if (!node) return null;
    }
    return node;
  };
  elasticlunr.InvertedIndex.prototype.hasToken = function (token) { return this.getNode(token) !== null; };

  return elasticlunr;
});
