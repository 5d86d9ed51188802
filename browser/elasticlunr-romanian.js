/* What a page needs so that elasticlunr.js 0.9.5 reads a query as the index was built.
   Load it after elasticlunr.min.js, by its own script element; in node:

     const elasticlunr = require('./elasticlunr.min.js');
     require('./elasticlunr-languages.js')(elasticlunr);

   Printed by the program elasticlunr_script; change nothing here. */
(function (extend) {
  'use strict';
  if (typeof module === 'object' && module.exports) module.exports = extend;
  else if (typeof elasticlunr === 'undefined') throw new Error('elasticlunr.min.js has to be loaded first');
  else extend(elasticlunr);
})(function (elasticlunr) {
  'use strict';
  var FACTS = {"between":[9,14,32,33,45,46,133,134,160,161,5760,5761,8192,8203,8232,8234,8239,8240,8287,8288,12288,12289],"lower":["Aa","Bb","Cc","Dd","Ee","Ff","Gg","Hh","Ii","Jj","Kk","Ll","Mm","Nn","Oo","Pp","Qq","Rr","Ss","Tt","Uu","Vv","Ww","Xx","Yy","Zz","Àà","Áá","Ââ","Ãã","Ää","Åå","Ææ","Çç","Èè","Éé","Êê","Ëë","Ìì","Íí","Îî","Ïï","Ðð","Ññ","Òò","Óó","Ôô","Õõ","Öö","Øø","Ùù","Úú","Ûû","Üü","Ýý","Þþ","Āā","Ăă","Ąą","Ćć","Ĉĉ","Ċċ","Čč","Ďď","Đđ","Ēē","Ĕĕ","Ėė","Ęę","Ěě","Ĝĝ","Ğğ","Ġġ","Ģģ","Ĥĥ","Ħħ","Ĩĩ","Īī","Ĭĭ","Įį","İi̇","Ĳĳ","Ĵĵ","Ķķ","Ĺĺ","Ļļ","Ľľ","Ŀŀ","Łł","Ńń","Ņņ","Ňň","Ŋŋ","Ōō","Ŏŏ","Őő","Œœ","Ŕŕ","Ŗŗ","Řř","Śś","Ŝŝ","Şş","Šš","Ţţ","Ťť","Ŧŧ","Ũũ","Ūū","Ŭŭ","Ůů","Űű","Ųų","Ŵŵ","Ŷŷ","Ÿÿ","Źź","Żż","Žž","Șș","Țț","Ѐѐ","Ёё","Ђђ","Ѓѓ","Єє","Ѕѕ","Іі","Її","Јј","Љљ","Њњ","Ћћ","Ќќ","Ѝѝ","Ўў","Џџ","Аа","Бб","Вв","Гг","Дд","Ее","Жж","Зз","Ии","Йй","Кк","Лл","Мм","Нн","Оо","Пп","Рр","Сс","Тт","Уу","Фф","Хх","Цц","Чч","Шш","Щщ","Ъъ","Ыы","Ьь","Ээ","Юю","Яя"],"stages":[{"class":[65,91,97,123,170,171,186,187,192,215,216,247,248,697,736,741,7424,7462,7468,7517,7522,7526,7531,7544,7545,7615,7680,7936,8305,8306,8319,8320,8336,8352,8490,8492,8498,8499,8526,8527,8544,8585,11360,11392,42786,42888,42891,42974,42978,42979,42993,43008,43824,43867,43868,43877,43878,43882,43884,43886,64256,64263,65313,65339,65345,65371,67456,67462,67463,67505,67506,67520,122624,122754,122768,122775,122829,122867,122869,122880],"name":"trimmer-ro"},{"name":"stopWordFilter-ro","words":["","acea","aceasta","această","aceea","acei","aceia","acel","acela","acele","acelea","acest","acesta","aceste","acestea","aceşti","aceştia","acolo","acord","acum","ai","aia","aibă","aici","al","ale","alea","altceva","altcineva","am","ar","are","asemenea","asta","astea","astăzi","asupra","au","avea","avem","aveţi","azi","aş","aşadar","aţi","bine","bucur","bună","ca","care","caut","ce","cel","ceva","chiar","cinci","cine","cineva","contra","cu","cum","cumva","curând","curînd","când","cât","câte","câtva","câţi","cînd","cît","cîte","cîtva","cîţi","că","căci","cărei","căror","cărui","către","da","dacă","dar","datorită","dată","dau","de","deci","deja","deoarece","departe","deşi","din","dinaintea","dintr-","dintre","doi","doilea","două","drept","după","dă","ea","ei","el","ele","eram","este","eu","eşti","face","fata","fi","fie","fiecare","fii","fim","fiu","fiţi","frumos","fără","graţie","halbă","iar","ieri","la","le","li","lor","lui","lângă","lîngă","mai","mea","mei","mele","mereu","meu","mi","mie","mine","mult","multă","mulţi","mulţumesc","mâine","mîine","mă","ne","nevoie","nici","nicăieri","nimeni","nimeri","nimic","nişte","noastre","noastră","noi","noroc","nostru","nouă","noştri","nu","opt","ori","oricare","orice","oricine","oricum","oricând","oricât","oricînd","oricît","oriunde","patra","patru","patrulea","pe","pentru","peste","pic","poate","pot","prea","prima","primul","prin","puţin","puţina","puţină","până","pînă","rog","sa","sale","sau","se","spate","spre","sub","sunt","suntem","sunteţi","sută","sînt","sîntem","sînteţi","să","săi","său","ta","tale","te","timp","tine","toate","toată","tot","totuşi","toţi","trei","treia","treilea","tu","tăi","tău","un","una","unde","undeva","unei","uneia","unele","uneori","unii","unor","unora","unu","unui","unuia","unul","vi","voastre","voastră","voi","vostru","vouă","voştri","vreme","vreo","vreun","vă","zece","zero","zi","zice","îi","îl","îmi","împotriva","în","înainte","înaintea","încotro","încât","încît","între","întrucât","întrucît","îţi","ăla","ălea","ăsta","ăstea","ăştia","şapte","şase","şi","ştiu","ţi","ţie"]},{"name":"stemmer-ro","table":"9 87 15 0 19 0 28 0\n.s- aeiouâîă\n!s- 0\n!s- 1\n+-a U\n&-- 2 3\n+-a I\n&-- 2 5\n--- 0 6 i 4 u\n=-- 0 7\n~-a ui 8\n*sa ^aeiouâîă\n*sa aeiouâîă\n.s- ^aeiouâîă\n&s- 11 12\n&s- 0 13\n&s- 10 14\n&s- 12 15\n&s- 11 16\n&s- 0 17\n&s- 10 18\n.s- ^\n&s- 10 0\n&s- 12 21\n&s- 20 22\n&s- 0 14\n&s- 0 20\n&s- 12 25\n|s- 24 26\n|s- 23 27\n@s- 1\n+-a a\n&-- 29 30\n+-a e\n&-- 29 32\n+-a i\n&-- 29 34\n+sa \n-s- 0 36 ab\n!s- 37\n!s- 38\n!s- 39\n&-- 40 34\n&-- 29 41\n+-a at\n&-- 29 43\n+-a aţi\n&-- 29 45\n--- 0 35 iilor 46 aţia 46 aţie 35 iile 44 atei 29 ului 33 elor 35 ilor 31 aua 35 iua 33 ele 42 ile 35 iei 33 ea 35 ii 29 ul\n|-a 47 36\n&-- 60 61\n+-a abil\n&-- 29 50\n+-a ibil\n&-- 29 52\n+-a iv\n&-- 29 54\n+-a ic\n&-- 29 56\n+-a it\n&-- 29 58\n--- 0 51 abilitate 53 ibilitate 51 abilitati 51 abilităţi 51 abilităi 57 icitate 55 ivitate 57 icatori 57 icitati 55 ivitati 57 icităţi 55 ivităţi 44 aţiune 59 iţiune 44 atoare 59 itoare 44 ătoare 57 icităi 55 ivităi 57 icator 57 icala 57 iciva 44 ativa 59 itiva 57 icale 57 icive 44 ative 59 itive 57 icali 44 atori 59 itori 44 ători 57 icivi 44 ativi 59 itivi 57 icală 57 icivă 44 ativă 59 itivă 57 ical 44 ator 59 itor 44 ător 57 iciv 44 ativ 59 itiv\n|-a 49 36\n--- 0 63 abila 63 ibila 63 abile 63 ibile 63 itate 63 abili 63 ibili 63 atori 63 itati 63 ităţi 63 abilă 63 ibilă 63 oasa 63 anta 65 ista 65 isme 68 iune 63 oase 63 ante 65 iste 68 iuni 63 anti 65 isti 65 işti 63 ităi 63 abil 63 ibil 63 ator 63 oasă 63 antă 65 istă 63 ica 63 ata 63 ita 63 uta 63 iva 63 ice 63 ate 63 ite 63 ute 63 ive 63 ici 63 osi 63 ati 63 iti 63 uti 63 ivi 63 oşi 65 ism 63 ant 65 ist 63 ică 63 ată 63 ită 63 ută 63 ivă 63 ic 63 os 63 at 63 it 63 ut 63 iv\n@s- 2\n+-a ist\n&-- 63 64\n+-a t\n--- 0 66 ţ\n&-- 63 67\n|-a 62 36\n&-- 49 69\n.s- ^aeioâîă\n@s- 3\n&s- 71 72\n!s- 73\n!s- 74\n-s- 3 36 seserăţi 75 aserăţi 75 iserăţi 75 userăţi 75 âserăţi 36 seserăm 36 seseşi 36 serăţi 75 aserăm 75 iserăm 75 userăm 75 âserăm 36 seseră 75 aseşi 75 iseşi 75 useşi 75 âseşi 75 arăţi 75 irăţi 75 urăţi 75 ârăţi 36 sesem 36 serăm 75 ească 75 aseră 75 iseră 75 useră 75 âseră 36 sese 75 eşte 75 ăşte 75 eşti 75 ăşti 36 seşi 75 eaţi 75 iaţi 75 asem 75 isem 75 usem 75 âsem 75 arăm 75 irăm 75 urăm 75 ârăm 75 indu 75 ându 36 seră 75 ează 75 esc 75 ăsc 75 ind 75 ând 75 are 75 ere 75 ire 75 âre 75 ase 75 ise 75 use 75 âse 75 eze 75 eai 75 iai 36 sei 75 ezi 75 aşi 75 işi 75 uşi 75 âşi 36 aţi 36 eţi 36 iţi 36 âţi 75 eam 75 iam 75 eau 75 iau 75 ară 75 iră 75 ură 75 âră 75 ea 75 ia 36 se 75 ai 75 ui 75 âi 75 am 36 em 36 im 36 âm 36 ăm 75 au 75 ez\n|-- 62 76\n|-- 70 77\n|-a 78 36\n-s- 0 72 ie 72 a 72 e 72 i 72 ă\n|sa 80 36\n+-a u\n--- 0 34 I 82 U\n~-a UI 83\n&-a 81 84\n&-a 79 85\n&-a 48 86"}]};

  // A class is a list of marks: it begins at the first, ends before the second, begins again at
  // the third.
  function has(marks, character) {
    var code = character.codePointAt(0), low = 0, high = marks.length;
    while (low < high) {
      var middle = (low + high) >> 1;
      if (marks[middle] <= code) low = middle + 1;
      else high = middle;
    }
    return low % 2 === 1;
  }

  // Each character that changes, with what replaces it.
  function table(pairs) {
    return new Map(pairs.map(function (pair) {
      var characters = Array.from(pair);
      return [characters[0], characters.slice(1).join('')];
    }));
  }

  // The words of a text, in lower case.
  var LOWER = table(FACTS.lower);
  function words(text) {
    var found = [], word = '';
    for (var character of String(text)) {
      if (!has(FACTS.between, character)) word += LOWER.get(character) || character;
      else if (word !== '') {
        found.push(word);
        word = '';
      }
    }
    if (word !== '') found.push(word);
    return found;
  }

  var before = elasticlunr.tokenizer;
  elasticlunr.tokenizer = function (text) {
    var texts = Array.isArray(text) ? text : [text];
    return [].concat.apply([], texts.map(function (one) {
      return one === null || one === undefined ? [] : words(one);
    }));
  };
  Object.keys(before).forEach(function (key) { elasticlunr.tokenizer[key] = before[key]; });

  // Cuts off both ends what is not of the class; a token of which nothing is left goes.
  function trimmer(marks) {
    return function (token) {
      var characters = Array.from(token), first = 0, end = characters.length;
      while (first < end && !has(marks, characters[first])) first++;
      while (first < end && !has(marks, characters[end - 1])) end--;
      return first < end ? characters.slice(first, end).join('') : undefined;
    };
  }

  function stopWords(list) {
    var listed = new Set(list);
    return function (token) { return listed.has(token) ? undefined : token; };
  }

  // Takes the first character of one class away, and changes the first one of a table.
  function stemmer(marks, pairs) {
    var changes = table(pairs);
    return function (token) {
      var characters = Array.from(token);
      var at = characters.findIndex(function (character) { return has(marks, character); });
      if (at >= 0) characters.splice(at, 1);
      at = characters.findIndex(function (character) { return changes.has(character); });
      if (at >= 0) characters[at] = changes.get(characters[at]);
      return characters.join('') || undefined;
    };
  }

  // The numbers of the characters of a text.
  function codes(text) {
    var found = [];
    for (var at = 0; at < text.length; at++) {
      found.push(text.codePointAt(at));
      if (found[found.length - 1] > 0xFFFF) at++;
    }
    return found;
  }

  // A class of a table: its characters, or behind a circumflex all others.
  function group(word) {
    var others = word[0] === '^', marked = [];
    codes(others ? word.slice(1) : word).forEach(function (code) {
      while (marked.length <= code) marked.push(others);
      marked[code] = !others;
    });
    return function (code) { return code < marked.length ? marked[code] : others; };
  }

  // The suffixes of a step as a tree, from their last characters.
  function suffixes(words) {
    var tree = { next: new Map(), step: -1 };
    for (var at = 1; at < words.length; at += 2) {
      var node = tree;
      codes(words[at + 1]).reverse().forEach(function (code) {
        if (!node.next.has(code)) node.next.set(code, { next: new Map(), step: -1 });
        node = node.next.get(code);
      });
      if (node.step < 0) node.step = Number(words[at]);
    }
    return tree;
  }

  // The stemmer of a table. Its first line has the numbers of the step before and of the main step,
  // and the marks; each other line is a step. A step takes the length of a text, whose characters
  // `text` begins with, and gives the length of what it makes of it, or -1 where it doesn't apply;
  // then it has changed nothing, because only a safe table is read. Steps are nested 400 deep at
  // most: what lies deeper changes nothing.
  var FIRST = /^[0-9]{1,4} [0-9]{1,4}( [0-9]{1,4} [0-9]{1,4})*$/;
  var STEP = new RegExp('^([+.:*]F W|[@!]F N|[&|=]F N N|-F N( N W)*|~F W N)$'
    .replace(/F/g, '[s-][a-]').replace(/W/g, '[^ ]*').replace(/N/g, '[0-9]{1,4}'));
  function tableStemmer(lines, name) {
    var numbers = lines[0].split(' ').map(Number), rows = lines.slice(1), text, regions, steps;
    if (!FIRST.test(lines[0]) || !rows.every(isSafe)) {
      throw new Error('the table of ' + name + ' is damaged');
    }

    // What a step declares: that it only shortens a text, and that it always applies.
    function shortens(number) { return !rows[number] || rows[number][1] === 's'; }
    function applies(number) { return !rows[number] || rows[number][2] === 'a'; }

    // Whether the line is a step that is what it declares, and tries only what changes nothing.
    function isSafe(line) {
      var sign = line[0], words = line.slice(4).split(' '), a = Number(words[0]), b = Number(words[1]);
      var isShort = sign === '+' ? words[0] === ''
        : sign === '-' ? words.every(function (word, at) { return at % 2 === 0 || shortens(Number(word)); })
        : sign === '&' || sign === '|' ? shortens(a) && shortens(b)
        : sign !== '=' && sign !== '~';
      var isSure = sign === '&' || sign === '=' ? applies(a) && applies(b)
        : sign === '|' ? applies(a) || applies(b)
        : sign === '+' || sign === '*' || sign === '~';
      var isFirm = sign === '&' ? shortens(a) || applies(b) : sign === '!' || sign === '=' ? shortens(a) : true;
      return STEP.test(line) && (isShort || line[1] === '-') && (isSure || line[2] === '-') && isFirm;
    }

    function apply(number, length, depth) {
      return depth && steps[number] ? steps[number](length, depth - 1) : length;
    }

    function stepOf(line) {
      var words = line.slice(4).split(' '), a = Number(words[0]), b = Number(words[1]);
      var end = codes(words[0]), isIn = group(words[0]), tree = line[0] === '-' && suffixes(words);
      return {
        '+': function (length) {
          for (var at = 0; at < end.length; at++) text[length++] = end[at];
          return length;
        },
        '@': function (length) { return length < (regions[a] || 0) ? -1 : length; },
        '.': function (length) { return length && isIn(text[length - 1]) ? length - 1 : -1; },
        ':': function (length) {
          var last = text[length - 1];
          return length > 1 && last === text[length - 2] && isIn(last) ? length - 1 : -1;
        },
        '*': function (length) {
          while (length && isIn(text[length - 1])) length--;
          return length;
        },
        '-': function (length, depth) {
          var start = regions[a] || 0, node = length < start ? undefined : tree, found = -1, rest = 0;
          while (node) {
            if (node.step >= 0) {
              found = node.step;
              rest = length;
            }
            node = length > start ? node.next.get(text[--length]) : undefined;
          }
          return found < 0 ? -1 : apply(found, rest, depth);
        },
        '&': function (length, depth) {
          var left = apply(a, length, depth);
          return left < 0 ? -1 : apply(b, left, depth);
        },
        '|': function (length, depth) {
          var left = apply(a, length, depth);
          return left < 0 ? apply(b, length, depth) : left;
        },
        '!': function (length, depth) { return apply(a, length, depth) < 0 ? length : -1; },
        '=': function (length, depth) {
          var front = apply(a, length, depth);
          if (front < 0) return -1;
          var rest = text.slice(front, length), left = apply(b, front, depth);
          for (var at = 0; left >= 0 && at < rest.length; at++) text[left++] = rest[at];
          return left;
        },
        '~': function (length, depth) {
          var typed = length, before, left;
          while (typed && !isIn(text[typed - 1])) typed--;
          if (!typed) return length;
          before = text.slice(0, length);
          typed = 0;
          for (var at = 0; at < length; at++) {
            text[typed++] = before[at];
            left = apply(b, typed, depth);
            if (left >= 0) typed = left;
          }
          return typed;
        }
      }[line[0]];
    }

    // What the step makes of a word, and nothing where it doesn't apply.
    function run(number, word) {
      text = word.slice();
      var left = apply(number, word.length, 400);
      return left < 0 ? undefined : text.slice(0, left);
    }

    return function (token) {
      var word = codes(token), starts = [0], stem = '';
      steps = steps || lines.slice(1).map(stepOf);
      regions = [];
      word = run(numbers[0], word) || word;
      for (var at = 2; at < numbers.length; at += 2) {
        var rest = run(numbers[at], word.slice().reverse()) || [];
        starts.push(Math.max(numbers[at + 1], word.length - rest.length));
      }
      regions = starts;
      word = run(numbers[1], word) || word;
      for (at = 0; at < word.length; at++) stem += String.fromCodePoint(word[at]);
      return stem || undefined;
    };
  }

  FACTS.stages.forEach(function (stage) {
    var run = stage['class'] ? trimmer(stage['class'])
      : stage.words ? stopWords(stage.words)
      : stage.drops ? stemmer(stage.drops, stage.changes)
      : stage.table ? tableStemmer(stage.table.split('\n'), stage.name)
      : function (token) { return token; };
    delete elasticlunr.Pipeline.registeredFunctions[stage.name];
    elasticlunr.Pipeline.registerFunction(run, stage.name);
  });

  // A printed trie has one step for each character; one that elasticlunr.js made has two above
  // U+FFFF.
  elasticlunr.InvertedIndex.prototype.getNode = function (token) {
    if (!token) return null;
    var node = this.root;
    for (var character of token) {
      if (node[character]) node = node[character];
      else if (character.length === 2 && node[character[0]]) node = node[character[0]][character[1]];
      else node = undefined;
      if (!node) return null;
    }
    return node;
  };
  elasticlunr.InvertedIndex.prototype.hasToken = function (token) { return this.getNode(token) !== null; };

  return elasticlunr;
});
