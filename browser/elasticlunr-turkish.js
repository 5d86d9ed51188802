/* What a page needs so that elasticlunr.js 0.9.5 reads a query as the index was built.
   Load it after elasticlunr.min.js, by its own script element; in node:

     const elasticlunr = require('./elasticlunr.min.js');
     require('./elasticlunr-languages.js')(elasticlunr);

   Printed by the program elasticlunr_script; change nothing here. */
(function (extend) {
  'use strict';
  if (typeof module === 'object' && module.exports) module.exports = extend;
  else if (typeof elasticlunr === 'undefined') throw new Error('elasticlunr.min.js has to be loaded first');
  else extend(elasticlunr);
})(function (elasticlunr) {
  'use strict';
  var FACTS = {"between":[9,14,32,33,45,46,133,134,160,161,5760,5761,8192,8203,8232,8234,8239,8240,8287,8288,12288,12289],"lower":["Aa","Bb","Cc","Dd","Ee","Ff","Gg","Hh","Ii","Jj","Kk","Ll","Mm","Nn","Oo","Pp","Qq","Rr","Ss","Tt","Uu","Vv","Ww","Xx","Yy","Zz","Àà","Áá","Ââ","Ãã","Ää","Åå","Ææ","Çç","Èè","Éé","Êê","Ëë","Ìì","Íí","Îî","Ïï","Ðð","Ññ","Òò","Óó","Ôô","Õõ","Öö","Øø","Ùù","Úú","Ûû","Üü","Ýý","Þþ","Āā","Ăă","Ąą","Ćć","Ĉĉ","Ċċ","Čč","Ďď","Đđ","Ēē","Ĕĕ","Ėė","Ęę","Ěě","Ĝĝ","Ğğ","Ġġ","Ģģ","Ĥĥ","Ħħ","Ĩĩ","Īī","Ĭĭ","Įį","İi̇","Ĳĳ","Ĵĵ","Ķķ","Ĺĺ","Ļļ","Ľľ","Ŀŀ","Łł","Ńń","Ņņ","Ňň","Ŋŋ","Ōō","Ŏŏ","Őő","Œœ","Ŕŕ","Ŗŗ","Řř","Śś","Ŝŝ","Şş","Šš","Ţţ","Ťť","Ŧŧ","Ũũ","Ūū","Ŭŭ","Ůů","Űű","Ųų","Ŵŵ","Ŷŷ","Ÿÿ","Źź","Żż","Žž","Șș","Țț","Ѐѐ","Ёё","Ђђ","Ѓѓ","Єє","Ѕѕ","Іі","Її","Јј","Љљ","Њњ","Ћћ","Ќќ","Ѝѝ","Ўў","Џџ","Аа","Бб","Вв","Гг","Дд","Ее","Жж","Зз","Ии","Йй","Кк","Лл","Мм","Нн","Оо","Пп","Рр","Сс","Тт","Уу","Фф","Хх","Цц","Чч","Шш","Щщ","Ъъ","Ыы","Ьь","Ээ","Юю","Яя"],"stages":[{"class":[65,91,97,123,170,171,186,187,192,215,216,247,248,697,736,741,7424,7462,7468,7517,7522,7526,7531,7544,7545,7615,7680,7936,8305,8306,8319,8320,8336,8352,8490,8492,8498,8499,8526,8527,8544,8585,11360,11392,42786,42888,42891,42974,42978,42979,42993,43008,43824,43867,43868,43877,43878,43882,43884,43886,64256,64263,65313,65339,65345,65371,67456,67462,67463,67505,67506,67520,122624,122754,122768,122775,122829,122867,122869,122880],"name":"trimmer-tr"},{"name":"stopWordFilter-tr","words":["","acaba","altmış","altı","ama","ancak","arada","aslında","ayrıca","bana","bazı","belki","ben","benden","beni","benim","beri","beş","bile","bin","bir","biri","birkaç","birkez","birçok","birşey","birşeyi","biz","bizden","bize","bizi","bizim","bu","buna","bunda","bundan","bunlar","bunları","bunların","bunu","bunun","burada","böyle","böylece","da","daha","dahi","de","defa","değil","diye","diğer","doksan","dokuz","dolayı","dolayısıyla","dört","edecek","eden","ederek","edilecek","ediliyor","edilmesi","ediyor","elli","en","etmesi","etti","ettiği","ettiğini","eğer","gibi","göre","halen","hangi","hatta","hem","henüz","hep","hepsi","her","herhangi","herkesin","hiç","hiçbir","iki","ile","ilgili","ise","itibaren","itibariyle","için","işte","kadar","karşın","katrilyon","kendi","kendilerine","kendini","kendisi","kendisine","kendisini","kez","ki","kim","kimden","kime","kimi","kimse","kırk","milyar","milyon","mu","mü","mı","nasıl","ne","neden","nedenle","nerde","nerede","nereye","niye","niçin","o","olan","olarak","oldu","olduklarını","olduğu","olduğunu","olmadı","olmadığı","olmak","olması","olmayan","olmaz","olsa","olsun","olup","olur","olursa","oluyor","on","ona","ondan","onlar","onlardan","onları","onların","onu","onun","otuz","oysa","pek","rağmen","sadece","sanki","sekiz","seksen","sen","senden","seni","senin","siz","sizden","sizi","sizin","tarafından","trilyon","tüm","var","vardı","ve","veya","ya","yani","yapacak","yapmak","yaptı","yaptıkları","yaptığı","yaptığını","yapılan","yapılması","yapıyor","yedi","yerine","yetmiş","yine","yirmi","yoksa","yüz","zaten","çok","çünkü","öyle","üzere","üç","şey","şeyden","şeyi","şeyler","şu","şuna","şunda","şundan","şunları","şunu","şöyle"]},{"name":"stemmer-tr","table":"0 236\n+sa \n*sa ^aeiouöüı\n.s- aeiouöüı\n&s- 1 2\n&s- 2 3\n&s- 1 4\n!s- 5\n!s- 6\n&s- 9 42\n!s- 30\n*sa ^aouı\n.s- aouı\n&s- 10 11\n*sa ^eiöü\n.s- eiöü\n&s- 13 14\n*sa ^aı\n.s- aı\n&s- 16 17\n*sa ^ei\n.s- ei\n&s- 19 20\n*sa ^ou\n.s- ou\n&s- 22 23\n*sa ^öü\n.s- öü\n&s- 25 26\n-s- 0 12 a 15 e 21 i 24 o 24 u 27 ö 27 ü 18 ı\n&s- 1 28\n!s- 29\n|s- 35 41\n.s- y\n!s- 2\n!s- 33\n&s- 32 34\n!s- 32\n.s- ^\n&s- 37 2\n!s- 38\n!s- 39\n&s- 36 40\n-s- 0 31 miş 31 muş 31 müş 31 mış\n&s- 9 44\n-s- 0 31 dik 31 tik 31 duk 31 tuk 31 dük 31 tük 31 dık 31 tık 31 dim 31 tim 31 dum 31 tum 31 düm 31 tüm 31 dım 31 tım 31 din 31 tin 31 dun 31 tun 31 dün 31 tün 31 dın 31 tın 31 di 31 ti 31 du 31 tu 31 dü 31 tü 31 dı 31 tı\n-s- 0 31 sak 31 sek 31 sam 31 sem 31 san 31 sen 31 sa 31 se\n-s- 0 31 ken\n-s- 0 0 siniz 0 sunuz 0 sünüz 0 sınız\n&s- 9 49\n-s- 0 0 lar 0 ler\n&s- 9 51\n-s- 0 31 im 31 um 31 üm 31 ım\n&s- 9 53\n-s- 0 0 sin 0 sun 0 sün 0 sın\n&s- 9 55\n-s- 0 31 iz 31 uz 31 üz 31 ız\n|sa 54 0\n|sa 52 56\n|sa 50 57\n|sa 48 58\n|sa 47 59\n&s- 60 8\n-s- 0 61 casına 61 cesine\n|s- 46 62\n|s- 45 63\n|s- 43 64\n|s- 8 65\n&-a 168 211\n|-- 73 167\n-s- 0 112 ki\n&s- 9 71\n-s- 0 0 da 0 ta 0 de 0 te\n|sa 69 0\n&s- 48 72\n-s- 0 85 miz 85 niz 85 muz 85 nuz 85 müz 85 nüz 85 mız 85 nız 85 m 85 n\n.s- iuüı\n.s- ^aeiouöüı\n!s- 76\n!s- 77\n&s- 75 78\n!s- 75\n&s- 37 76\n!s- 81\n!s- 82\n&s- 80 83\n|s- 79 84\n|sa 73 0\n&s- 74 86\n|s- 73 87\n|sa 88 0\n&s- 70 89\n&s- 9 97\n|s- 94 96\n.s- n\n&s- 93 34\n!s- 93\n&s- 95 40\n-s- 0 92 in 92 un 92 ün 92 ın\n-s- 0 0 leri 0 ları\n&s- 9 105\n|s- 102 104\n.s- s\n&s- 101 34\n!s- 101\n&s- 103 40\n&s- 75 100\n|s- 74 99\n&s- 106 86\n|s- 107 69\n|s- 98 108\n|sa 109 0\n&s- 91 110\n|s- 90 111\n-s- 0 92 ca 92 ce\n|sa 107 86\n|sa 98 114\n|sa 115 0\n&s- 113 116\n&s- 9 117\n&s- 9 120\n-s- 0 0 nda 0 nde 0 na 0 ne\n&s- 99 86\n|s- 98 121\n&s- 119 122\n=-- 119 69\n&s- 9 126\n-s- 0 0 ndan 0 nden 0 ni 0 nu 0 nü 0 nı\n&s- 125 121\n&s- 125 98\n!s- 128\n!s- 129\n-s- 0 0 dan 0 tan 0 den 0 ten\n|s- 73 69\n|s- 87 132\n|sa 133 0\n&s- 131 134\n&s- 9 135\n-s- 0 31 la 31 le\n&s- 9 137\n|s- 91 138\n|s- 69 107\n|sa 140 0\n&s- 48 141\n|s- 142 108\n|sa 143 0\n&s- 139 144\n&s- 75 31\n&s- 9 146\n-s- 0 31 a 31 e\n&s- 9 148\n|s- 147 149\n|s- 70 150\n|sa 48 0\n&s- 74 152\n|s- 153 48\n&s- 154 72\n|sa 155 0\n&s- 151 156\n|s- 157 107\n|s- 69 158\n|s- 98 159\n|s- 145 160\n|s- 136 161\n|s- 130 162\n|s- 127 163\n|-- 124 164\n|-- 123 165\n|-- 118 166\n|-a 68 0\n-s- 0 0 soy\n|sa 169 0\n!s- 37\n&s- 170 171\n-s- 0 172 ad\n!s- 173\n-s- 0 0 d 0 g\n!s- 175\n!s- 176\n&s- 1 17\n!s- 178\n!s- 179\n+-a ı\n&-- 180 181\n&s- 1 20\n!s- 183\n!s- 184\n+-a i\n&-- 185 186\n&s- 1 23\n!s- 188\n!s- 189\n+-a u\n&-- 190 191\n&s- 1 26\n!s- 193\n!s- 194\n+-a ü\n&-- 195 196\n|-- 192 197\n|-- 187 198\n|-- 182 199\n&-- 177 200\n|-a 201 0\n+-a p\n+-a ç\n+-a t\n+-a k\n--- 0 203 b 204 c 205 d 206 ğ\n|-a 207 0\n&-a 202 208\n&-- 174 209\n|-a 210 0\n&-- 66 67\n&s- 9 214\n-s- 0 0 dir 0 tir 0 dur 0 tur 0 dür 0 tür 0 dır 0 tır\n|s- 45 8\n|s- 43 215\n|s- 213 216\n|sa 217 0\n&s- 48 218\n|s- 43 45\n-s- 0 220 niz 220 nuz 220 nüz 220 nız\n&s- 9 221\n|s- 52 50\n|s- 54 223\n|s- 47 224\n|sa 8 0\n&s- 225 226\n|sa 61 0\n&s- 213 228\n|s- 227 229\n|s- 222 230\n&-- 231 67\n|-a 232 67\n|-a 219 233\n|-a 212 234\n&-- 7 235"}]};

  // A class is a list of marks: it begins at the first, ends before the second, begins again at
  // the third.
  function has(marks, character) {
    var code = character.codePointAt(0), low = 0, high = marks.length;
    while (low < high) {
      var middle = (low + high) >> 1;
      if (marks[middle] <= code) low = middle + 1;
      else high = middle;
    }
    return low % 2 === 1;
  }

  // Each character that changes, with what replaces it.
  function table(pairs) {
    return new Map(pairs.map(function (pair) {
      var characters = Array.from(pair);
      return [characters[0], characters.slice(1).join('')];
    }));
  }

  // The words of a text, in lower case.
  var LOWER = table(FACTS.lower);
  function words(text) {
    var found = [], word = '';
    for (var character of String(text)) {
      if (!has(FACTS.between, character)) word += LOWER.get(character) || character;
      else if (word !== '') {
        found.push(word);
        word = '';
      }
    }
    if (word !== '') found.push(word);
    return found;
  }

  var before = elasticlunr.tokenizer;
  elasticlunr.tokenizer = function (text) {
    var texts = Array.isArray(text) ? text : [text];
    return [].concat.apply([], texts.map(function (one) {
      return one === null || one === undefined ? [] : words(one);
    }));
  };
  Object.keys(before).forEach(function (key) { elasticlunr.tokenizer[key] = before[key]; });

  // Cuts off both ends what is not of the class; a token of which nothing is left goes.
  function trimmer(marks) {
    return function (token) {
      var characters = Array.from(token), first = 0, end = characters.length;
      while (first < end && !has(marks, characters[first])) first++;
      while (first < end && !has(marks, characters[end - 1])) end--;
      return first < end ? characters.slice(first, end).join('') : undefined;
    };
  }

  function stopWords(list) {
    var listed = new Set(list);
    return function (token) { return listed.has(token) ? undefined : token; };
  }

  // Takes the first character of one class away, and changes the first one of a table.
  function stemmer(marks, pairs) {
    var changes = table(pairs);
    return function (token) {
      var characters = Array.from(token);
      var at = characters.findIndex(function (character) { return has(marks, character); });
      if (at >= 0) characters.splice(at, 1);
      at = characters.findIndex(function (character) { return changes.has(character); });
      if (at >= 0) characters[at] = changes.get(characters[at]);
      return characters.join('') || undefined;
    };
  }

  // The numbers of the characters of a text.
  function codes(text) {
    var found = [];
    for (var at = 0; at < text.length; at++) {
      found.push(text.codePointAt(at));
      if (found[found.length - 1] > 0xFFFF) at++;
    }
    return found;
  }

  // A class of a table: its characters, or behind a circumflex all others.
  function group(word) {
    var others = word[0] === '^', marked = [];
    codes(others ? word.slice(1) : word).forEach(function (code) {
      while (marked.length <= code) marked.push(others);
      marked[code] = !others;
    });
    return function (code) { return code < marked.length ? marked[code] : others; };
  }

  // The suffixes of a step as a tree, from their last characters.
  function suffixes(words) {
    var tree = { next: new Map(), step: -1 };
    for (var at = 1; at < words.length; at += 2) {
      var node = tree;
      codes(words[at + 1]).reverse().forEach(function (code) {
        if (!node.next.has(code)) node.next.set(code, { next: new Map(), step: -1 });
        node = node.next.get(code);
      });
      if (node.step < 0) node.step = Number(words[at]);
    }
    return tree;
  }

  // The stemmer of a table. Its first line has the numbers of the step before and of the main step,
  // and the marks; each other line is a step. A step takes the length of a text, whose characters
  // `text` begins with, and gives the length of what it makes of it, or -1 where it doesn't apply;
  // then it has changed nothing, because only a safe table is read. Steps are nested 400 deep at
  // most: what lies deeper changes nothing.
  var FIRST = /^[0-9]{1,4} [0-9]{1,4}( [0-9]{1,4} [0-9]{1,4})*$/;
  var STEP = new RegExp('^([+.:*]F W|[@!]F N|[&|=]F N N|-F N( N W)*|~F W N)$'
    .replace(/F/g, '[s-][a-]').replace(/W/g, '[^ ]*').replace(/N/g, '[0-9]{1,4}'));
  function tableStemmer(lines, name) {
    var numbers = lines[0].split(' ').map(Number), rows = lines.slice(1), text, regions, steps;
    if (!FIRST.test(lines[0]) || !rows.every(isSafe)) {
      throw new Error('the table of ' + name + ' is damaged');
    }

    // What a step declares: that it only shortens a text, and that it always applies.
    function shortens(number) { return !rows[number] || rows[number][1] === 's'; }
    function applies(number) { return !rows[number] || rows[number][2] === 'a'; }

    // Whether the line is a step that is what it declares, and tries only what changes nothing.
    function isSafe(line) {
      var sign = line[0], words = line.slice(4).split(' '), a = Number(words[0]), b = Number(words[1]);
      var isShort = sign === '+' ? words[0] === ''
        : sign === '-' ? words.every(function (word, at) { return at % 2 === 0 || shortens(Number(word)); })
        : sign === '&' || sign === '|' ? shortens(a) && shortens(b)
        : sign !== '=' && sign !== '~';
      var isSure = sign === '&' || sign === '=' ? applies(a) && applies(b)
        : sign === '|' ? applies(a) || applies(b)
        : sign === '+' || sign === '*' || sign === '~';
      var isFirm = sign === '&' ? shortens(a) || applies(b) : sign === '!' || sign === '=' ? shortens(a) : true;
      return STEP.test(line) && (isShort || line[1] === '-') && (isSure || line[2] === '-') && isFirm;
    }

    function apply(number, length, depth) {
      return depth && steps[number] ? steps[number](length, depth - 1) : length;
    }

    function stepOf(line) {
      var words = line.slice(4).split(' '), a = Number(words[0]), b = Number(words[1]);
      var end = codes(words[0]), isIn = group(words[0]), tree = line[0] === '-' && suffixes(words);
      return {
        '+': function (length) {
          for (var at = 0; at < end.length; at++) text[length++] = end[at];
          return length;
        },
        '@': function (length) { return length < (regions[a] || 0) ? -1 : length; },
        '.': function (length) { return length && isIn(text[length - 1]) ? length - 1 : -1; },
        ':': function (length) {
          var last = text[length - 1];
          return length > 1 && last === text[length - 2] && isIn(last) ? length - 1 : -1;
        },
        '*': function (length) {
          while (length && isIn(text[length - 1])) length--;
          return length;
        },
        '-': function (length, depth) {
          var start = regions[a] || 0, node = length < start ? undefined : tree, found = -1, rest = 0;
          while (node) {
            if (node.step >= 0) {
              found = node.step;
              rest = length;
            }
            node = length > start ? node.next.get(text[--length]) : undefined;
          }
          return found < 0 ? -1 : apply(found, rest, depth);
        },
        '&': function (length, depth) {
          var left = apply(a, length, depth);
          return left < 0 ? -1 : apply(b, left, depth);
        },
        '|': function (length, depth) {
          var left = apply(a, length, depth);
          return left < 0 ? apply(b, length, depth) : left;
        },
        '!': function (length, depth) { return apply(a, length, depth) < 0 ? length : -1; },
        '=': function (length, depth) {
          var front = apply(a, length, depth);
          if (front < 0) return -1;
          var rest = text.slice(front, length), left = apply(b, front, depth);
          for (var at = 0; left >= 0 && at < rest.length; at++) text[left++] = rest[at];
          return left;
        },
        '~': function (length, depth) {
          var typed = length, before, left;
          while (typed && !isIn(text[typed - 1])) typed--;
          if (!typed) return length;
          before = text.slice(0, length);
          typed = 0;
          for (var at = 0; at < length; at++) {
            text[typed++] = before[at];
            left = apply(b, typed, depth);
            if (left >= 0) typed = left;
          }
          return typed;
        }
      }[line[0]];
    }

    // What the step makes of a word, and nothing where it doesn't apply.
    function run(number, word) {
      text = word.slice();
      var left = apply(number, word.length, 400);
      return left < 0 ? undefined : text.slice(0, left);
    }

    return function (token) {
      var word = codes(token), starts = [0], stem = '';
      steps = steps || lines.slice(1).map(stepOf);
      regions = [];
      word = run(numbers[0], word) || word;
      for (var at = 2; at < numbers.length; at += 2) {
        var rest = run(numbers[at], word.slice().reverse()) || [];
        starts.push(Math.max(numbers[at + 1], word.length - rest.length));
      }
      regions = starts;
      word = run(numbers[1], word) || word;
      for (at = 0; at < word.length; at++) stem += String.fromCodePoint(word[at]);
      return stem || undefined;
    };
  }

  FACTS.stages.forEach(function (stage) {
    var run = stage['class'] ? trimmer(stage['class'])
      : stage.words ? stopWords(stage.words)
      : stage.drops ? stemmer(stage.drops, stage.changes)
      : stage.table ? tableStemmer(stage.table.split('\n'), stage.name)
      : function (token) { return token; };
    delete elasticlunr.Pipeline.registeredFunctions[stage.name];
    elasticlunr.Pipeline.registerFunction(run, stage.name);
  });

  // A printed trie has one step for each character; one that elasticlunr.js made has two above
  // U+FFFF.
  elasticlunr.InvertedIndex.prototype.getNode = function (token) {
    if (!token) return null;
    var node = this.root;
    for (var character of token) {
      if (node[character]) node = node[character];
      else if (character.length === 2 && node[character[0]]) node = node[character[0]][character[1]];
      else node = undefined;
      if (!node) return null;
    }
    return node;
  };
  elasticlunr.InvertedIndex.prototype.hasToken = function (token) { return this.getNode(token) !== null; };

  return elasticlunr;
});
