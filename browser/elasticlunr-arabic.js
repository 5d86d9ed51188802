/* What a page needs so that elasticlunr.js 0.9.5 reads a query as the index was built.
   Load it after elasticlunr.min.js, by its own script element; in node:

     const elasticlunr = require('./elasticlunr.min.js');
     require('./elasticlunr-languages.js')(elasticlunr);

   Printed by the program elasticlunr_script; change nothing here. */
(function (extend) {
  'use strict';
  if (typeof module === 'object' && module.exports) module.exports = extend;
  else if (typeof elasticlunr === 'undefined') throw new Error('elasticlunr.min.js has to be loaded first');
  else extend(elasticlunr);
})(function (elasticlunr) {
  'use strict';
  var FACTS = {"between":[9,14,32,33,45,46,133,134,160,161,5760,5761,8192,8203,8232,8234,8239,8240,8287,8288,12288,12289],"lower":["Aa","Bb","Cc","Dd","Ee","Ff","Gg","Hh","Ii","Jj","Kk","Ll","Mm","Nn","Oo","Pp","Qq","Rr","Ss","Tt","Uu","Vv","Ww","Xx","Yy","Zz","Àà","Áá","Ââ","Ãã","Ää","Åå","Ææ","Çç","Èè","Éé","Êê","Ëë","Ìì","Íí","Îî","Ïï","Ðð","Ññ","Òò","Óó","Ôô","Õõ","Öö","Øø","Ùù","Úú","Ûû","Üü","Ýý","Þþ","Āā","Ăă","Ąą","Ćć","Ĉĉ","Ċċ","Čč","Ďď","Đđ","Ēē","Ĕĕ","Ėė","Ęę","Ěě","Ĝĝ","Ğğ","Ġġ","Ģģ","Ĥĥ","Ħħ","Ĩĩ","Īī","Ĭĭ","Įį","İi̇","Ĳĳ","Ĵĵ","Ķķ","Ĺĺ","Ļļ","Ľľ","Ŀŀ","Łł","Ńń","Ņņ","Ňň","Ŋŋ","Ōō","Ŏŏ","Őő","Œœ","Ŕŕ","Ŗŗ","Řř","Śś","Ŝŝ","Şş","Šš","Ţţ","Ťť","Ŧŧ","Ũũ","Ūū","Ŭŭ","Ůů","Űű","Ųų","Ŵŵ","Ŷŷ","Ÿÿ","Źź","Żż","Žž","Șș","Țț","Ѐѐ","Ёё","Ђђ","Ѓѓ","Єє","Ѕѕ","Іі","Її","Јј","Љљ","Њњ","Ћћ","Ќќ","Ѝѝ","Ўў","Џџ","Аа","Бб","Вв","Гг","Дд","Ее","Жж","Зз","Ии","Йй","Кк","Лл","Мм","Нн","Оо","Пп","Рр","Сс","Тт","Уу","Фф","Хх","Цц","Чч","Шш","Щщ","Ъъ","Ыы","Ьь","Ээ","Юю","Яя"],"stages":[{"changes":["آا","أا","إا","ىا","ٱا"],"drops":[1600,1601,1611,1628],"name":"stemmer-ar"}]};

  // A class is a list of marks: it begins at the first, ends before the second, begins again at
  // the third.
  function has(marks, character) {
    var code = character.codePointAt(0), low = 0, high = marks.length;
    while (low < high) {
      var middle = (low + high) >> 1;
      if (marks[middle] <= code) low = middle + 1;
      else high = middle;
    }
    return low % 2 === 1;
  }

  // Each character that changes, with what replaces it.
  function table(pairs) {
    return new Map(pairs.map(function (pair) {
      var characters = Array.from(pair);
      return [characters[0], characters.slice(1).join('')];
    }));
  }

  // The words of a text, in lower case.
  var LOWER = table(FACTS.lower);
  function words(text) {
    var found = [], word = '';
    for (var character of String(text)) {
      if (!has(FACTS.between, character)) word += LOWER.get(character) || character;
      else if (word !== '') {
        found.push(word);
        word = '';
      }
    }
    if (word !== '') found.push(word);
    return found;
  }

  var before = elasticlunr.tokenizer;
  elasticlunr.tokenizer = function (text) {
    var texts = Array.isArray(text) ? text : [text];
    return [].concat.apply([], texts.map(function (one) {
      return one === null || one === undefined ? [] : words(one);
    }));
  };
  Object.keys(before).forEach(function (key) { elasticlunr.tokenizer[key] = before[key]; });

  // Cuts off both ends what is not of the class; a token of which nothing is left goes.
  function trimmer(marks) {
    return function (token) {
      var characters = Array.from(token), first = 0, end = characters.length;
      while (first < end && !has(marks, characters[first])) first++;
      while (first < end && !has(marks, characters[end - 1])) end--;
      return first < end ? characters.slice(first, end).join('') : undefined;
    };
  }

  function stopWords(list) {
    var listed = new Set(list);
    return function (token) { return listed.has(token) ? undefined : token; };
  }

  // Takes the first character of one class away, and changes the first one of a table.
  function stemmer(marks, pairs) {
    var changes = table(pairs);
    return function (token) {
      var characters = Array.from(token);
      var at = characters.findIndex(function (character) { return has(marks, character); });
      if (at >= 0) characters.splice(at, 1);
      at = characters.findIndex(function (character) { return changes.has(character); });
      if (at >= 0) characters[at] = changes.get(characters[at]);
      return characters.join('') || undefined;
    };
  }

  FACTS.stages.forEach(function (stage) {
    var run = stage['class'] ? trimmer(stage['class'])
      : stage.words ? stopWords(stage.words)
      : stage.drops ? stemmer(stage.drops, stage.changes)
      : stage.table ? tableStemmer(stage.table.split('\n'), stage.name)
      : function (token) { return token; };
    delete elasticlunr.Pipeline.registeredFunctions[stage.name];
    elasticlunr.Pipeline.registerFunction(run, stage.name);
  });

  // A printed trie has one step for each character; one that elasticlunr.js made has two above
  // U+FFFF.
  elasticlunr.InvertedIndex.prototype.getNode = function (token) {
    if (!token) return null;
    var node = this.root;
    for (var character of token) {
      if (node[character]) node = node[character];
      else if (character.length === 2 && node[character[0]]) node = node[character[0]][character[1]];
      else node = undefined;
      if (!node) return null;
    }
    return node;
  };
  elasticlunr.InvertedIndex.prototype.hasToken = function (token) { return this.getNode(token) !== null; };

  return elasticlunr;
});
