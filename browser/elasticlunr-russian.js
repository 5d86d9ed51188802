/* What a page needs so that elasticlunr.js 0.9.5 reads a query as the index was built.
   Load it after elasticlunr.min.js, by its own script element; in node:

     const elasticlunr = require('./elasticlunr.min.js');
     require('./elasticlunr-languages.js')(elasticlunr);

   Printed by the program elasticlunr_script; change nothing here. */
(function (extend) {
  'use strict';
  if (typeof module === 'object' && module.exports) module.exports = extend;
  else if (typeof elasticlunr === 'undefined') throw new Error('elasticlunr.min.js has to be loaded first');
  else extend(elasticlunr);
})(function (elasticlunr) {
  'use strict';
  var FACTS = {"between":[9,14,32,33,45,46,133,134,160,161,5760,5761,8192,8203,8232,8234,8239,8240,8287,8288,12288,12289],"lower":["Aa","Bb","Cc","Dd","Ee","Ff","Gg","Hh","Ii","Jj","Kk","Ll","Mm","Nn","Oo","Pp","Qq","Rr","Ss","Tt","Uu","Vv","Ww","Xx","Yy","Zz","Àà","Áá","Ââ","Ãã","Ää","Åå","Ææ","Çç","Èè","Éé","Êê","Ëë","Ìì","Íí","Îî","Ïï","Ðð","Ññ","Òò","Óó","Ôô","Õõ","Öö","Øø","Ùù","Úú","Ûû","Üü","Ýý","Þþ","Āā","Ăă","Ąą","Ćć","Ĉĉ","Ċċ","Čč","Ďď","Đđ","Ēē","Ĕĕ","Ėė","Ęę","Ěě","Ĝĝ","Ğğ","Ġġ","Ģģ","Ĥĥ","Ħħ","Ĩĩ","Īī","Ĭĭ","Įį","İi̇","Ĳĳ","Ĵĵ","Ķķ","Ĺĺ","Ļļ","Ľľ","Ŀŀ","Łł","Ńń","Ņņ","Ňň","Ŋŋ","Ōō","Ŏŏ","Őő","Œœ","Ŕŕ","Ŗŗ","Řř","Śś","Ŝŝ","Şş","Šš","Ţţ","Ťť","Ŧŧ","Ũũ","Ūū","Ŭŭ","Ůů","Űű","Ųų","Ŵŵ","Ŷŷ","Ÿÿ","Źź","Żż","Žž","Șș","Țț","Ѐѐ","Ёё","Ђђ","Ѓѓ","Єє","Ѕѕ","Іі","Її","Јј","Љљ","Њњ","Ћћ","Ќќ","Ѝѝ","Ўў","Џџ","Аа","Бб","Вв","Гг","Дд","Ее","Жж","Зз","Ии","Йй","Кк","Лл","Мм","Нн","Оо","Пп","Рр","Сс","Тт","Уу","Фф","Хх","Цц","Чч","Шш","Щщ","Ъъ","Ыы","Ьь","Ээ","Юю","Яя"],"stages":[{"class":[1024,1157,1159,1328,7296,7307,7467,7468,7544,7545,11744,11776,42560,42656,65070,65072,122928,122990,123023,123024],"name":"trimmer-ru"},{"name":"stopWordFilter-ru","words":["","а","алло","без","близко","более","больше","будем","будет","будете","будешь","будто","буду","будут","будь","бы","бывает","бывь","был","была","были","было","быть","в","важная","важное","важные","важный","вам","вами","вас","ваш","ваша","ваше","ваши","вверх","вдали","вдруг","ведь","везде","весь","вниз","внизу","во","вокруг","вон","восемнадцатый","восемнадцать","восемь","восьмой","вот","впрочем","времени","время","все","всегда","всего","всем","всеми","всему","всех","всею","всю","всюду","вся","всё","второй","вы","г","где","говорил","говорит","год","года","году","да","давно","даже","далеко","дальше","даром","два","двадцатый","двадцать","две","двенадцатый","двенадцать","двух","девятнадцатый","девятнадцать","девятый","девять","действительно","дел","день","десятый","десять","для","до","довольно","долго","должно","другая","другие","других","друго","другое","другой","е","его","ее","ей","ему","если","есть","еще","ещё","ею","её","ж","же","жизнь","за","занят","занята","занято","заняты","затем","зато","зачем","здесь","значит","и","из","или","им","именно","иметь","ими","имя","иногда","их","к","каждая","каждое","каждые","каждый","кажется","как","какая","какой","кем","когда","кого","ком","кому","конечно","которая","которого","которой","которые","который","которых","кроме","кругом","кто","куда","лет","ли","лишь","лучше","люди","м","мало","между","меля","менее","меньше","меня","миллионов","мимо","мира","мне","много","многочисленная","многочисленное","многочисленные","многочисленный","мной","мною","мог","могут","мож","может","можно","можхо","мои","мой","мор","мочь","моя","моё","мы","на","наверху","над","надо","назад","наиболее","наконец","нам","нами","нас","начала","наш","наша","наше","наши","не","него","недавно","недалеко","нее","ней","нельзя","нем","немного","нему","непрерывно","нередко","несколько","нет","нею","неё","ни","нибудь","ниже","низко","никогда","никуда","ними","них","ничего","но","ну","нужно","нх","о","об","оба","обычно","один","одиннадцатый","одиннадцать","однажды","однако","одного","одной","около","он","она","они","оно","опять","особенно","от","отовсюду","отсюда","очень","первый","перед","по","под","пожалуйста","позже","пока","пор","пора","после","посреди","потом","потому","почему","почти","прекрасно","при","про","просто","против","процентов","пятнадцатый","пятнадцать","пятый","пять","раз","разве","рано","раньше","рядом","с","сам","сама","сами","самим","самими","самих","само","самого","самой","самом","самому","саму","свое","своего","своей","свои","своих","свою","сеаой","себе","себя","сегодня","седьмой","сейчас","семнадцатый","семнадцать","семь","сих","сказал","сказала","сказать","сколько","слишком","сначала","снова","со","собой","собою","совсем","спасибо","стал","суть","т","та","так","такая","также","такие","такое","такой","там","твой","твоя","твоё","те","тебе","тебя","тем","теми","теперь","тех","то","тобой","тобою","тогда","того","тоже","только","том","тому","тот","тою","третий","три","тринадцатый","тринадцать","ту","туда","тут","ты","тысяч","у","уж","уже","уметь","хорошо","хотеть","хоть","хотя","хочешь","часто","чаще","чего","человек","чем","чему","через","четвертый","четыре","четырнадцатый","четырнадцать","что","чтоб","чтобы","чуть","шестнадцатый","шестнадцать","шестой","шесть","эта","эти","этим","этими","этих","это","этого","этой","этом","этому","этот","эту","я"]},{"name":"stemmer-ru","table":"2 48 5 0 14 0\n+-a е\n--- 0 0 ё\n~-a ё 1\n*sa ^аеиоуыэюя\n.s- аеиоуыэюя\n&s- 3 4\n*sa аеиоуыэюя\n.s- ^аеиоуыэюя\n&s- 6 7\n&s- 4 8\n&s- 3 9\n&s- 7 10\n&s- 6 11\n&s- 4 12\n&s- 3 13\n+sa \n-s- 1 15 а 15 я\n!s- 16\n!s- 17\n-s- 1 15 ившись 15 ывшись 18 вшись 15 ивши 15 ывши 18 вши 15 ив 15 ыв 18 в\n-s- 1 15 сь 15 ся\n|sa 20 15\n-s- 1 15 ими 15 ыми 15 его 15 ого 15 ему 15 ому 15 ее 15 ие 15 ое 15 ые 15 ей 15 ий 15 ой 15 ый 15 ем 15 им 15 ом 15 ым 15 их 15 ых 15 ею 15 ою 15 ую 15 юю 15 ая 15 яя\n-s- 1 15 ивш 15 ывш 15 ующ 18 ем 18 нн 18 вш 18 ющ 18 щ\n|sa 23 15\n&s- 22 24\n-s- 1 15 ейте 15 уйте 15 ила 15 ыла 15 ена 18 ете 15 ите 18 йте 15 или 15 ыли 15 ило 15 ыло 15 ено 18 нно 15 ует 15 уют 15 ены 15 ить 15 ыть 18 ешь 15 ишь 18 ла 18 на 18 ли 15 ей 15 уй 15 ил 15 ыл 18 ем 15 им 15 ым 15 ен 18 ло 18 но 18 ет 15 ит 15 ыт 18 ют 15 ят 18 ны 18 ть 15 ую 18 й 18 л 18 н 15 ю\n-s- 1 15 иями 15 ами 15 ями 15 ией 15 ием 15 иям 15 иях 15 ев 15 ов 15 ие 15 ье 15 еи 15 ии 15 ей 15 ий 15 ой 15 ам 15 ем 15 ом 15 ям 15 ах 15 ях 15 ию 15 ью 15 ия 15 ья 15 а 15 е 15 и 15 й 15 о 15 у 15 ы 15 ь 15 ю 15 я\n|s- 26 27\n|s- 25 28\n|sa 29 15\n&sa 21 30\n|sa 19 31\n-s- 1 15 и\n|sa 33 15\n@s- 2\n-s- 1 35 ость 35 ост\n|sa 36 15\n+-a н\n--- 1 38 нн\n|-a 39 15\n-s- 1 15 н\n!s- 41\n!s- 42\n--- 1 40 ейше 40 ейш 43 н 15 ь\n|-a 44 15\n&-a 37 45\n&-a 34 46\n&-a 32 47"}]};

  // A class is a list of marks: it begins at the first, ends before the second, begins again at
  // the third.
  function has(marks, character) {
    var code = character.codePointAt(0), low = 0, high = marks.length;
    while (low < high) {
      var middle = (low + high) >> 1;
      if (marks[middle] <= code) low = middle + 1;
      else high = middle;
    }
    return low % 2 === 1;
  }

  // Each character that changes, with what replaces it.
  function table(pairs) {
    return new Map(pairs.map(function (pair) {
      var characters = Array.from(pair);
      return [characters[0], characters.slice(1).join('')];
    }));
  }

  // The words of a text, in lower case.
  var LOWER = table(FACTS.lower);
  function words(text) {
    var found = [], word = '';
    for (var character of String(text)) {
      if (!has(FACTS.between, character)) word += LOWER.get(character) || character;
      else if (word !== '') {
        found.push(word);
        word = '';
      }
    }
    if (word !== '') found.push(word);
    return found;
  }

  var before = elasticlunr.tokenizer;
  elasticlunr.tokenizer = function (text) {
    var texts = Array.isArray(text) ? text : [text];
    return [].concat.apply([], texts.map(function (one) {
      return one === null || one === undefined ? [] : words(one);
    }));
  };
  Object.keys(before).forEach(function (key) { elasticlunr.tokenizer[key] = before[key]; });

  // Cuts off both ends what is not of the class; a token of which nothing is left goes.
  function trimmer(marks) {
    return function (token) {
      var characters = Array.from(token), first = 0, end = characters.length;
      while (first < end && !has(marks, characters[first])) first++;
      while (first < end && !has(marks, characters[end - 1])) end--;
      return first < end ? characters.slice(first, end).join('') : undefined;
    };
  }

  function stopWords(list) {
    var listed = new Set(list);
    return function (token) { return listed.has(token) ? undefined : token; };
  }

  // Takes the first character of one class away, and changes the first one of a table.
  function stemmer(marks, pairs) {
    var changes = table(pairs);
    return function (token) {
      var characters = Array.from(token);
      var at = characters.findIndex(function (character) { return has(marks, character); });
      if (at >= 0) characters.splice(at, 1);
      at = characters.findIndex(function (character) { return changes.has(character); });
      if (at >= 0) characters[at] = changes.get(characters[at]);
      return characters.join('') || undefined;
    };
  }

  // The numbers of the characters of a text.
  function codes(text) {
    var found = [];
    for (var at = 0; at < text.length; at++) {
      found.push(text.codePointAt(at));
      if (found[found.length - 1] > 0xFFFF) at++;
    }
    return found;
  }

  // A class of a table: its characters, or behind a circumflex all others.
  function group(word) {
    var others = word[0] === '^', marked = [];
    codes(others ? word.slice(1) : word).forEach(function (code) {
      while (marked.length <= code) marked.push(others);
      marked[code] = !others;
    });
    return function (code) { return code < marked.length ? marked[code] : others; };
  }

  // The suffixes of a step as a tree, from their last characters.
  function suffixes(words) {
    var tree = { next: new Map(), step: -1 };
    for (var at = 1; at < words.length; at += 2) {
      var node = tree;
      codes(words[at + 1]).reverse().forEach(function (code) {
        if (!node.next.has(code)) node.next.set(code, { next: new Map(), step: -1 });
        node = node.next.get(code);
      });
      if (node.step < 0) node.step = Number(words[at]);
    }
    return tree;
  }

  // The stemmer of a table. Its first line has the numbers of the step before and of the main step,
  // and the marks; each other line is a step. A step takes the length of a text, whose characters
  // `text` begins with, and gives the length of what it makes of it, or -1 where it doesn't apply;
  // then it has changed nothing, because only a safe table is read. Steps are nested 400 deep at
  // most: what lies deeper changes nothing.
  var FIRST = /^[0-9]{1,4} [0-9]{1,4}( [0-9]{1,4} [0-9]{1,4})*$/;
  var STEP = new RegExp('^([+.:*]F W|[@!]F N|[&|=]F N N|-F N( N W)*|~F W N)$'
    .replace(/F/g, '[s-][a-]').replace(/W/g, '[^ ]*').replace(/N/g, '[0-9]{1,4}'));
  function tableStemmer(lines, name) {
    var numbers = lines[0].split(' ').map(Number), rows = lines.slice(1), text, regions, steps;
    if (!FIRST.test(lines[0]) || !rows.every(isSafe)) {
      throw new Error('the table of ' + name + ' is damaged');
    }

    // What a step declares: that it only shortens a text, and that it always applies.
    function shortens(number) { return !rows[number] || rows[number][1] === 's'; }
    function applies(number) { return !rows[number] || rows[number][2] === 'a'; }

    // Whether the line is a step that is what it declares, and tries only what changes nothing.
    function isSafe(line) {
      var sign = line[0], words = line.slice(4).split(' '), a = Number(words[0]), b = Number(words[1]);
      var isShort = sign === '+' ? words[0] === ''
        : sign === '-' ? words.every(function (word, at) { return at % 2 === 0 || shortens(Number(word)); })
        : sign === '&' || sign === '|' ? shortens(a) && shortens(b)
        : sign !== '=' && sign !== '~';
      var isSure = sign === '&' || sign === '=' ? applies(a) && applies(b)
        : sign === '|' ? applies(a) || applies(b)
        : sign === '+' || sign === '*' || sign === '~';
      var isFirm = sign === '&' ? shortens(a) || applies(b) : sign === '!' || sign === '=' ? shortens(a) : true;
      return STEP.test(line) && (isShort || line[1] === '-') && (isSure || line[2] === '-') && isFirm;
    }

    function apply(number, length, depth) {
      return depth && steps[number] ? steps[number](length, depth - 1) : length;
    }

    function stepOf(line) {
      var words = line.slice(4).split(' '), a = Number(words[0]), b = Number(words[1]);
      var end = codes(words[0]), isIn = group(words[0]), tree = line[0] === '-' && suffixes(words);
      return {
        '+': function (length) {
          for (var at = 0; at < end.length; at++) text[length++] = end[at];
          return length;
        },
        '@': function (length) { return length < (regions[a] || 0) ? -1 : length; },
        '.': function (length) { return length && isIn(text[length - 1]) ? length - 1 : -1; },
        ':': function (length) {
          var last = text[length - 1];
          return length > 1 && last === text[length - 2] && isIn(last) ? length - 1 : -1;
        },
        '*': function (length) {
          while (length && isIn(text[length - 1])) length--;
          return length;
        },
        '-': function (length, depth) {
          var start = regions[a] || 0, node = length < start ? undefined : tree, found = -1, rest = 0;
          while (node) {
            if (node.step >= 0) {
              found = node.step;
              rest = length;
            }
            node = length > start ? node.next.get(text[--length]) : undefined;
          }
          return found < 0 ? -1 : apply(found, rest, depth);
        },
        '&': function (length, depth) {
          var left = apply(a, length, depth);
          return left < 0 ? -1 : apply(b, left, depth);
        },
        '|': function (length, depth) {
          var left = apply(a, length, depth);
          return left < 0 ? apply(b, length, depth) : left;
        },
        '!': function (length, depth) { return apply(a, length, depth) < 0 ? length : -1; },
        '=': function (length, depth) {
          var front = apply(a, length, depth);
          if (front < 0) return -1;
          var rest = text.slice(front, length), left = apply(b, front, depth);
          for (var at = 0; left >= 0 && at < rest.length; at++) text[left++] = rest[at];
          return left;
        },
        '~': function (length, depth) {
          var typed = length, before, left;
          while (typed && !isIn(text[typed - 1])) typed--;
          if (!typed) return length;
          before = text.slice(0, length);
          typed = 0;
          for (var at = 0; at < length; at++) {
            text[typed++] = before[at];
            left = apply(b, typed, depth);
            if (left >= 0) typed = left;
          }
          return typed;
        }
      }[line[0]];
    }

    // What the step makes of a word, and nothing where it doesn't apply.
    function run(number, word) {
      text = word.slice();
      var left = apply(number, word.length, 400);
      return left < 0 ? undefined : text.slice(0, left);
    }

    return function (token) {
      var word = codes(token), starts = [0], stem = '';
      steps = steps || lines.slice(1).map(stepOf);
      regions = [];
      word = run(numbers[0], word) || word;
      for (var at = 2; at < numbers.length; at += 2) {
        var rest = run(numbers[at], word.slice().reverse()) || [];
        starts.push(Math.max(numbers[at + 1], word.length - rest.length));
      }
      regions = starts;
      word = run(numbers[1], word) || word;
      for (at = 0; at < word.length; at++) stem += String.fromCodePoint(word[at]);
      return stem || undefined;
    };
  }

  FACTS.stages.forEach(function (stage) {
    var run = stage['class'] ? trimmer(stage['class'])
      : stage.words ? stopWords(stage.words)
      : stage.drops ? stemmer(stage.drops, stage.changes)
      : stage.table ? tableStemmer(stage.table.split('\n'), stage.name)
      : function (token) { return token; };
    delete elasticlunr.Pipeline.registeredFunctions[stage.name];
    elasticlunr.Pipeline.registerFunction(run, stage.name);
  });

  // A printed trie has one step for each character; one that elasticlunr.js made has two above
  // U+FFFF.
  elasticlunr.InvertedIndex.prototype.getNode = function (token) {
    if (!token) return null;
    var node = this.root;
    for (var character of token) {
      if (node[character]) node = node[character];
      else if (character.length === 2 && node[character[0]]) node = node[character[0]][character[1]];
      else node = undefined;
      if (!node) return null;
    }
    return node;
  };
  elasticlunr.InvertedIndex.prototype.hasToken = function (token) { return this.getNode(token) !== null; };

  return elasticlunr;
});
