/* What a page needs so that elasticlunr.js 0.9.5 reads a query as the index was built.
   Load it after elasticlunr.min.js, by its own script element; in node:

     const elasticlunr = require('./elasticlunr.min.js');
     require('./elasticlunr-languages.js')(elasticlunr);

   Printed by the program elasticlunr_script; change nothing here. */
(function (extend) {
  'use strict';
  if (typeof module === 'object' && module.exports) module.exports = extend;
  else if (typeof elasticlunr === 'undefined') throw new Error('elasticlunr.min.js has to be loaded first');
  else extend(elasticlunr);
})(function (elasticlunr) {
  'use strict';
  var FACTS = {"between":[9,14,32,33,45,46,133,134,160,161,5760,5761,8192,8203,8232,8234,8239,8240,8287,8288,12288,12289],"lower":["Aa","Bb","Cc","Dd","Ee","Ff","Gg","Hh","Ii","Jj","Kk","Ll","Mm","Nn","Oo","Pp","Qq","Rr","Ss","Tt","Uu","Vv","Ww","Xx","Yy","Zz","Àà","Áá","Ââ","Ãã","Ää","Åå","Ææ","Çç","Èè","Éé","Êê","Ëë","Ìì","Íí","Îî","Ïï","Ðð","Ññ","Òò","Óó","Ôô","Õõ","Öö","Øø","Ùù","Úú","Ûû","Üü","Ýý","Þþ","Āā","Ăă","Ąą","Ćć","Ĉĉ","Ċċ","Čč","Ďď","Đđ","Ēē","Ĕĕ","Ėė","Ęę","Ěě","Ĝĝ","Ğğ","Ġġ","Ģģ","Ĥĥ","Ħħ","Ĩĩ","Īī","Ĭĭ","Įį","İi̇","Ĳĳ","Ĵĵ","Ķķ","Ĺĺ","Ļļ","Ľľ","Ŀŀ","Łł","Ńń","Ņņ","Ňň","Ŋŋ","Ōō","Ŏŏ","Őő","Œœ","Ŕŕ","Ŗŗ","Řř","Śś","Ŝŝ","Şş","Šš","Ţţ","Ťť","Ŧŧ","Ũũ","Ūū","Ŭŭ","Ůů","Űű","Ųų","Ŵŵ","Ŷŷ","Ÿÿ","Źź","Żż","Žž","Șș","Țț","Ѐѐ","Ёё","Ђђ","Ѓѓ","Єє","Ѕѕ","Іі","Її","Јј","Љљ","Њњ","Ћћ","Ќќ","Ѝѝ","Ўў","Џџ","Аа","Бб","Вв","Гг","Дд","Ее","Жж","Зз","Ии","Йй","Кк","Лл","Мм","Нн","Оо","Пп","Рр","Сс","Тт","Уу","Фф","Хх","Цц","Чч","Шш","Щщ","Ъъ","Ыы","Ьь","Ээ","Юю","Яя"],"stages":[{"class":[65,91,97,123,170,171,186,187,192,215,216,247,248,697,736,741,4352,4608,7424,7462,7468,7517,7522,7526,7531,7544,7545,7615,7680,7936,8305,8306,8319,8320,8336,8352,8490,8492,8498,8499,8526,8527,8544,8585,11360,11392,12334,12336,12593,12687,12800,12831,12896,12927,42786,42888,42891,42974,42978,42979,42993,43008,43360,43389,43824,43867,43868,43877,43878,43882,43884,43886,44032,55204,55216,55239,55243,55292,64256,64263,65313,65339,65345,65371,65440,65471,65474,65480,65482,65488,65490,65496,65498,65501,67456,67462,67463,67505,67506,67520,122624,122754,122768,122775,122829,122867,122869,122880],"name":"trimmer-ko"},{"name":"stopWordFilter-ko","words":["","가","가까스로","가령","각","각각","각자","각종","갖고말하자면","같다","같이","개의치않고","거니와","거바","거의","것","것과 같이","것들","게다가","게우다","겨우","견지에서","결과에 이르다","결국","결론을 낼 수 있다","겸사겸사","고려하면","고로","곧","공동으로","과","과연","관계가 있다","관계없이","관련이 있다","관하여","관한","관해서는","구","구체적으로","구토하다","그","그들","그때","그래","그래도","그래서","그러나","그러니","그러니까","그러면","그러므로","그러한즉","그런 까닭에","그런데","그런즉","그럼","그럼에도 불구하고","그렇게 함으로써","그렇지","그렇지 않다면","그렇지 않으면","그렇지만","그렇지않으면","그리고","그리하여","그만이다","그에 따르는","그위에","그저","그중에서","그치지 않다","근거로","근거하여","기대여","기점으로","기준으로","기타","까닭으로","까악","까지","까지 미치다","까지도","꽈당","끙끙","끼익","나","나머지는","남들","남짓","너","너희","너희들","네","넷","년","논하지 않다","놀라다","누가 알겠는가","누구","다른","다른 방면으로","다만","다섯","다소","다수","다시 말하자면","다시말하면","다음","다음에","다음으로","단지","답다","당신","당장","대로 하다","대하면","대하여","대해 말하자면","대해서","댕그","더구나","더군다나","더라도","더불어","더욱더","더욱이는","도달하다","도착하다","동시에","동안","된바에야","된이상","두번째로","둘","둥둥","뒤따라","뒤이어","든간에","들","등","등등","딩동","따라","따라서","따위","따지지 않다","딱","때","때가 되어","때문에","또","또한","뚝뚝","라 해도","령","로","로 인하여","로부터","로써","륙","를","마음대로","마저","마저도","마치","막론하고","만 못하다","만약","만약에","만은 아니다","만이 아니다","만일","만큼","말하자면","말할것도 없고","매","매번","메쓰겁다","몇","모","모두","무렵","무릎쓰고","무슨","무엇","무엇때문에","물론","및","바꾸어말하면","바꾸어말하자면","바꾸어서 말하면","바꾸어서 한다면","바꿔 말하면","바로","바와같이","밖에 안된다","반대로","반대로 말하자면","반드시","버금","보는데서","보다더","보드득","본대로","봐","봐라","부류의 사람들","부터","불구하고","불문하고","붕붕","비걱거리다","비교적","비길수 없다","비로소","비록","비슷하다","비추어 보아","비하면","뿐만 아니라","뿐만아니라","뿐이다","삐걱","삐걱거리다","사","삼","상대적으로 말하자면","생각한대로","설령","설마","설사","셋","소생","소인","솨","쉿","습니까","습니다","시각","시간","시작하여","시초에","시키다","실로","심지어","아","아니","아니나다를가","아니라면","아니면","아니었다면","아래윗","아무거나","아무도","아야","아울러","아이","아이고","아이구","아이야","아이쿠","아하","아홉","안 그러면","않기 위하여","않기 위해서","알 수 있다","알았어","앗","앞에서","앞의것","야","약간","양자","어","어기여차","어느","어느 년도","어느것","어느곳","어느때","어느쪽","어느해","어디","어때","어떠한","어떤","어떤것","어떤것들","어떻게","어떻해","어이","어째서","어쨋든","어쩔수 없다","어찌","어찌됏든","어찌됏어","어찌하든지","어찌하여","언제","언젠가","얼마","얼마 안 되는 것","얼마간","얼마나","얼마든지","얼마만큼","얼마큼","엉엉","에","에 가서","에 달려 있다","에 대해","에 있다","에 한하다","에게","에서","여","여기","여덟","여러분","여보시오","여부","여섯","여전히","여차","연관되다","연이서","영","영차","옆사람","예","예를 들면","예를 들자면","예컨대","예하면","오","오로지","오르다","오자마자","오직","오호","오히려","와","와 같은 사람들","와르르","와아","왜","왜냐하면","외에도","요만큼","요만한 것","요만한걸","요컨대","우르르","우리","우리들","우선","우에 종합한것과같이","운운","월","위에서 서술한바와같이","위하여","위해서","윙윙","육","으로","으로 인하여","으로서","으로써","을","응","응당","의","의거하여","의지하여","의해","의해되다","의해서","이","이 되다","이 때문에","이 밖에","이 외에","이 정도의","이것","이곳","이때","이라면","이래","이러이러하다","이러한","이런","이럴정도로","이렇게 많은 것","이렇게되면","이렇게말하자면","이렇구나","이로 인하여","이르기까지","이리하여","이만큼","이번","이봐","이상","이어서","이었다","이와 같다","이와 같은","이와 반대로","이와같다면","이외에도","이용하여","이유만으로","이젠","이지만","이쪽","이천구","이천육","이천칠","이천팔","인 듯하다","인젠","일","일것이다","일곱","일단","일때","일반적으로","일지라도","임에 틀림없다","입각하여","입장에서","잇따라","있다","자","자기","자기집","자마자","자신","잠깐","잠시","저","저것","저것만큼","저기","저쪽","저희","전부","전자","전후","점에서 보아","정도에 이르다","제","제각기","제외하고","조금","조차","조차도","졸졸","좀","좋아","좍좍","주룩주룩","주저하지 않고","줄은 몰랏다","줄은모른다","중에서","중의하나","즈음하여","즉","즉시","지든지","지만","지말고","진짜로","쪽으로","차라리","참","참나","첫번째로","쳇","총적으로","총적으로 말하면","총적으로 보면","칠","콸콸","쾅쾅","쿵","타다","타인","탕탕","토하다","통하여","툭","퉤","틈타","팍","팔","퍽","펄렁","하","하게될것이다","하게하다","하겠는가","하고 있다","하고있었다","하곤하였다","하구나","하기 때문에","하기 위하여","하기는한데","하기만 하면","하기보다는","하기에","하나","하느니","하는 김에","하는 편이 낫다","하는것도","하는것만 못하다","하는것이 낫다","하는바","하더라도","하도다","하도록시키다","하도록하다","하든지","하려고하다","하마터면","하면 할수록","하면된다","하면서","하물며","하여금","하여야","하자마자","하지 않는다면","하지 않도록","하지마","하지마라","하지만","하하","한 까닭에","한 이유는","한 후","한다면","한다면 몰라도","한데","한마디","한적이있다","한켠으로는","한항목","할 따름이다","할 생각이다","할 줄 안다","할 지경이다","할 힘이 있다","할때","할만하다","할망정","할뿐","할수있다","할수있어","할줄알다","할지라도","할지언정","함께","해도된다","해도좋다","해봐요","해서는 안된다","해야한다","해요","했어요","향하다","향하여","향해서","허","허걱","허허","헉","헉헉","헐떡헐떡","형식으로 쓰여","혹시","혹은","혼자","훨씬","휘익","휴","흐흐","흥","힘입어"]},{"name":"stemmer-ko"}]};

  // A class is a list of marks: it begins at the first, ends before the second, begins again at
  // the third.
  function has(marks, character) {
    var code = character.codePointAt(0), low = 0, high = marks.length;
    while (low < high) {
      var middle = (low + high) >> 1;
      if (marks[middle] <= code) low = middle + 1;
      else high = middle;
    }
    return low % 2 === 1;
  }

  // Each character that changes, with what replaces it.
  function table(pairs) {
    return new Map(pairs.map(function (pair) {
      var characters = Array.from(pair);
      return [characters[0], characters.slice(1).join('')];
    }));
  }

  // The words of a text, in lower case.
  var LOWER = table(FACTS.lower);
  function words(text) {
    var found = [], word = '';
    for (var character of String(text)) {
      if (!has(FACTS.between, character)) word += LOWER.get(character) || character;
      else if (word !== '') {
        found.push(word);
        word = '';
      }
    }
    if (word !== '') found.push(word);
    return found;
  }

  var before = elasticlunr.tokenizer;
  elasticlunr.tokenizer = function (text) {
    var texts = Array.isArray(text) ? text : [text];
    return [].concat.apply([], texts.map(function (one) {
      return one === null || one === undefined ? [] : words(one);
    }));
  };
  Object.keys(before).forEach(function (key) { elasticlunr.tokenizer[key] = before[key]; });

  // Cuts off both ends what is not of the class; a token of which nothing is left goes.
  function trimmer(marks) {
    return function (token) {
      var characters = Array.from(token), first = 0, end = characters.length;
      while (first < end && !has(marks, characters[first])) first++;
      while (first < end && !has(marks, characters[end - 1])) end--;
      return first < end ? characters.slice(first, end).join('') : undefined;
    };
  }

  function stopWords(list) {
    var listed = new Set(list);
    return function (token) { return listed.has(token) ? undefined : token; };
  }

  // Takes the first character of one class away, and changes the first one of a table.
  function stemmer(marks, pairs) {
    var changes = table(pairs);
    return function (token) {
      var characters = Array.from(token);
      var at = characters.findIndex(function (character) { return has(marks, character); });
      if (at >= 0) characters.splice(at, 1);
      at = characters.findIndex(function (character) { return changes.has(character); });
      if (at >= 0) characters[at] = changes.get(characters[at]);
      return characters.join('') || undefined;
    };
  }

  FACTS.stages.forEach(function (stage) {
    var run = stage['class'] ? trimmer(stage['class'])
      : stage.words ? stopWords(stage.words)
      : stage.drops ? stemmer(stage.drops, stage.changes)
      : stage.table ? tableStemmer(stage.table.split('\n'), stage.name)
      : function (token) { return token; };
    delete elasticlunr.Pipeline.registeredFunctions[stage.name];
    elasticlunr.Pipeline.registerFunction(run, stage.name);
  });

  // A printed trie has one step for each character; one that elasticlunr.js made has two above
  // U+FFFF.
  elasticlunr.InvertedIndex.prototype.getNode = function (token) {
    if (!token) return null;
    var node = this.root;
    for (var character of token) {
      if (node[character]) node = node[character];
      else if (character.length === 2 && node[character[0]]) node = node[character[0]][character[1]];
      else node = undefined;
      if (!node) return null;
    }
    return node;
  };
  elasticlunr.InvertedIndex.prototype.hasToken = function (token) { return this.getNode(token) !== null; };

  return elasticlunr;
});
