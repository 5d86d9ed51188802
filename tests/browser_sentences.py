"""Small sites of sentences, one in each language of the library: for each page its reference, its title and its text."""

PAGES = {
    "English": [
        ("harbour", "The Harbour at Night", "Lamps were burning along the quay; nobody spoke. \"Is that the ferry?\" asked Zoë, who hadn't slept since 5 o'clock. It wasn't — only a fishing-boat, coming home early."),
        ("bread", "Baking Rye Bread", "Mix 500 g of rye flour with 350 ml of warm water, cover the bowl, and wait. The dough doubles overnight (don't hurry it). Bake at 230 °C until the crust sounds hollow!"),
        ("garden", "Notes on a Façade Garden", "Ivy, roses and honeysuckle: each climbs differently. Professor O'Neill's rule is simple… water the roots, never the leaves. Naïve gardeners drown their plants."),
        ("trains", "Trains & Timetables", "The 7:45 to Bath is cancelled, isn't it? Travellers' tickets stay valid on co-operating railways. Running late costs nothing; missing the last train costs a night's sleep."),
    ],
    "Arabic": [
        ("sea", "البحر في الصباح", "خرج الصيّادون قبل الفجر، وكان البحر هادئًا. هل رأيتَ القارب الأزرق؟ عادوا عند الساعة ٩ بشباكٍ مليئةٍ بالسمك."),
        ("bread", "خُبز البيت", "نخلط الدقيق بالماء والملح؛ ثم نترك العجين ليرتاح ساعةً كاملة. إنّ الخبز الطازج ألذّ من كل حلوى!"),
        ("library", "مكتبة المدينة", "في المكتبة 1200 كتاب «قديم»، وآلاف الكتب الحديثة. أُغلقت القاعة الكبرى لأسبوع، ومبنى القراءة مفتوح كل يوم."),
        ("market", "سوق الجمعة", "يبيع أحمد التمر والزيتون، أمّا ليلى فتبيع الأقمشة الملوّنة. العــربية لغة السوق، لكنّ بعض الناس يتكلمون الفرنسية."),
    ],
    "Danish": [
        ("bridge", "Broen over Øresund", "Ålen svømmer under broen, mens togene kører til Malmö. »Hvor længe varer turen?« spurgte Søren; kun 35 minutter, svarede Åse."),
        ("bread", "Rugbrød på gammeldags vis", "Bland rugmel, vand og surdej, og lad dejen hæve natten over. Brødet bages ved 180 grader — ikke for hurtigt! Ærlig talt smager det bedst dagen efter."),
        ("island", "Sommer på Ærø", "Små huse, høje stokroser og en blæsende færge: øen er dejlig i juli. Børnene løber ned til vandet, hunden bliver på græsset."),
        ("school", "Skolens første dag", "Læreren skriver sit navn på tavlen. Hvem kan læse det? Alle råber i kor, og Jørgens rygsæk vælter ned fra stolen…"),
    ],
    "Dutch": [
        ("canal", "Langs de Amsterdamse grachten", "’s Avonds spiegelen de lichtjes in het water. ‘Zullen we een ijsje kopen?’ vroeg Joëlle; de coöperatieve winkel was echter gesloten."),
        ("bicycle", "Een fiets repareren", "Zet de fiets op z'n kop en haal het wiel eruit. Controleer de binnenband: vaak zit er een doorn in. Geëmailleerde spatborden? Die roesten niet!"),
        ("cheese", "IJssalons en kaasmarkten", "In Gouda wordt op donderdag kaas verkocht, van 10 tot 13 uur. De kazen wegen zo'n twaalf kilo — dragers met strohoeden brengen ze naar de waag."),
        ("polder", "Het land onder de zee", "Zonder dijken zou bijna de helft van Nederland onder water staan. Geologen meten elk jaar de bodem; ruïnes van oude dorpen komen soms boven."),
    ],
    "Finnish": [
        ("lake", "Järven rannalla", "Yöllä oli hiljaista. Äiti sytytti saunan, isä lämmitti keittoa. ”Tuletko uimaan?” kysyi Öölantilainen vieras; vesi oli 14 asteista."),
        ("forest", "Metsän syksy", "Puolukat kypsyvät syyskuussa ja kantarellit kasvavat sammaleessa. Älä koske punaiseen kärpässieneen! Hyvällä onnella löydät suppilovahveroita."),
        ("winter", "Pitkä talvi Lapissa", "Kaamos kestää kuukausia, mutta revontulet loistavat. Åke ajoi moottorikelkalla 80 kilometriä: tie oli lumen alla."),
        ("music", "Kanteleen soittaja", "Väinö opetti lapsille vanhoja lauluja. Sävelmä – hidas ja surullinen – jäi kaikkien mieleen. Työpöydällä oli yhä nuotteja…"),
    ],
    "French": [
        ("market", "Le marché du dimanche", "L’été dernier, nous achetions des cerises à l'étal de Françoise. « Combien coûte le kilo ? » demanda un élève ; elle répondit : « 4 €, mon garçon ! »"),
        ("museum", "Un musée près de la forêt", "Où trouve-t-on des œuvres aussi belles ? Peut-être à Orléans, peut-être ailleurs. Le musée est fermé du 1er au 15 août, hélas."),
        ("kitchen", "Crêpes à la bretonne", "Mélangez la farine, les œufs et le lait ; laissez reposer la pâte. Ça sent déjà bon… Noël approche, et l'âtre réchauffe la maison. À table !"),
        ("train", "Voyage en train de nuit", "Le contrôleur vérifia les billets aujourd'hui encore. Ambiguë, l'annonce ne disait rien du retard. Arrivée prévue à 6 h 30 — ou plus tard."),
    ],
    "German": [
        ("street", "Die große Straße", "Über der Straße hängen Lichter, weil bald Weihnachten ist. „Weißt du, wo der Käse liegt?“, fragte Jörg; Änne wusste es nicht. FUẞGÄNGER warten hier nie."),
        ("bread", "Brötchen backen", "500 g Mehl, 1 Würfel Hefe und etwas Öl: mehr braucht es nicht. Den Teig zugedeckt gehen lassen – mindestens 45 Minuten! Die Brötchen-Form bleibt kühl."),
        ("forest", "Spaziergang im Wald", "Nach dem Regen riecht der Waldboden nach Pilzen. Vögel singen, Eichhörnchen springen von Ast zu Ast. Läufst du mit? Wir treffen uns um halb acht."),
        ("train", "Bahnhof und Züge", "Der ICE nach München fährt heute von Gleis 7 ab. Fahrgäste, die umsteigen müssen, hören bitte auf die Durchsagen … Die Verspätung beträgt fünf Minuten."),
    ],
    "Italian": [
        ("square", "La piazza all'alba", "Perché il bar è già aperto? «È l'ora del caffè», disse Niccolò, che abitava lì da vent'anni. Più tardi arrivò anche l’autobus delle 6:15."),
        ("kitchen", "Risotto allo zafferano", "Tostate il riso, sfumate con mezzo bicchiere di vino e aggiungete il brodo un po' alla volta. Così resta all'onda! Servitelo subito: freddo perde qualità."),
        ("sea", "Una settimana al mare", "Le onde s'infrangevano sugli scogli; i bambini costruivano castelli. Qualcuno gridò: «Attenti alle meduse!» Nessuno ci cadde, per fortuna…"),
        ("library", "La biblioteca comunale", "Possiede 30.000 volumi, alcuni rarissimi. L'edificio, restaurato nel 1998, ospita mostre e concerti. La città ne è fiera."),
    ],
    "Korean": [
        ("river", "한강의 아침", "아침 일찍 강가를 걸었다. \"오늘은 날씨가 참 좋네요!\" 하고 할머니가 말씀하셨다. 자전거를 탄 사람들이 지나갔다…"),
        ("food", "김치 만드는 법", "배추 두 포기를 소금물에 절이고, 고춧가루와 마늘을 섞는다. 냉장고에서 3일쯤 익히면 맛있다. 너무 짜면 어떻게 할까?"),
        ("computer", "새 컴퓨터 설정하기", "USB 메모리를 꽂고 Linux 설치 화면을 기다린다. 무선 네트워크(Wi-Fi) 비밀번호를 입력하세요. 업데이트는 자동으로 진행된다."),
        ("festival", "봄 축제", "벚꽃이 활짝 핀 공원에서 음악회가 열린다. 서울시는 \"모두를 위한 축제\"라고 소개했다. 입장료는 무료이다."),
    ],
    "Norwegian": [
        ("fjord", "Båttur på fjorden", "Vi rodde ut før soloppgang, og måkene fulgte etter. «Får du noen fisk?» ropte Bjørn; jeg hadde alt tatt åtte sei!"),
        ("mountain", "Over fjellet på ski", "Løypa går fra Finse til Haugastøl, omtrent 30 kilometer. Været skifter fort: ta med kart, kompass og ekstra klær. Æsj, så kaldt det ble…"),
        ("bread", "Lefser og brunost", "Kjevle deigen tynt, stek lefsene på takke og smør dem mens de er varme. Brunosten skjæres med høvel – aldri med kniv. Øystein liker dem best med sukker."),
        ("school", "Skolekorpset øver", "Hver torsdag høres trompeter og trommer fra gymsalen. Åse spiller klarinett, lillebroren hennes bærer fanen. Syttende mai nærmer seg!"),
    ],
    "Portuguese": [
        ("lisbon", "Elétricos de Lisboa", "O elétrico 28 sobe devagar até à Graça. “Não há pressa”, disse a avó, olhando pela janela. Às nove já não se encontravam lugares!"),
        ("kitchen", "Pão de queijo", "Misture o polvilho com leite quente, ovos e queijo ralado. Faça bolinhas pequenas; asse por 25 minutos. Ficam óptimas com café, não é?"),
        ("river", "As margens do rio Douro", "Vinhas em socalcos, aldeias brancas, comboios lentos: eis a região. Em setembro começa a vindima — trabalho de corações fortes. Além disso, há música."),
        ("football", "Um jogo no estádio", "O guarda-redes defendeu três penáltis; ninguém acreditava. Os adeptos cantaram até à meia-noite. Que emoção… O árbitro, porém, errou."),
    ],
    "Romanian": [
        ("mountain", "Drumeție în Munții Bucegi", "Am pornit dimineața, pe la șapte, cu rucsacuri grele. „Ține stânga!” strigă Ștefan; poteca era îngustă și alunecoasă. Țurțuri de gheață atârnau deasupra."),
        ("village", "Satul bunicilor", "În curte cresc gutui, nuci și viță-de-vie. Bunica împletește ciorapi, bunicul repară căruța. Încă mai aud clopotele bisericii…"),
        ("kitchen", "Sarmale ca acasă", "Învelește carnea în foi de varză, apoi fierbe-le la foc mic 3 ore. Mămăliga se servește fierbinte! Cât smântână pui? După gust."),
        ("sea", "Vara la mare", "Plaja din Vama Veche e plină de tineri. Înotătorii curajoși ajung până la geamandură – două sute de metri. Nisipul frige tălpile."),
    ],
    "Russian": [
        ("winter", "Зимний лес", "Ёлки стоят в снегу, и всё вокруг тихо. «Пойдём дальше?» — спросил Фёдор. Мы шли ещё два часа: тропинка исчезла под сугробами…"),
        ("tea", "Чай с вареньем", "Самовар кипит, бабушка наливает чай. Варенье — малиновое, 2024 года! Объедение, правда? Щенок ждёт под столом."),
        ("computer", "Настройка сети", "Включите роутер и откройте браузер. Введите пароль Wi-Fi; затем нажмите кнопку «Сохранить». Подключение занимает около 30 секунд."),
        ("city", "Прогулка по Петербургу", "Мосты разводят ночью, поэтому вернуться домой непросто. Экскурсовод рассказывал об архитектуре Эрмитажа. Цветы на Невском, шум, юность."),
    ],
    "Spanish": [
        ("plaza", "Una tarde en la plaza", "¿Quién toca la guitarra? «Es Íñigo», contestó la niña; todos los jueves canta coplas. ¡Qué alegría! El señor Núñez pidió otro café con leche."),
        ("kitchen", "Tortilla de patatas", "Pela seis patatas, córtalas finas y fríelas despacio. Después añade los huevos batidos… Dale la vuelta con un plato: ¡ojo, que quema!"),
        ("mountain", "El camino de Santiago", "Los peregrinos salieron de León al amanecer. Llovía, pero nadie se quejó; la vergüenza podía más que el cansancio. Faltaban 310 kilómetros."),
        ("sea", "El faro del fin del mundo", "Según el pingüino más viejo —eso cuentan—, el faro nunca se apagó. Un náufrago ártico lo vio en 1899. Así empezó la leyenda."),
    ],
    "Swedish": [
        ("island", "Skärgården i augusti", "Båten lade till vid bryggan på Möja. ”Är vattnet varmt?” undrade Åsa; Örjan skrattade bara. Kräftskivan började klockan 18."),
        ("bread", "Kanelbullar till fikat", "Värm mjölken, smula jästen och arbeta in smöret. Låt degen jäsa under en bakduk! Idén är enkel: mycket kanel – och pärlsocker på toppen."),
        ("forest", "Älgen vid vägkanten", "Plötsligt stod den där, stor och lugn. Vi bromsade in, släckte lyset och väntade. Ingen av oss hade sett en älg så nära förut…"),
        ("winter", "Luciamorgon", "Barnen tågar genom korridoren med ljus i håret. Någon tappar en pepparkaka, någon annan sjunger falskt. Kaféet på hörnet öppnar tidigt."),
    ],
    "Turkish": [
        ("bosphorus", "Boğaz'da Bir Akşam", "Vapur Üsküdar'dan kalktı, martılar peşinden uçtu. “Çay ister misin?” diye sordu İbrahim; hava ılıktı. Işıklar birer birer yandı."),
        ("kitchen", "Mercimek Çorbası", "İki bardak kırmızı mercimeği yıkayın, soğanı yağda kavurun. Üzerine nane serpin! Ekşi sevenler limon sıkar; öğle yemeği hazır."),
        ("village", "Iğdır'ın Köyleri", "Ağrı Dağı'nın eteğinde kayısı bahçeleri vardır. Yazın 35 derece olur, kışın kar yağar. ISPARTA gülü gibi, kayısı da ünlüdür."),
        ("school", "Okulun İlk Günü", "Öğretmen sınıfa girdi, çocuklar ayağa kalktı. Küçük Ömer'in çantası ağırdı… Zil çalınca hepsi bahçeye koştu: işte özgürlük!"),
    ],
}
