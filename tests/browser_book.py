"""A book of some hundred sections, made of the words below and the same each time: the number, title and text of each."""
import random

THINGS = """anchor apple arch axe bakery barn basket beach bell bench bicycle blanket boat bottle bowl branch bread bridge brush
bucket button cabin cable camera candle canvas carpet castle ceiling cellar chain chair chalk cheese chimney church circle clock
cloud coast compass copper corner cottage cradle creek crown curtain desert drawer drum engine envelope farm feather fence field
flag flute forest fountain garden gate glacier glass glove grain gravel hammer harbour harvest hedge helmet hill honey hook horse
island jacket journey kettle kitchen knife ladder lake lantern leather lemon letter library lighthouse linen lock map market marsh
meadow mirror mountain museum needle nest notebook oak oar orchard oven paint path pebble pencil pepper pigeon pillow planet plough
pocket pond post pottery pumpkin quarry quilt railway rain ribbon river roof rope rudder saddle sail salt sand saw scarf season
shadow sheep shelf shell ship shovel silk silver sketch sledge smoke snow soap spade spoon spring square stable stair statue steam
stone storm stove straw summit table tailor tea tent thread thunder tide timber tool tower trail tunnel valley village violin wagon
wall water wheel willow window winter wood wool workshop""".split()
DOINGS = """building carving choosing cleaning drawing dyeing finding fixing folding gathering guarding hanging keeping lifting
loading making measuring mending moving painting planting polishing reading saving selling shaping sharpening storing trading
watching weaving""".split()
KINDS = """ancient blue broken careful clever cold distant dusty early empty fragile gentle golden green heavy hidden hollow humble
large lonely narrow noisy northern patient plain quiet rough round rusty simple small steep strong sudden tall thin warm wild
wooden young""".split()
FRAMES = ["the {k} {t} stands near the {u}", "nobody who was {d} a {t} forgot the {u}", "{d} needs a {k} {t} and some patience",
          "a {t} without a {u} is only half of a {k} {v}", "they carried the {t} past the {u} towards the {v}",
          "some speak of {d} the {t}, others of a {k} {u}", "the {u}, too, was {k}; the {t} wasn't", "why is {d} a {v} so {k}?"]


def title(rng):
    thing, other = rng.sample(THINGS, 2)
    kind, doing = rng.choice(KINDS), rng.choice(DOINGS)
    return rng.choice([f"{doing} the {kind} {thing}", f"the {thing} and the {other}", f"{doing} a {thing} by the {other}",
                          f"on {kind} {thing}s", f"a {kind} {thing} for each {other}"]).capitalize()


def text(rng, own):
    sentences = []
    for _ in range(rng.randint(4, 14)):
        thing, other, third = rng.sample(THINGS, 3)
        frame = rng.choice(FRAMES)
        sentence = frame.format(t=thing, u=other, v=third, k=rng.choice(KINDS), d=rng.choice(DOINGS))
        sentences.append(sentence[0].upper() + sentence[1:] + ("" if sentence.endswith("?") else "."))
    sentences.insert(rng.randint(0, len(sentences)), f"This section is about {own.lower()}.")
    return " ".join(sentences)


def book(sections=320):
    rng, made, titles = random.Random(20261122), [], set()
    while len(made) < sections:
        own = title(rng)
        if own not in titles:
            titles.add(own)
            made.append((str(len(made)), own, text(rng, own)))
    return made
