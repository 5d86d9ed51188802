"""Documents in the flat form whose index is cut into pieces: made ones, refused ones and damaged ones."""
import random

from tests import flat_inputs, flat_model
from tests.flat_inputs import changed
from tests.flat_model import Cutting, Document, Input, Value, flat_cutting
from tests.tables import Row

SEED = 11
SIZES = [0, 1, 31, 64, 200, 1_000, 8_192, (1 << 32) - 1]  # bytes of a piece
TITLES = ["title", "body", "id", "", "none", "\u00dc"]  # the field of the titles


def made_cuttings():
    rng = random.Random(SEED)
    for it in (*flat_inputs.random_inputs(), *flat_inputs.chosen_inputs(), *flat_inputs.refused_inputs()):
        yield Cutting(rng.choice([*TITLES, *it.fields]), rng.choice(SIZES), it)


def short_cuttings():
    """Inputs whose bytes are damaged."""
    page = Document("1", (Value("go on"), Value("the fox")))
    yield Cutting("title", 40, Input(("title", "body"), (page, Document("2", (Value("\u00e9"),)))))
    yield Cutting("", 0, Input((), ()))
    yield Cutting("\u00e9", 300, Input(("\u00e9",), (page,), save=False))


def answered(given):
    return Row(given, *flat_model.pieces_answer(given))


def rows_of_made():
    """Made inputs with the answers of the model."""
    return [answered(flat_cutting(it)) for it in made_cuttings()]


def rows_of_damaged():
    """Damaged inputs with the answers of the model."""
    return [answered(it) for it in sorted({damaged for it in short_cuttings() for damaged in changed(flat_cutting(it))})]


def wrongly_decoded():
    """The inputs that the decoder doesn't read back."""
    return [it for it in (*made_cuttings(), *short_cuttings()) if flat_model.Decoder(flat_cutting(it)).cutting() != it]
