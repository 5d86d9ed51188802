"""The index of a job whose pipeline ends in the stemmer of its language, by the models and by the command."""
import functools
import json

from tests import model, stems
from tests.browser_sentences import PAGES
from tests.model_tokens import OTHERS, language_of, stages
from tests.stems_model import Stemmer
from tools.repository import program, run

CODES = {name.capitalize(): code for code, name in stems.NAMES.items() if name.capitalize() in PAGES}
IN_SCRIPTS = {**CODES, **{name: language.code for name, language in OTHERS.items()}}  # languages with a stemmer in the scripts


@functools.lru_cache(None)
def stemmer(code):
    return Stemmer(stems.table(code, "current"))


def value_of(job):
    """The value of the index."""
    code = IN_SCRIPTS[job.lang]
    commands = []
    for command in model.commands_of(job):
        tokens = {field: [stem for stem in map(stemmer(code).stem, found) if stem] for field, found in command.tokens.items()}
        commands.append(command._replace(tokens=tokens))
    return model.value(job, commands, [*stages(language_of(job.lang)), f"stemmer-{code}"])


def job_of(language, docs):
    return model.Job(["title", "body"], [list(doc) for doc in docs], lang=language)


def index_of(language, docs):
    """A job, and the text of its index."""
    job = job_of(language, docs)
    return {"fields": job.fields, "docs": job.docs}, json.dumps(value_of(job), ensure_ascii=False)


def built(language, docs):
    """The text of its index, as `elasticlunr build --stems` prints it."""
    job = job_of(language, docs)
    whole = {"fields": job.fields, "docs": job.docs, "lang": job.lang}
    ended = run([program("elasticlunr_cli"), "build", "--stems"], json.dumps(whole).encode())
    if ended.status != 0:
        raise ValueError(f"elasticlunr build --stems prints no index: status {ended.status}, {ended.err[:200]!r}")
    return ended.out.decode()
