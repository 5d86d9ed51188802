#!/usr/bin/env python3
"""Makes the calls of each row, counts the requests for memory of each call, and refuses these requests one after another.

usage: refuse_calls.py [-v] [WORD ..]

The built test of `elasticlunr_tests` makes the calls that its input lists. It writes a call right before it makes it
and ` -> ` right after, so the requests of the call alone are counted (count_requests.c). A row passes if

- each call answers what the table says;
- a call that promises not to allocate makes no request between its beginning and its end;
- each other call, with its first, second and each later request refused, answers that it is out of memory, and then the
  state before the call is the state after it. After `add_tokens` the first of its tokens may have their postings. After
  `add_doc` of an index, with tokens or without, each call but `get_fields` answers that the index has failed. The calls of
  GOES_ON may give their whole answer as well, and then what follows is as if nothing had been refused.

And each call that may run out of memory did so at least once, and so did each that may go on. call_rows.py says what each
call promises. With -v each call has a line.

Known tokens are given to a trie eight times in each call, which must take no more memory than to give them once: a token has
one slot. This case is called `slots`. And `to_json` has room for its whole text from the start, so it makes as many requests
for an index with a long stored text as for one with a short text. This case is called `room`.

With words, only the rows and the cases run that have one of them in their names.
"""
import json
import os
import sys
from typing import NamedTuple

sys.path.insert(0, os.path.join(os.path.dirname(__file__), ".."))

from tests import call_rows
from tests.call_rows import FAILED, fields_of, name_of, promise, rows_of, table
from tests.memory_shim import Shim
from tests.report import Results
from tools import repository

PROGRAM = repository.program("elasticlunr_tests", "elasticlunr_tests_tests")
TEST = "table::calls"
PASSED = b"\n\ntest result: ok\n"  # what a test prints at its end

# Calls of an index that has failed.
ON_FAILED = [["add_doc", "1", "fox"], ["add_doc", "1", *["fox"] * 9], ["remove_doc", "1"], ["compact"], ["to_value"],
             ["to_json"], ["to_json_pretty"], ["document_store"], ["inverted_index", "body"]]

KNOWN = 200  # known tokens, more than the first two tables of slots take
FIRST_TABLE = 64 * 32  # bytes
SHORT, LONG = 100, 50_000  # characters of a stored text


class Requests(NamedTuple):
    """Those of a call."""

    before: int  # the number of the last one before the call
    last: int
    bytes: int

    def count(self):
        return self.last - self.before


class Program(Shim):
    """Runs the program, and counts the requests of each call."""

    source = "count_requests.c"

    def run(self, subject, listed, refused=0):
        """The row of these calls, and the requests of each call; or why there is none."""
        given = "\n".join([subject, *listed, "", ""])
        ended = repository.run([PROGRAM, TEST], given.encode(), env=self.environment(refused))
        if ended.status != 0:
            return f"status {ended.status}", []
        made = rows_of(ended.out.removesuffix(PASSED).decode(errors="replace"))
        counts = [Requests(*map(int, line.split())) for line in repository.lines_of(self.counts)]
        os.remove(self.counts)
        if len(made) != 1 or made[0].calls != listed or len(counts) != len(listed):
            return "printed another row", []
        return made[0], counts


def after(row, number):
    """The calls that show the state after this one, and their answers if memory was refused. None for those of before."""
    call = name_of(row.calls[number])
    _, state = call_rows.SUBJECTS.get(row.kind().split(" ")[0], (None, None))
    if row.kind().startswith("Index") and call not in call_rows.INDEX:
        return [], []
    if row.kind().startswith("Index") and call in ("add_doc", "add_doc_with_tokens"):
        fields = ["get_fields", *fields_of(row, number)]
        shown = [json.dumps(made, ensure_ascii=False) for made in [fields, *ON_FAILED]]
        return shown, ["true", *[FAILED] * len(ON_FAILED)]
    state = call_rows.STATES.get(call, state)
    return ([state], None) if state else ([], [])


def partly_added(program, row, number):
    """The states after the first token of `add_tokens`, after the first two, and so on, without the last."""
    _, reference, *tokens, frequency = json.loads(row.calls[number])
    added = [json.dumps(["add_token", reference, token, frequency], ensure_ascii=False) for token in tokens]
    for count in range(1, len(tokens)):
        found, _ = program.run(row.subject, [*row.calls[:number], *added[:count], '["to_value"]'])
        yield found if isinstance(found, str) else found.answers[-1]


class Refused(NamedTuple):
    """What came of a call whose requests were refused in turn."""

    wrong: str = ""  # why it fails
    ended: int = 0  # how often it was out of memory
    went_on: int = 0  # how often it went on without the request


def refuse(program, row, number, wanted, may_go_on):
    """Refuses each request of a call of a row in turn. Out of memory, it must answer `wanted`."""
    shown, answers = after(row, number)
    before = shown if answers is None else []
    listed = [*row.calls[:number], *before, row.calls[number], *shown]
    at = number + len(before)
    whole, counts = program.run(row.subject, listed)
    if isinstance(whole, str):
        return Refused(whole)
    if whole.answers[at] != row.answers[number]:
        return Refused(f"answered {whole.answers[at]}")
    expected = [*whole.answers[:at], wanted, *(whole.answers[number:at] if answers is None else answers)]
    accepted = [expected]
    if name_of(row.calls[number]) == "add_tokens":
        accepted += [[*expected[:-1], state] for state in partly_added(program, row, number)]
    ended = went_on = 0
    for request in range(1, counts[at].count() + 1):
        found, _ = program.run(row.subject, listed, counts[at].before + request)
        if isinstance(found, str):
            return Refused(f"request {request}: {found}")
        if found.answers in accepted:
            ended += 1
        elif may_go_on and found.answers == whole.answers:
            went_on += 1
        else:
            wrong = next(place for place, pair in enumerate(zip(found.answers, expected)) if pair[0] != pair[1])
            return Refused(f"request {request}: {found.calls[wrong]} -> {found.answers[wrong][:200]}")
    return Refused("", ended, went_on)


def check(program, row, ended, went_on, done):
    """Each wrong call of a row, and why. `done` has the calls, with those before them, that were refused already."""
    found, counts = program.run(row.subject, row.calls)
    if isinstance(found, str):
        return [found]
    wrong = []
    for number, (call, answer) in enumerate(zip(row.calls, row.answers)):
        if found.answers[number] != answer:
            wrong.append(f"{call} -> {found.answers[number][:200]}")
            continue
        if name_of(call) in call_rows.PREPARING:
            continue
        name, wanted = promise(row, number)
        own = counts[number].count()
        ended.setdefault(name, 0 if wanted else None)
        if wanted is None and own:
            wrong.append(f"{call} requested memory {own} times, and promises not to allocate")
        elif wanted and own and (row.kind(), *row.calls[: number + 1]) not in done:
            done.add((row.kind(), *row.calls[: number + 1]))
            may_go_on = call_rows.goes_on(row, number)
            refused = refuse(program, row, number, wanted, may_go_on)
            ended[name] += refused.ended
            if may_go_on:
                went_on[may_go_on] += refused.went_on
            if refused.wrong:
                wrong.append(f"{call}: {refused.wrong}")
    return wrong


def check_rows(program, words, results):
    rows = table()
    ended, went_on, done = {}, dict.fromkeys(call_rows.GOES_ON, 0), set()
    calls = sum(len(row.calls) for row in rows)
    if (len(rows), calls) != (call_rows.ROWS, call_rows.CALLS):
        results.note(False, f"calls: the table has {len(rows)} rows with {calls} calls")
    for row in (row for row in rows if is_asked(row.subject, words)):
        wrong = check(program, row, ended, went_on, done)
        results.note(not wrong, f"calls: {row.subject}: {'; '.join(wrong)}")
    if not words:
        for name in (name for name, count in ended.items() if count == 0):
            results.note(False, f"calls: {name}: it was never out of memory")
        for name in (name for name, count in went_on.items() if count == 0):
            results.note(False, f"calls: {name}: it never went on without a request that was refused")
    if "-v" in sys.argv:
        for name, count in sorted(ended.items()):
            print(f"calls: {name}: {'does not allocate' if count is None else f'{count} times out of memory'}")
        for name, count in sorted(went_on.items()):
            print(f"calls: {name}: went on {count} times")
    none = sum(count is None for count in ended.values())
    print(f"calls: {sum(filter(None, ended.values()))} answers of being out of memory; {none} kinds of calls do not allocate; "
          f"{sum(went_on.values())} went on")


def given_again(program, times):
    """The calls that give known tokens so often, and the requests of each; or why there are none. Each token comes in two
    calls: in the first it is known, and in the second it may be remembered."""
    tokens = [f"t{number}" for number in range(KNOWN)]
    known = [json.dumps(["add_token", "1", token, 1]) for token in tokens]
    again = 2 * [json.dumps(["add_tokens", "1", *[token] * times, 1]) for token in tokens]
    found, counts = program.run(f"InvertedIndex: known tokens, {times} in a call", [*known, *again])
    if isinstance(found, str):
        return found, []
    wrong = next((call for call, answer in zip(found.calls, found.answers) if answer != "done"), None)
    return (f"{wrong} isn't done", []) if wrong else (again, counts[len(known):])


def why_more_slots(program):
    """Why a known token that is given eight times in each call has more slots than one that is given once, or None."""
    calls, once = given_again(program, 1)
    eight_calls, eight = given_again(program, 8)
    if not (once and eight):
        return eight_calls if once else calls
    tables = sum(requests.bytes >= FIRST_TABLE for requests in once)
    if tables < 2:
        return f"{tables} tables of slots were requested for {KNOWN} tokens, and 2 are the least"
    for call, less, more in zip(eight_calls, once, eight):
        if more.bytes > less.bytes:
            return f"{call} requested {more.bytes} bytes, and {less.bytes} where the token is given once"
    return None


def requests_of_text(program, size):
    """How many requests `to_json` makes for an index with a stored text of this size; or why there is no number."""
    calls = [json.dumps(call) for call in (["Index::new", "body"], ["add_doc", "1", " " * size], ["to_json"])]
    found, counts = program.run(f"Index: a text of {size} characters", calls)
    if isinstance(found, str):
        return found
    wrong = next((call for call, answer in zip(found.calls[:-1], found.answers) if answer != "done"), None)
    return f"{wrong[:40]} isn't done" if wrong else counts[-1].count()


def why_more_requests(program):
    """Why `to_json` makes more requests for a long text than for a short one, or None."""
    short, long = requests_of_text(program, SHORT), requests_of_text(program, LONG)
    if isinstance(short, str) or isinstance(long, str):
        return short if isinstance(short, str) else long
    if not 0 < long <= short:
        return f"{long} requests for a text of {LONG} characters, and {short} for one of {SHORT}"
    return None


def is_asked(name, words):
    return not words or any(word in name for word in words)


def main():
    words = [word for word in sys.argv[1:] if word != "-v"]
    results = Results("calls")
    with Program() as program:
        for name, why in [("slots", why_more_slots), ("room", why_more_requests)]:
            if is_asked(name, words):
                wrong = why(program)
                results.note(wrong is None, f"calls: {name}: {wrong}")
        check_rows(program, words, results)
    return results.report()


if __name__ == "__main__":
    sys.exit(main())
