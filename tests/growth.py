"""How much longer a program takes for an input twice as long.

The seconds of the processor come first. Where the longer input takes too many times as long, other programs that ran at the
same time may be why: then valgrind counts the instructions of a run of each, and these decide. If a run is too long to be
counted, or valgrind is not there, the seconds decide.
"""
import glob
import math
import shutil
import tempfile

from bench.measure import measured
from tools.repository import read

TIMES = 2.6  # times as long, at most
LEAST = 0.05  # seconds of the longer run, below which a time says nothing
LONGEST = 15  # seconds of a run, after which no other one is made, and nothing is counted
COUNTING = ["valgrind", "--quiet", "--tool=cachegrind", "--cache-sim=no", "--trace-children=yes"]


class Runs:
    """Runs of a command on a file, and the least seconds of the processor of one."""

    def __init__(self, command, given, printed):
        self.command, self.given, self.printed = command, given, printed
        self.seconds, self.megabytes = math.inf, 0

    def begin(self):
        """What is done before each run."""

    def wrong(self, status):
        """What is wrong with the last run, which ended with this status."""
        raise NotImplementedError

    def run(self):
        """Runs the command once, and says what is wrong with its answer."""
        self.begin()
        ended = measured(self.command, self.given, self.printed)
        self.seconds, self.megabytes = min(self.seconds, ended.processor), ended.megabytes
        return self.wrong(ended.status)

    def instructions(self):
        """The instructions of one run, those of the programs that it starts among them; 0 if they could not be counted."""
        self.begin()
        with tempfile.TemporaryDirectory() as counts:  # a file for each process
            ended = measured([*COUNTING, f"--cachegrind-out-file={counts}/%p", *self.command], self.given, self.printed)
            texts = [read(path).rsplit("summary:", 1) for path in glob.glob(f"{counts}/*")]
            is_counted = isinstance(ended.status, int) and ended.status >= 0 and all(len(it) == 2 for it in texts)
            return sum(int(count.split()[0]) for _, count in texts) if is_counted else 0


def growth(short, long, count, most=TIMES):
    """Runs both so often. Gives what is wrong with an answer, how many times as long the longer one took, and what that was
    read off."""
    for _ in range(count):
        wrong = short.run() or long.run()
        if wrong or long.seconds >= LONGEST:
            break
    times = long.seconds / max(short.seconds, 0.001)
    of_what = f"{short.seconds:.2f} and {long.seconds:.2f} s"
    if not wrong and times > most and long.seconds < LONGEST and shutil.which(COUNTING[0]):
        fewer, more = short.instructions(), long.instructions()
        if fewer and more:
            times, of_what = more / fewer, f"{of_what}, {fewer / 1e6:.0f} and {more / 1e6:.0f} million instructions"
    if not wrong and long.seconds < LEAST:
        wrong = "no time"
    return wrong, times, of_what


def check_growth(said, grown, more, results, most=TIMES):
    """Notes whether the answers are right, and the longer run didn't take too long. What passes is printed."""
    wrong, times, of_what = grown
    line = f"{said}: {of_what}, {times:.1f} times{more}"
    is_good = not wrong and times <= most
    results.note(is_good, f"{line}: {wrong or f'{most} times are the most'}")
    if is_good:
        print(line, flush=True)
