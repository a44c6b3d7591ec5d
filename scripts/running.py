"""Runs the program, and other commands, for the checks from outside and the benches: with a limit of processor time,
standard input, files and limits on what a run may use, and many side by side. What else the machine does takes no
processor time of a run, so no check fails by it. And counts what passed and what failed."""
import collections
import concurrent.futures
import contextlib
import difflib
import functools
import glob
import json
import os
import pathlib
import re
import resource
import shlex
import signal
import subprocess
import sys
import tempfile
import threading

TOP = os.path.dirname(os.path.dirname(os.path.realpath(__file__)))
EXAMPLES = f"{TOP}/examples"
PRICES = f"{EXAMPLES}/prices.json"
PRICE_LISTS = ["prices.json", "prices-linux.json", "prices-all.json"]
LONGEST = 60                        # seconds of processor time that a run may take
HANGING, LEAST_WAIT = 30, 1800      # it is waited for so many times as long by the clock, at least so many seconds
NO_END = 124                        # the status of a run that took longer, as of `timeout`
LONGEST_LINE = 400                  # of what a check that failed shows

# What a run prints on its outputs, as text, and its status, which is negative where a signal ended it. Bytes that
# aren't UTF-8 are kept.
Said = collections.namedtuple("Said", "out err status")


@functools.cache
def program():
    """The program's path, which scripts/program prints; it may build it first, or end this run with its status."""
    found = subprocess.run([f"{TOP}/scripts/program"], stdout=subprocess.PIPE, text=True, check=False)
    if found.returncode:
        sys.exit(found.returncode)
    return os.path.realpath(found.stdout.strip())


def ran(command, stdin=subprocess.DEVNULL, seconds=LONGEST, **options):
    """What a run of this command says. Standard input is text, bytes, a file, or empty; it may take so many seconds of
    processor time, or for None any; all else is for `subprocess.Popen`."""
    data = None
    if isinstance(stdin, (str, bytes)):
        data, stdin = encoded(stdin), subprocess.PIPE
    options = {"stdin": stdin, "stdout": subprocess.PIPE, "stderr": subprocess.PIPE, **options}
    with subprocess.Popen(command, **options) as run:
        try:
            out, err = run.communicate(data, waited_for(run.pid, seconds))
        except subprocess.TimeoutExpired as error:
            return Said("", f"no end, and it waits: {error}", NO_END)
        finally:
            run.kill()
    if run.returncode == -signal.SIGXCPU:
        return Said("", f"no end in {seconds} seconds of processor time", NO_END)
    return Said(decoded(out), decoded(err), run.returncode)


def waited_for(process, seconds):
    """Gives a process so many seconds of processor time, and says how many to wait for it by the clock."""
    if seconds is None:
        return None
    with contextlib.suppress(ProcessLookupError, PermissionError):      # it has ended, or works as another user
        resource.prlimit(process, resource.RLIMIT_CPU, (seconds, seconds + 1))
    return max(HANGING * seconds, LEAST_WAIT)


def ran_on_terminal(command):
    """What a run of this command says whose standard error is a terminal."""
    with tempfile.NamedTemporaryFile() as out:
        words = ["script", "-qec", f"exec {shlex.join(command)} </dev/null >{out.name}", os.devnull]
        said = ran(words, env={**os.environ, "SHELL": "/bin/sh"})
        return Said(text_of(out.name), said.out, said.status)


def compiled(source, folder, *words):
    """The path of a program or a library in this folder, which is made of a file of scripts/ in C."""
    path = f"{folder}/{source.rpartition('/')[2]}.made"
    subprocess.run(["cc", "-O2", *words, "-o", path, f"{TOP}/scripts/{source}", "-ldl"], check=True)
    return path


def rvfence(*words, **options):
    return ran([program(), *words], **options)


def verdict(path):
    """What `test` says of a file, in a word."""
    return [*rvfence("test", path, "-q").out.split(), "", ""][1]


def encoded(text):
    """The bytes of a text; bytes stay as they are."""
    return text if isinstance(text, bytes) else text.encode("utf-8", "surrogateescape")


def decoded(data):
    return (data or b"").decode("utf-8", "surrogateescape")


def side_by_side(function, items):
    """What the function gives of each item, in their order; it is called as many at once as there are processors. An
    interrupt leaves out those that haven't begun, as `map` does."""
    with concurrent.futures.ThreadPoolExecutor(os.cpu_count()) as pool:
        return list(pool.map(function, items))


def read(path):
    return pathlib.Path(path).read_bytes()


def text_of(path):
    return decoded(read(path))


def compact(value):
    """A value as a text of JSON without blanks."""
    return json.dumps(value, separators=(",", ":"))


def written(path, data):
    """Writes bytes or text to a file, and gives its path."""
    pathlib.Path(path).write_bytes(encoded(data))
    return path


def rows(name, group=""):
    """The lines of a table of scripts/transcripts/, or of a group of it, but for empty ones and comments."""
    text = text_of(f"{TOP}/scripts/transcripts/{name}.table")
    if group:
        text = text.partition(f"\n## {group}\n")[2].partition("\n\n")[0]
    return [line for line in text.split("\n") if line and not line.startswith("#")]


def expanded(text):
    """The text of a row: «TEXT×N» is TEXT N times, in which # and § are the number of the time, from 0, in decimal and
    hexadecimal digits; ⏎ is a line end, and ␍ a return."""
    def repeated(found):
        text, count = found[1], int(found[2])
        if "#" in text or "§" in text:
            return "".join(text.replace("#", str(at)).replace("§", f"{at:x}") for at in range(count))
        return text * count
    return re.sub("«(.*?)×([0-9]+)»", repeated, text.replace("⏎", "\n").replace("␍", "\r"), flags=re.S)


def crates():
    """The crates of crates.txt, with what its line says that each stands on."""
    lines = [line.partition("#")[0].partition(":") for line in text_of(f"{TOP}/crates.txt").splitlines()]
    return {names.split()[0]: uses.split() for names, colon, uses in lines if colon}


def here(*names):
    """The path of a file of examples/ or of scripts/transcripts/files/ that has one of these names."""
    folders = [EXAMPLES, f"{TOP}/scripts/transcripts/files"]
    return next(path for name in names for folder in folders if os.path.exists(path := f"{folder}/{name}"))


def tests_of_examples():
    """The paths of the tests below examples/, those known by name before the idioms."""
    return [path for folder in (EXAMPLES, f"{EXAMPLES}/idioms") for path in sorted(glob.glob(f"{folder}/*.litmus"))]


def stored_answers(command):
    """The transcripts of examples/answers/ of this command, by the words behind it."""
    blocks = text_of(f"{EXAMPLES}/answers/{command}.transcripts").split(f"$ rvfence {command} ")[1:]
    return {tuple(words.split()): rest for words, rest in (it.removesuffix("\n\n").split("\n", 1) for it in blocks)}


class Run:
    """A run of checks: what passed and what failed, which threads may count at once, and how many there were of each
    kind; a folder of its own, and its options. Of the checks that fail the first are shown."""

    def __init__(self, folder=None, options=None, most_shown=40):
        self.lock, self.folder, self.options, self.most_shown = threading.Lock(), folder, options, most_shown
        self.passed, self.failed, self.kinds = 0, 0, collections.Counter()

    def numbers(self):
        """The numbers of the made tests that are asked for: so many, from the first on."""
        return range(self.options.first, self.options.first + self.options.count)

    def file(self, name, data):
        """The path of a file in its folder, which gets these bytes or this text."""
        return written(f"{self.folder}/{name}", data)

    def check(self, name, is_right, found=""):
        """Counts a check; where it isn't right, `found` says why not."""
        with self.lock:
            self.passed += bool(is_right)
            self.failed += not is_right
            if not is_right and self.failed <= self.most_shown:
                print(f"FAILED {name}{': ' if found else ''}{found}", flush=True)
        return bool(is_right)

    def expect(self, name, wanted, found):
        """Counts a check that passes where the two are the same."""
        return self.check(name, wanted == found, "" if wanted == found else difference(wanted, found))

    def end(self):
        """Prints the last line, and gives the exit status: 0 only where there was a check, and all passed."""
        print(f"{self.passed} passed, {self.failed} failed", flush=True)
        return 0 if self.passed and not self.failed else 1


def difference(wanted, found):
    """What is wanted and what was found: of texts of several lines, those that differ."""
    if not (isinstance(wanted, str) and isinstance(found, str) and "\n" in wanted + found):
        wanted, found = (it if len(it) < LONGEST_LINE else f"{it[:LONGEST_LINE // 2]} .. {it[-LONGEST_LINE // 4:]}"
                         for it in map(repr, [wanted, found]))
        return f"{found}, and {wanted} is wanted"
    lines = difflib.ndiff(wanted.splitlines(), found.splitlines())
    changed = [f"    {line[:LONGEST_LINE]}" for line in lines if line[0] in "-+"]
    return "\n".join(["- is wanted, + was found", *changed[:40]])


def usage(text):
    """Ends the run, which was called with other words than it takes."""
    print(f"usage: {text}", file=sys.stderr)
    sys.exit(2)


def kept(made, bare=str, look=lambda counts: None):
    """The end of a script that makes files of the repository: `made` gives their texts by path. It writes them, or with
    `--check` says whether they are so, but for what `bare` leaves out, and looks at more."""
    if not sys.argv[1:]:
        for path, text in made().items():
            written(path, text)
        return 0
    if sys.argv[1:] != ["--check"]:
        usage(sys.modules["__main__"].__doc__)
    counts = Run()
    for path, text in made().items():
        counts.expect(f"{path}, as {sys.argv[0]} makes it", bare(text), bare(text_of(path)))
    look(counts)
    return counts.end()
