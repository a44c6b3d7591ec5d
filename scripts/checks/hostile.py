"""Feeds the built program hostile tests, prices, witnesses, logs and certificates, each with its answer: the line of
its fault, or READ, or what the command says. The answers are those of docs/FORMAT.md, none the program's: they are
derived where the file is made, or by a second reader of the formats. Files that a line describes are in
scripts/transcripts/hostile.table.

Each run must end by itself with the answer that is wanted, and print what the patterns of the table say: an answer, or
the one line of a fault and its messages where some are due (docs/FORMAT.md, section 14); within 2 seconds of processor
time, 400 MB (which are ample, so status 3 is no answer) and a stack of 8 MiB. `check` says of a certificate what
scripts/check_certificate.py says.

With `--huge` it feeds `check` certificates of 100 MB, one after the other, and nothing else: these may take 60
seconds and 8 GB, and what each takes is printed."""
import collections
import itertools
import json
import os
import random
import re
import resource
import signal
import tempfile
from concurrent.futures import ProcessPoolExecutor

from check_certificate import Judge, prices_of
from checks.compare_check import FAULT, stored
from running import EXAMPLES, PRICES, TOP, compact, expanded, program, ran, read, rows
from solve_reference import READ, fault_of, read_witness

TOKENS_CHANGED, TESTS_COMPOSED = 3000, 6000
# The greatest size of a file that is read, and that of huge certificates.
MEBIBYTE, HUGE = 1024 * 1024, 100_000_000
UTF8 = "fault F1 BadUtf8"
TITLE = "fault F2 NotRiscv"
SYNTAX = "fault F3 Syntax line %d"
WITNESS = "fault F17 BadWitness"
WHOLES = {name: read(f"{EXAMPLES}/{name}") for name in sorted(os.listdir(EXAMPLES)) if name.endswith(".litmus")}


def cut(text):
    """The fault of a test that ends too soon, in its last line. A line end at the end of the text begins none."""
    return SYNTAX % (text.count(b"\n") + (not text.endswith(b"\n")))


def patterns(group, parts=()):
    """The patterns of a group of the table, by what stands before them, with the parts in place of their names."""
    found = dict(row.split(" | ", 1) for row in rows("hostile", group))
    for key, name in itertools.product(found, parts):
        found[key] = found[key].replace(name, parts[name])
    return found


# What a text of the table stands for: by a form of the table, in place of its @, or as it is made here.
FORMS = patterns("parts")
PARTS = {"latin": lambda text: text.encode("latin-1"), "words": lambda text: text.split(" ¦ "),
         "noise": lambda seed: random.Random(int(seed)).randbytes(MEBIBYTE)}


def part(name, text):
    return PARTS[name](text) if name in PARTS else expanded(FORMS[name]).replace("@", text).encode()


def of_table(group):
    for line in rows("hostile", group):
        wanted, form, name, text = line.split(" | ", 3)
        yield name, part(form, expanded(text)), {"READ": READ, "LOGGED": ANSWERS["LOGGED"]}.get(wanted, wanted)


def words(group):
    return [expanded(word) for line in rows("hostile", group) for word in line.split(" ¦ ")]


def rewritten(group, text):
    """The text with a part of it replaced, by each line of a group of the table."""
    for line in rows("hostile", group):
        wanted, name, old, new = re.fullmatch(r"(?:(.*?) \| )?([^|]*) \| (.*) → (.*)", line).groups()
        if text.count(old) != 1:
            raise ValueError(f"{old} stands {text.count(old)} times in {text}")
        yield name, text.replace(old, expanded(new)).encode(), (wanted or "").replace(" / ", "\n")


def sign_of(escaped):
    return escaped.encode().decode("unicode_escape").encode("latin-1")


def flooded(group, size=MEBIBYTE - 100):
    """A flood of each sign in each place that a group of the table has for it."""
    first, *places = rows("hostile", group)
    wanted, signs = first.split(" | ")
    for sign, (place, text) in itertools.product(map(sign_of, signs.split(" ")), [it.split(" | ") for it in places]):
        yield f"{sign!r} {place}", text.encode().replace(b"@", sign * (size // len(sign))), wanted


def answered(answer, *files):
    """Each of these files, by its name, with what the function answers."""
    for name, text in itertools.chain(*files):
        yield name, text, answer(text)


def beginnings_of(what, whole):
    return ((f"the first {count} bytes of {what}", whole[:count]) for count in range(len(whole)))


def bytes_replaced(what, whole, bytes_for):
    for at, byte in itertools.product(range(len(whole)), bytes_for):
        yield f"{what} with byte {at} {byte:#04x}", whole[:at] + bytes([byte]) + whole[at + 1:]


def without_documentation(whole):
    """The first line, and the lines from the init block on."""
    title, below = whole.split(b"\n", 1)
    return title + below[below.index(b"\n{"):]


def beginnings():
    """Every beginning of every example. The first line is no title up to its name, which begins at the seventh byte.
    From there on the text ends too soon, at its last line: each line begins what the whole test goes on with, and a
    sign (`/\\`) is cut in two at the end alone. Behind the `)` of the condition comes the line end."""
    for name, whole in WHOLES.items():
        def answer(text, size=len(whole)):
            return TITLE if len(text) <= 6 else cut(text) if len(text) < size - 1 else READ
        yield from answered(answer, beginnings_of(name, whole), [(f"all bytes of {name}", whole)])


TELLING = b"()[]{};|,:=~-/\\*&._#\"'+<>@!% \t\n\r\0" + b"09xaPw\x7f\x80\xff"


def bytes_changed():
    """MP with each byte replaced by each telling one. A byte of 128 or more beside ASCII alone is no UTF-8."""
    whole = without_documentation(WHOLES["MP.litmus"])
    return answered(lambda text: fault_of(text) if text.isascii() else UTF8, bytes_replaced("MP", whole, TELLING))


WORDS, VALUES = words("words"), words("values")


def tokens_changed():
    """The examples with up to three of their tokens changed, the same ones each time: left out, put in, doubled,
    replaced, or swapped with another."""
    chance = random.Random(1)
    wholes = [(name, without_documentation(whole).decode("ascii")) for name, whole in WHOLES.items()]
    for number in range(TOKENS_CHANGED):
        name, whole = wholes[number % len(wholes)]
        parts = re.findall(r"[A-Za-z0-9_.+]+|/\\|\\/|.|\n", whole)
        for _ in range(1 + number // len(wholes) % 3):
            at, word, way = chance.randrange(len(parts)), chance.choice(WORDS), chance.randrange(5)
            if way < 4:
                parts[at:at + 1] = ([], [word, " ", parts[at]], [parts[at], " ", parts[at]], [word])[way]
            else:
                other = chance.randrange(len(parts))
                parts[at], parts[other] = parts[other], parts[at]
        text = "".join(parts).encode("ascii")
        yield f"change {number} of {name} to {text!r}", text, fault_of(text)


ENTRIES, CELLS, ATOMS = [(words(name), words(f"odd {name}")) for name in ("entries", "cells", "atoms")]
CONNECTIVES = ["/\\", "\\/", "=>"]


def picked(chance, parts, oddness):
    """One of the plain parts, or with this chance one of the odd ones."""
    return chance.choice(parts[chance.random() < oddness])


def condition_of(chance, oddness, height):
    """A condition that is a tree of at most this height, as text."""
    way = chance.randrange(6) if height else 0
    if way < 2:
        return picked(chance, ATOMS, oddness)
    first = condition_of(chance, oddness, height - 1)
    if way < 4:
        second = condition_of(chance, oddness, height - 1)
        return f" {chance.choice(CONNECTIVES)} ".join([first, second])
    return chance.choice(["~{}", "not {}", "({})", "~({})", "( {} ) (* c *)"]).format(first)


def tests_composed():
    """Tests made of parts, some of them odd. Now and then a limit is passed."""
    chance = random.Random(2)
    for number in range(TESTS_COMPOSED):
        oddness, harts = chance.choice((0, 0.03, 0.1)), chance.choice((1, 1, 2, 2, 3, 8, 9))
        many = chance.random() < 0.1
        entries = [picked(chance, ENTRIES, oddness) for _ in range(chance.randrange(4))]
        lines = ["RISCV T", "{", *[f"{entry};" for entry in dict.fromkeys(entries)], "}"]
        lines.append(" | ".join(f"P{hart}" for hart in range(harts)) + " ;")
        cells = CELLS[0][:4 if many else chance.choice((4, 12, 99))], CELLS[1]
        for _ in range(chance.randrange(20, 48) if many else chance.randrange(6)):
            lines.append(" | ".join(picked(chance, cells, oddness / harts) for _ in range(harts)) + " ;")
        lines.append("| ".join(["Z: "] * harts) + ";")
        lines += chance.choice(([], [], ["locations [x; 0:x5 ~(]"]))
        joined = chance.choice(([],) * 10 + (["x=0"] * chance.randrange(63, 67), [f"n{name}=0" for name in range(8)]))
        condition = chance.choice((" /\\ ", " \\/ ")).join(joined + [condition_of(chance, oddness, 4)])
        end = chance.choice(("", "", "", ";", " ;"))
        lines.append(f"{chance.choice(('exists', '~exists', '~ exists', 'forall'))} {condition}{end}")
        text = (chance.choice(("\n", "\n", "\r\n", "\n\n")).join(lines) + "\n").encode("ascii")
        yield f"composed test {number}, {text!r}", text, fault_of(text)


PLACES = {name: (before.encode(), after.encode()) for name, before, after
          in (expanded(row).split(" | ") for row in rows("hostile", "places"))}


def floods():
    """A mebibyte of each sign of the table: bare; after a good beginning; and between that and a good end."""
    for line in rows("hostile", "floods"):
        escaped, *answers = map(str.strip, line.split(" | "))
        sign = sign_of(escaped)
        is_utf8 = sign != b"\xff"
        yield f"{sign!r} alone", sign * (MEBIBYTE // len(sign)), TITLE if is_utf8 else UTF8
        for (place, (before, after)), answer in zip(PLACES.items(), answers):
            text = before + sign * ((MEBIBYTE - len(before)) // len(sign))
            # No flood ends the test, so the text ends too soon, unless a sign breaks the form before; all but the line
            # ends stand in one line.
            yield f"{sign!r} {place}, cut", text, cut(text) if is_utf8 else UTF8
            text = before + sign * ((MEBIBYTE - len(before) - len(after)) // len(sign)) + after
            line = before.count(b"\n") + 1              # in which the flood begins
            known = {"READ": READ, "UTF8": UTF8, "instr": f"fault F4 UnknownInstr line {line}", "end": cut(text)}
            yield f"{sign!r} {place}", text, known.get(answer) or SYNTAX % (line + int(answer))


def noise(wanted=UTF8, what=""):
    """A mebibyte of bytes by chance, bare and behind a good beginning. Somewhere among them UTF-8 is broken."""
    chance = random.Random(3)
    for number in range(4):
        bytes_by_chance = chance.randbytes(MEBIBYTE)
        yield f"noise {number}{what}", bytes_by_chance, wanted
        for place, (before, _) in PLACES.items():
            yield f"noise {number} {place}{what}", (before + bytes_by_chance)[:MEBIBYTE], wanted


def samples():
    """Tests for the commands that read them as `place` does: some of each kind."""
    beginning = (case for case in beginnings() if case[0].endswith(" of MP.litmus"))
    some = (itertools.islice(cases, 0, None, 7) for cases in (bytes_changed(), tokens_changed()))
    return itertools.chain(beginning, *some, floods(), noise(), of_table("sizes"))


def prices():
    """Prices for MP. What is no JSON, or no object of prices, is bad; blanks around are nothing."""
    yield from flooded("flooded prices")
    yield from of_table("prices")
    every = ",".join(f'"P{hart}:{at}":{at}' for hart in range(256) for at in range(256))
    yield "a weight for every slot", b'{"rw,rw":1,"weights":{' + every.encode("ascii") + b"}}", READ


def prices_changed():
    """A price list with each byte replaced by each telling one, and with each of its values replaced by others."""
    value = {"w,w": 2, "tso": 1000000, "rw,rw": 10, "weights": {"P0:3": 3, "P255:255": 1000}}
    lists = bytes_replaced("prices", compact(value).encode(), TELLING), values_changed("prices", value)
    return answered(lambda text: fault_of(text, prices_of), *lists)


def values_changed(what, whole):
    """A value of JSON as text with each of its parts replaced by each of VALUES, and each entry of a list or an
    object left out or put in twice, an object's under another key."""
    for place, changed in parts_changed(whole):
        text = compact(changed)
        for value in VALUES if '"@"' in text else ():
            yield f"{what} with {value[:30]} for {place}", text.replace('"@"', value).encode()
        if '"@"' not in text:
            yield f"{what} with {place}", text.encode()


def parts_changed(value, place="all"):
    """By a name each, the value with "@" in place of itself or one of its parts, or with an entry less or more."""
    yield place, "@"
    if isinstance(value, dict):
        for key in value:
            for name, part in parts_changed(value[key], f"{place} {key}"):
                yield name, {**value, key: part}
            yield f"no {place} {key}", {other: part for other, part in value.items() if other != key}
            yield f"another {place} {key}", {**value, f"{key}x": value[key]}
    for at in range(len(value)) if isinstance(value, list) else ():
        for name, part in parts_changed(value[at], f"{place} {at}"):
            yield name, [*value[:at], part, *value[at + 1:]]
        yield f"no {place} {at}", value[:at] + value[at + 1:]
        yield f"{place} {at} twice", value[:at + 1] + value[at:]


def changed(what, whole, bytes_for, answer):
    """Each beginning of a text of JSON, and the text with each byte replaced by each of these, and each value, too."""
    yield from answered(answer, beginnings_of(what, whole), bytes_replaced(what, whole, bytes_for),
                        values_changed(what, json.loads(whole)))


def witnesses():
    """Changes of a witness for SB, and large ones. Lists that are too long are a matter of the runs, names of the
    order, whatever their numbers; choices come first."""
    whole = part("choices", "[0],[0]")

    def answer(text):
        witness = read_witness(text)
        return ANSWERS["ANSWERED"] if witness and len(witness["choices"]) == 2 else WITNESS

    yield from changed("a witness", whole, TELLING, answer)
    yield from noise(WITNESS, " for a witness")
    for name, text, wanted in flooded("flooded witnesses"):
        # a name with a number of nines is one, and no operation has it
        yield name, text, "no: order" if name == "b'9' for a number" else wanted
    yield from of_table("witness parts")
    for text in (b"\xff", b"\xc0\xaf", b"\xed\xa0\x80", b"\\ud800", b"\\u0000", b"\n", b"\0"):
        yield f"{text!r} in a name", whole.replace(b"P0:2", b"P0:2" + text), WITNESS


JUDGE = Judge([f"{EXAMPLES}/SB.litmus"], PRICES)


def checked(text):
    """What `check` answers to a certificate of SB, by scripts/check_certificate.py."""
    said = JUDGE.verdict(text)
    return (said.out or said.err).rstrip("\n")


def changed_certificates(what, name, telling):
    """Changes of a certificate, and it with much of one thing, which may take no more time or memory than the bytes."""
    good = compact(stored(name))
    yield from changed(what, good.encode(), telling, checked)
    large = ((f"{what} with {it}", text) for it, text, _ in rewritten(f"large certificates {name}", good))
    yield from answered(checked, large)


def certificates():
    """A certificate for SB, changed, and what is none."""
    yield from changed_certificates("a certificate", "SB", b'"[]{,: 0129w\xff')
    yield from noise(FAULT, " for a certificate")
    yield from rewritten("surrogates in certificates", compact(stored("SB")))
    yield from flooded("flooded certificates")


def refutations():
    """The same of a certificate for SB of version 4."""
    yield from changed_certificates("a refutation", "SB-v4", b'"[],: 01249acdflos\xff')


def huge_certificates():
    """Certificates of SB of 100 MB, most of them by one part again and again."""
    yield from rewritten("huge certificates", compact(stored("SB")))
    yield from flooded("flooded huge certificates", HUGE)


# Seconds of processor time, and bytes: for files up to a mebibyte, and for huge ones.
LIMITS, HUGE_LIMITS = (2, 400_000_000), (60, 8_000_000_000)
STACK = 8 * 1024 * 1024             # that a process has by default, in bytes
TIMES = 3                           # that one may run to be within the seconds
PARTS_SAID = patterns("parts of what is said")
ANSWERS = {name: re.compile(text) for name, text in patterns("answers", PARTS_SAID).items()}
SAID = {key: re.compile(text, re.A) for key, text in patterns("said", PARTS_SAID).items()}
ERRORS = {name: re.compile(text, re.A) for name, text in patterns("errors", PARTS_SAID).items()}
# How the program gets the files of a group: what stands before the names, its words, the answer in place of READ, and
# which errors may come.
Use = collections.namedtuple("Use", "group name words read error")
USES = [Use(group, name, words.split(), read, error) for groups, name, words, read, error
        in (row.split(" | ") for row in rows("hostile", "uses")) for group in groups.split(", ")]


def begin():
    """Readies this process for runs. An interrupt ends it at once."""
    signal.signal(signal.SIGINT, signal.SIG_DFL)
    os.chdir(TOP)
    resource.setrlimit(resource.RLIMIT_STACK, (STACK, resource.getrlimit(resource.RLIMIT_STACK)[1]))
    program()


def timed(text, words, most):
    """Of a run with this input and words what it said, its processor seconds, and its bytes, where no run had more."""
    before = resource.getrusage(resource.RUSAGE_CHILDREN)
    with tempfile.TemporaryFile() as file:
        file.write(text)
        file.seek(0)
        said = ran([program(), *words], stdin=file, seconds=most + 1)
    used = resource.getrusage(resource.RUSAGE_CHILDREN)
    memory = used.ru_maxrss * 1024 if used.ru_maxrss > before.ru_maxrss else 0
    return said, used.ru_utime + used.ru_stime - before.ru_utime - before.ru_stime, memory


def run(name, text, wanted, words, error, limits):
    """Of a run with this input and words its name, what is wrong with it, its seconds and its bytes. What takes too
    long runs again, up to twice, as a processor that much else shares may be many times as slow for a while."""
    for _ in range(TIMES):
        said, seconds, memory = timed(text, words, limits[0])
        if seconds <= limits[0]:
            break
    form, answer = SAID.get(f"{words[0]} {said.status}"), (said.out or said.err.partition("\n")[0]).rstrip("\n")
    if said.status == 2 and words[0] != "test" and not (said.out and form):
        has_ended_well = not said.out and ERRORS[error].fullmatch(said.err)
    else:
        # `test` says the fault of a file on standard output
        fault = re.match(r"stdin  (fault F(?:[1-9]|20) [^\n]+\n)", said.out) if words[0] == "test" else None
        has_ended_well = form and form.fullmatch(said.out) and (
            ERRORS[error].fullmatch(fault[1] + said.err) if fault else not said.err)
    end = "" if has_ended_well else f"status {said.status} with {said.out[:80]!r} and {said.err[:200]!r}"
    if words[0] == "test":                      # what is said of the file
        answer = answer.split("\n")[0].removeprefix("stdin  ")
    elif words[0] == "place" and not said.err:
        answer = READ
    is_wanted = wanted == answer if isinstance(wanted, str) else wanted.fullmatch(answer)
    wrong = [end, "" if end or is_wanted else f"{answer}, and {wanted} is wanted",
             f"{seconds:.1f} seconds" if seconds > limits[0] else "",
             f"{memory // 1_000_000} MB" if memory > limits[1] else ""]
    return name, "; ".join(filter(None, wrong)), seconds, memory


def run_group(use):
    """The runs of a group, all of whose files are fed to the program. Those of `fences` are words."""
    runs, made = [], globals().get(use.group.replace(" ", "_"))
    for name, text, wanted in made() if made else of_table(use.group):
        text, words = (text, use.words) if isinstance(text, bytes) else (b"", [*use.words, *text])
        is_item = use.read == "LISTED" and name.endswith(" in locations")
        answer = ANSWERS["LISTED_ITEMS" if is_item else use.read] if wanted == READ else wanted
        runs.append(run(f"{use.name} {name}".strip(), text, answer, words, use.error, LIMITS))
    return runs


def runs(is_huge):
    """The runs of all groups; or those of `check` with huge certificates, one process each, with what each takes."""
    if not is_huge:
        with ProcessPoolExecutor(initializer=begin) as pool:
            for use, found in zip(USES, pool.map(run_group, USES)):
                print(f"{use.name} {use.group}: {len(found)} runs", flush=True)
                yield from found
        return
    words = ["check", f"{EXAMPLES}/SB.litmus", PRICES, "/dev/stdin"]
    for name, text, wanted in huge_certificates():
        with ProcessPoolExecutor(1, initializer=begin) as pool:
            found = pool.submit(run, f"100 MB of {name}", text, wanted, words, "unread", HUGE_LIMITS).result()
        print(f"{found[0]}: {found[2]:.2f} seconds, {found[3] / 1e6:.0f} MB", flush=True)
        yield found


def check(counts):
    most_seconds = most_memory = 0
    for name, wrong, seconds, memory in runs(counts.options.huge):
        counts.check(name, not wrong, wrong)
        most_seconds, most_memory = max(most_seconds, seconds), max(most_memory, memory)
    print(f"at most {most_seconds:.2f} seconds of processor time and {most_memory / 1e6:.0f} MB of memory")
