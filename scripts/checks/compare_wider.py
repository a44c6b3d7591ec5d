"""Tests in wider forms against plain Python: loops in one turn, a `filter`, 64 bits, annotated loads and stores."""
import random
import re
from unittest import mock

import check_certificate as model
import solve_reference as reference
from litmus import LOCATIONS, WORDS, Code, made_test, test_text
from running import PRICES, rows, rvfence

NO_MARK = re.compile(r" ?\d+:x31=\d+;")


class Attempt(model.Run):
    """A run that ends where a loop would go back. What it has stored by then may be what others wait for."""

    def execute(self, position):
        goes_to = super().execute(position)
        self.goes_back = goes_to <= position
        return len(self.test.code[self.hart]) if self.goes_back else goes_to


class LoopTest(model.Test):
    """A test in which branches may go back."""

    def code_of(self, cells):
        code = super().code_of(cells)
        self.faults = [fault for fault in self.faults if fault[0] != 6]
        return code


def states_of(data):
    """The final states of all that is shown, in lines, of the executions in which no loop goes back."""
    with mock.patch.multiple(model, Test=LoopTest, Run=Attempt):
        listing = reference.Listing(data, True)
    listing.live = [it for it in listing.live if not any(run.goes_back for run in it.candidate.operations.runs)]
    return [listing.line_of(it) for it in listing.states((None,) * len(listing.test.slots()))]


def lines_of(said):
    """The lines of the states in what `states` prints, without the marks of loops; or what is said of a fault."""
    lines = said.out.splitlines()
    return said if said.status else [NO_MARK.sub("", line).strip() for line in lines[2:2 + int(lines[1].split()[1])]]


class LoopCode(Code):
    """The code of a hart with a loop in the making."""

    def make(self, accesses):
        code = super().make(accesses)
        if self.loaded:
            at = self.choice(range(len(code)))
            back = f"{self.choice(['beq', 'bne'])} {self.choice(self.loaded)},{self.choice(['x0', 'x5'])},BACK"
            code[at] = f"BACK: {code[at]}"
            code.insert(self.choice(range(at + 1, len(code) + 1)), back)
        return code


def text_of(name, codes, condition):
    registers = [*LOCATIONS.items(), *WORDS.items()]
    entries = [f"{hart}:{it}={value};" for hart in range(len(codes)) for it, value in registers]
    return test_text(name, entries, codes, condition)


def check_loops(run, chance, number):
    """Of a test with loops the states must be those of the executions in which no loop goes back."""
    codes = [LoopCode(chance, 2).make(chance.choice([2, 3, 3])) for _ in range(2)]
    text = text_of(f"loops{number}", codes, chance.choice(["exists true", "forall true"]))
    said = rvfence("states", "-q", "--all", "--unroll", "1", run.file("loops", text))
    try:
        run.expect(f"the states of {text}", states_of(text.encode()), lines_of(said))
    except model.Fault as fault:
        run.expect(f"the fault of {text}", f"{fault}\n", said.err)


RETRIES = [row.split("; ") for row in rows("wider", "loops that wait")]
BEHIND, BESIDE, MADE, BACK = (rows("wider", group) for group in ("behind", "beside", "in a loop", "back"))


def turns_of(body, turns):
    """The loop with so many turns: each branch back but the last turn's goes on to the next one."""
    code = []
    for turn in range(turns):
        first, goes_on = len(code), turn + 1 < turns
        code += [f"{it},T{turn + goes_on}" if it[0] == "b" and "OUT" not in it else it for it in body]
        code += ["j OUT"] * goes_on
        code[first] = f"T{turn}: {code[first]}"
    return code


def check_in_turns(run, name, condition, body, behind, beside, *options):
    """A loop of which no note is said has the same states in one, two and three turns. Gives the states, and whether
    there is a note."""
    said = []
    for turns in (1, 2, 3):
        text = text_of(name, [[*turns_of(body, turns), *behind], beside], condition)
        said.append(rvfence("states", *options, "--unroll", "1", run.file("turns", text)))
    found, has_note = [*map(lines_of, said)], "in one turn of the loop" in said[0].err
    if not has_note:
        run.check(f"the states of {text} in fewer turns", found[0] == found[1] == found[2], found)
    return found[0], has_note


def check_turns(run, chance, number):
    """A loop that only waits has the same states in one, two and three turns."""
    body, (first, second) = chance.choice(RETRIES), chance.sample(BEHIND, 2)
    behind, beside = [f"OUT: {first}", second], [chance.choice(BESIDE) for _ in range(chance.choice([2, 3]))]
    states, _ = check_in_turns(run, f"turns{number}", "exists true", body, behind, beside, "-q", "--all")
    run.kinds["states of loops that wait"] += len(states)


def check_notes(run, chance, number):
    """A loop of which no note is said has the same states, of what the condition names, in one, two and three turns."""
    body = [*chance.sample(MADE, chance.choice([1, 2, 3])), chance.choice(BACK)]
    beside = [chance.choice(BESIDE) for _ in range(chance.choice([1, 2]))]
    shown = " \\/ ".join(f"{it}=1" for it in ["x", "z", *(f"0:x{it}" for it in chance.sample(range(11, 15), 2))])
    behind = ["OUT: lw x16,0(x10)"]
    _, has_note = check_in_turns(run, f"notes{number}", f"exists ({shown})", body, behind, beside)
    run.kinds["loops with a note" if has_note else "loops without one"] += 1


def check_written(run, chance, number):
    """A file that `--write` prints has the fences of the answer, in lines of their own, and else is the file."""
    behind = ["OUT: lw x16,0(x10)", *chance.sample(BEHIND, 1)]
    beside = ["sw x5,0(x10)", chance.choice(BESIDE), "sw x5,0(x6)"]
    text = text_of(f"written{number}", [[*turns_of(chance.choice(RETRIES), 1), *behind], beside],
                   f"exists (0:x11={chance.choice('0111')} /\\ 0:x16=0)")
    if chance.random() < 0.3:
        text = re.sub(r"\b[ls]w\b", lambda it: f"{it[0][0]}d", text).replace(".w", ".d")
    file = run.file("written", text)
    said = rvfence("solve", "-q", file, PRICES, "--unroll", "1")
    fences = [re.sub(r"fence (P\d+) (\d+) ", r"\1:\2=", line) for line in said.out.splitlines()[1:]]
    if said.status or not fences:
        return
    run.kinds["files with fences"] += 1
    made = rvfence("solve", "-q", file, PRICES, "--unroll", "1", "--write").out
    again = run.file("again", made)
    run.expect(f"{text} with {fences}", rvfence("place", file, "--unroll", "1", *fences),
               rvfence("place", again, "--unroll", "1"))
    run.expect(f"FENCEs in {text}", ("", "", 0), rvfence("audit", "-q", "-i", again, PRICES, "--unroll", "1"))
    lines, kept = ([line.replace("OUT:", "").split() for line in it.splitlines()
                    if not re.search(r"fence r?w?,r?w? ", line)] for it in (text, made))
    run.expect(f"the other lines of {text}", lines, kept)


def check_filter(run, chance, number):
    """With a filter the states must be those in which it is true, and the verdict that of both conditions."""
    above, condition = made_test(number)[0].decode().rstrip("\n").rsplit("\n", 1)
    quantifier, asked = condition.split(" ", 1)
    place, value = chance.choice(re.findall(r"([\w:]+)=(\w+)", asked) or [("x", "0")])
    wanted = chance.choice([f"{place}={value}", f"~{place}={value}", f"({place}={value} \\/ {place}=1)"])
    join = "=>" if quantifier == "forall" else "/\\"
    whole = f"{above}\n{quantifier} (({wanted}) {join} ({asked}))\n"
    name = run.file("filter", f"{above}\nfilter {wanted}\n{condition}\n")
    run.expect(f"the test {whole}", rvfence("place", "-q", run.file("whole", whole)), rvfence("place", "-q", name))
    said = rvfence("states", "-q", name)
    try:
        listing = reference.Listing(whole.encode())
    except model.Fault as fault:
        return run.expect(f"the fault of {whole}", f"{fault}\n", said.err)
    listing.test.wanted = model.test_of(f"{above}\nexists ({wanted})\n".encode()).wanted
    states = listing.states((None,) * len(listing.test.slots()))
    return run.expect(f"the states of {whole}", [listing.line_of(it) for it in states if listing.is_true(it)],
                      lines_of(said))


GREATEST = 2 ** 31 - 1
# of instructions on registers of 64 bits what they compute of numbers with a sign, but for the bits past 64
COMPUTED = {"add": lambda a, b: a + b, "sub": lambda a, b: a - b, "xor": lambda a, b: a ^ b, "and": lambda a, b: a & b,
            "sltu": lambda a, b: int(a % 2 ** 64 < b % 2 ** 64), "sll": lambda a, b: a << (b & 63),
            "srl": lambda a, b: (a % 2 ** 64) >> (b & 63), "sra": lambda a, b: a >> (b & 63)}


def check_wide(run, chance, number):
    """One hart with accesses of 64 bits must end as registers of 64 bits say, or be refused."""
    registers, code = {5: chance.choice([1, 2, 31, GREATEST]), 7: chance.choice([-1, 0, 3, -GREATEST])}, []
    start, fits = dict(registers), True
    for at in range(chance.choice([2, 3, 5])):
        name, a, b, rd = chance.choice([*COMPUTED]), *(chance.choice(list(registers)) for _ in "ab"), 11 + at
        code.append(f"{name} x{rd},x{a},x{b}")
        registers[rd] = (COMPUTED[name](registers[a], registers[b]) + 2 ** 63) % 2 ** 64 - 2 ** 63
        fits &= -GREATEST - 1 <= registers[rd] <= GREATEST
    code += [f"sd x{rd},0(x6)", chance.choice(["amoadd.d.aq", "amoswap.d"]) + " x20,x5,(x6)"]
    after = registers[rd] + registers[5] if "add" in code[-1] else registers[5]
    fits &= -GREATEST - 1 <= after <= GREATEST
    entries = ["0:x6=x;", *(f"0:x{it}={value};" for it, value in start.items())]
    text = test_text(f"wide{number}", entries, [[*code, "ld x21,0(x6)"]], "exists 0:x20=0")
    said = rvfence("states", "-q", "--all", run.file("wide", text))
    registers |= {20: registers[rd], 21: after}
    is_refused = said.err.startswith("fault F25")
    run.kinds["wide refused" if is_refused else "wide answered"] += 1
    if not is_refused:
        # register 6 and x by the names of addresses: only numbers of more than 12 bits are any
        wanted = " ".join(f"0:x{it}={word % 2 ** 32};" for it, word in sorted(registers.items()) if it > 10)
        run.expect(f"the states of {text}", [f"{wanted} x={after % 2 ** 32};"], lines_of(said))
    run.check(f"where 32 bits aren't enough, {text}", fits or is_refused, said)


ANNOTATED = {"lw": ["", ".aq", ".aqrl", ".aq.rl"], "sw": ["", ".rl", ".aqrl", ".aq.rl"]}


def check_ordered(run, chance, number):
    """With annotations of loads and stores answers, certificates and states must be right, and without the word for
    them the first is an unknown instruction."""
    data, prices = made_test(number)
    text = re.sub(r"\b(lw|sw)\b", lambda it: it[1] + chance.choice(ANNOTATED[it[1]]), data.decode())
    files, path = [run.file("ordered", text), run.file("prices.json", prices)], f"{run.folder}/ordered.json"
    found = rvfence("solve", "-q", "--zalasr", *files, "--cert", path)
    with mock.patch.object(model, "READS_ORDERED", True):
        test = model.test_of(text.encode())
        wanted = reference.answer(test, model.prices_of(prices))
        run.check(f"the answer to {text}", reference.is_same(test, wanted, found), f"wanted {wanted}, found {found}")
        if found.status < 2:
            said = model.Judge(files[:1], files[1]).verdict(open(path, "rb").read())
            run.expect(f"the certificate of {text}", f"yes\n{found.out}", said.out)
        said = rvfence("states", "-q", "--all", "--zalasr", files[0])
        try:
            listing = reference.Listing(text.encode(), True)
            states = [listing.line_of(it) for it in listing.states((None,) * len(test.slots()))]
            run.expect(f"the states of {text}", states, lines_of(said))
        except model.Fault as fault:
            run.expect(f"the fault of {text}", f"{fault}\n", said.err)
    at = next((at for at, line in enumerate(text.split("\n"), 1) if re.search(r"\b[ls]w\.", line)), None)
    said = rvfence("place", "-q", files[0])
    run.expect(f"what {text} is without the word", f"fault F4 UnknownInstr line {at}\n" if at else "", said.err)
    printed = rvfence("place", "-q", "--zalasr", files[0])
    again = rvfence("place", "-q", "--zalasr", run.file("printed", printed.out))
    run.expect(f"{text} printed again", (printed.out, 0), (again.out, again.status))
    run.kinds["annotated, " + found.out.split("\n")[0].split()[0] if found.out else "annotated, fault"] += 1


def check(run):
    """Compares what is said of made tests with loops, a `filter`, 64 bits, and annotations of loads and stores."""
    for number in run.numbers():
        for one in (check_loops, check_turns, check_notes, check_written, check_filter, check_wide, check_ordered):
            one(run, random.Random(f"{one.__name__} {number}"), number)
