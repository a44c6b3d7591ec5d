"""Compares `rvfence audit` with plain Python on tests with fences: those of scripts/litmus.py, into which more fences
are put by chance, and in which the label that branches go to stands somewhere behind them.

In place, each line by itself is followed, all are, and some sets of them: `test` says `forbidden` of each such text,
and `audit` has the lines that are left. `--write` prints the file with all followed but at fences that name devices,
and `-i` leaves it so; all else stays, byte for byte.

With `--anew` the fences are taken out of the text here, cell by cell. What `--write` prints of a test that isn't
forbidden as it is written has the fences that are due, is judged by `test`, and written once more: then it stays as it
is. Where no fence names devices it is audited, too: nothing can go, and the cost is what was said."""
import copy
import random
import re

import check_certificate as model
import solve_reference as reference
from litmus import FENCES, fence_of, made_test, rows_of
from running import rvfence, text_of, verdict

LABEL = "OUT:"
EASED = "fence io,io"                                           # orders no memory
STATUS = {"vacuous": 4, "allowed": 1, "forbidden": 0}
STAYS = "  (needed.*|not for memory)$"                            # a line by which a fence stays as it is
DEVICES = ["fence i,r", "fence o,w", "fence iorw,iorw", "fence iorw,w", "fence io,io", "fence.i"]


def is_enough(kind, other):
    """Does the one order all that the other orders?"""
    return model.PAIRS[other] <= model.PAIRS[kind]


def words_of(kind, advised):
    """What is said of a FENCE of this kind, or of none, where this is advised."""
    if kind is None or advised is None:
        return "not needed" if kind else f"{advised} is missing"
    return "needed" if kind == advised else f"{advised} {'is enough' if is_enough(kind, advised) else 'instead'}"


class Cell:
    """A cell: its label, its instruction, of a FENCE what it has before and behind it and which kind that is for
    memory, and of one that orders memory whether it stays for the devices that it names, or `--write` takes it out."""

    def __init__(self, text):
        self.label, self.bare = LABEL * text.startswith(LABEL), text.removeprefix(LABEL).strip()
        self.letters = self.kind = None
        if self.bare.startswith("fence"):
            self.letters = self.bare.removeprefix("fence").strip(" .") or "iorw,iorw"
            kind = self.letters if self.letters == "tso" else re.sub("[io]", "", self.letters)
            self.kind = kind if kind in model.KINDS else None
        self.stays = self.kind not in (None, self.letters)
        self.is_taken, self.about = self.kind is not None and not self.stays, " for memory" * self.stays

    def __str__(self):
        return f"{self.label} {self.bare}".strip()

    def saying(self, bare):
        """A cell with the same label."""
        return Cell(f"{self.label} {bare}".strip())


class Columns:
    """A test file as its columns of cells, which can be changed and put together again."""

    def __init__(self, text):
        lines = text.rstrip("\n").split("\n")
        top = 1 + next(number for number, line in enumerate(lines) if line.startswith("P0"))
        self.above, self.condition = lines[:top], lines[-1]
        rows = [line.removesuffix(" ;").split(" | ") for line in lines[top:-1]]
        self.cells = [[Cell(cell.strip()) for cell in column if cell.strip()] for column in zip(*rows)]

    def text(self, shown=str):
        """The text, with each cell as `shown` prints it."""
        return "\n".join([*self.above, *rows_of([map(shown, column) for column in self.cells]), self.condition, ""])

    def changed(self, change):
        """The columns with each cell as `change` has it, which may be nothing."""
        made = copy.copy(self)
        made.cells = [[cell for cell in map(change, column) if str(cell)] for column in self.cells]
        return made

    def without_fences(self):
        """Without fences, but for those that name devices; labels stay."""
        return self.changed(lambda cell: cell.saying("") if cell.is_taken else cell)

    def eased(self):
        """With no fence that names devices and orders memory."""
        return self.changed(lambda cell: cell.saying(EASED) if cell.stays else cell)

    def followed(self, lines):
        """What the cells say in places for which these kinds or nothing is advised, by the cells."""
        cells = [[cell for cell in column if cell.bare] for column in self.cells]
        return {cells[hart][at]: fence_of(kind) for (hart, at), kind in lines.items()}

    def harts(self):
        codes, above = model.test_of(self.text().encode()).code, len(self.above)
        return [Hart(number, column, above, code) for number, (column, code) in enumerate(zip(self.cells, codes))]


def made(number):
    """The columns and the prices of the test of this number."""
    text, prices = made_test(number)
    columns, chance = Columns(text.decode()), random.Random(f"audit {number}")
    for column in columns.cells:
        last = max([at for at, cell in enumerate(column) if re.match("b(eq|ne) ", cell.bare)], default=-1)
        cells = list(map(str, column))
        if chance.random() < 0.5 and cells[-1] == LABEL:
            cells.pop()
            at = chance.randint(last + 1, len(cells))
            cells[at:at + 1] = [f"{LABEL} {cell}" for cell in cells[at:at + 1]] or [LABEL]
        for _ in range(chance.choice([0, 1, 1, 2, 3])):
            at = chance.randint(0, len(cells) - (cells[-1] == LABEL))
            fence = chance.choice(FENCES + ["fence rw,rw"] * 6 + (DEVICES if chance.random() < 0.3 else []))
            if chance.random() < 0.5 and at < len(cells) and cells[at].startswith(LABEL):
                cells[at], fence = Cell(cells[at]).bare, f"{LABEL} {fence}"
            cells.insert(at, fence)
        column[:] = [Cell(cell) for cell in cells if cell]
    return columns, prices


class Hart:
    """The code of a hart with its fences."""

    def __init__(self, number, column, above, code):
        self.number, self.code, self.cells = number, code, [cell for cell in column if cell.bare]
        self.lines = [line for line, cell in enumerate(column, above + 1) if cell.bare]
        self.memory = [instruction.is_memory() for instruction in code]
        self.fences = [at for at, cell in enumerate(self.cells) if cell.kind is not None]

    def access_of(self, at):
        """The access that a FENCE stands at, or None."""
        targets = {instruction.label for instruction in self.code}              # of branches
        for other, label in [(it, self.code[it].label) for it in range(at + 1, len(self.code))]:
            if other in targets or label is not None and any(self.memory[label:]):
                return None
            if self.memory[other]:
                return other
        return None

    def slot(self, access):
        """The slot of an access in the test without fences; of None one that isn't there."""
        return self.number, sum(not cell.is_taken for cell in self.cells[:access])

    def answering(self, access, kind):
        """The FENCE that stands for the kind at the access, or None."""
        here = [at for at in self.fences if self.access_of(at) == access]
        kinds = {at: self.cells[at].kind for at in here}
        return min(here, key=lambda at: (kinds[at] != kind, not is_enough(kinds[at], kind)), default=None)

    def is_between(self, at):
        """Are there accesses before and behind this instruction?"""
        return any(self.memory[:at]) and any(self.memory[at:])

    def advice(self, at, placed):
        """What is advised at this instruction, or None. `placed` has the kind of each slot."""
        cell, access = self.cells[at], self.access_of(at)
        if self.memory[at]:
            kind = placed.get(self.slot(at))
            return words_of(None, kind) if kind and self.answering(at, kind) is None else None
        if cell.kind is None:
            return "not for memory" if cell.letters else None
        if self.slot(access) not in placed:
            return "at no slot" if self.is_between(at) else f"orders nothing{cell.about}"
        kind = placed[self.slot(access)]
        return words_of(cell.kind, kind if kind and self.answering(access, kind) == at else None) + cell.about

    def line(self, at, words):
        """The line by which this is said of an instruction."""
        where = f"{f'line {self.lines[at]}':8}  {f'P{self.number}:{at}':5}"
        return f"{where}  {self.cells[at].letters or 'none':9}  {words}"


class Advised:
    """The fences that are advised over the slots of the columns `left`, and what that says of the fences of `asked`."""

    def __init__(self, asked, left, prices):
        problem = reference.Problem(model.test_of(left.text().encode()), prices)
        self.harts, self.best = asked.harts(), reference.solved(problem)
        # the written fence of each slot; are these all? Each must have a slot of its own, and a price
        placed, fences = dict.fromkeys(problem.slots), [(hart, at) for hart in self.harts for at in hart.fences]
        for hart, at in fences:
            slot, kind = hart.slot(hart.access_of(at)), hart.cells[at].kind
            if slot in placed and placed[slot] is None and kind in prices.offered:
                placed[slot] = kind
        self.are_all = len(fences) == sum(kind is not None for kind in placed.values())
        is_paid = all(kind is None or prices.at(slot, kind) for slot, kind in placed.items())
        own = tuple(placed.values())
        self.own_cost = problem.cost(own)
        self.best_cost = None if self.best is None else problem.cost(self.best)
        if is_paid and self.own_cost == self.best_cost and problem.survivor(own) is None:
            self.best = own
        self.placed = None if self.best is None else dict(zip(problem.slots, self.best))

    def lines(self):
        """Of each hart in turn each instruction of which something is said, and the words."""
        said = ((hart, at, hart.advice(at, self.placed)) for hart in self.harts for at in range(len(hart.cells)))
        return [line for line in said if line[2] is not None]

    def status(self, kind):
        is_right = self.best is not None and all(
            words in ("needed", "needed for memory", "not for memory") for _, _, words in self.lines())
        return STATUS[kind] or int(not is_right)


def by_reference(columns, data):
    """The verdict; the lines and the status that are to be printed, or a fault; and what is advised for `--write`."""
    prices = model.prices_of(data)
    try:
        kind, _ = reference.verdict_of(columns.text().encode())
        advised = Advised(columns, columns.without_fences().eased(), prices)
        mended = Advised(columns.eased(), columns.without_fences(), prices)
    except model.Fault as fault:
        return None, ([str(fault)], 2), None
    first = f"{kind} as written{f', {advised.own_cost}' if advised.are_all else ''}; "
    if advised.best is None:
        return kind, ([f"{first}no fences rule it out"], advised.status(kind)), mended
    said = [f"{first}cheapest {advised.best_cost}", *(hart.line(at, words) for hart, at, words in advised.lines())]
    return kind, (said, advised.status(kind)), mended


class Places(reference.Problem):
    """The places of the fences of these columns, which order no memory, with what may stand in each."""

    def __init__(self, columns, prices):
        self.harts = columns.harts()
        self.cells = {(hart.number, at): hart.cells[at] for hart in self.harts for at in hart.fences}
        self.written = tuple(cell.kind for cell in self.cells.values())
        emptied = columns.changed(lambda cell: cell if cell.kind is None else cell.saying(EASED))
        test = model.test_of(emptied.text().encode())
        test.slots = lambda: list(self.cells)
        super().__init__(test, prices)
        self.costs = [self.costs_at(self.harts[hart], at, own) for (hart, at), own in zip(self.cells, self.written)]

    def costs_at(self, hart, at, own):
        """What may stand in the place of this fence, in the order of precedence, and what it costs."""
        access, prices = hart.access_of(at), self.prices
        slot = hart.slot(at + 1 if access is None else access)
        enough = [own] if own in prices.offered else [kind for kind in prices.offered if is_enough(kind, own)]
        weaker = [kind for kind in prices.offered if model.PAIRS[kind] < model.PAIRS[own]]
        least = min(prices.at(slot, kind) for kind in enough)
        costs = {None: 0, own: least, **{kind: prices.at(slot, kind) for kind in weaker}}
        first = own if costs[own] else None
        return {kind: costs[kind] for kind in [first, None, *model.KINDS] if kind in costs}

    def words(self, hart, at, advised):
        """What is said of the fence at this instruction, where this is advised in its place."""
        cell = hart.cells[at]
        if cell.kind is None:
            return "not for memory"
        if not hart.is_between(at):
            return f"orders nothing{cell.about}"
        is_unpaid = advised == cell.kind and advised not in self.prices.offered
        return words_of(cell.kind, advised) + cell.about + " (no price)" * is_unpaid


def fences_of(columns):
    """Of each hart the fences in their places: of each cell its letters, or None."""
    return [[cell.letters for cell in column if cell.bare] for column in columns.cells]


def check_mended(run, name, files, columns, kind, mended):
    """Checks what `--write` prints of a test of which this is the verdict, not `forbidden`."""
    said = rvfence("audit", "-q", *files, "--write")
    run.expect(f"{name}: the status of --write", mended.status(kind), said.status)
    if mended.best is None:
        run.expect(f"{name}: nothing is written", "", said.out)
        return
    harts = fences_of(columns.without_fences())
    for (hart, at), advised in reversed(mended.placed.items()):
        harts[hart][at:at] = [advised] if advised else []
    run.expect(f"{name}: the written fences", harts, fences_of(Columns(re.sub("L[0-9]+:", LABEL, said.out))))
    file, wanted = run.file("mended.litmus", said.out), "vacuous" if kind == "vacuous" else "forbidden"
    run.expect(f"{name}: the written test", wanted, verdict(file))
    again = rvfence("audit", file, files[1], "--write")
    run.expect(f"{name}: written again", (said.out, STATUS[wanted]), (again.out, again.status))
    if not any(cell.stays for column in columns.cells for cell in column):
        again = rvfence("audit", file, files[1], "--anew")
        first = f"{wanted} as written, {mended.best_cost}; cheapest {mended.best_cost}"
        run.expect(f"{name}: the audit of it", first, again.out.split("\n")[0])
        run.expect(f"{name}: its status", STATUS[wanted], again.status)


def compare(run, name, wanted, files, *words):
    """Compares what `audit` prints of these files, of a test and prices, with what is to be printed."""
    said = rvfence("audit", "-q", *files, *words)
    found = ((said.out + said.err).splitlines(), said.status)
    run.check(name, wanted == found, f"{''.join(map(text_of, files))}\nwanted: {wanted}\nfound:  {found}")


def left_over(lines):
    """What is said in the lines by which a fence changes."""
    return [line[28:] for line in lines if not re.search(STAYS, line)]


def check_followed(run, name, files, columns, changed, said):
    """Follows each line, all, and some sets: the outcome stays ruled out, and the lines that are left say the same."""
    places, chance = list(changed), random.Random(name)
    sets = [[place] for place in places] + [places] * (len(places) > 1)
    sets += [chance.sample(places, chance.randint(2, len(places) - 1)) for _ in range(3) if len(places) > 2]
    for chosen in sets:
        fences = columns.followed({place: changed[place] for place in chosen})
        text = columns.changed(lambda cell: cell.saying(fences.get(cell, cell.bare))).text()
        file = run.file("followed.litmus", text)
        run.expect(f"{name}: {chosen} followed", "forbidden", verdict(file))
        if len(chosen) > 1 or len(places) == 1:
            again = rvfence("audit", "-q", file, files[1])
            left = [words for place, words in zip(places, left_over(said)) if place not in chosen]
            run.expect(f"{name}: {chosen} audited again", left, left_over(again.out.splitlines()[1:]))


def check_written(run, name, files, columns, changed):
    """Checks what `--write` prints of a test that is forbidden as it is written, and what `-i` leaves: fences have
    become what is advised, with blanks behind, but for those that name devices."""
    fences = columns.followed(changed)

    def shown(cell):
        if cell.stays or cell not in fences:
            return str(cell)
        return cell.label + " " * len(cell.label[:1]) + fences[cell].ljust(len(cell.bare))

    text, said = columns.text(shown), rvfence("audit", "-q", *files, "--write")
    run.expect(f"{name}: written in place", (text, int(text != columns.text())), (said.out, said.status))
    file = run.file("mended.litmus", columns.text())
    said = rvfence("audit", "-q", file, files[1], "-i")
    run.expect(f"{name}: mended in place", (text, "", 0), (text_of(file), said.out, said.status))


def check_in_place(run, name, files, columns, kind, prices, wanted):
    """Compares what is printed in place; `wanted` is what is to be printed with `--anew`."""
    if kind != "allowed":
        places, anew = Places(columns, model.prices_of(prices)), wanted[0][0].rsplit(" ", 1)[-1]
        said = f"{kind} as written, {places.cost(places.written)}; "
        why = rvfence("test", files[0]).out.splitlines()[0].split("vacuous    ", 1)[-1]
        wanted = [said + why], STATUS["vacuous"]
    if kind == "forbidden":
        best = dict(zip(places.cells, reference.solved(places)))
        lines = [hart.line(at, places.words(hart, at, best.get((hart.number, at))))
                 for hart in places.harts for at, cell in enumerate(hart.cells) if cell.letters]
        first = f"{said}in place {places.cost(best.values())}; anew {anew}"
        wanted = [first, *lines], int(not all(re.search(STAYS, line) for line in lines))
    compare(run, f"{name} in place", wanted, files)
    if kind == "forbidden":
        count(run, "in place: ", lines)
        # what is advised in each place of which a line says to change something
        changed = {place: kind for place, kind in best.items() if kind != places.cells[place].kind}
        check_followed(run, name, files, columns, changed, lines)
        check_written(run, name, files, columns, changed)


def count(run, before, lines):
    run.kinds.update(before + re.sub("^[rwtso]+,?[rw]* ", "K ", line[28:]) for line in lines)


def check(run):
    for number in run.numbers():
        (columns, prices), name = made(number), f"made test {number}"
        kind, wanted, mended = by_reference(columns, prices)
        files = [run.file("test.litmus", columns.text()), run.file("prices.json", prices)]
        compare(run, name, wanted, files, "--anew")
        if kind is not None:
            run.kinds[kind] += 1
            count(run, "", wanted[0][1:])
            if kind != "forbidden":
                check_mended(run, name, files, columns, kind, mended)
            check_in_place(run, name, files, columns, kind, prices, wanted)
