"""Compares `rvfence solve --sites` with a plain list of placements, on questions of one to three tests of
scripts/litmus.py into which labels of one to four sites are put by chance. In some each other slot is a site, too
(`--free`), and most have weights. `scripts/check compare-sites 3000 1000` asks 3,000 from number 1,000 on.

The list goes over all placements of the sites, the cheapest first and of equal cost in the order of kinds, writes the
fences as FENCE instructions at all places of each site, and asks the solver in Python whether each test forbids its
outcome. The first for which all do is the answer; `place` must put it in so. Where there is none, the file that is
named must be the first whose outcome is allowed with `rw,rw` at every site, and `order` must take the execution.

`--cert` must write a certificate to which `check --sites` says yes with the same answer, and so must
`scripts/check_certificate.py --sites`. Of others, made of it with a change or two, the two must say the same. And where
FENCEs are put behind the labels, most as the answer has them, `audit --sites` must say of them what the list does.

Of each test of examples/, which have no such labels, `--sites --free` must change no byte of the answer."""
import collections
import functools
import glob
import itertools
import json
import random
import re

import check_certificate as model
import solve_reference as reference
from checks.compare_audit import STATUS, Columns, fence_of, is_enough, words_of
from checks.compare_check import compare_mangled, judge_both
from litmus import made_test, rows_of
from running import EXAMPLES, Said, read, rvfence, side_by_side, written

NAMES = ["lock", "un_lock", "wmb", "r2d"]
LINUX = f"{EXAMPLES}/prices-linux.json"
MOST_PLACEMENTS, MOST_RUNS = 130, 300
POOL = 20           # ten questions have so many tests in common, with other labels
MANGLED = 6         # certificates that are made of each


@functools.lru_cache(POOL)
def made_columns(number):
    """The test of a number, or of another where its harts have so many runs that a list would take long."""
    text = made_test(number)[0]
    try:
        is_small = sum(map(len, model.all_runs(model.test_of(text)))) <= MOST_RUNS
    except model.Fault:
        is_small = False
    return Columns(text.decode()) if is_small else made_columns(number + 10 ** 6)


class Test:
    """A made test as columns of cells, and the sites of its places: by hart and number of the cell, as of instructions.
    The name of a slot's own site has a `:`, and no label."""

    def __init__(self, number, chance, names):
        made = made_columns(number)
        self.above, self.condition = made.above, made.condition
        columns = [[*map(str, column)] for column in made.cells]
        # a label to which no branch goes would name a site
        self.columns = [column if any(cell.endswith(",OUT") for cell in column) else column[:-1] for column in columns]
        self.spots = [(hart, at) for hart, column in enumerate(self.columns) for at in range(len(column))]
        density = chance.choice([0.4, 0.8, 1, 1, 1])
        self.places = {spot: chance.choice(names) for spot in self.spots if chance.random() < density}
        self.allows = functools.cache(self.allows)

    def text(self, kinds, numbers=None):
        """With FENCEs of these kinds, by place, and where there are numbers with labels of sites in front of them."""
        columns = [[] for _ in self.columns]
        for hart, at in self.spots:
            name, kind, cell = self.places.get((hart, at), ":"), kinds.get((hart, at)), self.columns[hart][at]
            label = f"{name}_{next(numbers)}: " if numbers and ":" not in name else ""
            columns[hart] += [f"{label}{fence_of(kind)}", cell] if kind else [f"{label}{cell}"]
        return "\n".join([*self.above, *rows_of(columns), self.condition, ""])

    def labelled(self, kinds=()):
        """With labels: of each site by numbers of its copies; and behind them FENCEs of these kinds, by place."""
        return self.text(dict(kinds), itertools.count())

    def fenced(self, kinds):
        """With FENCEs of these kinds, by the names of sites, but for one behind which no instruction stands."""
        return self.text({(hart, at): kinds.get(name) for (hart, at), name in self.places.items()
                          if not self.columns[hart][at].endswith(":")})

    def allows(self, *kinds):
        """Is the outcome allowed with these fences, each a name and a kind?"""
        return bool(reference.Problem(model.test_of(self.fenced(dict(kinds)).encode())).live)

    def is_allowed(self, kinds):
        """The same by all sites, of which only those count that the test has."""
        return self.allows(*[(name, kinds[name]) for name in sorted(set(self.places.values()))])


class Question:
    """The question of a number: tests, one perhaps twice, their files, prices, and the sites' names in their order."""

    def __init__(self, number, folder):
        self.chance = chance = random.Random(f"sites {number}")
        self.is_free = chance.random() < 0.3
        while True:
            labels, first = NAMES[:chance.choice([1, 2, 2, 3, 4])], POOL * (number // 10)
            made = (Test(first + chance.randrange(POOL), chance, labels) for _ in itertools.count())
            # of most, fences rule the outcome out
            fit = (it for it in made if not it.is_allowed(dict.fromkeys(NAMES, "rw,rw")) or chance.random() < 0.25)
            tests = list(itertools.islice(fit, chance.choice([1, 1, 2, 2, 3])))
            chosen = [*range(len(tests)), *[0] * (chance.random() < 0.1)]
            self.tests, self.files = [tests[it] for it in chosen], [f"{folder}/{it}" for it in chosen]
            for test, file in zip(self.tests, self.files) if self.is_free else ():
                # each slot without a label is a site of its own
                prefix = f"{file}:" if len(chosen) > 1 else ""
                own = {slot: "%sP%d:%d" % (prefix, *slot) for slot in model.test_of(test.labelled().encode()).slots()}
                test.places = dict(sorted({**own, **test.places}.items()))
            self.names = list(dict.fromkeys(name for test in self.tests for name in test.places.values()))
            counts = [it for it in range(10) if (2 + it) ** len(self.names) <= MOST_PLACEMENTS]
            if counts:
                break
        offered = {*chance.sample(model.KINDS, chance.choice(counts[:4])), "rw,rw"}
        self.prices = {kind: chance.randint(1, 5) for kind in model.KINDS if kind in offered}
        weights = {name: chance.choice([0, 1, 2, 3]) for name in [*self.names, "no site"] if chance.random() < 0.6}
        self.weights = chance.choice([{}, weights, weights])
        self.is_alone = self.is_free and len(self.files) == 1
        self.options = ["--sites", *["--free"] * self.is_free]

    def price(self, name, kind):
        """What a fence costs; one without a price what the cheapest kind does that orders all that it orders."""
        prices = [price for it, price in self.prices.items() if kind == it or is_enough(it, kind)]
        return self.prices.get(kind, min(prices)) * self.weights.get(name, 1)

    def cost(self, placed):
        return sum(self.price(name, kind) for name, kind in placed.items() if kind)

    def answer(self):
        """The first of the cheapest placements that forbid all outcomes, by the names of sites, or None."""
        ways = itertools.product([None, *self.prices], repeat=len(self.names))
        cheapest_first = sorted((dict(zip(self.names, kinds)) for kinds in ways), key=self.cost)
        return next((it for it in cheapest_first if not any(test.is_allowed(it) for test in self.tests)), None)

    def lines(self, placed):
        fences = [(f"fence {name.replace(':', ' ')}" if self.is_alone and ":" in name else f"site {name}", kind)
                  for name, kind in placed.items() if kind]
        return "".join(f"{where} {what}\n" for where, what in [("fenced", self.cost(placed)), *fences])

    def placings(self, placed):
        """Of each test itself, its file, and the words for `place` and `order`."""
        for test, file in zip(self.tests, self.files):
            here = {name: placed[name] for name in test.places.values() if placed[name]}
            yield test, file, [f"{name.removeprefix(f'{file}:')}={kind}" for name, kind in here.items()]

    def first_allowed(self):
        """The file and the words of the first test whose outcome is allowed with rw,rw at every site."""
        top = dict.fromkeys(self.names, "rw,rw")
        return next(it[1:] for it in self.placings(top) if it[0].is_allowed(top))


def compare_execution(run, name, question, lines):
    """Is the last of these lines an execution of the first test that has one?"""
    file, words = question.first_allowed()
    execution = written(f"{run.folder}/execution", lines.pop() if lines else "")
    run.expect(f"the execution of {name}", reference.YES, rvfence("order", file, execution, *words, *question.options))
    return file


def compare_certificates(run, name, question, files, found, certificates):
    """Do both checkers accept the certificate of this answer, and say the same of others that are made of it?"""
    path, judge = f"{run.folder}/certificate", model.Judge(files[:-1], files[-1], True, question.is_free)
    said = rvfence("solve", *files, *question.options, "-q", "--cert", path)
    if not run.expect(f"{name}, with --cert", found, said) or said.status == 2:
        return
    judge_both(run, name, [*files, path], judge, Said(f"yes\n{found.out}", "", 0), *question.options)
    certificates.append(json.loads(read(path)))
    for number in range(MANGLED):
        compare_mangled(run, f"certificate {number} of {name}", files, judge, certificates[-1], certificates,
                        random.Random(f"{name} {number}"), *question.options)


class Audited:
    """A question with FENCEs behind its labels, most as the answer has them, and what is to be said of them."""

    def __init__(self, question, best):
        self.question, self.best, self.texts, chance = question, best, {}, question.chance
        some, most = [None, *model.KINDS], chance.choice([0, 0, 0.2])       # of the copies aren't like others
        usual = {it: best[it] if best and chance.random() < 0.8 else chance.choice(some) for it in question.names}
        self.kinds = {name: collections.defaultdict(dict) for name in question.names}       # with rows of copies
        for test, file in dict(zip(question.tests, question.files)).items():
            kinds = {}
            for (hart, at), name in test.places.items():
                row = len(test.above) + 1 + at + sum(bool(kinds[it]) for it in kinds if it[0] == hart)
                kind = usual[name] if chance.random() >= most else chance.choice(some)
                if test.columns[hart][at].startswith("fence"):              # this would be the copy's
                    kind = kind or "rw,rw"
                kinds[hart, at], self.kinds[name][kind][f"{file}:{row}"] = kind, None
            self.texts[file] = test.labelled(kinds)

    def wanted(self):
        """The lines that are to be printed, but for an execution, and the status."""
        best, names, cost = self.best, self.question.names, self.question.cost
        is_same = all(len(kinds) == 1 for kinds in self.kinds.values())
        own = {name: next(iter(kinds)) for name, kinds in self.kinds.items()} if is_same else None
        verdicts = {reference.verdict_of(text.encode())[0] for text in self.texts.values()}
        verdict = next(it for it in ["allowed", "forbidden", "vacuous"] if it in verdicts)
        first = f"{verdict} as written, {'copies differ' if own is None else cost(own)}; "
        if best is None:
            return [f"{first}no fences rule it out", self.question.first_allowed()[0]], 1
        first += f"cheapest {cost(best)}"
        if verdict == "forbidden" and own is not None and cost(own) <= cost(best):
            best = own if all(self.question.price(*it) for it in own.items() if it[1]) else best  # each has a cost
        lines, wide = [], max(map(len, names), default=0)
        for name, kind in itertools.product(names, [None, *model.KINDS]):
            if kind in self.kinds[name] and (kind or best[name]):
                where = " ".join(self.kinds[name][kind])
                lines.append(f"{name:{wide}}  {kind or 'none':5}  {words_of(kind, best[name]):16} {where}")
        return [first, *lines], STATUS[verdict] or int(not all("  needed  " in line for line in lines))


def compare_audit(run, name, audited, prices):
    """Is that said of FENCEs behind labels which is wanted?"""
    for file, text in audited.texts.items():
        written(file, text)
    said, (lines, status) = rvfence("audit", *audited.texts, prices, "--sites", "-q"), audited.wanted()
    found = said.out.splitlines()
    if audited.best is None:
        compare_execution(run, f"{name}, audited", audited.question, found)
    run.kinds.update(re.findall("not needed|needed|is enough|instead|is missing", "\n".join(lines)))
    if not run.expect(f"audit of {name}", (lines, "", status), (found, said.err, said.status)):
        print(*audited.texts.values(), read(prices), sep="\n")


def check(run):
    certificates = []
    for number in run.numbers():
        question, name = Question(number, run.folder), f"question {number}"
        prices = {**question.prices, **({"weights": question.weights} if question.weights else {})}
        files = [written(file, test.labelled()) for test, file in zip(question.tests, question.files)]
        files, placed = [*files, run.file("prices", json.dumps(prices))], question.answer()
        found = rvfence("solve", *files, *question.options, "-q")
        run.kinds["none" if placed is None else "fenced"] += 1
        # is this what is found, and can it be placed?
        if placed is None:
            lines = found.out.splitlines()
            file = compare_execution(run, name, question, lines)
            run.expect(name, (["none", file][:2 - question.is_alone], 1), (lines, found.status))
        elif not run.expect(name, Said(question.lines(placed), "", 0), found):
            print(*[test.labelled() for test in question.tests], question.prices, question.weights, sep="\n")
        for test, file, placing in question.placings(placed) if placed else ():
            fenced = rvfence("place", run.file("fenced", test.fenced(placed)))
            run.expect(f"place of {name}", fenced, rvfence("place", file, *placing, *question.options))
        compare_certificates(run, name, question, files, found, certificates)
        if not question.is_free:
            compare_audit(run, name, Audited(question, placed), files[-1])
    weights = {"weights": {f"P{hart}:{at}": (hart + at) % 4 for hart in range(4) for at in range(10)}}
    lists = [LINUX, run.file("weights", json.dumps({**json.loads(read(LINUX)), **weights}))]
    paths = [path for folder in ["", "idioms/", "tests/"] for path in sorted(glob.glob(f"{EXAMPLES}/{folder}*.litmus"))]

    def compare_alone(words):
        """Is the answer of a test, which has no labels that name sites, that of its slots?"""
        said = rvfence("solve", *words, "-q", "--sites", "--free")
        run.expect(f"{' at '.join(words)} as sites", rvfence("solve", *words, "-q"), said)

    side_by_side(compare_alone, list(itertools.product(paths, lists)))
