"""Finds the cheapest fences of a test, in plain Python.

It is written from docs/MODEL.md and docs/FORMAT.md alone and shares no code with the program. Tests, prices, runs,
rules and candidates are those of scripts/check_certificate.py. The way to the answer is another one than the
program's: it has no tree. It gives what `rvfence solve` is to print, where beside `none` the program may print any
execution that shows the outcome. Of the faults of runs and candidates it knows F13, F14 and F15.

Below stands what else plain Python says of tests and executions: which faults files have; which tests are vacuous, by
whether runs and last words can make the outcome true at all; which can be listed; and which final states there are."""
import collections
import functools
import graphlib
import itertools
import json
import math

import check_certificate as model                               # of this folder
from running import EXAMPLES, Said

MOST_CANDIDATES = 4000000
YES = Said('yes\n', '', 0)
ALWAYS = ('constant', True)
WORDS = {'exists': 'Allowed', '~exists': 'Forbidden', 'forall': 'Required'}
READ = 'a test'                     # the answer of a file that has no fault
ONES = model.prices_of(b'{"rw,rw":1}')


def count_candidates(test, most=MOST_CANDIDATES):
    """How many raw candidates there are (MODEL 15): for each list of runs the sources of each load times the orders of
    each word's stores. Raises a fault where they are, or lists of runs, too many."""
    alike, lists, count = [], 1, 0          # runs are alike with the same addresses, loaded and stored words
    for runs in model.all_runs(test):
        accesses = ([(it.address, it.loaded, it.stored) for it in run.operations] for run in runs)
        alike.append(collections.Counter(tuple(sorted(each, key=str)) for each in accesses).items())
        lists *= len(runs)
    for chosen in itertools.product(*alike) if lists <= most else ():
        accesses = [access for each, _ in chosen for access in each]
        stores = collections.Counter((address, stored) for address, _, stored in accesses if stored is not None)
        sources = [stores[address, loaded] + (test.words[address] == loaded) - (stored == loaded)
                   for address, loaded, stored in accesses if loaded is not None]
        orders = map(math.factorial, collections.Counter(address for address, _ in stores.elements()).values())
        count += math.prod(number for _, number in chosen) * math.prod(sources) * math.prod(orders)
        if count > most:
            break
    if max(lists, count) > most:
        raise model.Fault('fault F15 TooManyCandidates')
    return count


def joined(rows, others):
    return [row | other for row, other in zip(rows, others)]


def has_cycle(rows):
    """Does a chain of edges come back? Takes away what has no edge to anything left, for as long as there is any."""
    before, left = 0, (1 << len(rows)) - 1
    while left != before:
        before, left = left, sum(1 << number for number, row in enumerate(rows) if left >> number & 1 and row & left)
    return left != 0


def rows_where(operations, is_edge):
    """A row for each of these operations, counted from 0. No edge enters an initial store: these are on no cycle."""
    return [sum(1 << at for at, b in enumerate(operations) if b is not a and is_edge(a, b)) for a in operations]


SOURCE_CAUSES = ('rf', 'co', 'fr', 'p2', 'p3', 'p12')       # those that look at sources or at coherence order
OTHER_RULES = (1, 4, 5, 6, 7, 8, 9, 10, 11, 13)             # of rule 4 the written fences alone are meant here


@functools.lru_cache(100000)
def is_ordered(a, b):
    """Does a rule that looks at no source put a before b?"""
    return any(model.Preserved({}, (), ()).rule(number, a, b) for number in OTHER_RULES)


@functools.lru_cache(10000)
def fenced(operations, slot, pair):
    """The edges of a fence with this pair at this slot."""
    return rows_where(operations.of_harts, lambda a, b: (
        model.po(a, b) and model.orders([pair], a, b) and model.runs_slot_between(slot, a, b)))


class Judged:
    """A candidate with the edges of its judged relation where no fence is placed."""

    def __init__(self, candidate, slots):
        self.candidate, self.slots, preserved = candidate, slots, model.Preserved(candidate.rf, (), ())
        self.rows = rows_where(candidate.operations.of_harts, lambda a, b: is_ordered(a, b) or any(
            candidate.is_edge(preserved, a, cause, b) for cause in SOURCE_CAUSES))

    def under(self, placement):
        """The judged relation under this placement."""
        pairs = [(slot, pair) for slot, kind in zip(self.slots, placement) for pair in model.PAIRS[kind]]
        return functools.reduce(joined, [fenced(self.candidate.operations, *it) for it in pairs], self.rows)

    def survives(self, placement):
        return not has_cycle(self.under(placement))

    def kept(self, placement):
        """At each slot pairs that fences may have all at once without a cycle, those of the placement included."""
        rows, kept = self.under(placement), [set(model.PAIRS[kind]) for kind in placement]
        for (slot, pairs), pair in itertools.product(zip(self.slots, kept), model.ALL_PAIRS):
            wider = joined(rows, fenced(self.candidate.operations, slot, pair))
            if not has_cycle(wider):
                rows = wider
                pairs.add(pair)
        return kept

    def witness(self, placement):
        """An execution under this placement, as a witness file has it."""
        operations, rows = self.candidate.operations, self.under(placement)
        before = {b: [a for a, row in enumerate(rows) if row >> b & 1] for b in range(len(rows))}
        order = [operations.of_harts[number].name for number in graphlib.TopologicalSorter(before).static_order()]
        return {'choices': [list(run.choices) for run in operations.runs], 'order': order}


class Problem:
    """A test and prices, with the candidates that a placement must break, where they are few enough to be listed."""

    def __init__(self, test, prices=ONES, most_listed=MOST_CANDIDATES):
        self.test, self.prices, self.slots = test, prices, tuple(test.slots())
        # of each slot what may stand there, in the order of precedence, and what it costs
        self.costs = [{None: 0, **{kind: prices.at(slot, kind) for kind in prices.offered}} for slot in self.slots]
        self.raw, self.candidates, self.live = count_candidates(test), 0, []
        self.is_listed = self.raw <= most_listed
        for candidate in model.candidates(test) if self.is_listed else ():
            self.candidates += 1
            judged = Judged(candidate, self.slots)
            if judged.survives((None,) * len(self.slots)):
                self.live.append(judged)

    def survivor(self, placement):
        """A candidate that this placement doesn't break, or None."""
        return next((live for live in self.live if live.survives(placement)), None)

    def cost(self, placement):
        return sum(costs[kind] for costs, kind in zip(self.costs, placement))


def solved(problem):
    """The first cheapest placement that forbids the outcome; or None. Each round takes the best placement that breaks
    all executions known so far. Where it leaves a candidate without a cycle that is an execution more to break, by its
    pairs kept; else it forbids the outcome, and nothing better does, as that would leave one of those known."""
    broken = [dict.fromkeys(costs, 0) for costs in problem.costs]       # of each option the executions, as bits
    for known in itertools.count():
        placement = model.cheapest(problem.costs, broken, (1 << known) - 1)
        live = None if placement is None else problem.survivor(placement)
        if live is None:
            return placement
        for breaks, pairs in zip(broken, live.kept(placement)):
            breaks.update({kind: bits | 1 << known for kind, bits in breaks.items() if not model.PAIRS[kind] <= pairs})


def lines_of(problem, placement):
    if placement is None:
        full = ('rw,rw',) * len(problem.slots)
        return ['none', json.dumps(problem.survivor(full).witness(full), separators=(',', ':'))]
    fences = [f'fence P{hart} {at} {kind}' for (hart, at), kind in zip(problem.slots, placement) if kind is not None]
    return [f'fenced {problem.cost(placement)}', *fences]


def answer(test, prices):
    """What is printed for this test and these prices, and of a fault on standard error, and the exit status."""
    try:
        problem = Problem(test, prices)
        placement = solved(problem)
    except model.Fault as fault:
        return '', f'{fault}\n', 2
    return ''.join(f'{line}\n' for line in lines_of(problem, placement)), '', 1 if placement is None else 0


def fault_of(data, reader=model.test_of):
    """The line of the fault of a test, or of prices by their reader; or READ."""
    try:
        reader(data)
    except model.Fault as fault:
        return str(fault)
    return READ


def read_witness(data):
    """The witness that these bytes are, or None. Where a key stands twice, the last one counts."""
    value = model.json_of(data)
    return value if model.has_form(value, model.WITNESS) else None


@functools.cache
def is_listed(path, most):
    """Has a test of examples/ so few lists of runs and candidates that they are listed here?"""
    try:
        count_candidates(model.read(f'{EXAMPLES}/{path}', model.test_of), most)
    except model.Fault as fault:
        return str(fault) != 'fault F15 TooManyCandidates'
    return True


def execution_of(test, text, placement):
    """The execution with these fences that this text is, or None."""
    witness = read_witness(text.encode())
    execution = model.execution_of(test, witness) if witness else None
    return execution if execution and execution.obeys_axioms(test.slots(), placement) else None


def is_same(test, wanted, found):
    """Are two answers of `solve` the same, where each right execution will do for `none`?"""
    if not wanted[0].startswith('none\n'):
        return wanted == found
    none, text, *more = found[0].split('\n')
    execution = execution_of(test, text, ('rw,rw',) * len(test.slots()))
    return (none, more, *found[1:]) == ('none', [''], '', 1) and execution is not None and execution.has_outcome()


def verdict_of(data):
    """What `test` says of these bytes, and the reference's problem of them. The outcome is vacuous where no runs have
    it with last words that these runs store, or else the location begins with."""
    test = model.test_of(data)
    problem = Problem(test)
    ends = [{(tuple(run.registers), frozenset(run.stores.values())) for run in runs} for runs in model.all_runs(test)]
    for each in itertools.product(*ends):
        registers, stored = [end for end, _ in each], frozenset().union(*[stores for _, stores in each])
        words = [[word for place, word in stored if place == address] or [first]
                 for address, first in test.words.items()]
        if any(model.truth(test.outcome, registers, dict(zip(test.words, last))) for last in itertools.product(*words)):
            return 'allowed' if problem.live else 'forbidden', problem
    return 'vacuous', problem


def named(condition):
    """The places of a condition: a hart and a register, or the address of a location."""
    if condition[0] in ('register', 'word'):
        return {condition[1]}
    return set().union(*map(named, condition[1:])) if condition[0] != 'constant' else set()


class Listing:
    """A test, the places that are shown of it, in their order, and where they are listed its executions, whatever its
    condition, as candidates without a cycle where no fence is placed. A state has the words of the places. Registers go
    by their names with x, and `locations [..]` isn't looked at."""

    def __init__(self, data, is_all=False, is_listed=True):
        test, free = model.test_of(data), model.test_of(data)
        free.outcome, free.wanted = ALWAYS, (ALWAYS, True)
        self.test, self.live = test, Problem(free).live if is_listed else None
        self.title = data.decode().split('\n', 1)[0].split()[1]
        places = named(test.wanted[0])
        if is_all:
            places |= {(hart, one.rd) for hart, code in enumerate(test.code) for one in code if one.rd}
            places |= set(test.words)
        self.places = sorted(places, key=lambda place: (type(place) is int, place))

    def state_of(self, runs, last_word):
        """The words with which these runs end, and each location by this function of its address."""
        return tuple(last_word(it) if type(it) is int else runs[it[0]].registers[it[1]] for it in self.places)

    def line_of(self, state):
        names = {address: name for name, address in self.test.addresses.items()}
        shown = [names[place] if type(place) is int else '%d:x%d' % place for place in self.places]
        return ' '.join(f'{place}={names.get(word, word)};' for place, word in zip(shown, state))

    def is_true(self, state):
        """Is the condition, without its quantifier, true of this state?"""
        words = dict(zip(self.places, state))
        registers = [[words.get((hart, register)) for register in range(32)] for hart in range(len(self.test.code))]
        return model.truth(self.test.wanted[0], registers, words)

    def ends_so(self, text, line, placement):
        """Is this the text of an execution with these fences that ends in the state of this line?"""
        execution = execution_of(self.test, text, placement)
        if execution is None:
            return False
        last = {store.address: store.stored for store in execution.gmo if store.stores}
        return self.line_of(self.state_of(execution.operations.runs, last.get)) == line

    def states(self, placement):
        """The final states of the executions with these fences."""
        candidates = [live.candidate for live in self.live if live.survives(placement)]
        return sorted({self.state_of(each.operations.runs, each.last.get) for each in candidates})

    def answer(self, placement, printed):
        """What `states` is to say of the test with these fences, which is printed so (docs/FORMAT.md, section 15)."""
        states, condition = self.states(placement), printed.rstrip('\n').rsplit('\n', 1)[-1]
        quantifier = condition.split(' ', 1)[0]
        positive = sum(map(self.is_true, states))
        negative = len(states) - positive
        is_met = {'exists': positive > 0, '~exists': positive == 0, 'forall': negative == 0}[quantifier]
        how_often = 'Never' if not positive else 'Sometimes' if negative else 'Always'
        lines = [f'Test {self.title} {WORDS[quantifier]}', f'States {len(states)}', *map(self.line_of, states),
                 'Ok' if is_met else 'No', 'Witnesses', f'Positive: {positive} Negative: {negative}',
                 f'Condition {condition}', f'Observation {self.title} {how_often} {positive} {negative}', '']
        return Said(''.join(f'{line}\n' for line in lines), '', 0)
