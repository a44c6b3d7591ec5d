"""Tests with prices that the checks make at random, by a number, which makes the same ones each time.

They are small: one to four harts, stores, loads, AMOs, LR/SC, dependencies, branches, fences and annotations. Most
conditions are on final states that fences rule out."""
import itertools
import json
import random

import check_certificate as model                               # of this folder
import solve_reference as reference
from running import EXAMPLES, PRICE_LISTS, read

LOCATIONS = {'x6': 'x', 'x8': 'y', 'x10': 'z'}                 # which register has whose address
WORDS = {'x5': 1, 'x7': 2}
ANNOTATIONS = [''] * 4 + ['.aq', '.rl', '.aqrl']
MOST_CANDIDATES, MOST_PLACEMENTS = 300, 20000


def rows_of(columns):
    """The lines of a test that have these cells of each hart."""
    return [" | ".join(row) + " ;" for row in itertools.zip_longest(*columns, fillvalue="")]


def test_text(name, entries, harts, condition):
    """A test in the printed form: lines of its init block, the cells of each hart, and the line of its condition."""
    rows = rows_of([[f"P{hart}", *cells] for hart, cells in enumerate(harts)])
    return "\n".join([f"RISCV {name}", "{", *entries, "}", *rows, condition, ""])


def fence_of(kind):
    """The FENCE of this kind; of None nothing."""
    return 'fence.tso' if kind == 'tso' else f'fence {kind}' if kind else ''


FENCES = [*map(fence_of, model.KINDS), 'fence']


class Code:
    """The code of a hart in the making."""

    def __init__(self, chance, locations):
        self.choice, self.random, self.addresses = chance.choice, chance.random, sorted(LOCATIONS)[:locations]
        self.cells, self.accesses = [], 0
        self.loaded = []                # the registers that loads have written

    def fresh(self):
        """A register that nothing has written."""
        return f'x{11 + len(self.cells)}'

    def access(self, cell, register=None):
        """Adds an access, which loads to this register, or to none."""
        self.cells.append(cell)
        self.accesses += 1
        self.loaded += [register] if register else []

    def data(self):
        """A register to store: a word, or what was loaded."""
        return self.choice([*WORDS, *self.loaded, 'x0'])

    def address(self):
        """A register with an address, now and then by a dependency on what was loaded, or what was loaded itself."""
        base = self.choice(self.addresses)
        if not self.loaded or self.random() < 0.75:
            return base
        if self.random() < 0.1:
            return self.choice(self.loaded)
        zero, loaded = self.fresh(), self.choice(self.loaded)
        self.cells.append(f'xor {zero},{loaded},{loaded}')
        address = self.fresh()
        self.cells.append(f'add {address},{zero},{base}')
        return address

    def load(self):
        address, register = self.address(), self.fresh()
        self.access(f'lw {register},0({address})', register)

    def store(self):
        address = self.address()
        self.access(f'sw {self.data()},0({address})')

    def amo(self):
        address, register = self.address(), self.fresh()
        name = self.choice(['amoswap.w', 'amoswap.w', 'amoadd.w', 'amoor.w', 'amomaxu.w']) + self.choice(ANNOTATIONS)
        self.access(f'{name} {register},{self.data()},({address})', register)

    def pair(self):
        """lr.w and sc.w, with a look between now and then."""
        address, register = self.address(), self.fresh()
        self.access(f"lr.w{self.choice(['', '', '.aq', '.aqrl'])} {register},({address})", register)
        if self.random() < 0.3:
            self.branch()
        result = self.fresh()
        name = f"sc.w{self.choice(['', '', '.rl', '.aqrl'])}"
        self.access(f'{name} {result},{self.data()},({address})', result)

    def branch(self):
        if self.loaded:
            name = self.choice(['beq', 'bne'])
            self.cells.append(f"{name} {self.choice(self.loaded)},{self.choice(['x0', 'x5'])},OUT")

    def fence(self):
        self.cells.append(self.choice(FENCES))

    def make(self, accesses):
        kinds = [self.load] * 5 + [self.store] * 5 + [self.amo] * 2 + [self.pair, self.branch, self.fence]
        while self.accesses < accesses and len(self.cells) < 12:
            self.choice(kinds)()
        return [*self.cells, 'OUT:']


def made_prices(chance, slots):
    """One of the lists of examples/ as it is, or made."""
    if chance.random() < 0.4:
        return json.loads(read(f'{EXAMPLES}/{chance.choice(PRICE_LISTS)}'))
    most = chance.choice([2, 4, 12])
    offered = chance.sample(model.KINDS, chance.randint(1, 6))
    prices = {kind: chance.randint(1, most) for kind in sorted({*offered, 'rw,rw'})}
    if chance.random() < 0.5:
        prices['weights'] = {f'P{hart}:{at}': chance.randint(0, 3) for hart, at in slots if chance.random() < 0.5}
    return {key: prices[key] for key in sorted(prices)}


def made_test(number):
    """The bytes of the test and the prices of a number. Most have final states that are there without fences and not
    with all."""
    def text(condition):
        registers = sorted(LOCATIONS.items()) + sorted(WORDS.items())
        entries = [f'{hart}:{register}={value};' for hart in range(len(codes)) for register, value in registers]
        return test_text(f'made{number}', entries + words, codes, condition).encode()

    chance = random.Random('solve %d' % number)
    tries = chance.choice([1, 20, 20, 20])
    while True:
        harts, locations = chance.choice([1, 2, 2, 2, 2, 2, 3, 3, 4]), chance.choice([1, 2, 2, 2, 3])
        codes = [Code(chance, locations).make(chance.randint(2, 6 - harts)) for _ in range(harts)]
        words = ['%s=%s;' % (name, chance.choice([0] * 6 + [1, 2, 'z'])) for name in LOCATIONS.values()]
        test = model.test_of(text('exists (true)'))
        data = json.dumps(made_prices(chance, test.slots())).encode()
        prices = model.prices_of(data)
        if (1 + len(prices.offered)) ** len(test.slots()) > MOST_PLACEMENTS:
            continue
        try:
            reference.count_candidates(test, MOST_CANDIDATES)
            live, fences = reference.Problem(test, prices).live, ('rw,rw',) * len(test.slots())
        except model.Fault as fault:
            if str(fault).startswith('fault F14') and chance.random() < 0.1:
                return text('exists (true)'), data
            continue
        tries -= 1
        states = sorted({state_of(it.candidate) for it in live}
                        - {state_of(it.candidate) for it in live if it.survives(fences)})
        if states or tries <= 0:
            if not states or chance.random() < 0.15:
                states = sorted({state_of(candidate) for candidate in model.candidates(test)})
            # a condition that is true of one or two of these final states
            chosen = chance.sample(states, min(len(states), chance.choice([1, 1, 1, 2])))
            states = ' \\/ '.join('(%s)' % (' /\\ '.join(state) or 'true') for state in chosen) or 'false'
            form = chance.choice(['exists (%s)', 'exists (%s)', '~exists (%s)', 'forall (~(%s))'])
            return text(form % states), data


def state_of(candidate):
    """The words at the end, as atoms: of registers that come from memory, and of locations."""
    test, runs = candidate.operations.test, candidate.operations.runs
    loaded = [(hart, test.code[hart][at].rd) for hart, at in test.memory_instructions()]
    atoms = ['%d:x%d=%d' % (hart, register, runs[hart].registers[register]) for hart, register in loaded if register]
    return *atoms, *('%s=%d' % (name, candidate.last[address]) for name, address in test.addresses.items())
