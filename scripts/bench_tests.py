"""The tests and files that scripts/bench measures. Two checks run some of the tests too. A hart is a line of words, as
scripts/transcripts/idioms.table says, which has idioms and locks that grow; words.table has what each word becomes."""
import itertools
import re

from litmus import test_text                                    # of this folder
from running import TOP, rows as rows_of_table, text_of

AND, OR = ' /\\ ', ' \\/ '
HELD = [f'x{at}' for at in (*range(20, 32), *range(1, 5))]      # registers for addresses and constants
FORMS = [row.split(' → ') for row in rows_of_table('words')]


class Hart:
    """The cells of a hart, the registers that it begins with, and the fences that are wanted, by the instruction."""

    def __init__(self, line):
        self.cells, self.entries, self.fences, self.held, self.count = [], {}, [], {'0': 'x0'}, 0
        for word in [*line.split(), 'OUT:']:
            parts, form = next((parts, cell) for form, cell in FORMS if (parts := re.fullmatch(form, word)))
            if cell := re.sub(r'\{(\w+)((?: \d)*)\}', lambda it, parts=parts: self.filled(parts, *it.groups()), form):
                self.cells.append(cell)
                self.count += cell[-1] != ':'

    def filled(self, parts, name, numbers):
        """A part of the word, or what the method of this name makes of the parts of these numbers."""
        if name.isdigit():
            return parts[int(name)]
        return getattr(self, name)(*[parts[int(number)] for number in numbers.split()]) or ''

    def fence(self, kind):
        self.fences.append((self.count, kind))

    def begin(self, register, value):
        self.entries[register] = value.lstrip('&')

    def of(self, value):
        """The register that has this value: a register itself, a number, or the address of a word as `&a`."""
        if not re.fullmatch(r'x\d+', value) and value not in self.held:
            self.held[value] = HELD[len(self.held) - 1]
            self.begin(self.held[value], value)
        return self.held.get(value, value)

    def place(self, place):
        """The operand for a word of memory."""
        pointer, _, offset = place.partition('+')
        return f'{offset or 0}({self.of(pointer[1:] if pointer[0] == "*" else "&" + pointer)})'


def test_of(name, lines, outcome, words=''):
    """A test as a file has it, of a line for each hart, and the lines that `solve` is to print below its first one."""
    harts = [Hart(line) for line in lines]
    entries = [f'{word.replace("&", "")};' for word in words.split()]
    entries += [f'{at}:{name}={value};' for at, hart in enumerate(harts) for name, value in hart.entries.items()]
    fences = [f'fence P{at} {slot} {kind}' for at, hart in enumerate(harts) for slot, kind in hart.fences]
    return test_text(name, entries, [hart.cells for hart in harts], f'exists {outcome}'), fences


def number(text, sizes):
    """A number that is written with the sizes: `3`, `n`, `n-1` or `2n`."""
    times, size, more = re.fullmatch(r'(\d*)([ns]?)([-+]\d+)?', text).groups()
    return int(times or 1) * sizes.get(size, 1) + int(more or 0)


def numbers(text, sizes):
    """Those of a range, or those below a number."""
    first, _, end = text.rpartition('..')
    first, end = number(first or '0', sizes), number(end, sizes)
    return range(first, end, 1 if first <= end else -1)


def rows(which, text):
    """The text for each of these numbers."""
    return [text.replace('#', str(at)).replace('$', str(at + 1)).replace('%', str(2 ** at)) for at in which]


def expanded(text, sizes):
    """The text with all that it says of numbers."""
    def each(found):
        how, atom, which = found.groups()
        made = rows(numbers(which or 'n', sizes), atom)
        if how == 'two':
            made = [f'({AND.join(pair)})' for pair in itertools.combinations(made, 2)]
        return f'({(AND if how == "every" else OR).join(made)})' if how else ' '.join(made)

    text = re.sub(r'\{(.*?)\}', lambda found: str(number(found[1], sizes)), text)
    return re.sub(r'(some|every|two|)«(.*?)(?:;([^;»]*))?»', each, text)


def of_table(name):
    """The tests of a stored table, and the lines of their fences, by their names."""
    found, table = {}, text_of(f'{TOP}/scripts/transcripts/{name}.table')
    for title, block in re.findall(r'(?m)^## (.+)\n((?:.+\n)+)', table):
        kind, *ranges = title.split()
        lines = [line for line in block.splitlines() if not line.startswith('# ')]
        sizes = [numbers(it, {}) if '..' in it else map(int, it.split(',')) for it in ranges]
        for each in itertools.product(*sizes):
            sizes, title = dict(zip('ns', each)), '-'.join([kind, *map(str, each)])
            words, *harts, outcome = [expanded(line, sizes) for line in lines]
            parts = [hart.split(': ', 1) for hart in harts]
            harts = [row for which, text in parts for row in rows(numbers(which, sizes), text)]
            found[title] = test_of(title, harts, outcome, words.removeprefix('words'))
    return found


def texts_of(table):
    """The texts of the tests of a stored table, by their names."""
    return {name: text for name, (text, _) in of_table(table).items()}


def at_least(count, atoms):
    if count == 1:
        return f'({OR.join(atoms)})'
    if count == len(atoms):
        return f'({AND.join(atoms)})'
    return f'(({atoms[0]} /\\ {at_least(count - 1, atoms[1:])}) \\/ {at_least(count, atoms[1:])})'


def votes(pairs, least, spare):
    """Pairs of harts with store buffering each, of which at least so many see it. Any pair may be the one without
    fences, so no few executions tell what an answer must cost, and the tree is wide. So many loads of another pair's
    word, of which the outcome doesn't speak, are dealt out to the harts besides, so that there are more candidates."""
    words = 'abcdefgh'[:2 * pairs]
    harts = [f'{word}=1 {f"x12={words[(at + 2) % len(words)]} " * len(range(at, spare, len(words)))}x10={words[at ^ 1]}'
             for at, word in enumerate(words)]
    seen = [f'({at}:x10=0 /\\ {at + 1}:x10=0)' for at in range(0, 2 * pairs, 2)]
    return test_of('votes', harts, f'({at_least(least, seen)})')[0]


def long_searches():
    """The texts of tests whose search takes long with one worker, by their names."""
    grown = texts_of('grown')
    return {name: grown.get(name) or votes(*map(int, name.split('-')[1:])) for name in rows_of_table('searches')}


PARTS = {'⏎': '\n', 'HEAD': 'RISCV T\n', 'BODY': '{ 0:x6=x; }\nP0 ;\nlw x5,0(x6) ;\n', 'TAIL': 'exists (0:x5=0)\n'}
TINY = PARTS['HEAD'] + PARTS['BODY'] + PARTS['TAIL']


def kinds_of_files():
    """Of each kind what stands before a unit, the unit, what stands after it, and the exit status of `place`."""
    for row in rows_of_table('files'):
        name, *texts, status = row.split(' ¦ ')
        for part, text in PARTS.items():
            texts = [it.replace(part, text) for it in texts]
        yield name, texts, int(status)


def file_of(before, unit, after, size):
    """The unit between the two texts as often as fits, or a balanced tree of `/\\`, which isn't deep."""
    room = size - len(before) - len(after)
    if unit == 'TREE':
        tree = 'x=0'
        while 2 * len(tree) + 6 <= room:
            tree = f'({tree} /\\ {tree})'
        return before + tree + after
    count = room // len(unit.replace('#', '000000'))
    return before + ''.join(unit.replace('#', f'{at:06}') for at in range(count)) + after
