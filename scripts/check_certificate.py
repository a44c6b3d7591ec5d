#!/usr/bin/env python3
"""Checks a certificate of an answer, in plain Python.

    scripts/check_certificate.py [--zalasr] TEST PRICES CERTIFICATE
    scripts/check_certificate.py [--zalasr] --sites [--free] FILE.. PRICES CERTIFICATE

It is written from docs/CERTIFICATE.md, docs/REFUTATIONS.md, docs/FORMAT.md and docs/MODEL.md alone, and shares no code
with the program. The sections below name the part of these documents that they follow.

It prints `yes` and the answer, status 0; or `no: ` and the first reason of docs/CERTIFICATE.md, section 5, status 1.
Bytes that are no certificate are `fault F18 BadCertificate` on standard error, and any other file that can't be read
is another line there, with the fault that the program finds in it; both have status 2."""
import collections
import contextlib
import functools
import itertools
import json
import math
import operator
import re
import sys

WORDS = 2 ** 32
MOST_RUNS = 100000                  # of a hart


class Unreadable(Exception):
    """A file isn't what it should be, or a test's runs can't be listed."""


class Fault(Unreadable):
    """The fault of a test, of its runs, of a price list or of a certificate file, as its line says it."""


class Refused(Exception):
    """The certificate isn't valid, for this reason."""


def ask(holds, reason):
    """Refuses the certificate for this reason where what it asks for doesn't hold."""
    if not holds:
        raise Refused(reason)


# --- JSON as the formats ask for it ------------------------------------------------------------------------------

OTHER_NUMBER = object()         # stands for each that isn't a whole number from 0 to 2^64 - 1; no key takes it


def number_of_json(text):
    """The number that JSON writes so. `-0` is no whole one, and one that no double can hold makes no file; neither do
    NaN and the infinities, which Python reads and JSON doesn't have."""
    if not math.isfinite(float(text)):
        raise ValueError(text)
    return int(text) if re.fullmatch('[0-9]{1,20}', text) and int(text) < 2 ** 64 else OTHER_NUMBER


def json_of(data):
    """The value that these bytes write, RFC 8259 in UTF-8; of a doubled key the last one counts. None, as of `null`,
    where they are no such text, as half a surrogate pair isn't, which Python takes; or one that is nested too deep."""
    try:
        text = data.decode('utf-8')
        strings = re.findall(r'"(?:[^"\\]|\\.)*"', text, re.DOTALL)
        ''.join(json.loads('[%s]' % ','.join(strings))).encode('utf-8')         # which half a pair can't be
        brackets = re.sub(r'"(?:[^"\\]|\\.)*"|[^][{}"]+|"', '', text, flags=re.DOTALL)
        depths = itertools.accumulate(1 if bracket in '[{' else -1 for bracket in brackets)
        how = dict.fromkeys(['parse_int', 'parse_float', 'parse_constant'], number_of_json)
        return json.loads(text, **how) if max(depths, default=0) <= 127 else None
    except (ValueError, RecursionError):
        return None


def is_whole(value, below=2 ** 64):
    return type(value) is int and value < below


def has_form(value, form):
    """Is this an object with these keys, a list of such entries, a list with an entry for each of these, a text of this
    pattern, a value of this type, this very value, or what a function says?"""
    if type(form) is dict:
        return type(value) is dict and value.keys() == form.keys() and all(has_form(value[it], form[it]) for it in form)
    if type(form) is list:
        return type(value) is list and all(has_form(entry, form[0]) for entry in value)
    if type(form) is tuple:
        return type(value) is list and len(value) == len(form) and all(map(has_form, value, form))
    if type(form) is re.Pattern:
        return type(value) is str and form.fullmatch(value) is not None
    if type(form) is type:
        return type(value) is form
    return form(value) if callable(form) else type(value) is type(form) and value == form


# --- Kinds of fences (FORMAT 3, MODEL 7) -------------------------------------------------------------------------

def product_of(before, after):
    """The pairs of the fence `before,after`; its letters i and o order nothing here."""
    return frozenset(p + s for p in before.upper() for s in after.upper() if p in 'RW' and s in 'RW')


TSO = frozenset(['RR', 'RW', 'WW'])
KINDS = ['r,r', 'r,w', 'r,rw', 'w,r', 'w,w', 'w,rw', 'rw,r', 'rw,w', 'rw,rw', 'tso']
PAIRS = {None: frozenset(), **{kind: TSO if kind == 'tso' else product_of(*kind.split(',')) for kind in KINDS}}
ALL_PAIRS = ['RR', 'RW', 'WR', 'WW']


# --- Tests (FORMAT 1, 2, 9 and 10) -------------------------------------------------------------------------------

REGISTER_NAMES = ('zero ra sp gp tp t0 t1 t2 s0 s1 a0 a1 a2 a3 a4 a5 a6 a7 '
                  's2 s3 s4 s5 s6 s7 s8 s9 s10 s11 t3 t4 t5 t6').split()
REGISTERS = {'fp': 8, **{name: at for at, short in enumerate(REGISTER_NAMES) for name in (short, 'x%d' % at)}}


def signed(word):
    return word - WORDS if word >= WORDS // 2 else word


COMPARES = {
    'eq': operator.eq, 'ne': operator.ne,
    'ltu': operator.lt, 'geu': operator.ge, 'gtu': operator.gt, 'leu': operator.le,
    'lt': lambda a, b: signed(a) < signed(b), 'ge': lambda a, b: signed(a) >= signed(b),
    'gt': lambda a, b: signed(a) > signed(b), 'le': lambda a, b: signed(a) <= signed(b)}
COMPUTES = {
    'add': operator.add, 'sub': operator.sub, 'xor': operator.xor, 'or': operator.or_, 'and': operator.and_,
    'sll': lambda a, b: a << (b & 31), 'srl': lambda a, b: a >> (b & 31), 'sra': lambda a, b: signed(a) >> (b & 31),
    'slt': COMPARES['lt'], 'sltu': operator.lt, 'swap': lambda a, b: b, 'minu': min, 'maxu': max,
    'min': lambda a, b: min(a, b, key=signed), 'max': lambda a, b: max(a, b, key=signed)}
RANGES = {'i': (-2048, 2047), 'm': (-2048, 2047), 'n': (0, 31), 'u': (0, 2 ** 20 - 1), 'c': (-2 ** 31, WORDS - 1),
          'o': (0, 0)}
FORMS = {
    'lui': ('d,u', 'compute', operator.add), 'li': ('d,c', 'compute', operator.add),
    'nop': ('', 'compute', operator.add), 'mv': ('d,s', 'compute', operator.add),
    'neg': ('d,s', 'compute', lambda a, b: -a), 'not': ('d,s', 'compute', lambda a, b: ~a),
    'sext.w': ('d,s', 'compute', operator.add), 'sltiu': ('d,s,i', 'compute', operator.lt),
    'jal': ('z,l', 'jump', None), 'j': ('l', 'jump', None), 'fence': ('f,f', 'fence', None),
    'fence.tso': ('', 'fence', None), 'fence.i': ('', 'fence', None)}
"""Of each instruction (FORMAT 2) its operands, its form, and what it computes or when it jumps. Operands are d, the
register rd; s, one to read plainly; v, the data; a, the address; z, the register x0; l, a label; f, the letters of a
fence; and the numbers of RANGES, of which m and o may be left out before `(`. Other signs stand for themselves."""
for _name in ['add', 'sub', 'xor', 'or', 'and', 'sll', 'srl', 'sra', 'slt', 'sltu']:
    FORMS[_name] = ('d,s,s', 'compute', COMPUTES[_name])
for _name in ['add', 'xor', 'or', 'and', 'slt', 'sll', 'srl', 'sra']:
    FORMS[_name + 'i'] = ('d,s,n' if _name in ('sll', 'srl', 'sra') else 'd,s,i', 'compute', COMPUTES[_name])
for _name in ['add', 'sub', 'sll', 'srl', 'sra', 'neg', 'addi', 'slli', 'srli', 'srai']:
    FORMS[_name + 'w'] = FORMS[_name]                               # of the low 32 bits, which are all here
for _name, _compare in COMPARES.items():
    FORMS['b' + _name] = ('s,s,l', 'branch', _compare)
    if not _name.endswith('u'):
        FORMS['b%sz' % _name] = ('s,l', 'branch', _compare)         # with 0
    if _name in ('eq', 'ne', 'lt', 'gt'):
        FORMS['s%sz' % _name] = ('d,s', 'compute', _compare)
for _bits in ['', '.aq', '.rl', '.aqrl', '.aq.rl']:
    FORMS['lw' + _bits] = ('d,m(a)', 'load', None)
    FORMS['sw' + _bits] = ('v,m(a)', 'store', None)
    FORMS['lr.w' + _bits] = ('d,o(a)', 'lr', None)
    FORMS['sc.w' + _bits] = ('d,v,o(a)', 'sc', None)
    for _name in ['swap', 'add', 'xor', 'and', 'or', 'min', 'max', 'minu', 'maxu']:
        FORMS['amo%s.w%s' % (_name, _bits)] = ('d,v,o(a)', 'amo', COMPUTES[_name])


class Instruction:
    """An instruction of this name, with its roles: registers to read for the address, the data and plainly, and the one
    to write. Are these words behind its name right?"""

    def __init__(self, name, words):
        # the form is compute, load, store, lr, sc, amo, branch, jump or fence; the function what is computed, or when
        # the branch jumps
        operands, self.form, self.function = FORMS[name]
        self.rd, self.plain, self.address, self.data = 0, (), None, None
        self.number = 0             # immediate or offset
        self.label = None           # where a branch goes: a name, and once all labels are known, a position
        self.acquires = self.releases = False
        self.letters, self.pairs = (), frozenset()      # of a written fence, and what it orders
        if name == 'fence' and not words:
            words = ['iorw', ',', 'iorw']
        self.is_right = all(self.take(operand, words) for operand in operands) and not words
        aq, rl = '.aq' in name, name.endswith('rl') and '.' in name
        self.acquires = aq and (rl or self.form not in ('store', 'sc'))
        self.releases = rl and (aq or self.form not in ('load', 'lr'))
        if self.is_right and self.form == 'fence' and name != 'fence.i':
            self.pairs = product_of(*self.letters) if self.letters else TSO

    def is_memory(self):
        return self.address is not None

    def take(self, operand, words):
        """Takes an operand of FORMS off the words, into its place here. Is it one?"""
        if operand in 'mo' and words[:1] == ['(']:
            return True
        is_negative = operand in RANGES and words[:1] == ['-']
        word = ''.join(words[is_negative:is_negative + 1])
        del words[:is_negative + 1]
        if operand in RANGES:
            least, greatest = RANGES[operand]
            number = number_of(word) if is_number(word) else math.inf       # which is in no range
            number = -number if is_negative else number
            self.number = (number * 4096 if operand == 'u' else number) % WORDS
            return least <= number <= greatest
        if operand in 'dsvaz':
            register = REGISTERS.get(word)
            if operand == 's':
                self.plain += (register,)
            elif operand != 'z':
                setattr(self, {'d': 'rd', 'a': 'address', 'v': 'data'}[operand], register)
            return register is not None and (operand != 'z' or register == 0)
        if operand == 'l':
            is_numbered = re.fullmatch('[0-9]+[fb]', word) and number_of(word[:-1]) < WORDS
            self.label = word.removesuffix('f') if is_numbered else word
            return is_numbered or is_name(word)
        if operand == 'f':
            self.letters += (word,)
            return re.fullmatch('(?=.)i?o?r?w?', word) is not None
        return word == operand


TOKEN = re.compile(r'(\(\*|\*\))|([A-Za-z0-9_.]+|/\\|\\/|[^ \t\r])')
"""A sign of a comment; or a token, or a line end."""
SIGNS = {*'{};|,:=()[]~-*&<>!', '/\\', '\\/'}
FAULTS = {3: 'Syntax', 4: 'UnknownInstr', 5: 'BadAnnotation', 6: 'BadLabel', 7: 'BadInit'}
READS_ORDERED = False       # whether annotations of lw and sw are read
# Is this token a number, any word, a name, lw or sw with annotations, the mnemonic of an access?
is_number = re.compile('0x[0-9A-Fa-f]+|[0-9]+').fullmatch
is_word = re.compile('[A-Za-z0-9_.]').match
is_name = re.compile('[A-Za-z_][A-Za-z0-9_]*').fullmatch
is_ordered = re.compile(r'[ls]w\..*').fullmatch
is_access = re.compile(r'([ls]|(?:lr|sc|amo[a-z]+)\.)([wd])(u|\..*|)').fullmatch     # the second part is its width


def number_of(token):
    """The number that this token is. One of many digits is in no range."""
    base = 16 if token.startswith('0x') else 10
    digits = token.removeprefix('0x').lstrip('0') or '0'
    return int(digits, base) if len(digits) <= 20 else 10 ** 20


def narrow(columns, is_forced):
    """Puts accesses of a word in the place of those of 64 bits, where there are no others (FORMAT 22), or it is forced.
    Returns the line of the first access, row by row, that has another width than the first one."""
    found = []
    for words, lines in filter(None, itertools.chain(*itertools.zip_longest(*columns))):
        at = next(at for at in itertools.count(0, 2) if words[at + 1:at + 2] != [':'])
        if at < len(words) and (access := is_access(words[at])):
            found.append((words, at, access, lines[at]))
    others = [line for *_, access, line in found if access[2] != found[0][2][2]]
    if is_forced or not others:
        for words, at, access, _ in found:
            words[at] = access[1] + 'w' + access[3]
    return others[0] if others else None


def joined(stack, right, signs):
    """The condition at the right of these signs, once those are off the stack. A condition has its tree and its depths,
    as grouped and as written; a denial and an open parenthesis have nothing at their left."""
    while stack and stack[-1][0] in signs:
        sign, tree, grouped, written = stack.pop()
        joint = 'and' if sign == '/\\' else 'or', tree, right[0]
        right = denied(*right) if sign == '~' else (joint, 1 + max(grouped, right[1]), max(written, right[2]))
    return right


def denied(tree, grouped, written):
    return ('not', tree), grouped + 1, written + 1


class Test:
    """A test, which is read by its tokens. Where the form breaks, that is its fault; else the least of those noted is.
    It has code, words at the beginning, and the condition whose truth is the outcome."""

    def __init__(self, text, line, last, has_one_width=False):
        self.tokens, self.lines, self.at = [], [], 0            # tokens, the line of each, and a place among them
        self.faults, self.has_bad_atom = [], False              # faults have a number and a line
        self.code = []              # of each hart its instructions
        self.registers = []         # of each hart the words of its registers at the beginning
        self.addresses = {}         # of each location, by name and in order
        self.words = {}             # the word at each address at the beginning
        self.labels = []            # hart and place, name and line of each label that names a site
        depth = 0                               # comments nest
        for sign, token in (found.groups() for found in TOKEN.finditer(text)):
            if token == '\n':
                line += 1
            elif sign == '(*' or sign and depth:
                depth += 1 if sign == '(*' else -1
            elif not depth:
                words = [token] if token else ['*', ')']        # which is no sign outside of comments
                self.tokens += words
                self.lines += [line] * len(words)
        # the end, with what `peek` may see behind it; and before it the sign of a comment that isn't closed
        self.tokens += ['(*'] * (depth > 0) + [''] * 3
        self.lines += [last, last]
        self.read(has_one_width)

    def peek(self, ahead=0):
        """The token here, or the empty text at the end."""
        return self.tokens[self.at + ahead]

    def next(self, is_wanted):
        """Takes the token here, where it is wanted; else the form breaks here."""
        if not is_wanted(self.peek()):
            raise Fault('fault F3 Syntax line %d' % self.lines[self.at])
        self.at += 1
        return self.tokens[self.at - 1]

    def expect(self, *wanted):
        return self.next(lambda token: token in wanted)

    def accept(self, wanted):
        """Takes the token here, where it is this one. Is it?"""
        is_here = self.peek() == wanted
        self.at += is_here
        return is_here

    def skip_to(self, *ends):
        """Goes on to the first of these tokens."""
        while self.peek() not in ends:
            self.next(lambda token: is_word(token) or token in SIGNS)

    def location(self):
        """The address of the location of this name, which declares it where it is new."""
        address = self.addresses.setdefault(self.next(is_name), 4096 + 16 * len(self.addresses))
        self.words.setdefault(address, 0)
        return address

    def target(self):
        """A location's address, or hart and register, which is None where there is none of this name."""
        if is_number(self.peek()):
            hart = number_of(self.next(is_number))
            self.expect(':')
            return hart, REGISTERS.get(self.next(is_word))
        if not self.accept('['):
            return self.location()
        address = self.location()
        self.expect(']')
        return address

    def value(self):
        """A word, or None where the number is out of range."""
        if is_name(self.peek()):
            return self.location()
        number = (-1 if self.accept('-') else 1) * number_of(self.next(is_number))
        return number % WORDS if -2 ** 31 <= number < WORDS else None

    def entries(self):
        """The entries of the init block: line, target and value of each. A type may stand before it and is skipped."""
        self.expect('{')
        while not self.accept('}'):
            while is_name(self.peek()) and (is_word(self.peek(1)) or self.peek(1) in ('[', '*')):
                self.next(is_name)
                self.accept('*')
            line, target, word = self.lines[self.at], self.target(), 0
            if self.accept('='):
                word = self.location() if self.accept('&') else self.value()
            yield line, target, word
            if self.peek() != '}':
                self.expect(';')

    def columns(self):
        """Of each hart its cells: tokens and their lines."""
        columns = []
        while not columns or self.expect('|', ';') == '|':
            self.expect('P%d' % len(columns))
            columns.append([])
        while self.peek() not in ('locations', 'exists', 'forall', '~'):
            for cells in columns:
                start = self.at
                self.skip_to('|', ';')
                cells.append((self.tokens[start:self.at], self.lines[start:self.at]))
                self.expect('|' if cells is not columns[-1] else ';')
        return columns

    def is_said(self, *words):
        """Does one of these words stand here, and name no location?"""
        is_implying = self.peek() != 'not' and (self.peek(1), self.peek(2)) == ('=', '>')
        return self.peek() in words and (is_implying or self.peek(1) not in ('=', '<', '!'))

    def atom(self):
        """An atom, `true` or `false`, with its depths. Its sign is `=` or `==`, else `<>` or `!=`."""
        if self.is_said('true', 'false'):
            return ('constant', self.next(is_word) == 'true'), 0, 0
        target, sign = self.target(), self.expect('=', '<', '!')
        if sign != '=' or self.peek() == '=':
            self.expect('>' if sign == '<' else '=')
        value, is_register = self.value(), type(target) is tuple
        is_there = not is_register or target[0] < len(self.registers) and target[1] is not None
        self.has_bad_atom |= value is None or not is_there
        found = 'register' if is_register else 'word', target, value
        return (found, 0, 0) if sign == '=' else denied(found, 0, 0)

    def condition(self):
        """The condition, and its depth, both as written and as grouped. The stack has what is open: parentheses,
        denials, and connectives with what they join to the left."""
        stack = []
        while True:
            while self.peek() in ('(', '~') or self.is_said('not'):
                stack.append(('(' if self.expect('(', '~', 'not') == '(' else '~', None, 0, 0))
            found = joined(stack, self.atom(), ('~', '/\\'))
            while self.peek() == ')' and any(sign == '(' for sign, *_ in stack):
                self.expect(')')
                tree, grouped, written = joined(stack, found, ('\\/', '=>'))
                stack.pop()
                found = joined(stack, (tree, grouped, written + 1), ('~', '/\\'))
            if not any(sign == '(' for sign, *_ in stack) and (self.accept(';') or not self.peek()):
                if self.peek():
                    self.expect()                       # nothing stands behind the condition
                tree, *depths = joined(stack, found, ('\\/', '=>'))
                return tree, max(depths)
            sign = self.expect('/\\', '\\/', '=')
            if sign != '/\\':
                found = joined(stack, found, ('\\/',))
            if sign == '=':
                sign += self.expect('>')
                found = joined(stack, denied(*found), ('=>',))
            stack.append((sign, *found))

    def read(self, has_one_width):
        entries, columns = list(self.entries()), self.columns()
        self.other_width = narrow(columns, has_one_width)       # the line of an access, where not all have one width
        self.registers = [[0] * 32 for _ in columns]
        if self.accept('locations'):
            self.expect('[')
            self.skip_to(']')
            self.expect(']')
        quantifier = self.expect('exists', 'forall', '~')
        if quantifier == '~':
            self.expect('exists')
        condition, depth = self.condition()
        for cells in columns:
            self.code.append(self.code_of(cells))
        # the condition, and the truth value that it has where the outcome is; and the condition of that
        self.wanted = (condition, quantifier != 'forall')
        self.outcome = ('not', condition) if quantifier == 'forall' else condition
        self.end(entries, depth)

    def code_of(self, cells):
        """The instructions of a hart, whose cells are tokens and their lines. Each branch must go to a later place."""
        code, places, labels, ends = [], [], {}, {words[-1] for words, _ in cells if words}     # what branches name
        for words, lines in cells:
            at = 0
            while words[at + 1:at + 2] == [':'] and (is_name(words[at]) or is_number(words[at])):
                if words[at] in labels:
                    self.faults.append((6, lines[at]))
                elif is_name(words[at]) and words[at] not in ends:
                    self.labels.append(((len(self.code), len(code)), words[at], lines[at]))
                labels.setdefault(words[at], len(code))
                at += 2
            if at == len(words):
                continue
            is_known = words[at] in FORMS and (READS_ORDERED or not is_ordered(words[at]))
            made = Instruction(words[at], words[at + 1:]) if is_known else None
            if is_word(words[at]) and made is None:
                self.faults.append((4, lines[at]))
            elif made is None or not made.is_right:
                self.faults.append((3, lines[0]))
            elif words[at] in ('lr.w.rl', 'sc.w.aq', 'lw.rl', 'sw.aq'):
                self.faults.append((5, lines[at]))
            else:
                code.append(made)
                places.append(lines[at])
        for at, (made, line) in enumerate(zip(code, places)):
            if made.label is not None:
                made.label = labels.get(made.label, -1)
                self.faults += [(6, line)] * (made.label <= at)
        return code

    def end(self, entries, depth):
        """Gives registers and locations their words at the beginning, and raises the test's fault, if it has one."""
        seen, harts = set(), len(self.registers)
        for line, target, word in entries:
            is_register = type(target) is tuple
            is_there = not is_register or target[0] < harts and target[1]       # but for x0
            if word is None or not is_there or target in seen:
                self.faults.append((7, line))
            elif is_register:
                self.registers[target[0]][target[1]] = word
            else:
                self.words[target] = word
            seen.add(target)
        if self.faults:
            number, line = min(self.faults)
            raise Fault('fault F%d %s line %d' % (number, FAULTS[number], line))
        if self.has_bad_atom:
            raise Fault('fault F8 BadCondition')
        code = self.code
        counts = [('harts', len(code), 8), ('instructions', max(map(len, code)), 32),
                  ('accesses', sum(made.is_memory() for each in code for made in each), 48),
                  ('locations', len(self.addresses), 8), ('depth', depth, 64)]
        for what, count, most in counts:
            if count > most:
                raise Fault('fault F9 TooBig %s' % what)

    def memory_instructions(self):
        """Hart and instruction of each memory instruction."""
        return [(hart, at) for hart, code in enumerate(self.code) for at, it in enumerate(code) if it.is_memory()]

    def slots(self):
        """Hart and instruction of each slot: before a memory instruction whose hart has an earlier one (FORMAT 3)."""
        return [after for before, after in itertools.pairwise(self.memory_instructions()) if before[0] == after[0]]


def test_of(data):
    """The test that these bytes are, or its fault is raised. Lines of blanks and comments stand before the title."""
    if len(data) > 2 ** 20:
        raise Fault('fault F20 ReadFault')
    try:
        text = data.decode('utf-8')
    except UnicodeDecodeError:
        raise Fault('fault F1 BadUtf8')
    start = depth = 0
    for found in TOKEN.finditer(text):
        depth += {'(*': 1, '*)': -1}.get(found[1], 0)
        if not depth and found[2] == '\n':
            start = found.end()
        elif depth < 0 or not depth and found[2]:
            break
    title = re.compile(r'RISCV[ \t\r]+[^ \t\r\n].*\n?').match(text, start)
    if not title:
        raise Fault('fault F2 NotRiscv')
    block = re.compile(r'^[ \t\r]*\{', re.MULTILINE).search(text, title.end())
    start = block.start() if block else len(text)
    last = text.count('\n') + (not text.endswith('\n'))
    form = text[start:], text.count('\n', 0, start) + 1, last
    try:
        return Test(*form)
    except Fault as fault:
        with contextlib.suppress(Fault):
            if line := Test(*form, True).other_width:       # so it would be a test
                fault = Fault('fault F24 BothWidths line %d' % line)
        raise fault


def truths(condition, of_atom):
    """The truth values that the condition may have, where an atom may have those that `of_atom` gives."""
    match condition:
        case 'constant', value:
            return {value}
        case 'not', part:
            return {not value for value in truths(part, of_atom)}
        case ('and' | 'or') as joint, *parts:
            found = [truths(part, of_atom) for part in parts]
            ways = {joint == 'or': any, joint == 'and': all}        # one part decides, or all do
            return {value for value, way in ways.items() if way(value in each for each in found)}
    return of_atom(*condition)


def truth(condition, registers, words):
    """Is the condition true of these registers and words at addresses? None where a word that counts isn't known."""
    def of_atom(kind, place, word):
        if kind == 'register':
            return {registers[place[0]][place[1]] == word}
        return {words[place] == word} if place in words else {True, False}

    found = truths(condition, of_atom)
    return True in found if len(found) == 1 else None


# --- Prices (FORMAT 4) -------------------------------------------------------------------------------------------

class Prices:
    """The offered kinds in the order of the table, and what they cost at each slot."""

    def __init__(self, price, weight):
        self.price, self.weight = price, weight
        self.offered = [kind for kind in KINDS if kind in price]

    def at(self, place, kind):
        """What this kind costs at this slot, or at the site of this name."""
        name = place if type(place) is str else 'P%d:%d' % place
        return self.price[kind] * self.weight.get(name, 1)


def prices_of(data, of_sites=False):
    """The price list that these bytes are, with weights of slots, or of sites. Raises its fault, where it has one."""
    value = json_of(data)
    weight = value.pop('weights', {}) if type(value) is dict else None
    if not (type(weight) is dict and all(is_whole(it, 1001) for it in weight.values())
            and (of_sites or all(map(BYTE_NAME.fullmatch, weight)))
            and all(kind in KINDS and is_whole(price, 1000001) and price > 0 for kind, price in value.items())):
        raise Fault('fault F10 BadPrices')
    if 'rw,rw' not in value:
        raise Fault('fault F11 NoTop')
    return Prices(value, weight)


# --- Runs (MODEL 1, 3 and 8) -------------------------------------------------------------------------------------

class NoRun(Exception):
    """Choices make no whole run."""


class GoesAstray(NoRun):
    """A run accesses an address of no location, at this position."""


class ChoicesEnd(NoRun):
    """The choices are too few: a word for a load at this address comes next, or else success or failure, as can be."""


class Step:
    """One executed instruction, and its access, where it makes one: then it is an operation (MODEL 2), a load, a store
    or both. An initial store is one of no hart. `origins` has for each of its sources the steps on which it depends."""

    def __init__(self, run=None, position=None, instruction=None, address=None, stored=None):
        self.run, self.position, self.instruction = run, position, instruction
        self.hart = run.hart if run else None
        self.name = 'P%d:%d' % (run.hart, position) if run else None
        self.origins = {}
        self.accesses(address, stored=stored)

    def accesses(self, address, loaded=None, stored=None):
        self.address, self.loaded, self.stored = address, loaded, stored
        self.loads, self.stores = loaded is not None, stored is not None
        self.classes = 'R' * self.loads + 'W' * self.stores

    def depends(self, step, *registers):
        """Does this step depend on that one through one of these sources?"""
        return any(step in self.origins.get(register, ()) for register in registers)


class Run:
    """The run of a hart that these choices make."""

    def __init__(self, test, hart, choices):
        self.test, self.hart, self.choices, self.used = test, hart, choices, 0
        self.steps, self.pairs = [], []         # the pairs are of lr.w and sc.w
        self.registers, self.origins = list(test.registers[hart]), [frozenset()] * 32
        self.reserving = None                   # the lr.w with which an sc.w here would be paired
        position = 0
        while position < len(test.code[hart]):
            position = self.execute(position)
        if self.used < len(choices):
            raise NoRun()
        self.operations = [step for step in self.steps if step.address is not None]
        # these by hart and instruction, and so the address and the word that each loads, and that it stores
        self.named = {(hart, it.position): it for it in self.operations}
        self.loads = {name: (it.address, it.loaded) for name, it in self.named.items() if it.loads}
        self.stores = {name: (it.address, it.stored) for name, it in self.named.items() if it.stores}

    def execute(self, position):
        """Makes one step, and gives the position of the next one."""
        instruction = self.test.code[self.hart][position]
        step = Step(self, position, instruction)
        # all registers that are read; x0 is never a source
        sources = filter(None, instruction.plain + (instruction.address, instruction.data))
        step.origins = {register: self.origins[register] for register in sources}
        result, goes_to = None, position + 1
        # what is missing is the number, and then 0
        operands = ([self.registers[register] for register in instruction.plain] + [instruction.number, 0])[:2]
        if instruction.form == 'compute':
            result = instruction.function(*operands) % WORDS
        elif instruction.form == 'jump' or instruction.form == 'branch' and instruction.function(*operands):
            goes_to = instruction.label
        elif instruction.is_memory():
            result = self.access(step, instruction)
        self.steps.append(step)
        if result is not None and instruction.rd != 0:
            self.registers[instruction.rd] = result
            carried = step.origins.values() if instruction.form == 'compute' else ()
            self.origins[instruction.rd] = frozenset([step]).union(*carried)
        return goes_to

    def access(self, step, instruction):
        """Accesses memory, and gives the word for rd, if any. An sc.w may fail, and must where it isn't paired."""
        address = (self.registers[instruction.address] + instruction.number) % WORDS
        data = self.registers[instruction.data] if instruction.data is not None else None
        if instruction.form == 'sc':
            may_succeed = self.reserving and self.reserving.address == address
            succeeds = self.choose(bool, None, (True, False) if may_succeed else (False,))
            if succeeds:
                step.accesses(address, stored=data)
                self.pairs.append((self.reserving, step))
            self.reserving = None
            return 0 if succeeds else 1
        if address not in self.test.words:
            raise GoesAstray(step.position)
        if instruction.form == 'store':
            step.accesses(address, stored=data)
            return None
        loaded = self.choose(int, address)
        stored = instruction.function(loaded, data) % WORDS if instruction.form == 'amo' else None
        step.accesses(address, loaded, stored)
        if instruction.form == 'lr':
            self.reserving = step
        return loaded

    def choose(self, kind, address, results=()):
        """The next choice: a word that is loaded at the address, or one of these results."""
        if self.used == len(self.choices):
            raise ChoicesEnd(address, results)
        choice = self.choices[self.used]
        if type(choice) is not kind or results and choice not in results:
            raise NoRun()
        self.used += 1
        return choice

    def choice(self, name):
        """What it chooses at this instruction of its hart, as a number: first those that don't execute it; then, as in
        choice order, words rising, and success before failure. An instruction that chooses nothing has one number."""
        step = next((step for step in self.steps if step.position == name[1]), None)
        if step is None:
            return 0
        if step.instruction.form == 'sc':
            return 1 if step.stores else 2
        return step.loaded + 1 if step.loads else 1


def ends_over(test, hart, words, choices=()):
    """The runs of a hart over these words, or how they go astray: words rising, success before failure."""
    try:
        yield Run(test, hart, choices)
    except GoesAstray as astray:
        yield astray
    except ChoicesEnd as end:
        address, results = end.args
        for choice in results or sorted(word for place, word in words if place == address):
            yield from ends_over(test, hart, words, choices + (choice,))


def all_runs_over(test, words):
    """Of each hart all its runs over these words, which have addresses. Raises the fault of the first hart with one."""
    found = []
    for hart in range(len(test.code)):
        found.append(list(itertools.islice(ends_over(test, hart, words), MOST_RUNS + 1)))
        if len(found[-1]) > MOST_RUNS:
            raise Fault('fault F13 TooManyTraces')
        for run in found[-1]:
            if isinstance(run, GoesAstray):
                raise Fault('fault F14 Astray P%d:%d' % (hart, run.args[0]))
    return found


def all_runs(test):
    """Of each hart all its runs over the words that each location may come to hold, round by round (MODEL 11)."""
    words = set(test.words.items())
    for _ in range(1 + sum(instruction.form in ('store', 'sc', 'amo') for code in test.code for instruction in code)):
        runs = all_runs_over(test, words)
        stored = {store for run in itertools.chain(*runs) for store in run.stores.values()}
        if stored <= words:
            break
        words |= stored
    return runs


# --- Operations (MODEL 2) ----------------------------------------------------------------------------------------

class Operations:
    """The operations of runs, and of each location the initial store, by its address."""

    def __init__(self, test, runs):
        self.test, self.runs = test, runs
        self.of_harts = [operation for run in runs for operation in run.operations]
        self.initial = {address: Step(address=address, stored=word) for address, word in test.words.items()}
        self.named = {operation.name: operation for operation in self.of_harts}
        self.loads = [operation for operation in self.of_harts if operation.loads]
        self.pairs = [pair for run in runs for pair in run.pairs]

    def stores_to(self, address):
        """The harts' stores to this word."""
        return [operation for operation in self.of_harts if operation.stores and operation.address == address]

    def have_outcome(self, words):
        """Is the outcome true at the end, with these words at addresses? None where the words don't say."""
        return truth(self.test.outcome, [run.registers for run in self.runs], words)


def po(a, b):
    """Program order. All branches go forward, so no run comes to an instruction twice."""
    return a.hart is not None and a.hart == b.hart and a.position < b.position


def between(a, b):
    """The steps between these two in program order."""
    return [step for step in a.run.steps if po(a, step) and po(step, b)]


# --- Preserved program order (MODEL 5 and 7) ---------------------------------------------------------------------

def orders(pairs, a, b):
    """Does a fence with these pairs order a before b, where it stands between them?"""
    return any(p + s in pairs for p in a.classes for s in b.classes)


def runs_slot_between(slot, a, b):
    """Does the run of their hart execute the slot's instruction after a and up to b, b included?"""
    return a.hart == slot[0] and any(a.position < step.position <= b.position and step.position == slot[1]
                                     for step in a.run.steps)


RULES = [
    # 1: overlapping addresses: a store comes after what accesses its word before
    lambda preserved, a, b: b.stores and a.address == b.address,
    # 2: two loads of a word, no store to it between them, from different sources
    lambda preserved, a, b: (a.loads and b.loads and a.address == b.address
                             and preserved.rf[a] is not preserved.rf[b]
                             and not any(m.stores and m.address == a.address for m in between(a, b))),
    # 3: a load returns what an AMO or sc.w stored
    lambda preserved, a, b: a.instruction.form in ('amo', 'sc') and b.loads and preserved.rf[b] is a,
    # 4: a fence between them orders them: a written one, or a placed one
    lambda preserved, a, b: (
        any(step.instruction.form == 'fence' and orders(step.instruction.pairs, a, b) for step in between(a, b))
        or any(orders(pairs, a, b) and runs_slot_between(slot, a, b) for slot, pairs in preserved.placed)),
    # 5 to 7: annotations; in the last both are RCsc
    lambda preserved, a, b: a.instruction.acquires,
    lambda preserved, a, b: b.instruction.releases,
    lambda preserved, a, b: all(it.instruction.acquires or it.instruction.releases for it in (a, b)),
    # 8: a is paired with b
    lambda preserved, a, b: (a, b) in a.run.pairs,
    # 9 and 10: by address and by data
    lambda preserved, a, b: b.depends(a, b.instruction.address),
    lambda preserved, a, b: b.depends(a, b.instruction.data),
    # 11: b is a store, and a conditional branch between them depends on a
    lambda preserved, a, b: b.stores and any(
        step.instruction.form == 'branch' and step.depends(a, *step.instruction.plain) for step in between(a, b)),
    # 12: b returns what a store m between them stored, and m depends on a by its address or data
    lambda preserved, a, b: b.loads and any(
        m is preserved.rf[b] and m.depends(a, m.instruction.address, m.instruction.data) for m in between(a, b)),
    # 13: b is a store, and the address of an instruction between them depends on a
    lambda preserved, a, b: b.stores and any(step.depends(a, step.instruction.address) for step in between(a, b))]


class Preserved:
    """The thirteen rules, for a source of each load (`rf`) and a placement."""

    def __init__(self, rf, slots, placement):
        self.rf = rf
        self.placed = [(slot, PAIRS[kind]) for slot, kind in zip(slots, placement) if kind is not None]

    def rule(self, number, a, b):
        return po(a, b) and RULES[number - 1](self, a, b)


# --- Candidates that show the outcome (MODEL 15) -----------------------------------------------------------------

class Candidate:
    """Runs with a source for each load (`rf`) and a coherence order of each location's stores (`co`, by address)."""

    def __init__(self, operations, rf, co):
        self.operations, self.rf = operations, rf
        self.place = {store: place for order in co.values() for place, store in enumerate(order)}
        self.last = {address: order[-1].stored for address, order in co.items()}        # the last words

    def is_edge(self, preserved, a, cause, b):
        """Is a before b in the judged relation, for this cause?"""
        match cause:
            case 'rf':
                return b.loads and self.rf[b] is a and a.hart != b.hart
            case 'co':
                return a.stores and b.stores and a.address == b.address and self.place[a] < self.place[b]
            case 'fr':
                return a.loads and b is not a and self.is_edge(preserved, self.rf[a], 'co', b)
        return preserved.rule(int(cause[1:]), a, b)

    def has_cycle(self, preserved, cycle):
        """Is each operation before the next one, and the last before the first, for its cause?"""
        named = self.operations.named
        return all(name in named for name, _ in cycle) and all(
            self.is_edge(preserved, named[name], cause, named[next_name])
            for (name, cause), (next_name, _) in zip(cycle, cycle[1:] + cycle[:1]))


def coherence_orders(operations, rf, address):
    """The orders of a location's stores, the initial one first, that keep `latest` and `atomic`."""
    for order in itertools.permutations(operations.stores_to(address)):
        order = (operations.initial[address],) + order
        latest = all(order.index(store) <= order.index(rf[load])
                     for load in operations.loads if load.address == address for store in order if po(store, load))
        if latest and all(keeps_atomicity(order, rf[lr], sc) for lr, sc in operations.pairs if sc.address == address):
            yield order


def keeps_atomicity(order, source, sc):
    """Is the source of the lr.w before the sc.w in this order of stores, with no other hart's store between?"""
    first, last = order.index(source), order.index(sc)
    return first < last and all(store.hart == sc.hart for store in order[first + 1:last])


def candidates(test):
    """All candidates that show the outcome: by choices, then by sources, then by coherence orders."""
    for runs in itertools.product(*all_runs(test)):
        operations = Operations(test, runs)
        if operations.have_outcome({}) is False:
            continue
        # the sources of a load, the initial store first: stores of its word, of its hart earlier ones
        stores = [[operations.initial[load.address]] + operations.stores_to(load.address) for load in operations.loads]
        may_be = [[store for store in each if store is not load and store.stored == load.loaded
                   and (store.hart != load.hart or po(store, load))] for load, each in zip(operations.loads, stores)]
        for sources in itertools.product(*may_be):
            rf = dict(zip(operations.loads, sources))
            each = [list(coherence_orders(operations, rf, address)) for address in test.words]
            for found in itertools.product(*each):
                if operations.have_outcome({order[-1].address: order[-1].stored for order in found}):
                    yield Candidate(operations, rf, {order[-1].address: order for order in found})


# --- Executions that witnesses give (MODEL 4, 6 and 14) ----------------------------------------------------------

class Execution:
    """Runs and an order of the harts' operations; `gmo` is the global memory order, the initial stores in front."""

    def __init__(self, operations, order):
        self.operations, self.gmo = operations, list(operations.initial.values()) + order
        self.place = {operation: at for at, operation in enumerate(self.gmo)}
        # two operations of a hart each, which come to memory against program order
        self.turned = [(a, b) for a in operations.of_harts for b in operations.of_harts
                       if po(a, b) and self.place[b] < self.place[a]]
        # the latest among the stores to its word that precede a load in the order or in program order
        self.rf = {load: [store for store in self.gmo if store.stores and store.address == load.address
                          and store is not load and (self.place[store] < self.place[load] or po(store, load))][-1]
                   for load in operations.loads}

    def obeys_axioms(self, slots, placement):
        """Preserved program order, load value and atomicity."""
        operations, preserved = self.operations, Preserved(self.rf, slots, placement)
        return (not any(rule(preserved, a, b) for a, b in self.turned for rule in RULES)
                and all(self.rf[load].stored == load.loaded for load in operations.loads)
                and all(keeps_atomicity([store for store in self.gmo if store.stores and store.address == sc.address],
                                        self.rf[lr], sc) for lr, sc in operations.pairs))

    def has_outcome(self):
        return self.operations.have_outcome({store.address: store.stored for store in self.gmo if store.stores})

    def breaking(self, slot):
        """The kinds that order two operations against this execution as a fence at this slot."""
        turned = [(a.classes, b.classes) for a, b in self.turned if runs_slot_between(slot, a, b)]
        pairs = {p + s for before, after in turned for p in before for s in after}
        return {kind for kind in KINDS if PAIRS[kind] & pairs}


def execution_of(test, witness):
    """The runs and the order that this witness gives, or None."""
    try:
        runs = [Run(test, hart, choices) for hart, choices in zip(range(len(test.code)), witness['choices'])]
    except NoRun:
        return None
    operations, names = Operations(test, runs), witness['order']
    if len(witness['choices']) != len(test.code) or sorted(names) != sorted(operations.named):
        return None
    return Execution(operations, [operations.named[name] for name in names])


# --- The file (CERTIFICATE 1) ------------------------------------------------------------------------------------

NAME = re.compile('P(0|[1-9][0-9]*):(0|[1-9][0-9]*)')
BYTE = '([1-9]?[0-9]|1[0-9]{2}|2[0-4][0-9]|25[0-5])'
BYTE_NAME = re.compile('P%s:%s' % (BYTE, BYTE))         # as in inferences
CAUSES = ['p%d' % rule for rule in range(1, 14)] + ['rf', 'co', 'fr']


def any_of(*forms):
    """The form of what has one of these."""
    return lambda value: any(has_form(value, form) for form in forms)


def some_of(form, most=math.inf):
    """The form of a list of such entries, one at least."""
    return lambda value: has_form(value, [form]) and 1 <= len(value) <= most


CAUSE = any_of(*CAUSES)
CYCLE = some_of((NAME, CAUSE), 64)
# items of a tree: a split, or a leaf that needs no bound; and in later versions those that do
ITEM_OF_1 = any_of(is_whole, 'c', ('w', is_whole))
ITEM = any_of(ITEM_OF_1, ('b', some_of(is_whole)))
# an item of a refutation: a letter and what it speaks of, or a cycle
INFERENCE = any_of(('c', BYTE_NAME), ('s', BYTE_NAME), ('o', BYTE_NAME, BYTE_NAME), ('d', is_whole),
                   ('f', lambda hart: is_whole(hart, 256)), ('l', BYTE_NAME, BYTE_NAME),
                   ('a', BYTE_NAME, BYTE_NAME), ('a', BYTE_NAME, BYTE_NAME, BYTE_NAME), some_of((BYTE_NAME, CAUSE), 64))
ANSWER = any_of('none', {'cost': is_whole, 'fences': [str]})
WITNESS = {'choices': [[any_of(bool, lambda choice: is_whole(choice, WORDS))]], 'order': [NAME]}
FILE = any_of(*[{'version': version, 'answer': ANSWER, 'cycles': [INFERENCE if version == 4 else CYCLE],
                 'tree': [ITEM if version > 1 else ITEM_OF_1], 'witnesses': [WITNESS]} for version in (1, 2, 4)])
# over sites (CERTIFICATE 7)
SITES_FILE = {'version': 5, 'answer': ANSWER, 'cycles': [[INFERENCE]], 'tree': (),
              'witnesses': [{**WITNESS, 'test': is_whole}]}


# --- Refutations (REFUTATIONS 1 to 4) ----------------------------------------------------------------------------

INITIAL = 'the initial store'       # as the source of a load: that of its location, which has no name
NOWHERE = (-1, -1)                  # stands for each name of no memory instruction


class Region(collections.namedtuple('Region', 'runs sources before wanted')):
    """For each hart the runs that are left; of some loads, by name, what they return from; pairs of stores, of which
    the first comes first in coherence order; and conditions, each with the truth value that it is to have."""

    def keeping(self, hart, passes):
        left = [run for run in self.runs[hart] if passes(run)]
        return self._replace(runs=[*self.runs[:hart], left, *self.runs[hart + 1:]])


class Refutation:
    """The inferences by which no candidate of a test has the outcome without a cycle, under a placement."""

    def __init__(self, test, slots, placement):
        self.test, self.runs, self.preserved = test, all_runs(test), Preserved({}, slots, placement)
        self.rule = functools.cache(self.preserved.rule)        # of rules that ask for no source
        self.names = test.memory_instructions()
        self.named = {'P%d:%d' % name: name for name in self.names}

    def check(self, inferences, reason=None):
        """Checks them, for this reason or those of a test alone."""
        root = Region(self.runs, {}, frozenset(), [self.test.wanted])       # all candidates that have the outcome
        regions = [root] if all(root.runs) else []                          # still to be refuted, the next one last
        for number, inference in enumerate(inferences):
            ask(regions, reason or 'cycles')
            self.reason = reason or 'cycle %d' % number
            regions += [child for child in reversed(self.after(regions.pop(), inference)) if all(child.runs)]
        ask(not regions, reason or 'cycles')

    def after(self, region, inference):
        """The regions of which it refutes this one if all are refuted: none where the inference is an end."""
        letter, *rest = inference
        match letter, *[self.named.get(part, NOWHERE) if type(part) is str else part for part in rest]:
            case 'c', name:
                ask(name is not NOWHERE, self.reason)
                choices = sorted({run.choice(name) for run in region.runs[name[0]]})
                return [region.keeping(name[0], lambda run, it=choice: run.choice(name) == it) for choice in choices]
            case 's', load:
                ask(load is not NOWHERE, self.reason)
                known = region.sources.get(load)
                stores = [store for store in self.names if store[0] != load[0] or store[1] < load[1]]
                return [region.keeping(load[0], lambda run: load not in run.loads), *[
                    self.from_source(region, load, it) for it in [INITIAL] + stores if known in (None, it)]]
            case 'o', a, b:
                places = {self.place(region, name, 'stores') for name in (a, b)}
                is_open = a != b and len(places) == 1 and None not in places and not region.before & {(a, b), (b, a)}
                ask(is_open, self.reason)
                return [region._replace(before=region.before | {pair}) for pair in ((a, b), (b, a))]
            case 'd', number:
                # the wanted condition of this number gives way to its parts
                ask(number < len(region.wanted) and region.wanted[number][0][0] in ('not', 'and', 'or'), self.reason)
                (form, *parts), value = region.wanted[number]
                wanted = [(part, value != (form == 'not')) for part in parts]       # of a denial one, in one way
                ways = [wanted] if value == (form == 'and') else [[part] for part in wanted]
                before, behind = region.wanted[:number], region.wanted[number + 1:]
                return [region._replace(wanted=before + way + behind) for way in ways]
            case 'f', hart:
                # left are those of the hart's runs with each of which the wanted conditions may be so
                ask(hart < len(region.runs), self.reason)
                return [region.keeping(hart, lambda run: self.may_be(region.keeping(hart, lambda it: it is run)))]
            case 'l', load, store:
                # the load returns from a store that one of its own hart, before the load, overwrites
                is_end = store[0] == load[0] and store[1] < load[1] and self.overwrites(region, store, load)
            case 'a', *names:
                is_end = self.is_split_pair(region, *names)
            case _:
                links = [(self.named.get(text, NOWHERE), cause) for text, cause in inference]
                is_end = all(self.is_edge(region, name, cause, following)
                             for (name, cause), (following, _) in zip(links, links[1:] + links[:1]))
        ask(is_end, self.reason)
        return []

    def from_source(self, region, load, source):
        """The load returns from this source: address and word agree."""
        decided = region._replace(sources={**region.sources, load: source})
        if source == INITIAL:
            return decided.keeping(load[0], lambda run: run.loads.get(load) in self.test.words.items())
        if source[0] == load[0]:
            return decided.keeping(load[0], lambda run: load in run.loads and run.loads[load] == run.stores.get(source))
        stored = {run.stores.get(source) for run in region.runs[source[0]]} - {None}
        loaded = {run.loads.get(load) for run in region.runs[load[0]]} - {None}
        return decided.keeping(load[0], lambda run: run.loads.get(load) in stored).keeping(
            source[0], lambda run: run.stores.get(source) in loaded)

    # What may be in some candidate of a region

    def may_be(self, region):
        """May the wanted conditions have their truth values?"""
        return all(value in truths(condition, functools.partial(self.truths_of_atom, region))
                   for condition, value in region.wanted)

    def truths_of_atom(self, region, kind, place, word):
        if kind == 'register':
            return {run.registers[place[1]] == word for run in region.runs[place[0]]}
        earlier = {first for first, second in region.before}
        stored = [run.stores[name] for name in self.names if name not in earlier
                  for run in region.runs[name[0]] if name in run.stores]
        last = {found for address, found in stored if address == place}
        if not any(self.place(region, name, 'stores') == place for name in self.names):
            last.add(self.test.words[place])
        return {found == word for found in last}

    # What must be in each candidate of a region

    def place(self, region, name, access):
        """The address to which the operation of this name has such an access in each run that is left, or None."""
        found = {getattr(run, access).get(name, (None, None))[0] for run in region.runs[name[0]]}
        return found.pop() if len(found) == 1 else None

    def overwrites(self, region, store, load):
        """Is the store later in coherence order than what the load returns from?"""
        source = region.sources.get(load)
        if source == INITIAL:
            place = self.place(region, store, 'stores')
            return place is not None and place == self.place(region, load, 'loads')
        return source is not None and (source, store) in region.before

    def is_edge(self, region, a, cause, b):
        """Is a before b for this cause: of a rule, in each run that is left of their hart?"""
        match cause:
            case 'rf':
                return a[0] != b[0] and region.sources.get(b) == a
            case 'co':
                return (a, b) in region.before
            case 'fr':
                return a != b and self.overwrites(region, b, a)
        is_known = cause != 'p2' or {a, b} <= region.sources.keys()
        return a[0] == b[0] and a is not NOWHERE and is_known and all(
            self.has_rule(run, int(cause[1:]), a, b, region.sources) for run in region.runs[a[0]])

    def has_rule(self, run, number, a, b, sources):
        """Does the rule put a before b in this run, with these sources of loads?"""
        first, second = run.named.get(a), run.named.get(b)
        if first is None or second is None:
            return False
        if number not in (2, 3, 12):
            return self.rule(number, first, second)
        outside = collections.defaultdict(Step)             # an operation of no hart for each source outside of the run
        self.preserved.rf = {operation: run.named.get(sources.get(name)) or outside[sources.get(name)]
                             for name, operation in run.named.items()}
        return self.preserved.rule(number, first, second)

    def is_split_pair(self, region, lr, sc, other=None):
        """The sc.w of the pair is before what its lr.w returns from, or another hart's store is between the two."""
        if not self.is_edge(region, lr, 'p8', sc):
            return False
        if other is None:
            source = region.sources.get(lr)
            return source not in (None, INITIAL) and (sc, source) in region.before
        return other[0] != sc[0] and (other, sc) in region.before and self.overwrites(region, other, lr)


# --- What it must say (CERTIFICATE 2 to 5) -----------------------------------------------------------------------

UNDECIDED = '?'


def completed(part, kind):
    """A partial placement with this kind, or none, in each undecided slot."""
    return tuple(kind if decision == UNDECIDED else decision for decision in part)


class Checker:
    """Tests, each with its path and its places for fences, slots with names, a price list, and a certificate file. A
    placement has a kind or None for each name, for all its places. The checks raise Refused with the first reason."""

    def __init__(self, tests, prices, certificate, is_free):
        self.paths, self.tests = [path for path, _ in tests], [test for _, test in tests]
        self.prices, self.certificate, self.is_alone = prices, certificate, is_free and len(tests) == 1
        prefixes = [None if not is_free else '' if self.is_alone else f'{path}:' for path in self.paths]
        self.places = [*map(self.places_of, self.tests, prefixes)]
        self.names = list(dict.fromkeys(name for each in self.places for _, name in each))
        self.costs = [{None: 0, **{kind: prices.at(name, kind) for kind in prices.offered}} for name in self.names]
        self.execution, self.shown = functools.cache(self.execution), functools.cache(self.shown)
        self.of_witness = [witness.get('test', 0) for witness in certificate['witnesses']]      # the numbers of tests
        self.answer = None

    def check(self):
        if self.certificate['answer'] == 'none':
            # one witness, which shows the outcome of its test with `rw,rw` in every place
            parts = [self.certificate[part] for part in ('cycles', 'tree', 'witnesses')]
            ask([len(part) for part in parts] == [0, 0, 1], 'answer')
            self.shown(0, ('rw,rw',) * len(self.names))
        else:
            self.check_answer()
            claim = {'cost': self.cost(self.answer), 'fences': ['%s=%s' % fence for fence in self.fences()]}
            ask(self.certificate['answer'] == claim, 'answer')
            self.check_cycles()

    def image(self, number, placement):
        """The slots of a test's places, and the kind at each."""
        kinds = dict(zip(self.names, placement))
        return [slot for slot, _ in self.places[number]], [kinds[name] for _, name in self.places[number]]

    def execution(self, number):
        if number < len(self.of_witness) and self.of_witness[number] < len(self.tests):
            return execution_of(self.tests[self.of_witness[number]], self.certificate['witnesses'][number])
        return None

    def shown(self, number, placement):
        """The execution of this witness, which must show the outcome of its test under this placement."""
        execution = self.execution(number)
        ask(execution and execution.obeys_axioms(*self.image(self.of_witness[number], placement))
            and execution.has_outcome(), 'witness %d' % number)
        return execution

    def cost(self, placement):
        return sum(costs[kind] for costs, kind in zip(self.costs, placement))

    def fences(self):
        """The names that have a fence in the answer, each with its kind."""
        return [(name, kind) for name, kind in zip(self.names, self.answer) if kind is not None]

    def lines(self):
        if self.answer is None:
            witness = self.certificate['witnesses'][0]
            said = json.dumps({key: witness[key] for key in ('choices', 'order')}, separators=(',', ':'))
            return ['none'] + [self.paths[self.of_witness[0]]] * (not self.is_alone) + [said]
        # of one test alone a place may be a slot
        return ['fenced %d' % self.cost(self.answer)] + [
            'fence %s %s %s' % (*name.split(':'), kind) if self.is_alone and ':' in name else f'site {name} {kind}'
            for name, kind in self.fences()]


class TreeChecker(Checker):
    """The checker for one test, whose places are its slots."""

    def places_of(self, test, prefix):
        return [(slot, 'P%d:%d' % slot) for slot in test.slots()]

    def check(self):
        super().check()
        if self.answer is not None:
            self.check_tree()

    def check_answer(self):
        """The fences are a placement of offered kinds, by slots."""
        kinds = dict(text.partition('=')[::2] for text in self.certificate['answer']['fences'])
        self.answer = tuple(map(kinds.get, self.names))
        ask({*kinds.values()} <= {*self.prices.offered}, 'answer')

    def check_cycles(self):
        """One cycle for each candidate that shows the outcome, in the candidates' order."""
        cycles, image = self.certificate['cycles'], self.image(0, self.answer)
        if self.certificate['version'] == 4:
            Refutation(self.tests[0], *image).check(cycles)
            return
        # One more than there are cycles is enough to see that there are too few.
        showing = list(itertools.islice(candidates(self.tests[0]), len(cycles) + 1))
        ask(len(showing) == len(cycles), 'cycles')
        for number, (candidate, cycle) in enumerate(zip(showing, cycles)):
            ask(candidate.has_cycle(Preserved(candidate.rf, *image), cycle), 'cycle %d' % number)

    def check_tree(self):
        """The items are one whole tree in preorder, and each leaf is closed."""
        nodes = [(UNDECIDED,) * len(self.names)]        # those still to come, the next one last
        for number, item in enumerate(self.certificate['tree']):
            ask(nodes, 'tree')
            part = nodes.pop()
            if type(item) is int:
                # split at this slot: none first, and then the offered kinds
                ask(item < len(part) and part[item] == UNDECIDED, 'tree')
                nodes += [part[:item] + (decision,) + part[item + 1:] for decision in reversed(self.costs[item])]
            elif item == 'c':
                ask(not self.is_better(completed(part, None)), 'node %d' % number)
            elif item[0] == 'w':
                self.shown(item[1], completed(part, 'rw,rw'))
            else:
                executions = [self.shown(witness, completed(part, None)) for witness in item[1]]
                ask(self.bound(part, executions), 'node %d' % number)
        ask(not nodes, 'tree')

    def is_better(self, floor, more=0):
        """Is this placement, at so much more, better than the answer: cheaper, or since version 2 as cheap, and at the
        first slot where they differ it has none, or the kind that stands earlier in the table?"""
        order = [None] + KINDS
        (cost, kinds), (least, others) = [(self.cost(it), [*map(order.index, it)]) for it in (floor, self.answer)]
        return cost + more < least or self.certificate['version'] > 1 and cost + more == least and kinds < others

    def bound(self, part, executions):
        """Do these executions bound the leaf (CERTIFICATE 4)? Each counts with the least price of a kind that breaks it
        in one of its breakable slots, and no slot is breakable for two."""
        more, slots = 0, []
        for execution in executions:
            prices = []
            for (slot, _), costs, decision in zip(self.places[0], self.costs, part):
                kinds = execution.breaking(slot) & costs.keys() if decision == UNDECIDED else ()
                prices += [costs[kind] for kind in kinds]
                slots += [slot] * bool(kinds)
            more += min(prices, default=math.inf)
        return len(slots) == len(set(slots)) and not self.is_better(completed(part, None), more)


# --- Certificates over sites (FORMAT 21, CERTIFICATE 7) -----------------------------------------------------------

class SitesChecker(Checker):
    """The checker for the sites of several tests; may slots be sites of their own?"""

    def places_of(self, test, prefix):
        """The copies of sites in this test: the slot of each, hart and instruction, and the name of its site, which is
        the label without digits and `_` at its end, or all of it where nothing else is there. With a prefix each slot
        at which no label names a site is one of its own, whose name it begins."""
        found = {}
        for slot, label, line in test.labels:
            if slot in found:
                raise Fault('fault F6 BadLabel line %d' % line)
            found[slot] = label.rstrip('0123456789_') or label
        own = test.slots() if prefix is not None else []
        return sorted({**{slot: '%sP%d:%d' % (prefix, *slot) for slot in own}, **found}.items())

    def check_answer(self):
        """It is the first cheapest one that breaks all executions of the witnesses: each at a place in its test."""
        broken = [dict.fromkeys(costs, 0) for costs in self.costs]
        for number, test in enumerate(self.of_witness):
            execution = self.shown(number, (None,) * len(self.names))
            for slot, name in self.places[test]:
                breaks = broken[self.names.index(name)]
                breaks.update({kind: breaks[kind] | 1 << number for kind in breaks.keys() & execution.breaking(slot)})
        self.answer = cheapest(self.costs, broken, (1 << len(self.of_witness)) - 1)
        ask(self.answer is not None, 'answer')

    def check_cycles(self):
        """For each test a refutation of it under the answer."""
        lists = self.certificate['cycles']
        ask(len(lists) == len(self.tests), 'cycles %d' % min(len(lists), len(self.tests)))
        for number, (test, inferences) in enumerate(zip(self.tests, lists)):
            Refutation(test, *self.image(number, self.answer)).check(inferences, 'cycles %d' % number)


def cheapest(costs, broken, every):
    """The first of the cheapest placements that break all of some executions, which are the bits of `every`, or None.
    Of each place it gets what each option costs there, and which executions it breaks. Of the ways to fill the first
    places that leave the same executions unbroken it goes on from the first cheapest alone."""
    best = {every: (0, ())}             # by what is unbroken the cost, and the numbers of the options
    for at, breaks in enumerate(broken):
        later = functools.reduce(operator.or_, [bits for each in broken[at + 1:] for bits in each.values()], 0)
        wider = {}
        for (left, (cost, chosen)), (number, kind) in itertools.product(best.items(), enumerate(costs[at])):
            left, found = left & ~breaks[kind], (cost + costs[at][kind], (*chosen, number))
            if not left & ~later:
                wider[left] = min(found, wider.get(left, found))
        best = wider
    return tuple(list(each)[number] for each, number in zip(costs, best[0][1])) if 0 in best else None


def read(path, reader, *options):
    try:
        with open(path, 'rb') as file:
            return reader(file.read(), *options)
    except (OSError, ValueError, RecursionError, MemoryError, Unreadable) as error:
        raise Unreadable('%s can not be read: %s' % (path, error))


Said = collections.namedtuple('Said', 'out err status')         # what is to be printed, and the status


class Judge:
    """Judges certificates for a test, or for the sites of tests, and a price list, whose files are read once."""

    def __init__(self, tests, prices, is_sites=False, is_free=False):
        self.tests, self.prices = [(path, read(path, test_of)) for path in tests], read(prices, prices_of, is_sites)
        self.is_sites, self.is_free = is_sites, is_free or not is_sites

    def verdict(self, data):
        """What is to be said of these bytes."""
        try:
            kind, form = (SitesChecker, SITES_FILE) if self.is_sites else (TreeChecker, FILE)
            certificate = json_of(data)
            if not has_form(certificate, form):
                raise Fault('fault F18 BadCertificate')
            checker = kind(self.tests, self.prices, certificate, self.is_free)
            checker.check()
            return Said('\n'.join(['yes', *checker.lines(), '']), '', 0)
        except Refused as reason:
            return Said('no: %s\n' % reason, '', 1)
        except Unreadable as error:
            return Said('', ascii(str(error))[1:-1] + '\n', 2)
        except (RecursionError, MemoryError):
            return Said('', 'the test is too big\n', 2)


def main(arguments):
    global READS_ORDERED
    READS_ORDERED = '--zalasr' in arguments
    words = [word for word in arguments if word not in ('--sites', '--free', '--zalasr')]
    is_sites, is_free = '--sites' in arguments, '--free' in arguments
    out, error, status = '', ('usage: check_certificate.py [--zalasr] TEST PRICES CERTIFICATE\n'
                              '       check_certificate.py [--zalasr] --sites [--free] FILE.. PRICES CERTIFICATE\n'), 2
    if len(words) == 3 and not is_free or len(words) >= 3 and is_sites:
        try:
            out, error, status = Judge(words[:-2], words[-2], is_sites, is_free).verdict(read(words[-1], bytes))
        except Unreadable as fault:
            error = ascii(str(fault))[1:-1] + '\n'
    sys.stdout.write(out)
    sys.stderr.write(error)
    return status


if __name__ == '__main__':
    sys.exit(main(sys.argv[1:]))
