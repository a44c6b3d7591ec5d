"""Compares the command `check` with scripts/check_certificate.py, which shares no code with it.

For each test of examples/ and each price list, `solve --cert` must write a certificate to which both say yes, with
the answer that `solve` printed, and whose cycles begin at their least operations. At prices.json both must say yes to
the same with the items of examples/refutations.json. Then COUNT certificates are made of these and of stored ones of
versions 1 and 2, each with one change or two by a number. Of each the two must print and end the same."""
import copy
import itertools
import json
import os
import random
import re
import sys

from check_certificate import Judge
from running import (EXAMPLES, PRICE_LISTS, PRICES, TOP, Said, compact, encoded, expanded, here, ran, read, rows,
                     rvfence, tests_of_examples)

FAULT = 'fault F18 BadCertificate'
LISTED = ['CoRR', 'MP', 'SB', 'SBF']    # of versions 1 and 2, with a list of cycles
PARTS = ['cycles'] * 4 + ['tree'] * 3 + ['witnesses', 'answer']     # where changes are made, so often


def places_in(value):
    """The lists and objects in a value, each with each of its keys."""
    keys = list(value) if isinstance(value, dict) else range(len(value)) if isinstance(value, list) else []
    for key in keys:
        yield value, key
        yield from places_in(value[key])


def kind_of(value):
    """Values of one kind stand for one another: of texts names, fences, letters and causes are kinds."""
    return type(value), isinstance(value, str) and (':' in value, '=' in value, len(value) == 1)


def mangled(cert, other, dice):
    """The certificate with a change or two: an entry of a list less or more, two swapped, or a value of another
    certificate of this version in the place of one of its kind."""
    cert = copy.deepcopy(cert)
    for _ in range(dice.choice([1, 1, 2])):
        key = dice.choice(PARTS)
        inside, at = dice.choice([(cert, key), *places_in(cert[key])][-200:])
        # in a link or an item each place has a meaning of its own
        is_record = inside is not cert['tree'] and any(kind_of(it) in map(kind_of, ['rf', 'w']) for it in inside)
        way = dice.randrange(5) if isinstance(inside, list) and not is_record else 4
        if way == 0:
            del inside[at]
        elif way == 1:
            inside.insert(at, copy.deepcopy(dice.choice(inside)))
        elif way == 2:
            second = dice.randrange(len(inside))
            inside[at], inside[second] = inside[second], inside[at]
        else:
            values = [box[it] for box, it in places_in({key: other[key]}) if kind_of(box[it]) == kind_of(inside[at])]
            inside[at] = copy.deepcopy(dice.choice(values or [inside[at]]))
    return cert


def judge_both(run, name, files, judge, wanted, *options):
    """Do both say this of the certificate, the last of the files?"""
    run.expect(f'check of {name}', wanted, rvfence('check', *files, *options))
    run.expect(f'check_certificate.py of {name}', wanted, judge.verdict(read(files[-1])))


def compare_mangled(run, name, files, judge, cert, others, dice, *options):
    """Do both say the same of the certificate with a change or two?"""
    text = json.dumps(mangled(cert, dice.choice(others), dice))
    wanted = judge.verdict(text.encode())
    run.kinds[' '.join(wanted.out.split('\n')[0].split()[:2]) or 'fault'] += 1
    if not run.expect(name, wanted, rvfence('check', *files, run.file('mangled.json', text), *options)):
        print(text)


def certified(run):
    """For each test and prices with a certificate a name, both files, their judge and it; and the same in version 4,
    with a refutation in the place of its cycles, where there is one."""
    found, path, refutations = [], f'{run.folder}/answer.json', json.loads(read(f'{EXAMPLES}/refutations.json'))
    for test, name in itertools.product([*tests_of_examples(), here('ROUND.litmus')], PRICE_LISTS):
        prices, what = f'{EXAMPLES}/{name}', f'{os.path.relpath(test, EXAMPLES)} at {name}'
        said = rvfence('solve', test, prices, '--cert', path)
        if said.status == 2:
            run.check(f'a fault leaves no certificate, {what}', not os.path.exists(path))
            continue
        judge, wanted = Judge([test], prices), Said(f'yes\n{said.out}', '', 0)
        judge_both(run, what, (test, prices, path), judge, wanted)
        cert = json.loads(read(path))
        cycles = [[tuple(map(int, name[1:].split(':'))) for name, _ in item]        # by hart and instruction
                  for item in cert['cycles'] if type(item[0]) is list]
        late = [cycle for cycle in cycles if cycle[0] != min(cycle)]
        run.expect(f'cycles that begin after their least operation, {what}', [], late)
        found.append((what, test, prices, judge, cert))
        items = refutations.get(os.path.relpath(test, EXAMPLES).removesuffix('.litmus'))
        if name == 'prices.json' and items is not None and cert['answer'] != 'none':
            cert = dict(cert, version=4, cycles=items)
            files = [test, PRICES, run.file('refuted.json', json.dumps(cert))]
            judge_both(run, f'{test}, refuted', files, judge, wanted)
            found += [(f'{what}, refuted', test, prices, judge, cert)] * 3
        os.remove(path)
    return found


def check(run):
    found = certified(run)
    for name in LISTED:                 # each as often as makes them a third of all
        test = f'{EXAMPLES}/{name}.litmus'
        found += [(f'{name}, listed', test, PRICES, Judge([test], PRICES), stored(name))] * 10
    for number in run.numbers():
        what, *files, judge, cert = found[number % len(found)]
        others = [it[-1] for it in found if it[-1]['version'] == cert['version']]
        compare_mangled(run, f'certificate {number}, of {what}', files, judge, cert, others, random.Random(number))


def stored(name):
    """A certificate of examples/certificates/ or of scripts/transcripts/files/."""
    return json.loads(read(here(f"certificates/{name}.json", f"{name}.json")))


def judge(run, what, test, data, wanted, prices=PRICES, fault=None):
    """Is the verdict on this certificate as wanted? `yes` alone stands for all answers; with its answer the command is
    run. `check` must print the same, but for the fault, where one is given: it looks for faults in the runs too."""
    files = [test, prices, run.file("certificate.json", data)]
    command = [sys.executable, f"{TOP}/scripts/check_certificate.py", *files]
    said = ran(command) if "\n" in wanted else Judge([test], prices).verdict(data)
    run.expect(f"{what}, by check", Said("", f"{fault}\n", 2) if fault else said, rvfence("check", *files))
    if wanted == "yes":
        said = said._replace(out=said.out.split("\n")[0] + "\n")
    status = 2 if wanted == FAULT else 0 if wanted.startswith("yes") else 1
    run.expect(what, Said("", f"{FAULT}\n", 2) if status == 2 else Said(f"{wanted}\n", "", status), said)


def changed(certificate, changes):
    """The bytes of the certificate with these values, by key, or key and number in a list; or another text in it."""
    old, new = changes.pop("text", ("", ""))
    if "whole" in changes:
        return changes["whole"].encode()
    for key, value in changes.items():
        if key == "cycles" and isinstance(value, list):             # as texts of names and causes, too
            value = [re.findall(r"(\S+) (\S+)", it) if isinstance(it, str) else it for it in value]
        key, _, number = key.partition(" ")
        inside, at = (certificate[key], int(number)) if number else (certificate, key)
        inside[at] = value
    return encoded(json.dumps(certificate).replace(old, new))


def check_rows(run):
    """Checks scripts/check_certificate.py and the command `check`, by scripts/transcripts/certificates.table: valid
    certificates, mangled ones for each reason of docs/CERTIFICATE.md, section 5, and every beginning of one. Of each
    the two must print the same lines and end with the same status.

    What is expected of mangled ones was worked out by hand. They are judged in this process, which takes less time."""
    for row in rows("certificates"):
        wanted, test, name, what, changes = row.split(" | ", 4)
        wanted, _, fault = wanted.partition("; ")
        test, _, prices = test.partition("@")
        wanted = FAULT if wanted == "F18" else wanted.replace(" / ", "\n")
        judge(run, what, here(f"{test}.litmus"), changed(stored(name), json.loads(expanded(changes))), wanted,
              here(prices or "prices.json"), fault)
    whole = compact(stored("CoRR")).encode()
    for count in range(len(whole) + 1):
        wanted = FAULT if count < len(whole) else "yes"
        judge(run, f"coherent reads: the first {count} bytes", here("CoRR.litmus"), whole[:count], wanted)
