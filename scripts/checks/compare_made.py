"""Compares what `solve`, `states` and `test` say of the tests that scripts/litmus.py makes with plain Python."""
import collections
import itertools
import json
import os
import random
import re

import check_certificate as model
import solve_reference as reference
from litmus import made_test
from running import EXAMPLES, compact, read, rows, rvfence

AT_ONCE = 200
SIGNS = ["/\\", "/\\", "\\/"]                                           # that join two atoms of one place
STATUS = {"allowed": 1, "fault": 2, "vacuous": 4, "forbidden": 0}     # the first kind that is there gives the status
ORDERED = r"in program order|P(\d):(?P<first>\d+) comes to memory before P\1:(?P<second>\d+)"
COUNTED = r"1 contradiction|([2-9]|[1-9]\d+) contradictions"
FORBIDDEN = f"{COUNTED}|no sources for its loads|no candidate shows it"


def compare_solve(run, name, data, prices):
    test, files = model.test_of(data), [run.file("test.litmus", data), run.file("prices.json", prices)]
    wanted = out, error, _ = reference.answer(test, model.prices_of(prices))
    found = rvfence("solve", "-q", *files)
    first = " ".join((out + error).split()[:2])
    run.kinds[f"fenced by {out.count('fence ')}" if first.startswith("fenced") else first.split(" {")[0]] += 1
    texts = [data.decode(), prices.decode(), f"\nwanted: {wanted}", f"\nfound:  {found}"]
    run.check(name, reference.is_same(test, wanted, found), "".join(texts))
    certificates, path = set(), f"{run.folder}/certificate.json"
    for workers in ("1", "4", "16"):
        said = rvfence("solve", "-q", *files, "--workers", workers, "--cert", path)
        run.expect(f"{name} by {workers} workers", found, said)
        if os.path.exists(path):
            certificates.add(read(path))
            run.expect(f"the certificate of {name}", (f"yes\n{found.out}", "", 0), rvfence("check", *files, path))
            os.remove(path)
    run.expect(f"how many certificates {name} has", int(found.status < 2), len(certificates))


def check_solve(run):
    """Compares `rvfence solve` with scripts/solve_reference.py on known tests at lists of a few kinds, by
    scripts/transcripts/known.table, and on the tests and price lists that scripts/litmus.py makes.

    With 1, 4 and 16 workers it must print the same bytes, and beside an answer write the same certificate, to which
    `check` says yes. (In no test do others join the first worker; crates/fs_tests has such.)"""
    for name, prices in itertools.product(rows("known", "tests"), rows("known", "prices")):
        compare_solve(run, f"{name} at {prices}", read(f"{EXAMPLES}/{name}.litmus"), prices.encode())
    for number in run.numbers():
        compare_solve(run, f"made test {number}", *made_test(number))


def object_of(lines):
    """The object of `--json` that says what these lines say."""
    (test, kind), count = lines[0].removeprefix("Test ").rsplit(" ", 1), int(lines[1].removeprefix("States "))
    rows = [[item.rstrip(";").split("=") for item in line.split()] for line in lines[2:2 + count]]
    verdict, _, counts, condition, observation = lines[2 + count:][:5]
    return {"condition": condition.removeprefix("Condition "), "kind": kind, "negative": int(counts.split()[3]),
            "observation": observation.split()[-3], "ok": verdict == "Ok", "places": [place for place, _ in rows[0]],
            "positive": int(counts.split()[1]), "states": [[word for _, word in row] for row in rows], "test": test}


def compare_placement(run, listing, name, placement, flags):
    """Compares what is printed of a test with these fences, and says how many states there are."""
    fences = [f"P{hart}:{at}={kind}" for (hart, at), kind in zip(listing.test.slots(), placement) if kind]
    what = f"{name} with {fences}\n{read(name).decode()}"
    wanted = listing.answer(placement, rvfence("place", name, *fences).out)
    run.expect(what, wanted, rvfence("states", "-q", *flags, name, *fences))
    lines = rvfence("states", *flags, "--witnesses", name, *fences).out.splitlines(keepends=True)
    run.expect(f"{what} without witnesses", wanted.out, "".join(line for line in lines if not line.startswith("{")))
    json_text = compact(object_of(wanted.out.splitlines())) + "\n"
    run.expect(f"{what} as JSON", json_text, rvfence("states", *flags, "--json", name, *fences).out)
    states, witnesses = listing.states(placement), [line for line in lines if line.startswith("{")]
    run.expect(f"how many witnesses of {what}", len(states), len(witnesses))
    for state, witness in zip(states, witnesses):
        is_right = listing.ends_so(witness, listing.line_of(state), placement)
        run.check(f"the witness of {state} of {what}", is_right, witness)
        is_outcome = listing.is_true(state) == listing.test.wanted[1]
        said = rvfence("order", name, run.file("witness", witness), *fences)
        run.expect(f"order of {state} of {what}", "yes\n" if is_outcome else "no: outcome\n", said.out)
    return len(states)


def check_states(run):
    """Compares `rvfence states` with a plain list of final states on the tests that scripts/litmus.py makes.

    The list is made in Python. Each test is asked without FENCE words and with some by chance, every second one with
    `--all`. All lines must be the same, and the object of `--json` must say what they say. Each witness that is printed
    must be an execution that ends in the state above it, and `order` must say of it what the condition does."""
    count = 0
    for number in run.numbers():
        data, is_all = made_test(number)[0], number % 2 == 1
        name = run.file(f"made{number}", data)
        try:
            listing = reference.Listing(data, is_all)
        except model.Fault as fault:
            said = rvfence("states", "-q", name)
            run.expect(f"the fault of {name}", (f"{fault}\n", 2), (said.err, said.status))
            continue
        chance, slots = random.Random(f"states {number}"), listing.test.slots()
        for placement in [(None,) * len(slots), tuple(chance.choice([None, *model.KINDS]) for _ in slots)]:
            count += compare_placement(run, listing, name, placement, ["--all"] * is_all)
    print(f"{count} states")


def made(number):
    text = made_test(number)[0].decode()
    if number % 2:
        return text.encode()
    chance = random.Random(f"test {number}")
    above, condition = text.rstrip("\n").rsplit("\n", 1)
    atoms = list(re.finditer(r"([\w:]+)=\d+", condition))
    if atoms:
        atom = chance.choice(atoms)
        other = f"{atom[1]}={chance.randint(0, 4)}"
        if number % 4 == 0:
            other = f"({atom[0]} {chance.choice(SIGNS)} {other})"
        condition = f"{condition[:atom.start()]}{other}{condition[atom.end():]}"
    return f"{above}\n{condition}\n".encode()


def why_vacuous(test):
    """The words for the first atom that nothing makes true."""
    names, runs = {address: name for name, address in test.addresses.items()}, model.all_runs(test)
    stored = {store for run in itertools.chain(*runs) for store in run.stores.values()}

    def blamed(condition, wanted):
        match condition:
            case "register", (hart, register), word if wanted:
                if all(run.registers[register] != word for run in runs[hart]):
                    return f"x{register} of P{hart} never ends as {names.get(word, word)}"
            case "word", place, word if wanted:
                if test.words[place] != word and (place, word) not in stored:
                    return f"nothing stores {names.get(word, word)} to {names[place]}"
            case "not", part:
                return blamed(part, not wanted)
            case ("and" | "or") as joint, *parts:
                words = [blamed(part, wanted) for part in parts]
                needs_all = (joint == "and") == wanted
                return next(filter(None, words), None) if needs_all or all(words) else None
        return None

    return blamed(*test.wanted) or "no runs end so"


def compare_objects(run, names, said):
    """Compares the objects that `--json` prints of the files with the lines."""
    found = rvfence("test", "--json", "--jobs", "4", *names)
    run.expect("the status with --json", said.status, found.status)
    objects = [json.loads(line) for line in found.out.splitlines()]
    run.expect("the files with --json", names, [thing["file"] for thing in objects])
    width = max(map(len, names))
    for name, line, thing in zip(names, said.out.splitlines(), objects):
        verdict, why = thing["verdict"], thing["why"]
        run.expect(f"{name} with --json", line[width + 2:], why if verdict == "fault" else f"{verdict:9}  {why}")
        more = {"allowed": ["witness"], "fault": ["column", "line", "message"]}.get(verdict, [])
        run.expect(f"the keys of {name}", sorted(["file", "verdict", "why", *more]), list(thing))
        if verdict == "allowed":
            witness = run.file("witness", json.dumps(thing["witness"]))
            run.expect(f"the witness of {name}", reference.YES, rvfence("order", name, witness))


def compare_test(run, numbers):
    """Compares what is said of the tests of these numbers in one run, and counts the kinds."""
    texts = [made(number) for number in numbers]
    names = [run.file(str(number), text) for number, text in zip(numbers, texts)]
    said, by_jobs = rvfence("test", *names), rvfence("test", "--jobs", "4", *names)
    run.expect(f"{len(names)} files with 4 jobs", (said.status, said.out), (by_jobs.status, by_jobs.out))
    compare_objects(run, names, said)
    lines, kinds = said.out.splitlines(), collections.Counter()
    width = max(map(len, names))
    for number, name, text, line in zip(numbers, names, texts, [*lines, *[""] * len(names)]):
        try:                    # which verdict there is to be, and the form of the words for it
            kind, problem = reference.verdict_of(text)
            # where some candidate shows the outcome, a contradiction is needed to rule it out
            forms = {"allowed": ORDERED, "forbidden": COUNTED if problem.candidates else FORBIDDEN}
            wanted = f"{kind:9}  (?:{forms.get(kind) or re.escape(why_vacuous(problem.test))})"
        except model.Fault as fault:
            kind, wanted = "fault", re.escape(str(fault))
        kinds[kind] += 1
        found = re.fullmatch(re.escape(f"{name:{width}}  ") + wanted, line)
        is_right = found and not (kind == "allowed" and found[1] and int(found["first"]) <= int(found["second"]))
        run.check(f"made test {number}", is_right, f"{text.decode()}wanted: {wanted}, found: {line}")
    status = next(STATUS[kind] for kind in STATUS if kinds[kind])
    run.expect("how many lines", len(names) + 1, len(lines))
    run.expect("the status", status, said.status)
    run.kinds += kinds


def check_test(run):
    """Compares `rvfence test` with the solver and the checker in Python on the tests that scripts/litmus.py makes.

    In every second test one atom of the condition is changed by chance: it gets another word, or is joined with an atom
    that has one. So many outcomes are vacuous; then the words for it are compared too. Of an outcome that is allowed
    the two operations must be of one hart, the first later in its code; of one that is forbidden the words have a form,
    and count contradictions where candidates show the outcome. Up to 200 files go into one run, and into one with four
    jobs, which must print the same. With `--json` objects say the same, and `order` says yes to their witnesses."""
    numbers = run.numbers()
    for at in range(0, len(numbers), AT_ONCE):
        compare_test(run, numbers[at:at + AT_ONCE])
