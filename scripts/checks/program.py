"""Checks the built program from outside: what it prints on both outputs, and its exit status.

What it must print stands in scripts/transcripts/*.txt, by command or subject. Then come the examples with their
answers, the commands of the documents with what stands below them, what is printed as JSON, whether the other commands
take what it answers; messages, and how far it is, as it says on a terminal."""
import glob
import itertools
import json
import os
import re
import shutil
import tempfile
import time

import check_certificate as model
from bench_tests import votes
from running import (EXAMPLES, LONGEST, PRICES, TOP, compact, compiled, program, ran, ran_on_terminal, rvfence,
                     side_by_side, stored_answers, tests_of_examples, text_of, written)
from solve_reference import YES

FOLDER = f"{TOP}/scripts/transcripts"
SEVERAL = r"\d+(?:, \d+)*(?: and \d+)?"
PIECE = rf"in (?:ones? like )?cycles? {SEVERAL}|in \d+ more kinds?"
# how blocks begin that `--why` prints: contradictions, and executions without a fence or with all
CHAIN = re.compile(r"(cycle|stale|not atomic) (\d+)")
FENCE = re.compile(r"(\S+) before (P\d+):(\d+) \(line (\d+),.*\)(.*)")
EXECUTION = "The outcome can be "
ALL_TESTS = [*tests_of_examples(), *glob.glob(f"{EXAMPLES}/tests/*.litmus")]


def blocks_of(path):
    """The blocks of a transcript: of each its name, its command and what is printed."""
    for block in re.sub("(?m)^## .*\n", "", text_of(path)).strip("\n").split("\n\n"):
        name, command, wanted = block.split("\n", 2)
        yield name.removeprefix("# "), command.removeprefix("$ "), wanted


def make_ready(checks):
    """Puts the examples, and the program under the name that help prints, into the folder of the checks."""
    os.mkdir(f"{checks.folder}/bin")
    os.symlink(EXAMPLES, f"{checks.folder}/examples")
    os.symlink(program(), f"{checks.folder}/bin/rvfence")


def shell(checks, command, own=None, **options):
    """What a command says, for which `rvfence` is the program and $own a folder."""
    environment = {**os.environ, "PATH": f"{checks.folder}/bin:{os.environ['PATH']}", "own": own or checks.folder}
    return ran(["bash", "-c", command], env=environment, **options)


def check_block(checks, block, functions=f"{FOLDER}/functions.sh", seconds=LONGEST):
    """Checks a block: in it a line of standard error stands behind `! `, and `! ...` for whatever is said there. The
    command calls functions of a file."""
    name, command, wanted = block
    with tempfile.TemporaryDirectory() as own:
        said = shell(checks, f"source {functions}\n{command}", own, cwd=checks.folder, seconds=seconds)
    error = re.sub("(?m)^", "! ", said.err[:-1]) + "\n" if said.err else ""
    if error and "\n! ...\n" in f"\n{wanted}":
        error = "! ...\n"
    checks.expect(f"{name}: {command}", wanted, f"{said.out}{error}[status {said.status}]")


def check_examples(checks):
    """The examples: a line `$ rvfence WORD..`, run in examples/, and the transcript. A printed test prints the same."""
    for path in glob.glob(f"{EXAMPLES}/answers/*.txt"):
        command, wanted = text_of(path).rstrip("\n").split("\n", 1)
        words = command.removeprefix("$ rvfence ").split()
        said = rvfence(*words, *["-q"] * (words[0] == "solve"), cwd=EXAMPLES)
        checks.expect(path, wanted, f"{said.out}{said.err}[status {said.status}]")
    for test in tests_of_examples():
        once = rvfence("place", test)
        checks.expect(f"{test} is answered", ("", 0), once[1:])
        checks.expect(f"{test} printed twice", once, rvfence("place", "stdin", stdin=once.out))


def fences_of(lines):
    """The lines of an answer below the first one, as FENCE words."""
    return [re.sub(r"fence P(\d+) (\d+) ", r"P\1:\2=", line) for line in lines if line.startswith("fence ")]


def check_idioms(checks):
    """Each idiom goes wrong without fences. And where of those of its answer at prices-linux.json one is missing, or a
    kind that costs less stands in its place, an execution goes wrong that all of them forbid."""
    folder, answers, names = f"{EXAMPLES}/idioms", stored_answers("solve"), []
    price = json.loads(text_of(f"{EXAMPLES}/prices-linux.json"))
    for test in sorted(glob.glob(f"{folder}/*.litmus")):
        name = os.path.basename(test).removesuffix(".litmus")
        fences = fences_of(answers[f"idioms/{name}.litmus", "prices-linux.json"].split("\n"))
        cases = [(name, [], [])]
        for fence in fences:
            slot, kind = fence.split("=")
            others = [word for word in fences if word != fence]
            less = [f"{slot}={other}" for other in price if price[other] < price[kind]]
            cases.append((f"{name}-{slot[1:].replace(':', '-')}", others, less))
        for witness, others, less in cases:
            path = f"{folder}/witnesses/{witness}.json"
            for words in (others, *([*others, word] for word in less)):
                checks.expect(f"{witness} with {words}", YES, rvfence("order", test, path, *words))
            said = rvfence("order", test, path, *fences)
            checks.expect(f"{witness} with all fences", ("no: rule 4", "", 1), (said.out[:10], *said[1:]))
        names += [f"{witness}.json" for witness, _, _ in cases]
    checks.expect("the executions of the idioms", sorted(names), sorted(os.listdir(f"{folder}/witnesses")))


def check_documents(checks):
    """Each command that stands after `$ ` in a code block prints what stands below it there."""
    for document in ("README.md", "docs/FORMAT.md", "examples/README.md"):
        # a command, and the lines up to the next one or to the end of its code block
        for command, wanted in re.findall(r"(?m)^\$ (.*)\n((?:(?!```|\$ ).*\n)*)", text_of(f"{TOP}/{document}")):
            if command != "./test":
                said = shell(checks, f"exec 2>&1; {command.replace('/tmp/', f'{checks.folder}/')}", cwd=TOP)
                checks.expect(f"{document}: {command}", wanted.rstrip("\n"), said.out.rstrip("\n"))


def check_answers(checks):
    """What `solve` answers, the other commands take: `place` prints the test with the fences, at the same cost, and it
    needs no more; `order` accepts the execution of `none`. It notes that a test is vacuous, as `test` does, and why."""
    for test in tests_of_examples():
        said = rvfence("solve", test, PRICES)
        vacuous = re.fullmatch(r".*  vacuous    (.*\n).*\n", rvfence("test", test).out)
        if said.status != 2:
            checks.expect(f"the note for {test}", f"note: vacuous: {vacuous[1]}" if vacuous else "", said.err)
        lines = said.out.splitlines()
        if lines[:1] == ["none"]:
            full = [f"P{hart}:{at}=rw,rw" for hart, at in model.read(test, model.test_of).slots()]
            found = rvfence("order", test, written(f"{checks.folder}/witness.json", lines[1]), *full)
            checks.expect(f"the execution of none for {test}", YES, found)
        elif not test.endswith("/STRAY.litmus"):
            fences = fences_of(lines)
            cost = "".join(lines[:1]).replace("fenced", "\n(* cost") + " *)\n"
            placed = rvfence("place", test, *fences, "--prices", PRICES).out
            checks.expect(f"the cost of the fences for {test}", cost, placed[-len(cost):])
            found = rvfence("solve", "stdin", PRICES, stdin=rvfence("place", test, *fences).out)
            checks.expect(f"{test} with its fences", ("fenced 0\n", 0), (found.out, found.status))


def done_by(test, operation):
    """What an operation does, in the words of `--why` but for its source."""
    names = {address: name for name, address in test.addresses.items()}
    loaded, stored = (f"&{names[it]}" if it in names else str(it) for it in (operation.loaded, operation.stored))
    at = names[operation.address]
    if operation.loads:
        return f"reads {at}={loaded}" + f", stores {stored}" * operation.stores
    return f"stores {at}={stored}"


def told(test, block):
    """The witness that is told there, as JSON: of each hart the choices of the run that does what is told of it."""
    rows, choices = re.findall(r"(?m)^  (P(\d+):\d+) +line .*  ((?:reads|stores) .*)$", block), []
    for hart, runs in enumerate(model.all_runs(test)):
        source = r" (\(initial\)|from P\d+:\d+(, still in its store buffer)?)"
        does = {name: re.sub(source, "", it) for name, of, it in rows if int(of) == hart}
        fits = [run.choices for run in runs if {it.name: done_by(test, it) for it in run.operations} == does]
        choices += fits[:1]
    return json.dumps({"choices": choices, "order": [name for name, _, _ in rows]})


def faults_of_chain(block, placed):
    """What is wrong with a contradiction that is told, where these fences are placed, by kind and line."""
    names, arrows = re.findall(r"(?m)^  (P\d+:\d+) +line ", block), re.findall(r"(?m)^    \|   (.*)$", block)
    is_cycle, last = block.startswith("cycle "), block.rstrip().split("\n")[-1]
    if is_cycle and (last != f"  {names[0]}  again" or len(arrows) != len(names)):
        yield "it doesn't end where it began"
    for arrow, name in zip(arrows, [*names[1:], names[0]]):
        if (of := re.match(r"(P\d+:\d+) .*\((?:rf|co|fr)\)$", arrow)) and of[1] != name:
            yield f"{arrow}, and {name} comes next"
        if (fence := re.match(r"fence (\S+) before line (\d+) \(rule 4", arrow)) and fence.groups() not in placed:
            yield f"{arrow}, and no such fence is in the answer"


def check_contradictions(checks, path, head, blocks, placed):
    """Of fences it is told why they rule the outcome out, in chains by fences of the answer, and what needs each."""
    is_told = bool(blocks) and re.match(r"Each way to the outcome that |No values that the loads ", blocks[0])
    checks.expect(f"whether contradictions are told of {path}", head.startswith("fenced"), bool(is_told))
    chains = [block for block in blocks if CHAIN.match(block)]
    checks.expect(f"whether a chain is told of {path}", bool(is_told) and blocks[0].startswith("Each"), bool(chains))
    for block in chains:
        checks.expect(f"what is wrong with this of {path}: {block}", [], [*faults_of_chain(block, placed)])
    told = {block.split()[1]: block for block in chains if block.startswith("cycle ")}
    for (kind, line), cycles in placed.items():
        said = re.fullmatch(rf": (?:{PIECE})(?:(?:,| and) (?:{PIECE}))*", cycles)
        own, alike = (set(re.findall(r"\d+", " ".join(re.findall(rf"in {word}cycles? ({SEVERAL})", cycles))))
                      for word in ("", "ones? like "))
        where = rf"fence {kind} before line {line} |fences \(rule 4"
        is_right = said and own | alike <= told.keys() and all(re.search(where, told[number]) for number in own)
        checks.check(f"{path}: whether {kind} in line {line} is in cycles that are told{cycles}", is_right)


def check_why(checks):
    """The executions that `solve --why` tells of the examples, `order` accepts: of each fence one without it. And it
    tells them in the same rows. Before them it tells why the fences rule the outcome out."""
    for path in tests_of_examples():
        head, *blocks = rvfence("solve", path, PRICES, "--why", "-q").out.split("\n\n")
        fences, test = fences_of(head.split("\n")), model.read(path, model.test_of)
        cases = [(fence, [it for it in fences if it != fence]) for fence in fences]
        told_of = [block for block in blocks if FENCE.match(block) or block.startswith(EXECUTION)]
        named = [it for it in map(FENCE.match, told_of) if it]
        placed = {(it[1], it[4]): it[5] for it in named}
        check_contradictions(checks, path, head, [it for it in blocks if it not in told_of], placed)
        if head.startswith("none"):
            cases = [("all", [f"P{hart}:{at}=rw,rw" for hart, at in test.slots()])]
        else:
            words = [f"{it[2]}:{it[3]}={it[1]}" for it in named]
            checks.expect(f"the fences of which is told of {path}", fences, words)
        for (fence, words), block in zip(cases, told_of, strict=True):
            witness = written(f"{checks.folder}/witness.json", told(test, block))
            said, rows = rvfence("order", path, witness, *words, "--why"), block.partition("memory:\n")[2]
            checks.expect(f"{path} without {fence}", f"yes\n\nIn the order of memory:\n{rows.rstrip()}\n", said.out)


def check_forbidden(checks):
    """`test --why` tells of each forbidden example contradictions, at most as many as it counts, by written fences."""
    for path in ALL_TESTS:
        head, *blocks = rvfence("test", path, "--why", "-q").out.split("\n\n")
        if counted := re.search(r"  forbidden  (?:(\d+) contradiction|no )", head):
            rows = [" ".join(line.split()) for line in text_of(path).split("\n")]
            chains = list(filter(CHAIN.match, blocks))
            is_right = min(int(counted[1] or 0), 1) <= len(chains) <= int(counted[1] or 0)
            checks.check(f"how many contradictions are told of {path}", is_right, head)
            for block in chains:
                fences = re.findall(r"\|   (fence\S* ?\S*) in line (\d+) \(rule 4", block)
                faults = [fence for fence, line in fences if fence not in rows[int(line) - 1]]
                faults += faults_of_chain(block, {})
                checks.expect(f"what is wrong with this of {path}: {block}", [], faults)


def check_pictures(checks):
    """`solve --dot` draws what `solve --why` tells: of each cycle an arrow for each of its own, of each fence the
    execution without it. Graphviz's `dot`, where there is one, takes all without a word."""
    for path in tests_of_examples():
        folder, name = f"{checks.folder}/pictures", os.path.basename(path).removesuffix(".litmus")
        os.makedirs(folder)
        blocks = rvfence("solve", path, PRICES, "--why", "--dot", folder, "-q").out.split("\n\n")
        drawn, wanted = {os.path.basename(it): text_of(it) for it in glob.glob(f"{folder}/*.dot")}, set()
        for block in blocks:
            if chain := CHAIN.match(block):
                file = f"{name}-{chain[1].replace(' ', '-')}-{chain[2]}.dot"
                names = re.findall(r"(?m)^  (P\d+:\d+) +line ", block)
                wanted.add(file)
                if chain[1] == "cycle":         # its arrows that aren't program order, each as both its ends
                    arrows = re.findall(r'(?m)^  "(P\d+:\d+)" -> "(P\d+:\d+)" \[x?label=" ', drawn.get(file, ""))
                    checks.expect(f"the arrows of {file}", list(zip(names, names[1:] + names[:1])), arrows)
            elif fence := FENCE.match(block):
                wanted.add(f"{name}-without-{fence[2]}-{fence[3]}.dot")
            elif block.startswith(EXECUTION):
                wanted.add(f"{name}-execution.dot")
        checks.expect(f"the pictures of {path}", sorted(wanted), sorted(drawn))
        for it in sorted(drawn) if shutil.which("dot") else []:
            said = ran(["dot", "-Tsvg", "-o", "/dev/null", f"{folder}/{it}"])
            checks.expect(f"what dot says of {it}", ("", "", 0), said)
        shutil.rmtree(folder)


def lines_of(found, fault):
    """The lines that say what a JSON object of `solve` or `check` says; nothing where it says this very fault."""
    if found.get("verdict") == "fault":
        return found["why"].removeprefix(fault)
    if "valid" in found:
        return f"yes\n{lines_of(found['answer'], fault)}" if found["valid"] else f"no: {found['reason']}\n"
    if found["answer"] == "none":
        return f"none\n{compact(found['witness'])}\n"
    fences = [f"fence P{fence['hart']} {fence['before']} {fence['kind']}\n" for fence in found["fences"]]
    return "".join([f"fenced {found['cost']}\n", *fences])


def check_objects(checks):
    """With `--json` `solve` and `check` say what they say without, of each example and each certificate."""
    runs = [["solve", test, PRICES] for test in ALL_TESTS]
    runs += [["check", f"{EXAMPLES}/{name}.litmus", PRICES, path] for path, name in itertools.product(
        sorted(glob.glob(f"{EXAMPLES}/certificates/*.json")), ("MP", "SB", "MP11"))]
    for words in runs:
        plain, said = rvfence(*words), rvfence(*words, "--json")
        lines = lines_of(json.loads(said.out), plain.err.partition("\n")[0])
        checks.expect(f"the object of {words}", plain, said._replace(out=lines))


def check_messages(checks):
    """On a terminal a message explains a fault as with -v, and with -q none; elsewhere so of `test` and `audit`."""
    test = f"{EXAMPLES}/tests/bad.litmus"
    message = rvfence("place", test, "-v").err.partition("\n")[2]
    checks.check("a message", message.startswith(f"{test}:11:26: fault F3 Syntax line 11\n"), message)
    line = "fault F3 Syntax line 11\n"
    for words in (["place", test], ["order", test, PRICES], ["solve", test, PRICES], ["check", test, PRICES, PRICES],
                  ["audit", test, PRICES], ["test", test]):
        first, elsewhere = "" if words[0] == "test" else line, message if words[0] in ("test", "audit") else ""
        for more in ([], ["-v"], ["-q"], ["-v", "-q"]):
            shown, said = ran_on_terminal([program(), *words, *more]), rvfence(*words, *more)
            wanted, name = first + message * ("-q" not in more), " ".join([words[0], *more])
            expected = wanted if more else first + elsewhere
            checks.expect(f"{name} on a terminal", wanted.replace("\n", "\r\n"), shown.err)
            checks.expect(f"{name} elsewhere", (shown.out, expected, shown.status), tuple(said))


def check_progress(checks):
    """Past two seconds `solve` says on a terminal how far it is, in a line that changes and that is wiped before a
    fault and its message are printed. It says nothing of it elsewhere, nor of a short search, and answers the same."""
    three = written(f"{checks.folder}/three.json", '{"w,r":9,"tso":5,"rw,rw":10}')
    # one that comes to the limit of nodes late, and one that has an answer before, in about two seconds
    late, long = (written(f"{checks.folder}/votes-{spare}.litmus", votes(4, 2, spare)) for spare in (20, 24))
    line = r"\r\d+ verdicts( to plan(, \d+ nodes(, best cost \d+)?)?|, \d+ nodes or more)\x1b\[K"
    # (a second worker joins from 1,000 nodes on)
    cases = [(late, PRICES, 1, "{2,}", ""), (late, PRICES, 2, "{2,}", ""), (long, three, 1, "+", "?"),
             (f"{EXAMPLES}/MP.litmus", PRICES, 1, "+", "{0}")]

    def check(case):
        test, prices, workers, lines, times = case
        command = [program(), "solve", test, prices, "--workers", str(workers)]
        elsewhere, start = ran(command), time.monotonic()
        shown = ran_on_terminal(command)
        if times == "{0}" and time.monotonic() - start > 2:     # a short one may take so long beside much else
            times = "?"
        name = f"how far {os.path.basename(test)} is by {workers} workers"
        fault = elsewhere.err.replace("\n", "\r\n")
        message = rf"{re.escape(test)}: {re.escape(fault)}  [^\r]+\r\n" if fault else ""
        wanted = rf"(({line}){lines}\r\x1b\[K){times}{re.escape(fault)}{message}"
        checks.check(name, re.fullmatch(wanted, shown.err), repr(shown.err[-200:]))
        checks.check(f"{name}, elsewhere", fault in ("", "fault F16 NodeLimit\r\n"), fault)
        checks.expect(f"{name}, the answer", (elsewhere.out, elsewhere.status), (shown.out, shown.status))

    side_by_side(check, cases)


def check(run):
    # the launcher builds the program, so that no progress comes between later checks
    ran([f"{TOP}/rvfence", "place", f"{EXAMPLES}/MP.litmus"], seconds=None)
    make_ready(run)
    # all of scripts/transcripts/, with the files there
    shutil.copytree(f"{FOLDER}/files", run.folder, dirs_exist_ok=True)
    blocks = [block for path in sorted(glob.glob(f"{FOLDER}/*.txt")) for block in blocks_of(path)]
    side_by_side(lambda block: check_block(run, block), blocks)
    for part in (check_examples, check_idioms, check_documents, check_answers, check_why, check_forbidden,
                 check_pictures, check_objects, check_messages, check_progress):
        part(run)


def check_launcher(run):
    """Runs the launcher in a small repository of its own, with a stand-in for `rt` that proves nothing and notes what
    it is asked for, by the commands of scripts/transcripts/launcher/launcher.txt."""
    for block in blocks_of(f"{FOLDER}/launcher/launcher.txt"):
        check_block(run, block, f"{FOLDER}/launcher/functions.sh")


def check_limits(run):
    """Runs the built program at its limits: each is met, where there must be an answer, and passed by one, where there
    must be a fault, as scripts/transcripts/limits/limits.txt has it. The tests beside it say why.

    With `--heavy` the runs of heavy.txt come too, which take minutes or gigabytes, and after each large run stand its
    milliseconds of processor time and its mebibytes at the peak."""
    make_ready(run)
    names, notes = ["limits.txt"], run.file("notes", "")
    os.symlink(f"{FOLDER}/limits", f"{run.folder}/limits")
    if run.options.heavy:
        names.append("heavy.txt")
        os.unlink(f"{run.folder}/bin/rvfence")
        parts = {"measure": compiled("measure.c", run.folder), "program": program(), "notes": notes}
        stand_in = text_of(f"{FOLDER}/limits/rvfence").format(**parts)
        os.chmod(written(f"{run.folder}/bin/rvfence", stand_in), 0o755)
    for block in (block for name in names for block in blocks_of(f"{FOLDER}/limits/{name}")):
        check_block(run, block, seconds=600)
        for line in text_of(notes).splitlines():
            nanoseconds, peak, _, words = line.split(" ", 3)
            if int(nanoseconds) > 20_000_000 or int(peak) > 8_000_000:
                print(f"{words[:120]}: {int(nanoseconds) / 1e6:.0f} ms, {int(peak) / 2 ** 20:.0f} MiB", flush=True)
        written(notes, "")
