"""Refuses each request for memory of some runs in turn, one request a run. Every such run must either end with status
3, nothing on standard output and `fault F19 Memory` on standard error (of `states` below the faults of files), or end
as it does with ample memory, but perhaps without messages that explain faults. It leaves no part of a certificate, and
a whole one where it has answered. The command lines are in scripts/transcripts/refused.table; of some the number of
requests is looked at alone.

Then come the calls of the program `fs_tests_out_of_memory`. Where the gate hasn't built that, or a source is newer, it
is built now; with --quick they are left out then. A run of one part of it makes that part's calls, and makes a call
again that answers F19. So each run must print what it prints with ample memory, but for two lines, `F19` and `again`,
where a call was refused; or, where the making ready of its arguments was, a beginning of that, and `stopped by fault
F19 Memory`, with status 3. A run may also print the same: a call that asks for room ahead asks again for less. What the
parts print with ample memory, one after the other, must be what crates/fs_tests_out_of_memory/stdout has."""
import collections
import glob
import os
import re
import subprocess
import tempfile

from running import EXAMPLES, TOP, Said, compiled, program, ran, read, rows, rvfence, side_by_side, text_of

CRATE = f"{TOP}/crates/fs_tests_out_of_memory"
CALLS = f"{CRATE}/out/fs_tests_out_of_memory"
PARTS = ["verdicts", "boards", "desks", "rings"]
REFUSED = Said("", "fault F19 Memory\n", 3)
TRIED_AGAIN, STOPPED = ["F19", "again"], ["stopped by fault F19 Memory"]
# A message that explains a fault: its first line and those below, which are indented; of a missing file a line.
MESSAGE = re.compile(r"(?m)^[^ \n][^\n]*: (?:fault F.*\n(?:  .*\n)+|there is no such file\n)")
TEST = f"{EXAMPLES}/MP.litmus"      # on standard input


def refusing(library, command, number=0, **options):
    """What a run says whose request of this number is refused (0 refuses nothing), and how many requests it makes."""
    with tempfile.NamedTemporaryFile() as count:
        settings = {**os.environ, "REFUSE_AT": str(number), "REFUSE_COUNT": count.name, "LD_PRELOAD": library}
        return ran(command, env=settings, **options), int(read(count.name) or 0)


def is_as(said, whole):
    """Is this what the whole run says, but perhaps for some of its messages?"""
    left = iter(MESSAGE.findall(whole.err))
    are_some = all(message in left for message in MESSAGE.findall(said.err))
    alike = [each._replace(err=MESSAGE.sub("", each.err)) for each in (said, whole)]
    return are_some and alike[0] == alike[1]


def refuse(check, library, words, status, is_together):
    """Refuses each request of a command line in turn. With several threads the number of a request, and of all, differs
    from run to run: so each is then refused up to the most that any run has made, and some more."""
    def run(number):
        with tempfile.TemporaryDirectory() as folder, open(TEST, "rb") as test:
            path = f"{folder}/cert.json"
            own = [word.replace("CERT", path) for word in words]
            said, requests = refusing(library, [program(), *own], number, stdin=test, cwd=TOP)
            is_well = path not in own or said.status not in (0, 1)          # has it left its certificate so?
            if os.path.exists(path):
                is_well = rvfence("check", *own[1:3], path, cwd=TOP, stdin=read(TEST)).out.startswith("yes\n")
            return said, requests, is_well and not os.path.exists(f"{path}.part")
    name, runs = " ".join(words), [run(0) for _ in range(5 if is_together else 1)]
    whole, most = runs[-1][0], max(requests for _, requests, _ in runs)
    if whole.status != status or not most:
        check(name, False, f"{most} requests for memory, and status {status} is wanted of {whole}")
        return
    at, faults, more = 0, 0, 20 if is_together else 0
    while at < most + more:
        numbers = range(at + 1, at + 1 + min(64, most + more - at))
        for at, (said, requests, is_well) in zip(numbers, side_by_side(run, numbers)):
            most = max(most, requests) if is_together else most
            # the fault alone, or of `states` below the beginning of what the whole run says of files
            before = said.err.removesuffix(REFUSED.err)
            is_begun = words[0] == "states" and "fault F" in before and whole.err.startswith(before)
            is_fault = said == REFUSED or is_begun and said._replace(err=REFUSED.err) == REFUSED
            faults += is_fault
            wrong = f"{said}{'' if is_well else ', and its certificate is not whole'}"
            check(f"{name}: request {at} of {most} refused", is_well and (is_fault or is_as(said, whole)), wrong)
    print(f"{name}: {at} requests refused, of these {faults} with the fault", flush=True)


def are_built():
    """Is the program that makes the calls by themselves built, and no source newer?"""
    patterns = [f"{TOP}/crates/*/{part}/**" for part in ("src", "specs", "proofs")]
    paths = [path for pattern in patterns for path in glob.glob(pattern, recursive=True)]
    sources = [path for path in paths if os.path.isfile(path) and "/src/tests/" not in path]
    return os.access(CALLS, os.X_OK) and max(map(os.path.getmtime, sources)) <= os.path.getmtime(CALLS)


def kind(said, whole):
    """What a run with a refused request is: `same`, `again`, `stopped`, or nothing that is allowed."""
    lines = (said.out + said.err).splitlines()
    if said.status == 3 and lines[-1:] == STOPPED and lines[:-1] == whole[:len(lines) - 1]:
        return "stopped"
    if said.status == 0 and lines == whole:
        return "same"
    without = [lines[:at] + lines[at + 2:] for at in range(len(lines)) if lines[at:at + 2] == TRIED_AGAIN]
    return "again" if said.status == 0 and whole in without else None


def try_part(check, library, part):
    """Refuses each request of the part, and gives what it prints with ample memory."""
    said, count = refusing(library, [CALLS, part])
    whole, kinds = (said.out + said.err).splitlines(), collections.Counter()
    check(f"{part} with ample memory", said.status == 0 and count and whole, said)
    numbers = range(1, count + 1)
    runs = side_by_side(lambda at: refusing(library, [CALLS, part], at), numbers)
    for at, (found, _) in zip(numbers, runs):
        kinds[kind(found, whole)] += 1
        check(f"{part}: request {at} of {count} refused", kind(found, whole), found)
    # a part none of whose calls was refused tries nothing
    check(f"{part}: a call was refused", kinds["again"])
    print(f"{part}: {count} requests refused, of these {kinds['again']} in a call that answers F19 and is made again, "
          f"{kinds['stopped']} in making arguments ready, {kinds['same']} asked for again otherwise")
    return whole


def check(run):
    library = compiled("checks/hinder.c", run.folder, "-shared", "-fPIC")
    for way, number, *words in map(str.split, rows("refused")):
        if way == "most":                       # it ends with status 0, and makes no more requests than these
            said, requests = refusing(library, [program(), *words], cwd=TOP)
            is_right = said.status == 0 and 0 < requests <= int(number)
            run.check(f"{' '.join(words)}: at most {number} requests", is_right, f"{requests}, status {said.status}")
        else:
            refuse(run.check, library, words, int(number), way == "together")
    if run.options.quick and not are_built():
        print("the calls by themselves are left out: the gate builds the program that makes them")
        return
    if not are_built():
        subprocess.run(["rt", "run"], cwd=CRATE, stdout=subprocess.DEVNULL, check=True)
    whole = [line for part in PARTS for line in try_part(run.check, library, part)]
    run.expect("what the calls print with ample memory", text_of(f"{CRATE}/stdout").splitlines(), whole)
