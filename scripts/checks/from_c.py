"""Prints the C tests of examples/c as RISC-V by scripts/from-c, with each lock, with labels and without, and compares
what `test` says with the result in their comment, that of the kernel's documentation, or behind `RISC-V:`. The cheapest
fences of all primitives, which `solve --sites` finds, must rule out what is forbidden, too. Then come tests that
scripts/from-c refuses, and bytes changed by chance: it ends with status 0 or 2 and says at most a line."""
import itertools
import json
import os
import random
import re

from litmus import fence_of
from running import EXAMPLES, TOP, expanded, ran, read, rows, rvfence, side_by_side, text_of, verdict

FOLDER, LINUX = f"{EXAMPLES}/c", f"{EXAMPLES}/prices-linux.json"
LOCKS = ["swap", "lrsc", "ticket"]
WORDS = {"Never": "forbidden", "Sometimes": "allowed"}
CHANGED = 100
HEAD = "C T\n{}\nP0(int *x, atomic_t *a, spinlock_t *s) {"


def from_c(*words, **options):
    return ran([f"{TOP}/scripts/from-c", *words], **options)


def made_of(name, *words):
    return from_c(f"{FOLDER}/{name}", *words).out


def wanted_of(name):
    """What `test` is to say of an example as RISC-V."""
    text = text_of(f"{FOLDER}/{name}")
    result, here = re.search(r"Result: (\w+)", text), re.search(r"RISC-V: (\w+)", text)
    return here[1] if here else WORDS[result[1]]


def check_verdict(run, name):
    has_lock = "spin_lock" in text_of(f"{FOLDER}/{name}")
    for lock, sites in itertools.product(LOCKS if has_lock else LOCKS[:1], ([], ["--sites"])):
        made = from_c(f"{FOLDER}/{name}", "--lock", lock, *sites)
        run.expect(f"{name} as RISC-V", ("", 0), made[1:])
        labels = re.findall(r"\b[a-z]\w*_\d+: fence ", made.out)
        run.expect(f"labels of {name}", len(re.findall("fence ", made.out)) if sites else 0, len(labels))
        run.check(f"{name} is named", made.out.startswith(f"RISCV {name.removesuffix('.litmus')}\n"))
        said = verdict(run.file(f"{lock}{len(sites)}-{name}", made.out))
        run.expect(f"{name} with {lock} {sites}", wanted_of(name), said)


def forbidden():
    """The examples whose outcome is forbidden."""
    return [name for name in sorted(os.listdir(FOLDER)) if wanted_of(name) == "forbidden"]


def check_sites(run, names, lock):
    """The cheapest fences of all primitives, by the examples whose outcome is forbidden: with these FENCEs each is."""
    files = [run.file(f"bare-{lock}-{name}", made_of(name, "--lock", lock, "--bare")) for name in names]
    found = rvfence("solve", *files, LINUX, "--sites")
    run.expect(f"the status with {lock}", ("", 0), found[1:])
    first, *sites = [line.split() for line in found.out.splitlines()]
    kinds, prices = {site: kind for _, site, kind in sites}, json.loads(read(LINUX))
    run.expect(f"the cost with {lock}", ["fenced", str(sum(prices[kind] for kind in kinds.values()))], first)
    for name in names:
        text = re.sub(r"\b(\w+)_\d+: fence(?:\.tso| [riow]+,[riow]+)",
                      lambda label: fence_of(kinds.get(label[1])) or "nop", made_of(name, "--lock", lock, "--sites"))
        said = verdict(run.file(f"placed-{lock}", text))
        run.expect(f"{name} with the fences found and {lock}", "forbidden", said)


def pairs(group):
    """The rows of a group of scripts/transcripts/from-c.table, with what is wanted of each."""
    parts = [row.partition(" →") for row in rows("from-c", group)]
    return [(expanded(code), wanted.strip()) for code, _, wanted in parts]


def check_changed(run, number):
    chance = random.Random(f"from-c {number}")
    data = bytearray(read(f"{FOLDER}/{chance.choice(sorted(os.listdir(FOLDER)))}"))
    for _ in range(chance.randint(1, 6)):
        at = chance.randrange(len(data))
        data[at:at + chance.randint(0, 3)] = chance.choice([bytes([chance.randrange(256)]), *b"( } * - && 0:".split()])
    said = from_c("-", "--lock", "ticket", stdin=bytes(data))
    is_right = said.status == 0 and not said.err or said.status == 2 and said.err.count("\n") == 1 and not said.out
    run.check(f"bytes {number} end well", is_right, f"{said} of {bytes(data)}")
    run.kinds["refused" if said.status else "printed"] += 1


def check(run):
    side_by_side(lambda name: check_verdict(run, name), sorted(os.listdir(FOLDER)))
    side_by_side(lambda lock: check_sites(run, forbidden(), lock), LOCKS)
    # a hart for each row that is printed
    printed = pairs("printed")
    harts = [f"P{at}{HEAD.partition('P0')[2]}int r0; {code}}}" for at, (code, _) in enumerate(printed)]
    said = from_c("-", stdin="\n".join(["C T\n{}", *harts, "exists (true)"]))
    cells = re.sub(r" \(\* \w[^*]* \*\)|(?<=L)\d+_|(?<=END)\d+", "", said.out.partition(" P0")[2]).split(" ;\n")[1:-1]
    for at, (code, wanted) in enumerate(printed):
        run.expect(code, wanted, "; ".join(filter(None, (row.split("|")[at].strip() for row in cells))))
    files = [(f"{HEAD}{code}}}\nexists (true)", wanted) for code, wanted in pairs("refused")]
    for data, wanted in [*files, *pairs("refused files"), (b"\xff", "'utf-8'")]:
        said = from_c("-", stdin=data)
        why = said.err.removeprefix("scripts/from-c: -:").strip()
        run.check(f"{data!r} is refused", why.startswith(wanted) and said[::2] == ("", 2), said)
    side_by_side(lambda number: check_changed(run, number), range(CHANGED))
