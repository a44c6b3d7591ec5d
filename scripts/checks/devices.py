"""Runs the built program where files and devices fail: what it reads, prints and writes as a certificate; where calls
are interrupted; and where two runs at once write one certificate, each held at each of its calls (by hinder.c).

What can't be read is F20 and what can't be written F21, with status 2, and of F20 a line says which file it is, and
why; on standard output is a beginning of the answer; status 0 or 1 comes only where all was written. No signal ends a
run where a file may not grow further. A certificate stands under its name whole or not at all, with the mode of what
was there; that stays where it can't be written, and so does each other file."""
import contextlib
import errno
import itertools
import os
import resource
import shutil
import signal
import stat
import subprocess
import tempfile

from running import (EXAMPLES, LONGEST, PRICES, TOP, Said, compiled, expanded, program, ran, read, rows, text_of,
                     waited_for, written)

MISSING, FOLDER, UNREAD = "there is no such file", "it is a folder", "it can't be opened or read"
UNWRITTEN = Said("", "fault F21 WriteFault\n", 2)
OLD, NONE = {"kept.json": b"old"}, {}       # what is in a folder where a certificate is to be written
NOBODY = 65534
STREAMS = [[0], [1], [2], [0, 1], [0, 2], [1, 2], [0, 1, 2]]
# store buffering in the printed form, an execution of it, and its answer
SB = text_of(f"{TOP}/scripts/transcripts/files/printed.litmus")
SB_WITNESS = '{"choices":[[0],[0]],"order":["P0:1","P1:1","P0:0","P1:0"]}'
SB_ANSWER = Said("fenced 18\nfence P0 1 w,r\nfence P1 1 w,r\n", "", 0)


def unread(name, why):
    """What a run says that can't read this file."""
    return Said("", f"fault F20 ReadFault\n{name[:4096]}: {why}\n", 2)


class Checks:
    """A folder with the files of store buffering, and the counts."""

    def __init__(self, run):
        folder, self.folder, self.check, self.expect = run.folder, run.folder, run.check, run.expect
        os.chmod(folder, 0o755)         # a user who may read little must reach the program and the files
        self.program, self.prices = shutil.copy(program(), folder), shutil.copy(PRICES, folder)
        self.test, witness = written(f"{folder}/sb.litmus", SB), written(f"{folder}/witness.json", SB_WITNESS)
        self.hinder = compiled("checks/hinder.c", folder, "-shared", "-fPIC")
        self.certificate = f"{folder}/certificate.json"
        self.run(self.certifying(self.certificate))
        self.whole, self.commands = {"kept.json": read(self.certificate)}, {}
        paths = {"TEST": self.test, "WITNESS": witness, "PRICES": self.prices, "CERTIFICATE": self.certificate}
        # each command with its words, and what it says
        for name, words, status, out in (row.split(" | ") for row in rows("devices", "commands")):
            said = Said(SB if out == "PRINTED" else expanded(out), "", int(status))
            self.commands[name] = [paths.get(word, word) for word in words.split()], said

    def run(self, words, **options):
        """What the program says. Signals do what they do in a shell."""
        return ran([self.program, *words], **options)

    def hindered(self, words, call, error, count=1000, name="", **options):
        """What it says where the first so many of these calls, at files of this name, fail with this error."""
        settings = {"HINDER_CALL": call, "HINDER_ERROR": str(error), "HINDER_COUNT": str(count), "HINDER_NAME": name}
        return self.run(words, env={**os.environ, **settings, "LD_PRELOAD": self.hinder}, **options)

    def certifying(self, path):
        """The words by which it writes the certificate to this path."""
        return ["solve", self.test, self.prices, "--cert", path]


@contextlib.contextmanager
def folder_with(checks, kept):
    """A folder in which these files are, and the path for a certificate."""
    with tempfile.TemporaryDirectory(dir=checks.folder) as folder:
        for name in kept:
            written(f"{folder}/{name}", kept[name])
        yield folder, f"{folder}/kept.json"


def contents(folder):
    return {name: read(f"{folder}/{name}") for name in os.listdir(folder)}


def before(*closed, size=None, is_ignored=True):
    """What a run does first: it closes these streams, and no file grows past this size, else a signal comes, if any."""
    def prepare():
        if size is not None:
            if is_ignored:
                signal.signal(signal.SIGXFSZ, signal.SIG_IGN)
            resource.setrlimit(resource.RLIMIT_CORE, (0, 0))
            resource.setrlimit(resource.RLIMIT_FSIZE, (size, size))
        for number in closed:
            os.close(number)
    return prepare


def check_readers(checks):
    """Each file of each command in turn is missing, a folder, a device whose reads fail, or may not be read."""
    locked = written(f"{checks.folder}/locked", "RISCV T\n")
    os.chmod(locked, 0)
    others = {"user": NOBODY, "group": NOBODY, "extra_groups": []} if os.geteuid() == 0 else {}
    failing = [[it.strip() for it in row.split("|")] for row in rows("devices", "unread")]
    lines = [["place", checks.test, "--prices", checks.prices]]
    lines += [checks.commands[name][0] for name in ("order", "solve", "check")]
    for line, (name, path, why), more in itertools.product(lines, failing, ([], ["-q"])):
        path = expanded(path.replace("FOLDER", checks.folder))
        for at in [at for at in range(1, len(line)) if line[at] != "--prices"]:
            found = checks.run([*line[:at], path, *line[at + 1:], *more], **(others if path == locked else {}))
            wanted = Said("", "fault F20 ReadFault\n", 2) if more else unread(path, why)
            checks.expect(f"{name} as word {at} of {' '.join([line[0], *more])}", wanted, found)


def check_streams(checks):
    """Standard input or output that is closed, a folder, full, or open for the other use alone; input that breaks
    before its end; and output that nobody reads, or that takes some bytes."""
    for command, (words, answer) in checks.commands.items():
        checks.expect(f"{command}: all is well", answer, checks.run(words))
        reading, failed = [words[0], "stdin", *words[2:]], unread("stdin", UNREAD)
        checks.expect(f"{command}: standard input is closed", failed, checks.run(reading, preexec_fn=before(0)))
        checks.expect(f"{command}: standard output is closed", UNWRITTEN, checks.run(words, preexec_fn=before(1)))
        for stream, path, how, line, wanted in (("stdin", os.devnull, os.O_WRONLY, reading, failed),
                                                ("stdin", checks.folder, os.O_RDONLY, reading, unread("stdin", FOLDER)),
                                                ("stdout", os.devnull, os.O_RDONLY, words, UNWRITTEN),
                                                ("stdout", "/dev/full", os.O_WRONLY, words, UNWRITTEN)):
            file = os.open(path, how)
            checks.expect(f"{command}: {stream} is {path}, opened by {how}", wanted, checks.run(line, **{stream: file}))
            os.close(file)
        for size in (0, 1, 20, 8192, 100_000):
            found = checks.hindered(reading, "end", errno.ECONNRESET, name="pipe:", stdin=SB.ljust(size)[:size])
            checks.expect(f"{command}: a connection that breaks after {size} bytes", failed, found)
        for is_ignored in (False, True):
            end, writing = os.pipe()
            os.close(end)
            found = checks.run(words, stdout=writing, restore_signals=not is_ignored)
            checks.expect(f"{command}: nobody reads what is printed, ignored: {is_ignored}", UNWRITTEN, found)
            os.close(writing)
        for size, is_ignored, old in itertools.product(range(len(answer.out) + 1), (True, False), ("", "old\n")):
            found, taken = taking(checks, words, "stdout", size, is_ignored, old)
            wanted = answer if size == len(answer.out) else UNWRITTEN._replace(out=answer.out[:size])
            name = f"{command}: standard output takes {size} bytes behind {old!r}, ignored: {is_ignored}"
            checks.expect(name, wanted, found._replace(out=taken))


def taking(checks, words, stream, size, is_ignored, old=""):
    """What a run says of which one output goes to a file that takes so many bytes more; and these."""
    path = written(f"{checks.folder}/printed", old)
    with open(path, "ab") as file:
        found = checks.run(words, preexec_fn=before(size=size + len(old), is_ignored=is_ignored), **{stream: file})
    return found, text_of(path).removeprefix(old)


def check_errors(checks):
    """Where standard error takes some bytes, whole lines come and the status tells."""
    missing = ["place", f"{checks.folder}/missing"]
    line = unread(missing[1], MISSING).err
    for size, is_ignored in itertools.product(range(0, len(line) + 8, 7), (True, False)):
        found, taken = taking(checks, missing, "stderr", size, is_ignored)
        wanted = "".join(it for it in line.splitlines(keepends=True) if line.index(it) + len(it) <= size)
        checks.expect(f"standard error takes {size} bytes, ignored: {is_ignored}", (2, wanted), (found.status, taken))


def check_certificates(checks):
    """A certificate on a disk that takes so many bytes, by a write that fails and by a signal: it is there whole, or
    what was there stays. Where streams are closed, neither answer nor fault comes into it, and the status tells."""
    room = os.path.getsize(checks.certificate)
    cases = [([], size, is_ignored) for size in range(room + 1) for is_ignored in (True, False)]
    cases += [(closed, size, True) for closed in STREAMS for size in (0, 1, room - 1, room)]
    for (closed, size, is_ignored), kept in itertools.product(cases, (OLD, NONE)):
        with folder_with(checks, kept) as (folder, path):
            prepare = before(*closed, size=size, is_ignored=is_ignored)
            said = checks.run(checks.certifying(path), preexec_fn=prepare)
            answer, left = (SB_ANSWER, checks.whole) if size == room else (UNWRITTEN, kept)
            if closed:
                said, answer = said.status, 2 if 1 in closed else answer.status
            name = f"streams {closed} closed, room for {size} bytes of a certificate, {kept} there, {is_ignored}"
            checks.expect(name, (answer, left), (said, contents(folder)))


# each call of a run at the file that it writes, and at one beside it
HELD = ["statx", "open", "write", "rename", "unlink"]


class Held:
    """A run that writes a certificate, and stops before its first call of this name at a file of this folder."""

    def __init__(self, checks, folder, test, call):
        settings = {**os.environ, "HINDER_CALL": call, "HINDER_NAME": folder, "LD_PRELOAD": checks.hinder}
        words = [checks.program, "solve", test, checks.prices, "--cert", f"{folder}/kept.json"]
        self.child = subprocess.Popen(words, env=settings, stdout=subprocess.PIPE, stderr=subprocess.PIPE, text=True)
        self.longest = waited_for(self.child.pid, LONGEST)
        # until it has stopped, or has ended without the call
        os.waitid(os.P_PID, self.child.pid, os.WSTOPPED | os.WEXITED | os.WNOWAIT)

    def let_go(self):
        """What it says to its end."""
        self.child.send_signal(signal.SIGCONT)
        out, error = self.child.communicate(timeout=self.longest)
        return Said(out, error, self.child.returncode)


def check_two_runs(checks):
    """Two runs at once that write their certificates to one path, each held at each of its calls, and let go before
    the other or behind it. Both say what they say alone; one certificate stands there whole, and nothing beside it."""
    tests, wanted, wholes = (checks.test, f"{EXAMPLES}/MP.litmus"), [], []
    for test in tests:
        wanted.append(checks.run(["solve", test, checks.prices, "--cert", f"{checks.folder}/alone.json"]))
        wholes.append({"kept.json": read(f"{checks.folder}/alone.json")})
    checks.check("the certificates differ", wholes[0] != wholes[1])
    for calls, kept, order in itertools.product(itertools.product(HELD, HELD), (OLD, NONE), ((0, 1), (1, 0))):
        with folder_with(checks, kept) as (folder, _):
            both = [Held(checks, folder, test, call) for test, call in zip(tests, calls)]
            said = {at: both[at].let_go() for at in order}
            name = f"two runs held at {' and '.join(calls)}, {kept} there, run {order[0]} goes on first"
            checks.expect(name, wanted, [said[0], said[1]])
            left = contents(folder)
            checks.check(f"{name}: what is left", left in wholes, left)


def check_ended_runs(checks):
    """A run that a signal ends at a call leaves what was there, or the whole, and a file that no later run minds."""
    for call, kept, number in itertools.product(HELD, (OLD, NONE), (signal.SIGTERM, signal.SIGKILL)):
        with folder_with(checks, kept) as (folder, path):
            held = Held(checks, folder, checks.test, call)
            held.child.send_signal(number)
            held.let_go()
            left, name = contents(folder), f"signal {number} before {call}, {kept} there"
            certificate = {it: left[it] for it in left if it != "kept.json.part"}
            checks.check(name, certificate in (kept, checks.whole), left)
            checks.expect(f"{name}: a later run", SB_ANSWER, checks.run(checks.certifying(path)))
            checks.expect(f"{name}: a later run's certificate", left | checks.whole, contents(folder))


def check_modes(checks):
    """A certificate has the mode of the file that it replaces, from the first moment on, else that of a new file."""
    def mode_of(path):
        return oct(stat.S_IMODE(os.stat(path).st_mode))

    for mask in (0o022, 0o077, 0):
        os.umask(mask)
        for mode in (0o600, 0o644, 0o400, 0o666, 0o755, 0o620):
            with folder_with(checks, OLD) as (folder, path):
                os.chmod(path, mode)
                held = Held(checks, folder, checks.test, "write")
                during = stat.S_IMODE(os.stat(f"{path}.part").st_mode)
                checks.check(f"mode {mode:o} at mask {mask:o}, while it is written", not during & ~mode)
                found = (held.let_go(), contents(folder), mode_of(path))
                checks.expect(f"mode {mode:o} at mask {mask:o}", (SB_ANSWER, checks.whole, oct(mode)), found)
        path = f"{checks.folder}/new.json"
        checks.run(checks.certifying(path))
        checks.expect(f"a new file at mask {mask:o}", oct(0o666 & ~mask), mode_of(path))
        os.unlink(path)
    os.umask(0o022)
    with folder_with(checks, OLD) as (folder, path):
        os.chmod(path, 0o640)
        said = checks.hindered(checks.certifying(path), "fchmod", errno.EPERM, name=folder)
        found = (said, contents(folder), mode_of(path))
        checks.expect("a mode that can't be given", (SB_ANSWER, checks.whole, oct(0o640)), found)


def check_interrupted(checks):
    """A call that a signal interrupts is made again, once or some times in a row. Other errors at it are faults."""
    for command, (words, answer) in checks.commands.items():
        for call, count in itertools.product(("open", "read", "write"), (1, 3, 1000)):
            found = checks.hindered(words, call, errno.EINTR, count)
            checks.expect(f"{command}: {call} is interrupted {count} times", answer, found)
        checks.expect(f"{command}: a write that fails", UNWRITTEN, checks.hindered(words, "write", errno.EIO, 1))
        found = checks.hindered(words, "read", errno.EIO, 1, os.path.basename(words[1]))
        checks.expect(f"{command}: a read that fails", unread(words[1], UNREAD), found)
    for call in ("open", "write", "fchmod"):
        path = written(f"{checks.folder}/interrupted.json", "old")
        found = (checks.hindered(checks.certifying(path), call, errno.EINTR, 3, "interrupted.json"), read(path))
        checks.expect(f"a certificate whose {call} is interrupted", (SB_ANSWER, checks.whole["kept.json"]), found)


def check(run):
    checks = Checks(run)
    for part in (check_readers, check_streams, check_errors, check_certificates, check_two_runs, check_ended_runs,
                 check_modes, check_interrupted):
        part(checks)
