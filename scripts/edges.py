#!/usr/bin/env python3
"""Runs the program where files and outputs are out of the ordinary: descriptors that are closed, pipes and FIFOs as inputs and outputs,
a file that is replaced while it is read, limits, a full file system, files without permissions, two names of one file.

Each run has a bound on time. What is wanted is what the same call does with plain files, or what docs/STATUSES.md says. The program is
built if it isn't there; SAFL names another one. The last line says how many runs there were, and what was left out.
"""
import dataclasses
import itertools
import os
import shutil
import signal
import subprocess
import sys
import tempfile
import threading
import time

from files import written
from given import parser
from program import built

SECONDS = 20
FIFO_RUNS, RACE_RUNS = 150, 60
READ, WRITE, LONG = 3, 4, 10
SOURCE_MAX = 1_048_576
NOBODY = 65534
SOURCE = "fun f(x:8):8 = x + 1\nfun main(a:8):8 = f(a) + f(a + 1)\n"
OUTPUTS = ("o", "t", "s", "g")
# A call of each command, and some that end otherwise. A name after < is that of a file that is read.
CALLS = (
    "check <p",
    "build <p o",
    "build <p o --opt",
    "sim <p --cycles 100 5",
    "sim <p --cycles 100 5 --vcd t --starts s --toggles g",
    "sim <p --cycles 3 5 --starts s",
    "run <v --cycles 100 5",
    "walk <p --order 1 --steps 100 5",
    "report <p",
    "gen 1 3",
    "bench 1 3 --cycles 100",
    "reshape <p o --copy 1",
    "session <p <script --cycles 100",
    "aig <v o",
    "aigstat <bits",
    "check wrong",
    "check nothing",
    "sim",
)
# A longer file, the source itself, and two other names of the source.
REPLACED = (
    'seq 99999 >o; "$S" build p o',
    'cp p o; "$S" build o o',
    'cp p t; ln t o; "$S" build t o',
    'cp p t; ln -s t o; "$S" build t o',
)


def bytes_of(path):
    """What is in a file, or nothing if there is none."""
    if not os.path.exists(path):
        return None
    with open(path, "rb") as file:
        return file.read()


@dataclasses.dataclass(eq=True)
class Ended:
    """How a line of the shell ended: its status (none if it took too long), its outputs, and the files that it may write."""

    status: int
    out: bytes
    err: bytes
    files: dict


class Room:
    """A folder in which lines of the shell run, with $S for the program, and what was found there."""

    def __init__(self, folder, program):
        self.folder, self.program = folder, program
        self.runs, self.faults, self.skipped = 0, 0, []

    def path(self, name):
        return os.path.join(self.folder, name)

    def bytes_of(self, name):
        return bytes_of(self.path(name))

    def clear(self, names=OUTPUTS):
        for path in filter(os.path.lexists, map(self.path, names)):
            os.remove(path)

    def run(self, line, **given):
        """Runs a line in a session of its own, which is ended as a whole after some seconds."""
        self.runs += 1
        words = ["bash", "-c", line]
        how = {"stdin": subprocess.DEVNULL, "stdout": subprocess.PIPE, "stderr": subprocess.PIPE, "start_new_session": True}
        child = subprocess.Popen(words, cwd=self.folder, env={**os.environ, "S": self.program}, **how, **given)
        try:
            out, err = child.communicate(timeout=SECONDS)
            status = child.returncode
        except subprocess.TimeoutExpired:
            os.killpg(child.pid, signal.SIGKILL)
            out, err = child.communicate()
            status = None
        return Ended(status, out, err, {name: self.bytes_of(name) for name in OUTPUTS})

    def expect(self, line, is_right, wanted):
        """Counts a fault, and says so, where a line ended otherwise than wanted."""
        if not is_right:
            self.faults += 1
            print(f"edges: {line}: {wanted}")

    def row(self, line, status, out=b"", err=b"", **given):
        """Runs a line that is to end with this status and these outputs."""
        self.clear()
        ended = self.run(line, **given)
        wanted = (status, out, err)
        found = (ended.status, ended.out, ended.err)
        self.expect(line, found == wanted, f"wanted {wanted}, found {found}")
        return ended

    def same(self, line, usual):
        """Runs a line that is to end as another did, with the same texts and files."""
        self.clear()
        ended = self.run(line)
        self.expect(line, ended == usual, f"wanted {usual}, found {ended}")

    def skip(self, what):
        self.skipped.append(what)


def plain(call):
    return f'exec "$S" {call.replace("<", "")}'


def usual(room, call):
    """How a call ends with plain files."""
    room.clear()
    return room.run(plain(call))


def without(ended, closing):
    """How a call ends that ended so before these descriptors were closed."""
    if ">&-" in closing and ended.out != b"":
        ended = dataclasses.replace(ended, status=WRITE, out=b"", err=b"cannot write output\n")
    return dataclasses.replace(ended, err=b"") if "2>&-" in closing else ended


def closed(room):
    """Nothing that is printed lands in a file, and what can't be printed is status 4."""
    closings = [chosen for count in (1, 2, 3) for chosen in itertools.combinations(("<&-", ">&-", "2>&-"), count)]
    for call in CALLS:
        wanted = usual(room, call)
        for closing in closings:
            room.same(f"{plain(call)} {' '.join(closing)}", without(wanted, closing))
    for closing in ("<&-", "<&- >&-"):
        room.row(f'"$S" check /dev/stdin {closing}', READ, err=b"cannot read /dev/stdin\n")
    room.row('"$S" build p /dev/stdout >&-', WRITE, err=b"cannot write /dev/stdout\n")
    starts = usual(room, "sim <p --cycles 100 5 --starts s").files["s"]
    ended = room.row('"$S" sim p --cycles 100 5 --starts s --toggles /dev/full 2>&-', WRITE)
    room.expect("a closed standard error", starts.startswith(ended.files["s"]), f"the trace is {ended.files['s']!r}")


def inputs(call):
    return [word[1:] for word in call.split() if word.startswith("<")]


def by_substitution(call, reader="cat"):
    return '"$S" ' + " ".join(f"<({reader} {word[1:]})" if word.startswith("<") else word for word in call.split())


def by_standard_input(call):
    first, rest = inputs(call)[0], call.replace(f"<{inputs(call)[0]}", "/dev/stdin", 1)
    return f"cat {first} | {by_substitution(rest)}"


def by_fifos(call):
    """One writer serves all the FIFOs, one after the other, as the program has to read them."""
    names = inputs(call)
    made = "; ".join(f"rm -f {name}.fifo; mkfifo {name}.fifo" for name in names)
    served = "; ".join(f"cat {name} >{name}.fifo" for name in names)
    read = call
    for name in names:
        read = read.replace(f"<{name}", f"{name}.fifo")
    return f'{made}; ({served}) & "$S" {read}; s=$?; wait; exit $s'


def pipes_read(room):
    """Each input of each command may be a pipe, and is read once, also where it comes in small pieces."""
    for call in filter(inputs, CALLS):
        wanted = usual(room, call)
        room.same(by_substitution(call), wanted)
        room.same(by_substitution(call, "dd bs=7 status=none <"), wanted)
        room.same(by_standard_input(call), wanted)
        room.same(by_fifos(call), wanted)
    room.row('"$S" check <(cat long)', 0, b"functions 1\nsites 0\n")
    room.row('"$S" check long', 0, b"functions 1\nsites 0\n")
    told = b"/dev/stdin is longer than 1048576 bytes\n"
    room.row('(cat long; echo) | "$S" check /dev/stdin', LONG, err=told)
    room.row('(cat long; echo) | "$S" session p /dev/stdin --cycles 9', LONG, err=told)


def pipes_written(room):
    """A FIFO is opened once for the whole text, so no run waits for a second reader."""
    built_file = usual(room, "build <p o").files["o"]
    line = 'rm -f q; mkfifo q; cat q >o & "$S" build p q; s=$?; wait; exit $s'
    for _ in range(FIFO_RUNS):
        ended = room.row(line, 0)
        room.expect(line, ended.files["o"] == built_file, "another text came out of the FIFO")
    traced = usual(room, "sim <p --cycles 100 5 --vcd t --starts s --toggles g")
    room.same(
        "rm -f q1 q2 q3; mkfifo q1 q2 q3; cat q1 >t & cat q2 >s & cat q3 >g & "
        '"$S" sim p --cycles 100 5 --vcd q1 --starts q2 --toggles q3; s=$?; wait; exit $s',
        traced,
    )
    room.row('"$S" build p /dev/stdout | cat', 0, built_file)
    room.row('"$S" build p /dev/stdout', 0, built_file)
    room.row('"$S" build p /dev/null', 0)


def replies_at_once(room):
    """A session sends the line of each reply before the next call is made, here one that has no end."""
    written(room.folder, "spin", "fun main(x:8):8 = if x == 0 then 1 else main(x)\n")
    written(room.folder, "spins", "0\n1\n")
    line = 'rm -f q; mkfifo q; "$S" session spin spins --cycles 1000000000 >q & head -n 1 q; s=$?; kill $!; exit $s'
    room.row(line, 0, b"1 2\n")


def padded(number):
    """A source of more bytes than one read takes, which gives this number eleven times if it is read as a whole."""
    return f"fun f():8 = {number} // {'.' * 900_000}\nfun main():8 = f() + {10 * number}\n"


class Replacer(threading.Thread):
    """Puts one file and then another in place of a third, again and again."""

    def __init__(self, room):
        super().__init__()
        self.room, self.ends = room, threading.Event()

    def run(self):
        for name in itertools.cycle(("one", "two")):
            if self.ends.is_set():
                return
            self.room.clear(("next",))
            os.link(self.room.path(name), self.room.path("next"))
            os.rename(self.room.path("next"), self.room.path("in"))
            time.sleep(0.001)


def replaced(room):
    """A file that is replaced while it is read is read as one of the two."""
    for name, number in (("one", 1), ("two", 2), ("in", 1)):
        written(room.folder, name, padded(number))
    replacer = Replacer(room)
    replacer.start()
    line = '"$S" sim in --cycles 100 | head -n 1'
    found = {}
    for _ in range(RACE_RUNS):
        ended = room.run(line)
        found[ended.out] = found.get(ended.out, 0) + 1
    replacer.ends.set()
    replacer.join()
    room.expect(line, found.keys() <= {b"result 11\n", b"result 22\n"}, f"found {found}")


def limits(room):
    """Above the limit on a file's size the call fails if the signal is ignored, and else ends by it. A prefix is left."""
    whole = usual(room, "build <p o").files["o"]
    ended = room.row('trap "" XFSZ; ulimit -f 1; "$S" build p o', WRITE, err=b"cannot write o\n")
    room.expect("ulimit -f", ended.files["o"] == whole[:1024], "no prefix of 1,024 bytes is left")
    room.clear()
    ended = room.run('ulimit -f 1; exec "$S" build p o')
    is_right = ended.status == -signal.SIGXFSZ and ended.files["o"] == whole[:1024]
    room.expect("ulimit -f", is_right, f"wanted the signal and a prefix, found {ended}")
    room.row('ulimit -n 4; "$S" check p', 0, b"functions 2\nsites 2\n")
    room.row('"$S" build p /dev/full', WRITE, err=b"cannot write /dev/full\n")
    room.row('"$S" check p >/dev/full', WRITE, err=b"cannot write output\n")


def full(room):
    """On a file system without room a prefix is left."""
    folder = room.path("small")
    os.mkdir(folder)
    if subprocess.run(["mount", "-t", "tmpfs", "-o", "size=4k", "none", folder], capture_output=True, check=False).returncode:
        room.skip("a full file system")
        return
    try:
        whole = usual(room, "build <many o").files["o"]
        room.row('"$S" build many small/o', WRITE, err=b"cannot write small/o\n")
        left = room.bytes_of("small/o")
        room.expect("a full file system", len(whole) > len(left) > 0 and whole.startswith(left), f"{len(left)} bytes are left")
    finally:
        subprocess.run(["umount", folder], check=True)


def unprivileged(room):
    """A new file may have no permissions at all, and an old one that is not ours stays as it was."""
    if os.getuid() != 0:
        room.skip("files of another user")
        return
    whole = usual(room, "build <p o").files["o"]
    given = {"user": NOBODY, "group": NOBODY, "extra_groups": []}
    for mask in (0o277, 0o777):
        ended = room.row('"$S" build p o', 0, umask=mask, **given)
        room.expect(f"umask {mask:o}", ended.files["o"] == whole, "the file is not whole")
    written(room.folder, "ours", "an old file\n")
    os.chmod(room.path("ours"), 0o644)
    room.row('"$S" build p ours', WRITE, err=b"cannot write ours\n", **given)
    room.expect("a file that is not ours", room.bytes_of("ours") == b"an old file\n", "it was changed")
    os.chmod(room.path("ours"), 0o600)
    room.row('"$S" check ours', READ, err=b"cannot read ours\n", **given)


def names(room):
    """What is no file is refused; an old file is replaced as a whole; names are compared as words."""
    for name in (".", "nothing", "p/", "nothing/p"):
        room.row(f'"$S" check {name}', READ, err=f"cannot read {name}\n".encode())
    for name in (".", "nothing/o", "p/o", "/dev/null/o"):
        room.row(f'"$S" build p {name}', WRITE, err=f"cannot write {name}\n".encode())
    whole = usual(room, "build <p o").files["o"]
    for line in REPLACED:
        room.expect(line, room.row(line, 0).files["o"] == whole, "the file is another one")
    traced = usual(room, "sim <p --cycles 100 5 --vcd t --starts s --toggles g")
    texts = traced.files
    for line in ("--starts s --toggles ./s", "--starts s --toggles t"):
        found = room.row(f'ln -s s t; "$S" sim p --cycles 100 5 {line}', 0, traced.out).files["s"]
        both = sorted((texts["s"] + texts["g"]).splitlines())
        room.expect(line, sorted(found.splitlines()) == both, f"the mixed text is {found!r}")
    room.row('"$S" sim p --cycles 100 5 --vcd /dev/stdout | cat', 0, texts["t"] + traced.out)
    room.row('echo old >o; "$S" sim p --cycles 100 5 --vcd /dev/stdout >>o; cat o', 0, texts["t"] + traced.out)
    room.row('echo old >o; "$S" build p /dev/stdout >>o; cat o', 0, whole)
    room.row('echo old >o; "$S" build p /dev/stdout | cat >>o; cat o', 0, b"old\n" + whole)
    room.row('"$S" check "$(printf "a\\nb")"', READ, err=b"cannot read a\nb\n")
    room.row('"$S" check "$(printf "a\\377")"', 20)


def furnished(folder, program):
    """A room with a copy of the program, which other users can run, and the files that the calls read."""
    room = Room(folder, shutil.copy(program, os.path.join(folder, "safl")))
    os.chmod(folder, 0o777)
    for name, text in (("p", SOURCE), ("wrong", "fun main():8 = y\n"), ("script", "5\n7\n")):
        written(folder, name, text)
    end = "\nfun main():8 = 7"
    written(folder, "long", "//" + "." * (SOURCE_MAX - 2 - len(end)) + end)
    made = room.run('"$S" build p v && "$S" aig v bits && "$S" gen 1 60 >many')
    if made.status != 0:
        sys.exit(f"edges: {program} builds nothing: {made.err}")
    return room


def main():
    parser(__doc__).parse_args()
    program = built()
    begun = time.monotonic()
    with tempfile.TemporaryDirectory() as folder:
        room = furnished(folder, program)
        for part in (closed, pipes_read, pipes_written, replies_at_once, replaced, limits, full, unprivileged, names):
            part(room)
    skipped = "".join(f", SKIPPED {what}" for what in room.skipped)
    print(f"edges: {room.runs} runs, {room.faults} faults, {time.monotonic() - begun:.0f} s{skipped}")
    sys.exit(1 if room.faults else 0)


if __name__ == "__main__":
    main()
