#!/usr/bin/env python3
"""Runs the built program where no proof reaches: on arguments, files, pipes and statuses as the system has them, and on large scripts
within limits of time and memory (large.py).

    tools/edge.py [--after LINE] [PROGRAM ..]

PROGRAM is crates/clipsbatch/out/clipsbatch unless it is given. Each case has what the program must write to standard output and to
standard error, and its exit status. A failed case has a line, and the last line is 'N passed, M failed', to which the numbers of
LINE are added, if it is given: a line of that form.
"""
import fcntl
import os
import resource
import signal
import socket
import subprocess
import sys
import tempfile
import time
from collections import namedtuple

import large
from tally import tally

TOP = os.path.dirname(os.path.dirname(os.path.abspath(__file__)))

# A case takes a second or so. One that takes this long has failed: it hangs, or its cost grows with the square of its size.
SECONDS = 120

# What Python doesn't have by name everywhere.
F_SETPIPE_SZ = 1031
FIONREAD = 0x541B

# What the running case has started.
STARTED = []

READ_FAILED = b"clipsbatch: read failed\n"
WRITE_FAILED = b"clipsbatch: write failed\n"
NO_MEMORY = b"clipsbatch: out of memory\n"

# How a run went: what it wrote to standard output and to standard error, and its exit status. What a run should write to
# standard error may be a tuple: the texts that stand in it.
Ended = namedtuple("Ended", "out err status")

HELP = b"""\
Runs a CLIPS script from standard input and writes its transcript to standard output

Usage: clipsbatch [OPTIONS]

Options:
      --max-form <N>     The most bytes that an item of the script may have, 1 to 16777216 [default: 1048576]
      --max-firings <N>  The most firings of all rules together, 0 to 1000000000000 [default: 1000000]
      --max-turns <N>    The most turns that all loops together may take, 0 to 1000000000000 [default: 10000000]
  -h, --help             Print help
"""

# An item of 24 bytes and one of 25.
ITEMS = b'(println "twelve bytes")(println "thirteen byte")'
BOTH_ITEMS = Ended(b"twelve bytes\nthirteen byte\n", b"", 0)
LIMIT = b"clipsbatch: limit at line 1\n"
ONE_ITEM = Ended(b"twelve bytes\n[CB91] form too long\n", LIMIT, 4)
NO_ITEM = Ended(b"[CB91] form too long\n", LIMIT, 4)

# A rule that fires three times.
RULES = b'(defrule r (n ?x) => (println ?x))(assert (n 1) (n 2) (n 3))(run)'
THREE_FIRINGS = Ended(b"<Fact-3>\n3\n2\n1\n", b"", 0)
TWO_FIRINGS = Ended(b"<Fact-3>\n3\n2\n[CB92] firing limit reached\n", LIMIT, 4)

# A loop of five turns.
LOOP = b'(bind ?i 0) (while (< ?i 5) do (bind ?i (+ ?i 1)) (println "turn " ?i))'
FIVE_TURNS = Ended(b"0\nturn 1\nturn 2\nturn 3\nturn 4\nturn 5\nFALSE\n", b"", 0)
THREE_TURNS = Ended(b"0\nturn 1\nturn 2\nturn 3\n[CB93] loop limit reached\n", LIMIT, 4)
NO_TURN = Ended(b"0\n[CB93] loop limit reached\n", LIMIT, 4)

# A script with one fault, on its first line, and what is said of it.
FAULTY = b"(bogus)\n"
ONE_FAULT = b"clipsbatch: 1 fault: line 1\n"
BOGUS = b"[CB06] unknown function\n"

HELLO = b'(println "hello")'
WROTE_HELLO = Ended(b"hello\n", b"", 0)

# Arguments, a script, and how the run should go.
RUNS = [
    (["--max-form", "24"], ITEMS, ONE_ITEM),
    (["--max-form=24"], ITEMS, ONE_ITEM),
    (["--max-form=+24"], ITEMS, ONE_ITEM),
    (["--max-form=1"], ITEMS, NO_ITEM),
    (["--max-form", "25"], ITEMS, BOTH_ITEMS),
    (["--max-turns", "3"], LOOP, THREE_TURNS),
    (["--max-turns=3"], LOOP, THREE_TURNS),
    (["--max-turns=0"], LOOP, NO_TURN),
    (["--max-turns=5"], LOOP, FIVE_TURNS),
    (["--max-firings", "3"], RULES, THREE_FIRINGS),
    (["--max-firings=2"], RULES, TWO_FIRINGS),
    (["--max-firings=1000000000000"], RULES, THREE_FIRINGS),
    ([], b'(println "a")(exit 7)(println "b")', Ended(b"a\n", b"", 7)),
    ([], b'(+ 1 a)(exit)(println "b")', Ended(b"[CB17] wrong type\n", ONE_FAULT, 1)),
    (["--max-turns=3", "--max-firings", "1", "--max-form=100"], LOOP, THREE_TURNS),
    ([], ITEMS, BOTH_ITEMS),
    ([], LOOP, FIVE_TURNS),
    ([], b"", Ended(b"", b"", 0)),
    ([], b'(println "one") (div 1 0) (println "two")', Ended(b"one\n[CB19] division by zero\ntwo\n", ONE_FAULT, 1)),
    ([], b'(println "one") (println "two"', Ended(b"one\n[CB01] form not closed\n", ONE_FAULT, 1)),
    ([], b'(println "\xe9\xff \x80")', Ended(b"\xe9\xff \x80\n", b"", 0)),
    # The index of a fact may have any number of digits.
    (
        [],
        b"(bind ?i 1) (while (< ?i 99999) (retract (assert (a ?i))) (bind ?i (+ ?i 1))) (assert (b) (c)) (facts)",
        Ended(b"1\nFALSE\n<Fact-100000>\nf-99999 (b)\nf-100000 (c)\nFor a total of 2 facts.\n", b"", 0),
    ),
]

# A rule whose action is wrong, on lines 1 to 4, and a fact for it; and one with a loop that divides by zero in its second turn.
HEAT = b"(defrule heat\n  (n ?x)\n  =>\n  (+ ?x a))\n(assert (n 1))\n"
COUNT = b"(defrule count (n ?x) => (bind ?i 0)\n(while (< ?i 3) do (bind ?i (+ ?i 1)) (div 1 (- ?i 2))))(assert (n 1))\n"

# Options, a script, and how the run should go, with what standard error says of where faults arose.
PLACES = [
    ([], b"(foo\n\n bar) 1\n(foo)", Ended(BOGUS + b"1\n" + BOGUS, b"clipsbatch: 2 faults: line 1, line 4\n", 1)),
    ([], b"(foo)\r\n; (foo)\r\n(foo)\r\n", Ended(BOGUS * 2, b"clipsbatch: 2 faults: line 1, line 3\n", 1)),
    ([], b'; a\n"b\nc"\n(foo', Ended(b'"b\nc"\n[CB01] form not closed\n', b"clipsbatch: 1 fault: line 4\n", 1)),
    ([], b"\n1)\n)", Ended(b"1\n" + b"[CB02] unmatched closing parenthesis\n" * 2, b"clipsbatch: 2 faults: line 2, line 3\n", 1)),
    (
        [],
        HEAT + b"(run)\n(foo)\n(undefrule heat)",
        Ended(b"<Fact-1>\n[CB17] wrong type\n" + BOGUS, b"clipsbatch: 2 faults: line 6 in rule heat, line 7\n", 1),
    ),
    ([], COUNT + b"\n(run)", Ended(b"<Fact-1>\n[CB19] division by zero\n", b"clipsbatch: 1 fault: line 4 in rule count\n", 1)),
    ([], HEAT.replace(b"heat", b"\xff") + b"(run)", Ended(b"<Fact-1>\n[CB17] wrong type\n", b"clipsbatch: 1 fault: line 6 in rule \xef\xbf\xbd\n", 1)),
    ([], FAULTY * 8, Ended(BOGUS * 8, b"clipsbatch: 8 faults: %s\n" % b", ".join(b"line %d" % it for it in range(1, 9)), 1)),
    ([], FAULTY * 9, Ended(BOGUS * 9, b"clipsbatch: 9 faults: %s, ..\n" % b", ".join(b"line %d" % it for it in range(1, 9)), 1)),
    ([], FAULTY + b"(exit 3)", Ended(BOGUS, ONE_FAULT, 3)),
    (["--max-turns=2"], b"\n(while TRUE do)", Ended(b"[CB93] loop limit reached\n", b"clipsbatch: limit at line 2\n", 4)),
    (["--max-form=8"], FAULTY + b"\n(foo\nfoo) 1", Ended(BOGUS + b"[CB91] form too long\n", b"clipsbatch: 1 fault: line 1; limit at line 3\n", 4)),
    (
        ["--max-firings=0"],
        HEAT + b"\n\n(run)\n(foo)",
        Ended(b"<Fact-1>\n[CB92] firing limit reached\n", b"clipsbatch: limit at line 8\n", 4),
    ),
]

# Arguments that are refused, and what standard error names.
REFUSED = [
    (["--max-form", "0"], b"--max-form"),
    (["--max-form=0"], b"--max-form"),
    (["--max-form=16777217"], b"16777217"),
    (["--max-form="], b"--max-form"),
    (["--max-form"], b"--max-form"),
    (["--max-form", "5", "--max-form=5"], b"--max-form"),
    (["--max-firings=1000000000001"], b"1000000000001"),
    (["--max-firings", "1000000000001"], b"1000000000001"),
    (["--max-turns=1000000000001"], b"1000000000001"),
    (["--max-turns", "many"], b"many"),
    (["--max-turns=-1"], b"-1"),
    (["--max-speed=5"], b"--max-speed"),
    (["--version"], b"--version"),
    (["inventory.clp"], b"inventory.clp"),
    ([b"\xff"], b"UTF-8"),
]

# A string of 19,996 bytes, as it is written and as it is shown.
LONG = b'"%s"' % b" ".join(b"%04d" % it for it in range(3999))


def told(status):
    return f"signal {-status}" if status < 0 else f"status {status}"


def start(program, words, stdin, stdout, **how):
    how = {"executable": program, "stdin": stdin, "stdout": stdout, "stderr": subprocess.PIPE, **how}
    running = subprocess.Popen(["clipsbatch", *words], **how)
    STARTED.append(running)
    return running


def end(running):
    out, err = running.communicate()
    return Ended(out or b"", err, running.returncode)


def file_of(text):
    it = tempfile.TemporaryFile()
    it.write(text)
    it.seek(0)
    return it


def run(program, words, script, stdout=subprocess.PIPE, **how):
    with file_of(script) as stdin:
        return end(start(program, words, stdin, stdout, **how))


def run_unread(program, words):
    """Runs the program, which is to read nothing of the script."""
    with file_of(HELLO) as stdin:
        ended = end(start(program, words, stdin, subprocess.PIPE))
        read = os.lseek(stdin.fileno(), 0, os.SEEK_CUR)
    return ended._replace(err=ended.err + b"(%d bytes of the script were read)" % read) if read else ended


def run_to_file(program, words, script, path, **how):
    with open(path, "wb") as stdout:
        return run(program, words, script, stdout, **how)


def run_closed(program, words, script):
    """Runs the program with no standard output."""
    return run(program, words, script, None, preexec_fn=lambda: os.close(1))


def run_unheard(program, words, script):
    """Runs the program with a pipe that nobody reads."""
    reader, writer = os.pipe()
    os.close(reader)
    with os.fdopen(writer, "wb") as stdout:
        return run(program, words, script, stdout)


def run_muted(program, script, **how):
    """A run whose standard error takes nothing: what it wrote, and its status."""
    return run(program, [], script, **how)._replace(err=b"")


def limit(kind, bytes):
    return lambda: resource.setrlimit(kind, (bytes, bytes))


def run_cut_short(program):
    """Runs the program with an output that takes 5000 bytes of a longer write, and then no more."""
    with tempfile.NamedTemporaryFile() as it:
        how = {"preexec_fn": limit(resource.RLIMIT_FSIZE, 5000), "restore_signals": False}
        ended = run_to_file(program, [], LONG, it.name, **how)
        return ended._replace(out=it.read())


def run_without_memory(program):
    script = b'(bind ?s "12345678") (while TRUE (bind ?s (str-cat ?s ?s)))'
    return run(program, [], script, preexec_fn=limit(resource.RLIMIT_AS, 256 << 20))


def run_large(program, it):
    """Runs the program on a large script, within the processor time and the memory that it may take."""
    def within():
        resource.setrlimit(resource.RLIMIT_CPU, (it.seconds, it.seconds))
        resource.setrlimit(resource.RLIMIT_AS, (it.memory, it.memory))
    return run(program, [], it.script, preexec_fn=within)


def small_pipe():
    reader, writer = os.pipe()
    fcntl.fcntl(writer, F_SETPIPE_SZ, 4096)
    return reader, writer


def until(holds):
    while not holds():
        time.sleep(0.001)


def is_full(pipe, running):
    waits = bytearray(4)
    fcntl.ioctl(pipe, FIONREAD, waits)
    return int.from_bytes(waits, sys.byteorder) == 4096 or running.poll() is not None


def is_stopped(running):
    with open(f"/proc/{running.pid}/stat") as it:
        return it.read().rpartition(")")[2].split()[0] in "TZ"


def run_into_small_pipe(program, take, **how):
    """Runs the program with a pipe that is full in the middle of a write, and has `take` read it then."""
    reader, writer = small_pipe()
    with file_of(LONG) as stdin, os.fdopen(reader, "rb", buffering=0) as pipe:
        running = start(program, [], stdin, writer, **how)
        os.close(writer)
        until(lambda: is_full(reader, running))
        out = take(pipe, running)
        return end(running)._replace(out=out)


def read_slowly(pipe, running):
    """Stops the program and lets it go on, which ends the write that waits, and then reads a few bytes at a time."""
    running.send_signal(signal.SIGSTOP)
    until(lambda: is_stopped(running))
    running.send_signal(signal.SIGCONT)
    return b"".join(iter(lambda: pipe.read(100), b""))


def read_some(pipe, running):
    out = pipe.read(100)
    pipe.close()
    return out


def answer(running, bytes):
    """Reads an answer of the program that should have so many bytes."""
    out = b""
    while len(out) < bytes and (more := running.stdout.read(bytes - len(out))):
        out += more
    return out


def converse(program):
    """Writes each item when the one before it is answered."""
    running = start(program, [], subprocess.PIPE, subprocess.PIPE, bufsize=0)
    out = b""
    for item, bytes in ((b"(bind ?x 1)\n", 2), (b"(println ?x)\n", 2), (b"(+ ?x 1)", 2)):
        running.stdin.write(item)
        out += answer(running, bytes)
    ended = end(running)
    return ended._replace(out=out + ended.out)


def break_off(program):
    """Has the second read of the script fail: the other end of its socket goes and leaves something unread."""
    here, there = socket.socketpair()
    with here:
        running = start(program, [], here, subprocess.PIPE, bufsize=0)
        here.send(b"unread")
    there.send(HELLO)
    out = answer(running, 6)
    there.close()
    ended = end(running)
    return ended._replace(out=out + ended.out)


def read_folder(program):
    folder = os.open(TOP, os.O_RDONLY | os.O_DIRECTORY)
    try:
        return end(start(program, [], folder, subprocess.PIPE))
    finally:
        os.close(folder)


def variables(program):
    """Sets variables in the order of their names, and reads the first and the last: no path to one is long."""
    names = [b"?n%06d" % it for it in range(100000, 200000)]
    sets = b"".join(b"(bind %s %d) " % (it, place) for place, it in enumerate(names))
    return run(program, [], sets + names[0] + b" " + names[-1])


def contents(path):
    with open(f"{TOP}/{path}", "rb") as it:
        return it.read()


def cases():
    """Each case: its name, a call that runs it with a program, and how it should go."""
    for words, script, wanted in RUNS:
        name = f"{' '.join(words)} < {script[:40].decode('latin-1')}"
        yield name, lambda program: run(program, words, script), wanted
    for words, named in REFUSED:
        yield f"refused: {words}", lambda program: run_unread(program, words), Ended(b"", (named,), 2)
    for words, script, wanted in PLACES:
        name = f"where faults arose: {' '.join(words)} < {script[-40:].decode('latin-1')}"
        yield name, lambda program: run(program, words, script), wanted
    muted = Ended(BOGUS, b"", 1)
    full = lambda program: run_muted(program, FAULTY, stderr=os.open("/dev/full", os.O_WRONLY))
    yield "a fault, standard error > /dev/full", full, muted
    closed = lambda program: run_muted(program, FAULTY, preexec_fn=lambda: os.close(2))
    yield "a fault, standard error closed", closed, muted
    unwritten = Ended(b"", ONE_FAULT + WRITE_FAILED, 3)
    yield "a fault > /dev/full", lambda program: run_to_file(program, [], FAULTY, "/dev/full"), unwritten
    failed = Ended(b"", WRITE_FAILED, 3)
    for words in (["-h"], ["--help"], []):
        name = words[0] if words else "a script"
        yield f"{name} > /dev/full", lambda program: run_to_file(program, words, HELLO, "/dev/full"), failed
        yield f"{name}, output closed", lambda program: run_closed(program, words, HELLO), failed
        yield f"{name}, no reader", lambda program: run_unheard(program, words, HELLO), failed
        if words:
            yield name, lambda program: run_unread(program, words), Ended(HELP, b"", 0)
    yield "an example", lambda program: run(program, [], contents("examples/inventory.clp")), Ended(
        contents("examples/inventory.txt"), b"", 0
    )
    yield "input is a folder", read_folder, Ended(b"", READ_FAILED, 3)
    yield "input breaks off", break_off, Ended(b"hello\n", READ_FAILED, 3)
    yield "items are answered one by one", converse, Ended(b"1\n1\n2\n", b"", 0)
    yield "output is cut short", run_cut_short, Ended(LONG[:5000], WRITE_FAILED, 3)
    yield "memory runs out", run_without_memory, Ended(b'"12345678"\n', NO_MEMORY, 3)
    slow = lambda program: run_into_small_pipe(program, read_slowly)
    yield "a slow reader", slow, Ended(LONG + b"\n", b"", 0)
    gone = lambda program: run_into_small_pipe(program, read_some)
    yield "a reader that goes", gone, Ended(LONG[:100], WRITE_FAILED, 3)
    deaf = lambda program: run_into_small_pipe(program, read_some, restore_signals=False)
    yield "a reader that goes, SIGPIPE ignored", deaf, Ended(LONG[:100], WRITE_FAILED, 3)
    numbers = b"".join(b"%d\n" % it for it in [*range(100000), 0, 99999])
    yield "100,000 variables", variables, Ended(numbers, b"", 0)
    for make in large.ALL:
        it = make()
        yield it.name, lambda program: run_large(program, it), Ended(it.out, b"", 0)


def is_as_wanted(got, wanted):
    if isinstance(wanted.err, tuple):
        return got._replace(err=None) == wanted._replace(err=None) and all(it in got.err for it in wanted.err)
    return got == wanted


def differs(got, wanted):
    """What differs, in a few words."""
    found = []
    if got.status != wanted.status:
        found.append(f"{told(got.status)}, not {wanted.status}")
    if got.out != wanted.out:
        at = len(os.path.commonprefix([got.out, wanted.out]))
        found.append(f"output differs at byte {at}: {got.out[at:at + 60]}, not {wanted.out[at:at + 60]}")
    return "; ".join([*found, f"standard error: {got.err[:200]}"])


def goes(program, name, call, wanted):
    signal.alarm(SECONDS)
    try:
        got = call(program)
    except OSError as error:
        print(f"edge: {name}: {error}")
        return False
    finally:
        signal.alarm(0)
        for it in STARTED:
            it.kill()
        STARTED.clear()
    if is_as_wanted(got, wanted):
        return True
    print(f"edge: {name}: {differs(got, wanted)}")
    return False


def take_too_long(signal, frame):
    raise TimeoutError(f"no end after {SECONDS} seconds")


def main(words):
    signal.signal(signal.SIGALRM, take_too_long)
    return tally(words, "edge", cases, goes)


if __name__ == "__main__":
    sys.exit(main(sys.argv[1:]))
