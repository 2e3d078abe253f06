#!/usr/bin/env python3
"""rescue_check PROGRAM [TRACES [SEED]]: the program smb3seal-rescue beside tests/trace_model.py, on damaged traces.

Every byte of a small trace of each edition changed, every cut of it and every byte taken out; gaps right behind the head and at the end;
records inside payloads; inputs at both sides of 65,536 bytes; bad heads; then random traces, damaged in up to four places. What is written
to standard output and to the new file must be the model's, and what comes out must read whole. The first difference ends it.
"""
import os
import random
import subprocess
import sys
import tempfile

import trace_model as model

MARKS = (b"\xfeSMB", b"\xfdSMB")
MEMORY = "/dev/shm"


def payload(rng):
    begin = rng.choice((*MARKS, *MARKS, b"\xfeSM", b"\xfdSMC", b""))
    return begin + rng.randbytes(rng.choice((1, 3, 4, 20, 60, 200)))


def random_record(rng, edition, depth=2):
    """A record that can be read; some have others in their payloads."""
    kind = rng.choice((0, 1, 2, 2, 3))
    if kind == model.SESSION:
        return model.record(kind, rng.random() < 0.5, rng.randbytes(24), edition)
    inside = b""
    if depth and rng.random() < 0.3:
        inside = b"".join(random_record(rng, edition, depth - 1) for _ in range(rng.randrange(1, 4)))
    return model.record(kind, rng.random() < 0.5, payload(rng) + inside, edition)


def damaged(rng, trace):
    """One more place damaged; the file head mostly is left."""
    first = 4 if len(trace) >= 4 and rng.random() < 0.98 else 0
    out, at = bytearray(trace), rng.randrange(first, len(trace) + 1)
    how = rng.randrange(6)
    if how == 0:
        return bytes(out[:at])
    if how == 1:
        return bytes(out[:at] + out[at + rng.randrange(1, 30) :])
    if how == 2:
        return bytes(out[:at] + rng.randbytes(rng.randrange(1, 9)) + out[at:])
    if how == 3:
        return bytes(out[:at] + rng.choice(MARKS) + out[at:])
    if how == 4:
        return bytes(out) + rng.randbytes(rng.randrange(1, 9))
    for _ in range(rng.randrange(1, 4) if len(out) > first else 0):
        out[rng.randrange(first, len(out))] ^= 1 << rng.randrange(8)
    return bytes(out)


def random_trace(rng):
    edition = rng.choice((1, 2))
    trace = model.file_head(rng.choice((0x0311, 0x0300)), rng.choice((1, 2)), edition)
    trace += b"".join(random_record(rng, edition) for _ in range(rng.choice((0, 1, 2, 5, 12))))
    for _ in range(rng.choice((1, 1, 2, 3, 4)) if rng.random() < 0.98 else 0):
        trace = damaged(rng, trace)
    return trace


def small_trace(edition):
    session = (3, False, (7).to_bytes(8, "big") + bytes(range(16)))
    records = ((0, False, b"\xfeSMB" + bytes(20)), session, (2, True, b"\xfdSMB" + bytes(30)), (1, True, b"\xfeSMBxy"))
    return model.file_head(0x0311, 2, edition) + b"".join(model.record(*r, edition) for r in records)


def every_damage(trace):
    for at in range(len(trace)):
        yield from (trace[:at] + bytes([trace[at] ^ change]) + trace[at + 1 :] for change in (1, 0x10, 0x80, 0xFF))
        yield trace[:at]
        yield trace[:at] + trace[at + 1 :]
        yield trace[:at] + b"\0" + trace[at:]


def promises(edition, length):
    """Heads that all promise more than there is: a payload as long as its field can say, at every fourth byte."""
    head = model.record(2, True, bytes(model.EDITIONS[edition][2]), edition)[:4]
    return model.file_head(0x0311, 2, edition) + head * (length // 4)


def named_traces():
    for edition in model.EDITIONS:
        small = small_trace(edition)
        yield small
        yield from every_damage(small)
        good = model.record(1, False, b"\xfeSMB" + bytes(60), edition)
        broken = model.record(2, True, b"\xfdSMB" + good + bytes(3) + good, edition)
        head = small[:4]
        # right behind the head, at the end, a record inside a payload that is cut off, and the same with a bad kind
        yield from (head + b"?" + good, head + good + b"?", head + b"???", head + broken[:-1], head + b"\x80" + broken[1:] + good)
        for length in (65536, 65537):
            yield small + bytes(length - len(small))
            yield (small + good * (length // len(good) + 1))[:length]
        yield promises(edition, 65532)
    yield from (b"", b"\2", b"\2\3\21", b"\0\3\21\2" + good, b"\3\3\21\2" + good, bytes(65537))


class Program:
    def __init__(self, path, folder):
        self.path, self.input, self.output = path, os.path.join(folder, "damaged"), os.path.join(folder, "rescued")

    def __call__(self, trace):
        """What the new file holds, or None where there is none, and the lines."""
        with open(self.input, "wb") as f:
            f.write(trace)
        if os.path.exists(self.output):
            os.remove(self.output)
        run = subprocess.run([self.path, self.input, self.output], stdin=subprocess.DEVNULL, capture_output=True, check=True)
        if run.stderr:
            sys.exit(f"an error: {run.stderr.decode()}")
        if len(os.listdir(os.path.dirname(self.output))) != 1 + os.path.exists(self.output):
            sys.exit("a file that nobody asked for is left")
        if not os.path.exists(self.output):
            return None, run.stdout.decode()
        if os.stat(self.output).st_mode & 0o777 != 0o600:
            sys.exit("others may read the output file, which holds keys")
        with open(self.output, "rb") as f:
            return f.read(), run.stdout.decode()


def reads_whole(trace):
    at = 4
    while (record := model.read(trace, at)) != "end":
        if record is None:
            return False
        at += 4 + len(record[2])
    return True


def checked(program, trace, label):
    """The gaps, or None where there is no output file."""
    expected, got = model.rescue(trace), program(trace)
    if expected != got:
        sys.exit(f"{label}: {trace[:2000].hex()}\nexpected:\n{expected}\ngot:\n{got}")
    if got[0] is None:
        return None
    gaps = [tuple(map(int, line.split())) for line in got[1].splitlines()]
    if 4 + sum(n for _, n in gaps) + len(got[0]) - 4 != len(trace):
        sys.exit(f"{label}: kept and dropped bytes are not those of the input")
    if not reads_whole(got[0]):
        sys.exit(f"{label}: what comes out does not read whole")
    return len(gaps)


def taken_name(program):
    """Where there is an output file already it is left, and no line is written."""
    with open(program.input, "wb") as f:
        f.write(small_trace(2) + b"?")
    with open(program.output, "wb") as f:
        f.write(b"mine")
    run = subprocess.run([program.path, program.input, program.output], capture_output=True)
    with open(program.output, "rb") as f:
        if f.read() != b"mine" or run.stdout or not run.stderr.startswith(b"smb3seal-rescue: "):
            sys.exit("an output file that was there")


def main():
    count, seed = (list(map(int, sys.argv[2:])) + [20000, 1][len(sys.argv) - 2 :])[:2]
    rng, clean, refused, gaps = random.Random(seed), 0, 0, 0
    # each rescue waits until the disk has its file: in memory that takes no time
    memory = MEMORY if "TMPDIR" not in os.environ and os.access(MEMORY, os.W_OK) else None
    with tempfile.TemporaryDirectory(dir=memory) as folder:
        program, named = Program(os.path.abspath(sys.argv[1]), folder), list(named_traces())
        for number in range(count):
            trace = named[number] if number < len(named) else random_trace(rng)
            found = checked(program, trace, f"trace {number}, seed {seed}")
            clean, refused, gaps = clean + (found == 0), refused + (found is None), gaps + (found or 0)
        taken_name(program)
    if min(clean, refused, gaps) == 0:
        sys.exit("no clean trace, none that is refused, or no gap")
    print(f"{count} traces rescued as tests/trace_model.py does, {clean} of them clean, {refused} refused; {gaps} gaps")


main()
