#!/usr/bin/env python3
"""replay_check PROGRAM [TRACES [SEED]]: the program smb3seal-replay beside tests/trace_model.py, on traces that are random, damaged and cut.

Every cut of a small trace, traces longer than what the program holds at once, then random ones, of both editions: records of every kind and
direction, at lengths around each limit; bits changed, bytes taken out, put in or cut off. Each trace is given as a file, on the
standard input or by a pipe, and the lines are compared; nothing may be on standard error. The first difference ends it.
"""
import os
import random
import subprocess
import sys
import tempfile

import trace_model as model

DIALECTS = (0x0311, 0x0311, 0x0311, 0x0300, 0x0302, 0x0210, 0)
CIPHERS = (1, 2, 3, 4, 1, 2, 3, 4, 0, 5, 255)
LENGTHS = (1, 24, 52, 53, 63, 64, 65, 100, 116, 180)


def message(rng, length):
    """A setup message: more often than not a response that asks for more."""
    out = bytearray(rng.randbytes(length))
    if rng.random() < 0.6 and length >= 12:
        out[8:12] = (0xC0000016).to_bytes(4, "little")
    return bytes(out)


def inner(rng, identity):
    """Inner headers, mostly right."""
    out = b""
    for n in range(rng.choice((1, 1, 1, 2, 3))):
        header = bytearray(64 + rng.choice((0, 8, 24)))
        header[:4] = b"\xfeSMB" if rng.random() < 0.97 else b"\xfdSMB"
        related = rng.random() < (0.5 if n else 0.05)
        header[16:20] = (4 * related).to_bytes(4, "little")
        named = identity if rng.random() < 0.9 else identity ^ 1
        header[40:48] = named.to_bytes(8, "little")
        if rng.random() < 0.1:
            header[12:14], header[24:32], header[40:48] = b"\x12\0", b"\xff" * 8, bytes(8)
        out += bytes(header)
        last = len(header)
    if len(out) > last:
        whole = bytearray(out)
        whole[20:24] = (rng.choice((64, 72, 88, 0, 65, len(out) - last, 1 << 31))).to_bytes(4, "little")
        out = bytes(whole)
    return out if rng.random() < 0.95 else out[: rng.randrange(len(out) + 1)]


def sealed(rng, lab, from_server):
    if not lab.table or not lab.encrypts() or rng.random() < 0.15:
        return message(rng, rng.choice(LENGTHS))
    identity = rng.choice(list(lab.table))
    nonce = rng.randbytes(12) + (bytes(4) if rng.random() < 0.9 else rng.randbytes(4))
    size = None if rng.random() < 0.95 else rng.randrange(300)
    m = bytearray(lab.sealed(identity, from_server, inner(rng, identity), nonce, size))
    if rng.random() < 0.15:
        m[rng.randrange(len(m))] ^= 1 << rng.randrange(8)
    return bytes(m) or b"\0"


def random_record(rng, lab, edition):
    """A record that can be read, and what it does to the lab."""
    kind = rng.choice((0, 1, 1, 2, 2, 2, 3, 3))
    from_server = rng.random() < 0.5
    if kind == model.SESSION:
        payload = rng.choice((rng.randrange(20), rng.getrandbits(64))).to_bytes(8, "big") + rng.randbytes(16)
    elif kind == model.SEALED:
        payload = sealed(rng, lab, from_server)
    else:
        payload = message(rng, rng.choice(LENGTHS))
    if rng.random() < 0.004 and kind != model.SESSION:
        payload = bytes(rng.choice((65535, 65536, 65537, 70000)))
    if len(payload) <= model.HELD:
        lab.step(kind, from_server, payload)
    return model.record(kind, from_server, payload, edition)


def damaged(rng, trace):
    out, at = bytearray(trace), rng.randrange(len(trace)) if trace else 0
    how = rng.randrange(5)
    if how == 0:
        return bytes(out[:at])
    if how == 1:
        return bytes(out[:at] + out[at + rng.randrange(1, 9) :])
    if how == 2:
        return bytes(out[:at] + rng.randbytes(rng.randrange(1, 9)) + out[at:])
    if how == 3:
        return bytes(out) + rng.randbytes(rng.randrange(1, 6))
    for _ in range(rng.randrange(1, 4)):
        out[rng.randrange(len(out))] ^= 1 << rng.randrange(8)
    return bytes(out)


def random_trace(rng):
    if rng.random() < 0.02:
        return rng.randbytes(rng.randrange(40))
    dialect, cipher = rng.choice(DIALECTS), rng.choice(CIPHERS)
    lab, edition = model.Lab(dialect, cipher), rng.choice((1, 2))
    out = model.file_head(dialect, cipher, edition if rng.random() < 0.97 else rng.randrange(256))
    for _ in range(rng.choice((0, 1, 2, 5, 10, 24))):
        out += random_record(rng, lab, edition)
    return damaged(rng, out) if rng.random() < 0.5 else out


def small_trace(edition):
    session = (3, False, (7).to_bytes(8, "big") + bytes(range(16)))
    records = ((0, False, bytes(64)), session, (2, True, b"\xfdSMB" + bytes(50)), (1, True, b"x"))
    return model.file_head(0x0311, 2, edition) + b"".join(model.record(*r, edition) for r in records)


def full_table():
    out = model.file_head(0x0302, 1)
    for n in range(1, 19):
        out += model.record(3, n % 2 == 0, n.to_bytes(8, "big") + bytes([n] * 16))
    return out


def long_payloads():
    """Long payloads, up to the longest and one more: whole, then cut off, which prints the stop alone."""
    for edition, (_, _, longest) in model.EDITIONS.items():
        head = model.file_head(0x0311, 1, edition)
        whole = head + model.record(0, True, bytes(longest), edition)
        yield from (whole, whole[:-1], whole[:70000], whole + bytes(3))
        yield from (head + model.record(2, False, bytes(n), edition) + bytes(4) for n in (65537, longest + 1))


def through_the_window():
    """More than the program holds at once: records of many sizes across its borders, the longest that is held behind short ones, one that is
    not held between others, and each of these cut off near the end of what was read."""
    for edition in model.EDITIONS:
        head = model.file_head(0x0311, 2, edition)
        for size in (1, 61, 64, 4092, 4093, 16381, 32766, 32767, 65531, 65532, 65535, 65536):
            kinds = [model.record(n % 2, n % 3 == 0, bytes([n % 256]) * size, edition) for n in range(min(30, 200000 // (size + 4)))]
            yield head + b"".join(kinds)
        short, longest = model.record(1, False, bytes(64), edition), model.record(0, True, bytes(65536), edition)
        passed = model.record(2, True, bytes(65537), edition)
        yield head + short + longest + short + longest
        yield head + (short + passed) * 3 + short
        yield head + passed + passed
        yield from ((head + short + longest + short)[:-n] for n in (1, 67, 68, 69, 4096, 65535, 65539, 65540, 65541))
        yield from ((head + short + passed + short)[:-n] for n in (1, 67, 68, 69, 70, 65604, 65608, 65609))
        # more lines than are written at once
        yield head + model.record(1, False, b"x", edition) * 3000


def named_traces():
    head = model.file_head(0x0311, 2)
    yield from (b"", head[:1], head[:3], head, head + bytes(2), *(model.file_head(0x0311, 2, edition) for edition in range(5)))
    for small in map(small_trace, model.EDITIONS):
        yield from (small[:n] for n in range(len(small) + 1))
        # the other edition's heads
        yield bytes([3 - small[0]]) + small[1:]
    yield full_table()
    yield from long_payloads()
    yield from through_the_window()


def lines(program, trace, path, how):
    """What is written: of a file by its name, of a file on the standard input, or of a pipe."""
    if how == 2:
        run = subprocess.run([program], input=trace, capture_output=True)
    else:
        with open(path, "wb") as f:
            f.write(trace)
        with open(path, "rb") as f:
            run = subprocess.run([program] + [path][how:], stdin=f, capture_output=True)
    return (run.stdout + run.stderr).decode()


def main():
    program = os.path.abspath(sys.argv[1])
    count, seed = (list(map(int, sys.argv[2:])) + [20000, 1][len(sys.argv) - 2 :])[:2]
    rng, done, stopped, numbers = random.Random(seed), 0, 0, set()
    with tempfile.TemporaryDirectory() as folder:
        path = os.path.join(folder, "a.trace")
        named = list(named_traces())
        for number in range(count):
            trace = named[number] if number < len(named) else random_trace(rng)
            expected, got = model.replay(trace), lines(program, trace, path, number % 3)
            if expected != got:
                sys.exit(f"trace {number}, seed {seed}: {trace[:2000].hex()}\nexpected:\n{expected}\nwritten:\n{got}")
            done, stopped = done + 1, stopped + ("stop" in got)
            numbers |= {line.split(" ")[1] for line in got.splitlines() if not line.startswith("stop")}
    answers = " ".join(sorted(numbers, key=lambda word: (word == "long", word.zfill(4))))
    print(f"{done} traces replayed as tests/trace_model.py does, {stopped} of them stopped; answers: {answers}")


main()
