#!/usr/bin/env python3
"""programs_check FOLDER [faults]: smb3seal-replay and smb3seal-rescue of the folder as Unix programs.

Arguments, names and files that are not what they should be; a full standard output; bytes that arrive one by one; who may read the file
that a rescue makes. With `faults`, strace makes each call fail in turn that a program makes from the open of its input on: then the reason
is on standard error behind the program's name, the rescue leaves no file, and the replay writes no line but those of the records before.
The first difference ends it.
"""
import fcntl
import os
import pty
import re
import subprocess
import sys
import tempfile
import termios
import time

import trace_model as model

CALLS = ("openat", "read", "write", "fsync", "close", "rename", "unlink", "fchmod", "lseek")
checks = 0


def expect(holds, label, *seen):
    global checks
    checks += 1
    if not holds:
        sys.exit(f"{label}: " + " ".join(map(repr, seen)))


def run(command, **more):
    more.setdefault("stdin", subprocess.DEVNULL)
    done = subprocess.run(command, stdout=more.pop("stdout", subprocess.PIPE), stderr=subprocess.PIPE, **more)
    return done.returncode, (done.stdout or b"").decode(), done.stderr.decode()


def trace_of(count, size=300):
    records = [model.record(1, n % 2 == 1, bytes([n % 251]) * size) for n in range(count)]
    return model.file_head(0x0311, 2) + b"".join(records)


def damaged(count):
    """Records that are kept, with a stray byte behind each other one."""
    good = [model.record(0, False, b"\xfeSMB" + bytes(60 + n % 7)) for n in range(count)]
    return model.file_head(0x0311, 2) + b"".join(one + b"?" * (n % 2) for n, one in enumerate(good))


class Folder:
    """An empty folder with an input; what a run leaves in it."""

    def __init__(self, content):
        self.temporary = tempfile.TemporaryDirectory()
        self.path = self.temporary.name
        self.input, self.output = os.path.join(self.path, "input"), os.path.join(self.path, "output")
        with open(self.input, "wb") as f:
            f.write(content)

    def left(self):
        return sorted(set(os.listdir(self.path)) - {"input"})

    def clear(self):
        for name in self.left():
            os.remove(os.path.join(self.path, name))

    def rescued(self):
        with open(self.output, "rb") as f:
            return f.read()


def said(program, err, *parts):
    """One line on standard error, of this program."""
    return err.startswith(os.path.basename(program) + ": ") and err.count("\n") == 1 and all(part in err for part in parts)


# ---- arguments and names


def check_words(program, usage, version):
    for word in ("--help", "-h"):
        code, out, err = run([program, word])
        expect((code, out, err) == (0, usage, ""), f"{program} {word}", out, err)
    expect(run([program, "--version"]) == (0, f"{os.path.basename(program)} {version}\n", ""), f"{program} --version")
    for arguments in (["a", "b", "c"], ["a"] * 9):
        expect(run([program, *arguments])[1:] == ("", usage), f"{program} with {len(arguments)} arguments")
    # a word that only begins like an option is a file, or one file too few
    for word in ("-", "--", "--hel", "-hh", "--helpx"):
        out, err = run([program, word])[1:]
        expect(out == "" and (err == usage or said(program, err, word, "No such file")), f"{program} {word}", out, err)


def check_names(replay, rescue):
    with tempfile.TemporaryDirectory() as folder:
        new, missing = os.path.join(folder, "new"), os.path.join(folder, "missing")
        for command, name in (([replay, missing], missing), ([rescue, missing, new], missing)):
            out, err = run(command)[1:]
            expect(out == "" and said(command[0], err, name, "No such file"), "a missing input", command, out, err)
        for command, name in (([replay, folder], folder), ([rescue, folder, new], folder)):
            out, err = run(command)[1:]
            expect(out == "" and said(command[0], err, name, "Is a directory"), "a directory as input", command, out, err)
        for command in ([replay, "x" * 5000], [rescue, "x" * 5000, new], [rescue, missing, "x" * 5000]):
            out, err = run(command)[1:]
            expect(out == "" and said(command[0], err, "File name too long"), "a name that is too long", command[0], out, err)
        for command in ([replay, ""], [rescue, "", new]):
            out, err = run(command)[1:]
            expect(out == "" and said(command[0], err, "No such file"), "an empty name", command, out, err)
        expect(os.listdir(folder) == [], "a file that nobody asked for", os.listdir(folder))


def check_outputs(rescue):
    content = damaged(9)
    expected, lines = model.rescue(content)
    f = Folder(content)
    here = os.path.join(f.path, "no", "output")
    out, err = run([rescue, f.input, here])[1:]
    expect(out == "" and said(rescue, err, here, "No such file"), "an output in no folder", out, err)
    for taken in (f.output, f.input):
        with open(taken, "ab"):
            before = open(taken, "rb").read()
        out, err = run([rescue, f.input, taken])[1:]
        expect(out == "" and said(rescue, err, taken, "File exists"), "an output that is there", out, err)
        expect(open(taken, "rb").read() == before, "an output that was there is changed")
    os.remove(f.output)
    os.symlink(os.path.join(f.path, "elsewhere"), f.output)
    out, err = run([rescue, f.input, f.output])[1:]
    expect(out == "" and said(rescue, err, "File exists") and not os.path.exists(os.path.join(f.path, "elsewhere")), "a link as output", out, err)
    f.clear()
    # the longest name that a folder takes, and a name with no folder
    for name in ("y" * 255, "y"):
        code, out, err = run([rescue, "input", name], cwd=f.path)
        expect((code, out, err) == (0, lines, "") and f.left() == [name], "a name in this folder", name, out, err, f.left())
        f.clear()
    for umask in (0, 0o022, 0o077, 0o277):
        run([rescue, f.input, f.output], umask=umask)
        expect(os.stat(f.output).st_mode & 0o777 & ~0o600 == 0 and f.rescued() == expected, "who may read the output", umask)
        f.clear()


# ---- standard output and standard input


def check_full(replay, rescue):
    with open("/dev/full", "wb") as full:
        f = Folder(trace_of(5))
        out, err = run([replay, f.input], stdout=full)[1:]
        expect(said(replay, err, "standard output", "No space left"), "a full standard output", err)
        f = Folder(damaged(5))
        out, err = run([rescue, f.input, f.output], stdout=full)[1:]
        expect(said(rescue, err, "standard output", "No space left"), "a full standard output", err)
        expect(f.rescued() == model.rescue(damaged(5))[0], "what was rescued, where the lines had no room")
        for content in (b"", bytes(65537)):
            f = Folder(content)
            out, err = run([rescue, f.input, f.output], stdout=full)[1:]
            expect(said(rescue, err, "standard output") and f.left() == [], "a full standard output, and no file", err)


def check_closed(replay):
    code, out, err = run(["sh", "-c", f'"{replay}" <&-'])
    expect(out == "" and said(replay, err, "standard input", "Bad file descriptor"), "no standard input", out, err)
    with open(os.devnull, "rb") as nothing:
        expect(run([replay], stdin=nothing)[1:] == ("stop 0\n", ""), "an empty standard input")
    terminal, end = pty.openpty()
    expect(run([replay], stdin=end)[1:] == ("", "usage: smb3seal-replay [FILE]\n"), "a terminal as standard input")
    os.close(end)
    os.close(terminal)


def byte_by_byte(program, content):
    """Each byte is written when the one before has been read, so that every read gives one."""
    p = subprocess.Popen([program], stdin=subprocess.PIPE, stdout=subprocess.PIPE, stderr=subprocess.PIPE)
    waiting = bytearray(4)
    for byte in content:
        os.write(p.stdin.fileno(), bytes([byte]))
        for _ in range(100000):
            fcntl.ioctl(p.stdin.fileno(), termios.FIONREAD, waiting)
            if waiting == bytes(4) or p.poll() is not None:
                break
            time.sleep(0.00001)
    out, err = p.communicate()
    return out.decode(), err.decode()


def check_pieces(replay):
    for edition in model.EDITIONS:
        head = model.file_head(0x0311, 2, edition)
        content = head + b"".join(model.record(n % 3, n % 2 == 0, bytes(n + 1), edition) for n in range(9))
        for cut in (len(content), len(content) - 1, 30, 3):
            expect(byte_by_byte(replay, content[:cut]) == (model.replay(content[:cut]), ""), "bytes that come one by one", edition, cut)


# ---- the status for scripts


def check_status(status, folder):
    good, cut = Folder(trace_of(4)), Folder(trace_of(4)[:-1])
    lines = model.replay(trace_of(4))
    expect(run([status, "replay", good.input]) == (0, lines, ""), "the status of a replay")
    expect(run([status, "replay", cut.input]) == (3, model.replay(trace_of(4)[:-1]), ""), "the status of a replay that stops")
    code, out, err = run([status, "replay", folder])
    expect(code == 1 and out == "" and "Is a directory" in err, "the status of a replay that fails", code, out, err)
    code, out, err = run([status, "replay"], stdin=open(good.input, "rb"))
    expect((code, out, err) == (0, lines, ""), "the status of a replay of standard input", code, out, err)
    f = Folder(damaged(9))
    expect(run([status, "rescue", f.input, f.output]) == (0, model.rescue(damaged(9))[1], ""), "the status of a rescue")
    code, out, err = run([status, "rescue", f.input, f.output])
    expect(code == 1 and out == "" and "File exists" in err, "the status of a rescue that fails", code, out, err)
    for content, line in ((b"", "stop 0\n"), (bytes(65537), "long\n")):
        f = Folder(content)
        expect(run([status, "rescue", f.input, f.output]) == (3, line, "") and f.left() == [], "the status of no rescue")
    with open("/dev/full", "wb") as full:
        code, out, err = run([status, "replay", good.input], stdout=full)
        expect(code != 0, "the status of a replay with a full standard output", code, err)
    for arguments in ([], ["other"], ["--help"]):
        code, out, err = run([status, *arguments])
        expect(code == (0 if arguments == ["--help"] else 2) and "usage: " in out + err, "the status without a program", code, out, err)


# ---- the explanation


def check_explain(explain, replay):
    lab = os.path.join(os.path.dirname(os.path.dirname(os.path.abspath(__file__))), "crates", "replay", "data", "lab.trace")
    long = Folder(model.file_head(0x0311, 1) + model.record(0, True, bytes(70000)) + model.record(1, False, bytes(64)) + b"?")
    empty, short = Folder(b""), Folder(trace_of(3))
    for path in (lab, long.input, empty.input, short.input):
        lines = run([replay, path])[1]
        code, out, err = run([explain, path])
        told = "".join((line if line.startswith("stop") else " ".join(line.split()[i] for i in (0, 4))) + "\n" for line in out.splitlines())
        told = re.sub(r"(?m)^(stop \d+).*$", r"\1", told)
        expect(err == "" and told == lines and code == (3 if "stop" in lines else 0), "what is explained", path, lines, out, err)
    expect(run([explain, lab])[1].splitlines()[11].split(" ", 5)[1:5] == ["sealed", "server", "155", "9"], "a line that is explained")
    code, out, err = run([explain, os.path.dirname(lab)])
    expect(code == 1 and out == "" and said(explain, err, "Is a directory"), "a folder that is explained", code, out, err)
    expect(run([explain])[0] == 2, "nothing that is explained")


# ---- calls that fail


def straced(command, options, folder):
    log = os.path.join(folder, "log")
    result = run(["strace", "-f", "-o", log, *options, *command])
    with open(log, encoding="utf-8", errors="replace") as f:
        return result, re.findall(r"(?m)^\d+ +(\w+)\((.*)$", f.read())


def own_calls(command, path, folder):
    """The calls from the open of the input on: of each its name, its number among those of the name, and its text."""
    _, calls = straced(command, ["-e", "trace=" + ",".join(CALLS)], folder)
    count, begun, own = dict.fromkeys(CALLS, 0), False, []
    for name, text in calls:
        count[name] += 1
        begun = begun or (name == "openat" and f'"{path}"' in text)
        if begun:
            own.append((name, count[name], text))
    return own


def rescue_faults(rescue, work, error):
    f = Folder(damaged(9))
    expected, lines = model.rescue(damaged(9))
    command, seen = [rescue, f.input, f.output], []
    for name, number, text in own_calls(command, f.input, work):
        f.clear()
        (code, out, err), _ = straced(command, ["-e", f"inject={name}:error={error}:when={number}"], work)
        whole = f.left() == ["output"] and f.rescued() == expected
        if err == "":
            # only a close may fail unheard: what was written is on the disk before (fsync)
            expect(name == "close" and whole and out == lines, "a fault that nobody hears of", name, number, text, out)
            continue
        seen.append(name)
        if "standard output" in err:
            expect(name == "write" and whole and said(rescue, err), "lines that cannot be written", out, err, f.left())
        else:
            expect(out == "" and f.left() == [] and said(rescue, err), "a fault that leaves something", name, number, text, out, err, f.left())
    expect({"openat", "read", "write", "fsync", "rename"} <= set(seen), "faults that were not tried", seen)
    return len(seen)


def replay_faults(replay, work, error):
    content = trace_of(500)
    f = Folder(content)
    lines, command, seen = model.replay(content), [replay, f.input], []
    for name, number, text in own_calls(command, f.input, work):
        (code, out, err), _ = straced(command, ["-e", f"inject={name}:error={error}:when={number}"], work)
        if err == "":
            expect(name == "close" and out == lines, "a fault that nobody hears of", name, number, text, out)
            continue
        seen.append(name)
        # all lines are there where nothing but the end was still to be read
        ended = name == "read" and text.rstrip().endswith("= 0")
        expect(lines.startswith(out) and (out == lines) == ended and said(replay, err), "a fault of a replay", name, number, text, out, err)
        expect("stop" not in out and (out == "" or out.endswith("\n")), "a line that a fault made", name, number, out)
        if name == "read":
            expect(said(replay, err, f.input), "a read that failed", err)
    expect({"openat", "read", "write"} <= set(seen) and seen.count("read") > 2, "faults that were not tried", seen)
    return len(seen)


def check_owner(rescue, work):
    """The bytes go to a file that was made for its owner alone; the file that claims the name stays empty."""
    f = Folder(damaged(9))
    _, calls = straced([rescue, f.input, f.output], ["-e", "trace=openat,write,fchmod", "-e", "abbrev=none"], work)
    made = [text for name, text in calls if name == "openat" and "O_CREAT" in text]
    expect(len(made) == 2 and all("O_EXCL" in text for text in made), "files that are made", made)
    keys = [text for text in made if re.search(r"O_EXCL.*, 0600\) = ", text)]
    expect(len(keys) == 1, "a file for its owner alone", made)
    place = keys[0].rsplit("= ", 1)[1].strip()
    written = [text.split(",")[0] for name, text in calls if name == "write"]
    expect(written == [place, "1"], "where the bytes go", written, place)


def check_faults(replay, rescue):
    with tempfile.TemporaryDirectory() as work:
        check_owner(rescue, work)
        tried = sum(rescue_faults(rescue, work, error) + replay_faults(replay, work, error) for error in ("EIO", "ENOSPC"))
    print(f"{tried} calls of the two programs failed in turn: each was said, no file was left, no line was made up")


def main():
    folder = os.path.abspath(sys.argv[1])
    replay, rescue = os.path.join(folder, "smb3seal-replay"), os.path.join(folder, "smb3seal-rescue")
    if sys.argv[2:] == ["faults"]:
        check_faults(replay, rescue)
        return
    with open(os.path.join(folder, "smb3seal.h"), encoding="utf-8") as f:
        version = re.search(r'#define SMB3SEAL_VERSION "(.*)"', f.read())[1]
    check_words(replay, "usage: smb3seal-replay [FILE]\n", version)
    check_words(rescue, "usage: smb3seal-rescue INPUT OUTPUT\n", version)
    expect(run([rescue])[1:] == ("", "usage: smb3seal-rescue INPUT OUTPUT\n"), "a rescue of nothing")
    check_names(replay, rescue)
    check_outputs(rescue)
    check_full(replay, rescue)
    check_closed(replay)
    check_pieces(replay)
    check_status(os.path.join(folder, "smb3seal-status"), folder)
    check_explain(os.path.join(folder, "smb3seal-explain"), replay)
    print(f"the programs as Unix programs: {checks} checks")


main()
