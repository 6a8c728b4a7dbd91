"""What the scripts of this folder share: runs of the program, and files of stores that the script writes."""

import os
import re
import shutil
import struct
import subprocess
import sys
import tempfile
import threading
import time
from itertools import chain

HERE = os.path.dirname(os.path.dirname(os.path.abspath(__file__)))
BUILT = os.path.join(HERE, "crates/summarystore/out/summarystore")
IN_MEMORY = "/dev/shm"


def fail(text):
    sys.exit(f"{sys.argv[0]}: {text}")


def program_of(words, *commands):
    """The program's path: the first word, or the one that was built last. Ends with 2 where it, a command or memory is missing."""
    program = os.path.abspath(words[0] if words else BUILT)
    missing = [command for command in commands if shutil.which(command) is None]
    if not os.access(program, os.X_OK):
        missing.append(f"a program at {program} (make build)")
    if not os.path.isdir(IN_MEMORY):
        missing.append(IN_MEMORY)
    if missing:
        print(f"{sys.argv[0]}: needs {', '.join(missing)}", file=sys.stderr)
        sys.exit(2)
    return program


def judged(figure, most):
    """What is the most that a figure may be, and whether that was met."""
    return f"{most}, {'met' if figure <= most else 'MISSED'}"


def judged_least(figure, least):
    """What is the least that a figure may be, and whether that was met."""
    return f"{least}, {'met' if figure >= least else 'MISSED'}"


class Run:
    """A run of the program: its wall time, its processor time beside system calls in seconds, and its report. The input and the
    output are files in memory. Where a number of replies is given, there have to be as many, and each has to be an `ok`."""

    def __init__(self, words, commands, replies=None):
        with tempfile.TemporaryFile(dir=IN_MEMORY) as source, tempfile.TemporaryFile(dir=IN_MEMORY) as sink:
            source.write("".join(commands).encode())
            source.seek(0)
            start = time.perf_counter()
            child = subprocess.Popen(words, stdin=source, stdout=sink)
            _, status, usage = os.wait4(child.pid, 0)
            self.wall = time.perf_counter() - start
            child.returncode = os.waitstatus_to_exitcode(status)
            sink.seek(0)
            self.report = sink.read().decode().splitlines()
        self.user = usage.ru_utime
        if child.returncode != 0:
            fail(f"the program ended with {child.returncode}")
        if replies is not None:
            others = [line for line in self.report if not line.startswith("ok ")]
            if others or len(self.report) != replies:
                fail(f"{len(self.report)} replies of {replies}, of them no `ok`: {others[:3]}")


def calls_of(words, folder, commands, replies):
    """How many syncs and writes of the store a run makes, by strace."""
    trace = os.path.join(folder, "trace")
    Run(["strace", "-f", "-c", "-o", trace, "-e", "trace=fdatasync,pwrite64", *words], commands, replies)
    row = re.compile(r"^\s*[\d.]+\s+[\d.]+\s+\d+\s+(\d+)\s+(?:\d+\s+)?(\w+)$", re.M)
    with open(trace) as text:
        counts = {name: int(count) for count, name in row.findall(text.read())}
    os.remove(trace)
    return counts["fdatasync"], counts["pwrite64"]


def peak_of(program, store, commands):
    """The peak memory in MB of a run over these commands. It is read when the line after them is refused, before the run ends."""
    child = subprocess.Popen([program, store], stdin=subprocess.PIPE, stdout=subprocess.PIPE)

    def feed():
        child.stdin.write("".join(commands).encode() + b"end\n")
        child.stdin.flush()

    writer = threading.Thread(target=feed)
    writer.start()
    while child.stdout.readline() not in (b"refused SYNTAX\n", b""):
        pass
    with open(f"/proc/{child.pid}/status") as text:
        peak = re.search(r"^VmHWM:\s+(\d+) kB", text.read(), re.M)
    writer.join()
    child.stdin.close()
    if child.wait() != 0 or not peak:
        fail("the program failed")
    return int(peak.group(1)) / 1024


def lengths_of(target, groups):
    """The lengths of the windows, the oldest first, as appends leave them in the newest groups of a target `exp 2 R 1` or
    `power 1 1 R 1`. Each is the greatest power of two that the target window at its newest value is long. No merge is due."""
    family, *_, each, _ = target.split()
    lengths, age, end = [], 0, 0
    for group in range(1, groups + 1):
        length = 2 ** (group - 1) if family == "exp" else group
        end += int(each) * length
        while age < end:
            lengths.append(2 ** (length.bit_length() - 1))
            age += lengths[-1]
    return lengths[::-1]


WINDOW = struct.Struct(">B3xIQQqQqqQQ56x")


def stream_record(number, name, target, step=0):
    """A stream's record, as docs/FORMAT.md says. With a step of 0 it has none."""
    family, *parameters = target.split()
    numbers = [*map(int, parameters), 0][:4]
    head = struct.pack(">BBBxI4I", 1, 1 if family == "exp" else 2, len(name), number, *numbers)
    return (head + name.encode().ljust(32, b"\0") + step.to_bytes(4, "big")).ljust(128, b"\0")


def window_record(number, first, count, times, total=0, extremes=(0, 0)):
    """A window's record, whose filter has all bits: the number of its stream, its first position, its summary."""
    return WINDOW.pack(2, number, first, count, total >> 64, total % 2**64, *extremes, *times)


def write_records(path, records):
    """Writes the file of a store with these records, in the order of their slots."""
    with open(path, "wb") as file:
        file.write(b"\xa5SSTORE01".ljust(36864, b"\0"))
        file.writelines(records)


def write_store(path, names, target, lengths, order=None):
    """Writes the file of a store as docs/FORMAT.md says: streams of these names and this target, each with windows of these lengths,
    the oldest first. All values are 0, and the time of each is its position. The windows lie in the file in the order in which they
    came, to the streams in turn, or in the order that is given. Gives the rows of `list`, if no merge is due."""
    firsts = [1]
    for length in lengths:
        firsts.append(firsts[-1] + length)
    streams = (stream_record(number, name, target) for number, name in enumerate(names))
    windows = (window_record(number, firsts[at], lengths[at], (firsts[at], firsts[at + 1] - 1))
               for at in order or range(len(lengths)) for number in range(len(names)))
    write_records(path, chain(streams, windows))
    return [f"{name} {target} {firsts[-1] - 1} {len(lengths)} 0 0" for name in names]
