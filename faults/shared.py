"""What the scripts of this folder share: the modes and their promise, runs of the program, the script of commands, its input in
pieces, and what a store shows."""

import fcntl
import os
import re
import subprocess
import sys
import tempfile

HERE = os.path.dirname(os.path.abspath(__file__))
BUILT = os.path.join(HERE, "..", "crates", "summarystore", "out", "summarystore")

# A run that takes longer hangs.
SECONDS = 60

# The most that a run takes in one read of its input, plain and in batches.
MOST_READ, MOST_READ_SHARED = 4096, 65536

# The most that a pipe hands on as one piece.
MOST_PIECE = 4096

BORN = b"\xa5SSTORE01"
HEADER = 36864
LAST_SLOT_END = 134254592



class Mode:
    """How a run takes its commands: plain, by which each reply is written before the next line is
    read, or in batches, by which events that came in one read share their syncs and are
    acknowledged together. They are lines by themselves."""

    def __init__(self, name, options, after=()):
        self.name, self.options, self.after = name, options, after
        self.most_read = MOST_READ_SHARED if options else MOST_READ

    def words(self, program, store):
        return [program, *self.options, store, *self.after]

    def may_leave(self, acknowledged, read):
        """For how many first events a store may stand after a crash, of so many acknowledged ones and so many in the lines read."""
        most = read if self.options else min(acknowledged + 1, read)
        return range(acknowledged, max(most, acknowledged) + 1)

    def speech(self, story, low, rng):
        """What takes the commands of a story from the one on that comes after so many."""
        return Speech(story.lines[low:], story.said[low:])

    def asked(self, lines):
        """Lines that ask for what a store shows."""
        return lines

    def heard(self, report):
        """The report on such lines, as of a plain run."""
        return report


class InSessions(Mode):
    """The same of lines of eight sessions. Between the commands stand lines that add no event, most
    of them of the cursors."""

    def __init__(self, name, options):
        super().__init__(name, options, ("sessions",))

    def speech(self, story, low, rng):
        return interleaved(story, low, rng)

    def asked(self, lines):
        return [f"@{ASKS} {line}" for line in lines]

    def heard(self, report):
        front = b"@%d " % ASKS
        return b"".join(line[len(front):] if line.startswith(front) else b"in no session: " + line
                        for line in report.splitlines(True))


PLAIN, BATCH = Mode("plain", []), Mode("batch", ["--batch"])
SESSIONS = InSessions("sessions", [])
BATCH_SESSIONS = InSessions("batch-sessions", ["--batch"])
MODES = (PLAIN, BATCH, SESSIONS, BATCH_SESSIONS)

# The session that asks for what a store shows.
ASKS = 7


class Speech:
    """Lines that a run is given, and its reply to each of them."""

    def __init__(self, lines, replies):
        self.lines, self.replies = lines, replies

    def report(self):
        return b"".join(self.replies)


class Input:
    """Lines, and the pieces in which the reads of a run get them."""

    def __init__(self, pieces):
        self.pieces = pieces

    def data(self):
        return b"".join(self.pieces)

    def read_within(self, count):
        """How many commands end within the first bytes, so many."""
        return sum(1 for line in self.data()[:count].split(b"\n")[:-1] if COMMAND.match(line))

    def read_before(self, acknowledged):
        """How many commands a run may have read that acknowledged so many: those up to the end of the first piece of which a
        command isn't acknowledged."""
        taken = 0
        for piece in self.pieces:
            taken += len(piece)
            if self.read_within(taken) > acknowledged:
                break
        return self.read_within(taken)

    def by_pipe(self):
        """The reading end of a pipe, of which each read gets one piece."""
        source, sink = os.pipe2(os.O_DIRECT | os.O_CLOEXEC)
        room = fcntl.fcntl(sink, F_SETPIPE_SZ, 1 << 20) // MOST_PIECE
        if len(self.pieces) > room or max(map(len, self.pieces), default=0) > MOST_PIECE:
            sys.exit("the pipe doesn't hold these pieces")
        for piece in self.pieces:
            os.write(sink, piece)
        os.close(sink)
        return source


# A command, which adds an event, and the reply to one. In a session both stand behind its word.
COMMAND = re.compile(rb"(@[0-7] )?(create|append|landmark|drop) ")
ACKNOWLEDGED = re.compile(rb"(@[0-7] )?ok ")


# Sets the room of a pipe; Python 3.10 has a name for it.
F_SETPIPE_SZ = 1031


def spelled(lines):
    return "".join(line + "\n" for line in lines).encode()


def in_pieces(lines, rng):
    """An input in pieces of one to sixteen lines that look random. Every third one ends within a line."""
    pieces, at, rest = [], 0, b""
    while at < len(lines):
        size = rng.choice((1, 1, 2, 4, 8, 16))
        piece, at = rest + spelled(lines[at : at + size]), at + size
        cut = len(piece) - (rng.randint(1, 9) if at < len(lines) and rng.randrange(3) == 0 else 0)
        pieces.append(piece[:cut])
        rest = piece[cut:]
    return Input(pieces + [rest] * bool(rest))


def in_blocks(lines, each, most):
    """An input as a file gives it to reads of as many bytes as they take: comments fill it so that each read gets so many lines."""
    pieces = []
    for at in range(0, len(lines), each):
        piece = spelled(lines[at : at + each])
        while at + each < len(lines) and len(piece) < most:
            missing = most - len(piece)
            piece += b"#" * (missing - 1 if missing <= 200 else 99) + b"\n"
        pieces.append(piece)
    return Input(pieces)


def script(appends):
    """Commands that are all accepted: five streams of all kinds, two within steps, and so many values to them in turn. With the target
    `exp 2 1 1` an append makes up to four merges, and the births of streams stand between the values. Two landmarks open
    and close among them, one of them at the time of its last value, and a third stays open."""
    streams = ["a exp 2 1 1", "b exp 2 1 1", "c exp 3 2 1 within 700", "d power 1 1 1 1", "e power 1 0 1 2 within 450"]
    made, lines = 0, []
    for t in range(appends):
        if made < len(streams) and t >= 5 * made:
            lines.append("create " + streams[made])
            made += 1
        if t in LANDMARKS:
            lines.append("landmark " + LANDMARKS[t])
        # two values of three go to the first stream
        name = "a" if t % 3 else "abcde"[t // 3 % made]
        lines.append(f"append {name} {10 * t + 10} {t * 7919 % 2001 - 1000}")
    return lines


# What opens and closes before the value of a step.
LANDMARKS = {17: "b open 175", 26: "b close 265", 40: "a open 405", 44: "a close 440", 50: "d open 505"}



def marked(name, windows, values):
    """A stream with so many windows, and a landmark that stays open with so many values."""
    lines = [f"create {name} power 1 0 1 1"] + [f"append {name} {t} {t * 7919 % 2001 - 1000}" for t in range(1, windows + 1)]
    return [*lines, f"landmark {name} open 1000", *(f"append {name} {1000 + t} {t}" for t in range(values))]


def dropping():
    """Commands that are all accepted, and how many of them come before the first drop. The streams that are dropped have 300
    records beside their own, 5, one and none. Two names come again, and between the drops a further stream takes values."""
    lines = [*marked("a", 200, 99), *marked("b", 2, 2), "create c exp 2 1 1", "append c 10 1", "create d exp 2 1 1"]
    before = len(lines)
    lines += ["create e exp 2 1 1", "append e 10 5", "drop d", "append e 20 6", "drop c", "append e 30 -7", "drop b"]
    lines += ["create b exp 3 1 1", "append b 1 1", "append e 40 8", "drop a", "append e 50 9", "create a exp 2 1 1"]
    return [*lines, "append a 1 2", "drop b", "append e 60 -3", "drop e", "append a 2 3"], before


NAMES = "abcde"

# Most lines of sessions between two commands.
MOST_TURNS = 3

# A closing at 0 is never accepted: it is refused NOT_OPEN where no landmark is open, and TIME where one is.
SHOW = ["list"]
for name in NAMES:
    SHOW += [f"windows {name}", f"query {name} sum 0 1000000", f"query {name} max 0 1000000", f"landmark {name} close 0"]
    SHOW += [f"query {name} has {asked}" for asked in ("406 0 1000000", "151 105 345", "5 0 1000000")]


def call(words, lines, **how):
    """Runs a program on lines of input: its status, standard output and standard error."""
    ran = subprocess.run(words, input=spelled(lines), stdout=subprocess.PIPE, stderr=subprocess.PIPE, timeout=SECONDS, **how)
    return ran.returncode, ran.stdout, ran.stderr


def call_by_pieces(words, given, **how):
    """The same on an input, of which each read gets one piece."""
    source = given.by_pipe()
    try:
        ran = subprocess.run(words, stdin=source, stdout=subprocess.PIPE, stderr=subprocess.PIPE, timeout=SECONDS, **how)
    finally:
        os.close(source)
    return ran.returncode, ran.stdout, ran.stderr


def replies(report):
    """How many events the report acknowledges, which is a front of one without a refused command."""
    return sum(1 for line in report.split(b"\n")[:-1] if ACKNOWLEDGED.match(line))


def shown(program, store, mode=PLAIN):
    """What a store shows of all its streams: the status, and the report."""
    status, report, complaint = call(mode.words(program, store), mode.asked(SHOW))
    return status, mode.heard(report) + complaint


class Story:
    """Commands that are all accepted. So many of them come before the first run that is tried."""

    def __init__(self, program, folder, lines, before=0):
        self.lines, self.before = lines, before
        # what a new store shows after the first j of them, None below `before`, and their replies
        self.texts, self.said = shown_after_each(program, folder, lines, before)


def shown_after_each(program, folder, lines, before=0):
    """What a new store shows that was given the first j commands by a plain run, for each j from `before` on, and None for those
    below; and the reply to each command."""
    all, said = [None] * before, []
    for j in range(before, len(lines) + 1):
        store = os.path.join(folder, "new.store")
        status, report, complaint = call([program, store], lines[:j] + SHOW)
        os.remove(store)
        if status != 0:
            sys.exit(f"a new store and {j} commands: status {status}, {complaint!r}")
        *said, rest = report.split(b"\n", j)
        all.append((0, rest))
    return all, [line + b"\n" for line in said]


def windows_in(text, name):
    """The rows of a stream's windows in what a store shows, None where the stream isn't there."""
    rest = iter(text[1].splitlines())
    for line in SHOW:
        head = next(rest).split()
        rows = [next(rest) for _ in range(int(head[1]) if head[0] in (b"list", b"windows") else 0)]
        if line == f"windows {name}":
            return rows if head[0] == b"windows" else None
    return None


class Talk(Speech):
    """What eight sessions say in turn, and the reply to each line, while the commands of a story are
    done from the one on that comes after so many. Their cursors give the windows that the streams had
    when they were opened."""

    def __init__(self, story, done, rng):
        super().__init__([], [])
        self.story, self.done, self.rng, self.cursors = story, done, rng, {}

    def put(self, session, line, *reply):
        """A line of a session, and the lines of the reply."""
        self.lines.append(f"@{session} {line}")
        self.replies.append(b"".join(b"@%d %s\n" % (session, row) for row in reply))

    def any(self):
        return self.rng.randrange(8)

    def take_command(self):
        said = self.story.said[self.done].rstrip(b"\n")
        self.put(self.any(), self.story.lines[self.done], said)
        self.done += 1

    def windows(self, name):
        return windows_in(self.story.texts[self.done], name)

    def open(self, session, name):
        rows = self.windows(name)
        if rows is None:
            reply = b"refused UNKNOWN"
        elif session in self.cursors:
            reply = b"refused BUSY"
        else:
            self.cursors[session] = rows
            reply = b"cursor %d" % len(rows)
        self.put(session, f"cursor open {name}", reply)

    def next(self, session, count):
        reply = [b"refused NO_CURSOR"]
        if session in self.cursors:
            rows = self.cursors[session][:count]
            self.cursors[session] = self.cursors[session][count:]
            reply = [b"rows %d" % len(rows), *rows]
        self.put(session, f"cursor next {count}", *reply)

    def close(self, session):
        had = self.cursors.pop(session, None) is not None
        self.put(session, "cursor close", b"closed" if had else b"refused NO_CURSOR")

    def show(self, session, name):
        rows = self.windows(name)
        head = b"refused UNKNOWN" if rows is None else b"windows %d" % len(rows)
        self.put(session, f"windows {name}", head, *rows or [])

    def stray(self):
        """A line of no session."""
        self.lines.append("list")
        self.replies.append(b"refused SYNTAX\n")

    def take_turn(self):
        """A line that adds no event. Most of those that need a cursor are of a session with one, and most of those that
        need a stream are of one that is there."""
        speaker = self.rng.choice([*self.cursors, *self.cursors, self.any()])
        standing = [name for name in NAMES if self.windows(name) is not None]
        name = self.rng.choice([*standing, *standing, self.rng.choice(NAMES)])
        kinds = ("open", "next", "close", "show", "number", "note", "stray")
        kind = self.rng.choices(kinds, (12, 18, 3, 2, 1, 1, 1))[0]
        if kind == "open":
            self.open(self.any(), name)
        elif kind == "next":
            self.next(speaker, self.rng.choice((1, 2, 3, 5, 1000)))
        elif kind == "close":
            self.close(speaker)
        elif kind == "show":
            self.show(speaker, name)
        elif kind == "number":
            self.put(speaker, f"cursor next {self.rng.choice((0, 1001))}", b"refused NUMBER")
        elif kind == "note":
            self.put(speaker, "# a note")
        else:
            self.stray()

    def take_turns(self, most):
        """At most so many of these."""
        for _ in range(self.rng.randint(0, most)):
            self.take_turn()


def interleaved(story, low, rng):
    """Lines of eight sessions with the commands of a story, from the one on that comes after so many."""
    talk = Talk(story, low, rng)
    talk.take_turns(MOST_TURNS)
    while talk.done < len(story.lines):
        talk.take_command()
        talk.take_turns(MOST_TURNS)
    return talk


def left_by(program, folder, lines):
    """The file that a plain run over these leaves of a new store, None where there are none."""
    if not lines:
        return None
    store = os.path.join(folder, "left.store")
    call([program, store], lines)
    with open(store, "rb") as file:
        image = file.read()
    os.remove(store)
    return image


def which(texts, found):
    """Each number of first commands after which this is shown."""
    return [j for j, text in enumerate(texts) if text == found]


def spoken(span):
    """Of how many first commands, in words."""
    return f"the first {span[0]} commands" if len(span) == 1 else f"the first {span[0]} to {span[-1]} commands"


def modes_of(words):
    """The modes that the words ask for, the program's path, and the further words. Where they name no mode all are meant that the
    program knows."""
    asked = [mode for mode in MODES if "--" + mode.name in words]
    rest = [word for word in words if word not in ["--" + mode.name for mode in MODES]]
    program = program_of(rest)
    unknown = [mode for mode in asked or MODES if mode is not PLAIN and not knows(mode, program)]
    for mode in unknown:
        print(f"{sys.argv[0]}: the program doesn't know the mode {mode.name}", file=sys.stderr)
    if asked and unknown:
        sys.exit(2)
    return [mode for mode in asked or MODES if mode not in unknown], program, rest[1:]


def knows(mode, program):
    """Whether the program takes commands in this mode."""
    with tempfile.TemporaryDirectory() as folder:
        return call(mode.words(program, os.path.join(folder, "new.store")), [])[0] == 0


def program_of(words):
    """The program's path: the first word, or the one that was built last."""
    program = os.path.abspath(words[0] if words else BUILT)
    if not os.access(program, os.X_OK):
        print(f"{sys.argv[0]}: no program at {program}: make build", file=sys.stderr)
        sys.exit(2)
    return program


def need(command):
    try:
        subprocess.run([command, "--version"], stdout=subprocess.DEVNULL, stderr=subprocess.DEVNULL)
    except OSError:
        print(f"{sys.argv[0]}: needs {command}", file=sys.stderr)
        sys.exit(2)
