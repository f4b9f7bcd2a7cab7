"""Reads files of rows. What a word means is said in docs/rows.md; a word that isn't known there is refused."""
import copy
import re

import images


class Refused(Exception):
    """A line that says nothing."""


class Run:
    """One run of the program within a row, and how it has to end."""

    def __init__(self):
        self.words = None
        self.sysin = self.held = None
        self.status, self.says, self.hears = 0, "", []
        self.leaves, self.commits, self.registers = None, [], None
        self.outs, self.dumps, self.sizes = [], {}, {}


class Row:
    """Volumes, a journal, and runs over them, one behind the other."""

    def __init__(self, what, line):
        self.what, self.line, self.refused = what, line, None
        self.on, self.journal, self.room = [], "registered", 64
        self.changes, self.volumes, self.runs = [], {}, [Run()]
        self.stops, self.tells = None, []


def part(word):
    """A data set whose part in a dump is whole, or `A.B/2` where it is dropped behind two tracks."""
    name, slash, taken = word.partition("/")
    return name, int(taken) if slash else None


def numbers(words):
    return [(int(at), int(byte, 16)) for at, byte in (it.split("=") for it in words)]


def span(text):
    first, _, last = text.partition("-")
    return int(first), int(last or first)


def extent(text):
    """`2-3` of tracks, `81:15-29` of another type."""
    kind, colon, tracks = text.rpartition(":")
    return int(kind, 16) if colon else 1, *span(tracks)


def change_volume(volume, word, rest):
    """What a line says of a volume."""
    words = rest.split()
    if word in ("cylinders", "records", "four", "five"):
        setattr(volume, word, int(rest))
    elif word == "vtoc":
        volume.vtoc = span(rest)
    elif word == "device" and rest in images.DEVICES:
        volume.device = rest
    elif word == "serial":
        volume.serial = rest
    elif word == "index" and not rest:
        volume.index = True
    elif word == "free":
        volume.free = [tuple(map(int, it.split("+"))) for it in words]
    elif word == "unstated" and not rest:
        volume.free = None
    elif word == "no" and rest == "sets":
        volume.sets = []
    elif word == "set":
        put_set(volume, words)
    elif word == "gone":
        named(volume, rest)
        volume.sets = [it for it in volume.sets if it.name != rest]
    elif word == "block":
        volume.blocks.update(blocks(words))
    elif word == "unended":
        volume.unended = [int(it) for it in words]
    elif word == "head":
        volume.head_changes = volume.head_changes + numbers(words)
    elif word in ("track", "dscb"):
        changes = volume.track_changes if word == "track" else volume.dscb_changes
        changes[int(words[0])] = changes.get(int(words[0]), []) + numbers(words[1:])
    else:
        raise Refused(f"a volume has no {word} {rest}".rstrip())


def named(volume, name):
    found = [it for it in volume.sets if it.name == name]
    if not found:
        raise Refused(f"there is no {name}")
    return found[0]


def put_set(volume, words):
    """`A.B 2-3,6-7 last 000201 po expires 2024.1 at 5`: a data set, or what is other of one that is there."""
    name, rest = words[0].replace("_", " "), words[1:]
    old = [it for it in volume.sets if it.name == name]
    it = old[0] if old else images.DataSet(name, [])
    if not old:
        volume.sets.append(it)
    if rest and re.fullmatch(r"[0-9A-F:,-]*[0-9]", rest[0]):
        it.extents = [extent(part) for part in rest.pop(0).split(",")]
    while rest:
        word = rest.pop(0)
        if word == "last":
            it.last = bytes.fromhex(rest.pop(0))
        elif word == "at":
            it.at = int(rest.pop(0))
        elif word == "expires":
            it.expiry = images.day(rest.pop(0))
        elif word == "organization":
            it.organization = images.ORGANIZATIONS[rest.pop(0)]
        else:
            raise Refused(f"a data set has no {word}")


def blocks(words):
    """`2=01` a record of one byte, `2-11=80*` one of 80 bytes that are the number of the track."""
    found = {}
    for tracks, _, text in (it.partition("=") for it in words):
        for track in range(span(tracks)[0], span(tracks)[1] + 1):
            if text.endswith("*"):
                found[track] = bytes([track]) * int(text[:-1])
            else:
                found[track] = bytes.fromhex(text)
    return found


def text_of(line):
    """A line of a text: `\\r` and `\\t` stand for these, and a `\\` at its end for no line end."""
    if line.endswith("\\"):
        return line[:-1].replace("\\r", "\r").replace("\\t", "\t")
    return line.replace("\\r", "\r").replace("\\t", "\t") + "\n"


def repeated(rest):
    """`= 20 1048577` is a text of so many bytes of this number."""
    _, byte, times = rest.split()
    return chr(int(byte, 16)) * int(times)


def frame(verb, code, said):
    """The lines of a text with one statement."""
    return f"ADR101I (001) {verb} STARTED\n{said}ADR102I (001) {verb} ENDED CODE {code}\nADR103I (000) MAXIMUM CODE {code}\n"


def last_line(status, rest):
    """The line with which a run of this status ends: its greatest code, or the status and what the line has behind it."""
    if status <= 12:
        return f"ADR103I (000) MAXIMUM CODE {status}\n"
    return f"ADR5{status}T (000) RUN ENDED WITH STATUS {status}{': ' if rest else ''}{rest}\n"


class Reader:
    """The volumes of a file, and its rows so far."""

    def __init__(self):
        self.volumes, self.used, self.rows = {}, set(), []
        self.volume = self.row = self.text = None

    def take(self, line, number):
        """One line of the file."""
        stripped = line.strip()
        if stripped.startswith("|"):
            self.go_on(stripped[2:] if stripped[1:2] == " " else stripped[1:])
            return
        if stripped.startswith("* "):
            _, times, line = stripped.split(" ", 2)
            self.go_on(line, int(times))
            return
        word, _, rest = stripped.partition(" ")
        rest, self.text = rest.strip(), None
        if not line.startswith(" "):
            self.begin(word, rest, number)
        elif self.volume is not None:
            change_volume(self.volume, word, rest)
        elif self.row is None:
            raise Refused("a line of no volume and no row")
        elif not self.row.refused:
            self.say(word, rest)

    def begin(self, word, rest, number):
        """A volume, a row, or a row that is like the last one but for what it says."""
        self.volume = None
        if word == "volume":
            self.row, words = None, rest.split()
            if words[0] in self.volumes:
                raise Refused(f"two volumes are named {words[0]}")
            if words[1] == "like":
                self.volume = copy.deepcopy(self.volumes[words[2]])
                self.used.add(words[2])
            else:
                self.volume = images.Volume(words[1], "3390")
            self.volumes[words[0]] = self.volume
        elif word == "row":
            self.row = Row(rest, number)
            self.rows.append(self.row)
        elif word == "also" and self.rows:
            self.row = copy.deepcopy(self.rows[-1])
            self.row.what, self.row.line = rest or self.row.what, number
            self.row.changes, self.row.tells, self.row.refused = [], [], None
            self.rows.append(self.row)
        else:
            raise Refused(f"no volume and no row begins with {word}")

    def say(self, word, rest):
        """What a line says of a row, or of its last run."""
        row, run = self.row, self.row.runs[-1]
        if word == "on":
            row.on = rest.split()
        elif word == "with":
            row.changes = row.changes + [rest]
        elif word == "journal":
            row.journal = rest
        elif word == "room":
            row.room = int(rest)
        elif word == "then" and not rest:
            row.runs.append(Run())
        elif word == "stops":
            row.stops = [it.split() for it in rest.split("/")] if rest else []
        elif word in ("sysin", "held"):
            setattr(run, word, repeated(rest) if rest.startswith("= ") else text_of(rest) if rest else "")
            self.text = word
        elif word == "says":
            run.status, run.says = int(rest or 0), ""
            self.text = "says"
        elif word == "answers":
            verb, code = rest.split()
            run.status, run.says = int(code), frame(verb, code, "")
            self.text = "answers"
        elif word == "ends":
            code, _, rest = rest.partition(" ")
            run.status, run.says = int(code), last_line(int(code), rest)
            self.text = "ends"
        elif word == "tells":
            row.tells = row.tells + [rest]
        elif word == "hears":
            run.hears = run.hears + [rest]
        elif word == "words":
            run.words = rest
        elif word == "leaves":
            run.leaves = rest.split()
        elif word == "commits":
            run.commits = [[target.split(":") for target in commit.split("+")] for commit in rest.split()]
        elif word == "registers":
            run.registers = rest.split()
        elif word == "outs":
            run.outs, run.dumps, run.sizes = rest.split(), {}, {}
        elif word == "dumps":
            output, volume, *names = rest.split()
            run.dumps[output] = volume, [part(it) for it in names]
        elif word == "bytes":
            output, size = rest.split()
            run.sizes[output] = int(size)
        else:
            raise Refused(f"a row has no {word}")

    def go_on(self, line, times=1):
        """A line of the text above, or so many of it."""
        if self.text is None:
            raise Refused("a line that goes on with nothing")
        run = self.row.runs[-1]
        if self.text == "says":
            run.says += (line + "\n") * times
        elif self.text in ("answers", "ends"):
            at = run.says.index("ADR102I") if self.text == "answers" else run.says.rindex("ADR")
            run.says = run.says[:at] + (line + "\n") * times + run.says[at:]
        else:
            setattr(run, self.text, getattr(run, self.text) + text_of(line) * times)

    def refuse(self, why):
        """A row with such a line isn't run; a volume with one can't be used."""
        if self.row is None:
            raise SystemExit(why)
        self.row.refused = self.row.refused or why


def read(path):
    """The rows of a file, and what is wrong with it beside them."""
    reader = Reader()
    with open(path, encoding="utf-8") as file:
        for number, line in enumerate(file.read().split("\n"), 1):
            if line.strip() and not line.startswith("#"):
                try:
                    reader.take(line, number)
                except (Refused, ValueError, KeyError, IndexError, StopIteration) as why:
                    reader.refuse(f"{path}:{number}: {line.strip()}: {why!r}")
    for row in reader.rows:
        row.volumes = {name: reader.volumes[name] for name in reader.volumes}
        named = [*[run.leaves for run in row.runs if run.leaves is not None], *(row.stops or [])]
        if any(len(it) != len(row.on) for it in named):
            row.refused = row.refused or f"{path}:{row.line}: leaves or stops has another number of volumes than the row is on"
        if any(not {*run.dumps, *run.sizes} <= {*run.outs} for run in row.runs):
            row.refused = row.refused or f"{path}:{row.line}: a dump stands on no output"
        reader.used.update(row.on, *named)
        reader.used.update(target[0] for run in row.runs for commit in run.commits for target in commit)
    return reader.rows, [f"no row has the volume {it}" for it in reader.volumes if it not in reader.used]
