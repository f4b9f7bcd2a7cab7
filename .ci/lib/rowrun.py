"""Plays a row: its runs over its files, and, where it says so, every stop of its first run."""
import copy
import os
import re
import shlex
import subprocess

import images
import rowfile
import rowstops

JOURNAL, SYSIN, HELD = "JOURNAL", "SYSIN", "HELD"


class Place:
    """The files of a row as they have to be."""

    def __init__(self, row):
        self.row = row
        self.volumes = {name: copy.deepcopy(row.volumes[name]) for name in row.on}
        for line in row.changes:
            name, _, rest = line.partition(" ")
            name, line = (name, rest) if name in self.volumes else (row.on[0], line)
            word, _, rest = line.partition(" ")
            rowfile.change_volume(self.volumes[name], word, rest)
        self.images = {name: it.image() for name, it in self.volumes.items()}
        self.journal, self.outputs = self.first_journal(), {}

    def serials(self):
        return [self.row.volumes[name].serial for name in self.row.on]

    def first_journal(self):
        """What stands where the journal is: one for these volumes, nothing, so many blocks of zeros, or a volume; and bytes that are otherwise."""
        kind, *rest = self.row.journal.split()
        if kind in ("none", "empty"):
            return {"none": None, "empty": b""}[kind]
        if kind == "image":
            return self.row.volumes[rest[0]].image()
        journal = images.Journal(int(rest.pop(0)) if kind == "zeros" else 4 + self.row.room)
        if kind == "registered":
            journal.register(self.serials(), self.row.room)
        elif kind != "zeros":
            raise rowfile.Refused(f"no journal is {kind}")
        images.put_changes(journal.blocks, rowfile.numbers(rest))
        return journal

    def dumps_of(self, run):
        """What a run's outputs hold behind it: those that it makes are empty, where it dumps nothing on them."""
        volumes = {**self.row.volumes, **self.volumes}
        dumped = {name: images.dump(volumes[volume], parts) for name, (volume, parts) in run.dumps.items()}
        return {**dict.fromkeys(run.outs, b""), **self.outputs, **dumped}

    def goes_on(self, run):
        """The files behind a run."""
        self.outputs = self.dumps_of(run)
        if run.leaves is not None:
            self.volumes = {name: self.row.volumes[it] for name, it in zip(self.row.on, run.leaves)}
            self.images = {name: it.image() for name, it in self.volumes.items()}
        if run.registers is not None:
            room = int(run.registers[0])
            if not isinstance(self.journal, images.Journal):
                self.journal = images.Journal(4 + room)
            self.journal.register(self.serials(), room)
        for commit in run.commits:
            self.journal.commit([self.target(*it) for it in commit])

    def target(self, name, track):
        """A track as a volume has it: the unit is that of its serial."""
        volume = self.row.volumes[name]
        return self.serials().index(volume.serial), int(track), volume.track(int(track))

    def files(self):
        found = {**self.images, **self.outputs}
        if self.journal is not None:
            found[JOURNAL] = self.journal.file() if isinstance(self.journal, images.Journal) else self.journal
        return found


def write_files(folder, files):
    for name, text in files.items():
        with open(os.path.join(folder, name), "wb") as file:
            file.write(text)


def expanded(word):
    """A word, or with `{0..63}` in it one for each of these numbers, which stands wherever there are such."""
    found = re.search(r"\{(\d+)\.\.(\d+)\}", word)
    if not found:
        return [word]
    return [re.sub(r"\{\d+\.\.\d+\}", str(number), word) for number in range(int(found[1]), int(found[2]) + 1)]


def words_of(program, row, run):
    """The words of a run: those that it names, or those of a text over all volumes."""
    if run.words is not None:
        return [program, *(it for word in shlex.split(run.words) for it in expanded(word))]
    words = [program]
    for name in row.on:
        words += ["--unit", f"{row.volumes[name].serial}={name}"]
    words += ["--journal", JOURNAL, "--sysin", SYSIN]
    words += ["--held", HELD] * (run.held is not None)
    return words + [f"--out={it}={it}" for it in run.outs]


def texts_of(run):
    return {name: text.encode() for name, text in ((SYSIN, run.sysin), (HELD, run.held)) if text is not None}


def first_other(found, wanted):
    if len(found) != len(wanted):
        return f"{len(found)} bytes, and not {len(wanted)}"
    at = next(it for it in range(0, len(wanted), images.BLOCK) if found[it : it + images.BLOCK] != wanted[it : it + images.BLOCK])
    at += next(it for it, (one, other) in enumerate(zip(found[at:], wanted[at:])) if one != other)
    return f"byte {at} is {found[at]:02x}, and not {wanted[at]:02x}"


def files_wrong(folder, wanted):
    """Files that aren't as they have to be."""
    said = [f"there is a file {it}" for it in sorted({*os.listdir(folder)} - {*wanted})]
    for name, text in wanted.items():
        path = os.path.join(folder, name)
        if not os.path.exists(path):
            said.append(f"there is no file {name}")
            continue
        with open(path, "rb") as file:
            found = file.read()
        if found != text:
            said.append(f"{name}: {first_other(found, text)}")
    return said


def lines_wrong(ran, run):
    """Status, lines and what is said on standard error, where they aren't as they have to be."""
    said = [] if ran.returncode == run.status else [f"status {ran.returncode}, and not {run.status}"]
    found, wanted = ran.stdout.decode().split("\n"), run.says.split("\n")
    if found != wanted:
        said += [f"- {it}" for it in wanted if it not in found] + [f"+ {it}" for it in found if it not in wanted]
        said.append(f"{len(found) - 1} lines, and {len(wanted) - 1} are wanted in their order")
    heard = ran.stderr.decode()
    if heard and run.status <= 12 and not run.hears:
        said.append(f"standard error isn't empty: {heard!r}")
    return said + [f"standard error has no {it!r}: {heard!r}" for it in run.hears if it not in heard]


def play(program, folder, row):
    """What isn't as a row says."""
    place = Place(row)
    write_files(folder, place.files())
    said = []
    for number, run in enumerate(row.runs, 1):
        texts = texts_of(run)
        write_files(folder, texts)
        ran = subprocess.run(words_of(program, row, run), cwd=folder, stdout=subprocess.PIPE, stderr=subprocess.PIPE, stdin=subprocess.DEVNULL, timeout=60)
        place.goes_on(run)
        wrong = lines_wrong(ran, run) + files_wrong(folder, {**place.files(), **texts})
        wrong += [f"{name} has {len(place.outputs[name])} bytes, and not {size}" for name, size in run.sizes.items() if len(place.outputs[name]) != size]
        said += [f"run {number}: {it}" for it in wrong]
        for name in texts:
            os.remove(os.path.join(folder, name))
    if row.stops is not None and not said:
        said = rowstops.wrong_stops(program, folder, row)
    return said
