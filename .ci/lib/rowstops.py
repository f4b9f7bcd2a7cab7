"""Every stop of a run, and of the run that puts right what it left.

A run is traced once. What a stop leaves is then every write up to the last sync of its file, and of the later ones the old bytes, the new ones, zeros,
or half of what is new; right before a sync and at the end also one of them new and all others old, or one old and all others new. A listing opens that.
Where it changes a file, it is traced in its turn, and is stopped at each of its own writes too."""
import os
import subprocess

import images
import rowrun
import tracing

TEARS = ("old", "new", "zero", "half")
REGISTRATION, GATE, CONTROL = (slice(512 + number * images.BLOCK, 512 + (number + 1) * images.BLOCK) for number in range(3))


def torn(text, place, new, middle, tear):
    text.extend(bytes(max(0, place - len(text)) * (tear != "old")))
    if tear == "new":
        images.put(text, place, new)
    elif tear == "zero":
        images.put(text, place, bytes(len(new)))
    elif tear == "half":
        images.put(text, place, new[:middle])


def middle_of(old, new):
    """Half way from the first byte that is otherwise to the last."""
    others = int.from_bytes(old, "big") ^ int.from_bytes(new, "big")
    first = len(new) - (others.bit_length() + 7) // 8
    last = len(new) - ((others & -others).bit_length() + 7) // 8
    return (first + last + 1) // 2


class Files:
    """The files of a run: what was synced of each, and the writes behind that, which may be lost."""

    def __init__(self, files):
        self.synced, self.pending = {name: bytes(text) for name, text in files.items()}, []

    def note(self, event):
        """One more write, or a sync of its file."""
        name, *write = event
        now = self.now()[name]
        if write:
            place, new = write
            self.pending.append((name, place, new, middle_of(now[place : place + len(new)], new)))
        else:
            self.synced[name] = now
            self.pending = [it for it in self.pending if it[0] != name]

    def now(self):
        return self.left(["new"] * len(self.pending))

    def left(self, tears):
        """The files with each pending write torn so."""
        found = {name: bytearray(self.synced[name]) for name, *_ in self.pending}
        for (name, *write), tear in zip(self.pending, tears):
            torn(found[name], *write, tear)
        return {**self.synced, **{name: bytes(text) for name, text in found.items()}}

    def may_leave(self, is_mixed):
        """How a stop may tear them, and what it leaves."""
        count = len(self.pending)
        for tear in TEARS:
            yield tear, self.left([tear] * count)
        if is_mixed and count > 1:
            for number in range(count):
                for tear, others in (("new", "old"), ("old", "new")):
                    tears = [others] * count
                    tears[number] = tear
                    yield f"write {number + 1} of {count} {tear}, others {others}", self.left(tears)


def stops(files, events):
    """Behind none of the events, the first, and so on up to all: how many, and what a stop there may leave."""
    found = Files(files)
    for number in range(len(events) + 1):
        if number:
            found.note(events[number - 1])
        yield number, found.may_leave(number == len(events) or len(events[number]) == 1)


def key_of(files):
    return hash(tuple(sorted(files.items())))


def slots(volume, image):
    """The head and the slots of the tracks."""
    size = volume.slot()
    return [image[:512], *[image[at : at + size] for at in range(512, len(image), size)]]


class Moment:
    """The volumes as they are before a row's run, behind one of its steps, or at its end."""

    def __init__(self, volumes):
        self.slots = [slots(it, it.image()) for it in volumes]
        self.free = [it.free_tracks() for it in volumes]

    def others(self, found):
        """The places of slots, by volume and track, that aren't as they are here."""
        return {
            (volume, at - 1)
            for volume, wanted in enumerate(self.slots)
            for at in range(max(len(wanted), len(found[volume])))
            if wanted[at : at + 1] != found[volume][at : at + 1]
        }


class Stops:
    """A run that is stopped, and a listing that opens what was left."""

    def __init__(self, program, folder, row):
        self.folder, self.row, self.run = folder, row, row.runs[0]
        self.place = rowrun.Place(row)
        self.volumes = list(self.place.volumes.values())
        later = [*row.stops, *[self.run.leaves] * (self.run.leaves is not None)]
        self.moments = [Moment(self.volumes)] + [Moment([row.volumes[it] for it in names]) for names in later]
        self.dumps = self.place.dumps_of(self.run)
        self.changing = set().union(*[self.moments[0].others(it.slots) for it in self.moments])
        self.seen, self.said, self.known, self.stopped = set(), [], {}, set()
        self.words = rowrun.words_of(program, row, self.run)
        text = "".join(f" PRINT VTOC INDDNAME({row.volumes[it].serial})\n" for it in row.on)
        listing = rowrun.rowfile.Run()
        listing.sysin = text
        self.listing, self.text = rowrun.words_of(program, row, listing), text.encode()
        fills = self.place.files().get(rowrun.JOURNAL, b"")[CONTROL][64 : 64 + len(row.on)]
        self.listed = 12 if 1 in fills else 0

    def moment_of(self, files):
        """At which of its moments the volumes are: of its free tracks those that the run writes may hold anything. Behind its first step each dump is whole."""
        is_dumped = all(files[name] == text for name, text in self.dumps.items())
        found = [slots(volume, files[name]) for name, volume in zip(self.row.on, self.volumes)]
        for number, moment in enumerate(self.moments):
            if (is_dumped or not number) and all(track in moment.free[volume] and (volume, track) in self.changing for volume, track in moment.others(found)):
                return number
        return None

    def read(self):
        """All files beside the texts."""
        found = {}
        for name in sorted({*os.listdir(self.folder)} - {rowrun.SYSIN, rowrun.HELD}):
            with open(os.path.join(self.folder, name), "rb") as file:
                found[name] = file.read()
        return found

    def is_closed(self, journal):
        """Whether the gate is closed, and registration and control are as they were."""
        first = self.place.files()[rowrun.JOURNAL]
        return not any(journal[GATE]) and all(journal[it] == first[it] for it in (REGISTRATION, CONTROL))

    def opened(self, files, what):
        """At which moment the volumes are once a listing has opened what a stop left, and whether it changed a file."""
        key = key_of(files)
        if key not in self.known:
            rowrun.write_files(self.folder, {**files, rowrun.SYSIN: self.text})
            status = subprocess.run(self.listing, cwd=self.folder, capture_output=True, stdin=subprocess.DEVNULL, timeout=60).returncode
            found = self.read()
            moment = self.moment_of(found) if {*found} == {*files} else None
            is_closed = self.is_closed(found[rowrun.JOURNAL])
            if status != self.listed or moment is None or not is_closed:
                at = "no moment" if moment is None else f"moment {moment}"
                self.said.append(f"{what}: status {status}, volumes of {at}, a journal that is {'closed' if is_closed else 'open'}")
            self.known[key] = moment, found != files
        self.seen.add(self.known[key][0])
        return self.known[key]

    def opened_and_stopped(self, files, what):
        """The moment; and so it stays where the listing is stopped too."""
        moment, is_changed = self.opened(files, what)
        if is_changed and key_of(files) not in self.stopped:
            self.stopped.add(key_of(files))
            rowrun.write_files(self.folder, files)
            events, _ = tracing.events(self.listing, self.folder)
            for number, left in stops(files, events):
                for tear, still in left:
                    again = f"{what}, and the next run behind {number}, {tear}"
                    if self.opened(still, again)[0] != moment:
                        self.said.append(f"{again}: another moment than {moment}")
        return moment

    def all(self):
        files, texts = {**self.place.files(), **dict.fromkeys(self.run.outs, b"")}, rowrun.texts_of(self.run)
        rowrun.write_files(self.folder, {**files, **texts})
        events, status = tracing.events(self.words, self.folder)
        replayed = Files(files)
        for it in events:
            replayed.note(it)
        wrong = rowrun.files_wrong(self.folder, {**replayed.now(), **texts})
        if wrong or status != self.run.status:
            return [f"traced, with status {status}: {it}" for it in wrong or ["another status"]]
        least = 0
        for number, left in stops(files, events):
            found = {self.opened_and_stopped(it, f"stopped behind {number} writes and syncs, {tear}") for tear, it in left} - {None}
            first = min(found, default=least)
            if first < least:
                self.said.append(f"stopped behind {number} writes and syncs: moment {first}, and moment {least} was sure before")
            least = max(least, first)
        if least != len(self.moments) - 1:
            self.said.append(f"at its end only moment {least} is sure")
        if self.seen != {*range(len(self.moments))}:
            self.said.append(f"of {len(self.moments)} moments these were seen: {self.seen}")
        return self.said


def wrong_stops(program, folder, row):
    return Stops(program, folder, row).all()
