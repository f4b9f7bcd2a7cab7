"""Volumes and journals byte by byte, from what they mean. A second hand beside the product's own writers: nothing here reads its code."""
import collections
import datetime
import hashlib
import math

Device = collections.namedtuple("Device", "byte heads slot records")
DEVICES = {"3390": Device(0x90, 15, 56832, 50), "3380": Device(0x80, 15, 47616, 53), "3350": Device(0x50, 30, 19456, 47)}
BLOCK = 65536
ORGANIZATIONS = {"PS": 0x4000, "DA": 0x2000, "IS": 0x8000, "PO": 0x0200, "VS": 0x0008, "PSU": 0x4100, "POU": 0x0300, "--": 0}
VALIDITY, INDEX = 0x80, 0x01


def big(number, size):
    return number.to_bytes(size, "big")


def ebcdic(text, size):
    return text.encode("cp037").ljust(size, b"\x40")


def address(track, heads):
    """Cylinder and head."""
    return big(track // heads, 2) + big(track % heads, 2)


def record(at, number, key, body):
    return at + bytes([number, len(key)]) + big(len(body), 2) + key + body


def put(text, place, part):
    text[place : place + len(part)] = part


def put_changes(text, changes):
    for place, byte in changes:
        if place >= len(text):
            raise ValueError(f"there is no byte {place}")
        text[place] = byte


def day_from_today(days):
    """The year and its day, in UTC as the program counts."""
    date = datetime.datetime.now(datetime.timezone.utc).date() + datetime.timedelta(days)
    return date.year, date.timetuple().tm_yday


def day(words):
    """A day as a format 1 has it: the year less 1900, and the day of it in two bytes."""
    days = {"yesterday": -1, "today": 0, "tomorrow": 1}
    year, number = day_from_today(days[words]) if words in days else map(int, words.split("."))
    return bytes([year - 1900]) + big(number, 2)


class DataSet:
    """A data set of blocked records of 80 bytes. An extent is its type, its first and its last track."""

    def __init__(self, name, extents):
        self.name, self.extents = name, extents
        self.organization, self.expiry, self.last, self.at = 0x4000, bytes(3), bytes(3), None

    def format_1(self, serial, pointer, heads):
        one = bytearray(140)
        put(one, 0, ebcdic(self.name, 44))
        one[44] = 0xF1
        put(one, 45, ebcdic(serial, 6))
        one[52] = 1  # the number of the volume
        put(one, 56, self.expiry)
        one[59] = len(self.extents)
        put(one, 82, big(self.organization, 2))
        one[84] = 0x90  # record format
        one[87] = 80  # block size
        one[89] = 80  # record length
        one[93] = 0x80  # the last volume
        put(one, 98, self.last)
        put_extents(one, [105, 115, 125], self.extents[:3], 0, heads)
        put(one, 135, pointer)
        return bytes(one)

    def format_3(self, heads):
        """The extents behind the third, which a format 1 has no room for: at most 13."""
        three = bytearray(140)
        put(three, 0, b"\x03" * 4)
        three[44] = 0xF3
        put_extents(three, [*range(4, 44, 10), *range(45, 135, 10)], self.extents[3:], 3, heads)
        return bytes(three)


def put_extents(dscb, places, extents, number, heads):
    for place, (kind, first, last) in zip(places, extents):
        put(dscb, place, bytes([kind, number]) + address(first, heads) + address(last, heads))
        number += 1


class Volume:
    """What a volume has. A run of free tracks is its first track and how many; with None for all of them the format 4 says that they aren't stated."""

    def __init__(self, serial, device):
        self.serial, self.device, self.cylinders = serial, device, 1
        self.vtoc, self.records, self.four, self.five = (1, 1), 50, 1, 2
        self.free, self.sets, self.index = None, [], False
        self.blocks, self.unended = {}, []
        self.head_changes, self.track_changes, self.dscb_changes = [], {}, {}

    def slot(self):
        return DEVICES[self.device].slot

    def heads(self):
        return DEVICES[self.device].heads

    def address(self, track):
        return address(track, self.heads())

    def tracks(self):
        return self.cylinders * self.heads()

    def free_tracks(self):
        """Those that neither label, VTOC nor a data set has, whatever is stated."""
        used = {0, *self.vtoc_tracks()}
        for it in self.sets:
            for _, first, last in it.extents:
                used.update(range(first, last + 1))
        return {*range(self.tracks())} - used

    def vtoc_tracks(self):
        return range(self.vtoc[0], self.vtoc[1] + 1)

    def all_records(self):
        """How many records the VTOC has. Their numbers go on from one of its tracks to the next."""
        return self.records * len(self.vtoc_tracks())

    def place(self, record_number):
        """The address of a record of the VTOC: cylinder, head and its number on the track."""
        track, number = divmod(record_number - 1, self.records)
        return self.address(self.vtoc[0] + track) + bytes([number + 1])

    def dscbs(self):
        """All records of the VTOC. Each data set takes the lowest free record, if it names none, and so does what belongs to it."""
        found = {self.four: None}
        if self.free is not None:
            found[self.five] = None

        def take(at, dscb):
            at = at or next(it for it in range(3, self.all_records() + 1) if it not in found)
            if at in found:
                raise ValueError(f"two DSCBs in record {at}")
            found[at] = dscb
            return at

        highest = 0
        for it in [it for it in self.sets if it.at] + [it for it in self.sets if not it.at]:
            at = take(it.at, b"")
            pointer = bytes(5)
            if len(it.extents) > 3:
                pointer = self.place(take(None, it.format_3(self.heads())))
            found[at], highest = it.format_1(self.serial, pointer, self.heads()), max(highest, at)
        self.put_free_space(found, take)
        found[self.four] = self.format_4(highest, self.all_records() - len(found))
        return [found.get(number, bytes(140)) for number in range(1, self.all_records() + 1)]

    def dscb_of(self, name):
        """The format 1 of a data set, with what is otherwise in it."""
        for number, dscb in enumerate(self.dscbs(), 1):
            if dscb[44] == 0xF1 and dscb[:44] == ebcdic(name, 44):
                one = bytearray(dscb)
                put_changes(one, self.dscb_changes.get(number, []))
                return bytes(one)
        raise ValueError(f"there is no {name}")

    def put_free_space(self, found, take):
        if self.free is None:
            return
        at = self.five
        for part in range(max(1, math.ceil(len(self.free) / 26))):
            more = self.free[26 * (part + 1) :]
            behind = take(None, b"") if more else None
            found[at] = self.format_5(self.free[26 * part : 26 * (part + 1)], behind)
            at = behind

    def format_4(self, highest, free_records):
        four = bytearray(140)
        put(four, 0, b"\x04" * 44)
        four[44] = 0xF4
        if highest:
            put(four, 45, self.place(highest))
        put(four, 50, big(free_records, 2))
        four[58] = VALIDITY * (self.free is None) | INDEX * self.index
        four[59] = 1
        put(four, 62, big(self.cylinders, 2) + big(self.heads(), 2))
        four[74] = DEVICES[self.device].records
        put_extents(four, [105], [(1, *self.vtoc)], 0, self.heads())
        return bytes(four)

    def format_5(self, runs, behind):
        five = bytearray(140)
        put(five, 0, b"\x05" * 4)
        five[44] = 0xF5
        for place, (first, length) in zip([*range(4, 44, 5), *range(45, 135, 5)], runs):
            put(five, place, big(first, 2) + big(length // self.heads(), 2) + bytes([length % self.heads()]))
        if behind:
            put(five, 135, self.place(behind))
        return bytes(five)

    def records_of(self, track):
        if track == 0:
            label = bytearray(b"\x40" * 80)
            put(label, 0, ebcdic("VOL1", 4) + ebcdic(self.serial, 6))
            put(label, 11, self.place(self.four))
            keys = ((1, "IPL1", bytes(24)), (2, "IPL2", bytes(144)), (3, "VOL1", bytes(label)))
            return [record(self.address(0), number, ebcdic(key, 4), body) for number, key, body in keys]
        if track in self.vtoc_tracks():
            dscbs = [bytearray(it) for it in self.dscbs()]
            for number, changes in self.dscb_changes.items():
                put_changes(dscbs[number - 1], changes)
            first = self.records * (track - self.vtoc[0])
            return [record(self.address(track), number, bytes(it[:44]), bytes(it[44:])) for number, it in enumerate(dscbs[first : first + self.records], 1)]
        return [record(self.address(track), 1, b"", self.blocks[track])] if track in self.blocks else []

    def track(self, number):
        at = self.address(number)
        text = bytes([0]) + at + record(at, 0, b"", bytes(8)) + b"".join(self.records_of(number))
        slot = bytearray((text + b"\xff" * 8 * (number not in self.unended)).ljust(self.slot(), b"\0"))
        put_changes(slot, self.track_changes.get(number, []))
        return bytes(slot)

    def head(self):
        head = bytearray(512)
        put(head, 0, b"CKD_P370")
        head[8] = self.heads()
        put(head, 12, self.slot().to_bytes(4, "little"))
        head[16] = DEVICES[self.device].byte
        put_changes(head, self.head_changes)
        return bytes(head)

    def image(self):
        return self.head() + b"".join(self.track(number) for number in range(self.tracks()))


def track_piece(volume, number):
    """A track of a part of a dump: all of it but its address, and of each of its records but the first all but the address."""
    slot, records = volume.track(number), volume.records_of(number)
    return b"\x01" + slot[:1] + slot[13:21] + big(len(records), 2) + b"".join(it[4:] for it in records)


def part_of(volume, name, taken):
    """The part of a data set: whole, or dropped behind so many of its tracks."""
    it = next(it for it in volume.sets if it.name == name)
    one = bytearray(volume.dscb_of(name))
    put(one, 59, bytes(1))
    put(one, 105, bytes(35))
    tracks = [track for _, first, last in it.extents for track in range(first, last + 1)]
    kind = 0x81 if it.extents and all(kind == 0x81 for kind, _, _ in it.extents) else 0x01
    front = b"\x50" + bytes(one) + big(len(tracks), 4) + bytes([kind])
    pieces = [track_piece(volume, track) for track in tracks[:taken]]
    return front + b"".join(pieces) + (b"\x00" if taken is None else b"\xff"), len(tracks) if taken is None else None


def dump(volume, parts):
    """A dump of data sets of a volume, made today: each whole, or dropped behind so many of its tracks."""
    year, number = day_from_today(0)
    device = bytes([DEVICES[volume.device].byte])
    text = b"ADRDUMP1L" + device + ebcdic(volume.serial, 6) + big(volume.tracks(), 4) + big(year, 2) + big(number, 2) + bytes(8)
    texts = [part_of(volume, *it) for it in parts]
    whole = [count for _, count in texts if count is not None]
    text += b"".join(it for it, _ in texts) + b"\x5a" + big(len(whole), 4) + big(sum(whole), 4)
    return text + hashlib.sha256(text).digest()


class Journal:
    """A journal of so many blocks, and what stands in it: a registration, and what commits left."""

    def __init__(self, blocks):
        self.blocks = bytearray(blocks * BLOCK)

    def head(self):
        return (b"ADRJRNL1".ljust(12, b"\0") + BLOCK.to_bytes(4, "little")).ljust(512, b"\0")

    def register(self, serials, room):
        """A registration; gate and control are closed and empty."""
        put(self.blocks, 0, bytes(3 * BLOCK))
        put(self.blocks, 0, b"ADRREG01" + big(len(serials), 4) + big(room, 4) + b"".join(ebcdic(it, 6) for it in serials))

    def commit(self, targets):
        """What a whole commit leaves: its directory and images, and a closed gate. A target is a unit, a block and the bytes that it has then."""
        directory = big(len(targets), 4) + b"".join(big(unit, 4) + big(block, 4) for unit, block, _ in targets)
        put(self.blocks, 3 * BLOCK, directory.ljust(BLOCK, b"\0"))
        for number, (_, _, text) in enumerate(targets, 4):
            put(self.blocks, number * BLOCK, text.ljust(BLOCK, b"\0"))

    def file(self):
        return self.head() + self.blocks
