"""What a power cut can leave of the files of a folder, by the record of what was done to them."""

from typing import NamedTuple

# A disk writes a sector whole or not at all.
SECTOR = 512
FOLDER = "."
# How much of what was not forced an image has, and how often: nothing, all of it, a beginning whose next write is torn,
# some of the writes, or some of their sectors.
WAYS = {"nothing": 1, "all": 1, "beginning": 2, "writes": 2, "sectors": 4}


class Entry(NamedTuple):
    """One entry of a record: record.c says what each kind is."""
    kind: str
    name: str
    place: int
    data: bytes


def read_record(path):
    """The entries of a record, in their order."""
    entries = []
    with open(path, "rb") as record:
        while head := record.readline():
            kind, name, place, length = head.decode().split()
            entries.append(Entry(kind, name, int(place), record.read(int(length))))
    return entries


def perform(content, entry):
    """Changes the bytes of a file as an entry says."""
    end = entry.place + len(entry.data)
    if entry.kind == "size":
        del content[end:]
    content.extend(bytes(max(0, end - len(content))))
    content[entry.place:end] = entry.data


def sectors_of(entry):
    """The parts of an entry that reach the disk each by itself."""
    at, end = entry.place, entry.place + len(entry.data)
    if entry.kind == "size":
        yield entry
    while at < end:
        until = min(end, at - at % SECTOR + SECTOR)
        yield entry._replace(place=at, data=entry.data[at - entry.place:until - entry.place])
        at = until


def some(dice, parts):
    """Some of these, in their order: all but one, or each by chance."""
    share = dice.choice((0.1, 0.5, 0.9, None))
    lost = dice.randrange(len(parts)) if share is None and parts else None
    return [part for place, part in enumerate(parts) if (place != lost if share is None else dice.random() < share)]


def arrived(dice, way, entries):
    """What has reached the disk of the entries since a file was forced."""
    if way == "nothing":
        return []
    if way == "all":
        return entries
    if way == "beginning":
        count = dice.randrange(len(entries) + 1)
        torn = [part for entry in entries[count:count + 1] for part in sectors_of(entry)]
        return entries[:count] + torn[:dice.randrange(len(torn) + 1)]
    return some(dice, entries if way == "writes" else [part for entry in entries for part in sectors_of(entry)])


class Disk:
    """The files of a folder: what is forced of each, and what was done to it since."""

    def __init__(self, files, is_posix):
        self.forced = {name: bytearray(content) for name, content in files.items()}
        self.since = {name: [] for name in files}
        # The files whose names a cut may lose. Forcing a file keeps its name too, but for what POSIX promises.
        self.unnamed = set()
        self.is_posix = is_posix

    def do(self, entry):
        """Goes on by an entry."""
        name = entry.name
        if entry.kind == "create" and name not in self.forced:
            self.forced[name], self.since[name] = bytearray(), []
            self.unnamed.add(name)
        elif entry.kind in ("write", "size"):
            self.since[name].append(entry)
        elif entry.kind == "force" and name == FOLDER:
            self.unnamed.clear()
        elif entry.kind == "force":
            for done in self.since[name]:
                perform(self.forced[name], done)
            self.since[name] = []
            if not self.is_posix:
                self.unnamed.discard(name)

    def is_settled(self):
        """Whether a cut can harm nothing but the log."""
        return not self.unnamed and not any(done for name, done in self.since.items() if not name.endswith("-wal"))

    def image(self, dice, way):
        """The files that a cut leaves, of what was not forced in this way."""
        files = {}
        for name in self.forced:
            is_lost = name in self.unnamed and (way == "nothing" or way != "all" and dice.random() < 0.5)
            if not is_lost:
                files[name] = self.content(dice, way, name)
        return files

    def content(self, dice, way, name):
        """The bytes of a file; where writes are lost its length may be any that it has had since it was forced."""
        content, done = bytearray(self.forced[name]), self.since[name]
        for entry in arrived(dice, way, done):
            perform(content, entry)
        if way in ("writes", "sectors") and dice.random() < 0.5:
            perform(content, Entry("size", name, dice.choice(self.lengths(name)), b""))
        return bytes(content)

    def lengths(self, name):
        """Each length that a file has had since it was forced."""
        lengths = [len(self.forced[name])]
        for entry in self.since[name]:
            end = entry.place + len(entry.data)
            lengths.append(end if entry.kind == "size" else max(end, lengths[-1]))
        return lengths
