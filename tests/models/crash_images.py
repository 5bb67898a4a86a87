"""What a loss of power may leave of slots, by the disk model (docs/DEFINITIONS.md): from notes as
notes.h has them. Between two syncs that answered well, each written range and all past the length
at the first may hold any bytes, and the length is any from that one to the greatest since. A write
that failed counts as written; a sync that failed changes nothing."""
import os
import re
import struct

HEAD = struct.Struct("<QQQQqHBBI")
SECTOR = 512
SLOT = re.compile(r"shard-(\d\d)-([01])\.wal")


class Note:
    """A call before it is made, or after it."""

    # (of a device's write: it has FUA; of its flush: it is made for such writes alone)
    is_forced = False

    def __init__(self, fields, path, data):
        self.number, self.when, self.at, self.length, self.result, _, kind, is_end, _ = fields
        self.kind, self.is_end, self.path, self.data = chr(kind), bool(is_end), path, data
        found = SLOT.fullmatch(os.path.basename(path))
        # shard and slot
        self.slot = (int(found[1]), int(found[2])) if found else None


def notes_of(path):
    """The notes in their order. One that was cut is of a call that was not made."""
    with open(path, "rb") as file:
        text = file.read()
    found, at = [], 0
    while at + HEAD.size <= len(text):
        fields, begin = HEAD.unpack_from(text, at), at + HEAD.size
        middle = begin + fields[5]
        at = middle + fields[8]
        if at <= len(text):
            found.append(Note(fields, text[begin:middle].decode(), text[middle:at]))
    return found


class Slot:
    """A slot, or another file: what a read gives, what the last sync kept, and the writes since."""

    def __init__(self, data):
        self.seen, self.kept, self.pending, self.longest = bytearray(data), bytes(data), [], len(data)
        self.started = {}

    def take(self, note, has_syncs=lambda slot: True):
        """Takes a note; of a sync, where it counts."""
        if note.kind == "w" and not note.is_end:
            self.started[note.number] = note
            self.begin(note.at, note.data)
        elif note.kind == "w":
            begun = self.started.pop(note.number)
            self.put(begun.at, begun.data[:max(0, note.result)])
        elif note.kind in "sf" and note.is_end and note.result == 0 and has_syncs(self):
            self.keep()

    def begin(self, at, data):
        self.pending.append((at, data))
        self.longest = max(self.longest, at + len(data))

    def put(self, at, data):
        if data:
            self.seen.extend(bytes(max(0, at + len(data) - len(self.seen))))
            self.seen[at:at + len(data)] = data

    def keep(self):
        self.kept, self.pending, self.longest = bytes(self.seen), [], len(self.seen)

    def copy(self):
        it = Slot(self.seen)
        it.kept, it.pending, it.longest = self.kept, list(self.pending), self.longest
        return it

    def image(self, draw, stock):
        """One of the contents that a loss of power may leave now. `stock` has bytes that were written before."""
        if not self.pending:
            return self.kept
        length = draw.choice([len(self.kept), self.longest, draw.randint(len(self.kept), self.longest)])
        found = bytearray(self.kept) + any_bytes(draw, length - len(self.kept), stock)
        for at, data in self.pending:
            end = min(length, at + len(data))
            if at < end:
                found[at:end] = left_of(draw, bytes(found[at:end]), data[:end - at], at, stock)
        return bytes(found)


def any_bytes(draw, count, stock):
    other = draw.choice(stock or [b"\0"])
    written = (other * (count // max(1, len(other)) + 1))[:count]
    return draw.choice([bytes(count), b"\1" * count, b"\xff" * count, draw.randbytes(count), written])


def left_of(draw, old, new, at, stock):
    """What may stand in a range that was written and not synced."""
    if len(new) == 1:
        return draw.choice([old, new, new, new, b"\0", b"\1", b"\2", b"\x7f", b"\xff", draw.randbytes(1)])
    edges = [0, *range(SECTOR - at % SECTOR, len(new), SECTOR), len(new)]
    sectors = b"".join(draw.choice([old, new])[start:end] for start, end in zip(edges, edges[1:]))
    cut = draw.randint(0, len(new))
    cases = [old, new, new[:cut] + old[cut:], old[:cut] + new[cut:], sectors, sectors]
    return draw.choice([*cases, any_bytes(draw, len(new), stock)])
