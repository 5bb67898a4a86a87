"""What a loss of power may leave of a block device: from the notes of record_device.c. A flush
covers the writes that were answered before it was asked for. Of every other write that has come any
part may be on the disk, by pieces of `unit` bytes.

A write with FUA is covered by itself, and covers no other. A loop device has none: the kernel makes
a flush of it, and its block events tell which flushes are made for that alone."""
import bisect
import os
import re
import subprocess

SECTOR = 512
EVENT = re.compile(r" (\d+)\.(\d{6}): (block_\w+): \d+,\d+ (\w+) (?:\d+ )?(?:\(.*?\) )?(\d+) \+ (\d+)")
# how much of what is on its way is on the disk
STYLES = ["all", "none", "each by itself", "the first", "the last", "all but one", "one alone", "torn", "torn", "torn"]


def events_of(text):
    """The kernel's block events: time, name, flags, sector and count of sectors."""
    for seconds, parts, name, flags, sector, count in EVENT.findall(text):
        yield int(seconds) * 10**9 + int(parts) * 1000, name, flags, int(sector), int(count)


def mark_forced(notes, text):
    """Marks the writes that have FUA, and the flushes that are made for such writes alone. Returns how many of each."""
    events = list(events_of(text))
    forced = [[when, sector * SECTOR, count * SECTOR] for when, name, flags, sector, count in events
              if name == "block_bio_queue" and re.match("F?WF", flags) and count]
    mark_writes([it for it in notes if it.kind == "w" and not it.is_end], forced)
    ends = [it for it in notes if it.kind == "f" and it.is_end]
    asked = {ends[at].number for at in asked_flushes(events, [it.when for it in ends])}
    for it in notes:
        if it.kind == "f":
            it.is_forced = it.number not in asked
    return sum(it.is_forced for it in notes if it.kind == "w"), sum(it.is_forced for it in ends)


def mark_writes(writes, forced):
    open_, at = [], 0
    for it in writes:
        while at < len(forced) and forced[at][0] <= it.when:
            open_.append([forced[at][1], forced[at][1] + forced[at][2], forced[at][2]])
            at += 1
        for its in open_:
            if its[0] <= it.at < its[1]:
                it.is_forced = True
                its[2] -= it.length
        open_ = [its for its in open_ if its[2] > 0]


def asked_flushes(events, ends):
    """The numbers of flushes after which something went on that had asked for one."""
    waiting, empty, found = {}, 0, set()
    for when, name, flags, sector, count in events:
        last = bisect.bisect_right(ends, when + 1000) - 1
        if name == "block_bio_queue" and flags.startswith("FW"):
            if count:
                waiting[sector] = waiting.get(sector, 0) + 1
            else:
                empty += 1
        elif name == "block_rq_issue" and waiting.get(sector):
            waiting[sector] -= 1
            found.add(last)
        elif name == "block_rq_complete" and not sector and not count and empty:
            empty -= 1
            found.add(last)
    return found


class Disk:
    """What is on the disk for good, in a file, and the writes since, in their order."""

    def __init__(self, path):
        self.path, self.file = path, os.open(path, os.O_RDWR)
        # of each write: the note, whether it was answered, whether it is covered by itself
        self.pending, self.flushes, self.undo = {}, {}, []

    def close(self):
        os.close(self.file)

    def take(self, note):
        if note.kind == "w":
            self.pending[note.number] = [self.pending[note.number][0], True, False] if note.is_end else [note, False, False]
        elif not note.is_end:
            self.flushes[note.number] = [number for number, its in self.pending.items() if its[1]]
        else:
            covered = self.flushes.pop(note.number)
            if note.is_forced:
                for number in covered:
                    if number in self.pending and self.pending[number][0].is_forced:
                        self.pending[number][2] = True
            else:
                self.keep([number for number in covered if number in self.pending])

    def keep(self, numbers):
        """Puts these writes on the disk for good. `undo` has what stood there before, the last first."""
        self.undo = [] if numbers else self.undo
        for number in numbers:
            it = self.pending.pop(number)[0]
            self.undo.insert(0, (it.at, os.pread(self.file, it.length, it.at)))
            os.pwrite(self.file, it.data, it.at)

    def image(self, path, draw, unit, style=None):
        """Puts one of the contents there that a loss of power may leave now. Returns whether a write was torn."""
        copy_sparse(self.path, path)
        writes, is_torn = [(it, is_kept) for it, _, is_kept in self.pending.values()], False
        with open(path, "r+b", buffering=0) as file:
            for (it, is_kept), parts in zip(writes, chosen(draw, style or draw.choice(STYLES), writes, unit)):
                for start, end in [(0, it.length)] if is_kept else parts:
                    file.seek(it.at + start)
                    file.write(it.data[start:end])
                is_torn |= not is_kept and 0 < sum(end - start for start, end in parts) < it.length
        return is_torn


def chosen(draw, style, writes, unit):
    """Of each write the parts that are on the disk."""
    count, one = len(writes), draw.randrange(len(writes)) if writes else 0
    cut = draw.randint(0, count)
    for at, (it, _) in enumerate(writes):
        whole = [(0, it.length)]
        if style == "torn":
            yield pieces(draw, it, unit)
        elif style == "each by itself":
            yield draw.choice([whole, [], pieces(draw, it, unit)])
        else:
            is_there = {"all": True, "none": False, "the first": at < cut, "the last": at >= cut,
                        "all but one": at != one, "one alone": at == one}[style]
            yield whole if is_there else []


def pieces(draw, note, unit):
    """Parts of a write, cut where the disk's pieces are."""
    found, start, kind = [], 0, draw.randrange(3)
    edges = sorted({0, *range(unit - note.at % unit, note.length, unit), note.length})
    limit = draw.choice(edges)
    for start, end in zip(edges, edges[1:]):
        if (draw.random() < 0.5, end <= limit, start >= limit)[kind]:
            found.append((start, end))
    return found


def copy_sparse(source, to):
    """Copies a file, of which most is holes."""
    subprocess.run(["cp", "--sparse=auto", source, to], check=True)
