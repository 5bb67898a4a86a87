"""The bytes that rows put together, slots above all, and what rows say of a slot."""
import collections
import itertools

from hostile_bytes import APPENDED, APPENDED_OF_1, EXAMPLE, EXAMPLE_OF_1, PAIR, PAIRED, key_bytes, segment_bytes
from row_files import plain

# what an append of the entry of PAIRED puts after a gate
APPENDED_PAIR = b"\x27" + APPENDED[83:105] + b"\x0a" + APPENDED[106:117] + b"x" + PAIR + b"\0"
PIECES = {"segment": EXAMPLE, "frame": APPENDED[82:], "segment_of_1": EXAMPLE_OF_1, "frame_of_1": APPENDED_OF_1[80:],
          "segment_with_pair": PAIRED, "frame_with_pair": APPENDED_PAIR, "-": b""}
EXAMPLES = {"example": APPENDED, "example_of_1": APPENDED_OF_1}


def slot_of(words, found=b""):
    """The bytes that words of rows stand for, after others."""
    for word in words.split(" "):
        change, _, rest = word.partition(":")
        if word in PIECES:
            found += PIECES[word]
        elif change == "cut":
            found = found[:int(rest)]
        elif change == "from":
            found = found[int(rest):]
        elif change == "at":
            at, _, digits = rest.partition("=")
            new = bytes.fromhex(digits)
            found = found[:int(at)] + new + found[int(at) + len(new):]
        else:
            count, _, digits = word.rpartition("*")
            found += bytes.fromhex(digits) * int(count or 1)
    return found


def segment_of(keys, shard, count):
    """A segment of generation 1 with a state of each key, whose entry is that of the example."""
    states = b"".join(b"\3" + key_bytes(*it) + EXAMPLE[41:81] for it in keys)
    return segment_bytes(b"2", 1, shard, count, [states])


def places_shown(found):
    """What was said of each place: the same of neighbours as one line."""
    lines, at = [], 0
    for said, alike in itertools.groupby(found):
        end = at + len(list(alike)) - 1
        lines.append(f"{at if at == end else f'{at}-{end}'} {said}")
        at = end + 1
    return lines


class Bytes:
    """The bytes that the lines of a row put together, and what `walcat` says of them."""

    def __init__(self, walcat):
        # (the keys are those of the states of the next segment)
        self.walcat, self.data, self.keys = walcat, b"", []

    def take(self, word, rest):
        """Changes the bytes. Whether this is a word for that."""
        if word in ("in", "in*"):
            count, text = rest.split(" ", 1) if word == "in*" else (1, rest)
            self.data += plain(text) * int(count)
        elif word in ("hex", "cut"):
            self.data = slot_of(f"cut:{rest}" if word == "cut" else rest, self.data)
        elif word in EXAMPLES:
            self.data += EXAMPLES[word]
        elif word == "byte":
            at, digits = rest.split(" ")
            assert int(at) < len(self.data) and len(digits) == 2, "no such place or byte"
            self.data = slot_of(f"at:{at}={digits}", self.data)
        elif word == "slot":
            self.data = slot_of(rest)
        elif word == "key":
            self.keys.append(self.key(rest))
        elif word == "segment":
            self.data, self.keys = segment_of(self.keys, *map(int, rest.split(" "))), []
        else:
            return False
        return True

    def key(self, words):
        """A tenant, and a canonical text, which is the bytes so far where no words follow the tenant."""
        tenant, _, text = words.partition(" ")
        text, self.data = (plain(text), self.data) if text else (self.data, b"")
        return b"" if tenant == "''" else plain(tenant), text

    def verdict(self, slot, owner="0 1"):
        """What `walcat` says of a slot but its records: version, generation and end, or its
        fault."""
        status, output, errors = self.walcat(slot, *map(int, owner.split(" ")))
        if status:
            return errors.decode().strip() if status == 3 else f"status {status}"
        if output == b"closed\n":
            return "closed"
        lines = output.decode().split("\n")
        header = lines[0].removeprefix("segment ").partition(" shard ")[0]
        return f"{header} {lines[-2]}" if len(lines) > 2 else "no segment"

    def said(self, word, rest):
        """What is said of the bytes, or of the beginnings of a text; None where the word doesn't ask for it."""
        places = range(len(self.data))
        if word == "verdict":
            return [self.verdict(self.data, rest)]
        if word == "cuts":
            return places_shown([self.verdict(self.data[:at]) for at in places])
        if word == "sets":
            lines = []
            for digits in rest.split():
                set_to = (self.data[:at] + bytes.fromhex(digits) + self.data[at + 1:] for at in places)
                lines += [f"byte {digits}", *places_shown(map(self.verdict, set_to))]
            return lines
        if word == "beginnings":
            tenant, text = self.key(rest)
            cut = (text.decode()[:at].encode() for at in range(len(text.decode())))
            said = collections.Counter(self.verdict(segment_of([(tenant, it)], 0, 1)) for it in cut)
            return [f"{times} times {it}" for it, times in said.items()]
        return None
