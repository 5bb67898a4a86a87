"""Bodies that Loki reads though no shipper sends them: names and fields twice, in another order, of other kinds, beside
some that it doesn't know; and bodies that it refuses whole. They are written byte by byte, by none of the gateway's
encoders. A stream is as in gateway_bodies."""
import gzip
import json

import snappy
from gateway_bodies import kept

UNKNOWN = ['null', '1e5', '"more"', '{"a":[1,{"a":2}],"a":{}}', '[[],"\\ud83d\\ude00"]', 'false']
PLAIN = [b"17", b"1.50", b"-0", b"1e30", b"true", b"false"]
SHORT = {'"': '\\"', "\\": "\\\\", "/": "\\/", "\b": "\\b", "\f": "\\f", "\n": "\\n", "\r": "\\r", "\t": "\\t"}


def escaped(letter):
    units = letter.encode("utf-16-be")
    return "".join(f"\\u{units[at]:02x}{units[at + 1]:02X}" for at in range(0, len(units), 2))


class OddJSON:
    def __init__(self, random):
        self.random = random

    def seldom(self):
        return self.random.random() < 0.15

    def text(self, text):
        if self.random.random() < 0.7:
            return json.dumps(kept(text), ensure_ascii=self.random.random() < 0.5)
        return '"' + "".join(self.letter(it) for it in kept(text)) + '"'

    def letter(self, it):
        if it in SHORT and (it != "/" or self.seldom()):
            return self.random.choice([SHORT[it], escaped(it)])
        return escaped(it) if it < " " or self.random.random() < 0.05 else it

    def space(self):
        return self.random.choice(["", "", "", " ", "\n", "\t\r\n "])

    def join(self, begin, parts, end):
        return begin + self.space() + f"{self.space()},{self.space()}".join(parts) + self.space() + end

    def members(self, pairs, unknown=True):
        """An object of names and values; and of what nobody asks for, where that may be."""
        pairs = list(pairs)
        if unknown and self.seldom():
            pairs.insert(self.random.randint(0, len(pairs)), (b"more", self.random.choice(UNKNOWN)))
        return self.join("{", [f"{self.text(name)}{self.space()}:{self.space()}{value}" for name, value in pairs], "}")

    def pairs(self, pairs):
        """Of a name that is there twice the later value counts."""
        found = [(name, value) for name, value in pairs.items()]
        for name, _ in list(found):
            if self.seldom():
                at = self.random.randint(0, [it for it, _ in found].index(name))
                found.insert(at, (name, self.random.choice([b"", b"other", b"\xff"])))
        return found

    def label(self, value):
        return value.decode() if value in PLAIN else self.text(value)

    def entry(self, entry):
        at, line, metadata = entry
        parts = [f'"{at}"', self.text(line)]
        if metadata or self.seldom():
            parts.append(self.members([(name, self.text(value)) for name, value in self.pairs(metadata)], False))
            if self.seldom():
                parts += self.random.choices(UNKNOWN, k=2)
        return self.join("[", parts, "]")

    def values(self, entries):
        found = [self.entry(it) for it in entries]
        for _ in range(self.random.choice([0, 0, 0, 2])):
            found.insert(self.random.randint(0, len(found)), "null")
        return self.join("[", found, "]")

    def stream(self, stream):
        """Of labels that are there twice the later ones count; all entries do."""
        labels, entries = stream
        cut = self.random.randint(0, len(entries)) if self.seldom() else len(entries)
        found = [(b"values", self.values(it)) for it in (entries[:cut], entries[cut:]) if it or not entries]
        at = self.random.randint(0, len(found))
        found.insert(at, (b"stream", self.members([(name, self.label(value)) for name, value in self.pairs(labels)], False)))
        if self.seldom():
            found.insert(self.random.randint(0, at), (b"stream", self.random.choice(['{"other":"1"}', "null"])))
        return self.members(found)

    def write(self, streams):
        """All streams count, however often they are named."""
        cut = self.random.randint(0, len(streams)) if self.seldom() else len(streams)
        names = [b"streams", b"streams", b"Streams", b"STREAMS"]
        found = [(self.random.choice(names), self.join("[", list(map(self.stream, it)), "]"))
                 for it in (streams[:cut], streams[cut:]) if it or not streams]
        if self.seldom():
            found.append((b"streams", "null"))
        return (self.space() + self.members(found) + self.space()).encode()

    def refused(self, streams):
        body = self.write(streams).strip()
        wrong = self.random.choice(['{"stream":{"a":["1"]}}', '{"stream":{"a-b":"1"}}', '{"values":[["1x","a"]]}', "7", "null",
                                    '{"values":[["1",5]]}', '{"values":[[1,"a"]]}', '{"stream":7}', '{"values":[["1","a",null]]}'])
        return self.random.choice([
            body[:self.random.randint(0, len(body) - 1)], body + b"}", body + b"\x00", b"\xef\xbb\xbf" + body,
            body[:-1] + b',"streams":[' + wrong.encode() + b"]}", body[:-1] + b',"a":01}', body[:-1] + b',"a":"\n"}', b""])


class OddProtobuf:
    def __init__(self, writer):
        self.random, self.labels = writer.random, writer.labels

    def seldom(self):
        return self.random.random() < 0.15

    def number(self, value):
        """A number of the wire, with bytes more than it needs at times."""
        found = []
        while True:
            value, low = value >> 7, value & 127
            found.append(low | 128)
            if not value:
                break
        found += [128] * (self.seldom() and len(found) < 8)
        return bytes(found[:-1] + [found[-1] & 127])

    def field(self, number, content):
        if isinstance(content, int):
            return self.number(number << 3) + self.number(content)
        return self.number(number << 3 | 2) + self.number(len(content)) + content

    def mixed(self, fields):
        """Fields in any order, except that those of one number keep theirs, with some that nobody knows."""
        if self.seldom():
            fields = fields + [(self.random.choice([9, 1000]), self.random.choice([5, b"more", b"\xff\xff"]))]
        numbers = [number for number, _ in fields]
        if self.seldom():
            self.random.shuffle(numbers)
        left = {number: [it for of, it in fields if of == number] for number in numbers}
        return b"".join(self.field(number, left[number].pop(0)) for number in numbers)

    def twice(self, number, content, other):
        """Of a field that is there twice the later one counts."""
        return [(number, other)] * self.seldom() + [(number, content)]

    def time(self, at):
        """Times that are there twice are one: each of their fields counts that is there last."""
        seconds, rest = divmod(at, 10**9)
        if self.seldom():
            return [(1, self.field(1, seconds)), (1, self.field(2, rest))]
        return [(1, self.mixed(self.twice(1, seconds, 5) + self.twice(2, rest, 7)))]

    def pair(self, name, value):
        return 3, self.mixed(self.twice(1, name, b"other") + self.twice(2, value, b"other"))

    def entry(self, entry):
        at, line, metadata = entry
        pairs = [self.pair(name, value) for name, value in metadata.items()]
        if metadata and self.seldom():
            pairs.insert(0, self.pair(self.random.choice(list(metadata)), b"other"))
        return self.mixed(self.time(at) + self.twice(2, line, b"other") + pairs + [(4, self.field(1, b"p"))] * self.seldom())

    def stream(self, stream):
        labels, entries = stream
        text = self.twice(1, self.labels.write(labels), b"{other}")
        return self.mixed(text + [(2, self.entry(it)) for it in entries] + [(3, self.random.getrandbits(64))] * self.seldom())

    def write(self, streams):
        return self.mixed([(1, self.stream(it)) for it in streams])

    def refused(self, streams):
        body = self.write(streams)
        wrong = [self.field(1, 5), self.field(1, self.field(1, b"{a}")), self.field(1, self.field(2, 7)), b"\x0a", b"\x0a\x05abc",
                 self.field(1, self.field(2, self.field(1, self.field(1, b"no number")))), b"\x00\x00", b"\x0f"]
        return body + self.random.choice(wrong)


class OddWriter:
    """Draws bodies of streams, some of them refused, by what is known of a Writer's random numbers and labels."""

    def __init__(self, writer):
        self.random, self.forms = writer.random, [OddProtobuf(writer), OddJSON(writer.random)]

    def draw(self, streams, is_json):
        """A body, the fields of its head, and whether it is refused."""
        form = self.forms[is_json]
        is_refused = self.random.random() < 0.2
        body = form.refused(streams) if is_refused else form.write(streams)
        body = body if is_json else snappy.compress(body)
        head = {"Content-Type": "application/json" if is_json else "application/x-protobuf"}
        if self.random.random() < 0.7:
            return body, head, is_refused
        packed = gzip.compress(body, 1)
        if not is_refused and self.random.random() < 0.1:
            # (its last bytes say how long it is, and what its bytes sum up to)
            at = self.random.randrange(len(packed) - 8, len(packed))
            packed, is_refused = packed[:at] + bytes([packed[at] ^ 1]) + packed[at + 1:][:self.random.randint(0, 8)], True
        return packed, {**head, "Content-Encoding": "gzip"}, is_refused
