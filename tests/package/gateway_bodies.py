"""Bodies of pushes as Loki's shippers make them, by encoders that are none of the gateway's:
Google's Protobuf for Python, with what protoc makes of loki_push.proto, and Google's snappy. A
stream is its labels, a dict of bytes, and its entries: a time in nanoseconds, a line and metadata,
all bytes."""
import codecs
import gzip
import importlib
import json
import os
import subprocess
import sys
import time
import zlib

import snappy
from hostile_bytes import CHOICES

HERE = os.path.dirname(os.path.realpath(__file__))
MINUTE = 60_000_000_000
NAMES, PIECES, NO_TEXT = (CHOICES[it] for it in ("name of a shipper", "piece of a text", "no text"))
# (Go and the gateway replace byte after byte)
codecs.register_error("each byte", lambda it: ("\ufffd", it.start + 1))


def load_messages(folder, name="loki_push"):
    subprocess.run(["protoc", f"--proto_path={HERE}", f"--python_out={folder}", f"{name}.proto"], check=True)
    sys.path.insert(0, folder)
    return importlib.import_module(f"{name}_pb2")


def kept(text):
    """What the server has of these bytes."""
    return text.decode(errors="each byte")


class Draw:
    def __init__(self, random, lengths=(0, 1, 1, 2, 5, 30)):
        # (how many entries a stream may have)
        self.random, self.lengths, self.count = random, lengths, 0

    def text(self, most, may_be_no_text):
        pieces = PIECES + NO_TEXT if may_be_no_text else PIECES
        return b"".join(self.random.choice(pieces) for _ in range(self.random.randint(0, most)))

    def labels(self, pool):
        """Labels of one of so many streams; with an empty value at times, which is no label."""
        number = self.random.randrange(pool)
        draw = Draw(type(self.random)(number))
        found = {b"n": str(number).encode()}
        for name in draw.random.sample(NAMES, draw.random.randint(0, 5)):
            found[name] = draw.text(6, number % 3 == 0)[:2048]
        return found

    def time(self):
        """One of the last twenty minutes, and no other entry's."""
        self.count += 1
        return time.time_ns() // MINUTE * MINUTE - self.random.randrange(20) * MINUTE + self.count

    def entry(self, may_be_no_text):
        metadata = {}
        for _ in range(self.random.choice([0, 0, 0, 1, 2, 16])):
            name = self.text(3, may_be_no_text)[:200] + str(len(metadata)).encode()
            metadata[name] = self.text(4, may_be_no_text)[:300]
        return self.time(), self.text(8, may_be_no_text), metadata

    def stream(self, may_be_no_text, pool=60):
        labels = self.labels(pool)
        if not may_be_no_text:
            labels = {name: kept(value).encode() for name, value in labels.items()}
        return labels, [self.entry(may_be_no_text) for _ in range(self.random.choice(self.lengths))]


class LabelText:
    """Writes labels as one of the texts that Loki reads as them."""

    def __init__(self, random):
        self.random = random

    def space(self):
        return self.random.choice([b"", b"", b"", b" ", b"\t", b"\n", b" # \"}\n"])

    def write(self, labels):
        text = self.space() + b"{" + self.space()
        for at, (name, value) in enumerate(labels.items()):
            text += (b"," + self.space() if at else b"") + name + self.space() + b"=" + self.space() + self.value(value)
            text += self.space()
        return text + self.random.choice([b"", b",", b", "] if labels else [b""]) + b"}" + self.space()

    def value(self, value):
        quote = self.random.choice([b'"', b'"', b"'", b"`"])
        if quote == b"`" and (b"`" in value or kept(value).encode() != value):
            quote = b'"'
        if quote == b"`":
            return quote + value + quote
        found = b"".join(self.piece(it, quote) for it in value.decode(errors="surrogateescape"))
        return quote + found + quote

    def piece(self, letter, quote):
        """A character of a quoted text: as it is where that may be, or by one of its escapes."""
        raw, code = letter.encode(errors="surrogateescape"), ord(letter)
        if 0xDC80 <= code < 0xDD00:
            return self.random.choice([b"\\x%02x", b"\\%03o"]) % raw[0]
        if raw not in b"\\\n" + quote and self.random.random() < 0.8:
            return raw
        ways = [b"".join(b"\\x%02x" % it for it in raw), b"".join(b"\\%03o" % it for it in raw), b"\\U%08x" % code]
        if code < 0x10000:
            ways.append(b"\\u%04X" % code)
        short = dict(zip(b"\a\b\f\n\r\t\v\\" + quote, b"abfnrtv\\" + quote))
        if code in short:
            ways += [b"\\" + bytes([short[code]])] * 3
        return self.random.choice(ways)


class Writer:
    def __init__(self, messages, random):
        self.messages, self.random, self.labels = messages, random, LabelText(random)

    def protobuf(self, streams):
        body = self.messages.PushRequest()
        for labels, entries in streams:
            stream = body.streams.add(labels=self.labels.write(labels), hash=self.random.choice([0, 2**64 - 1]))
            for at, line, metadata in entries:
                entry = stream.entries.add(line=line)
                entry.timestamp.seconds, entry.timestamp.nanos = divmod(at, 10**9)
                for name, value in metadata.items():
                    entry.structuredMetadata.add(name=name, value=value)
                if self.random.random() < 0.1:
                    entry.parsed.add(name=b"p", value=b"q")
        return body.SerializeToString()

    def json(self, streams):
        shown = [{"stream": texts(labels), "values": list(map(value_of, entries))} for labels, entries in streams]
        indent = self.random.choice([None, None, 1])
        return json.dumps({"streams": shown}, ensure_ascii=self.random.random() < 0.5, indent=indent).encode()

    def draw(self, streams, is_json):
        """A body in one of the forms that Loki takes, and the fields of its head."""
        if is_json:
            body, encoding = pack(self.json(streams), self.random.choice([None, "gzip", "gzip", "deflate"]))
            kind = self.random.choice(["application/json", "application/json; charset=utf-8", "Application/JSON"])
        else:
            body = snappy.compress(self.protobuf(streams))
            body, encoding = pack(body, self.random.choice([None] * 8 + ["snappy", "gzip"]))
            kind = self.random.choice(["application/x-protobuf"] * 8 + ["text/plain"])
        return body, {"Content-Type": kind, **({"Content-Encoding": encoding} if encoding else {})}


def texts(pairs):
    return {kept(name): kept(value) for name, value in pairs.items()}


def value_of(entry):
    at, line, metadata = entry
    return [str(at), kept(line), *([texts(metadata)] if metadata else [])]


def pack(body, encoding):
    if encoding == "gzip":
        return gzip.compress(body, 1), encoding
    if encoding == "deflate":
        return zlib.compress(body, 1, wbits=-15), encoding
    return body, encoding
