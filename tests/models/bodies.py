"""The reader of what clients send and are answered: keys, metadata, JSON, and bodies, by docs/DEFINITIONS.md and
docs/API.md. It knows nothing of how the programs work; so it is slow, and short. An entry is its time, its line, and
its metadata as pairs of bytes in the order of their names."""
import codecs
import contextlib
import itertools
import json
import math
import re

MOST_TIME = 2**63 - 1
MOST_LABELS, MOST_LINE, MOST_ENTRIES = 15, 262_144, 10_000
# (of a body of more than so many bytes)
UNCOUNTED, MOST_OBJECTS, MOST_ELEMENTS = 262_144, 30_001, 50_001
MOST_PAIRS, MOST_NAME, MOST_VALUE = 16, 256, 1_024
MOST_DEPTH = 127


def is_tenant(text):
    return re.fullmatch(rb"[A-Za-z0-9_-]{1,150}", text) is not None


def label_fault(pairs):
    """The first fault of labels, pairs of bytes in the order given, or None. (Names of a JSON object never stand twice.)"""
    if not pairs:
        return "no labels"
    if len(pairs) > MOST_LABELS:
        return f"more than {MOST_LABELS} labels"
    for name, value in pairs:
        if not re.fullmatch(rb"[A-Za-z_][A-Za-z0-9_]*", name):
            return "bad label name"
        if len(name) > 1024:
            return "label name too long"
        if not value:
            return "empty label value"
        if len(value) > 2048:
            return "label value too long"
    if len({name for name, _ in pairs}) < len(pairs):
        return "label name twice"
    return None


def canonical(pairs):
    shown = []
    for name, value in sorted(pairs):
        value = value.replace(b"\\", b"\\\\").replace(b'"', b'\\"').replace(b"\n", b"\\n")
        shown.append(name + b'="' + value + b'"')
    return b"{" + b", ".join(shown) + b"}"


LABEL = rb'([A-Za-z0-9_]+)="((?:[^"\\\n]|\\[\\"n])*)"'


def labels_of(text):
    """The labels whose canonical text this is, or None."""
    if not re.fullmatch(rb"\{%b(?:, %b)*\}" % (LABEL, LABEL), text):
        return None
    plain = lambda value: re.sub(rb"\\(.)", lambda it: b"\n" if it[1] == b"n" else it[1], value)
    pairs = [(name, plain(value)) for name, value in re.findall(LABEL, text)]
    return pairs if not label_fault(pairs) and canonical(pairs) == text else None


def is_canonical(text):
    return is_utf8(text) and labels_of(text) is not None


def shard_of(tenant, text, count):
    found = 14_695_981_039_346_656_037
    for byte in tenant + b"\0" + text:
        found = (found ^ byte) * 1_099_511_628_211 % 2**64
    return found % count


def is_utf8(text, is_whole=True):
    """Whether the bytes are UTF-8, or more bytes may make them so."""
    with contextlib.suppress(UnicodeDecodeError):
        codecs.getincrementaldecoder("utf-8")().decode(text, is_whole)
        return True
    return False


def is_short(pairs):
    """Whether a line may have this metadata, pairs of bytes."""
    return len(pairs) <= MOST_PAIRS and all(0 < len(name) <= MOST_NAME and len(value) <= MOST_VALUE for name, value in pairs)


class Fault(Exception):
    """A body is refused as a whole, with this text."""


def number_of(text):
    """A number that a float holds. (Python takes NaN and Infinity, too.)"""
    if not math.isfinite(float(text)):
        raise ValueError
    return float(text)


def members_of(pairs):
    """The members of an object. A surrogate without its other half, in any of them, can't be written as UTF-8."""
    json.dumps(pairs, ensure_ascii=False).encode()
    return dict(pairs)


def depth_of(text):
    signs = re.findall(r"[\[{\]}]", re.sub(r'"(?:[^"\\]|\\.)*"', "", text, flags=re.DOTALL))
    return max(itertools.accumulate((1 if it in "[{" else -1 for it in signs), initial=0))


def has_too_many(text):
    """Whether a long text has more objects, or more values that are of no member, than a push of 10,000 streams and 10,000
    entries with metadata."""
    may_have = text.count("{") > MOST_OBJECTS or text.count("[") + text.count(",") >= MOST_ELEMENTS
    if len(text.encode()) <= UNCOUNTED or not may_have:
        return False
    plain = re.sub(r'"(?:[^"\\]|\\.)*"', '"', text, flags=re.DOTALL)
    tokens = re.findall(r'"\s*:|[{\["]|[^\s{}\[\]",:]+', plain)
    values = sum(not it.endswith(":") and not before.endswith(":") for before, it in zip(["", *tokens], tokens))
    return tokens.count("{") > MOST_OBJECTS or values > MOST_ELEMENTS


def tree_of(body):
    """JSON of RFC 8259: at most 127 arrays and objects in one another, numbers that a float holds, pairs of surrogates that
    are whole; of members with one name the last one counts."""
    hooks = dict.fromkeys(["parse_int", "parse_float", "parse_constant"], number_of)
    try:
        text = body.decode()
        if has_too_many(text):
            raise Fault("more than 10000 streams or entries")
        if depth_of(text) > MOST_DEPTH:
            raise ValueError
        found = json.loads(text, object_pairs_hook=members_of, **hooks)
        json.dumps(found, ensure_ascii=False).encode()
        return found
    except ValueError:
        raise Fault("body is not JSON") from None


def time_of(text):
    found = int(text) if re.fullmatch("[0-9]{1,19}", text) else MOST_TIME + 1
    return found if found <= MOST_TIME else None


def is_texts(value):
    return isinstance(value, dict) and all(isinstance(it, str) for it in value.values())


def is_value(value):
    """Whether this is a time and a line, and perhaps metadata."""
    return (isinstance(value, list) and len(value) in (2, 3) and all(isinstance(it, str) for it in value[:2])
            and all(map(is_texts, value[2:])))


def is_stream(value):
    return (isinstance(value, dict) and set(value) == {"stream", "values"} and is_texts(value["stream"])
            and isinstance(value["values"], list) and all(map(is_value, value["values"])))


def pairs_of(members):
    """Labels or metadata in rising order of their names' bytes."""
    return tuple(sorted((name.encode(), value.encode()) for name, value in members.items()))


def read_push(body):
    """The streams of a push body: labels, and entries of a time, a line and metadata."""
    tree = tree_of(body)
    is_push = isinstance(tree, dict) and set(tree) == {"streams"} and isinstance(tree["streams"], list)
    if not is_push or not all(map(is_stream, tree["streams"])):
        raise Fault("wrong shape")
    found = []
    for number, stream in enumerate(tree["streams"]):
        entries = []
        for place, (time, line, *more) in enumerate(stream["values"]):
            if time_of(time) is None:
                raise Fault(f"bad time at stream {number} entry {place}")
            entries.append((time_of(time), line, pairs_of(more[0] if more else {})))
        found.append((pairs_of(stream["stream"]), entries))
    if sum(len(entries) for _, entries in found) > MOST_ENTRIES:
        raise Fault("more than 10000 entries")
    return found


def read_asked(body, names):
    """Labels and the times under these names, of the body of a read or a trim."""
    tree = tree_of(body)
    are_there = isinstance(tree, dict) and set(tree) == {"stream", *names} and is_texts(tree["stream"])
    if not are_there or not all(isinstance(tree[it], str) for it in names):
        raise Fault("wrong shape")
    times = [time_of(tree[it]) for it in names]
    if None in times:
        raise Fault("bad time at stream 0 entry 0")
    return pairs_of(tree["stream"]), times


def entries_of(status, text):
    """The entries of a read's answer, or the status of another answer."""
    if status != 200:
        return status
    return [(int(time), line, pairs_of(more[0] if more else {})) for time, line, *more in json.loads(text)["values"]]


def value_of(entry):
    """An entry as a body has it: its metadata stands there where it has some."""
    time, line, pairs = entry
    more = [{name.decode(): value.decode() for name, value in pairs}] if pairs else []
    return [str(time), line, *more]
