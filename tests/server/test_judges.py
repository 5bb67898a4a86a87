"""The judges of judges.py over the rows of crates/*/data and tests/rows, where what must be said
was written from the definitions by hand."""
import re

# (it knows where the models are)
import servers
import bodies
import judges
from hostile_bytes import request_bytes
from row_files import plain, rows_of, run_shown, shown
from row_slots import Bytes


def part_of(text):
    """A name or value of a row: `x*5` for xxxxx."""
    text, _, count = text.partition("*")
    return plain(text) * int(count or 1)


def pairs_of(words):
    inside = words.removeprefix("{").removesuffix("}")
    return [tuple(map(part_of, it.split("=", 1))) for it in inside.split(",") if it]


def part_shown(text):
    """A name or value of metadata: one character alone that has more than eight bytes as `x*9`."""
    letters = text.decode()
    count = f"*{len(letters)}" if len(text) > 8 and len(set(letters)) == 1 else ""
    text = letters[0].encode() if count else text
    return re.sub(r"[ *,={}]", lambda it: f"\\x{ord(it[0]):02x}", shown(text)) + count


def metadata_said(pairs):
    if len(dict(pairs)) < len(pairs):
        return "metadata name twice"
    members = ",".join(f"{part_shown(name)}={part_shown(value)}" for name, value in sorted(pairs))
    return (f"{{{members}}}" if pairs else "none") + ("" if bodies.is_short(pairs) else " of no line")


def judge_texts(steps):
    """What the judges say of a row of labels or metadata: pairs of what was said and wanted."""
    for line, wanted in steps:
        word, _, rest = line.partition(" ")
        pairs = pairs_of(rest) if word in ("labels", "meta") else []
        if word == "labels":
            text = bodies.canonical(pairs)
            yield [bodies.label_fault(pairs) or (shown(text) if len(text) <= 200 else f"({len(text)} bytes)")], wanted
        elif word == "meta":
            yield [metadata_said(pairs)], wanted


PATHS = {"push": b"/loki/api/v1/push", "read": b"/ingester/v1/read", "trim": b"/ingester/v1/trim"}


def said_by(program, words, data, folders):
    """What a program's judge says of a slot or a body; None where it doesn't know the words."""
    if program == "walcat" and re.fullmatch(r"\S+ \d+ [1-9]\d?", words):
        shard, count = map(int, words.split(" ")[1:])
        return run_shown(*judges.walcat(data, shard, count)) if shard < count <= 64 else None
    if program == "ingest1" and re.fullmatch(r"\d{1,18}", words):
        return run_shown(*judges.ingest1(int(words), data))
    if program == "ingestctl" and re.fullmatch(r"(push|read|trim) \S+ 1 \w+ \d+", words):
        kind, folder, _, tenant, now = words.split(" ")
        calls = folders.setdefault(folder, judges.Calls())
        calls.now = int(now)
        status, text = calls(PATHS[kind], tenant, data)
        return run_shown(int(status not in (200, 204)), f"{status}\n{text}".encode(), b"")
    return None


def judge_programs(steps):
    """What the judges say of a row of programs. A folder is known that only calls have written to."""
    it, folders, is_known = Bytes(judges.walcat), {}, True
    for line, wanted in steps:
        word, _, rest = line.partition(" ")
        if word == "next":
            it, is_known = Bytes(judges.walcat), True
            continue
        if not is_known:
            continue
        if said := said_by(word, rest, it.data, folders) or it.said(word, rest):
            yield said, wanted
        elif word == "each" and rest.startswith("cut 0 "):
            # (what is said of all beginnings is the same)
            _, _, last, program, words = rest.split(" ", 4)
            cut = {tuple(said_by(program, words, it.data[:at], folders)) for at in range(int(last) + 1)}
            yield [line for its in cut for line in (f"times {int(last) + 1}", *its)], wanted
        elif not it.take(word, rest):
            is_known = False


def judge_connections(steps):
    data, body, wanted = Bytes(None), Bytes(None), []
    for line, said in steps:
        word, _, rest = line.partition(" ")
        wanted += said
        if word in ("in", "in*"):
            data.take(word, rest)
        elif word in ("body", "body*"):
            body.take(word.replace("body", "in"), rest)
        elif word == "post":
            path, _, text = rest.partition(" ")
            data.data += request_bytes(path.encode(), body.data + plain(text))
            body = Bytes(None)
        elif word not in ("alone", "step", "takes", "interrupts") and line not in ("each step", "each cut"):
            return
    ends = [at for at, it in enumerate(wanted) if re.fullmatch(r"(ended|closed|request cut short), steps \d+", it)]
    if ends:
        # (a writer that takes few bytes at a time has other lines)
        yield {shown(it) for it in judges.connection(data.data, judges.Calls())}, {"".join(wanted[:ends[0]])}


KINDS = {"crates/cases/data/labels.txt": judge_texts,
         **{f"tests/rows/programs/{it}.txt": judge_programs
            for it in ("segments", "labels", "bodies", "walcat", "ingest1")},
         **{f"crates/conformance/data/{it}.txt": judge_connections
            for it in ("heads", "connections", "pushes", "reads", "requests")}}


def test_judges_over_rows():
    judged = 0
    for path, judge in KINDS.items():
        before = judged
        for name, steps in rows_of(f"{servers.TOP}/{path}"):
            for said, wanted in judge(steps):
                judged += 1
                assert said == wanted, f"{path}, row {name}"
        assert judged > before, f"no row of {path} is judged"
    assert judged >= 800
