"""Files of rows as docs/CASES.md says, their texts, and how rows show what a program said."""
import re

CODES = {"r": b"\r", "n": b"\n", "t": b"\t", "\\": b"\\"}
# from so many equal bytes on, their number is said
MANY = 64


def rows_of(path):
    """The rows of a file: name, and the steps, each a line with the lines that must be said after it. Between rows a line
    `of SUBJECT` may say what they are about."""
    name, steps = None, []
    with open(path, encoding="utf-8") as file:
        for number, line in enumerate((it.rstrip("\n") for it in file), 1):
            if not line or line.startswith("#") or name is None and line.startswith("of "):
                continue
            if (name is None) != line.startswith("row ") or line == "end" and not any(wanted for _, wanted in steps):
                raise ValueError(f"{path}, line {number}: {line}")
            if name is None:
                name, steps = line[4:], []
            elif line == "end":
                yield name, steps
                name = None
            elif line.startswith("="):
                steps[-1][1].append(line[1:].removeprefix(" "))
            else:
                steps.append((line, []))
    if name is not None:
        raise ValueError(f"{path}: the last row has no end")


def pieces_of(path):
    """The pieces of each line of a file, as bytes: between them stands ` | `, and `N*TEXT` is TEXT N times."""
    with open(path, encoding="utf-8") as file:
        for line in file:
            if not line.startswith("#"):
                parts = (re.fullmatch(r"(?:(\d+)\*)?(.*)", it) for it in line.rstrip("\n").split(" | "))
                yield [plain(it[2]) * int(it[1] or 1) for it in parts]


def plain(text):
    pieces = re.split(r"\\(x[0-9a-f]{2}|[rnt\\])", text)
    codes = [CODES.get(it) or bytes.fromhex(it[1:]) for it in pieces[1::2]]
    return b"".join(it for piece, code in zip(pieces[::2], [*codes, b""]) for it in (piece.encode(), code))


def shown(data):
    """Bytes as rows show them: what can't be printed has an escape, but for UTF-8."""
    escapes = {value[0]: f"\\{key}" for key, value in CODES.items()}
    try:
        text = data.decode()
    except UnicodeDecodeError:
        text = data.decode("latin-1")
        escapes.update((it, f"\\x{it:02x}") for it in range(128, 256))
    return text.translate({**{it: f"\\x{it:02x}" for it in [*range(32), 127]}, **escapes})


def line_shown(data):
    """A line that a program wrote, with many equal bytes as `\\64*x`."""
    pieces = re.split(rb"((.)\2{%d,})" % (MANY - 1), data, flags=re.DOTALL)
    many = zip(pieces[1::3], pieces[2::3], pieces[3::3])
    return shown(pieces[0]) + "".join(f"\\{len(run)}*{shown(byte)}{shown(after)}" for run, byte, after in many)


def run_shown(status, output, errors):
    lines = [f"status {status}"]
    for name, data in (("out", output), ("err", errors)):
        lines += [f"{name} {line_shown(it)}" for it in re.findall(rb"[^\n]*\n|[^\n]+", data)]
    return lines
