#!/usr/bin/env python3
"""The two slots of a shard through an append and a roll, as a graph of one table for dot."""
OPEN, CLOSED, TORN, OLD = "#8fce8f", "#e89a9a", "#f6e3a1", "#dddddd"
SEGMENT = [("1", OPEN), ("generation g", None)]
LAST = [("1", OPEN), ("generation g-1", OLD)]

# (a slot is a list of cells; None is the rest of the slot, which means nothing)
STEPS = [
    ("An append", None, None, None),
    ("at first", [*SEGMENT, ("0", CLOSED)], LAST, "the old streams"),
    ("write the block and a closed gate\nbehind the closed gate", [*SEGMENT, ("0", CLOSED), ("block", TORN), ("0", TORN)], LAST,
     "the old streams: nothing is read\nbehind a closed gate"),
    ("sync", [*SEGMENT, ("0", CLOSED), ("block", None), ("0", CLOSED)], LAST, "the old streams"),
    ("write the gate", [*SEGMENT, ("1", TORN), ("block", None), ("0", CLOSED)], LAST, "the old streams or the new"),
    ("sync; then the answer", [*SEGMENT, ("1", OPEN), ("block", None), ("0", CLOSED)], LAST, "the new streams"),
    ("A roll, where the block doesn't fit, or the segment is of version 1", None, None, None),
    ("at first", [*SEGMENT, ("0", CLOSED)], LAST, "the old streams: of two open slots\nthe greater generation is read"),
    ("close the other slot, sync", [*SEGMENT, ("0", CLOSED)], [("0", CLOSED), ("generation g-1", OLD)], "the old streams"),
    ("write all streams after the change\nand a closed gate", [*SEGMENT, ("0", CLOSED)],
     [("0", CLOSED), ("generation g+1", TORN), ("0", TORN)], "the old streams"),
    ("sync", [*SEGMENT, ("0", CLOSED)], [("0", CLOSED), ("generation g+1", None), ("0", CLOSED)], "the old streams"),
    ("write the gate", [*SEGMENT, ("0", CLOSED)], [("1", TORN), ("generation g+1", None), ("0", CLOSED)],
     "the old streams or the new"),
    ("sync; then the answer", [("1", OPEN), ("generation g", OLD), ("0", CLOSED)],
     [("1", OPEN), ("generation g+1", None), ("0", CLOSED)], "the new streams"),
]


def lines(text):
    return text.replace("\n", '<br align="left"/>') + '<br align="left"/>'


def slot(cells):
    inner = "".join(f'<td bgcolor="{colour or "white"}">{text}</td>' for text, colour in cells)
    return f'<td align="left"><table border="0" cellborder="1" cellspacing="0" cellpadding="4"><tr>{inner}</tr></table></td>'


def row(step, one, other, left):
    if one is None:
        return f'<tr><td colspan="4" align="left" bgcolor="#f4f8ff"><b>{step}</b></td></tr>'
    return f'<tr><td align="left">{lines(step)}</td>{slot(one)}{slot(other)}<td align="left">{lines(left)}</td></tr>'


def key():
    kinds = [("1", OPEN, "gate, open"), ("0", CLOSED, "gate, closed"), (" ", TORN, "under way: any of its bytes may be there"),
             (" ", OLD, "not read")]
    cells = "".join(f'<td bgcolor="{colour}" border="1">{text}</td><td align="left">{what}   </td>' for text, colour, what in kinds)
    return f'<tr><td colspan="4" align="left"><table border="0" cellspacing="3"><tr>{cells}</tr></table></td></tr>'


heads = "".join(f'<td align="left"><b>{it}</b></td>' for it in ["step", "slot in use", "other slot", "a crash then leaves"])
rows = "\n".join(row(*it) for it in STEPS)
print(f"""digraph slots {{
    node [shape=plain, fontname="DejaVu Sans", fontsize=11]
    it [label=<<table border="0" cellborder="0" cellspacing="2" cellpadding="3">
<tr>{heads}</tr>
{rows}
{key()}
</table>>]
}}""")
