"""How deploy/sweep_lines.py reads long streams by ranges of time, over drawn streams in memory."""
import importlib.machinery
import importlib.util
import json
import random
import time

import pytest
from servers import HOUR, TOP

PIECE = 4_000


@pytest.fixture(scope="module")
def sweep_lines():
    loader = importlib.machinery.SourceFileLoader("sweep_lines", f"{TOP}/deploy/sweep_lines.py")
    it = importlib.util.module_from_spec(importlib.util.spec_from_loader("sweep_lines", loader))
    loader.exec_module(it)
    it.PIECE = PIECE
    return it


class Memory:
    """A server with one stream, which counts what it is asked."""

    def __init__(self, lines):
        self.lines, self.reads, self.longest, self.asked = lines, 0, 0, 0

    def ask(self, _tenant, _route, body, most=None):
        low, high = int(body["from"]), int(body["to"])
        found = {"values": [it for it in self.lines if low <= int(it[0]) < high]}
        size = len(json.dumps(found, separators=(",", ":")))
        self.reads, self.asked = self.reads + 1, self.asked + size
        if most is not None and size > most:
            return None
        if high - low > 10**6:
            self.longest = max(self.longest, size)
        return found


def draw_times(draw, now):
    """Times of lines: spread, in bursts, of one nanosecond, far back, or ahead of the clock."""
    end = now + draw.choice([0, 0, -30, -3000, -10**6, -10**9, 500, 3000]) * 10**9
    span = draw.choice([1, 1000, 10**9, 60 * 10**9, 2 * HOUR, 200 * HOUR])
    times = [end - draw.randrange(span) for _ in range(draw.choice([1, 5, 100, 1000]))]
    for _ in range(draw.randrange(3)):
        at = end - draw.randrange(span)
        times += [at] * draw.choice([1, 50, 300])
    if draw.randrange(4) == 0:
        times.append(draw.choice([0, 1, end - 5 * 10**17]))
    return sorted(times)


@pytest.mark.parametrize("seed", range(400))
def test_ranges(sweep_lines, seed):
    """Each read finds what a whole read would: the newest line, all lines of a range in order, the
    first line after it. No answer is longer than a piece but that of a single nanosecond, and what
    is asked for in vain stays within bounds."""
    draw, now = random.Random(seed), time.time_ns()
    lines = [[str(at), f"line {number} " + "x" * draw.randrange(40)]
             for number, at in enumerate(draw_times(draw, now))]
    memory, whole = Memory(lines), len(json.dumps(lines))
    known = int(draw.choice(lines)[0]) if draw.randrange(2) else 0
    stream = sweep_lines.Stream("t", '{a="1"}', int(whole * draw.choice([0.1, 1, 1, 3])), known)
    reading = sweep_lines.Reading(memory, stream)
    newest = reading.newest()
    assert newest == int(lines[-1][0])
    bound = max(0, newest - draw.choice([0, 1, 10**9, HOUR]))
    taken, ends = [], [0]
    for end, values in reading.pieces(0, bound, newest):
        assert all(ends[-1] <= int(it[0]) < end for it in values)
        taken += values
        ends.append(end)
    due = [it for it in lines if int(it[0]) < bound]
    assert taken == due and ends[-1] in (bound, 0)
    assert reading.first(bound, newest) == int(lines[len(due)][0])
    assert memory.longest <= PIECE
    assert memory.asked < 25 * (whole + 10 * PIECE)
    assert memory.reads < 40 * (whole / PIECE + 40)
