#!/usr/bin/env -S python3 -B
"""placement.py: how nginx's `hash .. consistent` spreads shippers over servers, in figures.

The model knows nginx's documented points alone: each server has 160 times its weight of them on a
circle of 32 bits, and a key belongs to the first point at its own place or after it.
scale_out_check.py holds it against a real nginx. Run by itself it draws shippers before a hundred
servers, and prints of each figure the median of the draws, and the worst."""
import bisect
import collections
import random
import statistics
import struct
import zlib

SERVERS, SHIPPERS, TENANTS, DRAWS = 100, 10_000, 200, 20
POINTS = 160


def points_of(name, weight=1):
    """The places of a server on the circle, by its name as the list of servers has it."""
    host, _, port = name.rpartition(":")
    begun, place, found = zlib.crc32(f"{host}\0{port}".encode()), 0, []
    for _ in range(POINTS * weight):
        place = zlib.crc32(struct.pack("<I", place), begun)
        found.append(place)
    return found


class Circle:
    """The servers of an edge, as their names, or as a dict of their names and weights."""

    def __init__(self, servers, down=()):
        weights = servers if isinstance(servers, dict) else dict.fromkeys(servers, 1)
        owners = {}
        for name, weight in weights.items():
            for place in points_of(name, weight):
                owners.setdefault(place, name)
        self.places = sorted(owners)
        self.owners = [owners[it] for it in self.places]
        self.down = set(down)

    def server_of(self, key):
        at = bisect.bisect_left(self.places, zlib.crc32(key.encode()))
        while (name := self.owners[at % len(self.owners)]) in self.down:
            at += 1
        return name


def key_of(tenant, shipper):
    """What deploy/nginx-spread.conf hashes."""
    return f"{tenant} {shipper}"


def names(count, seed):
    return [f"10.{seed}.{at // 250}.{at % 250 + 1}:3443" for at in range(count)]


class Draw:
    """Shippers of tenants: the tenant of place n has a share by 1/n, and each shipper sends as much as any, or as a
    log-normal draw says, by which the loudest tenth sends two fifths of all."""

    def __init__(self, seed):
        random.seed(seed)
        shares = [1 / (at + 1) for at in range(TENANTS)]
        tenants = random.choices([f"tenant-{seed}-{at}" for at in range(TENANTS)], shares, k=SHIPPERS)
        self.shippers = [(it, f"host-{seed}-{at}") for at, it in enumerate(tenants)]
        self.even = [1] * SHIPPERS
        self.uneven = [random.lognormvariate(0, 1) for _ in range(SHIPPERS)]

    def spread(self, circle, of_key=key_of):
        return [circle.server_of(of_key(*it)) for it in self.shippers]


def fullest(homes, loads):
    """The load of the fullest server, as times the mean of all."""
    sums = collections.Counter()
    for home, load in zip(homes, loads):
        sums[home] += load
    return max(sums.values()) * SERVERS / sum(loads)


def moved(before, after):
    return sum(one != other for one, other in zip(before, after)) / len(before)


def figures(seed):
    draw, servers = Draw(seed), names(SERVERS, seed)
    circle, found = Circle(servers), {}
    homes = draw.spread(circle)
    found["tenant alone: fullest over mean"] = fullest(draw.spread(circle, lambda tenant, _: tenant), draw.even)
    found["tenant and shipper: fullest over mean"] = fullest(homes, draw.even)
    found["the same, shippers of uneven load"] = fullest(homes, draw.uneven)
    heavy = draw.spread(Circle(dict.fromkeys(servers, 10)))
    found["weight=10 on each server: fullest over mean"] = fullest(heavy, draw.even)
    found["share that moves to a server that is added"] = moved(homes, draw.spread(Circle(names(SERVERS + 1, seed))))
    found["share that moves from a server that is lost"] = moved(homes, draw.spread(Circle(servers, servers[:1])))
    return found


def main():
    drawn = [figures(seed) for seed in range(DRAWS)]
    print(f"{SERVERS} servers, {SHIPPERS} shippers of {TENANTS} tenants, {DRAWS} draws: median, worst")
    for what in drawn[0]:
        values = [it[what] for it in drawn]
        print(f"{what}: {statistics.median(values):.3f}, {max(values):.3f}")


if __name__ == "__main__":
    main()
