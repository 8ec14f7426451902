"""compare.py LISTING COUNT SEED: hold the listing program to an independent implementation.

For random small sheets of both versions it lists every configuration, refines the partition by labels until nothing changes, numbers
the blocks as first named, and compares the listing line by line. A version 1 sheet is given as version 2 too: the same chart. It fails
on any difference, and if some kind of answer never came.
"""
import itertools
import random
import subprocess
import sys


def little_endian(number, size):
    return (number % (1 << (8 * size))).to_bytes(size, "little")


# By version: the bytes of a bound or start value, the furthest of them from 0, and the furthest offset.
LIMITS = {1: (2, 32768, 4_000_000), 2: (4, 1_000_000, 200_000_000)}


def encode(sheet):
    """The bytes of a sheet: (version, counters, actions, (start state, values), regions). A move is None, or (target, rules)."""
    version, counters, actions, (state, values), regions = sheet
    size = LIMITS[version][0]
    out = b"MSH" + little_endian(version, 2) + bytes([counters, actions, len(regions), state])
    out += b"".join(little_endian(v, size) for v in values)
    for label, state, bounds, moves in regions:
        out += little_endian(label, 2) + bytes([state])
        out += b"".join(little_endian(low, size) + little_endian(high, size) for low, high in bounds)
        for move in moves:
            if move is None:
                out += bytes(2 + 7 * counters)
                continue
            out += bytes([1, move[0]])
            for source, factor, offset in move[1]:
                kind = [0, 0] if source is None else [1, source]
                out += bytes(kind) + little_endian(factor, 1) + little_endian(offset, 4)
    return out


def landing(move, values):
    return move[0], tuple(o if s is None else f * values[s] + o for s, f, o in move[1])


def faults(sheet, places):
    """The places of fields with a value that is not allowed, in file order."""
    version, counters, _, (_, values), regions = sheet
    size, most, most_offset = LIMITS[version]
    yield from (9 + size * v for v, value in enumerate(values) if abs(value) > most)
    for at, (label, _, bounds, moves) in zip(places, regions):
        if label == 65535:
            yield at
        for v, (low, high) in enumerate(bounds):
            if abs(low) > most:
                yield at + 3 + 2 * size * v
            if abs(high) > most or low > high:
                yield at + 3 + 2 * size * v + size
        for a, move in enumerate(moves):
            for v, (_, _, offset) in enumerate(move[1] if move else []):
                if abs(offset) > most_offset:
                    yield at + 3 + 2 * size * counters + a * (2 + 7 * counters) + 2 + 7 * v + 3


def listing(sheet):
    """What the program must write, by listing all configurations."""
    version, counters, actions, _, regions = sheet
    head = 3 + 2 * LIMITS[version][0] * counters
    size = head + actions * (2 + 7 * counters)
    places = [9 + LIMITS[version][0] * counters + i * size for i in range(len(regions))]
    labels = [r[0] for r in regions]
    place = next(faults(sheet, places), None)
    if place is not None:
        return f"refused 4 at {place}"
    return listing_of_form(sheet, labels, places, head)


def listing_of_form(sheet, labels, places, head):
    """The same for a sheet that passed refusals 1 to 4; a region's moves stand `head` bytes behind its place."""
    _, counters, actions, (state, values), regions = sheet
    for j, label in enumerate(labels):
        if label in labels[:j]:
            return f"refused 5 at {places[j]}"
    region = {}
    for j, (_, control, bounds, _) in enumerate(regions):
        inside = [(control, x) for x in itertools.product(*[range(a, b + 1) for a, b in bounds])]
        if any(c in region for c in inside):
            return f"refused 6 at {places[j]}"
        region.update((c, j) for c in inside)
    start = (state, tuple(values))
    if start not in region:
        return "refused 7 at 8"
    step = {}
    for c, j in region.items():
        moves = regions[j][3]
        step[c] = [None if m is None else landing(m, c[1]) for m in moves]
    for j in range(len(regions)):
        for a in range(actions):
            if any(step[c][a] is not None and step[c][a] not in region for c in region if region[c] == j):
                return f"refused 8 at {places[j] + head + a * (2 + 7 * counters)}"
    return chart_of(labels, region, step, start)


def chart_of(labels, region, step, start):
    """The lines of the chart of an accepted sheet: the region of each configuration, its steps, and the start."""
    block = dict(region)
    while True:
        names = {}
        parted = {c: names.setdefault((block[c], *[q and block[q] for q in step[c]]), len(names)) for c in region}
        if len(names) == len(set(block.values())):
            break
        block = parted
    order, number = [start], {block[start]: 0}
    for c in order:
        for q in step[c]:
            if q is not None and block[q] not in number:
                number[block[q]] = len(order)
                order.append(q)
    if len(order) > 255:
        return "refused 9 at 0"
    lines = [f"chart {len(order)} blocks {len(step[start])} actions"]
    for i, c in enumerate(order):
        members = [d[1] for d in region if block[d] == block[c]]
        line = f"{i} label {labels[region[c]]} state {c[0]}"
        for v in range(len(c[1])):
            line += f" x{v} {min(m[v] for m in members)}..{max(m[v] for m in members)}"
        for a, q in enumerate(step[c]):
            line += f" a{a} {'-' if q is None else number[block[q]]}"
        lines.append(line)
    return "\n".join(lines)


def random_rule(rng, old, new, counters, v):
    """A rule that mostly takes the old bounds into the new ones."""
    low, high = sorted(new[v])
    if rng.random() < 0.35:
        return None, 0, rng.randint(low, high)
    if rng.random() < 0.01:
        return None, 0, rng.choice([-1, 1]) * rng.choice([4_000_000, 4_000_001, 200_000_000, 200_000_001])
    source = rng.randrange(counters)
    factor = rng.choice([1, 1, 1, -1, -1, 2, -2, 3])
    first, last = sorted(factor * x for x in old[source])
    return source, factor, low - first + rng.randint(0, max(0, high - low - (last - first)))


def random_middle(rng, version, size):
    """About where a counter has its bounds: near 0, and in version 2 just as often past 16 bits, or at an end of the range or just past it."""
    if version == 1 or rng.random() < 0.2:
        return 0
    return rng.choice([-1, 1]) * rng.choice([32768, 500_000, rng.randint(999_990 - 6 * size, 1_000_001)])


def random_shapes(rng, version, counters, count):
    """The control state and the bounds of each region."""
    size = {1: 12, 2: 5, 3: 3}[counters]
    middles = [random_middle(rng, version, size) for _ in range(counters)]
    base, shapes = middles[0] + rng.randint(-5, 5), []
    for j in range(count):
        lows = [middle + rng.randint(-size, size) for middle in middles]
        bounds, control = [(a, a + rng.randint(0, size)) for a in lows], rng.choice([0, 0, 1])
        if rng.random() < 0.6:
            bounds[0], control = (base + j * size, base + j * size + size - 1), 0
        if rng.random() < 0.01:
            bounds[-1] = bounds[-1][::-1]
        shapes.append((control, bounds))
    return shapes


def random_sheet(rng, version):
    counters, actions, count = rng.choice([1, 1, 1, 2, 2, 3]), rng.randint(1, 3), rng.randint(1, 4)
    shapes = random_shapes(rng, version, counters, count)
    labels = rng.sample(range(1, 60), count)
    if rng.random() < 0.05:
        labels[-1] = labels[0]
    if rng.random() < 0.05:
        labels[rng.randrange(count)] = rng.choice([65534, 65535])
    regions = []
    for label, (control, bounds) in zip(labels, shapes):
        moves = []
        for _ in range(actions):
            target, wanted = rng.choice(shapes)
            rules = [random_rule(rng, bounds, wanted, counters, v) for v in range(counters)]
            moves.append(None if rng.random() < 0.3 else (target, rules))
        regions.append((label, control, bounds, moves))
    control, bounds = rng.choice(shapes)
    start = (2 if rng.random() < 0.03 else control, [rng.randint(min(a, b), max(a, b)) for a, b in bounds])
    return version, counters, actions, start, regions


def one_counter(start, *regions):
    """A sheet of one counter and one action: regions are (low, high, None or (factor, offset))."""
    rows = [(10 * (i + 1), 0, [(a, b)], [m and (0, [(0, *m)])]) for i, (a, b, m) in enumerate(regions)]
    return 1, 1, 1, (0, [start]), rows


NAMED = {
    "P1": one_counter(2, (0, 7, (2, 1)), (8, 15, None)),
    "P2": one_counter(2, (0, 7, (2, 2)), (8, 15, None)),
    "P3": one_counter(2, (0, 7, (2, 1)), (7, 15, None)),
    "P4": one_counter(16, (0, 7, (2, 1)), (8, 15, None)),
    "P5": one_counter(2, (-8, 7, (-1, -1))),
    "P8": one_counter(0, (0, 1000, (2, 0)), (1001, 2000, None)),
    "255 blocks": one_counter(0, (0, 253, (1, 1)), (254, 254, None)),
    "256 blocks": one_counter(0, (0, 254, (1, 1)), (255, 255, None)),
    "256 blocks from 1": one_counter(1, (0, 254, (1, 1)), (255, 255, None)),
}


def main():
    program, count, seed = sys.argv[1], int(sys.argv[2]), int(sys.argv[3])
    rng = random.Random(seed)
    kinds, differ = {}, 0
    narrow = [*NAMED.items(), *((None, random_sheet(rng, 1)) for _ in range(count))]
    rewritten = [(name, (2, *sheet[1:])) for name, sheet in narrow]
    for name, sheet in [*narrow, *rewritten, *((None, random_sheet(rng, 2)) for _ in range(count))]:
        expected = listing(sheet)
        run = subprocess.run([program], input=encode(sheet), capture_output=True, check=True)
        kind = f"{expected.split(' at ')[0] if expected.startswith('refused') else 'chart'} in version {sheet[0]}"
        kinds[kind] = kinds.get(kind, 0) + 1
        if run.stdout.decode() != expected + "\n":
            differ += 1
            print(f"differs: {name or sheet}\n{expected}\n{run.stdout.decode()}")
    print("compared:", ", ".join(f"{kinds[k]} {k}" for k in sorted(kinds)))
    wanted = ["chart", "refused 4", "refused 5", "refused 6", "refused 7", "refused 8", "refused 9"]
    missing = {f"{kind} in version {version}" for kind in wanted for version in LIMITS} - set(kinds)
    if missing:
        print("never came:", ", ".join(sorted(missing)))
    sys.exit(1 if differ or missing else 0)


if __name__ == "__main__":
    main()
