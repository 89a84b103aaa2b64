"""The texts of the check, each with lent lengths: the bench, the damages of C1, texts around the largest length, and random ones.

The random ones are small jobs and damaged small jobs, made from a seed so that a run can be repeated. No outcome is decided here.
"""

import random
import re
from collections import namedtuple

from bench import BENCH, C1, ROOMY, directed, header_lines, marked, net_lines, text_of
from second import MOST_BYTES, MOST_INPUT, PROGRAM_LENT, Lent

# `kind` says how the text was made. `text` is the whole text; or, where `length` is a number, the start of any text of that
# length.
Case = namedtuple("Case", "kind text lent length", defaults=[None])

# The most edges of a random net for each layer count: so few that all its layerings can be gone through.
MOST_EDGES = {2: 8, 3: 5, 4: 4, 5: 3, 6: 3, 7: 2, 8: 2}

# The lines with one number that has a range.
RANGES = [("width", 1, 64), ("height", 1, 64), ("layers", 2, 8), ("alpha", 0, 255), ("beta", 0, 255), ("gamma", 0, 255),
          ("nets", 0, 4096)]

# "Capacities run from 0 to 65,535."
MOST_CAPACITY = 65_535


# ---- fixed texts

def bench_cases():
    """The texts whose outcome document 01 gives."""
    return [Case(f"bench: {bench.name}", bench.text, bench.lent) for bench in BENCH]


def long_cases():
    """Texts around "at most 65,536 bytes" and "text above 1,048,576 bytes": a text with a fault that is found in its start, and
    anything behind it."""
    return [Case("long", start, lent, most + more)
            for start in (b"width=65\n", C1 + b"x") for lent in (PROGRAM_LENT, ROOMY, Lent(0, 0, 0, None))
            for most in (MOST_INPUT, MOST_BYTES) for more in (0, 1, 2)]


def cut_cases():
    """C1 cut behind each of its bytes."""
    return [Case("C1 cut", C1[:size], ROOMY) for size in range(len(C1))]


def line_cases():
    """C1 with each of its lines dropped, doubled, swapped with the next, emptied, with a space, or with another line end."""
    lines = C1.decode().split("\n")[:-1]
    for at, line in enumerate(lines):
        following = lines[at + 1:at + 2]
        for part in (following, [line, line, *following], [*following, line], ["", *following], [line + " ", *following],
                     [" " + line, *following], [line + "\r", *following], [line.upper(), *following],
                     [line.replace("=", " = "), *following], [line.replace("=", ""), *following], [line + ",", *following],
                     [line + ";", *following]):
            yield Case("C1 line", text_of(lines[:at] + part + lines[at + 2:]), ROOMY)


def with_number(lines, key, number):
    """The lines, with another number for this key."""
    return [f"{key}={number}" if line.startswith(key + "=") else line for line in lines]


def end_cases():
    """C1 with each number that has a range at the ends of it and beyond them."""
    lines = C1.decode().split("\n")[:-1]
    for key, low, high in RANGES:
        for number in sorted({0, low, low + 1, high - 1, high, high + 1, 99_999}):
            yield Case("C1 range", text_of(with_number(lines, key, number)), ROOMY)


def border_cases():
    """One net on six tiles: a pin, or an edge, at each place inside and just outside the grid and the layers."""
    start = header_lines(3, 2, 2, 1, 1, 1, [("1,2,0,1", "1,0,1")] * 2)
    for x in range(4):
        for y in range(3):
            for layer in range(4):
                yield Case("pin", text_of(start + net_lines((f"{x},{y},{layer}", ""))), ROOMY)
            for way in "en":
                for pin in ("0,0,1", f"{min(x, 2)},{min(y, 1)},2"):
                    yield Case("edge", text_of(start + net_lines((pin, f"{x},{y},{way}"))), ROOMY)


# What may stand before `alpha` in a job with two layers: `dirs` lines, well-formed or not, and others that look like one.
DIRS_LINES = [b"dirs=h,h", b"dirs=h,v", b"dirs=v,h", b"dirs=v,v", b"dirs=", b"dirs=h", b"dirs=h,h,h", b"dirs=h,h,", b"dirs=,h,h", b"dirs=h,,h",
              b"dirs=hh", b"dirs=h;h", b"dirs=H,H", b"dirs=h,V", b"dirs=h,e", b"dirs=n,h", b"dirs=1,1", b"dirs=0h,h", b"dirs= h,h",
              b"dirs=h,h ", b"dirs=h, h", b"dirs=h,h\r", b"dirs==h,h", b"dirs=h,h\x00", b"dirsh,h", b"dirs", b"dirs h,h", b"dirs:h,h",
              b"dir=h,h", b"dirss=h,h", b"Dirs=h,h", b"DIRS=h,h", b" dirs=h,h", b"", b"dirs=h,h\ndirs=h,h", b"dirs=h,h\n", b"dirs=h,h\nalpha=1"]


def dirs_cases():
    """C1 with each of these lines, and its start up to each byte of a `dirs` line; with enough working numbers, and one short."""
    texts = [C1.replace(b"alpha", line + b"\nalpha", 1) for line in DIRS_LINES]
    start = directed(C1, b"h,v").split(b"alpha")[0]
    texts += [start[:size] for size in range(start.index(b"dirs"), len(start) + 1)]
    for text in texts:
        for lent in (ROOMY, Lent(107, 2, 3, 390)):
            yield Case("dirs", text, lent)


# What may stand before `pins` in a job with two layers: `low` lines, well-formed or not, and others that look like one.
LOW_LINES = [b"low=1", b"low=2", b"low=0", b"low=3", b"low=9", b"low=255", b"low=256", b"low=65536", b"low=65537", b"low=99999", b"low=100000",
             b"low=4294967297", b"low=18446744073709551617", b"low=", b"low=00", b"low=01", b"low=02", b"low=1,1", b"low=1,", b"low=,1",
             b"low=1;", b"low= 1", b"low=1 ", b"low=1\r", b"low=1\x00", b"low==1", b"low=x", b"low=h", b"low=+1", b"low=-1", b"low=1.0", b"low1",
             b"low", b"low 1", b"low:1", b"lo=1", b"lows=1", b"llow=1", b"Low=1", b"LOW=1", b" low=1", b"", b"low=1\nlow=1", b"low=2\nlow=3",
             b"low=1\n", b"low=2\npins=0,0,1", b"net=1"]


def low_cases():
    """C1 with each of these lines in its first and in its second net, and its start up to each byte of a `low` line; with enough of all
    lent lengths, and with a short answer list."""
    texts = [C1.replace(b"\npins=0,0,1;%d" % x, b"\n" + line + b"\npins=0,0,1;%d" % x) for line in LOW_LINES for x in (2, 1)]
    whole = marked(C1, 1, 2)
    texts += [whole[:size] for at in (b"low=1", b"low=2") for size in range(whole.index(at), whole.index(at) + 7)]
    for text in texts:
        for lent in (ROOMY, Lent(108, 2, 2, 390)):
            yield Case("low", text, lent)


# ---- small random jobs

def working_need(width, height, layers):
    """How many working numbers are needed: "2 × K × E + 2 × E + 32 × T of them"."""
    edges = (width - 1) * height + width * (height - 1)
    return 2 * layers * edges + 2 * edges + 32 * width * height


class Draft:
    """A job while it is made: its numbers, the letters of its `dirs` line or None, for each net its pins (x, y, layer) and its
    edges (x, y, way), and the number of its `low` line or None."""

    def __init__(self, width, height, layers, dirs, weights, nets, lows):
        self.width, self.height, self.layers, self.dirs, self.weights, self.nets = width, height, layers, dirs, weights, nets
        self.lows = lows
        self.east = [[0] * ((width - 1) * height) for _ in range(layers)]
        self.north = [[0] * (width * (height - 1)) for _ in range(layers)]

    def lines(self):
        """The lines of the text, without their byte 10."""
        capacities = [(entry(east), entry(north)) for east, north in zip(self.east, self.north)]
        dirs = None if self.dirs is None else entry(self.dirs)
        return (header_lines(self.width, self.height, self.layers, *self.weights, capacities, dirs)
                + net_lines(*[(entries(pins), entries(edges)) for pins, edges in self.nets], lows=self.lows))

    def text(self):
        return text_of(self.lines())

    def closed(self):
        """The capacities, list by list, of layers that run the other way."""
        return [numbers for across, lists in (("v", self.east), ("h", self.north))
                for letter, numbers in zip(self.dirs or [], lists) if letter == across]

    def close(self):
        """Takes all tracks off the layers that run the other way."""
        for numbers in self.closed():
            numbers[:] = [0] * len(numbers)

    def need(self):
        """The lent lengths that are just enough."""
        entry_count = sum(len(edges) for _, edges in self.nets)
        working = working_need(self.width, self.height, self.layers)
        return Lent(working, len(self.nets), entry_count, 256 + 64 * len(self.nets) + 2 * entry_count)


def entry(parts):
    """Parts with a comma between."""
    return ",".join(map(str, parts))


def entries(triples):
    """The entries of a `pins` or an `edges` line."""
    return ";".join(map(entry, triples))


def grid_edges(width, height):
    """All edges of a grid as (x, y, way), each with its two tiles."""
    edges = {}
    for y in range(height):
        for x in range(width):
            if x + 1 < width:
                edges[x, y, "e"] = ((x, y), (x + 1, y))
            if y + 1 < height:
                edges[x, y, "n"] = ((x, y), (x, y + 1))
    return edges


def random_dirs(rng, layers):
    """The letters of a `dirs` line, mostly both of them; in half of all jobs none, for there is no such line."""
    some = [rng.choice("hv") for _ in range(layers)]
    mixed = rng.sample(["h", "v", *some[2:]], layers)
    return rng.choice([None] * 6 + [mixed] * 4 + [some, some[:1] * layers])


def random_lows(rng, layers, net_count):
    """The number of each net's `low` line: for all nets, for half of them, for few or for none; layers that are all 1, all K, or any."""
    share = rng.choice([0, 0, 0.2, 0.5, 0.5, 1, 1])
    least, most = rng.choice([(1, 1), (layers, layers), (1, layers), (2, layers), (2, layers)])
    return [rng.randint(least, most) if rng.random() < share else None for _ in range(net_count)]


def ways_of(dirs):
    """The ways of edges that some layer runs."""
    return "en" if dirs is None else [way for way, letter in zip("en", "hv") if letter in dirs]


def random_tree(rng, width, height, size, ways):
    """The tiles and the edges of a tree of at most `size` edges, grown from a random tile along these ways."""
    tiles, edges = [(rng.randrange(width), rng.randrange(height))], []
    ends = {edge: tiles for edge, tiles in grid_edges(width, height).items() if edge[2] in ways}
    while len(edges) < size:
        open_edges = [edge for edge, (one, other) in ends.items() if (one in tiles) != (other in tiles)]
        if not open_edges:
            break
        edge = rng.choice(open_edges)
        edges.append(edge)
        tiles += [tile for tile in ends[edge] if tile not in tiles]
    return tiles, edges


def random_net(rng, width, height, layers, ways):
    """A net: a tree along these ways with pins in some of its tiles, the entries of both lines in random order."""
    tiles, edges = random_tree(rng, width, height, rng.randint(0, MOST_EDGES[layers]), ways)
    pins = {(*rng.choice(tiles), rng.randint(1, layers)) for _ in range(rng.randint(1, 5))}
    return rng.sample(sorted(pins), len(pins)), rng.sample(edges, len(edges))


def random_weight(rng):
    """alpha, beta or gamma: often so that scores are equal."""
    return rng.choice([0, 0, 0, 1, 1, 2, 3, 7, 100, 254, 255, rng.randint(0, 255)])


def large_capacity(rng):
    """A capacity of three to five digits, often one at a limit: what a byte and what two bytes hold."""
    return rng.choice([255, 256, MOST_CAPACITY - 1, MOST_CAPACITY, rng.randint(100, 999), rng.randint(1_000, 9_999),
                       rng.randint(10_000, MOST_CAPACITY)])


def widen(rng, lists):
    """Makes some capacities of these lists large. Most edges of a draft still have few tracks on all their layers."""
    for capacities in lists:
        capacities[:] = [large_capacity(rng) if rng.random() < 0.15 else tracks for tracks in capacities]


def draft_on(rng, width, height, layers, net_count, most):
    """A job with so many nets on such a grid; its capacities are at most `most`, which is small, so that edges overflow. In a
    third of the jobs some capacities are large."""
    dirs = random_dirs(rng, layers)
    nets = [random_net(rng, width, height, layers, ways_of(dirs)) for _ in range(net_count)]
    lows = random_lows(rng, layers, net_count)
    draft = Draft(width, height, layers, dirs, [random_weight(rng) for _ in range(3)], nets, lows)
    for capacities in draft.east + draft.north:
        capacities[:] = [rng.randint(0, most) for _ in capacities]
    if rng.random() < 1 / 3:
        widen(rng, draft.east + draft.north)
    draft.close()
    return draft


def random_layers(rng):
    """The number of layers: mostly few."""
    return rng.choice([2, 2, 2, 3, 3, 3, 4, 4, rng.randint(5, 8)])


def random_draft(rng):
    """A small job."""
    net_count = rng.choice([0, 1, 1, 2, 2, 3, 3, 4, 4, 4])
    return draft_on(rng, rng.randint(1, 4), rng.randint(1, 3), random_layers(rng), net_count, rng.choice([0, 1, 1, 1, 2, 3]))


def draft_with(rng, fits):
    """A small job that passes a test."""
    while True:
        draft = random_draft(rng)
        if fits(draft):
            return draft


# ---- lent lengths

def enough(rng, draft):
    """Lent lengths that are enough, just so or with more, for Print or for Plan."""
    lent = Lent(*(need + rng.choice([0, 0, 1, 7]) for need in draft.need()))
    return rng.choice([lent, lent, lent._replace(print=None)])


def short(rng, draft):
    """Lent lengths of which one or two are short, mostly by one."""
    lent = list(draft.need())
    for at in rng.choices(range(4), k=rng.randint(1, 2)):
        lent[at] = max(0, lent[at] - rng.choice([1, 1, 1, 2, lent[at]]))
    return rng.choice([Lent(*lent), Lent(*lent), Lent(*lent)._replace(print=None)])


def program_or_plan(rng):
    """Lent lengths that are enough for any small job, for Print or for Plan."""
    return rng.choice([PROGRAM_LENT, PROGRAM_LENT._replace(print=None)])


# ---- the ways to make a random text: each gives a text and lent lengths

def plain(rng):
    """A small job as it is."""
    draft = random_draft(rng)
    return draft.text(), enough(rng, draft)


def crowd(rng):
    """Many nets on few tiles."""
    width, height = rng.choice([(2, 1), (1, 2), (3, 1), (2, 2), (2, 2)])
    draft = draft_on(rng, width, height, random_layers(rng), rng.randint(3, 7), rng.choice([0, 1, 1, 2]))
    return draft.text(), enough(rng, draft)


def tree(rng):
    """One or two nets of many edges, whose walk has branches at more than one tile."""
    draft = draft_on(rng, rng.randint(3, 4), 3, 2, rng.randint(1, 2), rng.choice([0, 1, 2]))
    for net in draft.nets:
        net[1][:] = random_tree(rng, draft.width, draft.height, MOST_EDGES[2], ways_of(draft.dirs))[1]
        x, y, _ = net[1][0]
        net[0][:] = [(x, y, rng.randint(1, 2))]
    return draft.text(), enough(rng, draft)


def program_job(rng):
    """A small job as it is, in the print program."""
    return random_draft(rng).text(), PROGRAM_LENT


def short_lent(rng):
    """A small job with a lent length too short."""
    draft = random_draft(rng)
    return draft.text(), short(rng, draft)


def short_at_the_end(rng):
    """A small job with a short answer list or print buffer."""
    draft = draft_with(rng, lambda draft: draft.need().answer > 0)
    need = draft.need()
    return draft.text(), rng.choice([need._replace(answer=need.answer - 1), need._replace(print=need.print - 1),
                                     need._replace(answer=need.answer - 1, print=None), need])


def cut(rng):
    """Cut anywhere."""
    draft = random_draft(rng)
    text = draft.text()
    return text[:rng.randrange(len(text))], enough(rng, draft)


def changed_byte(rng):
    """A byte flipped, put in or taken out."""
    draft = random_draft(rng)
    text = bytearray(draft.text())
    at = rng.randrange(len(text))
    byte = rng.choice([rng.randrange(256), text[at] ^ (1 << rng.randrange(8)), rng.choice(b"0123456789=,;enhvlow\n\r ")])
    size, new = rng.choice([(1, [byte]), (1, [byte]), (0, [byte]), (1, [])])
    text[at:at + size] = new
    return bytes(text), program_or_plan(rng)


def changed_line(rng):
    """A line doubled, dropped, emptied, or swapped with another."""
    draft = random_draft(rng)
    lines = draft.lines()
    at, other = rng.randrange(len(lines)), rng.randrange(len(lines))
    how = rng.choice(["doubled", "dropped", "emptied", "swapped"])
    if how == "swapped":
        lines[at], lines[other] = lines[other], lines[at]
    else:
        lines[at:at + 1] = {"doubled": [lines[at]] * 2, "dropped": [], "emptied": [""]}[how]
    return text_of(lines), enough(rng, draft)


# Numbers at the ends of the ranges and beyond, and what is no number.
NUMBERS = ["0", "1", "2", "3", "8", "9", "63", "64", "65", "254", "255", "256", "4095", "4096", "4097", "9999", "65535", "65536",
           "99999", "100000", "999999", "00", "01", "007", "00000", "", " 1", "1 ", "+1", "-1", "1.0", "0x1", "a"]


def with_other_number(rng, text):
    """The text with one of its numbers changed."""
    start, end = rng.choice([place.span() for place in re.finditer("[0-9]+", text)])
    return text[:start] + rng.choice(NUMBERS) + text[end:]


def changed_number(rng):
    """A number anywhere changed."""
    draft = random_draft(rng)
    return with_other_number(rng, draft.text().decode()).encode(), program_or_plan(rng)


def range_end(rng):
    """A line with one number, at an end of its range or just beyond it."""
    draft = random_draft(rng)
    key, low, high = rng.choice(RANGES)
    number = rng.choice([low, high, high + 1, max(low - 1, 0), 99_999])
    lent = rng.choice([PROGRAM_LENT, Lent(200_000, 4_095, 65_536, None), enough(rng, draft)])
    return text_of(with_number(draft.lines(), key, number)), lent


def changed_capacities(rng):
    """A capacity at the end of its range or beyond it, one too many or too few, or one of wrong form."""
    draft = draft_with(rng, lambda draft: draft.east[0] or draft.north[0])
    capacities = rng.choice([numbers for numbers in draft.east + draft.north if numbers])
    at = rng.randrange(len(capacities))
    capacities[at:at + 1] = rng.choice([[MOST_CAPACITY], [MOST_CAPACITY], [MOST_CAPACITY + 1], [MOST_CAPACITY + 1], [99_999], [100_000], [],
                                        [0, 0], [""], ["01"], [MOST_CAPACITY + 1, 0]])
    return draft.text(), enough(rng, draft)


def changed_dirs(rng):
    """Another line in the place of `dirs`, one letter changed, or a `dirs` line anywhere."""
    draft = random_draft(rng)
    lines = draft.lines()
    letters = draft.dirs or random_dirs(rng, draft.layers) or ["h"] * draft.layers
    wrong = [*letters]
    wrong[rng.randrange(len(wrong))] = rng.choice(["", "H", "V", "e", "n", "x", "0", "hv", " h", "h;v"])
    line = rng.choice(["dirs=" + entry(rng.choice([letters, letters[1:], [*letters, "h"], wrong, wrong])),
                       "dirs=" + ";".join(letters), "dirs=" + "".join(letters), "dirs=" + entry(letters).upper(), "dirs" + entry(letters)])
    at = rng.choice([3, 3, 3, rng.randrange(len(lines) + 1)])
    lines[at:at + (draft.dirs is not None and rng.random() < 0.8)] = [line]
    return text_of(lines), rng.choice([enough(rng, draft), short(rng, draft)])


def changed_low(rng):
    """A `low` line at the end of its range or beyond it, of wrong form, twice, or in another place."""
    draft = draft_with(rng, lambda draft: draft.nets)
    at, layers = rng.randrange(len(draft.nets)), draft.layers
    good, wrong = [1, layers], ["", "x", "00", "01", f"0{layers}", "1,1", " 1", "1 ", "+1", "-1", 100_000, 4_294_967_297]
    draft.lows[at] = rng.choice([rng.choice(good), 0, 0, layers + 1, layers + 1, rng.choice([9, 256, 257, 65_537, 99_999]), rng.choice(wrong),
                                 rng.choice(wrong), f"{layers}\nlow={layers}"])
    lines = draft.lines()
    if rng.random() < 0.2:
        line = lines.pop(lines.index(f"net={at + 1}") + 1)
        lines.insert(rng.randrange(len(lines) + 1), line)
    return text_of(lines), rng.choice([enough(rng, draft), enough(rng, draft), short(rng, draft)])


def across(rng):
    """A track on a layer that runs the other way, now and then a number beyond the range or of wrong form behind it."""
    draft = draft_with(rng, lambda draft: any(draft.closed()))
    numbers = rng.choice([numbers for numbers in draft.closed() if numbers])
    numbers[rng.randrange(len(numbers))] = rng.choice([1, 1, 1, 2, 256, MOST_CAPACITY, MOST_CAPACITY + 1])
    numbers[-1] = rng.choice([numbers[-1]] * 6 + [MOST_CAPACITY + 1, "01"])
    return draft.text(), rng.choice([enough(rng, draft), short(rng, draft)])


def no_layer(rng):
    """All layers run one way, and some edges the other; the net may also not hang together, and lent lengths may be short."""
    draft = draft_with(rng, lambda draft: draft.need().answer > 0)
    edges = rng.choice([edges for _, edges in draft.nets if edges])
    way = rng.choice(edges)[2]
    draft.dirs = [{"e": "v", "n": "h"}[way]] * draft.layers
    draft.close()
    if rng.random() < 0.2:
        edges.remove(rng.choice(edges))
    return draft.text(), rng.choice([enough(rng, draft), short(rng, draft)])


def out_of_turn(rng):
    """A net with another number."""
    draft = draft_with(rng, lambda draft: draft.nets)
    number = rng.randint(1, len(draft.nets))
    other = rng.choice([0, number - 1, number + 1, len(draft.nets) + 1, 4_097, 99_999])
    return draft.text().replace(b"\nnet=%d\n" % number, b"\nnet=%d\n" % other), enough(rng, draft)


def add(rng, some_entries, new):
    """Puts new entries anywhere between those of a line."""
    for each in new:
        some_entries.insert(rng.randint(0, len(some_entries)), each)


def changed_pins(rng):
    """A pin twice, outside the grid or the layers, or of wrong form; or two of these."""
    draft = draft_with(rng, lambda draft: draft.nets)
    pins = rng.choice(draft.nets)[0]
    x, y, layer = rng.choice(pins)
    outside = rng.choice([(draft.width, y, layer), (x, draft.height, layer), (x, y, 0), (x, y, draft.layers + 1)])
    wrong = rng.choice([(x, y), (x, y, layer, 1), (x, y, "e"), ("",), (x, y, "01")])
    again = (x, y, layer)
    add(rng, pins, rng.choice([[again], [again], [again], [outside], [outside] * 2, [again, outside], [again, wrong], [wrong]]))
    return draft.text(), enough(rng, draft)


def changed_edges(rng):
    """An edge twice, leaving the grid, or of wrong form; or two of these."""
    draft = draft_with(rng, lambda draft: draft.need().answer > 0)
    edges = rng.choice([edges for _, edges in draft.nets if edges])
    again = rng.choice(edges)
    outside = rng.choice([(draft.width - 1, 0, "e"), (0, draft.height - 1, "n"), (draft.width, 0, "n"), (0, draft.height, "e"),
                          (99_999, 0, "e")])
    wrong = rng.choice([(0, 0), (*again, 1), (0, 0, "w"), (0, 0, "ee"), (0, 0, ""), ("",), (0, "00", "e"), (0, 0, "1")])
    add(rng, edges, rng.choice([[again], [again], [again], [outside], [outside] * 2, [again, outside], [again, wrong], [wrong]]))
    return draft.text(), enough(rng, draft)


def square(x, y):
    """The four edges round four tiles."""
    return [(x, y, "e"), (x, y, "n"), (x + 1, y, "n"), (x, y + 1, "e")]


def block(x, y):
    """The six edges round six tiles, three in a row."""
    return [edge for edge in square(x, y) + square(x + 1, y) if edge != (x + 1, y, "n")]


def ring(rng):
    """A net with the edges of a ring, now and then one of them twice or left out."""
    draft = draft_with(rng, lambda draft: draft.nets and draft.width > 1 and draft.height > 1 and draft.layers < 4)
    edges = rng.choice(draft.nets)[1]
    x, y = rng.randrange(draft.width - 1), rng.randrange(draft.height - 1)
    shape = block(x, y) if x + 2 < draft.width and rng.random() < 0.3 else square(x, y)
    del edges[rng.choice([0, 0, 1, 2]):]
    add(rng, edges, [edge for edge in shape if edge not in edges])
    how = rng.random()
    if how < 0.1:
        add(rng, edges, [rng.choice(shape)])
    elif how < 0.4:
        edges.remove(rng.choice(shape))
    return draft.text(), program_or_plan(rng)


def tiles_of(edges):
    """The tiles that edges join."""
    return sorted({end for x, y, way in edges for end in ((x, y), (x + 1, y) if way == "e" else (x, y + 1))})


def ringed(rng):
    """A net that hangs together and has a ring: round four tiles or six, with up to two edges more beside it, and one to three pins."""
    draft = draft_with(rng, lambda draft: draft.nets and draft.width > 1 and draft.height > 1 and draft.layers < 4)
    pins, edges = rng.choice(draft.nets)
    x, y = rng.randrange(draft.width - 1), rng.randrange(draft.height - 1)
    shape = block(x, y) if x + 2 < draft.width and draft.layers == 2 and rng.random() < 0.3 else square(x, y)
    for _ in range(rng.choice([0, 1, 1, 2])):
        tiles = tiles_of(shape)
        beside = [edge for edge in grid_edges(draft.width, draft.height) if edge not in shape and any(end in tiles for end in tiles_of([edge]))]
        shape += [rng.choice(beside)] if beside else []
    rng.shuffle(shape)
    edges[:] = shape
    chosen = rng.sample(tiles_of(shape), rng.choice([1, 2, 2, 3]))
    pins[:] = [(*tile, rng.randint(1, draft.layers)) for tile in chosen]
    return draft.text(), program_or_plan(rng)


def apart(rng):
    """A net with an edge more or less, or a pin more: it may no longer hang together."""
    draft = draft_with(rng, lambda draft: draft.nets and draft.width * draft.height > 1)
    pins, edges = rng.choice(draft.nets)
    how = rng.choice(["edge", "less", "less", "pin"])
    if how == "edge":
        add(rng, edges, [rng.choice(list(grid_edges(draft.width, draft.height)))])
    elif how == "less" and edges:
        edges.remove(rng.choice(edges))
    else:
        add(rng, pins, [(rng.randrange(draft.width), rng.randrange(draft.height), rng.randint(1, draft.layers))])
    return draft.text(), program_or_plan(rng)


def text_after(rng):
    """Text after the last line, a last line without its byte 10, other line ends."""
    draft = random_draft(rng)
    text = draft.text()
    changed = rng.choice([
        text + b"\n", text + b"x", text + b"net=%d\n" % (len(draft.nets) + 1), text + text, text[:-1], text[:-1] + b" \n",
        text[:-1] + b"\r\n", text.replace(b"\n", b"\r\n"), text + b"\x00", b"\n" + text])
    need = draft.need()
    return changed, rng.choice([need, need._replace(answer=0, print=0), enough(rng, draft)])


def two_faults(rng):
    """Two things wrong at once, and perhaps short lent lengths: what comes first decides."""
    text, lent = rng.choice([changed_pins, changed_edges, apart, ring, out_of_turn, changed_capacities, changed_low, across, no_layer])(rng)
    lent = rng.choice([lent, lent, Lent(0, 0, 0, 0), Lent(100_000, 0, 0, 0), Lent(100_000, 9, 0, 0)])
    return with_other_number(rng, text.decode()).encode(), lent


# The ways, taken in turn. Plain jobs are many, since their order lists, plans and prints are compared.
WAYS = [plain, cut, crowd, short_lent, changed_byte, program_job, changed_line, ring, tree, changed_number, apart, ringed, crowd,
        changed_dirs, range_end, changed_low, out_of_turn, program_job, changed_pins, short_at_the_end, across, plain, changed_edges, apart,
        tree, text_after, changed_capacities, no_layer, plain, two_faults, ring, crowd, ringed]


def random_cases(seed, count):
    """So many random texts."""
    rng = random.Random(seed)
    for index in range(count):
        way = WAYS[index % len(WAYS)]
        yield Case(way.__name__, *way(rng))


def all_cases(seed, count):
    """The fixed texts, and so many random ones."""
    return [*bench_cases(), *long_cases(), *cut_cases(), *line_cases(), *end_cases(), *border_cases(), *dirs_cases(), *low_cases(),
            *random_cases(seed, count)]
