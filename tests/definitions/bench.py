"""Texts whose outcome document 01 itself gives, in its bench jobs or by its words on what comes first; and, where a request of
document 02 has landed, those that follow from its words.

They hold tests/second to these documents and are then checked like all other texts. `said` is what they say of the outcome: a
refusal as (number, line), or the fields of an accepted outcome that they name.
"""

from collections import namedtuple
from itertools import zip_longest

from second import PROGRAM_LENT, Lent

Bench = namedtuple("Bench", "name text lent said")

ROOMY = Lent(100_000, 4_096, 1_000, 1_000)


def header_lines(width, height, layers, alpha, beta, gamma, capacities, dirs=None):
    """The lines before `nets`; `capacities` has the `east` and the `north` list of each layer, `dirs` the letters, if that line is
    there."""
    lines = [f"width={width}", f"height={height}", f"layers={layers}"]
    lines += [] if dirs is None else [f"dirs={dirs}"]
    lines += [f"alpha={alpha}", f"beta={beta}", f"gamma={gamma}"]
    return lines + [f"{key}={numbers}" for layer in capacities for key, numbers in zip(("east", "north"), layer)]


def net_lines(*pins_and_edges, lows=()):
    """The lines from `nets` on; `lows` has the number of each net's `low` line, None where it has no such line."""
    lines = [f"nets={len(pins_and_edges)}"]
    for number, ((pins, edges), low) in enumerate(zip_longest(pins_and_edges, lows), 1):
        lines += [f"net={number}"] + ([] if low is None else [f"low={low}"]) + [f"pins={pins}", f"edges={edges}"]
    return lines


def text_of(lines):
    return "".join(line + "\n" for line in lines).encode()


def pair(one, two, *pins):
    """C5 to C7: "W = 2, H = 1, K = 2, and each net has a pin in both tiles", with one edge between."""
    return text_of(header_lines(2, 1, 2, 1, 1, 0, [(one, ""), (two, "")]) + net_lines(*[(each, "0,0,e") for each in pins]))


def square(edges, pins="0,0,1;1,0,1;0,1,1;1,1,1"):
    """Four tiles with one net, a pin in each; its lines are the 12th to the 14th."""
    return text_of(header_lines(2, 2, 2, 1, 1, 0, [("1,1", "1,1")] * 2) + net_lines((pins, edges)))


def line_of_tiles(width, capacity="1"):
    """A row of tiles with no net."""
    east = ",".join([capacity] * (width - 1))
    return text_of(header_lines(width, 1, 2, 1, 1, 0, [(east, "")] * 2) + net_lines())


def one_tile(layers):
    return text_of(header_lines(1, 1, layers, 1, 1, 0, [("", "")] * layers) + net_lines())


C1 = text_of(header_lines(3, 1, 2, 1, 1, 0, [("1,1", "")] * 2)
             + net_lines(("0,0,1;2,0,1", "0,0,e;1,0,e"), ("0,0,1;1,0,1", "0,0,e")))
C1_PRINT = """order=2,1
net=1
vias=2
layers=2,1
net=2
vias=0
layers=1
total_vias=2
total_overflow=0
max_overflow=0
"""
C3_PRINT = "order=\ntotal_vias=0\ntotal_overflow=0\nmax_overflow=0\n"

# "Bench jobs"
JOBS = [
    ("C1", C1, {"order": [(2, 1, 3000), (1, 1, 2500)], "text": C1_PRINT}),
    ("C2", b"", (2, 1)),
    ("C3", one_tile(2), {"text": C3_PRINT}),
    ("C4", text_of(header_lines(1, 1, 4, 1, 1, 0, [("", "")] * 4) + net_lines(("0,0,1;0,0,4", ""))), {"vias": 3, "plan": [[]], "order": [(1, 1, 2000)]}),
    ("C5", pair("1", "0", "0,0,2;1,0,2"), {"plan": [[1]], "vias": 2}),
    ("C6", pair("1", "0", *["0,0,2;1,0,2"] * 2), {"plan": [[2], [1]], "vias": 2, "total": 1, "maximum": 1}),
    ("C7", pair("0", "0", *["0,0,1;1,0,1"] * 3), {"plan": [[1], [1], [2]], "total": 3, "maximum": 2}),
    ("C8, first term", text_of(header_lines(4, 1, 2, 1, 0, 0, [("1,1,1", "")] * 2) + net_lines(("0,0,1", "0,0,e;1,0,e;2,0,e"))),
     {"order": [(1, 1, 333)]}),
    ("C8, third term", text_of(header_lines(2, 1, 2, 0, 0, 1, [("1", ""), ("2", "")]) + net_lines(*[("0,0,1", "0,0,e")] * 2)),
     {"order": [(1, 1, 666), (2, 1, 666)]}),
    ("C9", text_of(header_lines(2, 1, 2, 0, 0, 1, [("0", "")] * 2) + net_lines(*[("0,0,1", "0,0,e")] * 3)),
     {"order": [(1, 1, 3000), (2, 1, 3000), (3, 1, 3000)]}),
    ("C10, ring", square("0,0,e;0,0,n;1,0,n;0,1,e"), {"plan": [[1, 1, 1, 0]], "vias": 0}),
    ("C10, without south", square("0,0,n;1,0,n;0,1,e"), {}),
    ("C10, without west", square("0,0,e;1,0,n;0,1,e"), {}),
    ("C10, without east", square("0,0,e;0,0,n;0,1,e"), {}),
    ("C10, without north", square("0,0,e;0,0,n;1,0,n"), {}),
    ("width 64", line_of_tiles(64), {}),
    ("width 65", line_of_tiles(65), (3, 1)),
    ("layers 2", one_tile(2), {}),
    ("layers 8", one_tile(8), {}),
    ("layers 1", one_tile(1), (3, 3)),
    ("layers 9", one_tile(9), (3, 3)),
    ("capacity 65535", line_of_tiles(2, "65535"), {}),
    ("capacity 65536", line_of_tiles(2, "65536"), (3, 7)),
    ("pin off the edges", square("0,0,e"), (8, 14)),
]


def replaced(old, new):
    """C1 with a line changed."""
    assert C1.count(old) == 1
    return C1.replace(old, new)


# "On one line the lower number wins." The reading place moves forward, so an earlier line wins over a later one. "9 is found
# right after line 3, 10 after the `nets` line, 11 after the whole text."
FIRST_FAULTS = [
    ("a line without its byte 10 is no line: 2 before 3", b"width=65", ROOMY, (2, 1)),
    ("width 2 before its range", b"width=000065\n", ROOMY, (2, 1)),
    ("six digits are no number", replaced(b"alpha=1", b"alpha=100000"), ROOMY, (2, 4)),
    ("five digits are one", replaced(b"alpha=1", b"alpha=99999"), ROOMY, (3, 4)),
    ("3 before 9", one_tile(9), Lent(0, 0, 0, 0), (3, 3)),
    ("9 before line 4", replaced(b"alpha=1", b"alpha="), Lent(0, 0, 0, 0), (9, 3)),
    ("line 2 before 9", replaced(b"height=1", b"height=0"), Lent(0, 0, 0, 0), (3, 2)),
    ("list length before range", replaced(b"east=1,1\nnorth=\nnets", b"east=65536\nnorth=\nnets"), ROOMY, (2, 9)),
    ("form before range", replaced(b"east=1,1\nnorth=\nnets", b"east=65536,01\nnorth=\nnets"), ROOMY, (2, 9)),
    ("nets: range before 10", replaced(b"nets=2", b"nets=4097"), Lent(100_000, 0, 0, 0), (3, 11)),
    ("nets: 10 before line 12", replaced(b"nets=2\nnet=1", b"nets=2\nnet=3"), Lent(100_000, 1, 0, 0), (10, 11)),
    ("nets 4096, and their lines are missing", C1[:C1.index(b"nets")] + b"nets=4096\n", ROOMY, (2, 12)),
    ("net 0: 4 and not 3", replaced(b"net=1", b"net=0"), ROOMY, (4, 12)),
    ("net 99999: 4 and not 3", replaced(b"net=2", b"net=99999"), ROOMY, (4, 15)),
    ("net 02: 2", replaced(b"net=2", b"net=02"), ROOMY, (2, 15)),
    ("pins: form before range", square("", "2,0,1;0,0"), ROOMY, (2, 13)),
    ("pins: range before twice", square("", "0,0,3;0,0,3"), ROOMY, (3, 13)),
    ("pins: none", square("", ""), ROOMY, (2, 13)),
    ("pins: layer 0", square("", "0,0,0"), ROOMY, (3, 13)),
    ("pins: twice, not side by side", square("", "0,0,1;0,0,2;0,0,1"), ROOMY, (5, 13)),
    ("pins before edges", square("0,0,x", "0,0,1;0,0,1"), ROOMY, (5, 13)),
    ("edges: form before leaving the grid", square("1,0,e;0,0,w"), ROOMY, (2, 14)),
    ("edges: leaving the grid before twice", square("1,0,e;1,0,e"), ROOMY, (3, 14)),
    ("edges: leaving the grid to the north", square("0,1,n"), ROOMY, (3, 14)),
    ("edges: twice before a ring", square("0,0,e;0,0,n;1,0,n;0,1,e;0,0,e"), ROOMY, (6, 14)),
    ("edges: a ring apart from the pins", text_of(
        header_lines(3, 2, 2, 1, 1, 0, [("1,1,1,1", "1,1,1")] * 2)
        + net_lines(("0,0,1", "1,0,e;1,0,n;2,0,n;1,1,e"))), ROOMY, (8, 14)),
    ("edges: an edge apart from the first pin", square("0,1,e", "0,0,1"), ROOMY, (8, 14)),
    ("pins in two tiles and no edge", square("", "0,0,1;1,0,1"), ROOMY, (8, 14)),
    ("8 before 11", square("", "0,0,1;1,0,1"), Lent(100_000, 4, 0, 0), (8, 14)),
    ("text after the last line before 11", C1 + b"\n", Lent(100_000, 4, 0, 0), (2, 18)),
    ("answer list too short", C1, Lent(100_000, 2, 2, None), (11, 17)),
    ("print buffer too short", C1, Lent(100_000, 2, 3, 389), (11, 17)),
    ("just enough", C1, Lent(2 * 2 * 2 + 2 * 2 + 32 * 3, 2, 3, 390), {"vias": 2}),
    ("one working number short", C1, Lent(107, 2, 3, 390), (9, 3)),
]


# ---- S-2 of document 02

def directed(text, dirs):
    """The text with a `dirs` line."""
    assert text.count(b"\nalpha=") == 1
    return text.replace(b"\nalpha=", b"\ndirs=" + dirs + b"\nalpha=")


def both_ways(dirs, east, north):
    """Four tiles without tracks; so many nets along an edge to the east and along one to the north, each with a pin on layer 1."""
    layers = dirs.count(b",") + 1
    nets = [("0,0,1;1,0,1", "0,0,e")] * east + [("0,0,1;0,1,1", "0,0,n")] * north
    return directed(text_of(header_lines(2, 2, layers, 0, 0, 0, [("0,0", "0,0")] * layers) + net_lines(*nets)), dirs)


def column(dirs, nets):
    """Two tiles, one above the other, without tracks; each net has a pin on layer 1 and the edge between."""
    return directed(text_of(header_lines(1, 2, 2, 1, 1, 0, [("", "0")] * 2) + net_lines(*[("0,0,1", "0,0,n")] * nets)), dirs)


NO_TRACKS = directed(pair("0", "0", "0,0,2;1,0,2"), b"h,v")
ONE_WAY = directed(text_of(header_lines(2, 2, 2, 1, 1, 0, [("1,1", "0,0")] * 2) + net_lines(("0,0,1", "0,0,n"))), b"h,h")
SHORT = Lent(2 * 2 * 2 + 2 * 2 + 32 * 3 - 1, 2, 3, 390)

DIRECTIONS = [
    ("along the layer of its direction", NO_TRACKS, ROOMY, {"plan": [[1]], "vias": 2, "total": 1, "maximum": 1}),
    ("two nets there", directed(pair("0", "0", *["0,0,2;1,0,2"] * 2), b"h,v"), ROOMY, {"plan": [[1], [1]], "total": 2, "maximum": 2}),
    ("no track closes no layer", directed(pair("1", "0", *["0,0,2;1,0,2"] * 2), b"h,h"), ROOMY, {"plan": [[2], [1]], "maximum": 1}),
    ("two layers and one", both_ways(b"h,h,v", 2, 2), ROOMY, {"plan": [[1], [2], [3], [3]], "total": 4, "maximum": 2}),
    ("the north does not lift the limit of the east", both_ways(b"h,h,v,v", 2, 8), ROOMY,
     {"plan": [[1], [2]] + [[3]] * 4 + [[4]] * 4, "maximum": 4}),
    ("all layers to the north, one column", column(b"v,v", 3), ROOMY, {"plan": [[1], [1], [2]], "total": 3, "maximum": 2}),
    ("all layers to the east, one column", column(b"h,h", 3), ROOMY, (13, 15)),
    ("an edge without a layer", ONE_WAY, ROOMY, (13, 15)),
    ("8 before 13", ONE_WAY.replace(b"pins=0,0,1", b"pins=1,0,1"), ROOMY, (8, 15)),
    ("13 before 11", ONE_WAY, Lent(100_000, 4, 0, 0), (13, 15)),
    ("a track on a layer that runs the other way", directed(C1, b"h,v"), ROOMY, (12, 10)),
    ("3 before 12", directed(replaced(b"east=1,1\nnorth=\nnets", b"east=1,65536\nnorth=\nnets"), b"h,v"), ROOMY, (3, 10)),
    ("2 before 12", directed(replaced(b"east=1,1\nnorth=\nnets", b"east=1\nnorth=\nnets"), b"h,v"), ROOMY, (2, 10)),
    ("12 before a later line", directed(C1, b"v,h").replace(b"nets=2", b"nets=x"), ROOMY, (12, 8)),
    ("C1 with directions", directed(C1, b"h,h"), PROGRAM_LENT, {"order": [(2, 1, 3000), (1, 1, 2500)], "text": C1_PRINT}),
    ("9 after line 4", directed(C1, b"h,h"), SHORT, (9, 4)),
    ("9 after line 3 where line 4 has another key", directed(C1, b"h,h").replace(b"dirs=", b"dirs"), SHORT, (9, 3)),
    ("wrong letters before 9", directed(C1, b"h,e"), SHORT, (2, 4)),
    ("a letter less before 9", directed(C1, b"h"), SHORT, (2, 4)),
    ("a line without its end before 9", directed(C1, b"h,h").split(b"\nalpha")[0], SHORT, (2, 4)),
    ("twice", directed(directed(C1, b"h,h"), b"h,h"), ROOMY, (2, 5)),
    ("behind `alpha`", replaced(b"beta=1", b"dirs=h,h\nbeta=1"), ROOMY, (2, 5)),
]


# ---- S-3 of document 02

def with_tracks(nets, *tracks):
    """Two tiles in a row with so many tracks on each layer; each net has a pin on layer 1 and the edge between. gamma is 255."""
    return text_of(header_lines(2, 1, len(tracks), 0, 0, 255, [(each, "") for each in tracks]) + net_lines(*[("0,0,1", "0,0,e")] * nets))


def scores(score):
    """The order list of three nets that score alike."""
    return [(1, 1, score), (2, 1, score), (3, 1, score)]


# Where a capacity, c(e) or C kept only some of its digits, there would be fewer tracks than nets, or another score.
TRACKS = [
    ("capacity 256 and none", with_tracks(3, "0", "256"), {"order": scores(2988), "plan": [[2]] * 3, "total": 0}),
    ("capacity 32768 and none", with_tracks(3, "0", "32768"), {"order": scores(23), "plan": [[2]] * 3, "total": 0}),
    ("capacity 65535 and none", with_tracks(3, "0", "65535"), {"order": scores(11), "plan": [[2]] * 3, "total": 0}),
    ("c(e) is 65536", with_tracks(3, "1", "65535"), {"order": scores(11), "plan": [[1], [2], [2]], "total": 0}),
    ("c(e) is 524280", with_tracks(3, *["65535"] * 8), {"order": scores(1), "plan": [[1]] * 3, "total": 0}),
    ("capacity 65537", with_tracks(1, "0", "65537"), (3, 9)),
    ("capacity 99999", with_tracks(1, "99999", "0"), (3, 7)),
    ("capacity 100000", with_tracks(1, "0", "100000"), (2, 9)),
    ("65535 on a layer that runs the other way", directed(with_tracks(1, "0", "65535"), b"h,v"), (12, 10)),
    ("65536 there", directed(with_tracks(1, "0", "65536"), b"h,v"), (3, 10)),
]


# ---- S-5 of document 02

def marked(text, *lows):
    """The text with a `low` line for each net in turn, where its number is not None."""
    for number, low in enumerate(lows, 1):
        line = b"\nnet=%d\n" % number
        assert text.count(line) == 1
        text = text if low is None else text.replace(line, line + b"low=%d\n" % low)
    return text


def wanting(dirs, tracks, *lows):
    """Two tiles in a row with so many tracks on each layer; each net has a pin on layer 1 and the edge between, and its `low` line."""
    capacities = [(each, "") for each in tracks]
    nets = net_lines(*[("0,0,1", "0,0,e")] * len(lows), lows=lows)
    return text_of(header_lines(2, 1, len(tracks), 1, 1, 0, capacities, dirs) + nets)


def figure(twos, threes):
    """Source document 001, figures 3 to 5: three layers with 10 tracks each, and so many nets with `low` 2 and 3 on one edge."""
    return wanting(None, ["10"] * 3, *[2] * twos, *[3] * threes)


def c1_shown(one, two, ldof):
    """What C1 gives with `low` lines of these layers: "The placing is untouched"."""
    return {"order": [(2, two, 3000), (1, one, 2500)], "plan": [[2, 1], [1]], "text": C1_PRINT + f"ldof={ldof}\n", "ldof": ldof}


NOT_WANTED = "order=1\nnet=1\nvias=0\nlayers=1\ntotal_vias=0\ntotal_overflow=0\nmax_overflow=0\nldof=1\n"
FIVE = (3, 3, 2, 1, None)
BOTH = marked(C1, 1, 2)

DIRECTIVES = [
    ("`low` for one net", marked(C1, 2), PROGRAM_LENT, c1_shown(2, 1, 0)),
    ("`low` for the other net", marked(C1, None, 2), PROGRAM_LENT, c1_shown(1, 2, 0)),
    ("`low` 1", marked(C1, 1, 1), PROGRAM_LENT, c1_shown(1, 1, 0)),
    ("`low` 1 for one net", marked(C1, 1), PROGRAM_LENT, c1_shown(1, 1, 0)),
    ("`low` K for both", marked(C1, 2, 2), PROGRAM_LENT, c1_shown(2, 2, 1)),
    ("`low` K for both, directions", directed(marked(C1, 2, 2), b"h,h"), PROGRAM_LENT, c1_shown(2, 2, 1)),
    ("no `low` line, no `ldof`", C1, PROGRAM_LENT, {"ldof": None}),
    ("no nets, no `ldof`", line_of_tiles(2), PROGRAM_LENT, {"text": C3_PRINT, "ldof": None}),
    ("no track on a wanted layer", marked(pair("2", "0", "0,0,1;1,0,1"), 2), PROGRAM_LENT,
     {"order": [(1, 2, 3000)], "plan": [[1]], "text": NOT_WANTED}),
    ("figure 3", figure(11, 8), ROOMY._replace(print=2_000), {"ldof": 0}),
    ("figure 4", figure(11, 12), ROOMY._replace(print=2_000), {"ldof": 3}),
    ("figure 5", figure(14, 8), ROOMY._replace(print=2_000), {"ldof": 2}),
    ("no tracks on the highest layer", wanting(None, ["9", "9", "0"], 3, 3, 3, 3), ROOMY, {"ldof": 4}),
    ("the same, one layer lower", wanting(None, ["9", "9", "0"], 2, 2, 2, 2), ROOMY, {"ldof": 0}),
    ("three tracks on the highest layer", wanting(None, ["9", "9", "3"], 3, 3, 3, 3), ROOMY, {"ldof": 1}),
    ("what is short above takes nothing below", wanting(None, ["0", "1", "1", "1"], 2, 3, 4, 4, 4), ROOMY, {"ldof": 2}),
    ("`low` 1 does not count", wanting(None, ["0", "1"], 1, 1, 2), ROOMY, {"ldof": 0}),
    ("and takes no track", wanting(None, ["0", "1"], 1, 1, 2, 2, 2), ROOMY, {"ldof": 2}),
    ("five nets", wanting(None, ["2", "1", "1"], *FIVE), ROOMY, {"ldof": 1}),
    ("t runs over all layers", wanting("h,v,h", ["2", "0", "1"], *FIVE), ROOMY, {"ldof": 2}),
    ("t runs over all layers, K to the north", wanting("h,h,v", ["2", "1", "0"], *FIVE), ROOMY, {"ldof": 2}),
    ("65535 tracks on a wanted layer", wanting(None, ["0", "65535"], 2, 2, 2), ROOMY, {"ldof": 0}),
    ("`low` 0", marked(C1, 0), ROOMY, (3, 13)),
    ("`low` above K", marked(C1, 3), ROOMY, (3, 13)),
    ("`low` above K, the last net", marked(C1, 2, 3), ROOMY, (3, 17)),
    ("`low` 99999", marked(C1, 99_999), ROOMY, (3, 13)),
    ("`low` of six digits", marked(C1, 100_000), ROOMY, (2, 13)),
    ("`low` with a leading zero", marked(C1, 2).replace(b"low=2", b"low=02"), ROOMY, (2, 13)),
    ("`low` without a number", marked(C1, 2).replace(b"low=2", b"low="), ROOMY, (2, 13)),
    ("`low` without `=`", marked(C1, 2).replace(b"low=2", b"low"), ROOMY, (2, 13)),
    ("`low` without its byte 10", marked(C1, 2).split(b"\npins")[0], ROOMY, (2, 13)),
    ("`low` twice", marked(marked(C1, 2), 1), ROOMY, (2, 14)),
    ("`low` behind `pins`", replaced(b"edges=0,0,e;1,0,e", b"low=2\nedges=0,0,e;1,0,e"), ROOMY, (2, 14)),
    ("`low` before `net`", replaced(b"net=2", b"low=2\nnet=2"), ROOMY, (2, 15)),
    ("4 before `low`", marked(C1, 0).replace(b"net=1", b"net=3"), ROOMY, (4, 12)),
    ("`low` before `pins`", marked(C1, 3).replace(b"pins=0,0,1;2", b"pins=;2"), ROOMY, (3, 13)),
    ("a line later on `pins`", marked(C1, 2).replace(b"pins=0,0,1;2,0,1", b"pins=0,0,1;0,0,1"), ROOMY, (5, 14)),
    ("a line later on `edges`", marked(C1, 2).replace(b"edges=0,0,e;1,0,e", b"edges=0,0,e;0,0,e"), ROOMY, (6, 15)),
    ("a line later on `net`", marked(C1, 2).replace(b"net=2", b"net=3"), ROOMY, (4, 16)),
    ("two lines later behind the end", BOTH + b"x", ROOMY, (2, 20)),
    ("two lines later, answer list too short", BOTH, Lent(100_000, 2, 2, None), (11, 19)),
    ("two lines later, print buffer too short", BOTH, Lent(100_000, 2, 3, 389), (11, 19)),
    ("`low` lines need no more", BOTH, Lent(108, 2, 3, 390), c1_shown(1, 2, 0)),
    ("10 before `low`", marked(C1, 0), Lent(100_000, 1, 0, 0), (10, 11)),
]


# ---- S-6 of document 02

def six_tiles(*nets, lows=()):
    """Six tiles, three in a row, with one track on each layer of each edge."""
    return text_of(header_lines(3, 2, 2, 1, 1, 1, [("1,1,1,1", "1,1,1")] * 2) + net_lines(*nets, lows=lows))


SQUARE = "0,0,e;1,0,n;0,1,e;0,0,n"
TAIL = "1,0,e;2,0,n"
CORNERS = "0,0,1;1,0,1;0,1,1;1,1,1"
ALL = "0,0,1;1,0,1;2,0,1;0,1,1;1,1,1;2,1,1"
TWO = "0,0,e;0,0,n;0,1,e;1,0,n;1,0,e;2,0,n;1,1,e"
ONE_PIN = "order=1\nnet=1\nvias=1\nlayers=0,0,0,0\ntotal_vias=1\ntotal_overflow=0\nmax_overflow=0\n"
ACROSS = directed(text_of(header_lines(2, 2, 2, 1, 1, 0, [("1,1", "0,0")] * 2) + net_lines(("0,0,1;1,0,1", SQUARE))), b"h,h")

RINGS = [
    ("the edge that closes the ring", six_tiles((CORNERS, SQUARE)), ROOMY, {"plan": [[1, 1, 1, 0]]}),
    ("the other way round", six_tiles((CORNERS, "0,0,n;0,1,e;1,0,n;0,0,e")), ROOMY, {"plan": [[1, 1, 1, 0]]}),
    ("an entry before the ring", six_tiles((CORNERS + ";2,0,1", "1,0,e;" + SQUARE)), ROOMY, {"plan": [[1, 1, 1, 1, 0]]}),
    ("an entry behind the ring", six_tiles((CORNERS + ";2,0,1", SQUARE + ";1,0,e")), ROOMY, {"plan": [[1, 1, 1, 0, 1]]}),
    ("what then hangs loose", six_tiles(("0,0,1;1,1,1", SQUARE)), ROOMY, {"plan": [[1, 1, 0, 0]]}),
    ("the lowest tile goes", six_tiles(("1,0,1;1,1,1", SQUARE)), ROOMY, {"plan": [[0, 1, 0, 0]], "walks": [[5]]}),
    ("a ring with one pin", six_tiles(("1,1,1;1,1,2", SQUARE)), PROGRAM_LENT, {"order": [(1, 1, 2000)], "text": ONE_PIN, "walks": [[]]}),
    ("two rings that share an edge", six_tiles((ALL, TWO)), ROOMY, {"plan": [[1, 1, 1, 0, 1, 1, 0]]}),
    ("two rings and two pins", six_tiles(("0,1,1;2,0,1", TWO)), ROOMY, {"plan": [[1, 1, 0, 0, 1, 0, 0]]}),
    ("a tail without a pin", six_tiles(("0,0,1;1,1,1", SQUARE + ";" + TAIL)), ROOMY, {"plan": [[1, 1, 0, 0, 0, 0]]}),
    ("a pin in the middle of the tail", six_tiles(("0,0,1;1,1,1;2,0,1", SQUARE + ";" + TAIL)), ROOMY, {"plan": [[1, 1, 0, 0, 1, 0]]}),
    ("the same tail without a ring", six_tiles(("0,0,1", "0,0,e;" + TAIL)), ROOMY, {"plan": [[1, 1, 1]]}),
    ("score and demand after the cut", six_tiles(("0,0,1;1,0,1", SQUARE), ("0,0,1;0,1,1", "0,0,n")), ROOMY,
     {"order": [(1, 1, 3500), (2, 1, 3500)], "plan": [[1, 0, 0, 0], [1]], "total": 0}),
    ("directives after the cut", six_tiles(*[("0,0,1;1,0,1", SQUARE)] * 2, lows=[2, 2]), ROOMY,
     {"ldof": 1, "plan": [[1, 0, 0, 0], [2, 0, 0, 0]]}),
    ("6 where the second closes a ring", six_tiles((CORNERS, SQUARE + ";0,0,n")), ROOMY, (6, 14)),
    ("8 beside a ring", six_tiles(("0,0,1;2,0,1", SQUARE)), ROOMY, (8, 14)),
    ("8: an edge apart from a ring", six_tiles(("0,0,1", SQUARE + ";2,0,n")), ROOMY, (8, 14)),
    ("13 before cutting", ACROSS, ROOMY, (13, 15)),
    ("A counts dropped edges", six_tiles(("1,1,1", SQUARE)), Lent(234, 1, 3, None), (11, 14)),
    ("just enough for a ring", six_tiles(("1,1,1", SQUARE)), Lent(234, 1, 4, 328), {"plan": [[0, 0, 0, 0]]}),
    ("print buffer too short for a ring", six_tiles(("1,1,1", SQUARE)), Lent(234, 1, 4, 327), (11, 14)),
]

BENCH = ([Bench(name, text, PROGRAM_LENT, said) for name, text, said in JOBS + TRACKS]
         + [Bench(name, text, lent, said) for name, text, lent, said in FIRST_FAULTS + DIRECTIONS + DIRECTIVES + RINGS])


def as_said(bench, result):
    """Whether an outcome is what the documents say."""
    if isinstance(bench.said, tuple):
        return tuple(result) == bench.said
    return hasattr(result, "plan") and all(getattr(result, field) == value for field, value in bench.said.items())
