"""The scratch crate: rows for the checker, each a lemma that says by `refl` what the definitions give for one text.

NAMES and SHAPES are the one place that knows the names of the model's definitions.
"""

import re
import shutil
from collections import namedtuple

from second import Refusal

# The definitions that the rows name, by module of crates/model/specs.
NAMES = {
    "Text": ["bytes"],
    "Job": ["Job"],
    "Read": ["Lent", "Result", "refused", "found", "read"],
    "Score": ["Entry"],
    "Walk": ["walk"],
    "Calls": ["Told", "Outcome", "refusal", "accepted", "outcome"],
    "Program": ["program"],
}

# How the rows write values and calls of the model.
SHAPES = {
    "bytes": 'bytes "{}"',
    "lent": "record {{ working = {}; order = {}; answer = {}; print = {} }}",
    "entry": "record {{ net = {}; low = {}; score = {} }}",
    "refusal": "refusal {} {}",
    "accepted": "accepted (record {{ order = {}; layers = {}; vias = {}; total = {}; maximum = {}; text = {} }})",
    "outcome": "outcome ({lent}) ({text})",
    "program": "program ({text})",
    "walks": "walks (read ({lent}) ({text}))",
}

# What the scratch crate defines itself: the kept edges of each net of an accepted job in walk order. (No outcome shows the walk: the
# cheapest legal layerings are closed under taking the lower layer at each edge, so that every order of the edges has the same
# first one.)
OWN = """-- the kept edges of each net in walk order, by edge number
abbrev walks : Result Job → List (List ℕ)
walks (refused n l) = []
walks (found j p) = map (walk j) j.nets
"""

LIBRARY = """use Rattle.std.specs.Prelude.{◌≡◌, refl, List, [], ◌∷◌, ◌++◌, map, ℕ, length}
use Rattle.std.proofs.Math.Option.{none, some}
"""

# Rows of one file: a file is checked as a whole, and a failing row is named alone.
ROWS_PER_FILE = 100

# A row: the name of its lemma, the case that it is about, the call in SHAPES, and what tests/second gives for it, as a value of
# Python and as a term. `value` is a Refusal, an Accepted, the program's text, or the walks.
Row = namedtuple("Row", "name case call value term")


# ---- terms

def list_term(items):
    return "(" + "".join(f"{item} ∷ " for item in items) + "[])"


def text_term(text):
    """The term of some bytes: quoted where they are plain, and otherwise as numbers."""
    parts = []
    for part in re.findall(rb"[0-9A-Za-z=,;_ \n]+|[^0-9A-Za-z=,;_ \n]+", text):
        if re.match(rb"[0-9A-Za-z=,;_ \n]", part):
            parts.append(SHAPES["bytes"].format(part.decode().replace("\n", "\\n")))
        else:
            parts.append(list_term(part))
    return " ++ ".join(parts) or "[]"


def lent_term(lent):
    text = "none" if lent.print is None else f"some {lent.print}"
    return SHAPES["lent"].format(lent.working, lent.order, lent.answer, text)


def outcome_term(result):
    if isinstance(result, Refusal):
        return SHAPES["refusal"].format(result.number, result.line)
    order = list_term([SHAPES["entry"].format(*entry) for entry in result.order])
    plan = list_term([list_term(layers) for layers in result.plan])
    return SHAPES["accepted"].format(order, plan, result.vias, result.total, result.maximum, text_term(result.text.encode()))


def walks_term(walks):
    return list_term([list_term(walk) for walk in walks])


# ---- rows

def outcome_row(number, case, result):
    return Row(f"outcome-{number}", case, "outcome", result, outcome_term(result))


def program_row(number, case, text):
    return Row(f"program-{number}", case, "program", text, text_term(text.encode()))


def walks_row(number, case, walks):
    """The model and tests/second have the same numbers of the edges: the place in the `east` list followed by the `north` list."""
    return Row(f"walks-{number}", case, "walks", walks, walks_term(walks))


def lemma(row, unfolding):
    """The lemma of a row. Where the case has only the start of its text, the lemma is about every text of its length."""
    text, given, proof = text_term(row.case.text), "", f"{row.name} = refl"
    if row.case.length is not None:
        text = f"({text}) ++ rest"
        given = f"(rest : List ℕ) → length ({text}) ≡ {row.case.length} → "
        proof = f"{row.name} rest h = rw h refl"
    call = SHAPES[row.call].format(lent=lent_term(row.case.lent), text=text)
    return f"pub {row.name} : {given}{call}\n    ≡ {row.term}\nunfolding {unfolding}\n{proof}\n"


# ---- the scratch crate

def uses(specs):
    """The lines that bring in the definitions, and the names to unfold: all that the model marks `unfoldable`."""
    lines = [f"use Rattle.model.specs.{module}.{{{', '.join(names)}}}\n" for module, names in NAMES.items()]
    unfolding = []
    for path in sorted(specs.glob("*.antt")):
        names = re.findall(r"^\s*unfoldable pub (\S+)", path.read_text(), re.MULTILINE)
        if names:
            renamed = [f"{name} as {path.stem}-{name}" for name in names]
            lines.append(f"use Rattle.model.specs.{path.stem}.{{{', '.join(renamed)}}}\n")
            unfolding += [f"{path.stem}-{name}" for name in names]
    return "".join(lines), " ".join(unfolding)


def write_crate(model, folder, rows):
    """Writes a repository with a copy of the model and a crate `rows` that states the rows; returns the folder of that crate."""
    crate = folder / "crates" / "rows"
    shutil.copytree(model, folder / "crates" / "model", ignore=shutil.ignore_patterns("must-fail", "out"))
    (folder / "crates.txt").write_text("model:\nrows: model\n")
    specs, source = crate / "specs", crate / "src"
    specs.mkdir(parents=True)
    source.mkdir()
    (source / "lib.rt").write_text("// The rows stand in specs/.\n#![tactic(auto)]\n")
    lines, unfolding = uses(model / "specs")
    modules = []
    for start in range(0, len(rows), ROWS_PER_FILE):
        modules.append(f"Rows{start // ROWS_PER_FILE + 1}")
        lemmas = [lemma(row, unfolding) for row in rows[start:start + ROWS_PER_FILE]]
        (specs / f"{modules[-1]}.antt").write_text("\n".join([LIBRARY + lines, OWN, *lemmas]))
    (specs / "Lib.antt").write_text("".join(f"pub mod {module}\n" for module in modules))
    return crate
