#!/usr/bin/env python3
"""derive.py: writes the example readings of crates/yaml_definitions/proofs/grammar (readings.toml), each a proof that a text has these
events.

shadow.py finds the reading. Each combinator says how its proof is made of those of its parts, and each condition how it is
proved or refuted. Run `rt fmt` in the crate afterwards.
"""
import os
import re
import tomllib

import combinators
import shadow
from combinators import Def, Lam, Now, Pair, Part, Rec, Span, ap, field, stands
from lib.arguments import parser
from lib.paths import read, write

ROOM, TABLE = 128, tomllib.loads(read(f"{shadow.HERE}/readings.toml"))


class Proof:
    """The proof in hand: the name of its text, and the definitions that it opens."""

    text, visited = "", set()


def see(f):
    """The proof in hand computes this function, or one that is none of ours."""
    while isinstance(f, Part):
        f = f.f
    if isinstance(f, Def):
        Proof.visited.add(f)


# ------------------------------------------------------------------ conditions that can be proved or refuted


class Prop:
    """A condition: whether it holds, its proof, and what of a proof `h` of it is a refutation, if one is known."""

    def __init__(self, holds, why, refute=None):
        self.holds, self.why, self.refute = holds, why, refute

    def __bool__(self):
        return bool(self.holds())


def why(p):
    return "tt" if p is True else p.why()


def refute(p, h):
    if p is False:
        return h
    if p.refute is None:
        raise NotImplementedError
    return p.refute(h)


def denial(p):
    return "(λ h. %s)" % refute(p, "h")


def And(*parts):
    def refute_part(h):
        for n, p in reversed(list(enumerate(parts))):
            try:
                if not p:
                    return refute(p, "%s.%d" % (h, n))
            except NotImplementedError:
                pass
        raise NotImplementedError

    return Prop(lambda: all(parts), lambda: "(%s)" % ", ".join(map(why, parts)), refute_part)


def Or(a, b):
    return Prop(
        lambda: a or b,
        lambda: "(inl %s)" % why(a) if a else "(inr %s)" % why(b),
        lambda h: "(neither %s %s %s)" % (denial(a), denial(b), h),
    )


def Not(a):
    return Prop(lambda: not a, lambda: denial(a))


def Eq(a, b):
    return Prop(lambda: a == b, lambda: "refl", (lambda h: "(omega (arith, %s))" % h) if isinstance(a, int) else None)


def Less(holds):
    return Prop(lambda: holds, lambda: "(omega arith)")


def Here(cs, p, i):
    def seen(form, *parts):
        see(p)
        return form % parts

    return Prop(
        lambda: stands(cs, p, i), lambda: seen("(%d, refl, refl)", cs[i]), lambda h: seen("(not_here %s _ %d refl %s)", Proof.text, i, h)
    )


def Before(cs, p, i):
    def refute_before(h):
        see(p)
        return "(not_behind_start %s _ %s)" % (Proof.text, h) if i == 0 else "(not_behind %s _ %d refl %s)" % (Proof.text, i - 1, h)

    return Prop(lambda: 0 < i and stands(cs, p, i - 1), lambda: "((omega arith), %s)" % Here(cs, p, i - 1).why(), refute_before)


def Each(P, i, j, short=None):
    """That each place between two has P; `short` is the name of the lemma for one that computes, with its definition of characters."""

    def proved():
        if short:
            see(WORLD["Characters.is_break"])
            return "(%s %s %d %d refl)" % (short, Proof.text, i, j - i)
        out = "(none_between _ %d)" % j
        for k in reversed(range(i, j)):
            out = "(next_between _ %d %d %s %s)" % (k, j, why(ap(P, k)), out)
        return out

    return Prop(lambda: all(ap(P, k) for k in range(i, j)), proved)


def Mark(cs, i):
    def proved():
        see(MARK)
        return why(ap(MARK, cs, i))

    def refute_mark(h):
        see(WORLD["Characters.is_break"])
        return "(no_mark %s %d refl %s)" % (Proof.text, i, h)

    return Prop(lambda: ap(MARK, cs, i), proved, refute_mark)


def Ends(R, j):
    def starts():
        return [i for i in range(j + 1) if j in R.at(i)]

    return Prop(starts, lambda: "(%d, %s)" % (starts()[0], derive(R, starts()[0], j)))


def Reaches(R, i, *rest):
    x = rest[0] if len(rest) == 1 else rest

    def refute_run(h):
        if R.made[0] != "run":
            raise NotImplementedError
        cs, p = R.made[1:]
        k = next(k for k in range(i, x) if not stands(cs, p, k))
        return Here(cs, p, k).refute("(%s.1 %d (omega arith) (omega arith))" % (h, k))

    return Prop(lambda: x in R.at(i), lambda: derive(R, i, x), refute_run)


class Times:
    """The Python of `×`: `A × B × C` is one triple."""

    def __mod__(self, parts):
        a, b = parts
        return "And(%s, %s" % (a, b[4:]) if b.startswith("And(") else "And(%s, %s)" % (a, b)


CODE = {"⊎": "Or(%s, %s)", "×": Times(), "≡": "Eq(%s, %s)", "≢": "Not(Eq(%s, %s))"}
CODE |= {"≤": "Less(%s <= %s)", "<": "Less(%s < %s)", "→": "Not(%s)"}
for sign, code in CODE.items():
    shadow.OPS[sign] = (*shadow.OPS[sign][:2], code)
CONDITIONS = {
    "Stands": Here,
    "Behind": Before,
    "Throughout": lambda P, i, j: Each(P, i, j),
    "Begins": lambda R, i: Prop(lambda: R.at(i), lambda: "(%d, %s)" % (min(R.at(i)), derive(R, i, min(R.at(i))))),
    "Ends": Ends,
}
combinators.RULES.update((name, Lam(prop.__code__.co_argcount, prop)) for name, prop in CONDITIONS.items())
Span.__call__ = Reaches
WORLD = shadow.World(And=And, Or=Or, Not=Not, Eq=Eq, Less=Less)
MARK = WORLD["Separation.DocumentMark"]
OF_LINES = {
    "DocumentMark": Mark,
    "Unmarked": lambda cs, i, j: Each(Lam(1, lambda k: Not(Mark(cs, k))), i, j, "unmarked"),
    "OneLine": lambda cs, i, j: Each(Lam(1, lambda k: Not(Here(cs, WORLD["Characters.is_break"], k))), i, j, "unbroken"),
}
WORLD.defs.update((f"Separation.{name}", Lam(prop.__code__.co_argcount, prop)) for name, prop in OF_LINES.items())

# ------------------------------------------------------------------ values, as antt writes them

HOME = {name: file.mod for file in WORLD.files.values() for name, entry in file.own.items() if entry[0] == "con"}
ALIAS = {name: name.lower() for name in "Characters Separation Tags".split()}
ALIAS |= {
    "FlowScalars": "flow",
    "BlockScalars": "block",
    "Nodes": "nodes",
    "Directives": "directives",
    "Streams": "streams",
    "Tag": "model",
}
FIELDS = [("anchor", "tag"), ("digit", "chomp")]
ESCAPES = {"\\": "\\\\", '"': '\\"', "\n": "\\n", "\t": "\\t", "\r": "\\r"}


def quoted(codes):
    return 'codes "%s"' % "".join(ESCAPES.get(chr(c), chr(c)) for c in codes)


def show(v):
    if isinstance(v, bool):
        return "true" if v else "false"
    if isinstance(v, int):
        return str(v)
    if isinstance(v, Pair):
        return "(%s)" % ", ".join(map(show, v))
    if isinstance(v, Rec):
        names = next(fields for fields in FIELDS if set(fields) == {n for n, _ in v})
        return "(record { %s })" % "; ".join("%s = %s" % (n, show(field(v, n))) for n in names)
    if v == ():
        return "[]"
    if isinstance(v[0], str):
        home = ALIAS.get(HOME.get(v[0]))
        head = home + "." + v[0] if home else v[0]
        return head if len(v) == 1 else "(%s)" % " ".join([head, *map(show, v[1:])])
    if all(type(x) is int and (32 <= x < 127 or x == 10) for x in v):
        return "(%s)" % quoted(v)
    return "(%s)" % " ∷ ".join([*map(show, v), "[]"])


# ------------------------------------------------------------------ derivations


def derive(R, i, x):
    """The proof of R i j, or of R i j v; x is j, or the pair of j and v."""
    return DERIVE[R.made[0]](i, x[0] if isinstance(x, tuple) else x, x, *R.made[1:])


def of_run(i, j, x, cs, p):
    see(p)
    return "(stands_each %s _ %d %d refl)" % (Proof.text, i, j - i)


def of_definition(i, j, x, f, args):
    see(f)
    return derive(ap(f.run(args)), i, x)


def of_then(i, j, x, A, B):
    k = min(k for k in A.at(i) if x in B.at(k))
    return "(%d, %s, %s)" % (k, derive(A, i, k), derive(B, k, x))


def of_rule_span(i, j, x, A, B):
    k = min(k for k, v in A.at(i) if v == x[1] and j in B.at(k))
    return "(%d, %s, %s)" % (k, derive(A, i, (k, x[1])), derive(B, k, j))


def of_then_rule(i, j, x, A, B):
    k, ys, zs = min(((k, ys, zs) for k, ys in A.at(i) for m, zs in B.at(k) if (m, ys + zs) == x), key=lambda it: it[0])
    return "(%d, %s, %s, %s, %s, refl)" % (k, show(ys), show(zs), derive(A, i, (k, ys)), derive(B, k, (j, zs)))


def of_with_value(i, j, x, A, B):
    k, a = next((k, a) for k, a in A.at(i) if x in ap(B, a).at(k))
    return "(%d, %s, %s, %s)" % (k, show(a), derive(A, i, (k, a)), derive(ap(B, a), k, x))


def of_seen(i, j, x, f, A):
    a = next(a for k, a in A.at(i) if k == j and ap(f, a) in (x[1], ("Some", x[1])))
    see(f)
    return "(%s, %s, refl)" % (show(a), derive(A, i, (j, a)))


def of_where_value(i, j, x, P, A):
    p = ap(P, x[1])
    return "(%s, %s)" % ("refl" if p is True else why(p), derive(A, i, x))  # `IsScalar` computes


def of_any(i, j, x, A):
    def go(i, xs):
        if i == j and xs == ():
            return "(done refl refl)"
        for k, ys in A.at(i):
            left = xs[len(ys) :]
            rest = go(k, left) if k > i and xs[: len(ys)] == ys else None
            if rest:
                return "(then %d %s %s %s %s refl)" % (k, show(ys), show(left), derive(A, i, (k, ys)), rest)
        return None

    return go(i, x[1])


def of_spans(i, j, x, A):
    def go(i):
        if i == j:
            return "(Spans.done refl)"
        for k in A.at(i):
            rest = go(k) if i < k <= j else None
            if rest:
                return "(Spans.then %d %s %s)" % (k, derive(A, i, k), rest)
        return None

    return go(i)


def of_counted(i, j, x, A):
    def go(i, n):
        if n == 0:
            return "refl" if i == j else None
        for k in A.at(i):
            rest = go(k, n - 1)
            if rest:
                return "(%d, %s, %s)" % (k, derive(A, i, k), rest)
        return None

    return go(i, x[1])


def of_letter(i, j, x, cs, p):
    see(p)
    return "(refl, refl, refl)"


# The proof of each combinator from a place to another, or to a place and a value, by its parts.
DERIVE = {
    "def": of_definition,
    "then_span": of_then,
    "rule_span": of_rule_span,
    "then_rule": of_then_rule,
    "either": lambda i, j, x, A, B: "(inl %s)" % derive(A, i, x) if x in A.at(i) else "(inr %s)" % derive(B, i, x),
    "with_value": of_with_value,
    "some": lambda i, j, x, A: next("(%d, %s)" % (a, derive(ap(A, a), i, x)) for a in range(Now.N + 2) if x in ap(A, a).at(i)),
    "seen": of_seen,
    "mapped": of_seen,
    "given": lambda i, j, x, P, A: "(%s, %s)" % (why(P), derive(A, i, x)),
    **dict.fromkeys(("limited", "where_both"), lambda i, j, x, P, A: "(%s, %s)" % (why(ap(P, i, j)), derive(A, i, x))),
    "where_value": of_where_value,
    "looking": lambda i, j, x, A: next("(refl, %d, %s)" % (k, derive(A, i, (k, v))) for k, v in A.at(i) if v == x[1]),
    "any": of_any,
    "any_span": of_spans,
    "counted": of_counted,
    "word": lambda i, j, x, cs, s: "".join("(%d, (refl, refl), " % (i + n) for n in range(1, len(s) + 1)) + "refl" + ")" * len(s),
    "letter": of_letter,
    "nowhere": lambda i, j, x: "refl",
    "gives": lambda i, j, x, v: "(refl, refl)",
    "chr": lambda i, j, x, cs, c: "(refl, refl)",
    "ahead": lambda i, j, x, P: "(refl, %s)" % why(ap(P, i)),
    "at": lambda i, j, x, cs, P: "(%s, refl)" % why(ap(P, i)),
    "one": lambda i, j, x, cs, p: "(%s, refl)" % why(Here(cs, p, i)),
    "stretch": lambda i, j, x, cs, P: "((omega arith), %s)" % why(Each(P, i, j)),
    "run": of_run,
    "some_run": lambda i, j, x, cs, p: "(%s, (omega arith))" % of_run(i, j, x, cs, p),
    "whole_run": lambda i, j, x, cs, p: "(%s, (omega arith), %s)" % (of_run(i, j, x, cs, p), denial(Here(cs, p, j))),
    "exactly": lambda i, j, x, cs, n, p: "(%s, refl)" % of_run(i, j, x, cs, p),
    "how_many": lambda i, j, x, cs, p: "(%s, refl)" % of_run(i, j, x, cs, p),
    "copied": lambda i, j, x, cs, A: "(%s, refl)" % derive(A, i, j),
}

# ------------------------------------------------------------------ the files


def opened():
    """The names to unfold: the definitions of the proof in hand, and the functions and conditions of which they speak."""
    found, todo = set(), list(Proof.visited)
    while todo:
        f = todo.pop()
        if f not in found:
            found.add(f)
            todo += [g for g in f.uses if not g.lazy]
    entries = [(alias, name, entry) for mod, alias in ALIAS.items() for name, entry in WORLD.files[mod].own.items()]
    return ["%s.%s" % (alias, name) for alias, name, entry in entries if entry[0] == "def" and entry[1].opened and entry[1] in found]


def theorem(name, clause, text):
    """The text, and the theorem that it is a stream with its events."""
    Proof.text, Proof.visited = name + "_text", {WORLD[d] for d in ("Streams.l-yaml-stream", "Streams.stream_of_pieces")}
    codes = tuple(map(ord, text))
    stream, found, events = shadow.readings(WORLD, codes, True, ROOM)
    assert len(events) == 1, (name, events)
    pieces = found[0][1]
    proof = derive(stream, 0, found[0])
    names = opened() + ["streams.ReadsText", "encode"] + (["is_utf8", "chars"] if "!" in text else [])
    shown = [re.sub(r"^\((.*)\)$", r"\1", show(event), flags=re.S) for event in events.pop()]
    lines = "\n    ∷ ".join([*shown, "[])"])
    return f"""\
abbrev {Proof.text} : List ℕ
{Proof.text} = {quoted(codes)}

-- {clause}
pub {name} : ReadsText {Proof.text} (Unit {{0}}) open_limit (
    {lines}
unfolding {" ".join(names)}
{name} = ({show(pieces)}, {proof}, refl)"""


OPERATORS = {"◌≡◌": " ≡ ", "◌∷◌": " ∷ ", "[]": "[]", "⊥": "⊥", "ℕ": "ℕ"}


def uses(body):
    """The `use` lines for the names that the body has."""
    words = set(re.findall(r"(?<![\w.])\w[\w-]*", body))
    for module, names in TABLE["uses"].items():
        wanted = [n for n in names.split() if (OPERATORS[n] in body if n in OPERATORS else n in words)]
        if wanted:
            yield "use Rattle.%s.{%s}" % (module, ", ".join(wanted))
    for mod, alias in ALIAS.items():
        if alias + "." in body:
            yield "use Rattle.yaml_definitions.specs.%s.%s as %s" % ("model" if mod == "Tag" else "grammar", mod, alias)


def main(words=None):
    given = parser("tools/definitions/derive.py", __doc__)
    given.add_argument("folder", metavar="FOLDER", help="gets one file for each family of readings.toml")
    folder = given.parse_args(words).folder
    for family in TABLE["family"]:
        body = "\n\n".join([theorem(*each) for each in family["readings"]] + ([family["more"]] if "more" in family else []))
        head = "-- %s Written by tools/definitions/derive.py." % family["about"]
        write(os.path.join(folder, family["file"] + ".antt"), "\n".join([head, *uses(body)]) + "\n\n" + body + "\n")


if __name__ == "__main__":
    main()
