"""combinators.py: what the grammar's definitions are made of, over finite texts: the combinators of Rules.antt and names of std, by hand.

A Span is a function from a place to the set of its ends, a Rule one to the set of its ends with their values.
"""
import functools


class Text(tuple):
    """A text: the codes of its characters. It is told apart from another by its identity."""

    __hash__ = object.__hash__
    __eq__ = object.__eq__


class Now:
    """What belongs to the text in hand: its length, which bounds `some`, and every value computed so far."""

    N = 0
    memo = {}


class Rec(tuple):
    """A record: its fields' names and values, sorted."""


class Pair(tuple):
    """A pair, which is no list."""


def rec(**fields):
    return Rec(sorted(fields.items()))


def field(record, name):
    return next(value for known, value in record if known == name)


class Span:
    """A Span or a Rule: `at(i)` is the set of its ends, or of ends with values. `made` says of what it is made, for derive.py."""

    __slots__ = ("f", "memo", "made")

    def __init__(self, f, *made):
        self.f, self.memo, self.made = f, {}, made

    def at(self, i):
        ends = self.memo.get(i)
        if ends is None:
            ends = self.memo[i] = frozenset(self.f(i))
        return ends

    def __call__(self, i, *rest):
        return (rest[0] if len(rest) == 1 else rest) in self.at(i)


class Lam:
    """A function of n arguments."""

    __slots__ = ("n", "f")

    def __init__(self, n, f):
        self.n, self.f = n, f


class Part:
    """A function that was given too few arguments."""

    __slots__ = ("f", "args")

    def __init__(self, f, args):
        self.f, self.args = f, args


class Def:
    """A definition: its clauses are tried from the first. A lazy one is a Span or a Rule."""

    def __init__(self, name, lazy, opened):
        self.name, self.lazy, self.opened, self.clauses, self.n, self.uses = name, lazy, opened, [], None, set()

    def f(self, *args):
        key = (self, args)
        if key not in Now.memo:
            Now.memo[key] = Span(lambda i: ap(self.run(args)).at(i), "def", self, args) if self.lazy else self.run(args)
        return Now.memo[key]

    def run(self, args):
        for patterns, body in self.clauses:
            env = []
            if all(match(p, a, env) for p, a in zip(patterns, args)):
                return body(*env)
        raise ValueError("no clause of %s for %r" % (self.name, args))


def ap(f, *args):
    """The function, applied to fewer, as many or more arguments than it takes."""
    while args:
        if isinstance(f, Part):
            f, args = f.f, f.args + args
        if isinstance(f, Span):
            return f(*args)
        if len(args) < f.n:
            return Now.memo.setdefault((f, args), Part(f, args))
        f, args = f.f(*args[: f.n]), args[f.n :]
    return f.f() if isinstance(f, Def) and f.n == 0 else f


def match(p, v, env):
    """Whether the pattern fits the value; its variables' values are added to env."""
    if p[0] == "var":
        env.append(v)
        return True
    if p[0] == "_":
        return True
    name, args = p[1], p[2]
    if name == "zero":
        return v == 0
    if name == "suc":
        return v > 0 and match(args[0], v - 1, env)
    if name == "[]":
        return v == ()
    if name == "∷":
        return len(v) > 0 and match(args[0], v[0], env) and match(args[1], v[1:], env)
    if name in ("true", "false"):
        return v == (name == "true")
    return v[0] == name and all(match(q, w, env) for q, w in zip(args, v[1:]))


# ------------------------------------------------------------------ the combinators of Rules.antt, by hand


def stands(cs, p, i):
    return 0 <= i < len(cs) and ap(p, cs[i])


def reached(start, steps):
    found, todo = {start}, [start]
    while todo:
        new = steps(todo.pop()) - found
        found |= new
        todo += new
    return found


def some(R):
    part = functools.cache(lambda k: ap(R, k))
    return lambda i: {x for k in range(Now.N + 2) for x in part(k).at(i)}


def any_(R):
    def steps(x):
        if any(j == x[0] and ys for j, ys in R.at(x[0])):
            raise ValueError("a repeated rule takes nothing and gives something")
        return {(j, x[1] + ys) for j, ys in R.at(x[0])}

    return lambda i: reached((i, ()), steps)


def counted(R):
    def steps(x):
        if any(j <= x[0] for j in R.at(x[0])):
            raise ValueError("a counted span takes nothing")
        return {(j, x[1] + 1) for j in R.at(x[0])}

    return lambda i: reached((i, 0), steps)


def stretched(cs, is_so, i):
    """The place, and those behind it up to which each place of the text is so."""
    yield i
    while i <= len(cs) and is_so(i):  # no test but one of a character holds past the end
        i += 1
        yield i


def ends_of_run(cs, p, i, least=0):
    return (j for j in stretched(cs, lambda k: stands(cs, p, k), i) if i + least <= j)


# A combinator: of its parts a function from a place to its ends there, or another combinator. A text is a part of some.
COMBINATORS = {
    "nowhere": lambda: lambda i: {i},
    "never": lambda: lambda i: (),
    "gives": lambda v: lambda i: {(i, v)},
    "then_span": lambda R, S: lambda i: {x for k in R.at(i) for x in S.at(k)},  # ◆ and ▸
    "rule_span": lambda R, S: lambda i: {(j, v) for k, v in R.at(i) for j in S.at(k)},  # ◂
    "then_rule": lambda R, S: lambda i: {(j, ys + zs) for k, ys in R.at(i) for j, zs in S.at(k)},  # ⨾
    "either": lambda R, S: lambda i: R.at(i) | S.at(i),  # ⊔ and ∪
    "maybe": lambda R: MADE["either"](RULES["nowhere"], R),
    "optional": lambda R: MADE["either"](MADE["gives"](()), R),
    "with_value": lambda R, S: lambda i: {x for k, a in R.at(i) for x in ap(S, a).at(k)},
    "some": some,
    "seen": lambda f, R: lambda i: {(j, ap(f, a)) for j, a in R.at(i)},
    "mapped": lambda f, R: lambda i: {(j, r[1]) for j, a in R.at(i) for r in (ap(f, a),) if r[0] == "Some"},
    "given": lambda P, R: lambda i: R.at(i) if P else (),
    "limited": lambda P, R: lambda i: {j for j in R.at(i) if ap(P, i, j)},
    "where_both": lambda P, R: lambda i: {(j, v) for j, v in R.at(i) if ap(P, i, j)},
    "where_value": lambda P, R: lambda i: {(j, v) for j, v in R.at(i) if ap(P, v)},
    "ahead": lambda P: lambda i: {i} if ap(P, i) else (),
    "looking": lambda R: lambda i: {(i, v) for _, v in R.at(i)},
    "furthest": lambda R: lambda i: {(j, v) for j, v in R.at(i) if all(k <= j for k, _ in R.at(i))},
    "furthest_span": lambda R: lambda i: {j for j in R.at(i) if all(k <= j for k in R.at(i))},
    "any": any_,
    "any_one": lambda R: MADE["then_rule"](R, MADE["any"](R)),
    "any_span": lambda R: lambda i: reached(i, R.at),
    "any_one_span": lambda R: MADE["then_span"](R, MADE["any_span"](R)),
    "counted": counted,
    "at": lambda cs, P: lambda i: {i + 1} if ap(P, i) else (),
    "one": lambda cs, p: lambda i: {i + 1} if stands(cs, p, i) else (),
    "letter": lambda cs, p: lambda i: {(i + 1, cs[i])} if stands(cs, p, i) else (),
    "chr": lambda cs, c: lambda i: {i + 1} if i < len(cs) and cs[i] == c else (),
    "word": lambda cs, s: lambda i: {i + len(s)} if cs[i : i + len(s)] == s else (),
    "stretch": lambda cs, P: lambda i: stretched(cs, lambda k: ap(P, k), i),
    "run": lambda cs, p: lambda i: ends_of_run(cs, p, i),
    "some_run": lambda cs, p: lambda i: ends_of_run(cs, p, i, 1),
    "whole_run": lambda cs, p: lambda i: [j for j in ends_of_run(cs, p, i, 1) if not stands(cs, p, j)],
    "exactly": lambda cs, n, p: lambda i: {i + n} if all(stands(cs, p, k) for k in range(i, i + n)) else (),
    "how_many": lambda cs, p: lambda i: {(j, j - i) for j in ends_of_run(cs, p, i)},
    "copied": lambda cs, R: lambda i: {(j, tuple(cs[i:j])) for j in R.at(i)},
}
# A condition on places.
CONDITIONS = {
    "Throughout": lambda P, i, j: all(ap(P, k) for k in range(i, j)),
    "Begins": lambda R, i: bool(R.at(i)),
    "Ends": lambda R, j: any(j in R.at(i) for i in range(j + 1)),
    "Stands": stands,
    "Behind": lambda cs, p, i: 0 < i and stands(cs, p, i - 1),
}
MADE, RULES = {}, {name: Lam(f.__code__.co_argcount, f) for name, f in CONDITIONS.items()}


def entered(name, combinator):
    """The combinator as a function that makes a Span or a Rule, which knows its parts."""

    def made(*parts):
        result = combinator(*parts)
        return result if isinstance(result, Span) else Span(result, name, *parts)

    return made


for each, of_parts in COMBINATORS.items():
    MADE[each], count = entered(each, of_parts), of_parts.__code__.co_argcount
    RULES[each] = Lam(count, MADE[each]) if count else MADE[each]()

# ------------------------------------------------------------------ names of std, by hand


def digit_value(c):
    if 48 <= c <= 57:
        return c - 48
    if 65 <= c <= 90:
        return c - 55
    return c - 87 if 97 <= c <= 122 else 36


def is_utf8(codes):
    try:
        return bytes(codes).decode("utf-8") is not None
    except ValueError:
        return False


OF_STD = {
    "not": lambda a: not a,
    "list_any": lambda p, xs: any(ap(p, x) for x in xs),
    "codes": lambda s: tuple(map(ord, s)),
    "is_in_range": lambda low, high, c: low <= c <= high,
    "is_ascii_alphanumeric": lambda c: 48 <= c <= 57 or 65 <= c <= 90 or 97 <= c <= 122,
    "is_ascii_hexdigit": lambda c: 48 <= c <= 57 or 65 <= c <= 70 or 97 <= c <= 102,
    "is_digit": lambda c, radix: digit_value(c) < radix,
    "digit_value": digit_value,
    "digits_value": lambda radix, codes: functools.reduce(lambda n, c: n * radix + digit_value(c), codes, 0),
    "IsScalar": lambda c: c <= 0x10FFFF and not 0xD800 <= c <= 0xDFFF,
    "is_utf8": is_utf8,
    "encode_utf8_all": lambda codes: tuple("".join(map(chr, codes)).encode("utf-8")),
    "bytes_eq": lambda a, b: a == b,
    "nat_le": lambda a, b: a <= b,
    "max": lambda a, b: max(a, b),
    "length": lambda xs: len(xs),
    "replicate": lambda n, x: (x,) * n,
    "lookup": lambda test, entries: next((("Some", e[1]) for e in entries if ap(test, e[0])), ("None",)),
    "option_and_then": lambda f, o: ap(f, o[1]) if o[0] == "Some" else o,
    "suc": lambda n: n + 1,
    "Some": lambda x: ("Some", x),
}
STD = {name: Lam(f.__code__.co_argcount, f) for name, f in OF_STD.items()}
STD.update({"true": True, "false": False, "⊥": False, "Unit": True, "None": ("None",), "zero": 0})
