"""Made streams, the same for the same seed: small trees whose parts come again, each time spelled in another way. And random scalars for the
core schema, most of which are nearly a number or a word.
"""
import random
import tomllib
from typing import Any

from lib.paths import DATA, read

# spellings of one value each
VALUES = tomllib.loads(read(f"{DATA}/spellings.toml"))["values"]
EMPTY_TAGS = ["", "", "", "!x ", "! ", "!%s " % ("t" * 57), "!%s " % ("t" * 58)]
DEPTH = 4
NUMBERS = "0123456789012345678901.eE+-xo_"


class Scalar:
    def __init__(self, spellings: list[str]) -> None:
        self.spellings = spellings


class Collection:
    """`parts` are nodes, or pairs of nodes"""

    def __init__(self, is_map: bool, tag: str, parts: list[Any]) -> None:
        self.is_map, self.tag, self.parts = is_map, tag, parts


class Maker:
    """One stream. `pool` has the trees that were made, `bound` what stands at each name in this document, once it is whole."""

    def __init__(self, seed: int) -> None:
        self.random = random.Random(seed)
        self.pool: list[Scalar | Collection] = []
        self.bound: dict[str, Any] = {}

    def often(self, part: float) -> bool:
        return self.random.random() < part

    def scalar(self) -> Scalar:
        if self.often(0.12):
            text = "".join(self.random.choice(NUMBERS) for _ in range(self.random.randint(1, 7)))
            return Scalar([self.random.choice("0123456789") + text])
        return Scalar(self.random.choice(VALUES))

    def tree(self, depth: int) -> Scalar | Collection:
        if self.pool and depth < DEPTH and self.often(0.35):
            return self.random.choice(self.pool)
        if depth == 0 or self.often(0.1 if depth == DEPTH else 0.3):
            made: Scalar | Collection = self.scalar()
        else:
            made = self.collection(depth)
        self.pool.append(made)
        return made

    def collection(self, depth: int) -> Collection:
        count = self.random.choice([0, 1, 1, 2, 2, 3, 3, 4, 5])
        tag = self.random.choice(EMPTY_TAGS if count == 0 else EMPTY_TAGS[:5])
        if self.often(0.5):
            return Collection(False, tag, [self.tree(depth - 1) for _ in range(count)])
        keys = [self.tree(self.random.choice([0, 0, depth - 1])) for _ in range(count)]
        if not self.often(0.06):
            keys = list({id(getattr(key, "spellings", key)): key for key in keys}.values())
        return Collection(True, tag, [(key, self.tree(depth - 1)) for key in keys])

    def spell(self, tree: Scalar | Collection) -> str:
        """A tree's text in flow style, on one line."""
        names = [name for name, one in self.bound.items() if one is tree]
        if names and self.often(0.5):
            return "*%s " % self.random.choice(names)
        if self.often(0.01):
            return "*%s " % self.random.choice("abc")
        if not self.often(0.2):
            return self.body(tree)
        name, mine = self.random.choice("abc"), object()
        self.bound[name] = mine
        text = "&%s %s" % (name, self.body(tree))
        if self.bound[name] is mine:
            self.bound[name] = tree
        return text

    def body(self, tree: Scalar | Collection) -> str:
        if isinstance(tree, Scalar):
            return self.random.choice(tree.spellings)
        if not tree.is_map:
            return tree.tag + "[" + ", ".join([self.spell(part) for part in tree.parts]) + "]"
        return tree.tag + "{" + ", ".join(self.entries(tree)) + "}"

    def entries(self, tree: Collection) -> list[str]:
        """The entries in some order, each `key : value`."""
        pairs = self.random.sample(tree.parts, len(tree.parts))
        return ["%s : %s" % (self.spell(key), self.spell(value)) for key, value in pairs]

    def document(self) -> str:
        self.bound = {}
        tree = self.tree(DEPTH)
        if not (isinstance(tree, Collection) and tree.parts and tree.tag == "" and self.often(0.4)):
            return self.spell(tree) + "\n"
        if tree.is_map:
            return "".join(entry + "\n" for entry in self.entries(tree))
        return "".join("- %s\n" % self.spell(part) for part in tree.parts)

    def stream(self) -> bytes:
        texts = [self.document() for _ in range(self.random.choice([1, 1, 1, 2, 3]))]
        return "".join("---\n" + text for text in texts).encode()


def stream(seed: int) -> bytes:
    return Maker(seed).stream()


ALPHABET = "+-.0123456789eExXoOabcdefinfNaNINFtrue~_"
WORDS = "null Null NULL ~ true True TRUE false False FALSE .inf .Inf .INF .nan .NaN .NAN".split()
TAGS = ("", "", "", "", "", "", "!!int ", "!!int ", "!!float ", "!!float ", "!!float ", "!!float ", "!!null ", "!!bool ")
LIMIT = 2**127


def digits(rng: random.Random, most: int) -> str:
    return "".join(rng.choice("0001123456789") for _ in range(rng.randint(0, most)))


def near_the_limit(rng: random.Random) -> str:
    """An int whose size is near 127 bits, in one of three bases."""
    bits = rng.choice([LIMIT - 1, LIMIT, LIMIT + 1, rng.getrandbits(130)])
    return rng.choice([f"{bits}", f"-{bits}", f"+0{bits}", f"0x{bits:x}", f"0x0{bits:X}", f"0o{bits:o}"])


def decimal(rng: random.Random) -> str:
    """A float, whose exponent may be near its limit."""
    exponent = rng.choice([digits(rng, 3), str(1000000 + rng.randint(-30, 30)), digits(rng, 30)])
    mantissa = rng.choice(["", "+", "-"]) + digits(rng, 25) + rng.choice(["", ".", "."]) + digits(rng, 25)
    return mantissa + rng.choice(["", "e", "E", "e+", "e-", "E-"]) + exponent


def text(rng: random.Random) -> str:
    kind = rng.randrange(6)
    if kind == 0:
        made = "".join(rng.choice(ALPHABET) for _ in range(rng.randint(0, 8)))
    elif kind == 1:
        made = rng.choice(["", "+", "-"]) + rng.choice(WORDS)
    elif kind == 2:
        made = rng.choice(["0x", "0o", "", "+", "-"]) + digits(rng, 45)
    else:
        made = near_the_limit(rng) if kind == 3 else decimal(rng)
    if made and rng.randrange(5) == 0:
        at = rng.randrange(len(made))
        made = made[:at] + rng.choice(ALPHABET) + made[at + rng.randint(0, 1) :]
    return made


def scalars(count: int, seed: int) -> list[tuple[str, str]]:
    """So many scalars, each a tag or none and a text that is plain."""
    rng = random.Random(seed)
    return [(rng.choice(TAGS), it if (it := text(rng)) != "-" else "") for _ in range(count)]
