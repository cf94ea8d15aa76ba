#!/usr/bin/env python3
"""oracle.py: the companion of docs/format/FORM.md: the canonical text of a stream's events, computed anew, rule by rule.

It is in Python's own means: whole trees, dictionaries, tuples, big integers. Before what a rule asks for stands its name in
FORM.md. It was first written from the rules in plain words, without a look at the Rattle sources or at the definitions, and
then put in the order of FORM.md by somebody who had read the definitions; so that the two agree says less than it would of a
program by a stranger. `tools/conformance companion` compares it with the program on the vectors and on generated streams,
`tools/conformance files` on files of YAML. It proves nothing.

    yamlcanon events FILE | python3 tools/oracle/oracle.py      the canonical text, or the refusal
"""
import argparse
import re
import sys
import urllib.parse

sys.setrecursionlimit(100000)
if hasattr(sys, "set_int_max_str_digits"):
    sys.set_int_max_str_digits(0)

TEXT_MOST, HIGH_MOST, SHORT_MOST, EXPONENT_MOST, INT_MOST = 67108864, 1023, 64, 1000000, 2**127
CORE = "tag:yaml.org,2002:"
CORE_NAMES = ("null", "bool", "int", "float", "str", "seq", "map")


class Refused(Exception):
    """A refusal: its number, and its name with its place."""

    def __init__(self, number, words):
        super().__init__("%d %s" % (number, words))


# ------------------------------------------------------------------ 1. from events to trees

# `events`
ESCAPED = {"\\\\": "\\", "\\n": "\n", "\\t": "\t", "\\r": "\r", "\\b": "\b"}
LINE = re.compile(r'(\+SEQ(?: \[\])?|\+MAP(?: \{\})?|=VAL)(?: &([^ ]+))?(?: <([^>]*)>)?(?: ([:\'"|>])(.*))?$')


def node_of(line):
    """(word, anchor, tag, style, text) of a collection's start or a scalar; the lone `!` is a tag, and None is none"""
    word, anchor, tag, style, text = LINE.match(line).groups()
    tag = tag and urllib.parse.unquote(tag, errors="strict")
    text = text is not None and re.sub(r"\\.", lambda found: ESCAPED[found.group()], text)
    return word[:4], anchor, tag, style, text


# `aliases`: an anchor's place has the tree once that is whole
def named(anchors, name, event):
    found = anchors.get(name)
    if found is None:
        raise Refused(12, "UndefinedAlias at event %d" % event)
    if found[0] is None:
        raise Refused(13, "CyclicAlias at event %d" % event)
    return found[0]


class Composer:
    """The trees of a stream's documents, and its nodes in the order in which they end."""

    def __init__(self):
        self.roots, self.nodes, self.open, self.anchors, self.kept = [], [], [], {}, {}

    def put(self, tree):
        (self.open[-1][3] if self.open else self.roots).append(tree)

    def close(self, place, *tree):
        place[0] = Tree(self.kept, *tree)
        self.nodes.append(place[0])
        self.put(place[0])

    def take(self, event, line):
        word = line[:4]
        if word == "+DOC":
            self.anchors = {}
        elif word == "=ALI":
            self.put(named(self.anchors, line[6:], event))
        elif word in ("-SEQ", "-MAP"):
            kind, tag, place, parts = self.open.pop()
            self.close(place, kind, tag, "", parts)
        elif word in ("+SEQ", "+MAP", "=VAL"):
            self.start(event, *node_of(line))

    def start(self, event, word, anchor, tag, style, text):
        place = [None]
        if anchor is not None:
            self.anchors[anchor] = place
        if word == "=VAL":
            self.close(place, SCALAR, *resolve(tag, style, text, event), [])
        else:
            kind = SEQUENCE if word == "+SEQ" else MAPPING
            self.open.append((kind, collection_tag(tag, kind, event), place, []))


# ------------------------------------------------------------------ 2. kinds and values

SCALAR, SEQUENCE, MAPPING = 0, 1, 2


# `null and bool`: the content, or None for a text of no such value
def null(text):
    return "null" if text in ("", "~", "null", "Null", "NULL") else None


def boolean(text):
    return text.lower() if text in ("true", "True", "TRUE", "false", "False", "FALSE") else None


# `ints`
INTS = ((re.compile("([-+]?[0-9]+)"), 10), (re.compile("0o([0-7]+)"), 8), (re.compile("0x([0-9a-fA-F]+)"), 16))


def integer(text):
    """the content, or None; OverflowError out of range"""
    for pattern, base in INTS:
        found = pattern.fullmatch(text)
        if found:
            number = int(found.group(1), base)
            if not -INT_MOST <= number < INT_MOST:
                raise OverflowError
            return str(number)
    return None


# `floats`
INFINITY = re.compile(r"[-+]?(\.inf|\.Inf|\.INF)")
FLOAT = re.compile(r"([-+]?)(\.[0-9]+|[0-9]+(?:\.[0-9]*)?)(?:[eE]([-+]?[0-9]+))?")


def floating(text):
    """the content, or None; OverflowError out of range"""
    if INFINITY.fullmatch(text):
        return "-.inf" if text[0] == "-" else ".inf"
    if text in (".nan", ".NaN", ".NAN"):
        return ".nan"
    found = FLOAT.fullmatch(text)
    if not found:
        return None
    sign, digits, exponent = found.groups()
    whole, _, rest = digits.partition(".")
    shown = (whole + rest).lstrip("0")
    if not shown:
        return "0"
    power = int(exponent or 0) - len(rest) + len(shown) - 1
    shown = shown.rstrip("0")
    if abs(power) > EXPONENT_MOST:
        raise OverflowError
    content = shown[0] + ("." + shown[1:] if shown[1:] else "")
    return ("-" if sign == "-" else "") + content + ("e%+d" % power if power else "")


VALUES = {"null": null, "bool": boolean, "int": integer, "float": floating}


def value(name, text, event):
    """the content under one of these tags, or None"""
    try:
        return VALUES[name](text)
    except OverflowError:
        raise Refused(*{"int": (16, "IntRange at event %d" % event), "float": (17, "FloatRange at event %d" % event)}[name])


def core_name(tag):
    """the last word of a core tag, or None"""
    name = tag[len(CORE) :]
    return name if tag.startswith(CORE) and name in CORE_NAMES else None


def resolve(tag, style, text, event):
    # `strings`
    if tag == "!" or tag is None and style != ":":
        return CORE + "str", text
    # `table`
    if tag is None:
        for name in VALUES:
            content = value(name, text, event)
            if content is not None:
                return CORE + name, content
        return CORE + "str", text
    # `other tags`
    name = core_name(tag)
    if name in (None, "str"):
        return tag, text
    # `core tags`
    if name in ("seq", "map"):
        raise Refused(14, "WrongKind at event %d" % event)
    content = value(name, text, event)
    if content is None:
        raise Refused(15, "BadContent at event %d" % event)
    return tag, content


# `collections`
def collection_tag(tag, kind, event):
    own = CORE + ("seq" if kind == SEQUENCE else "map")
    if tag in (None, "!", own):
        return own
    if core_name(tag):
        raise Refused(14, "WrongKind at event %d" % event)
    return tag


# ------------------------------------------------------------------ 3. equality, height and order


class Tree:
    """A tree. `parts` are its items, or its keys and values in turn, as they stand in the source. `like` is one number for
    trees that are equal, and `kept` has these numbers and their ranks, which stand in the order of trees."""

    def __init__(self, kept, kind, tag, content, parts):
        self.kind, self.tag, self.content, self.parts = kind, tag, content, parts
        # `height`
        self.height = 1 + max(part.height for part in parts) if parts else 0
        # `equality`
        self.ordered, inside = parts, tuple(part.like for part in parts)
        if kind == MAPPING:
            pairs = sorted(zip(parts[::2], parts[1::2]), key=lambda pair: pair[0].rank)
            self.ordered, inside = [part for pair in pairs for part in pair], frozenset((key.like, one.like) for key, one in pairs)
        # `order`: tuples stand as their first parts that differ do, and one that begins another comes first; of equal trees
        # the rank is one object, so that no comparison looks into it
        self.like, self.rank = kept.setdefault(
            (kind, tag, content, inside),
            (len(kept), (self.height, kind, tag.encode(), content.encode(), tuple(part.rank for part in self.ordered))),
        )
        self.text = None if parts else spell_tag(tag) + (spell_scalar(content), "[]", "{}")[kind]

    # `equal keys`
    def equal_keys(self):
        """the least second and the least first of two entries with the same key, or None"""
        first = {}
        for j, key in enumerate(self.parts[::2] if self.kind == MAPPING else []):
            if key.like in first:
                return first[key.like], j
            first[key.like] = j
        return None


# ------------------------------------------------------------------ 5. spelling

# `characters`
NAMED = {'"': '\\"', "\\": "\\\\", "\n": "\\n", "\t": "\\t"}
NOT_AS_IT_IS = re.compile('["\\\\]|[^\x20-\x7e\xa0-\ud7ff\ue000-\ufefe\uff00-\ufffd\U00010000-\U0010ffff]')


def spell_character(found):
    char = found.group()
    return NAMED.get(char) or ("\\x%02X" if ord(char) < 0x100 else "\\u%04X") % ord(char)


def spell_scalar(content):
    return '"' + NOT_AS_IT_IS.sub(spell_character, content) + '"'


# `tags`
KEPT = "-;/?:@&=+$,_.!~*'()[]#"


def spell_tag(tag):
    name = core_name(tag)
    if name in ("str", "seq", "map"):
        return ""
    return "!!%s " % name if name else "!<%s> " % urllib.parse.quote(tag, safe=KEPT)


# ------------------------------------------------------------------ 4. what is written again


# `short nodes`
def is_short(tree):
    return tree.text is not None and len(tree.text.encode()) <= SHORT_MOST


class Writer:
    """One document: first which nodes are written again, then the words."""

    def __init__(self, root):
        self.seen, self.again, self.told, self.numbers = set(), set(), set(), {}
        self.order = []
        self.look(root)
        # `names`
        self.numbers = {like: number for number, like in enumerate((like for like in self.order if like in self.again), 1)}

    # `entries`, `repeats`
    def look(self, tree):
        if not is_short(tree):
            if tree.like in self.seen:
                self.again.add(tree.like)
                return
            self.seen.add(tree.like)
            self.order.append(tree.like)
        for part in tree.ordered:
            self.look(part)

    # `nodes`
    def write(self, tree):
        number = self.numbers.get(tree.like)
        if number is None:
            return self.body(tree)
        if number in self.told:
            return "*a%d" % number
        self.told.add(number)
        return "&a%d %s" % (number, self.body(tree))

    def body(self, tree):
        if tree.text is not None:
            return tree.text
        parts = [self.write(part) for part in tree.ordered]
        if tree.kind == SEQUENCE:
            return spell_tag(tree.tag) + "[" + ", ".join(parts) + "]"
        return spell_tag(tree.tag) + "{" + ", ".join(["%s : %s" % pair for pair in zip(parts[::2], parts[1::2])]) + "}"


# ------------------------------------------------------------------ the text, and the refusals of whole streams


def canonical(lines):
    """the canonical text of events, a line each, or Refused"""
    composer = Composer()
    for event, line in enumerate(lines):
        composer.take(event, line)
    # `height`
    for count, root in enumerate(composer.roots):
        if root.height > HIGH_MOST:
            raise Refused(18, "TooHigh in document %d" % count)
    # `equal keys`
    found = ((node.height, number, node.equal_keys()) for number, node in enumerate(composer.nodes))
    doubled = [one for one in found if one[2]]
    if doubled:
        _, number, (i, j) = min(doubled)
        raise Refused(19, "EqualKeys in node %d, entries %d and %d" % (number, i, j))
    # `documents`
    text = "".join("--- " + Writer(root).write(root) + "\n" for root in composer.roots)
    # `length`
    if len(text.encode()) > TEXT_MOST:
        raise Refused(20, "TextTooLong")
    return text


def answer(text):
    """(status, standard output, standard error), as the program's `canon` gives them for a stream with these events"""
    try:
        return 0, canonical(text.split("\n")[:-1]), ""
    except Refused as fault:
        return 2, "", "yaml: %s\n" % fault


if __name__ == "__main__":
    argparse.ArgumentParser(description=__doc__, formatter_class=argparse.RawDescriptionHelpFormatter).parse_args()
    status, out, err = answer(sys.stdin.buffer.read().decode())
    sys.stdout.buffer.write(out.encode())
    sys.stderr.write(err)
    sys.exit(status)
