#!/usr/bin/env python3
"""shadow.py: the grammar of crates/yaml_definitions/specs/grammar, run as it stands.

The definitions are read from the .antt files by a small translator for the language of combinators in which they are written, and are
run over finite texts. Written by hand are the combinators of Rules.antt and the names of std (combinators.py). The environment variable
SPECS names another folder of definitions.

dump prints each clause with the Python that it becomes; `events FILE` the event text of every reading of a file; `short ALPHABET LENGTH`
runs each text of at most LENGTH characters over the alphabet, after the prefix if there is one, and prints which have two event lists.
Escapes are as in Python.

`wide` reads `?` keys and empty keys in flow collections too.
"""
import functools
import itertools
import os
import re
import sys
import urllib.parse

sys.setrecursionlimit(100000)
HERE = os.path.dirname(os.path.realpath(__file__))
sys.path.insert(0, os.path.dirname(HERE))  # for lib
import combinators
from combinators import RULES, STD, Def, Lam, Now, Text, ap
from lib import antt
from lib.arguments import parser
from lib.paths import CRATES, read

SPECS = os.environ.get("SPECS", f"{CRATES}/yaml_definitions/specs/grammar")
OWN_MODULE = re.compile(r"Rattle\.yaml_(?:definitions|text)\.specs\.(?:grammar\.|model\.)?\w+")

# ------------------------------------------------------------------ the translator

TOKEN = re.compile(
    r"""\s+|(?P<str>"(?:\\.|[^"\\])*")|(?P<num>\d+)
    |(?P<op>\+\+|&&|\|\||==|\[\]|[◆⊔▸◂⨾∪∷≡≢≤<×⊎→λ(){},;=:.+\-*])
    |(?P<id>[A-Za-z_ℕ⊥][\w'+-]*(?:\.[A-Za-z_][\w'+-]*)*)|(?P<bad>.)""",
    re.X,
)
# An operator: its precedence, whether it associates to the right, and its Python. An implication is a denial, `P → ⊥`.
OPS = {
    "→": (0, True, "(not %s)"),
    "⊎": (1, True, "(%s or %s)"),
    "×": (2, True, "(%s and %s)"),
    "≡": (3, None, "(%s == %s)"),
    "≢": (3, None, "(%s != %s)"),
    "≤": (3, None, "(%s <= %s)"),
    "<": (3, None, "(%s < %s)"),
    "∷": (5, True, "((%s,) + %s)"),
    "++": (5, True, "(%s + %s)"),
    "||": (6, True, "(%s or %s)"),
    "&&": (7, True, "(%s and %s)"),
    "==": (8, None, "(%s == %s)"),
    "+": (9, False, "(%s + %s)"),
    "-": (9, False, "max(0, %s - %s)"),
    "*": (9.5, False, "(%s * %s)"),
    "∪": (10, True, "either(%s, %s)"),
    "⊔": (10, True, "either(%s, %s)"),
    "⨾": (11, True, "then_rule(%s, %s)"),
    "▸": (12, True, "then_span(%s, %s)"),
    "◂": (13, False, "rule_span(%s, %s)"),
    "◆": (14, True, "then_span(%s, %s)"),
}
END = ("end", None)


def tokens(text):
    found = [(at.lastgroup, at[0]) for at in TOKEN.finditer(text) if at.lastgroup]
    if any(kind == "bad" for kind, _ in found):
        raise SyntaxError(text)
    return found


def python_name(name):
    return name + "_" if name in ("is", "in", "or", "and", "not", "lambda", "with", "def", "from") else name


class Expr:
    """An expression, to Python."""

    def __init__(self, toks, scope):
        self.toks, self.i, self.scope = [*toks, END], 0, scope

    def peek(self):
        return self.toks[self.i]

    def take(self, want=None):
        word = self.peek()[1]
        if want is not None and word != want:
            raise SyntaxError("%r for %r in %r" % (word, want, self.toks))
        self.i += 1
        return word

    def whole(self):
        code = self.expr()
        if self.peek() != END:
            raise SyntaxError("left over: %r" % self.toks[self.i :])
        return code

    def expr(self, least=-1):
        left = self.application()
        while self.peek()[1] in OPS and OPS[self.peek()[1]][0] >= least:
            op = self.take()
            precedence, is_right, code = OPS[op]
            right = self.expr(precedence if is_right else precedence + 0.1)
            if op == "→" and right != "STD['⊥']":
                raise SyntaxError("an implication that is no denial")
            left = code % (left if op == "→" else (left, right))
        return left

    def application(self):
        parts = [self.atom()]
        while True:
            kind, word = self.peek()
            if kind in ("str", "num") or (kind == "id" and word not in ("if", "then", "else")) or word in ("(", "[]", "λ"):
                parts.append(self.atom())
            elif word == "{":  # an implicit argument
                while self.take() != "}":
                    pass
            else:
                return "ap(%s)" % ", ".join(parts) if len(parts) > 1 else parts[0]

    def atom(self):
        kind, word = self.peek()
        self.i += 1
        if kind == "num":
            return word
        if kind == "str":
            return repr(eval(word))
        if word == "[]":
            return "()"
        if word == "if":
            parts = [self.expr(), self.take("then") and self.expr(), self.take("else") and self.expr()]
            return "({1} if {0} else {2})".format(*parts)
        special = {"(": self.parenthesis, "λ": self.function, "record": self.record}
        if word in special:
            return special[word]()
        if kind == "id":
            return self.scope.name(word)
        raise SyntaxError("%r in %r" % (word, self.toks))

    def parenthesis(self):
        parts = [self.expr()]
        while self.peek()[1] == ",":
            self.take()
            parts.append(self.expr())
        self.take(")")
        return parts[0] if len(parts) == 1 else "Pair((%s))" % ", ".join(parts)

    def function(self):
        names = list(iter(self.take, "."))
        outer = self.scope.locals
        self.scope.locals = outer | set(names)
        body = self.expr()
        self.scope.locals = outer
        return "Lam(%d, lambda %s: %s)" % (len(names), ", ".join(map(python_name, names)), body)

    def record(self):
        self.take("{")
        fields, end = [], ";"
        while end == ";":
            fields.append("%s%s%s" % (self.take(), self.take("="), self.expr()))
            end = self.take()
        return "rec(%s)" % ", ".join(fields)


def result_head(signature):
    """The first word of a signature's result, behind the last arrow that is in no brackets."""
    while "(" in signature or "{" in signature:
        signature, old = re.sub(r"\([^(){}]*\)|\{[^(){}]*\}", "_", signature), signature
        if signature == old:
            break
    return signature.split("→")[-1].split()[0]


class File:
    """One .antt file. `own` has its definitions, each with the parameters of its modules, and its constructors with their arity."""

    def __init__(self, world, mod):
        self.world, self.mod, self.own, self.locals = world, mod, {}, set()
        self.open = []  # the parameters of the open modules
        self.used = set()  # the definitions named in the clause in hand
        # in the grammar's folder, in the model's, or next to the code
        folders = (SPECS, f"{SPECS}/../model", f"{CRATES}/yaml_text/specs")
        path = next(path for path in (f"{folder}/{mod}.antt" for folder in folders) if os.path.exists(path))
        self.file = antt.File(path, read(path).split("\n"))
        imports = self.file.imports
        own = {name: found for name, found in imports.names.items() if OWN_MODULE.fullmatch(found[0])}
        self.uses = {name: (module.rsplit(".", 1)[1], given) for name, (module, given) in own.items()}
        self.aliases = {name: module.rsplit(".", 1)[1] for name, module in imports.modules.items() if OWN_MODULE.fullmatch(module)}
        self.declare()

    def each_item(self):
        """The definitions and clauses, each on one line, with self.open the parameters of the modules that are open there."""
        for block in self.file.blocks:
            heads = [head.strip() for head, _ in block.around if head.strip().startswith("module _ ")]
            self.open = [[n for g in re.findall(r"\(([^():]*):", head) for n in g.split()] for head in heads]
            items = []
            for line in (it for it in block.lines if not it.strip().startswith("--")):
                indent = len(line) - len(line.lstrip())
                if items and indent > items[-1][0]:
                    items[-1][1] += " " + line.strip()
                else:
                    items.append([indent, line.strip()])
            yield from (item for _, item in items)
        self.open = []

    def declare(self):
        for item in self.each_item():
            found = re.match(r"(abbrev|unfoldable) pub (\S+) : (.*)$", item)
            if item.startswith("pub data "):
                for names, kind in re.findall(r"((?:[\w]+ )+): (.*?)(?= (?:[\w]+ )+: |$)", item.split(" where ", 1)[1]):
                    self.own.update((name, ("con", kind.count("→"))) for name in names.split())
            elif found and found[3].strip() != "Type 0":
                definition = Def(self.mod + "." + found[2], result_head(found[3]) in ("Span", "Rule"), found[1] == "unfoldable")
                self.own[found[2]] = ("def", definition, list(self.open))
                self.world.defs[definition.name] = definition

    def name(self, word):
        """A name in an expression, to Python."""
        head, _, rest = word.partition(".")
        if head in self.locals:
            return "field(%s, %r)" % (python_name(head), rest) if rest else python_name(word)
        if rest:
            return self.world.files[self.aliases[head]].export(rest, self)
        if word in self.own:
            return self.inside(word) or self.export(word, self)
        module, given = self.uses.get(word, (None, word))
        if module and module != "Rules":
            return self.world.files[module].export(given, self)
        if word in RULES and module:
            return "RULES[%r]" % word
        if word in STD:
            return "STD[%r]" % word
        raise NameError("%s in %s" % (word, self.mod))

    def inside(self, word):
        """A definition of this file, applied to the parameters of the modules that are open both there and here, if there are some."""
        shared = []
        for theirs, ours in zip(self.own[word][2] if self.own[word][0] == "def" else (), self.open):
            if theirs != ours:
                break
            shared += theirs
        if not shared:
            return None
        self.used.add(self.own[word][1])
        return "ap(%s)" % ", ".join(["D[%r]" % self.own[word][1].name, *map(python_name, shared)])

    def export(self, word, user):
        """A name of this file in a file that uses it, to Python."""
        kind, what = self.own[word][:2]
        if kind == "con":
            return "CON[%r]" % ("%s/%d" % (word, what)) if what else repr((word,))
        user.used.add(what)
        return ("D[%r]" if what.n else "ap(D[%r])") % what.name

    def pattern(self, expr, env):
        """A pattern: a name, or one in parentheses. Its variables are added to env."""
        word = expr.take()
        if word == "(":
            found = self.pattern_inside(expr, env)
            expr.take(")")
            return found
        if word == "_":
            return ("_",)
        module, given = self.uses.get(word, (None, word))
        kinds = [file.own.get(given, ("",))[0] for file in (self, self.world.files.get(module)) if file is not None]
        if word in ("[]", "zero", "true", "false", "None", "suc", "Some") or "con" in kinds:
            return ("con", word.split(".")[-1], [])
        env.append(word)
        return ("var", word)

    def pattern_inside(self, expr, env):
        """Inside parentheses: a constructor and its arguments, or x ∷ xs."""
        found = self.pattern(expr, env)
        while found[0] == "con" and expr.peek()[1] not in (")", "∷"):
            found[2].append(self.pattern(expr, env))
        if expr.peek()[1] == "∷":
            expr.take()
            return ("con", "∷", [found, self.pattern_inside(expr, env)])
        return found

    def clauses(self):
        """Each clause: its definition, its text, the expression from its `=` on, its patterns and their variables."""
        for item in self.each_item():
            word = item.split()[0]
            if self.own.get(word, ("",))[0] != "def" or word in self.world.skipped or " = " not in item:
                continue
            expr = Expr(tokens(item), self)
            expr.take(word)
            env = [name for names in self.own[word][2] for name in names]
            patterns = [("var", name) for name in env]
            while expr.peek()[1] != "=":
                patterns.append(self.pattern(expr, env))
            expr.take("=")
            yield self.own[word][1], item, expr, patterns, env

    def translate(self):
        for definition, item, expr, patterns, env in self.clauses():
            self.locals, self.used = set(env), definition.uses
            code = "lambda %s: %s" % (", ".join(map(python_name, env)), expr.whole())
            self.locals, self.used = set(), set()
            self.world.code.append((definition.name, item, code))
            definition.clauses.append((patterns, eval(code, self.world.env)))


class World:
    """All definitions, translated; in their Python are the names of `env` too."""

    skipped = {"ReadsText", "Unread"}
    mods = "Limits Event Tag Characters Events Separation Tags FlowScalars BlockScalars Nodes Directives Streams Calls".split()

    def __init__(self, **env):
        self.defs, self.code, self.files = {}, [], {}
        for mod in self.mods:
            self.files[mod] = File(self, mod)
        entries = [(name, entry[1]) for file in self.files.values() for name, entry in file.own.items() if entry[0] == "con"]
        made = {"%s/%d" % (name, n): Lam(n, functools.partial(lambda name, *parts: (name, *parts), name)) for name, n in entries if n}
        self.env = {**vars(combinators), **combinators.MADE, **env, "D": self.defs, "CON": made}
        for file in self.files.values():
            for definition, _, _, patterns, _ in file.clauses():
                definition.n = len(patterns)
        for file in self.files.values():
            file.translate()

    def __getitem__(self, name):
        return self.defs[name]


@functools.cache
def world():
    return World()


# ------------------------------------------------------------------ readings of a text

STYLES = {"plain": ":", "single": "'", "double": '"', "literal": "|", "folded": ">"}
STARTS = {"stream_start": "+STR", "stream_end": "-STR", "sequence_start": "+SEQ", "sequence_end": "-SEQ", "mapping_start": "+MAP"}
STARTS |= {"mapping_end": "-MAP", "document_start": "+DOC", "document_end": "-DOC", "scalar_event": "=VAL", "alias_event": "=ALI *"}
FLAGS = {"document_start": " ---", "document_end": " ...", "sequence_start": " []", "mapping_start": " {}"}
ESCAPES = str.maketrans({"\\": "\\\\", "\n": "\\n", "\t": "\\t", "\r": "\\r", "\b": "\\b"})


def readings(of_world, codes, wide=False, room=128):
    """The readings of a text: where each ends, and its pieces; and the event list of each, as specs/Event.antt has events."""
    Now.memo, Now.N, cs = {}, len(codes), Text(codes)
    stream = ap(of_world["Streams.l-yaml-stream"], cs, wide, room)
    found = [x for x in stream.at(0) if x[0] == len(cs)]
    return stream, found, {ap(of_world["Streams.stream_of_pieces"], pieces) for _, pieces in found}


def line_of(event):
    """An event in the notation of event text, as `yamlcanon events` prints it."""

    def as_text(codes):
        return bytes(codes).decode("utf-8")

    kind, parts = event[0], event[1:]
    line = STARTS[kind] + (FLAGS[kind] if kind in FLAGS and parts[0] is True else "")
    if kind == "alias_event":
        return line + as_text(parts[0])
    if kind in ("sequence_start", "mapping_start", "scalar_event"):
        anchor, tag = parts[:2] if kind == "scalar_event" else parts[1:]
        line += " &" + as_text(anchor[1]) if anchor[0] != "None" else ""
        written = {"untagged": "", "non_specific": " <!>"}.get(tag[0])
        line += " <%s>" % urllib.parse.quote(bytes(tag[1]), safe="-;/?:@&=+$,_.!~*'()[]#") if written is None else written
    return line + (" " + STYLES[parts[2][0]] + as_text(parts[3]).translate(ESCAPES) if kind == "scalar_event" else "")


def event_texts(text, wide=False, room=128):
    events = readings(world(), tuple(map(ord, text)), wide, room)[2]
    return {"".join(line_of(event) + "\n" for event in each) for each in events}


# ------------------------------------------------------------------ the command


def dump(asked):
    for name, clause, code in world().code:
        print("# %s\n%s = %s\n" % (clause, name, code))


def show_events(asked):
    with open(asked.file, newline="", encoding="utf-8") as file:
        print(*event_texts(file.read(), asked.wide == "wide"), sep="--\n", end="")


def short_texts(alphabet, longest, prefix=""):
    return (prefix + "".join(letters) for size in range(longest + 1) for letters in itertools.product(alphabet, repeat=size))


def short(asked):
    counts = []
    alphabet, prefix = (it.encode("latin-1", "backslashreplace").decode("unicode_escape") for it in (asked.alphabet, asked.prefix))
    for text in short_texts(alphabet, asked.longest, prefix):
        counts.append(len(event_texts(text, asked.wide == "wide")))
        if counts[-1] > 1:
            print("two event lists: %r" % text)
    read, twice = (sum(count >= least for count in counts) for least in (1, 2))
    print("%d texts, %d read, %d with two event lists" % (len(counts), read, twice))


def main(words=None):
    given = parser("tools/definitions/shadow.py", __doc__)
    commands = given.add_subparsers(dest="command", required=True)
    commands.add_parser("dump", help="print each clause with the Python that it becomes").set_defaults(does=dump)
    events = commands.add_parser("events", help="print the events of every reading of a file")
    events.add_argument("file", metavar="FILE")
    texts = commands.add_parser("short", help="run each short text")
    texts.add_argument("alphabet", metavar="ALPHABET")
    texts.add_argument("longest", type=int, metavar="LENGTH")
    texts.add_argument("prefix", nargs="?", default="", metavar="PREFIX")
    for command, does in ((events, show_events), (texts, short)):
        command.add_argument("wide", nargs="?", default="", choices=("", "wide"))
        command.set_defaults(does=does)
    asked = given.parse_args(words)
    asked.does(asked)


if __name__ == "__main__":
    sys.exit(main())
