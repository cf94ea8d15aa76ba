"""shapes.py: texts that would hurt a reader, composer or writer that looks at something again and again.

A shape gives a text of about so many bytes. Most are a head, a piece as often as there is room for it, and a tail; in a piece `@`
stands for the piece's number, in seven hexadecimal digits.
"""
DEEP = 1000
PREFIX = "p" * 1016
# The characters that the rest of a tag may have, but for `%` (YAML 1.2.2, 6.9.1).
TAG_CHARACTERS = "abcdefghijklmnopqrstuvwxyzABCDEFGHIJKLMNOPQRSTUVWXYZ0123456789-;/?:@&=+$_.~*'()#"


def filled(head, piece, tail, size):
    """The head, the piece at least once and as often as the size allows, and the tail."""
    times = max(1, (size - len(head.encode()) - len(tail.encode())) // len(piece.replace("@", "0000000").encode()))
    many = "".join(piece.replace("@", "%07x" % number) for number in range(times)) if "@" in piece else piece * times
    return (head + many + tail).encode()


def nest(times, inner):
    """Sequences in one another, each the key of a pair in the next."""
    return "[" * times + inner + "]:" * (times - 1) + "]"


def bound(prefix, handle="!"):
    return "%TAG " + handle + " " + prefix + "\n---\n"


# name: head, piece, tail
TABLES = {
    "many events for few bytes": {
        "empty_seqs": ("[", "[],", "]"),
        "empty_maps": ("[", "{},", "]"),
        "empty_pairs": ("[", ":,", "]"),
        "explicit_pairs": ("[", "? ,", "]"),
        "pairs_in_braces": ("[", "{:},", "]"),
        "pairs_in_pairs": ("[", "[:],", "]"),
        "pairs_asked": ("[", "?\n,", "]"),
        "pairs_of_pairs": ("[", "[:]:[:],", "]"),
        "quotes_empty": ("[", "'',", "]"),
        "quotes_pairs": ("[", "'':,", "]"),
        "seq_of_one": ("[", "[a],", "]"),
        "seq_of_nine": ("[", "[a,a,a,a,a,a,a,a,a],", "]"),
        "seq_of_empty_pairs": ("[", "[:,:],", "]"),
        "map_empty_in_pair": ("[", "{}:,", "]"),
        "seq_empty_in_pair": ("[", "[]:[],", "]"),
        "plain_words": ("[", "a,", "]"),
        "words_wide": ("[", "é,", "]"),
        "nulls": ("[", "~,", "]"),
        "null_words": ("[", "null,", "]"),
        "block_dashes": ("", "-\n", ""),
        "block_dashes_space": ("", "- \n", ""),
        "block_in_block": ("", "- -\n", ""),
        "block_key_seq": ("", "- a:\n", ""),
        "block_keys_nested": ("", "a:\n a:\n  a:\n   a:\n---\n", ""),
        "compact_maps": ("", "- a: b\n  c: d\n", ""),
        "carriage_lines": ("", "- a\r", ""),
    },
    "documents and directives": {
        "documents": ("", "---\n", ""),
        "documents_bare": ("", "a\n...\n", ""),
        "documents_marks": ("", "---\n...\n", ""),
        "suffixes": ("", "...\n", ""),
        "documents_distinct": ("", "--- a@\n", ""),
        "documents_seqs": ("", "--- [a@, b]\n", ""),
        "documents_pairs": ("", "--- [:]\n", ""),
        "documents_anchors": ("", "--- [&a [b], *a]\n", ""),
        "documents_braces": ("", "{? }\n---\n", ""),
        "documents_directives": ("", "%TAG ! a\n---\n!a\n...\n", ""),
        "documents_of_anchors": ("", "--- [" + ",".join("&%02x " % name for name in range(100)) + "]\n", ""),
        "handles": ("", "%TAG !@! a\n", "---\na"),
        "handles_alone": ("", "%TAG !@! a\n", ""),
        "reserved": ("", "%A\n", "---\na"),
        "reserved_comments": ("", "%A b # c\n# d\n", "---\na"),
        "reserved_long": ("%A ", "b ", "\n---\na"),
        "version_digits": ("%YAML 1.", "2", "\n---\n"),
    },
    "anchors and aliases": {
        "aliases": ("[&a ,", "*a,", "]"),
        "anchors": ("[", "&a ,", "]"),
        "anchors_distinct": ("[", "&@ ,", "]"),
        "anchors_and_aliases": ("[&0000000 ", ",&@ ,*0000000", "]"),
        "aliases_of_pairs": ("[&a [:],", "*a,", "]"),
        "aliases_keys": ("[&a a,", "{*a :},", "]"),
        "aliases_pairs": ("[&a a,", "*a :,", "]"),
        "keys_by_alias": ("[&a [b],", "{*a : @},", "]"),
        "again_short": ("[&a " + "a" * 40 + ",", "*a,", "]"),
        "again_long": ("[&a " + "a" * 100 + ",", "*a,", "]"),
        "again_tagged": (bound(PREFIX) + "[&a !a [],", "*a,", "]"),
        "doubling": ("[", "&a [x, x],&b [*a, *a],&c [*b, *b],&d [*c, *c],&e [*d, @],", "]"),
        "doubling_lines": ("", "---\n- &a [x, x]\n" + "- &b [*a, *a]\n- &a [*b, *b]\n" * 510, ""),
        "tower": ("[", "&a [x]," + "".join("&%s [*%s,*%s]," % ("ba"[k % 2], "ab"[k % 2], "ab"[k % 2]) for k in range(500)), "]"),
    },
    "tags": {
        "tags_short": ("[", "!a,", "]"),
        "tags_alone": ("[", "!,", "]"),
        "tags_distinct": ("[", "!@ ,", "]"),
        "tags_null": ("[", "!!null ,", "]"),
        "tags_str": ("[", "!!str ,", "]"),
        "tags_long": (bound(PREFIX) + "[", "!a,", "]"),
        "tags_long_turns": (bound(PREFIX) + "[", "!a,!b,", "]"),
        "tags_long_ten": (bound(PREFIX) + "[", "!a,!b,!c,!d,!e,!f,!g,!h,!i,!j,", "]"),
        "tags_long_distinct": (bound(PREFIX) + "[", "!@,", "]"),
        "tags_long_keys": (bound(PREFIX) + "{", "!@ :,", "}"),
        "tags_long_anchors": (bound(PREFIX) + "[", "&a !a,", "]"),
        "tags_escaped": (bound("%41" * 1023) + "[", "!a,", "]"),
        "tags_escaped_keys": (bound("%41" * 1023) + "[", "!a :,", "]"),
        "tags_escaped_seqs": (bound("%41" * 1023) + "[", "!a [],", "]"),
        "tags_escaped_block": (bound("%41" * 1023), "- !a\n", ""),
        "tags_escaped_handle": (bound("%41" * 1023, "!!") + "[", "!!a,", "]"),
        "tags_zeros": (bound("%00" * 1023) + "[", "!a,", "]"),
        "tags_zeros_turns": (bound("%00" * 1023) + "[", "!a,!b,", "]"),
        "tags_zeros_distinct": (bound("%00" * 1017) + "[", "!@,", "]"),
        "tags_wide": (bound("%F0%9F%98%80" * 255) + "[", "!a,", "]"),
        "tags_too_long": (bound("%41" * 1024) + "[", "!a,", "]"),
        "tags_suffix_escapes": ("[", "!" + "%41" * 1000 + " ,", "]"),
        "tags_verbatim": ("[", "!<" + "a" * 1000 + "> ,", "]"),
        "verbatim_long": ("!<", "a", "> b"),
        "verbatim_escapes": ("!<", "%41", "> b"),
        "bangs": ("!", "a", " b"),
    },
    "keys": {
        "keys_equal": ("", "a:\n", ""),
        "keys_block": ("", "k@:\n", ""),
        "keys_flow": ("{", "@,", "}"),
        "keys_long_alike": ("", "k" * 480 + "@:\n", ""),
        "keys_collections": ("{", "[@]:,", "}"),
        "keys_two_levels": ("{", "{a: {b: @}}: c,", "}"),
        "keys_ints": ("{", "0x1@: a,", "}"),
        "keys_floats": ("{", "1.@e5: a,", "}"),
        "pairs_single": ("[", "@: a,", "]"),
        "keys_nested": ("[", nest(340, "a") + ":,", "]"),
        "keys_nested_pairs": ("[", nest(292, ":," * 73) + ":,", "]"),
        "keys_nested_fewer": ("[", nest(100, ":," * 360) + ":,", "]"),
        "keys_nested_block": ("", "- " + nest(292, ":," * 73) + ":\n", ""),
        "keys_nested_values": ("[", "[" * 204 + "a" + "]: a" * 204 + ",", "]"),
        "keys_nested_braces": ("[", "{" * 500 + "a" + "}:" * 499 + "},", "]"),
        "key_of_pairs": ("[", "[" + ":," * 510 + "]:,", "]"),
        "key_of_pairs_block": ("", "- [" + ":," * 510 + "]:\n", ""),
        "key_1000": ("[", "a" * 1020 + ": ,", "]"),
        "key_wide": ("[", "😀" * 1000 + ": a,", "]"),
        "key_too_long": ("[", "a,", "]: b"),
        "key_double_too_long": ('"', "a", '": b'),
        "keys_quoted_wrong": ("", '"a" b\n', ""),
        "key_of_lines": ("{", "a\n", ": b}"),
        "words_1000": ("[", "a" * 1000 + ",", "]"),
        "asked_nested": ("[" + "? [" * 500, "a,", "]" * 501),
        "asked_nested_braces": ("{? " * DEEP, "a,", "}" * DEEP),
        "questions": ("[", "? ", "]"),
        "colons": ("{", ": ", "}"),
    },
    "plain and quoted scalars": {
        "plain_long": ("", "a", ""),
        "plain_words_long": ("", "a ", "b"),
        "plain_lines": ("", "a\n", ""),
        "plain_blank": ("a", "\n", "b"),
        "plain_blank_spaces": ("a", "\n ", "\n b"),
        "plain_colons": ("a", ":", "b"),
        "plain_hashes": ("a", "#", "b"),
        "plain_wide": ("", "😀", ""),
        "plain_gap_hash": ("[", "a" + " " * 1000 + "#\n,", "]"),
        "plain_line_gap": ("", "- a" + "\n" * 1000, "- b\n"),
        "single_long": ("'", "a", "'"),
        "single_quotes": ("'", "''", "'"),
        "single_lines": ("'", "a\n", "'"),
        "single_blank": ("'", "\n", "'"),
        "single_gap": ("[", "'a" + "\n" * 500 + "b',", "]"),
        "double_long": ('"', "a", '"'),
        "double_escapes": ('"', "\\n", '"'),
        "double_x01": ('"', "\\x01", '"'),
        "double_wide": ('"', "\\U0001F600", '"'),
        "double_u0085": ('"', "\x85", '"'),
        "double_joined": ('"', "\\\n", '"'),
        "double_lines": ('"', "a\n", '"'),
        "double_blank": ('"', "\n", '"'),
        "double_spaces": ('"', " ", '"'),
        "double_space_lines": ('"', "  \n", '"'),
        "double_gap": ("[", '"a' + " " * 500 + "\n" + " " * 500 + 'b",', "]"),
        "double_escaped_gap": ("[", '"a\\\n' + " " * 1000 + 'b",', "]"),
        "double_quotes_in": ("[", '"\\"",', "]"),
        "wide_by_turns": ('"', "aé", '"'),
        "scalars_distinct": ("[", "@,", "]"),
        "scalars_alike": ("[", "x" * 240 + "@,", "]"),
    },
    "block scalars": {
        "literal_lines": ("--- |\n", " a\n", ""),
        "literal_blank": ("--- |+\n", "\n", ""),
        "literal_blank_clip": ("--- |\n", "\n", ""),
        "literal_spaces": ("--- |\n", " ", "\n a"),
        "literal_spaces_lines": ("- |\n", " " * 1000 + "\n", " " * 1000 + "a\n"),
        "literal_deep": ("- " * DEEP + "|\n", " " * 2000 + "a\n", ""),
        "literals": ("", "- |\n a\n", ""),
        "literals_empty": ("", "- |\n", ""),
        "literals_blank": ("", "- |\n" + "\n" * 1000, ""),
        "literals_keep": ("", "- |+\n a\n" + "\n" * 1000, ""),
        "literal_comments": ("- |\n a\n", "# c\n", "- b\n"),
        "literals_bad_comment": ("", "- |\n  a\n # c\n", ""),
        "folded_lines": ("--- >\n", " a\n", ""),
        "folded_blank": ("--- >\n a\n", "\n", " b\n"),
        "folded_spaced": ("--- >\n", " a\n  b\n", ""),
        "folded_gaps": ("- >\n", "  a\n" + "\n" * 10, ""),
    },
    "the core schema": {
        "int_zeros": ("", "0", "1"),
        "int_nines": ("", "9", ""),
        "hex_zeros": ("0x", "0", "1"),
        "octal_sevens": ("0o", "7", ""),
        "float_zeros": (".", "0", "1"),
        "float_tail_zeros": ("1.", "0", ""),
        "float_digits": ("1.", "123456789", ""),
        "float_exponent_zeros": ("1e", "0", "1"),
        "float_exponent_nines": ("0e", "9", ""),
        "float_almost": ("1.", "0", "x"),
        "ints": ("[", "170141183460469231731687303715884105727,", "]"),
        "floats": ("[", ".5,", "]"),
        "ints_long": ("[", "0" * 1000 + "1,", "]"),
        "floats_long": ("[", "1." + "0" * 1000 + "1,", "]"),
        "exponents_long": ("[", "1e" + "0" * 1000 + "1,", "]"),
    },
    "separation and comments": {
        "spaces": ("[", " ", "a]"),
        "line_feeds": ("", "\n", "a"),
        "space_lines": ("", " \n", "a"),
        "comments": ("", "#\n", "a"),
        "comment_long": ("#", "c", "\n"),
        "comments_in_flow": ("[", " #\n", "]"),
        "lines_in_flow": ("[", "\n", "]"),
        "carriage_returns": ("", "\r", "a"),
        "both_breaks": ("", "\r\n", "a"),
        "gap_before_comma": ("[", "a" + "\n " * 500 + ",", "]"),
        "gap_nested": ("[" * 500, "[a" + "\n " * 100 + "],", "]" * 500),
        "gap_in_map": ("{", "? k@" + "\n " * 500 + ",", "}"),
        "property_gaps": ("[", "!a" + " " * 1000 + "&b" + " " * 1000 + ",", "]"),
        "property_lines": ("[", "!a #c\n &b #c\n ,", "]"),
        "property_lines_block": ("", "- !a\n  &b\n  x\n", ""),
        "property_comments": ("", "- !a # c\n  b: !c # d\n    e\n", ""),
        "comments_between": ("", "- a # c\n" + "  # c\n" * 100, ""),
    },
    "refused": {
        "brackets_open": ("", "[", ""),
        "braces_open": ("", "{", ""),
        "braces_key_open": ("", "{a: ", ""),
        "commas": ("[", ",", ""),
        "dashes_open": ("", "- ", ""),
        "stars": ("*", "a", ""),
        "ampersands": ("&", "a", " b"),
        "bytes_zero": ("", "\0", ""),
        "marks": ("\ufeff", "\ufeff", ""),
        "late_alias": ("[", "a,", "*x]"),
        "late_alias_anchors": ("[", "&@ ,", "*x]"),
        "late_syntax": ("[", "[a: b],", "}"),
        "late_tab": ("", "- a: b\n", "\t- c"),
        "late_pairs": ("[", ":,", "*x]"),
    },
    "depth": {
        "deep_items": ("[" * DEEP, "a,", "]" * DEEP),
        "deep_spaces": ("[" * DEEP, " ", "]" * DEEP),
        "deep_lines": ("[" * DEEP, "\n", "]" * DEEP),
        "deep_comments": ("[" * DEEP, " #\n", "]" * DEEP),
        "deep_plain": ("[" * DEEP, "a", "]" * DEEP),
        "deep_double": ("[" * DEEP + '"', "a", '"' + "]" * DEEP),
        "deep_lines_each": ("", "[\n" * 500 + "]" * 500 + "\n---\n", ""),
        "deep_pairs": ("[a: " * 500, "b,", "]" * 500),
        "deep_pairs_keys": ("[" * DEEP, "[a]: b,", "]" * DEEP),
        "deep_pairs_flat": ("[: " * 510 + "[", ":,", "]" * 511),
        "deep_block_comments": ("- " * DEEP + "a\n", "# c\n", "- b\n"),
        "deep_block_blank": ("- " * DEEP + "a\n", "\n", "- b\n"),
        "deep_block_plain": ("- " * DEEP + "a\n", "\n", "  " * DEEP + "b\n"),
        "deep_block_literal": ("- " * DEEP + "|\n", "\n", "- b\n"),
        "deep_blocks": ("", "- " * 1020 + "a\n", ""),
        "deep_block_maps": ("", "".join(" " * k + "a:\n" for k in range(300)) + "---\n", ""),
        "deep_dents": ("", "- " * 10 + "a\n", ""),
        "deep_maps_comments": ("".join(" " * k + "a:\n" for k in range(300)), "# c\n", ""),
        "dedents": ("", "".join(" " * k + "-\n" for k in range(300)) + "---\n", ""),
        "dedents_maps": ("", "".join(" " * k + "a:\n" for k in range(300)) + "b:\n---\n", ""),
        "flow_in_maps": ("", "a: [{b: [{c: d}]}]\n---\n", ""),
        "compact_nested": ("", "- " * 500 + "a: b\n", ""),
        "chains": ("[", "[" * 500 + "a" + "]" * 500 + ",", "]"),
        "chains_distinct": ("[", "[" * 500 + "@" + "]" * 500 + ",", "]"),
        "chains_maps": ("[", "{a: " * 300 + "@" + "}" * 300 + ",", "]"),
        "chains_short": ("[", "[[[@]]],", "]"),
        "chains_alike": ("[", "[" * 16 + "@" + "]" * 16 + ",", "]"),
    },
    "ranks": {
        "seqs_alike": ("[", "[" + "a," * 100 + "@],", "]"),
        "seqs_alike_long": ("[", "[" + "a," * 1000 + "@],", "]"),
        "seqs_of_aliases": ("[&a a,", "[" + "*a," * 300 + "@],", "]"),
        "pairs_alike": ("[", "[" + ":," * 100 + "@],", "]"),
        "pairs_same": ("", "- {key of a pair: and its value that is longer than sixty bytes}\n", ""),
        "items_alike": ("[", "x" * 17 + "@,", "]"),
    },
}
SHAPES = {}


def shape(function):
    SHAPES[function.__name__] = function
    return function


def by_table(head, piece, tail):
    return lambda size: filled(head, piece, tail, size)


for table in TABLES.values():
    for name, parts in table.items():
        SHAPES[name] = by_table(*parts)


# ---- shapes whose head grows too


def half_and_aliases(before, letter, after, use="*a,"):
    """Half of the bytes are one node, the other half aliases of it."""
    return lambda size: filled("[" + before + letter * (size // 2 // len(letter.encode())) + after + ",", use, "]", size)


SHAPES["again_half"] = half_and_aliases("&a ", "a", "")
SHAPES["again_half_double"] = half_and_aliases('&a "', "a", '"')
SHAPES["again_half_tag"] = half_and_aliases("&a !a ", "a", "")
SHAPES["again_half_escapes"] = half_and_aliases('&a "', "\\x01", '"')
SHAPES["again_half_wide"] = half_and_aliases('&a "', "é", '"')
SHAPES["again_half_keys"] = half_and_aliases("&a ", "a", "", "{*a :},")
SHAPES["again_half_values"] = half_and_aliases("&a ", "a", "", ":  *a,")
SHAPES["again_half_items"] = half_and_aliases("&a [", "a,", "]")


@shape
def again_root(size):
    """As many scalars as the root of half of the bytes, each as long, and aliases of them by turns."""
    many = max(14, int((size / 2) ** 0.5))
    head = "".join("&%05x %05x%s," % (k, k, "a" * max(1, many - 13)) for k in range(many))
    return filled("[" + head, "".join("*%05x," % k for k in range(many)), "]", size)


def handles_then_tags(used):
    """Half of the bytes bind handles, the other half use one of them."""

    def text(size):
        many = max(1, size // 38)
        return filled("".join("%%TAG !%07x! a\n" % k for k in range(many)) + "---\n[", "!%07x!x," % used(many), "]", size)

    return text


SHAPES["handles_last_used"] = handles_then_tags(lambda many: many - 1)
SHAPES["handles_first_used"] = handles_then_tags(lambda many: 0)

MULTIPLIER, START, MASK = 0x9E3779B97F4A7C15, 0x243F6A8885A308D3, (1 << 64) - 1
LETTERS = "0123456789abcdefghijklmnopqrstuvwxyzABCDEFGHIJKLMNOPQRSTUVWXYZ-"


def folded(a, b):
    return (a * b & MASK) ^ (a * b >> 64)


def colliding(many):
    """Handles of 44 bytes with one hash, by the fixed seed of the toolchain's hasher, should a map ever use it for them: eight
    bytes that make the state 0, and then any four."""
    for number in range(1 << 30):
        head = ("!%015d" % number).encode()
        first, second = int.from_bytes(head[:8], "little"), int.from_bytes(head[8:], "little")
        state = folded(first ^ (START + 44 & MASK), second ^ MULTIPLIER).to_bytes(8, "little")
        if all(chr(byte) in LETTERS for byte in state):
            break
    for number in range(many):
        yield head.decode() + state.decode() + "".join(LETTERS[number // 63**place % 63] for place in range(4)) + "a" * 15 + "!"


@shape
def handles_colliding(size):
    return ("".join("%%TAG %s a\n" % handle for handle in colliding(size // 52)) + "---\na").encode()


@shape
def handles_colliding_used(size):
    handles = list(colliding(size // 104))
    return filled("".join("%%TAG %s a\n" % handle for handle in handles) + "---\n[", handles[-1] + "x,", "]", size)


# ---- nodes in other orders


def ordered(head, form, tail, number):
    """The form with number(k, many) for each k below many."""

    def text(size):
        many = max(1, (size - len(head) - len(tail)) // len(form % 0))
        return (head + "".join(form % number(k, many) for k in range(many)) + tail).encode()

    return text


def falling(k, many):
    return many - k


def shuffled(k, many):
    return k * 2654435761 % (1 << 28)


for order in (falling, shuffled):
    for name, head, form, tail in [
        ("anchors", "[", "&%07x ,", "]"),
        ("keys", "", "k%07x:\n", ""),
        ("tags", bound(PREFIX) + "[", "!%07x,", "]"),
        ("scalars", "[", "z%07x,", "]"),
        ("scalars_long", "[", "x" * 1000 + "%07x,", "]"),
        ("seqs", "[", "[" + "a," * 300 + "%07x],", "]"),
    ]:
        SHAPES[name + "_" + order.__name__] = ordered(head, form, tail, order)


@shape
def tags_of_prefixes(size):
    """Documents, each with a prefix of its own of 1,022 bytes and all tags of two characters: four bytes are a new tag of 1,024 bytes."""
    items = "".join("!" + a + b + "," for a in TAG_CHARACTERS for b in TAG_CHARACTERS)
    document = "%%TAG ! %s\n---\n[" + items + "]\n"
    many = max(1, size // len(document % ("p" * 1022)))
    return "...\n".join(document % ("%06d" % number).ljust(1022, "p") for number in range(many)).encode()


@shape
def late_undefined(size):
    many = size // 18
    return ("[" + "".join("&%07x ," % k for k in range(many)) + "*0000000," * many + "*x]").encode()


@shape
def late_equal_keys(size):
    many = size // 10
    return ("".join("k%07x:\n" % k for k in range(many)) + "k%07x:\n" % (many - 1)).encode()


@shape
def anchors_long(size):
    """Names of 200 bytes that differ at their end, and aliases of them in another order."""
    many, front = max(1, size // 420), "a" * 200
    return (
        "["
        + "".join("&%s%07x ," % (front, k * 7919 % many) for k in range(many))
        + "".join("*%s%07x," % (front, k * 104729 % many) for k in range(many))
        + "]"
    ).encode()


@shape
def anchor_huge(size):
    """One name of a tenth of the bytes, nine times."""
    name = "a" * (size // 10)
    return ("[&" + name + " ," + ("*" + name + ",") * 8 + "]").encode()


@shape
def scalars_huge(size):
    """A hundred scalars that differ at their end."""
    front = "x" * (size // 100 - 4)
    return ("[" + "".join("%s%02d," % (front, k * 37 % 100) for k in range(100)) + "]").encode()


@shape
def maps_turned(size):
    """Mappings of the same 40 keys, each turned by one more."""
    keys = ["[%02d]: a" % k for k in range(40)]
    return filled("[", "".join("{" + ",".join(keys[k:] + keys[:k]) + "}," for k in range(40)), "]", size)


@shape
def tower_wide(size):
    """A tower of 100 sequences, each with many aliases of the one below."""
    wide = max(1, size // 300)
    return ("[&a []," + "".join("&%s [%s]," % ("ba"[k % 2], ("*%s," % "ab"[k % 2]) * wide) for k in range(100)) + "]").encode()


# ---- texts that are no UTF-8


@shape
def bytes_bad(size):
    return b"\xff" * size


@shape
def wide_cut(size):
    return "😀".encode() * (size // 4) + b"\xf0"


def shapes_named(names, given):
    """The shapes of these names, or all where none is named. A name of no shape is an error of the arguments."""
    unknown = [name for name in names if name not in SHAPES]
    if unknown:
        given.error(f"no such shape: {' '.join(unknown)}; the shapes are {' '.join(SHAPES)}")
    return names or list(SHAPES)
