/* yamlcanon.h: the canonical text of YAML 1.2 streams, and whether two streams mean the same.
 *
 * tools/library builds libyamlcanon.a, libyamlcanon.so.1 and yamlcanon.pc. What a call answers is proved against its
 * contract in crates/yaml_c/src (calls.rt, show.rt, diff.rt, values.rt, position.rt), which say which text, which answer
 * and which error. Not proved are the bound of memory and yamlcanon_release; nothing checks this header against the contracts,
 * nor what a caller passes.
 *
 * A caller owes, for the time of the call:
 *   - input, left, right: readable for their lengths, which are at most PTRDIFF_MAX, and written by nobody;
 *   - out: cap bytes that nobody else reads or writes, and so the three rooms of rooms; len, lengths, fault, line, column:
 *     one value of their type each. All are initialised, and overlap neither one another nor an input. left and right may
 *     be the same bytes;
 *   - no pointer is null, but input, left and right where their length is 0, and out and each room where its cap is 0;
 *   - malloc, realloc and free of one allocator; no call from a signal handler, or from the forked child of a process
 *     with threads;
 *   - 1,792 KiB of stack. The deepest input takes 1,400 kB. Where the stack is smaller, as on threads that have 128 KiB
 *     by default, such an input ends the process by a fault. An input of n bytes, up to 1,024, takes no more than
 *     256 + 1.5 * n KiB. yamlcanon_message, yamlcanon_position of a fault from 2 to 11, and those without arguments take
 *     less than 16 KiB.
 *
 * The calls print nothing, open nothing, never end the process, hold no state but the bound of memory, keep no memory
 * and no pointer after they return, and may run on any number of threads at once. An input has at most 67,108,864
 * bytes, and so has a text. A text is UTF-8, ends in a line feed (an input with no document has the empty text), and
 * has no null byte after it.
 */
#ifndef YAMLCANON_H
#define YAMLCANON_H

#include <stddef.h>
#include <stdint.h>

#ifdef __cplusplus
extern "C" {
#endif

/* 100 times the number of the interface, with which the shared library's name ends, and the number of what was added. */
#define YAMLCANON_VERSION 101
#define YAMLCANON_VERSION_TEXT "1.1"

/* The release of this header. */
#define YAMLCANON_RELEASE "1.1.0"

/* The form of the texts that yamlcanon_canonical gives: yamlcanon-form-1. Another form has another soname. */
#define YAMLCANON_FORM 1

/* What a call answers, as the program yamlcanon does by its exit status. */
enum {
    YAMLCANON_DONE = 0,      /* done; of two streams: the same */
    YAMLCANON_DIFFERENT = 1, /* the two streams differ, and yamlcanon_diff gives a text */
    YAMLCANON_REFUSED = 2,   /* an input is rejected, and *fault says why */
    YAMLCANON_SHORT = 3,     /* out has less room than the text, whose length is in *len */
    YAMLCANON_NO_JSON = 4,   /* yamlcanon_json alone: JSON cannot express the stream */
    YAMLCANON_UNLIKE = 5,    /* yamlcanon_json alone: the lines did not pass their check. No input is known for this */
    YAMLCANON_NO_MEMORY = 6  /* the calls for positions alone: there is no memory to read the input again */
};

/* The numbers of faults. A number is never used again; a later library may have more. */
enum {
    YAMLCANON_FAULT_TOO_LONG = 1,
    YAMLCANON_FAULT_NOT_UTF8 = 2, /* 2 to 11: place is a byte of the input */
    YAMLCANON_FAULT_NOT_PRINTABLE = 3,
    YAMLCANON_FAULT_SYNTAX = 4,
    YAMLCANON_FAULT_TAB = 5,
    YAMLCANON_FAULT_KEY_TOO_LONG = 6,
    YAMLCANON_FAULT_TOO_DEEP = 7,
    YAMLCANON_FAULT_BAD_ESCAPE = 8,
    YAMLCANON_FAULT_BAD_DIRECTIVE = 9,
    YAMLCANON_FAULT_UNKNOWN_HANDLE = 10,
    YAMLCANON_FAULT_BAD_TAG = 11,
    YAMLCANON_FAULT_UNDEFINED_ALIAS = 12, /* 12 to 17: an event */
    YAMLCANON_FAULT_CYCLIC_ALIAS = 13,
    YAMLCANON_FAULT_WRONG_KIND = 14,
    YAMLCANON_FAULT_BAD_CONTENT = 15,
    YAMLCANON_FAULT_INT_RANGE = 16,
    YAMLCANON_FAULT_FLOAT_RANGE = 17,
    YAMLCANON_FAULT_TOO_HIGH = 18,   /* a document */
    YAMLCANON_FAULT_EQUAL_KEYS = 19, /* a node, and first and second: its two entries */
    YAMLCANON_FAULT_TEXT_TOO_LONG = 20,
    YAMLCANON_FAULT_OUT_OF_MEMORY = 21 /* says nothing of the input: there is no memory */
};

/* Why an input is rejected. */
typedef struct yamlcanon_fault {
    uint32_t number; /* 1 to 21 */
    uint32_t side;   /* 0, or 1 where it is the right one of two inputs */
    uint64_t place;  /* 0 where the fault has none */
    uint64_t first;  /* of EqualKeys the two entries, else 0 */
    uint64_t second;
    char name[16];   /* ended by null bytes */
} yamlcanon_fault;

/* The version of the library that is linked, as YAMLCANON_VERSION is that of this header. */
uint32_t yamlcanon_version(void);

/* The form of its texts, as YAMLCANON_FORM. */
uint32_t yamlcanon_form(void);

/* Its release, as YAMLCANON_RELEASE: a text that is never freed or changed. */
const char *yamlcanon_release(void);

/* Puts the canonical text of the n bytes at input at the start of out, and its length into *len.
 * DONE: the text is out[0 .. *len]; after it out is as it was, and so is *fault.
 * SHORT: *len is the text's length, which is above cap; out and *fault are as they were.
 * REFUSED: *fault says why; out and *len are as they were. */
uint32_t yamlcanon_canonical(const uint8_t *input, size_t n, uint8_t *out, size_t cap, size_t *len,
                             yamlcanon_fault *fault);

/* The same of the event text: a line for each event, in the notation of yaml-test-suite. */
uint32_t yamlcanon_events(const uint8_t *input, size_t n, uint8_t *out, size_t cap, size_t *len,
                          yamlcanon_fault *fault);

/* The same of readable YAML that means what the input means, as yamlreview show writes it: block style, a line for each
 * entry and item, aliases written out. Of this text 20 means that it, or the canonical text, would have
 * more than 67,108,864 bytes. */
uint32_t yamlcanon_show(const uint8_t *input, size_t n, uint8_t *out, size_t cap, size_t *len,
                        yamlcanon_fault *fault);

/* The same of JSON (RFC 8259), a line for each document. Its numbers have a point or an exponent where they are floats.
 * NO_JSON: a key is no string, a float is .inf, -.inf or .nan, or a tag is none of the core schema. yamlcanon_json_position
 * says where, `yamlreview show --format=json` also which. UNLIKE: a fault of the library. With both nothing is written. */
uint32_t yamlcanon_json(const uint8_t *input, size_t n, uint8_t *out, size_t cap, size_t *len,
                        yamlcanon_fault *fault);

/* Whether two streams mean the same: DONE, DIFFERENT, or REFUSED, and then *fault says why, and else is as it was. */
uint32_t yamlcanon_same(const uint8_t *left, size_t left_n, const uint8_t *right, size_t right_n,
                        yamlcanon_fault *fault);

/* Puts where two streams differ at the start of out, and the length into *len, as yamlreview diff --format=json prints it: a
 * JSON object on a line for each difference and then for each item that moved, at most so many lines, and after them
 * how many no line tells, as {"differences":12,"kind":"more","moves":300,"whole":true}, if there are more. whole is
 * false if not all were looked for. With lines 0 there is no text.
 * DONE: they mean the same, and *len is 0. DIFFERENT: they don't, and the text is out[0 .. *len]. With both out is as it was
 * after the text, and so is *fault. SHORT and REFUSED: as yamlcanon_canonical; a fault is one of yamlcanon_same. */
uint32_t yamlcanon_diff(const uint8_t *left, size_t left_n, const uint8_t *right, size_t right_n, size_t lines,
                        uint8_t *out, size_t cap, size_t *len, yamlcanon_fault *fault);

/* Puts the SHA-256 of the canonical text into out, as yamlreview sum prints it in hexadecimal digits: DONE, or REFUSED
 * as yamlcanon_canonical, and then out is as it was. The text is held in memory meanwhile. */
uint32_t yamlcanon_sha256(const uint8_t *input, size_t n, uint8_t out[32], yamlcanon_fault *fault);

/* The kinds of values. */
enum {
    YAMLCANON_KIND_NULL = 0,
    YAMLCANON_KIND_BOOL = 1,
    YAMLCANON_KIND_INT = 2,
    YAMLCANON_KIND_FLOAT = 3,
    YAMLCANON_KIND_STR = 4,
    YAMLCANON_KIND_TAGGED = 5, /* a scalar of another tag */
    YAMLCANON_KIND_SEQUENCE = 6,
    YAMLCANON_KIND_MAPPING = 7
};

/* A value, whose numbers have the machine's byte order. Its tag is texts[tag_start .. tag_end]. The content of a scalar is
 * texts[start .. end], in the form that the canonical text has between quotes, without escapes. The items of a sequence are the values
 * of the numbers in parts[start .. end]; a mapping has its keys and values in turn there, in the order of the canonical text. */
typedef struct yamlcanon_value {
    uint32_t kind;
    uint32_t tag_start;
    uint32_t tag_end;
    uint32_t start;
    uint32_t end;
} yamlcanon_value;

/* The rooms for values: so many values, parts, and bytes of texts. They do not overlap. */
typedef struct yamlcanon_rooms {
    yamlcanon_value *values;
    size_t values_cap;
    uint32_t *parts;
    size_t parts_cap;
    uint8_t *texts;
    size_t texts_cap;
} yamlcanon_rooms;

/* How many values, parts and bytes of texts there are, and how many documents. */
typedef struct yamlcanon_lengths {
    size_t values;
    size_t parts;
    size_t texts;
    size_t documents;
} yamlcanon_lengths;

/* Puts the values of the n bytes at input at the start of the rooms, and the lengths into *lengths. There is one value for each different
 * node, and equal nodes are one value: what aliases repeat is there once. The parts of a value have lower numbers than the value. The
 * documents are the values of the first numbers among the parts, as many as lengths->documents.
 * DONE: the values are there; after them the rooms are as they were, and so is *fault.
 * SHORT: a room is too small; *lengths has the lengths, and the rooms and *fault are as they were.
 * REFUSED: as yamlcanon_canonical; the rooms and *lengths are as they were. A stream whose canonical text would be too long (20) has
 * values. */
uint32_t yamlcanon_values(const uint8_t *input, size_t n, const yamlcanon_rooms *rooms, yamlcanon_lengths *lengths,
                          yamlcanon_fault *fault);

/* A room that is long enough for every message. */
#define YAMLCANON_MESSAGE 128

/* Puts the message of a fault, as "5 Tab at byte 14", at the start of out, and its length into *len. A null byte ends
 * it, which *len does not count. It is what the programs print of this fault, without "left: " or "right: ". Of *fault
 * number, place, first and second are read.
 * SHORT: cap is at most *len, the message's length; out is as it was. REFUSED: no fault has this number. */
uint32_t yamlcanon_message(const yamlcanon_fault *fault, char *out, size_t cap, size_t *len);

/* Puts the line and the column of a fault from 2 to 19 in its input, which is the right one where fault->side is 1,
 * into *line and *column, both from 1. They are those that yamlreview faults prints: a line ends with a line feed, a
 * carriage return or both (YAML 1.2.2, 5.4), and a column counts characters; a byte order mark at the start has none.
 * The place of 12, 13, 16 and 17 is where the event's own text begins, of 14 and 15 the event's tag if it has one, of 18
 * the document's root, of 19 the second of the two equal keys. For 12 to 19 the input is read again, which takes stack and
 * memory. Of *fault number, place, first and second are read.
 * REFUSED: the fault has another number, or no place in this input. NO_MEMORY: 12 to 19 alone. With both *line and *column
 * are as they were. */
uint32_t yamlcanon_position(const uint8_t *input, size_t n, const yamlcanon_fault *fault, size_t *line,
                            size_t *column);

/* The same of the first node that JSON cannot express, if yamlcanon_json answers NO_JSON. REFUSED: there is none. */
uint32_t yamlcanon_json_position(const uint8_t *input, size_t n, size_t *line, size_t *column);

/* Bounds the memory that calls on this thread may hold at once, in bytes, with 16 more for each block that they ask
 * for; 0, as at the start, is no bound. Beyond it a call answers 21. What the allocator needs besides is not
 * counted. The bound stays until it is set anew. */
void yamlcanon_budget(size_t bytes);

/* What calls on this thread hold now, so 0 between them, and the most that they held since a bound was last set, which
 * the calls below do too. */
size_t yamlcanon_held(void);
size_t yamlcanon_peak(void);

/* The same calls under a bound of their own, as by yamlcanon_budget(memory); after them the bound of the thread is
 * what it was. */
uint32_t yamlcanon_canonical_within(const uint8_t *input, size_t n, uint8_t *out, size_t cap, size_t *len,
                                    yamlcanon_fault *fault, size_t memory);
uint32_t yamlcanon_events_within(const uint8_t *input, size_t n, uint8_t *out, size_t cap, size_t *len,
                                 yamlcanon_fault *fault, size_t memory);
uint32_t yamlcanon_show_within(const uint8_t *input, size_t n, uint8_t *out, size_t cap, size_t *len,
                               yamlcanon_fault *fault, size_t memory);
uint32_t yamlcanon_json_within(const uint8_t *input, size_t n, uint8_t *out, size_t cap, size_t *len,
                               yamlcanon_fault *fault, size_t memory);
uint32_t yamlcanon_same_within(const uint8_t *left, size_t left_n, const uint8_t *right, size_t right_n,
                               yamlcanon_fault *fault, size_t memory);
uint32_t yamlcanon_diff_within(const uint8_t *left, size_t left_n, const uint8_t *right, size_t right_n, size_t lines,
                               uint8_t *out, size_t cap, size_t *len, yamlcanon_fault *fault, size_t memory);
uint32_t yamlcanon_sha256_within(const uint8_t *input, size_t n, uint8_t out[32], yamlcanon_fault *fault,
                                 size_t memory);
uint32_t yamlcanon_values_within(const uint8_t *input, size_t n, const yamlcanon_rooms *rooms,
                                 yamlcanon_lengths *lengths, yamlcanon_fault *fault, size_t memory);
uint32_t yamlcanon_position_within(const uint8_t *input, size_t n, const yamlcanon_fault *fault, size_t *line,
                                   size_t *column, size_t memory);
uint32_t yamlcanon_json_position_within(const uint8_t *input, size_t n, size_t *line, size_t *column, size_t memory);

#ifdef __cplusplus
}
#endif

#endif
