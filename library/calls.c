/* The calls of the header over the proved ones. Those take no null pointer, and one of a slice's length 0 points to a byte here, which
 * nobody reads or writes. The calls with a bound of their own set that of the thread, and put it back. */
#include "heap.h"
#include "yamlcanon.h"

uint32_t yaml_c_canonical(const uint8_t *input, size_t n, uint8_t *out, size_t cap, size_t *len, yamlcanon_fault *fault);
uint32_t yaml_c_events(const uint8_t *input, size_t n, uint8_t *out, size_t cap, size_t *len, yamlcanon_fault *fault);
uint32_t yaml_c_show(const uint8_t *input, size_t n, uint8_t *out, size_t cap, size_t *len, yamlcanon_fault *fault);
uint32_t yaml_c_json(const uint8_t *input, size_t n, uint8_t *out, size_t cap, size_t *len, yamlcanon_fault *fault);
uint32_t yaml_c_same(const uint8_t *left, size_t left_n, const uint8_t *right, size_t right_n, yamlcanon_fault *fault);
uint32_t yaml_c_diff(const uint8_t *left, size_t left_n, const uint8_t *right, size_t right_n, size_t lines, uint8_t *out, size_t cap,
                     size_t *len, yamlcanon_fault *fault);
uint32_t yaml_c_sha256(const uint8_t *input, size_t n, uint8_t *out, yamlcanon_fault *fault);
uint32_t yaml_c_message(const yamlcanon_fault *fault, uint8_t *out, size_t cap, size_t *len);
uint32_t yaml_c_position(const uint8_t *input, size_t n, const yamlcanon_fault *fault, size_t *line, size_t *column);
uint32_t yaml_c_json_position(const uint8_t *input, size_t n, size_t *line, size_t *column);

static uint8_t nothing;

static const uint8_t *bytes(const uint8_t *at, size_t n)
{
    return n ? at : &nothing;
}

static uint8_t *room(uint8_t *at, size_t n)
{
    return n ? at : &nothing;
}

const char *yamlcanon_release(void)
{
    return YAMLCANON_RELEASE;
}

uint32_t yamlcanon_canonical(const uint8_t *input, size_t n, uint8_t *out, size_t cap, size_t *len, yamlcanon_fault *fault)
{
    return yaml_c_canonical(bytes(input, n), n, room(out, cap), cap, len, fault);
}

uint32_t yamlcanon_events(const uint8_t *input, size_t n, uint8_t *out, size_t cap, size_t *len, yamlcanon_fault *fault)
{
    return yaml_c_events(bytes(input, n), n, room(out, cap), cap, len, fault);
}

uint32_t yamlcanon_show(const uint8_t *input, size_t n, uint8_t *out, size_t cap, size_t *len, yamlcanon_fault *fault)
{
    return yaml_c_show(bytes(input, n), n, room(out, cap), cap, len, fault);
}

uint32_t yamlcanon_json(const uint8_t *input, size_t n, uint8_t *out, size_t cap, size_t *len, yamlcanon_fault *fault)
{
    return yaml_c_json(bytes(input, n), n, room(out, cap), cap, len, fault);
}

uint32_t yamlcanon_same(const uint8_t *left, size_t left_n, const uint8_t *right, size_t right_n, yamlcanon_fault *fault)
{
    return yaml_c_same(bytes(left, left_n), left_n, bytes(right, right_n), right_n, fault);
}

uint32_t yamlcanon_diff(const uint8_t *left, size_t left_n, const uint8_t *right, size_t right_n, size_t lines, uint8_t *out, size_t cap,
                        size_t *len, yamlcanon_fault *fault)
{
    return yaml_c_diff(bytes(left, left_n), left_n, bytes(right, right_n), right_n, lines, room(out, cap), cap, len, fault);
}

uint32_t yamlcanon_sha256(const uint8_t *input, size_t n, uint8_t out[32], yamlcanon_fault *fault)
{
    return yaml_c_sha256(bytes(input, n), n, out, fault);
}

uint32_t yamlcanon_message(const yamlcanon_fault *fault, char *out, size_t cap, size_t *len)
{
    return yaml_c_message(fault, room((uint8_t *)out, cap), cap, len);
}

uint32_t yamlcanon_position(const uint8_t *input, size_t n, const yamlcanon_fault *fault, size_t *line, size_t *column)
{
    return yaml_c_position(bytes(input, n), n, fault, line, column);
}

uint32_t yamlcanon_json_position(const uint8_t *input, size_t n, size_t *line, size_t *column)
{
    return yaml_c_json_position(bytes(input, n), n, line, column);
}

uint32_t yamlcanon_canonical_within(const uint8_t *input, size_t n, uint8_t *out, size_t cap, size_t *len, yamlcanon_fault *fault,
                                    size_t memory)
{
    size_t before = yaml_c_bound(memory);
    uint32_t status = yamlcanon_canonical(input, n, out, cap, len, fault);
    yaml_c_unbound(before);
    return status;
}

uint32_t yamlcanon_events_within(const uint8_t *input, size_t n, uint8_t *out, size_t cap, size_t *len, yamlcanon_fault *fault,
                                 size_t memory)
{
    size_t before = yaml_c_bound(memory);
    uint32_t status = yamlcanon_events(input, n, out, cap, len, fault);
    yaml_c_unbound(before);
    return status;
}

uint32_t yamlcanon_show_within(const uint8_t *input, size_t n, uint8_t *out, size_t cap, size_t *len, yamlcanon_fault *fault,
                               size_t memory)
{
    size_t before = yaml_c_bound(memory);
    uint32_t status = yamlcanon_show(input, n, out, cap, len, fault);
    yaml_c_unbound(before);
    return status;
}

uint32_t yamlcanon_json_within(const uint8_t *input, size_t n, uint8_t *out, size_t cap, size_t *len, yamlcanon_fault *fault,
                               size_t memory)
{
    size_t before = yaml_c_bound(memory);
    uint32_t status = yamlcanon_json(input, n, out, cap, len, fault);
    yaml_c_unbound(before);
    return status;
}

uint32_t yamlcanon_same_within(const uint8_t *left, size_t left_n, const uint8_t *right, size_t right_n, yamlcanon_fault *fault,
                               size_t memory)
{
    size_t before = yaml_c_bound(memory);
    uint32_t status = yamlcanon_same(left, left_n, right, right_n, fault);
    yaml_c_unbound(before);
    return status;
}

uint32_t yamlcanon_diff_within(const uint8_t *left, size_t left_n, const uint8_t *right, size_t right_n, size_t lines, uint8_t *out,
                               size_t cap, size_t *len, yamlcanon_fault *fault, size_t memory)
{
    size_t before = yaml_c_bound(memory);
    uint32_t status = yamlcanon_diff(left, left_n, right, right_n, lines, out, cap, len, fault);
    yaml_c_unbound(before);
    return status;
}

uint32_t yamlcanon_sha256_within(const uint8_t *input, size_t n, uint8_t out[32], yamlcanon_fault *fault, size_t memory)
{
    size_t before = yaml_c_bound(memory);
    uint32_t status = yamlcanon_sha256(input, n, out, fault);
    yaml_c_unbound(before);
    return status;
}

uint32_t yamlcanon_position_within(const uint8_t *input, size_t n, const yamlcanon_fault *fault, size_t *line, size_t *column,
                                   size_t memory)
{
    size_t before = yaml_c_bound(memory);
    uint32_t status = yamlcanon_position(input, n, fault, line, column);
    yaml_c_unbound(before);
    return status;
}

uint32_t yamlcanon_json_position_within(const uint8_t *input, size_t n, size_t *line, size_t *column, size_t memory)
{
    size_t before = yaml_c_bound(memory);
    uint32_t status = yamlcanon_json_position(input, n, line, column);
    yaml_c_unbound(before);
    return status;
}
