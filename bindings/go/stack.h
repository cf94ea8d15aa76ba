/* The calls of yamlcanon.h with their answers by value, made where there is stack enough for an input of this length. */
#ifndef YC_STACK_H
#define YC_STACK_H
#include "yamlcanon.h"

enum { YC_CANONICAL, YC_EVENTS, YC_SHOW, YC_JSON };

#define YC_DIGEST 32

typedef struct {
    uint32_t status;
    size_t len, line, column;
    yamlcanon_lengths lengths;
    yamlcanon_fault fault;
} yc_answer;

/* memory: as yamlcanon_budget takes it. */
yc_answer yc_text(int which, const uint8_t *input, size_t n, uint8_t *out, size_t cap, size_t memory);
yc_answer yc_same(const uint8_t *left, size_t left_n, const uint8_t *right, size_t right_n, size_t memory);
yc_answer yc_diff(const uint8_t *left, size_t left_n, const uint8_t *right, size_t right_n, size_t lines, uint8_t *out, size_t cap,
                  size_t memory);
/* The rooms one by one, since Go hands C no pointer to pointers of its own. */
yc_answer yc_values(const uint8_t *input, size_t n, yamlcanon_value *values, size_t values_cap, uint32_t *parts, size_t parts_cap,
                    uint8_t *texts, size_t texts_cap, size_t memory);
yc_answer yc_sha256(const uint8_t *input, size_t n, uint8_t *out, size_t memory);

/* The message of a fault, and its position: of its fields those that are passed are read. */
uint32_t yc_message(uint32_t number, uint64_t place, uint64_t first, uint64_t second, char *out, size_t *len);
yc_answer yc_position(uint32_t number, uint64_t place, uint64_t first, uint64_t second, const uint8_t *input, size_t n, size_t memory);
yc_answer yc_json_position(const uint8_t *input, size_t n, size_t memory);

#endif
