/* planted.c: wrong libraries. Linked with --wrap, each puts one wrong byte, word or number into a few of the library's answers;
 * tools/fuzz --planted asks that a target ends at it. PLANT is one of the numbers below. */
#include "yamlcanon.h"
#include <stdlib.h>
#include <string.h>

uint32_t __real_yamlcanon_canonical(const uint8_t *, size_t, uint8_t *, size_t, size_t *, yamlcanon_fault *);
uint32_t __real_yamlcanon_events(const uint8_t *, size_t, uint8_t *, size_t, size_t *, yamlcanon_fault *);
uint32_t __real_yamlcanon_same(const uint8_t *, size_t, const uint8_t *, size_t, yamlcanon_fault *);
size_t __real_yamlcanon_peak(void);

static int has(const uint8_t *text, size_t n, const char *word)
{
    return n && memmem(text, n, word, strlen(word)) != NULL;
}

uint32_t __wrap_yamlcanon_canonical(const uint8_t *input, size_t n, uint8_t *out, size_t cap, size_t *len, yamlcanon_fault *fault)
{
    uint32_t status = __real_yamlcanon_canonical(input, n, out, cap, len, fault);
    /* 1: a wrong byte of the text, where a float has a point in it. */
    if (PLANT == 1 && status == YAMLCANON_DONE && has(out, *len, "float \"1.")) *(uint8_t *)memmem(out, *len, "float \"1.", 9) = 'F';
    /* 2: a byte of the text that stands for another, and is canonical too. */
    if (PLANT == 2 && status == YAMLCANON_DONE && has(out, *len, "int \"31\"")) ((uint8_t *)memmem(out, *len, "int \"31\"", 8))[5] = '4';
    /* 3: a byte behind the text, in the room. */
    if (PLANT == 3 && status == YAMLCANON_DONE && cap > *len && *len > 40) out[*len] = 0;
    /* 4: a byte behind the room. */
    if (PLANT == 4 && status == YAMLCANON_DONE && cap == *len && *len > 40) *(volatile uint8_t *)(out + cap) = 0;
    /* 5: a beginning of the text beside "too short". */
    if (PLANT == 5 && status == YAMLCANON_SHORT && cap > 3 && *len > 100) out[0] = '-';
    /* 6: a wrong place of a refusal. */
    if (PLANT == 6 && status == YAMLCANON_REFUSED && fault->number == 5 && fault->place > 3) fault->place++;
    return status;
}

uint32_t __wrap_yamlcanon_events(const uint8_t *input, size_t n, uint8_t *out, size_t cap, size_t *len, yamlcanon_fault *fault)
{
    uint32_t status = __real_yamlcanon_events(input, n, out, cap, len, fault);
    /* 7: a sequence that ends as a mapping, where one stands in another. */
    const char *word = "-SEQ\n-SEQ\n-SEQ";
    if (PLANT == 7 && status == YAMLCANON_DONE && has(out, *len, word)) ((uint8_t *)memmem(out, *len, word, strlen(word)))[1] = 'M';
    return status;
}

uint32_t __wrap_yamlcanon_same(const uint8_t *left, size_t left_n, const uint8_t *right, size_t right_n, yamlcanon_fault *fault)
{
    uint32_t status = __real_yamlcanon_same(left, left_n, right, right_n, fault);
    /* 8: what has an anchor differs from itself. */
    if (PLANT == 8 && status == YAMLCANON_DONE && has(left, left_n, "&a") && has(left, left_n, "*a")) status = YAMLCANON_DIFFERENT;
    /* 9: the other side is named. */
    if (PLANT == 9 && status == YAMLCANON_REFUSED && fault->number == 4 && fault->side) fault->side = 0;
    return status;
}

size_t __wrap_yamlcanon_peak(void)
{
    size_t peak = __real_yamlcanon_peak();
    /* 10: a byte too little is told. */
    return PLANT == 10 && peak > 20000 ? peak - 1 : peak;
}
