/* Keeps configurations by what they mean: store FOLDER FILE..
 *
 * The canonical text of each file goes into FOLDER, under its SHA-256. Printed is of each file whether it is kept, means the same as an
 * earlier one, or is rejected, with line and column; and where what is kept differs from the first, a JSON object on a line for each
 * difference. Status 1 if a file is rejected, 3 if one cannot be read or written. */
#include <stdio.h>
#include <stdlib.h>
#include <string.h>
#include "yamlcanon.h"

#define DIGEST 32
#define LINES 1000

struct bytes {
    uint8_t *at;
    size_t n;
};

struct kept {
    const char *path;
    struct bytes data;
    uint8_t digest[DIGEST];
};

static int failed(const char *path)
{
    perror(path);
    return 3;
}

static int read_file(const char *path, struct bytes *data)
{
    FILE *file = fopen(path, "rb");
    long n = file && !fseek(file, 0, SEEK_END) ? ftell(file) : -1;
    size_t got = 0;
    data->n = n < 0 ? 0 : (size_t)n;
    data->at = n < 0 ? NULL : calloc(data->n + 1, 1);
    if (data->at) {
        rewind(file);
        got = fread(data->at, 1, data->n, file);
    }
    if (file) fclose(file);
    return data->at && got == data->n;
}

/* FILE:LINE:COLUMN: MESSAGE, or FILE: MESSAGE if the error is not at a byte. */
static int reject(const struct kept *one, const yamlcanon_fault *fault)
{
    char message[YAMLCANON_MESSAGE] = "";
    size_t len = 0, line = 0, column = 0;
    yamlcanon_message(fault, message, sizeof message, &len);
    if (yamlcanon_position(one->data.at, one->data.n, fault, &line, &column) == YAMLCANON_DONE)
        printf("%s:%zu:%zu: %s\n", one->path, line, column, message);
    else
        printf("%s: %s\n", one->path, message);
    return 1;
}

/* If the buffer is too small, a second call has one of the length that is needed. */
static uint32_t canonical(const struct bytes *in, struct bytes *out, yamlcanon_fault *fault)
{
    uint32_t status = YAMLCANON_SHORT;
    out->at = NULL;
    for (size_t cap = 2 * in->n + 64; status == YAMLCANON_SHORT; cap = out->n) {
        free(out->at);
        out->at = calloc(cap, 1);
        if (!out->at) return YAMLCANON_SHORT;
        status = yamlcanon_canonical(in->at, in->n, out->at, cap, &out->n, fault);
    }
    return status;
}

static uint32_t differences(const struct bytes *left, const struct bytes *right, struct bytes *out, yamlcanon_fault *fault)
{
    uint32_t status = YAMLCANON_SHORT;
    out->at = NULL;
    for (size_t cap = 4096; status == YAMLCANON_SHORT; cap = out->n) {
        free(out->at);
        out->at = calloc(cap, 1);
        if (!out->at) return YAMLCANON_SHORT;
        status = yamlcanon_diff(left->at, left->n, right->at, right->n, LINES, out->at, cap, &out->n, fault);
    }
    return status;
}

/* Writes the canonical text into the folder, under the digest. */
static int store(const char *folder, const struct kept *one)
{
    char hex[2 * DIGEST + 1], path[4096];
    struct bytes text;
    yamlcanon_fault fault = {0};
    for (size_t i = 0; i < DIGEST; i++) snprintf(hex + 2 * i, 3, "%02x", one->digest[i]);
    snprintf(path, sizeof path, "%s/%s.yaml", folder, hex);
    uint32_t status = canonical(&one->data, &text, &fault);
    if (status == YAMLCANON_DONE) {
        FILE *file = fopen(path, "wb");
        size_t put = file ? fwrite(text.at, 1, text.n, file) : 0;
        if (!file || fclose(file) || put != text.n) status = YAMLCANON_SHORT;
    }
    free(text.at);
    if (status == YAMLCANON_REFUSED) return reject(one, &fault);
    if (status != YAMLCANON_DONE) return failed(path);
    printf("%s is kept as %.12s\n", one->path, hex);
    return 0;
}

/* Keeps the last of these files, or says of which other one it is a second spelling. *n: how many are kept. */
static int keep(const char *folder, struct kept *files, size_t *n)
{
    struct kept *own = &files[*n];
    struct bytes told;
    yamlcanon_fault fault = {0};
    if (yamlcanon_sha256(own->data.at, own->data.n, own->digest, &fault) == YAMLCANON_REFUSED) return reject(own, &fault);
    for (size_t i = 0; i < *n; i++)
        if (!memcmp(files[i].digest, own->digest, DIGEST)) {
            printf("%s means the same as %s\n", own->path, files[i].path);
            return 0;
        }
    int status = store(folder, own);
    if (status) return status;
    ++*n;
    uint32_t answer = differences(&files[0].data, &own->data, &told, &fault);
    if (answer == YAMLCANON_DIFFERENT) fwrite(told.at, 1, told.n, stdout);
    free(told.at);
    return answer == YAMLCANON_REFUSED ? reject(own, &fault) : 0;
}

int main(int n, char **words)
{
    struct kept *files = calloc((size_t)n, sizeof *files);
    size_t kept = 0;
    int worst = 0;
    for (int i = 2; files && i < n; i++) {
        struct kept *own = &files[kept];
        size_t before = kept;
        own->path = words[i];
        int status = read_file(own->path, &own->data) ? keep(words[1], files, &kept) : failed(own->path);
        if (kept == before) free(own->data.at);
        if (worst < status) worst = status;
    }
    for (size_t i = 0; i < kept; i++) free(files[i].data.at);
    free(files);
    return worst;
}
