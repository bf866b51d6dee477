/* Columns of each format that is carried, in blocks of their exact length, by the widths of Arrow's C Data Interface. For the tests
 * alone. */
#ifndef CARRIED_BY_HAND_H
#define CARRIED_BY_HAND_H

#include "arrow_by_hand.h"
#include "by_hand.h"
#include "rows_of_arrow.h"

enum { ROWS = 11, BEFORE = 3 };

static const struct {
    const char *format;
    size_t width;
} formats[] = {{"e", 2},          {"f", 4},        {"g", 8},          {"tdD", 4},          {"tdm", 8},         {"tts", 4},
               {"ttm", 4},        {"ttu", 8},      {"ttn", 8},        {"tss:", 8},         {"tss:UTC", 8},     {"tsm:Europe/Rome", 8},
               {"tsu:+02:00", 8}, {"tsn:", 8},     {"tDs", 8},        {"tDm", 8},          {"tDu", 8},         {"tDn", 8},
               {"tiM", 4},        {"tiD", 8},      {"tin", 16},       {"d:1,0", 16},       {"d:38,10", 16},    {"d:5,-3", 16},
               {"d:5,+3", 16},    {"d:9,2,32", 4}, {"d:18,18,64", 8}, {"d:38,-1,128", 16}, {"d:76,5,256", 32}, {"w:0", 0},
               {"w:1", 1},        {"w:2", 2},      {"w:3", 3},        {"w:4", 4},          {"w:5", 5},         {"w:6", 6},
               {"w:7", 7},        {"w:8", 8},      {"w:9", 9},        {"w:16", 16},        {"w:1000", 1000}};

struct column {
    struct ArrowSchema schema;
    struct ArrowArray array;
    const void *buffers[2];
    uint8_t *bits, *bytes;
    size_t width;
};

/* So many rows of a format, some of them null where they may be. */
static inline void make_column(struct column *c, size_t which, size_t length, size_t offset, bool nullable) {
    size_t rows = length + offset, size = rows * formats[which].width;
    c->width = formats[which].width;
    c->bits = malloc(rows / 8 + 1);
    c->bytes = malloc(size ? size : 1);
    for (size_t i = 0; i < rows / 8 + 1; i++)
        c->bits[i] = (uint8_t)(0x5d + 31 * i + 7 * which);
    for (size_t i = 0; i < size; i++)
        c->bytes[i] = (uint8_t)(i * 37 + which + 1);
    c->buffers[0] = nullable ? c->bits : NULL;
    c->buffers[1] = c->bytes;
    c->schema = schema(formats[which].format, nullable ? ARROW_FLAG_NULLABLE : 0, NULL, 0);
    c->array = array((int64_t)length, (int64_t)offset, c->buffers, 2, NULL, 0);
}

static inline void free_column(struct column *c) {
    free(c->bits);
    free(c->bytes);
}

static inline bool is_valid(const struct column *c, int64_t i) {
    return !c->buffers[0] || flag(c->buffers[0], c->array.offset + i);
}

static inline size_t nulls_of(const struct column *c) {
    size_t nulls = 0;
    for (int64_t i = 0; i < c->array.length; i++)
        nulls += !is_valid(c, i);
    return nulls;
}

#endif
