/* Random tables in blocks of their exact length. For the tests alone. */
#ifndef TABLES_H
#define TABLES_H

#include "codrask.h"

#include <stdbool.h>
#include <stdlib.h>
#include <string.h>

enum { MOST_NODES = 256, MOST_BLOCKS = 2048 };

struct made {
    struct codrask_node nodes[MOST_NODES];
    size_t count;
    void *blocks[MOST_BLOCKS];
    size_t sizes[MOST_BLOCKS];
    size_t block_count;
};

static uint64_t state = 1;

static size_t random_below(size_t n) {
    state = state * 6364136223846793005u + 1442695040888963407u;
    return n ? (size_t)(state >> 33) % n : 0;
}

/* A block of just so many bytes (at least a place to point at). */
static void *block(struct made *m, size_t size) {
    void *bytes = malloc(size ? size : 1);
    if (!bytes || m->block_count == MOST_BLOCKS)
        abort();
    memset(bytes, 0, size ? size : 1);
    m->sizes[m->block_count] = size;
    m->blocks[m->block_count++] = bytes;
    return bytes;
}

static void let_go(struct made *m) {
    for (size_t i = 0; i < m->block_count; i++)
        free(m->blocks[i]);
    m->count = m->block_count = 0;
}

static size_t put(struct made *m, uint32_t kind, size_t length) {
    if (m->count == MOST_NODES)
        abort();
    struct codrask_node *n = &m->nodes[m->count];
    *n = (struct codrask_node){.kind = kind, .length = length};
    n->bytes = block(m, 0);
    n->views = block(m, 0);
    n->buffers = block(m, 0);
    return m->count++;
}

static void put_bits(struct made *m, size_t length) {
    size_t at = put(m, CODRASK_BOOL, length), size;
    struct codrask_node *n = &m->nodes[at];
    n->offset = random_below(9);
    size = (n->offset + length + 7) / 8;
    uint8_t *bytes = block(m, size);
    for (size_t i = 0; i < size; i++)
        bytes[i] = (uint8_t)random_below(256);
    n->bytes = bytes;
    n->byte_count = size;
}

static void give_validity(struct made *m, size_t at) {
    m->nodes[at].validity = (uint32_t)random_below(4);
    if (m->nodes[at].validity == CODRASK_BY_ARRAY)
        put_bits(m, m->nodes[at].length);
}

static const size_t widths[9] = {0, 1, 2, 4, 8, 1, 2, 4, 8};

/* Numbers below a bound, none of them null where `plain` says so. */
static void put_numbers(struct made *m, size_t length, size_t below, bool plain, size_t (*number)(size_t)) {
    uint32_t kind = 1 + (uint32_t)random_below(8);
    size_t at = put(m, kind, length), width = widths[kind];
    if (!plain)
        give_validity(m, at);
    uint8_t *bytes = block(m, length * width);
    for (size_t i = 0; i < length; i++) {
        uint64_t value = number ? number(i) : random_below(below < 127 ? below : 127);
        for (size_t k = 0; k < width; k++)
            bytes[i * width + k] = (uint8_t)(value >> 8 * k);
    }
    m->nodes[at].bytes = bytes;
    m->nodes[at].byte_count = length * width;
}

static void put_texts(struct made *m, size_t length) {
    size_t at = put(m, random_below(2) ? CODRASK_UTF8_VIEW : CODRASK_BINARY_VIEW, length);
    give_validity(m, at);
    struct codrask_bytes *heaps = block(m, 2 * sizeof *heaps);
    struct codrask_view *views = block(m, length * sizeof *views);
    for (size_t b = 0; b < 2; b++) {
        uint8_t *bytes = block(m, 60);
        for (size_t i = 0; i < 60; i++)
            bytes[i] = (uint8_t)('a' + random_below(26));
        heaps[b] = (struct codrask_bytes){bytes, 60};
    }
    for (size_t i = 0; i < length; i++) {
        uint32_t size = (uint32_t)random_below(20), b = (uint32_t)random_below(2), start = (uint32_t)random_below(40);
        memcpy(views[i].bytes, &size, 4);
        if (size <= 12) {
            memcpy(views[i].bytes + 4, heaps[b].bytes + start, size);
            continue;
        }
        memcpy(views[i].bytes + 4, heaps[b].bytes + start, 4);
        memcpy(views[i].bytes + 8, &b, 4);
        memcpy(views[i].bytes + 12, &start, 4);
    }
    struct codrask_node *n = &m->nodes[at];
    n->views = views, n->view_count = length, n->buffers = heaps, n->buffer_count = 2;
}

static void put_column(struct made *m, size_t length, int depth);

static void put_records(struct made *m, size_t length, int depth) {
    size_t at = put(m, CODRASK_STRUCT, length), count = random_below(3);
    give_validity(m, at);
    struct codrask_bytes *names = block(m, count * sizeof *names);
    for (size_t i = 0; i < count; i++) {
        uint8_t *name = block(m, 2);
        name[0] = 'x', name[1] = (uint8_t)('0' + i);
        names[i] = (struct codrask_bytes){name, 2};
        put_column(m, length, depth + 1);
    }
    m->nodes[at].buffers = names, m->nodes[at].buffer_count = count;
}

/* Records that carry a column: floats of 4 or 8 bytes, lists of 3 bytes, or one with an extension. */
static void put_carried(struct made *m, size_t length, int depth) {
    static const char *const words[] = {"f", "g", "w:3", "\0an.ext"};
    static const size_t name_sizes[] = {2, 2, 4, 8}, sizes[] = {4, 8, 3};
    size_t at = put(m, CODRASK_STRUCT, length), which = random_below(4);
    give_validity(m, at);
    struct codrask_bytes *name = block(m, sizeof *name);
    uint8_t *bytes = block(m, name_sizes[which]);
    memcpy(bytes + 1, words[which], name_sizes[which] - 1);
    *name = (struct codrask_bytes){bytes, name_sizes[which]};
    m->nodes[at].buffers = name, m->nodes[at].buffer_count = 1;
    if (which == 3) {
        put_column(m, length, depth + 1);
        return;
    }
    if (which == 2)
        m->nodes[put(m, CODRASK_FIXED_SIZE_LIST, length)].size = 3;
    at = put(m, which == 0 ? CODRASK_U32 : which == 1 ? CODRASK_U64 : CODRASK_U8, length * (which == 2 ? 3 : 1));
    uint8_t *values = block(m, length * sizes[which]);
    for (size_t i = 0; i < length * sizes[which]; i++)
        values[i] = (uint8_t)random_below(256);
    m->nodes[at].bytes = values, m->nodes[at].byte_count = length * sizes[which];
}

static void put_column(struct made *m, size_t length, int depth) {
    size_t at, inner = 1 + random_below(8);
    switch (random_below(depth < 3 ? 8 : 3)) {
    case 0: {
        at = put(m, CODRASK_BOOL, length);
        give_validity(m, at);
        uint8_t *bits = block(m, (length + 7) / 8);
        m->nodes[at].bytes = bits, m->nodes[at].byte_count = (length + 7) / 8;
        return;
    }
    case 1: put_numbers(m, length, 100, false, NULL); return;
    case 2: put_texts(m, length); return;
    case 3:
        put(m, CODRASK_DICTIONARY, length);
        put_numbers(m, length, inner, false, NULL);
        put_column(m, inner, depth + 1);
        return;
    case 4: {
        uint32_t size = (uint32_t)random_below(4);
        at = put(m, CODRASK_FIXED_SIZE_LIST, length);
        m->nodes[at].size = size;
        give_validity(m, at);
        put_column(m, length * size, depth + 1);
        return;
    }
    case 5:
        at = put(m, CODRASK_LIST_VIEW, length);
        give_validity(m, at);
        put_column(m, 2 * inner, depth + 1);
        put_numbers(m, length, inner, true, NULL);
        put_numbers(m, length, inner, true, NULL);
        return;
    case 6: put_carried(m, length, depth); return;
    default: put_records(m, length, depth);
    }
}

#endif
