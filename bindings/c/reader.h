/* Reads every row of a column that has passed, at every depth; it tests nothing. For the tests alone. */
#ifndef READER_H
#define READER_H

#include "tables.h"

/* What was read, in order: each value and each null counts. */
static uint64_t seen;

static void see(uint64_t value) {
    seen = seen * 1099511628211u + value + 1;
}

static bool bit(const struct codrask_node *n, size_t i) {
    i += n->offset;
    return n->bytes[i / 8] >> i % 8 & 1;
}

static uint64_t number(const struct codrask_node *n, size_t i) {
    uint64_t value = 0;
    for (size_t k = 0; k < widths[n->kind]; k++)
        value |= (uint64_t)n->bytes[i * widths[n->kind] + k] << 8 * k;
    return value;
}

/* The place after a node and its parts. */
static size_t after(const struct codrask_node *nodes, size_t at) {
    const struct codrask_node *n = &nodes[at++];
    size_t parts = n->kind == CODRASK_DICTIONARY ? 2 : n->kind == CODRASK_FIXED_SIZE_LIST ? 1 : n->kind == CODRASK_LIST_VIEW ? 3 : 0;
    if (n->kind == CODRASK_STRUCT)
        parts = n->buffer_count;
    parts += n->validity == CODRASK_BY_ARRAY;
    while (parts--)
        at = after(nodes, at);
    return at;
}

static bool valid(const struct codrask_node *nodes, size_t at, size_t i);

/* A truth value, number or null in any layout. */
static uint64_t plain_at(const struct codrask_node *nodes, size_t at, size_t i) {
    const struct codrask_node *n = &nodes[at];
    size_t parts = at + 1;
    if (n->kind == CODRASK_DICTIONARY)
        return plain_at(nodes, after(nodes, parts), (size_t)plain_at(nodes, parts, i));
    return n->kind == CODRASK_BOOL ? bit(n, i) : number(n, i);
}

static bool valid(const struct codrask_node *nodes, size_t at, size_t i) {
    const struct codrask_node *n = &nodes[at];
    if (n->kind == CODRASK_DICTIONARY)
        return valid(nodes, at + 1, i) && valid(nodes, after(nodes, at + 1), (size_t)plain_at(nodes, at + 1, i));
    if (n->validity == CODRASK_BY_ARRAY)
        return plain_at(nodes, at + 1, i);
    return n->validity != CODRASK_ALL_INVALID;
}

static void read_row(const struct codrask_node *nodes, size_t at, size_t i) {
    const struct codrask_node *n = &nodes[at];
    size_t part = at + 1;
    if (!valid(nodes, at, i)) {
        see(UINT64_MAX);
        return;
    }
    if (n->validity == CODRASK_BY_ARRAY)
        part = after(nodes, part);
    switch (n->kind) {
    case CODRASK_UTF8_VIEW:
    case CODRASK_BINARY_VIEW: {
        uint32_t size, b, start;
        memcpy(&size, n->views[i].bytes, 4);
        memcpy(&b, n->views[i].bytes + 8, 4);
        memcpy(&start, n->views[i].bytes + 12, 4);
        see(size);
        for (uint32_t k = 0; k < size; k++)
            see(size <= 12 ? n->views[i].bytes[4 + k] : n->buffers[b].bytes[start + k]);
        return;
    }
    case CODRASK_DICTIONARY: read_row(nodes, after(nodes, part), (size_t)plain_at(nodes, part, i)); return;
    case CODRASK_FIXED_SIZE_LIST:
        for (size_t k = 0; k < n->size; k++)
            read_row(nodes, part, i * n->size + k);
        return;
    case CODRASK_LIST_VIEW: {
        size_t offsets = after(nodes, part), sizes = after(nodes, offsets);
        size_t start = (size_t)plain_at(nodes, offsets, i), size = (size_t)plain_at(nodes, sizes, i);
        see(size);
        for (size_t k = 0; k < size; k++)
            read_row(nodes, part, start + k);
        return;
    }
    case CODRASK_STRUCT:
        for (size_t c = 0; c < n->buffer_count; c++, part = after(nodes, part))
            read_row(nodes, part, i);
        return;
    default: see(plain_at(nodes, at, i));
    }
}

/* What all rows of a column are read as. */
static uint64_t read_all(const struct codrask_node *nodes) {
    seen = 0;
    for (size_t i = 0; i < nodes[0].length; i++)
        read_row(nodes, 0, i);
    return seen;
}

#endif
