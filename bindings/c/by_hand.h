/* Nodes and steps by hand: no pointer is null. For the tests alone. */
#ifndef BY_HAND_H
#define BY_HAND_H

#include "codrask.h"

#ifndef COUNT
#define COUNT(array) (sizeof(array) / sizeof *(array))
#endif
#define SLICE(array) (const uint8_t *)(array), sizeof(array)

_Alignas(16) static const uint8_t none[16];

static inline struct codrask_node node(uint32_t kind, uint32_t validity, size_t length) {
    struct codrask_node n = {.kind = kind, .validity = validity, .length = length};
    n.bytes = none;
    n.views = (const struct codrask_view *)none;
    n.buffers = (const struct codrask_bytes *)none;
    return n;
}

static inline struct codrask_node numbers(uint32_t kind, size_t length, const void *bytes, size_t count) {
    struct codrask_node n = node(kind, CODRASK_NON_NULLABLE, length);
    n.bytes = bytes;
    n.byte_count = count;
    return n;
}

static inline struct codrask_node truths(size_t length, const uint8_t *bits) {
    return numbers(CODRASK_BOOL, length, bits, (length + 7) / 8);
}

static inline struct codrask_step step(uint32_t kind, size_t array) {
    struct codrask_step s = {.kind = kind, .array = array};
    s.arrays = (const size_t *)none;
    s.names = (const struct codrask_bytes *)none;
    s.name = none;
    return s;
}

#endif
