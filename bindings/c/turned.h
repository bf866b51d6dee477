/* Turns one thing of a random table. For the tests alone. */
#ifndef TURNED_H
#define TURNED_H

#include "tables.h"

static struct made made;

static void turn_byte(uint8_t *bytes, size_t size) {
    bytes[random_below(size)] ^= (uint8_t)(1 + random_below(255));
}

/* Turns one thing: a number of a node, a count that gets less, or a byte of a block. */
static void turn(void) {
    struct codrask_node *n = &made.nodes[random_below(made.count)];
    switch (random_below(9)) {
    case 0: n->kind = (uint32_t)random_below(20); return;
    case 1: n->validity = (uint32_t)random_below(6); return;
    case 2: turn_byte((uint8_t *)&n->size, 1 + random_below(4)); return;
    case 3: turn_byte((uint8_t *)&n->length, 1 + random_below(8)); return;
    case 4: turn_byte((uint8_t *)&n->offset, 1 + random_below(8)); return;
    case 5: n->byte_count = random_below(n->byte_count + 1); return;
    case 6: n->view_count = random_below(n->view_count + 1); return;
    case 7: n->buffer_count = random_below(n->buffer_count + 1); return;
    default: {
        /* of bytes, views and heaps; never of the pointers that stand in blocks of their own */
        if (n->byte_count)
            turn_byte((uint8_t *)(uintptr_t)n->bytes, n->byte_count);
        else if (n->view_count)
            turn_byte((uint8_t *)(uintptr_t)n->views, 16 * n->view_count);
        else if (n->buffer_count && n->buffers[0].count)
            turn_byte((uint8_t *)(uintptr_t)n->buffers[0].bytes, n->buffers[0].count);
    }
    }
}

#endif
