/* Texts and byte lists as a pickle of Python's, of protocol 3. Its opcodes: an empty list and a mark; of each row a text or a byte list
 * behind its size, or None; then all of them are put into the list, and that is what was pickled. */
#include "inside.h"

#include <stdlib.h>

enum { SHORT = 12 }; /* bytes that a view has room for */

static const uint8_t opening[] = {0x80, 3, ']', '('}, closing[] = {'e', '.'};

static inline uint32_t field_of(const struct codrask_view *view, size_t place) {
    uint32_t field;
    memcpy(&field, view->bytes + place, 4);
    return field;
}

/* How many bytes the pickle has; SIZE_MAX where it is more. */
static size_t count_bytes(const struct codrask_node *node, const uint8_t *valid) {
    size_t count = sizeof opening + sizeof closing;
    for (size_t i = 0; i < node->length; i++)
        count = codrask_add(count, !valid || valid[i] ? 5 + (size_t)field_of(&node->views[i], 0) : 1);
    return count;
}

/* Writes the view of a value, whose size stands before its bytes; of a long one the bytes that it refers to. Behind a short one there is
 * room for what its view has more. */
static inline uint8_t *put_value(uint8_t *at, const struct codrask_node *node, const struct codrask_view *view) {
    uint32_t size = field_of(view, 0);
    memcpy(at, view->bytes, sizeof view->bytes);
    if (size > SHORT)
        memcpy(at + 4, node->buffers[field_of(view, 8)].bytes + field_of(view, 12), size);
    return at + 4 + size;
}

static void put_pickle(uint8_t *at, const struct codrask_node *node, const uint8_t *valid) {
    uint8_t letter = node->kind == CODRASK_UTF8_VIEW ? 'X' : 'B';
    memcpy(at, opening, sizeof opening);
    at += sizeof opening;
    for (size_t i = 0; i < node->length; i++) {
        bool is_there = !valid || valid[i];
        *at++ = is_there ? letter : 'N';
        if (is_there)
            at = put_value(at, node, &node->views[i]);
    }
    memcpy(at, closing, sizeof closing);
}

uint32_t codrask_pickle(const struct codrask_node *node, const uint8_t *valid, struct codrask_bytes *made) {
    size_t count = count_bytes(node, valid), room = codrask_add(count, SHORT);
    uint8_t *block = room < PTRDIFF_MAX ? malloc(room) : NULL;
    if (!block)
        return CODRASK_MEMORY;
    put_pickle(block, node, valid);
    *made = (struct codrask_bytes){block, count};
    return 0;
}

void codrask_pickle_free(struct codrask_bytes *made) {
    if (made->count)
        free((void *)(uintptr_t)made->bytes);
    *made = (struct codrask_bytes){codrask_nothing, 0};
}
