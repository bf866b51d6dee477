/* Arrow structs by hand, and what is told of them. For the tests alone. */
#ifndef ARROW_BY_HAND_H
#define ARROW_BY_HAND_H

#include "codrask.h"

#include <stdbool.h>
#include <stdio.h>
#include <stdlib.h>
#include <string.h>

#ifndef COUNT
#define COUNT(array) (sizeof(array) / sizeof *(array))
#endif

static int passed, failed;

static inline void tell(const char *what, bool good) {
    good ? passed++ : failed++;
    if (!good)
        printf("%s: not as wanted\n", what);
}

static inline void expect(const char *what, const struct ArrowSchema *schema, const struct ArrowArray *array, uint32_t number, size_t node,
                          size_t place) {
    struct codrask_fault fault;
    uint32_t answer = codrask_check_arrow(schema, array, &fault);
    bool good = answer == number && fault.number == number && fault.node == node && fault.place == place;
    if (!good)
        printf("%u %s at node %zu, place %zu, wanted %u at node %zu, place %zu\n", answer, codrask_fault_name(answer), fault.node,
               fault.place, number, node, place);
    tell(what, good);
}

static inline void keep_schema(struct ArrowSchema *schema) {
    schema->release = NULL;
}

static inline void keep_array(struct ArrowArray *array) {
    array->release = NULL;
}

static inline struct ArrowSchema schema(const char *format, int64_t flags, struct ArrowSchema **children, int64_t count) {
    return (struct ArrowSchema){
        .format = format, .name = "x", .flags = flags, .children = children, .n_children = count, .release = keep_schema};
}

static inline struct ArrowArray array(int64_t length, int64_t offset, const void **buffers, int64_t count, struct ArrowArray **children,
                                      int64_t parts) {
    return (struct ArrowArray){.length = length,
                               .null_count = -1,
                               .offset = offset,
                               .buffers = buffers,
                               .n_buffers = count,
                               .children = children,
                               .n_children = parts,
                               .release = keep_array};
}

#endif
