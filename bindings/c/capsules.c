/* The ends of Python's capsules that have an ArrowSchema, an ArrowArray or an ArrowArrayStream. A capsule may end while an exception is on
 * its way, and then no Python code may run: so its end is here. The library is linked with no Python: who makes capsules tells it PyCapsule_GetPointer.
 * These calls are for the Python package alone. */
#include "inside.h"

#include <stdlib.h>

typedef void *pointer_of(void *capsule, const char *name);

void codrask_capsules(pointer_of *function);
void *codrask_new_capsule(size_t size);
void codrask_take(void *own, void *given, size_t size, size_t release);
void codrask_end_schema(void *capsule);
void codrask_end_array(void *capsule);
void codrask_end_stream(void *capsule);

static pointer_of *pointer_of_capsule;

/* Python's PyCapsule_GetPointer; before any capsule ends. */
void codrask_capsules(pointer_of *function) {
    pointer_of_capsule = function;
}

/* A block of zeroes for a struct, which the end of its capsule gives back; or a null pointer. */
void *codrask_new_capsule(size_t size) {
    return calloc(1, size);
}

/* Takes a struct over: copies it, and marks it as released where it lay, by a null pointer at a place in it. It is called with Python's
 * lock held, so that nobody comes between. */
void codrask_take(void *own, void *given, size_t size, size_t release) {
    memcpy(own, given, size);
    memset((uint8_t *)given + release, 0, sizeof(void (*)(void)));
}

/* Gives back a schema, unless somebody took it over, and the block that it lies in. */
void codrask_end_schema(void *capsule) {
    struct ArrowSchema *schema = pointer_of_capsule(capsule, "arrow_schema");
    if (schema && schema->release)
        schema->release(schema);
    free(schema);
}

/* The same of an array. */
void codrask_end_array(void *capsule) {
    struct ArrowArray *array = pointer_of_capsule(capsule, "arrow_array");
    if (array && array->release)
        array->release(array);
    free(array);
}

/* The same of a stream. */
void codrask_end_stream(void *capsule) {
    struct ArrowArrayStream *stream = pointer_of_capsule(capsule, "arrow_array_stream");
    if (stream && stream->release)
        stream->release(stream);
    free(stream);
}
