/* Arrow's C Stream Interface: streams that are read a batch at a time, and streams of columns that were written before. What a batch
 * is, and whether it is a column, is decided by the calls for arrays. */
#include "inside.h"

#include <errno.h>
#include <stdlib.h>

/* ---- in ---- */

enum state { NEW, OPEN, ENDED };

/* Gives back the present batch. */
static void drop_batch(struct codrask_stream *in) {
    codrask_table_free(&in->table);
    if (in->array.release)
        in->array.release(&in->array);
    in->array = (struct ArrowArray){.release = NULL};
}

static uint32_t refuse(struct codrask_stream *in, uint32_t number) {
    in->refused = (struct codrask_arrow_fault){.fault = {number, 0, 0}};
    return number;
}

/* The stream failed. Its own words stay where they are, since none of its callbacks is called before its release. */
static uint32_t refuse_failed(struct codrask_stream *in, int error) {
    const char *message = in->stream->get_last_error(in->stream);
    in->error = error;
    in->message = message ? message : "";
    return refuse(in, CODRASK_STREAM_FAILED);
}

/* Tests the struct of the stream, and asks for the schema. What a callback leaves behind when it fails is nobody's. */
static uint32_t open_stream(struct codrask_stream *in) {
    struct ArrowArrayStream *stream = in->stream;
    in->message = "";
    if (!stream)
        return refuse(in, CODRASK_BAD_ARROW);
    if (!stream->release)
        return refuse(in, CODRASK_RELEASED);
    if (!stream->get_schema || !stream->get_next || !stream->get_last_error)
        return refuse(in, CODRASK_BAD_ARROW);
    int error = stream->get_schema(stream, &in->schema);
    if (error) {
        in->schema = (struct ArrowSchema){.release = NULL};
        return refuse_failed(in, error);
    }
    return in->schema.release ? 0 : refuse(in, CODRASK_RELEASED);
}

/* The next batch; an array that is released is the end. */
static uint32_t read_next(struct codrask_stream *in, const struct codrask_reading *how) {
    int error = in->stream->get_next(in->stream, &in->array);
    if (error) {
        in->array = (struct ArrowArray){.release = NULL};
        return refuse_failed(in, error);
    }
    if (!in->array.release) {
        in->state = ENDED;
        return 0;
    }
    uint32_t number = codrask_read_arrow_sized(&in->schema, &in->array, how, &in->table, &in->refused);
    if (number)
        drop_batch(in);
    else
        in->batches++;
    return number;
}

uint32_t codrask_next_batch(struct codrask_stream *stream, const struct codrask_reading *how, struct codrask_arrow_fault *fault) {
    uint32_t number = stream->refused.fault.number;
    drop_batch(stream);
    if (stream->state == NEW) {
        stream->state = OPEN;
        number = open_stream(stream);
    }
    if (!number && stream->state == OPEN)
        number = read_next(stream, how);
    *fault = stream->refused;
    return number;
}

void codrask_stream_free(struct codrask_stream *stream) {
    drop_batch(stream);
    if (stream->schema.release)
        stream->schema.release(&stream->schema);
    if (stream->stream && stream->stream->release)
        stream->stream->release(stream->stream);
    *stream = (struct codrask_stream){.stream = NULL};
}

/* ---- two schemas ---- */

/* Schemas at the same place of two trees. */
struct twins {
    const struct ArrowSchema *one;
    struct ArrowSchema *other;
};

/* Those that are still to be looked at, the next one last; a written schema has at most as many as a table has nodes. */
struct walk {
    struct twins *waiting;
    size_t count;
};

static uint32_t open_walk(struct walk *walk, const struct ArrowSchema *one, struct ArrowSchema *other) {
    *walk = (struct walk){malloc(MOST_NODES * sizeof *walk->waiting), 1};
    if (!walk->waiting)
        return CODRASK_MEMORY;
    walk->waiting[0] = (struct twins){one, other};
    return 0;
}

/* The children of two schemas that have as many wait, the first one to be the next, and their dictionaries. */
static void go_down(struct walk *walk, struct twins twins) {
    if (twins.one->dictionary)
        walk->waiting[walk->count++] = (struct twins){twins.one->dictionary, twins.other->dictionary};
    for (int64_t i = twins.one->n_children; i-- > 0;)
        walk->waiting[walk->count++] = (struct twins){twins.one->children[i], twins.other->children[i]};
}

static size_t number_at(const char *at) {
    int32_t number;
    memcpy(&number, at, sizeof number);
    return (size_t)number;
}

/* How many bytes the metadata of a written schema have: the number of keys, then each key and each value after its size. */
static size_t size_of_metadata(const char *metadata) {
    size_t size = sizeof(int32_t);
    for (size_t left = metadata ? 2 * number_at(metadata) : 0; left; left--)
        size += sizeof(int32_t) + number_at(metadata + size);
    return metadata ? size : 0;
}

/* Whether two schemas tell the same of an array itself. */
static bool are_alike(struct twins twins) {
    const struct ArrowSchema *one = twins.one, *other = twins.other;
    size_t size = size_of_metadata(one->metadata);
    if (size != size_of_metadata(other->metadata) || (size && memcmp(one->metadata, other->metadata, size)))
        return false;
    return !strcmp(one->format, other->format) && !strcmp(one->name, other->name) && one->flags == other->flags
           && one->n_children == other->n_children && !one->dictionary == !other->dictionary;
}

/* Whether two written schemas are the same, else the node of the first one in which the other differs. */
static uint32_t compare_schemas(const struct ArrowSchema *one, struct ArrowSchema *other, size_t *node) {
    struct walk walk;
    uint32_t error = open_walk(&walk, one, other);
    while (!error && walk.count) {
        struct twins twins = walk.waiting[--walk.count];
        if (are_alike(twins)) {
            go_down(&walk, twins);
            continue;
        }
        *node = codrask_node_of(twins.other);
        error = CODRASK_DIFFERING_SCHEMAS;
    }
    free(walk.waiting);
    return error;
}

/* A copy of some bytes, given back with a schema. */
static bool copy_bytes(struct ArrowSchema *schema, const char **to, const char *from, size_t size) {
    char *copy = codrask_schema_block(schema, size, 1);
    if (copy)
        *to = memcpy(copy, from, size);
    return copy;
}

/* Room for as many children as a schema has. */
static uint32_t copy_children(struct twins twins) {
    size_t count = (size_t)twins.one->n_children;
    struct ArrowSchema *children = codrask_schema_block(twins.other, count, sizeof *children);
    twins.other->children = codrask_schema_block(twins.other, count, sizeof *twins.other->children);
    if (!children || !twins.other->children)
        return CODRASK_MEMORY;
    for (size_t i = 0; i < count; i++) {
        if (codrask_open_schema(&children[i]))
            return CODRASK_MEMORY;
        twins.other->children[i] = &children[i];
        twins.other->n_children++;
    }
    return 0;
}

static uint32_t copy_dictionary(struct twins twins) {
    if (!twins.one->dictionary)
        return 0;
    struct ArrowSchema *dictionary = codrask_schema_block(twins.other, 1, sizeof *dictionary);
    if (!dictionary || codrask_open_schema(dictionary))
        return CODRASK_MEMORY;
    twins.other->dictionary = dictionary;
    return 0;
}

/* What a schema tells of an array itself, and room for its parts. */
static uint32_t copy_field(struct twins twins) {
    const struct ArrowSchema *one = twins.one;
    struct ArrowSchema *other = twins.other;
    size_t size = size_of_metadata(one->metadata);
    other->flags = one->flags;
    if (!copy_bytes(other, &other->format, one->format, strlen(one->format) + 1)
        || !copy_bytes(other, &other->name, one->name, strlen(one->name) + 1)
        || (size && !copy_bytes(other, &other->metadata, one->metadata, size)))
        return CODRASK_MEMORY;
    uint32_t error = copy_children(twins);
    return error ? error : copy_dictionary(twins);
}

/* A copy of a written schema, which has a release of its own. */
static uint32_t copy_schema(const struct ArrowSchema *from, struct ArrowSchema *to) {
    struct walk walk = {NULL, 0};
    uint32_t error = codrask_open_schema(to);
    if (error)
        return error;
    error = open_walk(&walk, from, to);
    while (!error && walk.count) {
        struct twins twins = walk.waiting[--walk.count];
        error = copy_field(twins);
        if (!error)
            go_down(&walk, twins);
    }
    free(walk.waiting);
    if (error)
        to->release(to);
    return error;
}

/* ---- out ---- */

/* What a stream hands out. */
struct batches {
    struct ArrowSchema schema; /* of all of them */
    const char *message;       /* why the last call for the schema failed, or none */
    size_t count, next;        /* how many there are, and which one is handed out next */
    struct ArrowArray arrays[];
};

static int get_schema(struct ArrowArrayStream *stream, struct ArrowSchema *out) {
    struct batches *batches = stream->private_data;
    *out = (struct ArrowSchema){.release = NULL};
    batches->message = copy_schema(&batches->schema, out) ? "no memory for the schema" : NULL;
    return batches->message ? ENOMEM : 0;
}

/* Hands the next array over, and at the end one that is released. */
static int get_next(struct ArrowArrayStream *stream, struct ArrowArray *out) {
    struct batches *batches = stream->private_data;
    *out = batches->next == batches->count ? (struct ArrowArray){.release = NULL} : batches->arrays[batches->next++];
    return 0;
}

static const char *get_last_error(struct ArrowArrayStream *stream) {
    const struct batches *batches = stream->private_data;
    return batches->message;
}

static void free_batches(struct batches *batches) {
    for (size_t i = batches->next; i < batches->count; i++)
        batches->arrays[i].release(&batches->arrays[i]);
    if (batches->schema.release)
        batches->schema.release(&batches->schema);
    free(batches);
}

static void release_stream(struct ArrowArrayStream *stream) {
    free_batches(stream->private_data);
    *stream = (struct ArrowArrayStream){.release = NULL};
}

/* Writes one more column. It is counted, so that it is given back with all others, also where it has another schema than the first. */
static uint32_t write_batch(struct batches *batches, const struct codrask_column *column, uint32_t flags, const char *name,
                            const struct codrask_limits *limits, struct codrask_fault *fault) {
    struct ArrowSchema schema;
    struct ArrowArray *array = &batches->arrays[batches->count];
    uint32_t error = codrask_write_arrow(column->nodes, column->count, flags, name, limits, &schema, array, fault);
    if (error)
        return error;
    if (!batches->count++) {
        batches->schema = schema;
        return 0;
    }
    error = compare_schemas(&batches->schema, &schema, &fault->node);
    schema.release(&schema);
    return fault->number = error;
}

/* Room for so many columns. */
static struct batches *new_batches(size_t count) {
    struct batches *batches;
    size_t size = codrask_add(sizeof *batches, codrask_multiply(count, sizeof *batches->arrays));
    return size < PTRDIFF_MAX ? calloc(1, size) : NULL;
}

static uint32_t write_batches(struct batches *batches, const struct codrask_column *columns, size_t count, uint32_t flags, const char *name,
                              const struct codrask_limits *limits, struct codrask_run_fault *fault) {
    struct codrask_fault found = {0, 0, 0};
    for (size_t i = 0; i < count; i++)
        if (write_batch(batches, &columns[i], flags, name, limits, &found)) {
            *fault = (struct codrask_run_fault){.number = found.number};
            if (found.number != CODRASK_MEMORY)
                *fault = (struct codrask_run_fault){found.number, CODRASK_IN_TABLE, i, found.node, found.place};
            return found.number;
        }
    return 0;
}

/* The first array that has another schema than the first one. */
static uint32_t compare_all(struct ArrowSchema *schemas, size_t count, struct codrask_run_fault *fault) {
    for (size_t i = 1; i < count; i++) {
        size_t node = 0;
        uint32_t error = compare_schemas(&schemas[0], &schemas[i], &node);
        if (error) {
            bool differs = error != CODRASK_MEMORY;
            *fault = (struct codrask_run_fault){error, differs ? CODRASK_IN_TABLE : CODRASK_NO_PART, differs ? i : 0, node, 0};
            return error;
        }
    }
    return 0;
}

/* Takes arrays over, and the first schema; the other schemas are given back. */
static void take_over(struct batches *batches, struct ArrowSchema *schemas, struct ArrowArray *arrays, size_t count) {
    batches->schema = schemas[0];
    batches->count = count;
    schemas[0].release = NULL;
    for (size_t i = 0; i < count; i++) {
        if (i)
            schemas[i].release(&schemas[i]);
        batches->arrays[i] = arrays[i];
        arrays[i].release = NULL;
    }
}

static struct ArrowArrayStream stream_of(struct batches *batches) {
    return (struct ArrowArrayStream){get_schema, get_next, get_last_error, release_stream, batches};
}

uint32_t codrask_stream_written(struct ArrowSchema *schemas, struct ArrowArray *arrays, size_t count, struct ArrowArrayStream *stream,
                                struct codrask_run_fault *fault) {
    *stream = (struct ArrowArrayStream){.release = NULL};
    *fault = (struct codrask_run_fault){.number = count ? 0 : CODRASK_EMPTY_INPUT};
    if (!count || compare_all(schemas, count, fault))
        return fault->number;
    struct batches *batches = new_batches(count);
    if (!batches)
        return fault->number = CODRASK_MEMORY;
    take_over(batches, schemas, arrays, count);
    *stream = stream_of(batches);
    return 0;
}

uint32_t codrask_write_stream(const struct codrask_column *columns, size_t count, uint32_t flags, const char *name,
                              const struct codrask_limits *limits, struct ArrowArrayStream *stream, struct codrask_run_fault *fault) {
    *stream = (struct ArrowArrayStream){.release = NULL};
    *fault = (struct codrask_run_fault){.number = count ? 0 : CODRASK_EMPTY_INPUT};
    if (!count)
        return CODRASK_EMPTY_INPUT;
    struct batches *batches = new_batches(count);
    if (!batches)
        return fault->number = CODRASK_MEMORY;
    uint32_t error = write_batches(batches, columns, count, flags, name, limits, fault);
    if (error)
        free_batches(batches);
    else
        *stream = stream_of(batches);
    return error;
}
