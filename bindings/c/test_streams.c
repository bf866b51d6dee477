/* Streams of Arrow arrays. In: a producer by hand that counts what is asked of it and what is given back. Out: what is handed out, by
 * Arrow's rules. The last line is 'N passed, M failed'. */
#include "arrow_by_hand.h"
#include "by_hand.h"
#include "reader.h"
#include "turned_structures.h"

#include <errno.h>

static struct codrask_fault fault;

static bool is_fault(uint32_t answer, uint32_t number, size_t at, size_t place) {
    bool good = answer == number && fault.number == number && fault.node == at && fault.place == place;
    if (!good)
        printf("%u %s at node %zu, place %zu\n", answer, codrask_fault_name(answer), fault.node, fault.place);
    return good;
}

/* ---- a producer by hand ---- */

/* Batches of two records with a column of integers: of batch k they are 10 k and 10 k + 1. */
struct producer {
    int batches;
    int schema_error, next_error; /* what it answers when it fails, else 0 */
    int fails_at, lies_at;        /* the batch at which it fails, or whose column has the buffers of a text; else -1 */
    bool no_schema;               /* its schema is released */
    char *message;
    int schemas_asked, batches_asked, messages_asked;
    int schemas, arrays, streams; /* what is not given back yet */
};

static struct producer by_hand;

static void give_schema_back(struct ArrowSchema *schema) {
    by_hand.schemas--;
    free(schema->private_data);
    schema->release = NULL;
}

static void give_array_back(struct ArrowArray *array) {
    by_hand.arrays--;
    free(array->private_data);
    array->release = NULL;
}

static void never_schema(struct ArrowSchema *schema) {
    (void)schema;
    abort();
}

static void never_array(struct ArrowArray *array) {
    (void)array;
    abort();
}

/* What a failing callback leaves behind is nobody's: nobody releases it. */
static int fail_schema(struct ArrowSchema *out) {
    *out = (struct ArrowSchema){.format = "i", .release = never_schema};
    return by_hand.schema_error;
}

static int fail_next(struct ArrowArray *out) {
    *out = (struct ArrowArray){.length = 7, .release = never_array};
    return by_hand.next_error;
}

/* What a schema has, in one block. */
struct schema_parts {
    struct ArrowSchema column, *columns[1];
};

static int schema_by_hand(struct ArrowArrayStream *stream, struct ArrowSchema *out) {
    by_hand.schemas_asked++;
    if (by_hand.schema_error)
        return fail_schema(out);
    *out = (struct ArrowSchema){.release = NULL};
    if (by_hand.no_schema)
        return 0;
    struct schema_parts *parts = calloc(1, sizeof *parts);
    if (!parts || stream->private_data != &by_hand)
        abort();
    parts->column = (struct ArrowSchema){.format = "i", .name = "n", .release = keep_schema};
    parts->columns[0] = &parts->column;
    *out = (struct ArrowSchema){
        .format = "+s", .name = "", .n_children = 1, .children = parts->columns, .release = give_schema_back, .private_data = parts};
    by_hand.schemas++;
    return 0;
}

struct array_parts {
    struct ArrowArray column, *columns[1];
    const void *none[1], *buffers[2];
    int32_t values[2];
};

static int next_by_hand(struct ArrowArrayStream *stream, struct ArrowArray *out) {
    int batch = by_hand.batches_asked++;
    *out = (struct ArrowArray){.release = NULL};
    if (batch == by_hand.fails_at)
        return fail_next(out);
    if (batch >= by_hand.batches)
        return 0;
    struct array_parts *parts = calloc(1, sizeof *parts);
    if (!parts || stream->private_data != &by_hand)
        abort();
    parts->values[0] = 10 * batch, parts->values[1] = 10 * batch + 1;
    parts->buffers[1] = parts->values;
    parts->column = array(2, 0, parts->buffers, batch == by_hand.lies_at ? 3 : 2, NULL, 0);
    parts->columns[0] = &parts->column;
    *out = array(2, 0, parts->none, 1, parts->columns, 1);
    out->release = give_array_back, out->private_data = parts;
    by_hand.arrays++;
    return 0;
}

static const char *message_by_hand(struct ArrowArrayStream *stream) {
    (void)stream;
    by_hand.messages_asked++;
    return by_hand.message;
}

static void stream_back(struct ArrowArrayStream *stream) {
    by_hand.streams--;
    free(by_hand.message);
    stream->release = NULL;
}

static struct ArrowArrayStream stream;

/* A stream by hand, which is told how it goes on. */
static struct codrask_stream produce(struct producer told, const char *message) {
    by_hand = told;
    by_hand.streams = 1;
    if (message) {
        by_hand.message = malloc(strlen(message) + 1);
        if (!by_hand.message)
            abort();
        strcpy(by_hand.message, message);
    }
    stream = (struct ArrowArrayStream){schema_by_hand, next_by_hand, message_by_hand, stream_back, &by_hand};
    return (struct codrask_stream){.stream = &stream};
}

static bool is_asked(int schemas, int batches, int messages) {
    return by_hand.schemas_asked == schemas && by_hand.batches_asked == batches && by_hand.messages_asked == messages;
}

/* Whether all is given back, once, by two calls. */
static bool gives_back(struct codrask_stream *in) {
    codrask_stream_free(in);
    bool good = !by_hand.schemas && !by_hand.arrays && !by_hand.streams && !in->stream && !in->schema.release && !in->array.release
                && !in->table.nodes;
    codrask_stream_free(in);
    return good && !by_hand.schemas && !by_hand.arrays && !by_hand.streams;
}

/* ---- in ---- */

static struct codrask_arrow_fault arrow_fault;

static uint32_t next_so(struct codrask_stream *in, const struct codrask_reading *how) {
    uint32_t number = codrask_next_batch(in, how, &arrow_fault);
    fault = arrow_fault.fault;
    return number;
}

static uint32_t next(struct codrask_stream *in) {
    return next_so(in, NULL);
}

/* Whether the present batch is that of a number, and passes. */
static bool is_batch(const struct codrask_table *table, int32_t batch) {
    const int32_t values[] = {10 * batch, 10 * batch + 1};
    struct codrask_fault found;
    return table->count == 2 && !codrask_check(table->nodes, table->count, &found) && table->nodes[0].length == 2
           && table->nodes[1].byte_count == sizeof values && !memcmp(table->nodes[1].bytes, values, sizeof values);
}

static bool is_nothing(const struct codrask_stream *in) {
    return !in->table.count && !in->table.nodes && !in->array.release;
}

/* Batches, then the end, and the end again. */
static void batches_in(int batches) {
    char what[40];
    struct codrask_stream in = produce((struct producer){.batches = batches, .fails_at = -1, .lies_at = -1}, NULL);
    bool good = true;
    for (int i = 0; i < batches; i++)
        good = good && is_fault(next(&in), 0, 0, 0) && is_batch(&in.table, i) && by_hand.arrays == 1 && in.batches == (size_t)i + 1;
    good = good && is_fault(next(&in), 0, 0, 0) && is_nothing(&in) && !by_hand.arrays && is_asked(1, batches + 1, 0);
    good = good && is_fault(next(&in), 0, 0, 0) && is_nothing(&in) && is_asked(1, batches + 1, 0) && in.batches == (size_t)batches;
    good = good && in.schema.release && !strcmp(in.schema.children[0]->name, "n") && !in.error && !strcmp(in.message, "");
    snprintf(what, sizeof what, "a stream of %d batches", batches);
    tell(what, gives_back(&in) && good);
}

static void schema_fails(const char *message) {
    struct codrask_stream in = produce((struct producer){.schema_error = EIO, .fails_at = -1, .lies_at = -1}, message);
    bool good = is_fault(next(&in), CODRASK_STREAM_FAILED, 0, 0) && is_nothing(&in) && in.error == EIO && is_asked(1, 0, 1);
    good = good && is_fault(next(&in), CODRASK_STREAM_FAILED, 0, 0) && in.error == EIO && is_asked(1, 0, 1);
    good = good && in.message && !strcmp(in.message, message ? message : "") && !in.schema.release;
    tell("a stream that fails at its schema", gives_back(&in) && good);
}

static void next_fails(int at, const char *message) {
    struct codrask_stream in = produce((struct producer){.batches = 3, .next_error = ENOMEM, .fails_at = at, .lies_at = -1}, message);
    bool good = true;
    for (int i = 0; i < at; i++)
        good = good && is_fault(next(&in), 0, 0, 0) && is_batch(&in.table, i);
    good = good && is_fault(next(&in), CODRASK_STREAM_FAILED, 0, 0) && is_nothing(&in) && in.error == ENOMEM && !by_hand.arrays;
    good = good && is_fault(next(&in), CODRASK_STREAM_FAILED, 0, 0) && is_nothing(&in) && is_asked(1, at + 1, 1);
    good = good && in.message && !strcmp(in.message, message ? message : "") && in.batches == (size_t)at;
    tell("a stream that fails at a batch", gives_back(&in) && good);
}

/* A batch of another layout than the schema says is refused at its node, and given back at once. */
static void another_layout(int at) {
    struct codrask_stream in = produce((struct producer){.batches = 3, .fails_at = -1, .lies_at = at}, "no words of it");
    bool good = true;
    for (int i = 0; i < at; i++)
        good = good && is_fault(next(&in), 0, 0, 0) && is_batch(&in.table, i);
    good = good && is_fault(next(&in), CODRASK_BAD_ARROW, 1, 0) && is_nothing(&in) && !by_hand.arrays && !in.error;
    good = good && !strcmp(arrow_fault.format, "i") && !strcmp(arrow_fault.name, "n");
    good = good && is_fault(next(&in), CODRASK_BAD_ARROW, 1, 0) && is_nothing(&in) && is_asked(1, at + 1, 0);
    good = good && !strcmp(in.message, "") && in.batches == (size_t)at;
    tell("a batch of another layout", gives_back(&in) && good);
}

static void limits(void) {
    struct codrask_reading few = {.limits.bytes = 24}; /* a name with its slice has 17, the integers 8 */
    struct codrask_stream in = produce((struct producer){.batches = 2, .fails_at = -1, .lies_at = -1}, NULL);
    bool good = is_fault(next(&in), 0, 0, 0) && is_batch(&in.table, 0);
    good = good && is_fault(next_so(&in, &few), CODRASK_TOO_MANY_BYTES, 1, 0) && is_nothing(&in) && !by_hand.arrays;
    good = good && is_fault(next(&in), CODRASK_TOO_MANY_BYTES, 1, 0) && is_asked(1, 2, 0);
    tell("a batch past the limit", gives_back(&in) && good);
}

/* A column by its name; a name that is none is refused, and then whatever is asked for. */
static void columns_by_name(void) {
    static const char *const known[] = {"n", "n"}, *const unknown[] = {"n", "m"};
    const struct codrask_reading one = {.columns = known, .column_count = 1}, two = {.columns = known, .column_count = 2},
                                 other = {.columns = unknown, .column_count = 2};
    struct codrask_stream in = produce((struct producer){.batches = 3, .fails_at = -1, .lies_at = -1}, NULL);
    bool good = is_fault(next_so(&in, &one), 0, 0, 0) && is_batch(&in.table, 0) && is_fault(next_so(&in, &two), 0, 0, 0);
    good = good && in.table.count == 3 && is_fault(next_so(&in, &other), CODRASK_UNKNOWN_FIELD, 0, 1) && is_nothing(&in);
    good = good && is_fault(next_so(&in, &one), CODRASK_UNKNOWN_FIELD, 0, 1) && is_asked(1, 3, 0) && !by_hand.arrays;
    tell("columns by their names", gives_back(&in) && good);
}

/* Each batch with the lengths of its buffers: a bitmap that is none, one of the column that is none, and two integers. */
static void lengths(void) {
    static const size_t enough[] = {0, 0, 8}, few[] = {0, 0, 7};
    const struct codrask_reading told = {.lengths = enough, .length_count = 3}, less = {.lengths = few, .length_count = 3};
    struct codrask_stream in = produce((struct producer){.batches = 2, .fails_at = -1, .lies_at = -1}, NULL);
    bool good = is_fault(next_so(&in, &told), 0, 0, 0) && is_batch(&in.table, 0);
    good = good && is_fault(next_so(&in, &less), CODRASK_SHORT_BUFFER, 1, 1) && is_nothing(&in) && !by_hand.arrays;
    tell("a batch with a buffer that is too short", gives_back(&in) && good);
}

/* Streams whose structs are not what they should be: nothing of them is called but the release. */
static void bad_structs(void) {
    const struct producer told = {.batches = 1, .fails_at = -1, .lies_at = -1};
    struct codrask_stream in = {.stream = NULL};
    bool good = is_fault(next(&in), CODRASK_BAD_ARROW, 0, 0) && is_fault(next(&in), CODRASK_BAD_ARROW, 0, 0) && is_nothing(&in);
    codrask_stream_free(&in);
    tell("no stream", good);
    in = produce(told, NULL);
    stream.release = NULL, stream.get_next = NULL;
    good = is_fault(next(&in), CODRASK_RELEASED, 0, 0) && is_asked(0, 0, 0);
    codrask_stream_free(&in);
    tell("a stream that was released", good && by_hand.streams == 1);
    in = produce(told, NULL);
    stream.get_schema = NULL;
    tell("no call for the schema", is_fault(next(&in), CODRASK_BAD_ARROW, 0, 0) && is_asked(0, 0, 0) && gives_back(&in));
    in = produce(told, NULL);
    stream.get_next = NULL;
    tell("no call for a batch", is_fault(next(&in), CODRASK_BAD_ARROW, 0, 0) && is_asked(0, 0, 0) && gives_back(&in));
    in = produce(told, NULL);
    stream.get_last_error = NULL;
    tell("no call for the error", is_fault(next(&in), CODRASK_BAD_ARROW, 0, 0) && is_asked(0, 0, 0) && gives_back(&in));
    in = produce((struct producer){.no_schema = true, .batches = 1, .fails_at = -1, .lies_at = -1}, NULL);
    good = is_fault(next(&in), CODRASK_RELEASED, 0, 0) && is_fault(next(&in), CODRASK_RELEASED, 0, 0) && is_asked(1, 0, 0);
    tell("a schema that is released", gives_back(&in) && good);
}

/* A consumer that stops early, before anything was asked for and at a batch. */
static void stop_early(void) {
    const struct producer told = {.batches = 3, .fails_at = -1, .lies_at = -1};
    struct codrask_stream in = produce(told, NULL);
    tell("given back before anything was asked for", gives_back(&in) && is_asked(0, 0, 0));
    in = produce(told, NULL);
    bool good = is_fault(next(&in), 0, 0, 0) && is_fault(next(&in), 0, 0, 0) && is_batch(&in.table, 1) && is_asked(1, 2, 0);
    tell("given back at a batch", gives_back(&in) && good && is_asked(1, 2, 0));
}

/* A batch that is taken out is the caller's, and stays when the stream is gone. */
static void keep_a_batch(void) {
    struct codrask_stream in = produce((struct producer){.batches = 2, .fails_at = -1, .lies_at = -1}, NULL);
    bool good = is_fault(next(&in), 0, 0, 0);
    struct ArrowArray kept = in.array;
    struct codrask_table table = in.table;
    in.array.release = NULL;
    in.table = (struct codrask_table){NULL, 0, NULL};
    good = good && is_fault(next(&in), 0, 0, 0) && is_batch(&in.table, 1) && by_hand.arrays == 2;
    codrask_stream_free(&in);
    good = good && by_hand.arrays == 1 && !by_hand.schemas && !by_hand.streams && is_batch(&table, 0);
    codrask_table_free(&table);
    kept.release(&kept);
    tell("a batch that is kept", good && !by_hand.arrays);
}

/* ---- structures at random ---- */

static struct structure structure;

static int lend_schema(struct ArrowArrayStream *stream, struct ArrowSchema *given) {
    (void)stream;
    *given = *structure.slots[0].schema;
    return 0;
}

static int lend_array(struct ArrowArrayStream *stream, struct ArrowArray *given) {
    (void)stream;
    *given = *structure.slots[0].array;
    return 0;
}

/* Whether a batch is read, or refused, as it is by itself; of an array that is released there is none. */
static bool is_as_alone(struct codrask_stream *in) {
    struct codrask_table table = {NULL, 0, NULL};
    struct codrask_fault alone = {0, 0, 0};
    const struct slot *top = &structure.slots[0];
    uint32_t number = top->schema->release && !top->array->release ? 0 : codrask_read_arrow(top->schema, top->array, NULL, &table, &alone);
    bool good = is_fault(next(in), number, alone.node, alone.place) && in->table.count == table.count;
    codrask_table_free(&table);
    return good;
}

static void random_structures(void) {
    for (uint64_t seed = 1; seed <= 1000; seed++) {
        struct codrask_stream in = produce((struct producer){.batches = 0}, NULL);
        stream.get_schema = lend_schema, stream.get_next = lend_array;
        build_seed(&structure, seed);
        if (seed % 2)
            turn_structure(&structure);
        bool good = is_as_alone(&in) && is_as_alone(&in);
        tell("a random structure", gives_back(&in) && good);
        tear_down(&structure);
    }
}

/* ---- out ---- */

static struct ArrowArrayStream out;
static struct codrask_run_fault told;

static uint32_t write_columns(const struct codrask_column *columns, size_t count, uint32_t flags) {
    return codrask_write_stream(columns, count, flags, "the batch", NULL, &out, &told);
}

static bool is_told(uint32_t answer, uint32_t number, size_t which, size_t at, size_t place) {
    bool in_table = !number || number == CODRASK_EMPTY_INPUT ? told.part == CODRASK_NO_PART : told.part == CODRASK_IN_TABLE;
    bool good = answer == number && told.number == number && told.which == which && told.node == at && told.place == place && in_table;
    if (!good)
        printf("%u %s at part %u, %zu, node %zu, place %zu\n", answer, codrask_fault_name(answer), told.part, told.which, told.node,
               told.place);
    return good;
}

/* The rows of a column of records with one column, the integers from `start` on; nobody has the memory but the test. */
struct records {
    struct codrask_node nodes[2];
    struct codrask_bytes name;
    int32_t values[3];
};

static struct codrask_column fill(struct records *records, int32_t start, size_t length) {
    records->name = (struct codrask_bytes){(const uint8_t *)"n", 1};
    for (int32_t i = 0; i < 3; i++)
        records->values[i] = start + i;
    records->nodes[0] = node(CODRASK_STRUCT, 0, length);
    records->nodes[0].buffers = &records->name, records->nodes[0].buffer_count = 1;
    records->nodes[1] = numbers(CODRASK_I32, length, records->values, 4 * length);
    return (struct codrask_column){records->nodes, 2};
}

/* Whether a schema is that of such records, by Arrow's rules. */
static bool is_schema(const struct ArrowSchema *s) {
    const struct ArrowSchema *child = s->release && s->n_children == 1 ? s->children[0] : NULL;
    return child && !strcmp(s->format, "+s") && !strcmp(s->name, "the batch") && !s->flags && !s->dictionary && !s->metadata
           && !strcmp(child->format, "i") && !strcmp(child->name, "n") && !child->flags && !child->n_children && child->release;
}

static bool is_array(const struct ArrowArray *a, int32_t start, int64_t length) {
    const int32_t values[] = {start, start + 1, start + 2};
    const struct ArrowArray *child = a->release && a->n_children == 1 ? a->children[0] : NULL;
    return child && a->length == length && a->offset == 0 && a->null_count == 0 && a->n_buffers == 1 && child->length == length
           && child->n_buffers == 2 && !memcmp(child->buffers[1], values, 4 * (size_t)length);
}

static bool hands_out(int32_t start, int64_t length) {
    struct ArrowArray a;
    bool good = !out.get_next(&out, &a) && is_array(&a, start, length);
    if (a.release)
        a.release(&a);
    return good && !a.release;
}

static bool hands_out_nothing(void) {
    struct ArrowArray a = {.release = never_array};
    return !out.get_next(&out, &a) && !a.release;
}

/* Three columns, of which one has no rows; their memory is overwritten before they are handed out. */
static void hand_out(void) {
    struct records records[3];
    struct codrask_column columns[] = {fill(&records[0], 5, 2), fill(&records[1], 0, 0), fill(&records[2], 70, 3)};
    struct ArrowSchema first, second;
    bool good = is_told(write_columns(columns, 3, CODRASK_BY_VIEWS), 0, 0, 0, 0);
    memset(records, 0xee, sizeof records);
    good = good && !out.get_schema(&out, &first) && hands_out(5, 2) && !out.get_schema(&out, &second) && is_schema(&first);
    first.release(&first);
    good = good && !first.release && is_schema(&second) && hands_out(0, 0) && hands_out(70, 3) && hands_out_nothing();
    good = good && hands_out_nothing() && !out.get_last_error(&out);
    out.release(&out);
    good = good && !out.release && is_schema(&second);
    second.release(&second);
    tell("three columns are handed out", good);
}

/* What was handed out stays when the stream is released, and what was not is given back. */
static void released_early(void) {
    struct records records[3];
    struct codrask_column columns[] = {fill(&records[0], 5, 2), fill(&records[1], 6, 1), fill(&records[2], 70, 3)};
    struct ArrowSchema s;
    struct ArrowArray a;
    bool good = is_told(write_columns(columns, 3, CODRASK_BY_VIEWS), 0, 0, 0, 0) && !out.get_schema(&out, &s) && !out.get_next(&out, &a);
    out.release(&out);
    good = good && !out.release && is_schema(&s) && is_array(&a, 5, 2);
    struct ArrowSchema child = *s.children[0];
    s.children[0]->release = NULL;
    s.release(&s);
    a.release(&a);
    good = good && !strcmp(child.name, "n");
    child.release(&child);
    tell("a stream that is released early", good);
    good = is_told(write_columns(columns, 3, CODRASK_BY_VIEWS), 0, 0, 0, 0);
    out.release(&out);
    tell("a stream that is released at once", good);
}

/* ---- arrays that were written before ---- */

enum { WRITTEN = 3 };

static struct ArrowSchema schemas[WRITTEN];
static struct ArrowArray arrays[WRITTEN];

/* Writes columns of two rows, the last one under a name of its own. */
static void write_each(const char *last) {
    for (int i = 0; i < WRITTEN; i++) {
        struct records records;
        struct codrask_fault fault;
        struct codrask_column column = fill(&records, 10 * i, 2);
        const char *name = i == WRITTEN - 1 ? last : "column";
        if (codrask_write_passed(column.nodes, column.count, NULL, 0, name, NULL, &schemas[i], &arrays[i], &fault))
            abort();
    }
}

/* Whether all structs were taken over, or none; those that were not are given back. */
static bool are_taken(bool taken) {
    bool good = true;
    for (int i = 0; i < WRITTEN; i++) {
        good = good && !schemas[i].release == taken && !arrays[i].release == taken;
        if (schemas[i].release)
            schemas[i].release(&schemas[i]);
        if (arrays[i].release)
            arrays[i].release(&arrays[i]);
    }
    return good;
}

static void written_before(void) {
    struct ArrowSchema s;
    write_each("column");
    bool good = is_told(codrask_stream_written(schemas, arrays, WRITTEN, &out, &told), 0, 0, 0, 0) && are_taken(true);
    good = good && hands_out(0, 2) && !out.get_schema(&out, &s) && hands_out(10, 2) && hands_out(20, 2) && hands_out_nothing();
    out.release(&out);
    tell("arrays that were written are handed out", good && !strcmp(s.name, "column") && s.n_children == 1);
    s.release(&s);
    write_each("column");
    good = !codrask_stream_written(schemas, arrays, WRITTEN, &out, &told) && hands_out(0, 2) && are_taken(true);
    out.release(&out);
    tell("and those that nobody takes are given back", good);
    write_each("another");
    out.release = (void (*)(struct ArrowArrayStream *))abort;
    uint32_t number = codrask_stream_written(schemas, arrays, WRITTEN, &out, &told);
    tell("of two schemas nothing is taken", is_told(number, CODRASK_DIFFERING_SCHEMAS, 2, 0, 0) && !out.release && are_taken(false));
    tell("no array", is_told(codrask_stream_written(schemas, arrays, 0, &out, &told), CODRASK_EMPTY_INPUT, 0, 0, 0) && !out.release);
}

/* ---- columns that are refused ---- */

static void refuse(const char *what, const struct codrask_column *columns, size_t count, uint32_t flags, uint32_t number, size_t which,
                   size_t at, size_t place) {
    out.release = (void (*)(struct ArrowArrayStream *))abort;
    tell(what, is_told(write_columns(columns, count, flags), number, which, at, place) && !out.release);
}

static void refused(void) {
    struct records records[3];
    struct codrask_column columns[] = {fill(&records[0], 5, 2), fill(&records[1], 6, 1), fill(&records[2], 70, 3)};
    struct codrask_limits few = {.bytes = 28}; /* a name with its slice has 17, three integers 12 */
    refuse("no column", columns, 0, CODRASK_BY_VIEWS, CODRASK_EMPTY_INPUT, 0, 0, 0);
    refuse("flags that are no flags", columns, 3, 2, CODRASK_BAD_FLAGS, 0, 0, 0);
    columns[1].count = 1;
    refuse("a column without its nodes", columns, 3, CODRASK_BY_VIEWS, CODRASK_MISSING_NODES, 1, 0, 0);
    columns[1].count = 2, records[1].name.count = 2;
    refuse("a name with a byte 0", columns, 3, CODRASK_BY_VIEWS, CODRASK_BAD_ARROW, 1, 0, 0);
    records[1].name.count = 1, records[2].nodes[1].byte_count = 3;
    refuse("the last column", columns, 3, CODRASK_BY_VIEWS, CODRASK_LENGTH_MISMATCH, 2, 1, 0);
    records[2].nodes[1].byte_count = 12;
    bool good = codrask_write_stream(columns, 3, 0, NULL, &few, &out, &told) == CODRASK_TOO_MANY_BYTES && !out.release;
    tell("a column past the limit", good && is_told(told.number, CODRASK_TOO_MANY_BYTES, 2, 1, 0));
    few.bytes = 29;
    good = !codrask_write_stream(columns, 3, 0, NULL, &few, &out, &told);
    if (good)
        out.release(&out);
    tell("columns within the limit", good);
}

/* ---- schemas ---- */

/* Records of lists of integers, of lists of one size, and of a dictionary of texts, in one row. */
struct nest {
    struct codrask_node nodes[10];
    struct codrask_bytes names[3], items[2];
    int64_t zero[2];
    struct codrask_view view;
};

static struct codrask_column build_nest(struct nest *n) {
    *n = (struct nest){.zero = {0, 1}};
    n->names[0] = (struct codrask_bytes){(const uint8_t *)"lists", 5};
    n->names[1] = (struct codrask_bytes){(const uint8_t *)"pairs", 5};
    n->names[2] = (struct codrask_bytes){(const uint8_t *)"codes", 5};
    n->items[0] = n->items[1] = (struct codrask_bytes){(const uint8_t *)"item", 4};
    n->nodes[0] = node(CODRASK_STRUCT, 0, 1), n->nodes[0].buffers = n->names, n->nodes[0].buffer_count = 3;
    n->nodes[1] = node(CODRASK_LIST_VIEW, CODRASK_ALL_VALID, 1), n->nodes[1].buffers = n->items, n->nodes[1].buffer_count = 1;
    n->nodes[2] = numbers(CODRASK_I64, 2, n->zero, 16);
    n->nodes[3] = n->nodes[4] = numbers(CODRASK_I32, 1, n->zero, 4);
    n->nodes[5] = node(CODRASK_FIXED_SIZE_LIST, 0, 1), n->nodes[5].buffers = n->items + 1, n->nodes[5].buffer_count = 1;
    n->nodes[5].size = 2;
    n->nodes[6] = numbers(CODRASK_U8, 2, n->zero, 2);
    n->nodes[7] = node(CODRASK_DICTIONARY, 0, 1);
    n->nodes[8] = numbers(CODRASK_I8, 1, n->zero, 1);
    n->nodes[9] = node(CODRASK_UTF8_VIEW, 0, 1), n->nodes[9].views = &n->view, n->nodes[9].view_count = 1;
    return (struct codrask_column){n->nodes, 10};
}

static struct nest nests[3];
static struct codrask_column columns[3];

static void rebuild(void) {
    for (size_t i = 0; i < 3; i++)
        columns[i] = build_nest(&nests[i]);
}

/* The second or the third column differs from the first one at a node. */
static void differ(const char *what, size_t which, size_t at) {
    refuse(what, columns, 3, CODRASK_BY_VIEWS, CODRASK_DIFFERING_SCHEMAS, which, at, 0);
    refuse(what, columns, 3, CODRASK_BY_OFFSETS, CODRASK_DIFFERING_SCHEMAS, which, at, 0);
    rebuild();
}

static void differing_kinds(void) {
    rebuild();
    nests[1].nodes[2].kind = CODRASK_U64;
    differ("elements of another type", 1, 2);
    nests[2].nodes[6].kind = CODRASK_I8;
    differ("elements of another type, in lists of one size", 2, 6);
    nests[1].nodes[5].size = 1, nests[1].nodes[6] = numbers(CODRASK_U8, 1, nests[1].zero, 1);
    differ("lists of another size", 1, 5);
    nests[2].nodes[8].kind = CODRASK_U8;
    differ("codes of another type", 2, 7);
    nests[1].nodes[9].kind = CODRASK_BINARY_VIEW;
    differ("values of another type", 1, 9);
    nests[1].nodes[7] = numbers(CODRASK_I8, 1, nests[1].zero, 1), columns[1].count = 8;
    differ("codes without values", 1, 7);
    nests[2].nodes[0].buffer_count = 2, columns[2].count = 7;
    differ("a column less", 2, 0);
    columns[1] = (struct codrask_column){&nests[1].nodes[2], 1};
    differ("no records", 1, 0);
}

static void differing_names(void) {
    rebuild();
    nests[1].nodes[1].validity = 0;
    differ("lists that are not nullable", 1, 1);
    nests[2].nodes[0].validity = CODRASK_ALL_VALID;
    differ("nullable records", 2, 0);
    nests[1].nodes[6].validity = CODRASK_ALL_VALID;
    differ("nullable elements", 1, 6);
    nests[1].nodes[8].validity = CODRASK_ALL_VALID;
    differ("nullable codes", 1, 7);
    nests[2].nodes[9].validity = CODRASK_ALL_VALID;
    differ("nullable values", 2, 7);
    nests[1].names[1].count = 4;
    differ("a column of another name", 1, 5);
    nests[1].names[1].count = 0, nests[2].names[0].count = 0;
    differ("columns without a name", 1, 5);
    nests[2].items[0].count = 3;
    differ("elements of another name", 2, 2);
    nests[1].nodes[5].buffer_count = 0;
    differ("elements without a name", 1, 6);
    nests[1].nodes[6].validity = nests[1].nodes[2].validity = CODRASK_ALL_VALID;
    differ("the first of two differences", 1, 2);
}

/* Which rows are null, and how offsets and sizes are kept, no schema tells. */
static void alike(void) {
    static const uint8_t bits[] = {1};
    rebuild();
    nests[1].nodes[1].validity = CODRASK_ALL_INVALID;
    nests[1].nodes[3] = nests[1].nodes[4] = numbers(CODRASK_U64, 1, nests[1].zero, 8);
    struct codrask_node masked[11] = {nests[2].nodes[0], nests[2].nodes[1], truths(1, bits)};
    memcpy(masked + 3, nests[2].nodes + 2, 8 * sizeof *masked);
    masked[1].validity = CODRASK_BY_ARRAY;
    columns[2] = (struct codrask_column){masked, 11};
    bool good = is_told(write_columns(columns, 3, CODRASK_BY_VIEWS), 0, 0, 0, 0);
    if (good)
        out.release(&out);
    tell("columns that differ in no schema", good);
    masked[3].validity = CODRASK_ALL_VALID;
    refuse("a node after an array of truth values", columns, 3, CODRASK_BY_VIEWS, CODRASK_DIFFERING_SCHEMAS, 2, 3, 0);
    nests[1].nodes[2].validity = masked[3].validity;
    nests[0].nodes[2].validity = CODRASK_ALL_INVALID;
    good = is_told(write_columns(columns, 3, CODRASK_BY_OFFSETS), 0, 0, 0, 0);
    if (good)
        out.release(&out);
    tell("by offsets too", good);
}

/* ---- what is carried ---- */

/* A word, or several with a byte 0 between them. */
#define WORDS(words) {(const uint8_t *)(words), sizeof(words) - 1}

/* Records of reals, of byte lists under an extension, of bytes under a format and an extension, and of codes whose order counts. */
struct carried {
    struct codrask_node nodes[11];
    struct codrask_bytes names[4], words[4];
    double value;
    struct codrask_view view;
    uint8_t code, values[1];
};

static struct codrask_column build_carried(struct carried *c) {
    *c = (struct carried){.names = {WORDS("real"), WORDS("shape"), WORDS("id"), WORDS("codes")},
                          .words = {WORDS("\0g"), WORDS("\0\0ogc.wkb\0{}"), WORDS("\0d:1,0,32\0id"), WORDS("\0ordered")}};
    struct codrask_node nodes[] = {node(CODRASK_STRUCT, 0, 1),         node(CODRASK_STRUCT, CODRASK_ALL_VALID, 1),
                                   numbers(CODRASK_U64, 1, &c->value, 8), node(CODRASK_STRUCT, 0, 1),
                                   node(CODRASK_BINARY_VIEW, CODRASK_ALL_VALID, 1), node(CODRASK_STRUCT, 0, 1),
                                   numbers(CODRASK_U32, 1, &c->value, 4), node(CODRASK_STRUCT, 0, 1),
                                   node(CODRASK_DICTIONARY, 0, 1), numbers(CODRASK_U8, 1, &c->code, 1),
                                   numbers(CODRASK_U8, 1, c->values, 1)};
    memcpy(c->nodes, nodes, sizeof nodes);
    c->nodes[0].buffers = c->names, c->nodes[0].buffer_count = 4;
    c->nodes[4].views = &c->view, c->nodes[4].view_count = 1;
    for (size_t i = 0; i < 4; i++)
        c->nodes[2 * i + 1].buffers = &c->words[i], c->nodes[2 * i + 1].buffer_count = 1;
    return (struct codrask_column){c->nodes, 11};
}

/* Whether a schema has these metadata, by Arrow's layout; of none the size is 0. */
static bool has_metadata(const struct ArrowSchema *s, const void *metadata, size_t size) {
    return size ? s->metadata && !memcmp(s->metadata, metadata, size) : !s->metadata;
}

static bool is_carried_schema(const struct ArrowSchema *s) {
    static const char shape[] = "\2\0\0\0\x14\0\0\0ARROW:extension:name\7\0\0\0ogc.wkb\x18\0\0\0ARROW:extension:metadata\2\0\0\0{}";
    static const char id[] = "\1\0\0\0\x14\0\0\0ARROW:extension:name\2\0\0\0id";
    struct ArrowSchema **of = s->children;
    return s->n_children == 4 && !strcmp(of[0]->format, "g") && has_metadata(of[0], NULL, 0) && of[0]->flags == ARROW_FLAG_NULLABLE
           && !strcmp(of[1]->format, "vz") && has_metadata(of[1], shape, sizeof shape - 1) && !strcmp(of[2]->format, "d:1,0,32")
           && has_metadata(of[2], id, sizeof id - 1) && of[3]->dictionary && of[3]->flags == ARROW_FLAG_DICTIONARY_ORDERED
           && has_metadata(of[3], NULL, 0);
}

static void carried(void) {
    struct carried both[2];
    struct codrask_column two[] = {build_carried(&both[0]), build_carried(&both[1])};
    struct codrask_stream in = {.stream = &out};
    bool good = is_told(write_columns(two, 2, CODRASK_BY_VIEWS), 0, 0, 0, 0);
    good = good && !next(&in) && is_carried_schema(&in.schema) && in.table.count == 11
           && !memcmp(in.table.nodes[3].buffers[0].bytes, "\0\0ogc.wkb\0{}", 12);
    good = good && !next(&in) && in.table.count == 11 && !next(&in) && !in.table.count;
    codrask_stream_free(&in);
    tell("what is carried is handed out", good);
    static const struct {
        const char *what;
        size_t place;
        struct codrask_bytes word;
    } others[] = {{"another format", 0, WORDS("\0tdm")},           {"another extension", 1, WORDS("\0\0ogc.wkc\0{}")},
                  {"another metadata", 1, WORDS("\0\0ogc.wkb\0[]")}, {"no metadata", 1, WORDS("\0\0ogc.wkb")},
                  {"no extension", 2, WORDS("\0d:1,0,32")},          {"codes in no order", 3, WORDS("\0\0order")}};
    for (size_t i = 0; i < COUNT(others); i++) {
        both[1].words[others[i].place] = others[i].word;
        refuse(others[i].what, two, 2, CODRASK_BY_VIEWS, CODRASK_DIFFERING_SCHEMAS, 1, 2 * others[i].place + 1, 0);
        two[1] = build_carried(&both[1]);
    }
}

/* ---- out and in again ---- */

static struct made made;

/* Whether a stream of one column, three times, is read as the same rows and the same sums, by Arrow's rules. */
static bool there_and_back(uint32_t flags) {
    struct codrask_column column = {made.nodes, made.count}, thrice[] = {column, column, column};
    struct codrask_stream in = {.stream = &out};
    struct ArrowSchema s;
    struct ArrowArray a;
    uint32_t number = codrask_write_arrow(made.nodes, made.count, flags, "the batch", NULL, &s, &a, &fault);
    if (write_columns(thrice, 3, flags))
        return is_told(told.number, number, 0, fault.node, fault.place);
    uint64_t rows = read_all(made.nodes), sum = sum_of(&s, &a).seen;
    bool good = !number;
    for (size_t i = 0; i < 3; i++)
        good = good && !next(&in) && in.table.count && read_all(in.table.nodes) == rows && sum_of(&in.schema, &in.array).seen == sum;
    good = good && !next(&in) && !in.table.count && in.batches == 3;
    codrask_stream_free(&in);
    s.release(&s);
    a.release(&a);
    return good && !out.release;
}

static void random_columns(void) {
    for (uint64_t seed = 1; seed <= 300; seed++) {
        state = 31 * seed;
        put_column(&made, 1 + random_below(12), 0);
        tell("a random column by views", there_and_back(CODRASK_BY_VIEWS));
        tell("a random column by offsets", there_and_back(CODRASK_BY_OFFSETS));
        let_go(&made);
    }
}

int main(void) {
    batches_in(0);
    batches_in(1);
    batches_in(3);
    schema_fails("no such file");
    schema_fails(NULL);
    next_fails(0, "the first one is torn");
    next_fails(1, "the second one is torn");
    next_fails(1, NULL);
    another_layout(0);
    another_layout(1);
    limits();
    columns_by_name();
    lengths();
    bad_structs();
    stop_early();
    keep_a_batch();
    random_structures();
    hand_out();
    released_early();
    written_before();
    refused();
    differing_kinds();
    differing_names();
    alike();
    carried();
    random_columns();
    printf("%d passed, %d failed\n", passed, failed);
    return failed != 0;
}
