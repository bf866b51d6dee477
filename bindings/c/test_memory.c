/* Each allocation of a call fails in turn: the call answers Memory, or as it does with ample memory, and every block is
 * given back. Linked with --wrap of malloc, calloc, realloc and free. The last line is 'N passed, M failed'. */
#include "by_hand.h"
#include "tables.h"
#include "turned_structures.h"

#include <errno.h>
#include <stdio.h>

void *__real_malloc(size_t size);
void *__real_realloc(void *block, size_t size);
void *__real_calloc(size_t count, size_t width);
void __real_free(void *block);

static long left = -1, held, tried;
static bool counting;

static bool refused(void) {
    if (!counting)
        return false;
    tried++;
    return left >= 0 && left-- == 0;
}

void *__wrap_malloc(size_t size) {
    void *got = refused() ? NULL : __real_malloc(size);
    held += counting && got;
    return got;
}

void *__wrap_realloc(void *old, size_t size) {
    void *got = refused() ? NULL : __real_realloc(old, size);
    held += counting && got && !old;
    return got;
}

void *__wrap_calloc(size_t count, size_t width) {
    void *got = refused() ? NULL : __real_calloc(count, width);
    held += counting && got;
    return got;
}

void __wrap_free(void *old) {
    held -= counting && old;
    __real_free(old);
}

static struct made made;

typedef uint32_t call(struct codrask_fault *fault);

static uint32_t check(struct codrask_fault *fault) {
    return codrask_check(made.nodes, made.count, fault);
}

static uint32_t write_table(const struct codrask_node *nodes, size_t count, const uint8_t *formats, uint32_t flags,
                            struct codrask_fault *fault) {
    struct ArrowSchema schema;
    struct ArrowArray array;
    uint32_t number = codrask_write_arrow_as(nodes, count, formats, flags, "a column", NULL, &schema, &array, fault);
    if (schema.release)
        schema.release(&schema);
    if (array.release)
        array.release(&array);
    return number;
}

/* Writes the table without testing it again, where it has passed. */
static uint32_t passed_before(struct codrask_fault *fault) {
    struct ArrowSchema schema;
    struct ArrowArray array;
    uint32_t number = codrask_check(made.nodes, made.count, fault);
    if (number || (number = codrask_write_passed(made.nodes, made.count, NULL, CODRASK_BY_VIEWS, "a", NULL, &schema, &array, fault)))
        return number;
    schema.release(&schema);
    array.release(&array);
    return 0;
}

/* Makes pickles of the texts and byte lists of the table, where it has passed; also of rows that are null, whose views are good too. */
static uint32_t pickles(struct codrask_fault *fault) {
    uint32_t number = codrask_check(made.nodes, made.count, fault);
    for (size_t i = 0; i < made.count && !number; i++) {
        struct codrask_bytes pickle;
        bool is_value = made.nodes[i].kind == CODRASK_UTF8_VIEW || made.nodes[i].kind == CODRASK_BINARY_VIEW;
        if (is_value && !(number = codrask_pickle(&made.nodes[i], NULL, &pickle)))
            codrask_pickle_free(&pickle);
    }
    return number;
}

static uint32_t by_offsets(struct codrask_fault *fault) {
    return write_table(made.nodes, made.count, NULL, CODRASK_BY_OFFSETS, fault);
}

static uint32_t by_views(struct codrask_fault *fault) {
    return write_table(made.nodes, made.count, NULL, CODRASK_BY_VIEWS, fault);
}

/* Takes all that a stream hands out, and its schema twice. */
static uint32_t take_all(struct ArrowArrayStream *stream) {
    struct ArrowSchema schemas[2];
    struct ArrowArray array = {.length = 1};
    bool first = !stream->get_schema(stream, &schemas[0]), second = !stream->get_schema(stream, &schemas[1]);
    if (first)
        schemas[0].release(&schemas[0]);
    if (second)
        schemas[1].release(&schemas[1]);
    while (!stream->get_next(stream, &array) && array.release)
        array.release(&array);
    return first && second && !schemas[0].release && !schemas[1].release ? 0 : CODRASK_MEMORY;
}

/* Writes a column twice as a stream, and takes all of it. */
static uint32_t stream_out(struct codrask_fault *fault) {
    struct codrask_column column = {made.nodes, made.count}, twice[] = {column, column};
    struct codrask_run_fault told;
    struct ArrowArrayStream stream;
    uint32_t number = codrask_write_stream(twice, 2, CODRASK_BY_VIEWS, "a column", NULL, &stream, &told);
    *fault = (struct codrask_fault){told.number, told.node, told.place + told.part + told.which};
    if (number)
        return number;
    number = take_all(&stream);
    stream.release(&stream);
    return number;
}

/* Writes a column twice, where it has passed, and then a stream of both arrays, of which all is taken. */
static uint32_t stream_written(struct codrask_fault *fault) {
    struct ArrowSchema schemas[2] = {{.release = NULL}};
    struct ArrowArray arrays[2] = {{.release = NULL}};
    struct ArrowArrayStream stream = {.release = NULL};
    struct codrask_run_fault told;
    uint32_t number = codrask_check(made.nodes, made.count, fault);
    for (int i = 0; i < 2 && !number; i++)
        number = codrask_write_passed(made.nodes, made.count, NULL, 0, NULL, NULL, &schemas[i], &arrays[i], fault);
    if (!number && (number = codrask_stream_written(schemas, arrays, 2, &stream, &told)))
        *fault = (struct codrask_fault){told.number, told.node, told.place};
    if (!number)
        number = take_all(&stream);
    for (int i = 0; i < 2; i++) {
        if (schemas[i].release)
            schemas[i].release(&schemas[i]);
        if (arrays[i].release)
            arrays[i].release(&arrays[i]);
    }
    if (stream.release)
        stream.release(&stream);
    return number;
}

/* Writes a column twice as a stream, which is read a batch at a time. */
static uint32_t stream_back_in(struct codrask_fault *fault) {
    struct codrask_column column = {made.nodes, made.count}, twice[] = {column, column};
    struct codrask_run_fault told;
    struct ArrowArrayStream stream;
    struct codrask_stream in = {.stream = &stream};
    struct codrask_arrow_fault found;
    uint32_t number = codrask_write_stream(twice, 2, CODRASK_BY_OFFSETS, NULL, NULL, &stream, &told);
    *fault = (struct codrask_fault){told.number, told.node, told.place};
    if (number)
        return number;
    do
        number = codrask_next_batch(&in, NULL, &found);
    while (!number && in.table.count);
    *fault = found.fault;
    bool no_memory = in.error == ENOMEM && in.message[0];
    codrask_stream_free(&in);
    return number == CODRASK_STREAM_FAILED && no_memory ? CODRASK_MEMORY : number;
}

static struct structure structure;

/* Reads an Arrow structure, and writes it again, by views and in the formats in which it came. */
static uint32_t there_and_back(struct codrask_fault *fault) {
    struct codrask_table table;
    uint32_t number = codrask_read_arrow(structure.slots[0].schema, structure.slots[0].array, NULL, &table, fault);
    if (number)
        return number;
    number = write_table(table.nodes, table.count, NULL, CODRASK_BY_VIEWS, fault);
    if (!number)
        number = write_table(table.nodes, table.count, codrask_table_formats(&table), CODRASK_BY_VIEWS, fault);
    codrask_table_free(&table);
    return number;
}

static uint32_t check_structure(struct codrask_fault *fault) {
    return codrask_check_arrow(structure.slots[0].schema, structure.slots[0].array, fault);
}

static size_t lengths[MOST_PIECES], length_count;

static uint32_t check_sized(struct codrask_fault *fault) {
    return codrask_check_arrow_sized(structure.slots[0].schema, structure.slots[0].array, lengths, length_count, fault);
}

static uint32_t table_sized(struct codrask_fault *fault) {
    struct codrask_table table;
    uint32_t number = codrask_table_from_arrow_sized(structure.slots[0].schema, structure.slots[0].array, lengths, length_count, &table);
    *fault = (struct codrask_fault){number, 0, 0};
    codrask_table_free(&table);
    return number;
}

/* Two columns of records, where there are two of these names. */
static uint32_t read_columns(struct codrask_fault *fault) {
    static const char *const names[] = {"a", "b"};
    struct codrask_reading how = {.lengths = lengths, .length_count = length_count, .columns = names, .column_count = 2};
    struct codrask_arrow_fault told;
    struct codrask_table table;
    uint32_t number = codrask_read_arrow_sized(structure.slots[0].schema, structure.slots[0].array, &how, &table, &told);
    *fault = told.fault;
    codrask_table_free(&table);
    return number;
}

/* Runs steps, and finds the formats of what they gave. */
static uint32_t run_steps(const struct codrask_column *columns, size_t count, const struct codrask_step *steps, size_t step_count,
                          const size_t *wanted, size_t wanted_count, struct codrask_fault *fault) {
    static uint8_t room[16][4096];
    static const uint8_t given[4096], *const formats[] = {given, NULL, given, NULL};
    uint8_t *made_formats[COUNT(room)];
    struct codrask_columns results = CODRASK_NO_COLUMNS;
    struct codrask_run_fault told;
    if (count > COUNT(formats) || wanted_count > COUNT(room))
        abort();
    for (size_t i = 0; i < COUNT(room); i++)
        made_formats[i] = room[i];
    uint32_t number = codrask_run(columns, count, steps, step_count, wanted, wanted_count, &results, &told);
    *fault = (struct codrask_fault){told.number, told.node, told.place};
    if (!number && results.count != wanted_count)
        abort();
    if (!number && (number = codrask_run_formats(columns, formats, count, steps, step_count, wanted, &results, made_formats)))
        *fault = (struct codrask_fault){number, 0, 0};
    codrask_columns_free(&results);
    return number;
}

static uint32_t run(struct codrask_fault *fault) {
    struct codrask_column column = {made.nodes, made.count};
    size_t both[] = {0, 1}, wanted[] = {3, 0, 1};
    struct codrask_step steps[] = {step(CODRASK_CANONICAL, 0), step(CODRASK_CONCAT, 0), step(CODRASK_SLICE, 2)};
    steps[1].arrays = both, steps[1].array_count = 2;
    steps[2].end = made.nodes[0].length;
    return run_steps(&column, 1, steps, 3, wanted, 3, fault);
}

/* One step of each kind, on records, lists, numbers and truth values; what each gives is written. */
static uint32_t run_each_kind(struct codrask_fault *fault) {
    static const int32_t offsets[] = {2, 0, 1}, sizes[] = {2, 1, 2}, picks[] = {1, 0};
    static const int64_t elements[] = {1, 2, 3, 4};
    static const uint8_t bits[] = {2};
    static const struct codrask_bytes names[] = {{(const uint8_t *)"a", 1}, {(const uint8_t *)"b", 1}};
    static const size_t twice[] = {2, 2};
    struct codrask_node records[] = {node(CODRASK_STRUCT, CODRASK_BY_ARRAY, 2), truths(2, bits), numbers(CODRASK_I32, 2, SLICE(picks)),
                                     truths(2, bits)};
    struct codrask_node lists[] = {node(CODRASK_LIST_VIEW, 0, 3), numbers(CODRASK_I64, 4, SLICE(elements)),
                                   numbers(CODRASK_I32, 3, SLICE(offsets)), numbers(CODRASK_I32, 3, SLICE(sizes))};
    struct codrask_node whole = numbers(CODRASK_I32, 2, SLICE(picks)), mask = truths(2, bits);
    struct codrask_column columns[] = {{records, 4}, {lists, 4}, {&whole, 1}, {&mask, 1}};
    struct codrask_step steps[] = {step(CODRASK_SLICE, 1),       step(CODRASK_TAKE, 0),          step(CODRASK_FILTER, 0),
                                   step(CODRASK_MASK, 2),        step(CODRASK_CONCAT, 0),        step(CODRASK_CANONICAL, 0),
                                   step(CODRASK_REBUILD, 1),     step(CODRASK_NARROW, 2),        step(CODRASK_PROJECT, 0),
                                   step(CODRASK_WITH_COLUMN, 0), step(CODRASK_REMOVE_COLUMN, 0), step(CODRASK_PUSH_VALIDITY, 0),
                                   step(CODRASK_PACK, 0),        step(CODRASK_PACK, 1),          step(CODRASK_FIELD, 0)};
    size_t wanted[COUNT(steps)];
    records[0].buffers = names, records[0].buffer_count = 2;
    steps[0].end = 2;
    steps[1].other = 2;
    steps[2].other = steps[3].other = 3;
    steps[4].arrays = twice, steps[4].array_count = 2;
    steps[8].names = names + 1, steps[8].name_count = 1;
    steps[9].name = (const uint8_t *)"c", steps[9].name_size = 1, steps[9].other = 2;
    steps[10].name = names[0].bytes, steps[10].name_size = 1;
    steps[11].mode = 1;
    steps[14].name = names[0].bytes, steps[14].name_size = 1;
    for (size_t i = 0; i < COUNT(steps); i++)
        wanted[i] = COUNT(columns) + i;
    return run_steps(columns, COUNT(columns), steps, COUNT(steps), wanted, COUNT(wanted), fault);
}

/* Makes a call with one request for memory refused, or with none. */
static uint32_t try_call(call *made_call, long fail_at, struct codrask_fault *fault) {
    *fault = (struct codrask_fault){0, 0, 0};
    left = fail_at, held = tried = 0, counting = true;
    uint32_t number = made_call(fault);
    counting = false, left = -1;
    return number;
}

static bool is_same(const struct codrask_fault *one, const struct codrask_fault *other) {
    return one->number == other->number && one->node == other->node && one->place == other->place;
}

/* Whether nothing is told beside a number. */
static bool is_bare(const struct codrask_fault *fault) {
    return fault->node == 0 && fault->place == 0;
}

/* Whether a call answers Memory where memory is refused, or as ever, and keeps nothing. */
static bool gives_back(call *made_call, uint64_t seed) {
    struct codrask_fault fault, other;
    uint32_t wanted = try_call(made_call, -1, &fault);
    long calls = tried;
    bool good = held == 0;
    for (long i = 0; i < calls; i++) {
        uint32_t number = try_call(made_call, i, &other);
        good = good && held == 0 && (number == CODRASK_MEMORY ? is_bare(&other) : number == wanted && is_same(&fault, &other));
    }
    if (!good)
        printf("seed %llu: %ld calls, %ld blocks held\n", (unsigned long long)seed, calls, held);
    return good;
}

int main(void) {
    size_t passed = 0, failed = 0;
    struct codrask_fault fault;
    run_each_kind(&fault) == 0 ? passed++ : failed++;
    gives_back(run_each_kind, 0) ? passed++ : failed++;
    for (uint64_t seed = 1; seed <= 200; seed++) {
        state = seed;
        put_column(&made, 1 + random_below(12), 0);
        if (seed % 2)
            made.nodes[random_below(made.count)].length++;
        gives_back(check, seed) ? passed++ : failed++;
        gives_back(by_offsets, seed) ? passed++ : failed++;
        gives_back(by_views, seed) ? passed++ : failed++;
        gives_back(passed_before, seed) ? passed++ : failed++;
        gives_back(pickles, seed) ? passed++ : failed++;
        gives_back(stream_out, seed) ? passed++ : failed++;
        gives_back(stream_written, seed) ? passed++ : failed++;
        gives_back(stream_back_in, seed) ? passed++ : failed++;
        gives_back(run, seed) ? passed++ : failed++;
        let_go(&made);
    }
    for (uint64_t seed = 1; seed <= 200; seed++) {
        build_seed(&structure, seed);
        length_count = put_lengths(&structure, structure.slots[0].array, lengths);
        if (seed % 4 == 0)
            turn_structure(&structure);
        gives_back(there_and_back, seed) ? passed++ : failed++;
        gives_back(check_structure, seed) ? passed++ : failed++;
        gives_back(check_sized, seed) ? passed++ : failed++;
        gives_back(table_sized, seed) ? passed++ : failed++;
        gives_back(read_columns, seed) ? passed++ : failed++;
        tear_down(&structure);
    }
    printf("%zu passed, %zu failed\n", passed, failed);
    return failed != 0;
}
