/* Steps on columns whose values the layer has no type for: what is cut, taken, masked and joined keeps its format and the bytes of its
 * rows, by plain loops; and the proved calls themselves refuse what would join two formats, or take one for numbers. The last line is
 * 'N passed, M failed'. */
#include "carried_by_hand.h"

static struct codrask_fault fault;
static struct codrask_run_fault run_fault;

/* Tables of what a run takes, in order. */
struct columns {
    struct codrask_table tables[4];
    struct codrask_column columns[4];
    size_t count;
};

static void add(struct columns *all, const struct ArrowSchema *schema, const struct ArrowArray *array) {
    struct codrask_table *table = &all->tables[all->count];
    if (codrask_read_arrow(schema, array, NULL, table, &fault))
        abort();
    all->columns[all->count++] = (struct codrask_column){table->nodes, table->count};
}

static void add_column(struct columns *all, const struct column *c) {
    add(all, &c->schema, &c->array);
}

static void add_numbers(struct columns *all, const char *format, int64_t length, const void *bytes) {
    const void *buffers[] = {NULL, bytes};
    struct ArrowSchema s = schema(format, 0, NULL, 0);
    struct ArrowArray a = array(length, 0, buffers, 2, NULL, 0);
    add(all, &s, &a);
}

static void free_columns(struct columns *all) {
    while (all->count)
        codrask_table_free(&all->tables[--all->count]);
}

/* ---- what steps make ---- */

static const int32_t picks[] = {4, 0, 10, 4};
static const uint8_t truths_of[] = {0x96, 0x03};

/* Which rows of a column the results of these steps have; -1 of a row that they make null. */
enum { MOST_RESULTS = 2 * ROWS };
struct result {
    size_t count;
    int64_t rows[MOST_RESULTS];
};

static void append(struct result *result, int64_t row) {
    result->rows[result->count++] = row;
}

static struct codrask_step steps[] = {{.kind = CODRASK_SLICE, .start = 2, .end = 9},
                                      {.kind = CODRASK_TAKE, .other = 1},
                                      {.kind = CODRASK_FILTER, .other = 2},
                                      {.kind = CODRASK_MASK, .other = 2},
                                      {.kind = CODRASK_CONCAT},
                                      {.kind = CODRASK_CANONICAL}};

/* What each step gives, by plain loops. */
static void rows_of_steps(struct result *results) {
    memset(results, 0, COUNT(steps) * sizeof *results);
    for (int64_t i = 2; i < 9; i++)
        append(&results[0], i);
    for (size_t i = 0; i < COUNT(picks); i++)
        append(&results[1], picks[i]);
    for (int64_t i = 0; i < ROWS; i++) {
        bool truth = truths_of[i / 8] >> i % 8 & 1;
        if (truth)
            append(&results[2], i);
        append(&results[3], truth ? i : -1);
        append(&results[5], i);
    }
    for (int64_t i = 0; i < 2 * ROWS; i++)
        append(&results[4], i % ROWS);
}

/* Whether a written array has such rows of a column: its format, which are null, and the bytes of those that are not. */
static bool has_rows(const struct ArrowSchema *schema, const struct ArrowArray *array, const struct column *c, const struct result *rows) {
    bool good = !strcmp(schema->format, c->schema.format) && array->length == (int64_t)rows->count && array->n_buffers == 2;
    const uint8_t *bytes = good ? array->buffers[1] : NULL;
    for (size_t i = 0; good && i < rows->count; i++) {
        bool valid = rows->rows[i] >= 0 && is_valid(c, rows->rows[i]);
        good = valid == (!array->buffers[0] || flag(array->buffers[0], (int64_t)i));
        if (good && valid)
            good = !memcmp(bytes + i * c->width, c->bytes + (size_t)(c->array.offset + rows->rows[i]) * c->width, c->width);
    }
    return good;
}

/* Whether a column that a run made is written with such rows. */
static bool is_written(const struct codrask_column *made, uint32_t flags, const struct column *c, const struct result *rows) {
    struct ArrowSchema schema;
    struct ArrowArray array;
    if (codrask_to_arrow(made->nodes, made->count, flags, &schema, &array, &fault))
        return false;
    bool good = has_rows(&schema, &array, c, rows);
    schema.release(&schema);
    array.release(&array);
    return good;
}

static void each_step(size_t which, bool nullable) {
    static const size_t twice[] = {0, 0}, wanted[] = {3, 4, 5, 6, 7, 8};
    struct columns all = {.count = 0};
    struct codrask_columns made = CODRASK_NO_COLUMNS;
    struct result results[COUNT(steps)];
    struct column c;
    make_column(&c, which, ROWS, BEFORE, nullable);
    add_column(&all, &c), add_numbers(&all, "i", COUNT(picks), picks), add_numbers(&all, "b", ROWS, truths_of);
    for (size_t i = 0; i < COUNT(steps); i++)
        steps[i].arrays = twice, steps[i].array_count = 2, steps[i].names = (const void *)none, steps[i].name = none;
    rows_of_steps(results);
    uint32_t number = codrask_run(all.columns, 3, steps, COUNT(steps), wanted, COUNT(wanted), &made, &run_fault);
    if (number)
        printf("%s, step %zu: %s\n", c.schema.format, run_fault.which, codrask_fault_name(number));
    for (size_t i = 0; i < COUNT(steps); i++) {
        bool good = !number && is_written(&made.columns[i], CODRASK_BY_VIEWS, &c, &results[i]);
        if (!good)
            printf("%s, step %zu\n", c.schema.format, i);
        tell("a step on values that are carried", good);
    }
    codrask_columns_free(&made);
    free_columns(&all);
    free_column(&c);
}

/* Lists at 5, 0 and 3 of the rows, laid one after another; by offsets their elements are the rows in order. */
static void rebuilt(size_t which) {
    static const int32_t starts[] = {5, 0, 3}, sizes[] = {2, 3, 1};
    static const uint32_t modes[] = {CODRASK_ZERO_COPY_TO_LIST, CODRASK_MAKE_EXACT};
    static const struct result laid = {6, {5, 6, 0, 1, 2, 3}};
    const void *views[] = {NULL, starts, sizes};
    struct column c;
    make_column(&c, which, ROWS, BEFORE, true);
    struct ArrowSchema *schemas[] = {&c.schema}, s = schema("+vl", 0, schemas, 1), schema;
    struct ArrowArray *parts[] = {&c.array}, a = array(3, 0, views, 3, parts, 1), array;
    struct columns all = {.count = 0};
    add(&all, &s, &a);
    for (size_t i = 0; i < COUNT(modes); i++) {
        struct codrask_columns made = CODRASK_NO_COLUMNS;
        struct codrask_step rebuild = step(CODRASK_REBUILD, 0);
        size_t wanted = 1;
        rebuild.mode = modes[i];
        bool good = !codrask_run(all.columns, 1, &rebuild, 1, &wanted, 1, &made, &run_fault)
                    && !codrask_to_arrow(made.columns[0].nodes, made.columns[0].count, CODRASK_BY_OFFSETS, &schema, &array, &fault);
        tell("lists of values that are carried", good && has_rows(schema.children[0], array.children[0], &c, &laid));
        if (good) {
            schema.release(&schema);
            array.release(&array);
        }
        codrask_columns_free(&made);
    }
    free_columns(&all);
    free_column(&c);
}

/* A dictionary made plain has the rows of its values, also where its codes were ordered. */
static void decoded(size_t which, int64_t flags) {
    static const uint8_t codes[] = {4, 0, 4, 10};
    static const struct result rows = {4, {4, 0, 4, 10}};
    const void *coded[] = {NULL, codes};
    struct column c;
    make_column(&c, which, ROWS, BEFORE, true);
    struct ArrowSchema s = schema("C", ARROW_FLAG_NULLABLE | flags, NULL, 0);
    struct ArrowArray a = array(4, 0, coded, 2, NULL, 0);
    struct columns all = {.count = 0};
    struct codrask_columns made = CODRASK_NO_COLUMNS;
    size_t wanted = 0;
    s.dictionary = &c.schema, a.dictionary = &c.array;
    add(&all, &s, &a);
    bool good = !codrask_run(all.columns, 1, steps, 0, &wanted, 1, &made, &run_fault);
    tell("a dictionary of values that are carried", good && is_written(&made.columns[0], CODRASK_BY_VIEWS, &c, &rows));
    codrask_columns_free(&made);
    free_columns(&all);
    free_column(&c);
}

/* ---- nulls, maps and extensions ---- */

/* Runs one step on columns, and writes what it gives. */
static struct ArrowSchema written_schema;
static struct ArrowArray written;

static uint32_t write_step(const struct columns *all, struct codrask_step step) {
    struct codrask_columns made = CODRASK_NO_COLUMNS;
    size_t wanted = all->count;
    written_schema.release = NULL, written.release = NULL;
    uint32_t number = codrask_run(all->columns, all->count, &step, 1, &wanted, 1, &made, &run_fault);
    if (!number)
        number = codrask_to_arrow(made.columns[0].nodes, made.columns[0].count, CODRASK_BY_VIEWS, &written_schema, &written, &fault);
    codrask_columns_free(&made);
    return number;
}

static void give_back(void) {
    if (written_schema.release)
        written_schema.release(&written_schema);
    if (written.release)
        written.release(&written);
}

static void nulls(void) {
    static const size_t twice[] = {0, 0};
    struct ArrowSchema s = schema("n", ARROW_FLAG_NULLABLE, NULL, 0);
    struct ArrowArray a = array(ROWS, 0, NULL, 0, NULL, 0);
    struct columns all = {.count = 0};
    add(&all, &s, &a), add_numbers(&all, "i", COUNT(picks), picks), add_numbers(&all, "b", ROWS, truths_of);
    const struct {
        struct codrask_step step;
        int64_t rows;
    } each[] = {{{.kind = CODRASK_SLICE, .start = 2, .end = 9}, 7},
                {{.kind = CODRASK_TAKE, .other = 1}, COUNT(picks)},
                {{.kind = CODRASK_FILTER, .other = 2}, 6},
                {{.kind = CODRASK_MASK, .other = 2}, ROWS},
                {{.kind = CODRASK_CONCAT}, 2 * ROWS},
                {{.kind = CODRASK_CANONICAL}, ROWS}};
    for (size_t i = 0; i < COUNT(each); i++) {
        struct codrask_step step = each[i].step;
        step.arrays = twice, step.array_count = 2, step.names = (const void *)none, step.name = none;
        uint32_t number = write_step(&all, step);
        tell("a step on nulls", !number && !strcmp(written_schema.format, "n") && written.length == each[i].rows && !written.n_buffers
                                    && written.null_count == each[i].rows);
        give_back();
    }
    free_columns(&all);
}

/* Whether the map of a row has these keys. */
static bool has_keys(int64_t row, const char *keys) {
    const struct ArrowArray *entries = written.children[0], *column = entries->children[0];
    int64_t start = whole(written.buffers[1], 4, true, row), end = whole(written.buffers[1], 4, true, row + 1);
    return end - start == (int64_t)strlen(keys) && !memcmp((const uint8_t *)column->buffers[1] + start, keys, strlen(keys));
}

/* Of five maps the second to the fourth, which lie end to end, and the first and the last, which do not. */
static void maps(void) {
    static const int32_t ends[] = {0, 2, 3, 3, 5, 6}, first_and_last[] = {0, 4};
    static const uint8_t letters[] = "abcdef";
    const void *buffers[] = {NULL, ends}, *flat[] = {NULL, letters}, *no_bitmap[] = {NULL};
    struct ArrowSchema key = schema("C", 0, NULL, 0), *pair[] = {&key, &key}, entry = schema("+s", 0, pair, 2), *entries[] = {&entry},
                       s = schema("+m", ARROW_FLAG_MAP_KEYS_SORTED, entries, 1);
    struct ArrowArray keys = array(6, 0, flat, 2, NULL, 0), *pair_arrays[] = {&keys, &keys},
                      entry_array = array(6, 0, no_bitmap, 1, pair_arrays, 2), *entry_arrays[] = {&entry_array},
                      a = array(5, 0, buffers, 2, entry_arrays, 1);
    struct columns all = {.count = 0};
    add(&all, &s, &a), add_numbers(&all, "i", 2, first_and_last);
    struct codrask_step slice = step(CODRASK_SLICE, 0), take = step(CODRASK_TAKE, 0);
    slice.start = 1, slice.end = 4, take.other = 1;
    tell("a slice of maps", !write_step(&all, slice) && !strcmp(written_schema.format, "+m")
                                && written_schema.flags == ARROW_FLAG_MAP_KEYS_SORTED && written.length == 3 && has_keys(0, "c")
                                && has_keys(1, "") && has_keys(2, "de"));
    give_back();
    tell("maps that do not lie end to end", write_step(&all, take) == CODRASK_NOT_END_TO_END && fault.node == 1 && fault.place == 1);
    give_back();
    free_columns(&all);
}

/* A mask over an extension: null are the rows that were, and those that it makes so. */
static void extensions(void) {
    static const uint8_t bits[] = {0xfc, 0xff}, both[] = {0x94, 0x03};
    static const int64_t numbers_of[ROWS];
    struct {
        int32_t keys, size;
        char key[20];
        int32_t value_size;
        char value[4];
    } metadata = {1, 20, "", 4, {'a', 'n', 'e', 'x'}};
    const void *buffers[] = {bits, numbers_of};
    struct ArrowSchema s = schema("l", ARROW_FLAG_NULLABLE, NULL, 0);
    struct ArrowArray a = array(ROWS, 0, buffers, 2, NULL, 0);
    struct columns all = {.count = 0};
    memcpy(metadata.key, "ARROW:extension:name", sizeof metadata.key);
    s.metadata = (const char *)&metadata;
    add(&all, &s, &a), add_numbers(&all, "b", ROWS, truths_of);
    struct codrask_step mask = step(CODRASK_MASK, 0), push = step(CODRASK_PUSH_VALIDITY, 0);
    mask.other = 1;
    tell("an extension under a mask", !write_step(&all, mask) && !strcmp(written_schema.format, "l")
                                          && !memcmp(written_schema.metadata, &metadata, sizeof metadata) && written.null_count == 6
                                          && !memcmp(written.buffers[0], both, sizeof both));
    give_back();
    push.mode = 1;
    tell("an extension whose nulls are pushed", !write_step(&all, push) && written.null_count == 2);
    give_back();
    free_columns(&all);
}

/* ---- what is refused ---- */

static void refuse(const char *what, const struct columns *all, struct codrask_step step, const char *name) {
    uint32_t number = write_step(all, step);
    bool good = !strcmp(codrask_fault_name(number), name) && run_fault.part == CODRASK_IN_STEP && run_fault.which == 0;
    if (!good)
        printf("%s in part %u\n", codrask_fault_name(number), run_fault.part);
    tell(what, good);
    give_back();
}

/* Columns of three rows, one of each of two formats, of the same values. */
static void two_formats(const char *one, const char *other, const char *name) {
    static const uint64_t values[] = {0, 1, 2};
    static const size_t both[] = {0, 1};
    struct columns all = {.count = 0};
    struct codrask_step concat = step(CODRASK_CONCAT, 0);
    concat.arrays = both, concat.array_count = 2;
    add_numbers(&all, one, 3, values), add_numbers(&all, other, 3, values);
    refuse(one, &all, concat, name);
    free_columns(&all);
}

/* A dictionary of three rows over values of a format. */
static void add_codes(struct columns *all, const char *format, const void *values) {
    static const uint8_t codes[] = {2, 0, 1};
    const void *coded[] = {NULL, codes}, *buffers[] = {NULL, values};
    struct ArrowSchema of_values = schema(format, 0, NULL, 0), s = schema("C", 0, NULL, 0);
    struct ArrowArray inner = array(3, 0, buffers, 2, NULL, 0), a = array(3, 0, coded, 2, NULL, 0);
    s.dictionary = &of_values, a.dictionary = &inner;
    add(all, &s, &a);
}

/* Dictionaries whose values have one format are joined with each other and with a column of it, and with nothing of another format. */
static void two_formats_of_values(const char *one, const char *other) {
    static const uint64_t values[] = {0, 1, 2};
    static const size_t each[][2] = {{0, 0}, {0, 2}, {0, 1}, {0, 3}, {3, 0}};
    struct columns all = {.count = 0};
    struct codrask_step concat = step(CODRASK_CONCAT, 0);
    add_codes(&all, one, values), add_codes(&all, other, values);
    add_numbers(&all, one, 3, values), add_numbers(&all, other, 3, values);
    for (size_t i = 0; i < COUNT(each); i++) {
        concat.arrays = each[i], concat.array_count = 2;
        if (i > 1) {
            refuse("values of two formats", &all, concat, "DifferingDtypes");
            continue;
        }
        tell("values of one format", !write_step(&all, concat) && written.length == 6 && !strcmp(written_schema.format, one));
        give_back();
    }
    free_columns(&all);
}

static void refused(void) {
    static const uint64_t values[] = {0, 1, 2};
    static const char *const each[] = {"e", "f", "g", "tdD", "tss:UTC", "tin", "w:1", "w:4", "d:9,2,32"};
    static const char *const pairs[][2] = {{"g", "l"},   {"g", "L"},          {"L", "g"},       {"f", "I"},     {"e", "S"},
                                           {"w:1", "C"}, {"tss:UTC", "tss:"}, {"tss:", "tsm:"}, {"tdD", "tts"}, {"d:9,2,32", "d:9,3,32"},
                                           {"w:4", "f"}, {"tdD", "i"}};
    for (size_t i = 0; i < COUNT(pairs); i++)
        two_formats(pairs[i][0], pairs[i][1], "DifferingDtypes");
    two_formats_of_values("g", "l");
    two_formats_of_values("tsn:UTC", "tsn:");
    two_formats_of_values("f", "w:4");
    for (size_t i = 0; i < COUNT(each); i++) {
        struct columns all = {.count = 0};
        struct codrask_step narrow = step(CODRASK_NARROW, 1), take = step(CODRASK_TAKE, 0), filter = step(CODRASK_FILTER, 0),
                            mask = step(CODRASK_MASK, 0);
        take.other = filter.other = mask.other = 1;
        add_numbers(&all, "l", 3, values), add_numbers(&all, each[i], 1, values);
        refuse(each[i], &all, narrow, "MismatchedTypes");
        refuse(each[i], &all, take, "MismatchedTypes");
        refuse(each[i], &all, filter, "MismatchedTypes");
        refuse(each[i], &all, mask, "MismatchedTypes");
        free_columns(&all);
    }
}

/* Tables by hand, in which records that carry floats stand as codes, offsets, sizes and validity: the check refuses them. */
static void checked(void) {
    static const uint32_t zeroes[3];
    static const struct codrask_bytes name = {(const uint8_t *)"\0f", 2};
    struct codrask_node carried[] = {node(CODRASK_STRUCT, 0, 3), numbers(CODRASK_U32, 3, SLICE(zeroes))}, whole = carried[1];
    carried[0].buffers = &name, carried[0].buffer_count = 1;
    struct codrask_node codes[] = {node(CODRASK_DICTIONARY, 0, 3), carried[0], carried[1], whole},
                        offsets[] = {node(CODRASK_LIST_VIEW, 0, 3), whole, carried[0], carried[1], whole},
                        sizes[] = {node(CODRASK_LIST_VIEW, 0, 3), whole, whole, carried[0], carried[1]},
                        validity[] = {numbers(CODRASK_U32, 3, SLICE(zeroes)), carried[0], carried[1]};
    validity[0].validity = CODRASK_BY_ARRAY;
    tell("codes", codrask_check(codes, 4, &fault) == CODRASK_MISMATCHED_TYPES && fault.node == 0);
    tell("offsets", codrask_check(offsets, 5, &fault) == CODRASK_MISMATCHED_TYPES && fault.node == 0);
    tell("sizes", codrask_check(sizes, 5, &fault) == CODRASK_MISMATCHED_TYPES && fault.node == 0);
    tell("validity", codrask_check(validity, 3, &fault) == CODRASK_MISMATCHED_TYPES && fault.node == 0);
    tell("values", codrask_check(carried, 2, &fault) == 0);
}

/* The nulls of records, pushed into what they carry: it is not written any more. */
static void pushed(void) {
    struct column c;
    struct columns all = {.count = 0};
    make_column(&c, 1, ROWS, BEFORE, true);
    add_column(&all, &c);
    for (uint32_t mode = 0; mode < 2; mode++) {
        struct codrask_step push = step(CODRASK_PUSH_VALIDITY, 0);
        push.mode = mode;
        tell("nulls that were pushed", write_step(&all, push) == CODRASK_BAD_ARROW && fault.node == 0 && fault.place == 0);
        give_back();
    }
    free_columns(&all);
    free_column(&c);
}

/* Whether the array of a table goes out with these flags, in this format, and with a dictionary or without. */
static bool goes_out(const struct codrask_column *column, const uint8_t *given, const char *format, int64_t flags, bool dictionary) {
    struct ArrowSchema s;
    struct ArrowArray a;
    if (codrask_write_passed(column->nodes, column->count, given, 0, NULL, NULL, &s, &a, &fault))
        return false;
    bool good = !strcmp(s.format, format) && s.flags == flags && !s.metadata && !s.dictionary == !dictionary
                && !a.dictionary == !dictionary;
    s.release(&s);
    a.release(&a);
    return good;
}

/* That codes are ordered is said as long as there are codes: what a run gives has none, whatever its step is. */
static void order_of_codes(void) {
    static const uint8_t codes[] = {1, 0, 1};
    static const int64_t ends[] = {0, 1, 20};
    const void *coded[] = {NULL, codes}, *texts[] = {NULL, ends, "ba text that is kept"};
    struct ArrowSchema values = schema("U", 0, NULL, 0), s = schema("C", ARROW_FLAG_DICTIONARY_ORDERED, NULL, 0);
    struct ArrowArray of_values = array(2, 0, texts, 3, NULL, 0), a = array(3, 0, coded, 2, NULL, 0);
    s.dictionary = &values, a.dictionary = &of_values;
    struct columns all = {.count = 0};
    add(&all, &s, &a);
    const uint8_t *came = codrask_table_formats(&all.tables[0]);
    tell("codes that are ordered stay so", goes_out(&all.columns[0], came, "C", ARROW_FLAG_DICTIONARY_ORDERED, true));
    static const uint32_t kinds[] = {CODRASK_PACK, CODRASK_CANONICAL, CODRASK_SLICE};
    for (size_t i = 0; i < COUNT(kinds); i++) {
        struct codrask_step one = step(kinds[i], 0);
        struct codrask_columns given = CODRASK_NO_COLUMNS;
        const size_t wanted = 1;
        uint8_t room[64], *formats_of = room;
        one.end = 3;
        bool good = !codrask_run(all.columns, 1, &one, 1, &wanted, 1, &given, &run_fault) && given.columns[0].count <= sizeof room
                    && !codrask_run_formats(all.columns, &came, 1, &one, 1, &wanted, &given, &formats_of);
        tell("values without codes have no order", good && goes_out(&given.columns[0], formats_of, "U", 0, false));
        codrask_columns_free(&given);
    }
    free_columns(&all);
}

int main(void) {
    for (size_t i = 0; i < COUNT(formats); i++) {
        each_step(i, true);
        each_step(i, false);
        rebuilt(i);
        decoded(i, 0);
        decoded(i, ARROW_FLAG_DICTIONARY_ORDERED);
    }
    nulls();
    maps();
    extensions();
    refused();
    checked();
    pushed();
    order_of_codes();
    printf("%d passed, %d failed\n", passed, failed);
    return failed != 0;
}
