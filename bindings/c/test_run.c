/* Steps by hand: what they make, and one of each fault. The last line is 'N passed, M failed'. */
#include "by_hand.h"

#include <stdio.h>
#include <string.h>

static int passed, failed;

static void tell(const char *what, int good) {
    good ? passed++ : failed++;
    if (!good)
        printf("%s: not as wanted\n", what);
}

/* Runs steps, and gives the first array that is wanted. */
static struct codrask_columns made;
static struct codrask_run_fault fault;

static const struct codrask_node *result(const struct codrask_column *columns, size_t count, const struct codrask_step *steps, size_t step_count,
                                         size_t wanted) {
    made = CODRASK_NO_COLUMNS;
    uint32_t number = codrask_run(columns, count, steps, step_count, &wanted, 1, &made, &fault);
    if (number || number != fault.number || made.count != 1) {
        printf("%s at part %u, %zu, node %zu, place %zu\n", codrask_fault_name(number), fault.part, fault.which, fault.node, fault.place);
        return NULL;
    }
    struct codrask_fault other;
    tell("what is written is a column", codrask_check(made.columns[0].nodes, made.columns[0].count, &other) == 0);
    return made.columns[0].nodes;
}

static int has(const struct codrask_node *n, uint32_t kind, const void *bytes, size_t count) {
    return n->kind == kind && n->byte_count == count && !memcmp(n->bytes, bytes, count);
}

static int is_true(const struct codrask_node *n, size_t i) {
    return n->bytes[(n->offset + i) / 8] >> (n->offset + i) % 8 & 1;
}

static void rows_of_numbers(void) {
    int32_t all[] = {7, 8, 9}, two[] = {8, 9}, ends[] = {7, 9};
    uint8_t bits[] = {5};
    struct codrask_node t[] = {numbers(CODRASK_I32, 3, SLICE(all)), truths(3, bits)};
    struct codrask_column columns[] = {{t, 1}, {t + 1, 1}};
    struct codrask_step s = step(CODRASK_SLICE, 0);
    s.start = 1, s.end = 3;
    const struct codrask_node *n = result(columns, 2, &s, 1, 2);
    tell("slice", n && n->length == 2 && has(n, CODRASK_I32, SLICE(two)));
    codrask_columns_free(&made);
    s = step(CODRASK_FILTER, 0), s.other = 1;
    n = result(columns, 2, &s, 1, 2);
    tell("filter", n && n->length == 2 && has(n, CODRASK_I32, SLICE(ends)));
    codrask_columns_free(&made);
    s = step(CODRASK_MASK, 0), s.other = 1;
    n = result(columns, 2, &s, 1, 2);
    tell("mask", n && n->length == 3 && n->validity == CODRASK_BY_ARRAY && is_true(n + 1, 0) && !is_true(n + 1, 1) && is_true(n + 1, 2));
    codrask_columns_free(&made);
    uint8_t narrow[] = {7, 8, 9};
    s = step(CODRASK_NARROW, 0);
    n = result(columns, 2, &s, 1, 2);
    tell("narrow", n && n->length == 3 && has(n, CODRASK_U8, SLICE(narrow)));
    codrask_columns_free(&made);
    size_t twice[] = {0, 0};
    int32_t joined[] = {7, 8, 9, 7, 8, 9};
    s = step(CODRASK_CONCAT, 0), s.arrays = twice, s.array_count = 2;
    n = result(columns, 2, &s, 1, 2);
    tell("concat", n && has(n, CODRASK_I32, SLICE(joined)));
    codrask_columns_free(&made);
}

/* Truth values that begin inside a byte, with set bits around them, and so those that tell the nulls of numbers: what goes out has the
 * bytes that the rows need, and every other bit is false. The bits of 173 are 1 0 1 1 0 1 0 1. */
static const uint8_t all_set[] = {255, 255, 255}, some_set[] = {255, 173, 255};

static struct codrask_node truths_from(size_t offset, size_t length, const uint8_t *bytes) {
    struct codrask_node n = numbers(CODRASK_BOOL, length, bytes, 3);
    n.offset = offset;
    return n;
}

static int has_truths(const struct codrask_node *n, size_t offset, size_t length, const void *bytes, size_t count) {
    return n->offset == offset && n->length == length && has(n, CODRASK_BOOL, bytes, count);
}

static void bits_that_lie_around(void) {
    int8_t few[] = {1, 2, 3};
    struct codrask_node t[] = {truths_from(10, 6, some_set), truths_from(3, 12, all_set), numbers(CODRASK_I8, 3, SLICE(few)), truths_from(9, 3, some_set)};
    t[2].validity = CODRASK_BY_ARRAY;
    struct codrask_column columns[] = {{t, 1}, {t + 1, 1}, {t + 2, 2}};
    uint8_t six[] = {172}, twelve[] = {248, 127}, valid[] = {12}, packed[] = {43};
    struct codrask_step pack = step(CODRASK_PACK, 0);
    const struct codrask_node *n = result(columns, 3, &pack, 0, 0);
    tell("truth values up to the end of a byte", n && has_truths(n, 2, 6, SLICE(six)));
    codrask_columns_free(&made);
    n = result(columns, 3, &pack, 0, 1);
    tell("truth values within two bytes", n && has_truths(n, 3, 12, SLICE(twelve)));
    codrask_columns_free(&made);
    n = result(columns, 3, &pack, 0, 2);
    tell("nulls within a byte", n && n->validity == CODRASK_BY_ARRAY && has_truths(n + 1, 1, 3, SLICE(valid)));
    codrask_columns_free(&made);
    n = result(columns, 3, &pack, 1, 3);
    tell("packed truth values", n && has_truths(n, 0, 6, SLICE(packed)));
    codrask_columns_free(&made);
}

/* Rows of twelve truth values that are all true, from the fourth bit on. */
static void sliced_bits(void) {
    static const struct {
        size_t start, end, offset, count;
        uint8_t bytes[2];
    } cases[] = {{2, 10, 5, 2, {224, 31}}, {4, 5, 7, 1, {128}}, {5, 12, 0, 1, {127}}, {5, 5, 0, 0, {0}}, {6, 6, 1, 1, {0}}};
    struct codrask_node t = truths_from(3, 12, all_set);
    struct codrask_column column = {&t, 1};
    struct codrask_step s = step(CODRASK_SLICE, 0);
    for (size_t i = 0; i < COUNT(cases); i++) {
        s.start = cases[i].start, s.end = cases[i].end;
        const struct codrask_node *n = result(&column, 1, &s, 1, 1);
        tell("sliced truth values", n && has_truths(n, cases[i].offset, s.end - s.start, cases[i].bytes, cases[i].count));
        codrask_columns_free(&made);
    }
}

/* Codes 1, null, 0, 1 into 7, 9 are 9, null, 7, 9. */
static void rows_of_codes(void) {
    uint8_t codes[] = {1, 0, 0, 1}, bits[] = {13};
    int64_t values[] = {7, 9};
    struct codrask_node t[] = {node(CODRASK_DICTIONARY, 0, 4), numbers(CODRASK_U8, 4, SLICE(codes)), truths(4, bits), numbers(CODRASK_I64, 2, SLICE(values))};
    t[1].validity = CODRASK_BY_ARRAY;
    struct codrask_column column = {t, 4};
    const struct codrask_node *n = result(&column, 1, &(struct codrask_step){0}, 0, 0);
    int64_t first, third, last;
    if (n) {
        memcpy(&first, n->bytes, 8), memcpy(&third, n->bytes + 16, 8), memcpy(&last, n->bytes + 24, 8);
        tell("a dictionary made plain", n->kind == CODRASK_I64 && n->length == 4 && first == 9 && third == 7 && last == 9 && n->validity == CODRASK_BY_ARRAY
                                            && is_true(n + 1, 0) && !is_true(n + 1, 1));
    } else {
        tell("a dictionary made plain", 0);
    }
    codrask_columns_free(&made);
}

/* Lists [3, 4], [1], [2, 3] laid one after another. */
static void rows_of_lists(void) {
    int64_t elements[] = {1, 2, 3, 4}, laid[] = {3, 4, 1, 2, 3};
    int32_t offsets[] = {2, 0, 1}, sizes[] = {2, 1, 2};
    struct codrask_node t[] = {node(CODRASK_LIST_VIEW, 0, 3), numbers(CODRASK_I64, 4, SLICE(elements)), numbers(CODRASK_I32, 3, SLICE(offsets)),
                               numbers(CODRASK_I32, 3, SLICE(sizes))};
    struct codrask_column column = {t, 4};
    struct codrask_step s = step(CODRASK_REBUILD, 0);
    const struct codrask_node *n = result(&column, 1, &s, 1, 1);
    tell("rebuild", n && n->kind == CODRASK_LIST_VIEW && n->length == 3 && has(n + 1, CODRASK_I64, SLICE(laid)) && has(n + 3, CODRASK_I32, SLICE(sizes)));
    codrask_columns_free(&made);
}

static struct codrask_step field(size_t array, const char *name) {
    struct codrask_step s = step(CODRASK_FIELD, array);
    s.name = (const uint8_t *)name, s.name_size = strlen(name);
    return s;
}

/* A view of a text that stands in a buffer. */
static struct codrask_view view(const char *text, uint32_t offset, uint32_t size) {
    struct codrask_view v = {{0}};
    memcpy(v.bytes, &size, 4), memcpy(v.bytes + 4, text + offset, 4), memcpy(v.bytes + 12, &offset, 4);
    return v;
}

/* Three records, their second null where they have bits: texts "a first text of 24 bytes", "under a null record", null, and lists
 * [1, 2], [3], [4, 5, 6]. */
static const char text[] = "a first text of 24 bytesunder a null record";
static const uint8_t record_bits[] = {5}, text_bits[] = {3};
static const int32_t list_offsets[] = {0, 2, 3}, list_sizes[] = {2, 1, 3}, list_elements[] = {1, 2, 3, 4, 5, 6};
static struct codrask_view text_views[3];
static const struct codrask_bytes text_buffer = {(const uint8_t *)text, sizeof text - 1};
static const struct codrask_bytes record_names[] = {{(const uint8_t *)"t", 1}, {(const uint8_t *)"l", 1}};
static struct codrask_node record_nodes[8];

static struct codrask_column records(uint32_t validity) {
    struct codrask_node *n = record_nodes;
    *n = node(CODRASK_STRUCT, validity, 3), n->buffers = record_names, n->buffer_count = 2, n++;
    if (validity == CODRASK_BY_ARRAY)
        *n++ = truths(3, record_bits);
    text_views[0] = view(text, 0, 24), text_views[1] = view(text, 24, 19), text_views[2] = view(text, 0, 24);
    *n = node(CODRASK_UTF8_VIEW, CODRASK_BY_ARRAY, 3), n->views = text_views, n->view_count = 3, n->buffers = &text_buffer, n->buffer_count = 1, n++;
    *n++ = truths(3, text_bits);
    *n++ = node(CODRASK_LIST_VIEW, CODRASK_NON_NULLABLE, 3);
    *n++ = numbers(CODRASK_I32, 6, SLICE(list_elements));
    *n++ = numbers(CODRASK_I32, 3, SLICE(list_offsets));
    *n++ = numbers(CODRASK_I32, 3, SLICE(list_sizes));
    return (struct codrask_column){record_nodes, (size_t)(n - record_nodes)};
}

static int has_views(const struct codrask_node *n, const struct codrask_view *views, size_t count, const void *bytes, size_t size) {
    return n->kind == CODRASK_UTF8_VIEW && n->length == count && n->view_count == count && !memcmp(n->views, views, 16 * count) && n->buffer_count == 1
           && n->buffers[0].count == size && !memcmp(n->buffers[0].bytes, bytes, size);
}

static int has_bits(const struct codrask_node *n, int first, int second, int third) {
    return n->kind == CODRASK_BOOL && n->length == 3 && is_true(n, 0) == first && is_true(n, 1) == second && is_true(n, 2) == third;
}

static void fields_of_records(void) {
    struct codrask_column whole = records(CODRASK_NON_NULLABLE);
    struct codrask_step s = field(0, "t");
    const struct codrask_node *n = result(&whole, 1, &s, 1, 1);
    tell("a text of records without nulls", n && made.columns[0].count == 2 && n->kind == CODRASK_UTF8_VIEW && n->length == 3 && n->validity == CODRASK_BY_ARRAY
                                                && !memcmp(n->views, text_views, 32) && has_bits(n + 1, 1, 1, 0));
    codrask_columns_free(&made);
    s = field(0, "l");
    n = result(&whole, 1, &s, 1, 1);
    tell("a list of records without nulls", n && made.columns[0].count == 4 && n->kind == CODRASK_LIST_VIEW && n->validity == CODRASK_NON_NULLABLE
                                                && has(n + 1, CODRASK_I32, SLICE(list_elements)) && has(n + 2, CODRASK_I32, SLICE(list_offsets))
                                                && has(n + 3, CODRASK_I32, SLICE(list_sizes)));
    codrask_columns_free(&made);
    struct codrask_column some = records(CODRASK_BY_ARRAY);
    s = field(0, "t");
    n = result(&some, 1, &s, 1, 1);
    tell("a text of records with nulls", n && made.columns[0].count == 2 && n->kind == CODRASK_UTF8_VIEW && n->length == 3 && n->validity == CODRASK_BY_ARRAY
                                             && !memcmp(n->views, text_views, 16) && has_bits(n + 1, 1, 0, 0));
    codrask_columns_free(&made);
    s = field(0, "l");
    n = result(&some, 1, &s, 1, 1);
    tell("a list of records with nulls", n && made.columns[0].count == 5 && n->kind == CODRASK_LIST_VIEW && n->validity == CODRASK_BY_ARRAY
                                             && has_bits(n + 1, 1, 0, 1) && has(n + 2, CODRASK_I32, SLICE(list_elements)));
    codrask_columns_free(&made);
}

/* What is packed has no byte of a row that was cut away: of the texts the second alone, of the lists the last two, and the
 * records with all that is null blank. */
static void packed_rows(void) {
    struct codrask_column whole = records(CODRASK_NON_NULLABLE);
    struct codrask_step cut[] = {field(0, "t"), step(CODRASK_SLICE, 1), step(CODRASK_PACK, 2)};
    cut[1].start = 1, cut[1].end = 2;
    struct codrask_view second = view("under a null record", 0, 19);
    const struct codrask_node *n = result(&whole, 1, cut, 3, 3);
    tell("pack of a sliced text", n && made.columns[0].count == 1 && n->validity == CODRASK_ALL_VALID && has_views(n, &second, 1, text + 24, 19));
    codrask_columns_free(&made);
    int32_t elements[] = {3, 4, 5, 6}, offsets[] = {0, 1}, sizes[] = {1, 3};
    cut[0] = field(0, "l"), cut[1].end = 3;
    n = result(&whole, 1, cut, 3, 3);
    tell("pack of a sliced list", n && made.columns[0].count == 4 && n->kind == CODRASK_LIST_VIEW && n->length == 2 && n->validity == CODRASK_NON_NULLABLE
                                      && has(n + 1, CODRASK_I32, SLICE(elements)) && has(n + 2, CODRASK_I32, SLICE(offsets))
                                      && has(n + 3, CODRASK_I32, SLICE(sizes)));
    codrask_columns_free(&made);
    struct codrask_column some = records(CODRASK_BY_ARRAY);
    struct codrask_step pack = step(CODRASK_PACK, 0);
    int32_t left[] = {1, 2, 4, 5, 6}, starts[] = {0, 2, 2}, counts[] = {2, 0, 3};
    struct codrask_view texts[] = {view(text, 0, 24), {{0}}, {{0}}};
    n = result(&some, 1, &pack, 1, 1);
    tell("pack of records", n && made.columns[0].count == 8 && n->kind == CODRASK_STRUCT && n->length == 3 && has_bits(n + 1, 1, 0, 1)
                                && has_views(n + 2, texts, 3, text, 24) && has_bits(n + 3, 1, 0, 0) && has(n + 5, CODRASK_I32, SLICE(left))
                                && has(n + 6, CODRASK_I32, SLICE(starts)) && has(n + 7, CODRASK_I32, SLICE(counts)));
    codrask_columns_free(&made);
}

static int is_same_slice(const void *a, size_t a_size, const void *b, size_t b_size) {
    return a_size == b_size && !memcmp(a, b, a_size);
}

static int is_same_node(const struct codrask_node *a, const struct codrask_node *b) {
    int same = a->kind == b->kind && a->validity == b->validity && a->size == b->size && a->length == b->length && a->offset == b->offset
               && is_same_slice(a->bytes, a->byte_count, b->bytes, b->byte_count) && is_same_slice(a->views, 16 * a->view_count, b->views, 16 * b->view_count)
               && a->buffer_count == b->buffer_count;
    for (size_t i = 0; same && i < a->buffer_count; i++)
        same = is_same_slice(a->buffers[i].bytes, a->buffers[i].count, b->buffers[i].bytes, b->buffers[i].count);
    return same;
}

/* Packed once, packed twice, and packed of the same records taken in turn, backwards twice. */
static void packed_twice(void) {
    int32_t backwards[] = {2, 1, 0};
    struct codrask_node turn = numbers(CODRASK_I32, 3, SLICE(backwards));
    struct codrask_column columns[] = {records(CODRASK_BY_ARRAY), {&turn, 1}};
    struct codrask_step steps[] = {step(CODRASK_PACK, 0), step(CODRASK_PACK, 2), step(CODRASK_TAKE, 0), step(CODRASK_TAKE, 4), step(CODRASK_PACK, 5)};
    steps[2].other = steps[3].other = 1;
    size_t wanted[] = {2, 3, 6};
    made = CODRASK_NO_COLUMNS;
    int same = codrask_run(columns, 2, steps, 5, wanted, 3, &made, &fault) == 0 && made.count == 3;
    for (size_t i = 1; same && i < 3; i++) {
        same = made.columns[i].count == made.columns[0].count;
        for (size_t k = 0; same && k < made.columns[0].count; k++)
            same = is_same_node(made.columns[i].nodes + k, made.columns[0].nodes + k);
    }
    tell("packed twice", same);
    codrask_columns_free(&made);
}

static void refuse(const char *what, const struct codrask_column *columns, size_t count, const struct codrask_step *steps, size_t step_count,
                   size_t wanted, uint32_t number, uint32_t part, size_t which, size_t node_at, size_t place) {
    made = CODRASK_NO_COLUMNS;
    uint32_t answer = codrask_run(columns, count, steps, step_count, &wanted, 1, &made, &fault);
    int good = answer == number && fault.number == number && fault.part == part && fault.which == which && fault.node == node_at && fault.place == place;
    if (!good)
        printf("%u %s at part %u, %zu, node %zu, place %zu\n", answer, codrask_fault_name(answer), fault.part, fault.which, fault.node, fault.place);
    tell(what, good && made.columns == CODRASK_NO_COLUMNS.columns && made.count == 0);
}

static void refusals(void) {
    int32_t all[] = {7, 8, 9};
    struct codrask_node t[] = {numbers(CODRASK_I32, 3, SLICE(all)), numbers(CODRASK_I32, 3, all, 11)};
    struct codrask_column columns[] = {{t, 1}, {t + 1, 1}};
    static struct codrask_step many[1025];
    struct codrask_step s[] = {step(CODRASK_CANONICAL, 0), step(CODRASK_SLICE, 1)};
    refuse("half a number", columns, 2, s, 0, 0, CODRASK_LENGTH_MISMATCH, CODRASK_IN_TABLE, 1, 0, 0);
    s[1].start = 1, s[1].end = 4;
    refuse("a slice past the rows", columns, 1, s, 2, 0, CODRASK_OUT_OF_BOUNDS, CODRASK_IN_STEP, 1, 0, 4);
    s[1].array = 9, s[1].end = 2;
    refuse("no array", columns, 1, s, 2, 0, CODRASK_OUT_OF_BOUNDS, CODRASK_IN_STEP, 1, 0, 9);
    s[1].kind = 14;
    refuse("no step", columns, 1, s, 2, 0, CODRASK_UNKNOWN_KIND, CODRASK_IN_STEP, 1, 0, 0);
    s[1].kind = CODRASK_REBUILD, s[1].mode = 4;
    refuse("no mode", columns, 1, s, 2, 0, CODRASK_BAD_MODE, CODRASK_IN_STEP, 1, 0, 0);
    s[1].kind = CODRASK_REMOVE_COLUMN, s[1].name = (const uint8_t *)"\xff", s[1].name_size = 1;
    refuse("no text", columns, 1, s, 2, 0, CODRASK_NOT_UTF8, CODRASK_IN_STEP, 1, 0, 0);
    refuse("nothing wanted there", columns, 1, s, 1, 2, CODRASK_OUT_OF_BOUNDS, CODRASK_IN_RESULT, 0, 0, 2);
    for (size_t i = 0; i < COUNT(many); i++)
        many[i] = step(CODRASK_CANONICAL, 0);
    refuse("too many steps", columns, 1, many, COUNT(many), 0, CODRASK_TOO_MANY_STEPS, CODRASK_IN_STEP, 1024, 0, 0);
}

static void refused_columns(void) {
    int32_t all[] = {7, 8, 9};
    struct codrask_node t = numbers(CODRASK_I32, 3, SLICE(all));
    struct codrask_column columns[] = {records(CODRASK_BY_ARRAY), {&t, 1}};
    struct codrask_step s = field(0, "T");
    refuse("no column of the name", columns, 2, &s, 1, 0, CODRASK_UNKNOWN_FIELD, CODRASK_IN_STEP, 0, 0, 0);
    s = field(1, "t");
    refuse("a column of numbers", columns, 2, &s, 1, 0, CODRASK_MISMATCHED_TYPES, CODRASK_IN_STEP, 0, 0, 0);
    s = field(9, "t");
    refuse("a column of no array", columns, 2, &s, 1, 0, CODRASK_OUT_OF_BOUNDS, CODRASK_IN_STEP, 0, 0, 9);
    s = field(0, "\xff");
    refuse("a column of no text", columns, 2, &s, 1, 0, CODRASK_NOT_UTF8, CODRASK_IN_STEP, 0, 0, 0);
    s = step(CODRASK_PACK, 2);
    refuse("pack of no array", columns, 2, &s, 1, 0, CODRASK_OUT_OF_BOUNDS, CODRASK_IN_STEP, 0, 0, 2);
}

int main(void) {
    rows_of_numbers();
    bits_that_lie_around();
    sliced_bits();
    rows_of_codes();
    rows_of_lists();
    fields_of_records();
    packed_rows();
    packed_twice();
    refusals();
    refused_columns();
    printf("%d passed, %d failed\n", passed, failed);
    return failed != 0;
}
