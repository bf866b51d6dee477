/* What is written of tables by hand whose records carry a column: each has the form that its word says, or is refused at its node. The
 * last line is 'N passed, M failed'. */
#include "arrow_by_hand.h"
#include "by_hand.h"

static struct ArrowSchema written_schema;
static struct ArrowArray written;
static struct codrask_fault fault;

static uint32_t write_nodes(const struct codrask_node *nodes, size_t count, uint32_t flags) {
    return codrask_write_arrow(nodes, count, flags, "x", NULL, &written_schema, &written, &fault);
}

static void give_back(void) {
    if (written_schema.release)
        written_schema.release(&written_schema);
    if (written.release)
        written.release(&written);
}

#define NAME(text) (text), sizeof(text) - 1

static struct codrask_bytes hand_name;

/* Records of some rows under a name that begins with a byte 0. */
static struct codrask_node record(uint32_t validity, size_t length, const char *name, size_t size) {
    struct codrask_node n = node(CODRASK_STRUCT, validity, length);
    hand_name = (struct codrask_bytes){(const uint8_t *)name, size};
    n.buffers = &hand_name, n.buffer_count = 1;
    return n;
}

static void refuse(const char *what, const struct codrask_node *nodes, size_t count, uint32_t number, size_t at, size_t place) {
    for (uint32_t flags = CODRASK_BY_VIEWS; flags <= CODRASK_BY_OFFSETS; flags++) {
        uint32_t answer = write_nodes(nodes, count, flags);
        bool good = answer == number && fault.number == number && fault.node == at && fault.place == place && !number == !!written.release;
        if (!good)
            printf("%u %s at node %zu, place %zu\n", answer, codrask_fault_name(answer), fault.node, fault.place);
        tell(what, good);
        give_back();
    }
}

static const uint64_t data[16];

/* Four bytes each, under a name, of a kind and validity. */
static void numbers_by_hand(const char *what, const char *name, size_t size, uint32_t kind, uint32_t validity, uint32_t number) {
    size_t width = (size_t)1 << (kind - CODRASK_U8) % 4;
    struct codrask_node t[] = {record(0, 3, name, size), numbers(kind, 3, data, 3 * width), truths(3, (const uint8_t *)data)};
    t[1].validity = validity;
    refuse(what, t, validity == CODRASK_BY_ARRAY ? 3 : 2, number, 0, 0);
}

static void wrong_numbers(void) {
    numbers_by_hand("floats", NAME("\0f"), CODRASK_U32, CODRASK_NON_NULLABLE, 0);
    numbers_by_hand("floats of another width", NAME("\0f"), CODRASK_U64, CODRASK_NON_NULLABLE, CODRASK_BAD_ARROW);
    numbers_by_hand("floats by signed numbers", NAME("\0f"), CODRASK_I32, CODRASK_NON_NULLABLE, CODRASK_BAD_ARROW);
    numbers_by_hand("floats that could be null", NAME("\0f"), CODRASK_U32, CODRASK_ALL_VALID, CODRASK_BAD_ARROW);
    numbers_by_hand("floats that are null", NAME("\0f"), CODRASK_U32, CODRASK_ALL_INVALID, CODRASK_BAD_ARROW);
    numbers_by_hand("floats with nulls of their own", NAME("\0f"), CODRASK_U32, CODRASK_BY_ARRAY, CODRASK_BAD_ARROW);
    numbers_by_hand("four bytes by numbers", NAME("\0w:4"), CODRASK_U32, CODRASK_NON_NULLABLE, 0);
    numbers_by_hand("lists of four by numbers of two", NAME("\0w:4"), CODRASK_U16, CODRASK_NON_NULLABLE, CODRASK_BAD_ARROW);
    numbers_by_hand("sixteen bytes by numbers", NAME("\0d:1,2"), CODRASK_U64, CODRASK_NON_NULLABLE, CODRASK_BAD_ARROW);
    numbers_by_hand("nulls by numbers", NAME("\0n"), CODRASK_U32, CODRASK_NON_NULLABLE, CODRASK_BAD_ARROW);
    numbers_by_hand("maps by numbers", NAME("\0+m"), CODRASK_U32, CODRASK_NON_NULLABLE, CODRASK_BAD_ARROW);
    numbers_by_hand("codes that were ordered", NAME("\0ordered"), CODRASK_U32, CODRASK_BY_ARRAY, 0);
    numbers_by_hand("no word", NAME("\0"), CODRASK_U32, CODRASK_NON_NULLABLE, CODRASK_BAD_ARROW);
    numbers_by_hand("a word of the layer", NAME("\0I"), CODRASK_U32, CODRASK_NON_NULLABLE, CODRASK_BAD_ARROW);
    numbers_by_hand("a word of none", NAME("\0ff"), CODRASK_U32, CODRASK_NON_NULLABLE, CODRASK_BAD_ARROW);
    numbers_by_hand("a word of a union", NAME("\0+us:0"), CODRASK_U32, CODRASK_NON_NULLABLE, CODRASK_BAD_ARROW);
    numbers_by_hand("an extension", NAME("\0\0an.ext"), CODRASK_U32, CODRASK_NON_NULLABLE, 0);
    numbers_by_hand("an extension without a name", NAME("\0\0"), CODRASK_I8, CODRASK_ALL_VALID, 0);
    numbers_by_hand("floats with an extension", NAME("\0f\0an.ext\0\0\0"), CODRASK_U32, CODRASK_NON_NULLABLE, 0);
}

/* Three lists of three bytes. */
static void wrong_lists(void) {
    struct codrask_node t[] = {record(0, 3, NAME("\0w:3")), node(CODRASK_FIXED_SIZE_LIST, 0, 3), numbers(CODRASK_U8, 9, data, 9),
                               truths(9, (const uint8_t *)data)};
    t[1].size = 3;
    refuse("lists of three bytes", t, 3, 0, 0, 0);
    t[2].kind = CODRASK_I8;
    refuse("lists of signed bytes", t, 3, CODRASK_BAD_ARROW, 0, 0);
    t[2].kind = CODRASK_U8, t[2].validity = CODRASK_BY_ARRAY;
    refuse("lists of bytes that are null", t, 4, CODRASK_BAD_ARROW, 0, 0);
    t[2].validity = 0, t[1].validity = CODRASK_ALL_INVALID;
    refuse("lists of bytes that are null themselves", t, 3, CODRASK_BAD_ARROW, 0, 0);
    t[1].validity = 0, t[1].size = 4, t[2].length = t[2].byte_count = 12;
    refuse("lists of another size", t, 3, CODRASK_BAD_ARROW, 0, 0);
    static const struct codrask_bytes no_form = {(const uint8_t *)"\0w:4", 4};
    struct codrask_node in_lists[] = {node(CODRASK_FIXED_SIZE_LIST, 0, 3), t[0], t[1], t[2]};
    in_lists[0].size = 1, in_lists[1].buffers = &no_form;
    refuse("the node of a record in lists", in_lists, 4, CODRASK_BAD_ARROW, 1, 0);
}

/* Records that carry records that carry: so a dictionary of what is carried is made plain. */
static void records_over_records(void) {
    static const struct codrask_bytes names[] = {{(const uint8_t *)"\0ordered", 8},
                                                 {(const uint8_t *)"\0\0an.ext", 8},
                                                 {(const uint8_t *)"\0f\0other", 8},
                                                 {(const uint8_t *)"\0g", 2}};
    static const uint8_t outer[] = {0x3}, inner[] = {0x6}, both[] = {0x2};
    struct codrask_node t[] = {node(CODRASK_STRUCT, CODRASK_BY_ARRAY, 3), truths(3, outer), node(CODRASK_STRUCT, 0, 3),
                               node(CODRASK_STRUCT, CODRASK_BY_ARRAY, 3), truths(3, inner), numbers(CODRASK_U32, 3, data, 12)};
    t[0].buffer_count = t[2].buffer_count = t[3].buffer_count = 1;
    t[0].buffers = &names[0], t[2].buffers = &names[1], t[3].buffers = &names[2];
    refuse("two extensions of one array", t, 6, CODRASK_BAD_ARROW, 2, 0);
    t[3].buffers = &names[3];
    refuse("a form that is none", t, 6, CODRASK_BAD_ARROW, 3, 0);
    static const struct codrask_bytes floats = {(const uint8_t *)"\0f", 2};
    t[3].buffers = &floats;
    tell("three records", !write_nodes(t, 6, 0) && !strcmp(written_schema.format, "f") && written_schema.flags == ARROW_FLAG_NULLABLE
                              && written_schema.metadata && written.null_count == 2 && !memcmp(written.buffers[0], both, 1));
    give_back();
    static const struct codrask_bytes nothing = {(const uint8_t *)"\0n", 2};
    struct codrask_node nulls[] = {t[0], t[1], t[3], node(CODRASK_FIXED_SIZE_LIST, 0, 3), numbers(CODRASK_U8, 0, data, 0)};
    nulls[2].validity = CODRASK_ALL_INVALID, nulls[2].buffers = &nothing;
    tell("a record over nulls",
         !write_nodes(nulls, 5, 0) && !strcmp(written_schema.format, "n") && written.null_count == 3 && !written.n_buffers);
    give_back();
}

/* Names with a byte 0 stay refused where records have other columns. */
static void two_columns(void) {
    static const struct codrask_bytes names[] = {{(const uint8_t *)"\0f", 2}, {(const uint8_t *)"b", 1}, {(const uint8_t *)"\0f", 2}};
    struct codrask_node t[] = {node(CODRASK_STRUCT, 0, 3), numbers(CODRASK_U32, 3, data, 12), numbers(CODRASK_U32, 3, data, 12)};
    t[0].buffers = names, t[0].buffer_count = 2;
    tell("two columns carry nothing", !codrask_is_carried(t) && !codrask_is_carried(t + 1));
    refuse("the first of two columns", t, 3, CODRASK_BAD_ARROW, 0, 0);
    t[0].buffers = names + 1;
    refuse("the second of two columns", t, 3, CODRASK_BAD_ARROW, 0, 1);
}

static void wrong_nulls(void) {
    static const uint8_t no_bit[] = {0}, third[] = {4};
    struct codrask_node t[] = {record(CODRASK_ALL_VALID, 0, NAME("\0n")), node(CODRASK_FIXED_SIZE_LIST, 0, 0),
                               numbers(CODRASK_U8, 0, data, 0)};
    refuse("no rows that are null", t, 3, 0, 0, 0);
    t[0].length = t[1].length = 5;
    refuse("rows that are not null", t, 3, CODRASK_BAD_ARROW, 0, 0);
    t[0].validity = CODRASK_ALL_INVALID;
    refuse("rows that are", t, 3, 0, 0, 0);
    t[1].validity = CODRASK_ALL_INVALID;
    refuse("and their columns too", t, 3, CODRASK_BAD_ARROW, 0, 0);
    struct codrask_node by_array[] = {t[0], truths(5, third), t[1], t[2]};
    by_array[0].validity = CODRASK_BY_ARRAY, by_array[2].validity = 0;
    refuse("one row that is not", by_array, 4, CODRASK_BAD_ARROW, 0, 2);
    by_array[1].bytes = no_bit;
    tell("none by a bitmap", !write_nodes(by_array, 4, 0) && written.null_count == 5 && written.n_buffers == 0);
    give_back();
}

/* One map of one pair, by offsets and sizes of eight bytes, over rows that take no memory. */
static void wrong_maps(void) {
    static const struct codrask_bytes names[] = {{(const uint8_t *)"key", 3}, {(const uint8_t *)"value", 5}};
    uint64_t starts[] = {0, 1}, sizes[] = {1, 1};
    struct codrask_node t[] = {record(0, 2, NAME("\0+m")),           node(CODRASK_LIST_VIEW, 0, 2), node(CODRASK_STRUCT, 0, 4),
                               node(CODRASK_STRUCT, 0, 4),           node(CODRASK_STRUCT, 0, 4),    numbers(CODRASK_U64, 2, SLICE(starts)),
                               numbers(CODRASK_U64, 2, SLICE(sizes))};
    t[2].buffers = names, t[2].buffer_count = 2;
    refuse("maps", t, 7, 0, 0, 0);
    starts[1] = 2;
    refuse("maps that do not lie end to end", t, 7, CODRASK_NOT_END_TO_END, 1, 1);
    t[2].length = t[3].length = t[4].length = (size_t)1 << 32, starts[1] = 1, sizes[1] = INT32_MAX - 1;
    refuse("the greatest end of maps", t, 7, 0, 0, 0);
    sizes[1] = INT32_MAX;
    refuse("an end of maps past 31 bits", t, 7, CODRASK_OVERFLOW, 1, 1);
    sizes[1] = 1, t[1].validity = CODRASK_ALL_VALID;
    refuse("maps that could be null themselves", t, 7, CODRASK_BAD_ARROW, 0, 0);
    t[1].validity = 0, t[2].buffer_count = 1;
    struct codrask_node one[] = {t[0], t[1], t[2], t[3], t[5], t[6]};
    refuse("entries of one column", one, 6, CODRASK_BAD_ARROW, 0, 0);
}

/* The nulls of records and of what they carry: null where either is. */
static void nulls_of_both(void) {
    static const uint8_t outer[] = {0x0e}, inner[] = {0x0b}, codes[] = {1, 0, 1, 9}, both[] = {0x0a};
    struct codrask_node t[] = {record(CODRASK_BY_ARRAY, 4, NAME("\0\0an.ext")), truths(4, outer), numbers(CODRASK_U64, 4, data, 32),
                               truths(4, inner)};
    t[2].validity = CODRASK_BY_ARRAY;
    tell("nulls of a record and of its column", !write_nodes(t, 4, 0) && written.null_count == 2 && !memcmp(written.buffers[0], both, 1)
                                                    && written_schema.flags == ARROW_FLAG_NULLABLE && !strcmp(written_schema.format, "L"));
    give_back();
    t[2].validity = 0;
    tell("of the record alone", !write_nodes(t, 3, 0) && written.null_count == 1 && !memcmp(written.buffers[0], outer, 1)
                                    && written_schema.flags == ARROW_FLAG_NULLABLE);
    give_back();
    static const uint8_t without_last[] = {0x07}, outer_and_codes[] = {0x06};
    struct codrask_node d[] = {record(CODRASK_BY_ARRAY, 4, NAME("\0ordered")),
                               truths(4, outer),
                               node(CODRASK_DICTIONARY, 0, 4),
                               numbers(CODRASK_U8, 4, codes, 4),
                               truths(4, without_last),
                               numbers(CODRASK_U64, 2, data, 16)};
    d[3].validity = CODRASK_BY_ARRAY;
    tell("of a record and of codes", !write_nodes(d, 6, 0) && written.null_count == 2 && !memcmp(written.buffers[0], outer_and_codes, 1)
                                         && written_schema.flags == (ARROW_FLAG_NULLABLE | ARROW_FLAG_DICTIONARY_ORDERED));
    give_back();
    d[0].validity = CODRASK_ALL_INVALID;
    struct codrask_node none[] = {d[0], d[2], d[3], d[4], d[5]};
    tell("of a record that is never there",
         !write_nodes(none, 5, 0) && written.null_count == 4 && !(*(const uint8_t *)written.buffers[0] & 15));
    give_back();
}

/* Where a record alone makes a row null, its value is written. */
static void values_of_null_rows(void) {
    static const uint8_t first[] = {1};
    static const struct codrask_view views[] = {{{1, 0, 0, 0, 'a'}}, {{1, 0, 0, 0, 'b'}}};
    struct codrask_node t[] = {record(CODRASK_BY_ARRAY, 2, NAME("\0\0an.ext")), truths(2, first), node(CODRASK_UTF8_VIEW, 0, 2)};
    t[2].views = views, t[2].view_count = 2;
    tell("a value by its view",
         !write_nodes(t, 3, CODRASK_BY_VIEWS) && written.null_count == 1 && !memcmp(written.buffers[1], views, sizeof views));
    give_back();
    tell("a value by offsets", !write_nodes(t, 3, CODRASK_BY_OFFSETS) && written.null_count == 1 && !memcmp(written.buffers[2], "ab", 2));
    give_back();
    t[0].validity = 0, t[2].validity = CODRASK_BY_ARRAY;
    struct codrask_node own[] = {t[0], t[2], t[1]};
    tell("a view that is null itself", !write_nodes(own, 3, CODRASK_BY_VIEWS) && written.null_count == 1
                                           && !memcmp((const uint8_t *)written.buffers[1] + 16, (const uint8_t[16]){0}, 16));
    give_back();
}

/* Rows are null where the values of their codes may be, also in what a record carries. */
static void nulls_of_values(void) {
    static const uint8_t codes[] = {1, 0};
    struct codrask_node t[] = {node(CODRASK_DICTIONARY, 0, 2), numbers(CODRASK_U8, 2, codes, 2), record(0, 2, NAME("\0\0an.ext")),
                               numbers(CODRASK_U64, 2, data, 16)};
    tell("values that are never null", !write_nodes(t, 4, 0) && !written_schema.flags);
    give_back();
    t[3].validity = CODRASK_ALL_VALID;
    tell("values that may be null", !write_nodes(t, 4, 0) && written_schema.flags == ARROW_FLAG_NULLABLE);
    give_back();
    t[3].validity = 0, t[2].validity = CODRASK_ALL_VALID;
    tell("values in records that may be null", !write_nodes(t, 4, 0) && written_schema.flags == ARROW_FLAG_NULLABLE);
    give_back();
}

/* What is told of the record, and not of its column: a validity that is a dictionary, and a bitmap past the limit. */
static void nodes_of_records(void) {
    static const uint8_t codes[8], truth[] = {1};
    struct codrask_node t[] = {record(CODRASK_BY_ARRAY, 8, NAME("\0\0an.ext")), truths(8, codes), numbers(CODRASK_U64, 8, data, 64)};
    struct codrask_node coded[] = {t[0], node(CODRASK_DICTIONARY, 0, 8), numbers(CODRASK_U8, 8, codes, 8), truths(1, truth), t[2]};
    refuse("a validity by a dictionary", coded, 5, CODRASK_BAD_ARROW, 0, 0);
    coded[4].kind = CODRASK_U8, coded[4].byte_count = 8, coded[0] = record(CODRASK_BY_ARRAY, 8, NAME("\0w:1"));
    refuse("of bytes too", coded, 5, CODRASK_BAD_ARROW, 0, 0);
    struct codrask_node nulls[] = {record(CODRASK_ALL_INVALID, 512, NAME("\0\0an.ext")), node(CODRASK_STRUCT, 0, 512)};
    struct codrask_limits limit = {64};
    tell("a bitmap of 65 bytes", codrask_write_arrow(nulls, 2, 0, NULL, &limit, &written_schema, &written, &fault) == CODRASK_TOO_MANY_BYTES
                                     && fault.node == 0 && !written.release);
    limit.bytes = 65;
    tell("where as many are allowed", !codrask_write_arrow(nulls, 2, 0, NULL, &limit, &written_schema, &written, &fault));
    give_back();
}

int main(void) {
    wrong_numbers();
    wrong_lists();
    records_over_records();
    two_columns();
    wrong_nulls();
    wrong_maps();
    nulls_of_both();
    values_of_null_rows();
    nulls_of_values();
    nodes_of_records();
    printf("%d passed, %d failed\n", passed, failed);
    return failed != 0;
}
