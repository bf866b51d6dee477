/* Columns go out in the formats with which they came in: random Arrow structures as they are, and after steps; each format by hand, and
 * what it cannot count. Run it under the sanitizers, with a number of seeds, or none for 1000. The last line is 'N passed, M failed'. */
#include "arrow_by_hand.h"
#include "by_hand.h"
#include "rows_of_arrow.h"
#include "structures.h"

static struct ArrowSchema written_schema;
static struct ArrowArray written;
static struct codrask_fault fault;

static void give_back(void) {
    if (written_schema.release)
        written_schema.release(&written_schema);
    if (written.release)
        written.release(&written);
}

static uint32_t write_named(const struct codrask_node *nodes, size_t count, const uint8_t *formats, uint32_t flags, const char *name) {
    return codrask_write_arrow_as(nodes, count, formats, flags, name, NULL, &written_schema, &written, &fault);
}

/* Writes what has passed, and is not tested again. */
static uint32_t write_passed(const struct codrask_node *nodes, size_t count, const uint8_t *formats, uint32_t flags, const char *name) {
    return codrask_write_passed(nodes, count, formats, flags, name, NULL, &written_schema, &written, &fault);
}

static uint32_t write_as(const struct codrask_node *nodes, size_t count, const uint8_t *formats, uint32_t flags) {
    return write_named(nodes, count, formats, flags, NULL);
}

/* Whether two schemas have the same formats at every depth; what is packed has values in place of their codes. */
static bool same_formats(const struct ArrowSchema *one, const struct ArrowSchema *other, bool packed) {
    if (packed && one->dictionary)
        return same_formats(one->dictionary, other, packed);
    bool same = !strcmp(one->format, other->format) && one->n_children == other->n_children && !one->dictionary == !other->dictionary;
    for (int64_t i = 0; same && i < one->n_children; i++)
        same = same_formats(one->children[i], other->children[i], packed);
    return same && (!one->dictionary || same_formats(one->dictionary, other->dictionary, packed));
}

/* Whether some array would have two extensions when its dictionary is plain, which no Arrow array has. */
static bool has_two_extensions(const struct ArrowSchema *schema) {
    int32_t size;
    int count = 0;
    for (const struct ArrowSchema *values = schema; values; values = values->dictionary)
        count += extension_of(values, &size) != NULL;
    bool two = schema->dictionary && (count > 1 || has_two_extensions(schema->dictionary));
    for (int64_t i = 0; !two && i < schema->n_children; i++)
        two = has_two_extensions(schema->children[i]);
    return two;
}

/* ---- random structures ---- */

static struct structure made;
static struct codrask_table table;

/* Reads the structure, where it is a column: random ones have texts that are none. */
static bool is_column(void) {
    if (codrask_read_arrow(made.slots[0].schema, made.slots[0].array, NULL, &table, &fault))
        return false;
    if (!codrask_check(table.nodes, table.count, &fault))
        return true;
    codrask_table_free(&table);
    return false;
}

typedef uint32_t writing(const struct codrask_node *nodes, size_t count, const uint8_t *formats, uint32_t flags, const char *name);

/* Whether the table goes out as it came in: its rows, and its formats at every depth, whichever the flags are. */
static bool comes_back(writing *write, uint32_t flags) {
    struct sum sum = sum_of(made.slots[0].schema, made.slots[0].array);
    bool same = !write(table.nodes, table.count, codrask_table_formats(&table), flags, codrask_table_name(&table))
                && same_formats(made.slots[0].schema, &written_schema, false) && sum_of(&written_schema, &written).seen == sum.seen;
    give_back();
    return same;
}

/* A step of a kind that keeps all formats, on a column whose mask and indices stand behind it. */
static struct codrask_step kept(uint32_t kind, size_t length) {
    static const size_t twice[] = {0, 0};
    struct codrask_step s = step(kind, 0);
    s.start = length / 3, s.end = length;
    s.other = kind == CODRASK_TAKE ? 2 : 1;
    s.arrays = twice, s.array_count = 2;
    return s;
}

/* Whether the formats of a column are kept by a step, and when it is packed then. */
static bool keeps_formats(uint32_t kind) {
    static const uint8_t bits[16] = {0x5a, 0xc3, 0x99, 0xf0, 0x3c}, picks[] = {0, 0, 0};
    size_t length = table.nodes[0].length, wanted[] = {3, 4}, rows = length ? 3 : 0;
    struct codrask_node mask = truths(length, bits), indices = numbers(CODRASK_U8, rows, picks, rows);
    struct codrask_column columns[] = {{table.nodes, table.count}, {&mask, 1}, {&indices, 1}};
    const uint8_t *formats[] = {codrask_table_formats(&table), NULL, NULL};
    struct codrask_step steps[] = {kept(kind, length), step(CODRASK_PACK, 3)};
    struct codrask_columns results = CODRASK_NO_COLUMNS;
    struct codrask_run_fault told;
    if (length > 8 * sizeof bits || codrask_run(columns, 3, steps, 2, wanted, 2, &results, &told))
        return false;
    uint8_t *made_formats[] = {malloc(results.columns[0].count), malloc(results.columns[1].count)};
    bool same = made_formats[0] && made_formats[1] && !codrask_run_formats(columns, formats, 3, steps, 2, wanted, &results, made_formats);
    for (size_t i = 0; same && i < 2; i++) {
        uint32_t answer = write_passed(results.columns[i].nodes, results.columns[i].count, made_formats[i], CODRASK_BY_VIEWS, NULL);
        bool refused = answer == CODRASK_BAD_ARROW ? has_two_extensions(made.slots[0].schema) : i == 0 && answer == CODRASK_NOT_END_TO_END;
        same = answer ? refused : same_formats(made.slots[0].schema, &written_schema, true);
        give_back();
    }
    free(made_formats[0]);
    free(made_formats[1]);
    codrask_columns_free(&results);
    return same;
}

static size_t columns_met, views_met[5];

static void random_columns(uint64_t seeds) {
    static const uint32_t kinds[] = {CODRASK_SLICE,  CODRASK_TAKE,      CODRASK_FILTER,        CODRASK_MASK,
                                     CODRASK_CONCAT, CODRASK_CANONICAL, CODRASK_PUSH_VALIDITY, CODRASK_PACK};
    for (uint64_t seed = 1; seed <= seeds; seed++) {
        build_seed(&made, seed);
        if (is_column()) {
            const struct codrask_node *first = &table.nodes[0];
            bool records = first->kind == CODRASK_STRUCT;
            bool good = comes_back(write_named, CODRASK_BY_OFFSETS) && comes_back(write_passed, CODRASK_BY_VIEWS);
            for (size_t i = 0; i < table.count; i++)
                views_met[codrask_table_formats(&table)[i]]++;
            for (size_t i = 0; i < COUNT(kinds) && good; i++)
                good = (kinds[i] == CODRASK_PUSH_VALIDITY && (!records || codrask_is_carried(first))) || keeps_formats(kinds[i]);
            if (!good)
                printf("seed %llu: %s\n", (unsigned long long)seed, made.slots[0].schema->format);
            tell("formats are kept", good);
            columns_met++;
            codrask_table_free(&table);
        }
        tear_down(&made);
    }
    tell("columns of each format were met",
         columns_met > seeds / 2 && views_met[1] && views_met[2] && views_met[3] && views_met[4]);
}

/* ---- by hand ---- */

static const struct codrask_view views[] = {{{1, 0, 0, 0, 'a'}}, {{2, 0, 0, 0, 'b', 'c'}}};
static const int32_t ends_of_32[] = {0, 1, 3};
static const int64_t ends_of_64[] = {0, 1, 3};

static bool is_written(const char *format, int64_t buffers, const void *second, size_t size) {
    bool good = !strcmp(written_schema.format, format) && written.n_buffers == buffers && !memcmp(written.buffers[1], second, size);
    give_back();
    return good;
}

/* Two texts, or two lists of one number and of two. */
static void each_format(void) {
    static const char *const texts[] = {"vu", "u", "U", "vu", "vu"}, *const byte_lists[] = {"vz", "z", "Z", "vz", "vz"},
                             *const lists[] = {"+vL", "+l", "+L", "+vl", "+vL"};
    uint8_t starts[] = {0, 1}, sizes[] = {1, 2}, elements[] = {5, 6, 7};
    struct codrask_node text = node(CODRASK_UTF8_VIEW, 0, 2), of_bytes = node(CODRASK_BINARY_VIEW, 0, 2);
    struct codrask_node t[] = {node(CODRASK_LIST_VIEW, 0, 2), numbers(CODRASK_U8, 3, SLICE(elements)),
                               numbers(CODRASK_U8, 2, SLICE(starts)), numbers(CODRASK_U8, 2, SLICE(sizes))};
    text.views = of_bytes.views = views, text.view_count = of_bytes.view_count = 2;
    for (uint8_t format = 0; format <= CODRASK_LARGE_VIEWS; format++) {
        bool large = format == CODRASK_LARGE_OFFSETS, by_offsets = format == CODRASK_SMALL_OFFSETS || large;
        const void *ends = by_offsets ? large ? (const void *)ends_of_64 : ends_of_32 : views;
        size_t size = by_offsets ? large ? sizeof ends_of_64 : sizeof ends_of_32 : sizeof views;
        const uint8_t formats[] = {format, 1, 2, 3}; /* of numbers none is looked at */
        tell(texts[format], !write_as(&text, 1, formats, CODRASK_BY_VIEWS) && is_written(texts[format], 3, ends, size));
        tell(byte_lists[format], !write_as(&of_bytes, 1, formats, CODRASK_BY_VIEWS) && is_written(byte_lists[format], 3, ends, size));
        bool wide = large || format == CODRASK_LARGE_VIEWS || !format;
        tell(lists[format], !write_as(t, 4, formats, CODRASK_BY_VIEWS)
                                && is_written(lists[format], by_offsets ? 2 : 3, wide ? (const void *)ends_of_64 : ends_of_32,
                                              (by_offsets ? 3u : 2u) * (wide ? 8 : 4)));
    }
    const uint8_t one_view[] = {CODRASK_SMALL_VIEWS, 0, 0, 0}, no_format[4] = {0};
    tell("a format goes before the flags", !write_as(t, 4, one_view, CODRASK_BY_OFFSETS) && is_written("+vl", 3, ends_of_32, 8));
    tell("and no format does not", !write_as(t, 4, no_format, CODRASK_BY_OFFSETS) && is_written("+l", 2, ends_of_32, 12));
    tell("nor do no formats", !write_as(&text, 1, NULL, CODRASK_BY_OFFSETS) && is_written("u", 3, ends_of_32, 12));
}

/* Lists of nothing, a million million in one: no memory, and more than 31 bits count. */
static void large_lists(void) {
    uint64_t starts[] = {0, (uint64_t)1 << 40}, sizes[] = {(uint64_t)1 << 40, 7};
    struct codrask_node t[] = {node(CODRASK_LIST_VIEW, 0, 2), node(CODRASK_FIXED_SIZE_LIST, 0, ((size_t)1 << 40) + 7),
                               numbers(CODRASK_U8, 0, none, 0), numbers(CODRASK_U64, 2, SLICE(starts)),
                               numbers(CODRASK_U64, 2, SLICE(sizes))};
    const int64_t ends[] = {0, (int64_t)1 << 40, ((int64_t)1 << 40) + 7};
    static const uint8_t small_offsets[5] = {CODRASK_SMALL_OFFSETS}, small_views[5] = {CODRASK_SMALL_VIEWS};
    tell("small offsets grow", !write_as(t, 5, small_offsets, CODRASK_BY_VIEWS) && is_written("+L", 2, ends, 24));
    tell("small views grow", !write_as(t, 5, small_views, CODRASK_BY_OFFSETS) && is_written("+vL", 3, ends, 16));
    starts[1] = 0, sizes[0] = INT32_MAX, sizes[1] = 0;
    tell("as far as 31 bits they do not", !write_as(t, 5, small_views, CODRASK_BY_VIEWS) && is_written("+vl", 3, none, 8));
    starts[1] = INT32_MAX;
    tell("nor by offsets", !write_as(t, 5, small_offsets, CODRASK_BY_VIEWS) && is_written("+l", 2, (const int32_t[]){0, INT32_MAX}, 8));
    starts[0] = 1, sizes[0] = 1;
    tell("what lies apart has no offsets", write_as(t, 5, small_offsets, CODRASK_BY_VIEWS) == CODRASK_NOT_END_TO_END && fault.node == 0
                                               && fault.place == 1 && !written.release);
}

static void no_formats(void) {
    uint8_t elements[] = {5, 6, 7};
    struct codrask_node t[] = {node(CODRASK_FIXED_SIZE_LIST, 0, 3), numbers(CODRASK_U8, 3, SLICE(elements))};
    struct codrask_table empty = {NULL, 0, NULL};
    t[0].size = 1;
    for (size_t at = 0; at < 2; at++) {
        uint8_t formats[2] = {0};
        formats[at] = CODRASK_LARGE_VIEWS + 1;
        bool good = write_as(t, 2, formats, CODRASK_BY_VIEWS) == CODRASK_BAD_FLAGS && fault.number == CODRASK_BAD_FLAGS && fault.node == at
                    && !written.release && !written_schema.release;
        tell("a number that is no format", good);
        tell("flags come first", write_as(t, 2, formats, 2) == CODRASK_BAD_FLAGS && fault.node == 0);
    }
    tell("a table that was given back has none", !codrask_table_formats(&empty));
}

/* ---- records ---- */

/* Three texts by offsets of either width and by views, and a list of one: their formats are 1, 2, 3 and 4 over 1. */
static const struct codrask_bytes names[] = {
    {(const uint8_t *)"a", 1}, {(const uint8_t *)"b", 1}, {(const uint8_t *)"a", 1}, {(const uint8_t *)"", 0}};
static const uint8_t offsets_bytes[] = {0}, sizes_bytes[] = {1};
static const uint8_t formats_of_records[] = {0, 1, 2, 3, 4, 1, 0, 0};

static void put_records(struct codrask_node *t) {
    t[0] = node(CODRASK_STRUCT, 0, 1), t[0].buffers = names, t[0].buffer_count = 4;
    t[1] = t[2] = t[3] = t[5] = node(CODRASK_UTF8_VIEW, 0, 1);
    t[1].views = t[2].views = t[3].views = t[5].views = views;
    t[1].view_count = t[2].view_count = t[3].view_count = t[5].view_count = 1;
    t[4] = node(CODRASK_LIST_VIEW, 0, 1);
    t[6] = numbers(CODRASK_U8, 1, SLICE(offsets_bytes)), t[7] = numbers(CODRASK_U8, 1, SLICE(sizes_bytes));
}

/* Whether a step on these records, on a text that came by large offsets, and on lists of them, gives nodes of these formats. */
static bool has_formats(struct codrask_step of, const uint8_t *formats, size_t count) {
    struct codrask_node t[8];
    put_records(t);
    struct codrask_column columns[] = {{t, 8}, {t + 1, 1}, {t + 4, 4}};
    const uint8_t large[] = {2}, *given[] = {formats_of_records, large, NULL};
    struct codrask_columns results = CODRASK_NO_COLUMNS;
    struct codrask_run_fault told;
    const size_t wanted = 3;
    if (codrask_run(columns, 3, &of, 1, &wanted, 1, &results, &told))
        return false;
    uint8_t *made_formats = malloc(results.columns[0].count);
    bool good = made_formats && results.columns[0].count == count
                && !codrask_run_formats(columns, given, 3, &of, 1, &wanted, &results, &made_formats)
                && !memcmp(made_formats, formats, count);
    free(made_formats);
    codrask_columns_free(&results);
    return good;
}

static struct codrask_step named(uint32_t kind, size_t which, size_t other) {
    struct codrask_step s = step(kind, 0);
    s.name = names[which].bytes, s.name_size = names[which].count, s.other = other;
    return s;
}

static void records(void) {
    static const struct codrask_bytes three[] = {{(const uint8_t *)"", 0}, {(const uint8_t *)"b", 1}, {(const uint8_t *)"a", 1}};
    static const size_t joined[] = {1, 1}, list_first[] = {2, 2};
    struct codrask_step project = step(CODRASK_PROJECT, 0), concat = step(CODRASK_CONCAT, 99), rebuild = step(CODRASK_REBUILD, 2);
    project.names = three, project.name_count = 3;
    concat.arrays = joined, concat.array_count = 2;
    tell("columns by names", has_formats(project, (const uint8_t[]){0, 4, 1, 0, 0, 2, 1}, 7));
    tell("a column more", has_formats(named(CODRASK_WITH_COLUMN, 1, 1), (const uint8_t[]){0, 1, 2, 3, 4, 1, 0, 0, 2}, 9));
    tell("the first column of a name less", has_formats(named(CODRASK_REMOVE_COLUMN, 0, 0), (const uint8_t[]){0, 2, 3, 4, 1, 0, 0}, 7));
    tell("the last column less", has_formats(named(CODRASK_REMOVE_COLUMN, 3, 0), (const uint8_t[]){0, 1, 2, 3}, 4));
    tell("the first column of a name", has_formats(named(CODRASK_FIELD, 0, 0), (const uint8_t[]){1}, 1));
    tell("a column of lists", has_formats(named(CODRASK_FIELD, 3, 0), (const uint8_t[]){4, 1, 0, 0}, 4));
    tell("what is joined has the first one's", has_formats(concat, (const uint8_t[]){2}, 1));
    concat.arrays = list_first;
    tell("and none, where it has none", has_formats(concat, (const uint8_t[]){0, 0, 0, 0}, 4));
    tell("lists that came without", has_formats(rebuild, (const uint8_t[]){0, 0, 0, 0}, 4));
}

/* Lists that are laid out anew have no format; their elements keep theirs. */
static void rebuilt(void) {
    struct codrask_node t[8];
    put_records(t);
    struct codrask_column column = {t + 4, 4};
    const uint8_t *given = formats_of_records + 4;
    struct codrask_columns results = CODRASK_NO_COLUMNS;
    struct codrask_run_fault told;
    struct codrask_step rebuild = step(CODRASK_REBUILD, 0);
    const size_t wanted[] = {1, 0};
    uint8_t formats[2][4] = {{9, 9, 9, 9}, {9, 9, 9, 9}}, *both[] = {formats[0], formats[1]};
    bool good = !codrask_run(&column, 1, &rebuild, 1, wanted, 2, &results, &told)
                && !codrask_run_formats(&column, &given, 1, &rebuild, 1, wanted, &results, both);
    tell("lists that were rebuilt", good && !memcmp(formats[0], (const uint8_t[]){0, 1, 0, 0}, 4));
    tell("and as they came", good && !memcmp(formats[1], given, 4));
    codrask_columns_free(&results);
}

/* A dictionary has the formats of its values, also where these may be null. */
static void dictionaries(void) {
    uint8_t codes[] = {0}, bits[] = {1};
    struct codrask_node text = node(CODRASK_UTF8_VIEW, CODRASK_BY_ARRAY, 1);
    text.views = views, text.view_count = 1;
    struct codrask_node t[] = {node(CODRASK_DICTIONARY, 0, 1), numbers(CODRASK_U8, 1, SLICE(codes)), text, truths(1, bits)};
    struct codrask_column column = {t, 4};
    const uint8_t given[] = {0, 0, 2, 0}, *of_column = given;
    struct codrask_columns results = CODRASK_NO_COLUMNS;
    struct codrask_run_fault told;
    const size_t wanted = 0;
    uint8_t formats[] = {9, 9}, *made_formats = formats;
    bool good = !codrask_run(&column, 1, &(struct codrask_step){0}, 0, &wanted, 1, &results, &told) && results.columns[0].count == 2
                && !codrask_run_formats(&column, &of_column, 1, NULL, 0, &wanted, &results, &made_formats);
    tell("a dictionary made plain", good && formats[0] == 2 && formats[1] == 0);
    codrask_columns_free(&results);
}

int main(int count, char **words) {
    each_format();
    large_lists();
    no_formats();
    records();
    rebuilt();
    dictionaries();
    random_columns(count > 1 ? strtoull(words[1], NULL, 10) : 1000);
    printf("%d passed, %d failed\n", passed, failed);
    return failed != 0;
}
