/* What is known of a column without a copy of it. Tables by hand on both sides of each test, with and without offsets; random tables and
 * Arrow structures, whole and with one thing turned: what passes has no fault, and of the rest the fault is told that a run tells, which
 * makes all arrays. Run it under the sanitizers, with a number of seeds, or none for 2000. The last line is 'N passed, M failed'. */
#include "by_hand.h"
#include "sized.h"
#include "turned.h"
#include "turned_structures.h"

/* ---- by hand ---- */

/* Whether a table passes; and whether codrask_check takes it for a column, which none with offsets is. */
static void expect_passing(const char *what, const struct codrask_node *nodes, size_t count, bool passes, bool offsets) {
    struct codrask_fault fault;
    bool good = codrask_passes(nodes, count) == (passes ? 1 : 0);
    uint32_t number = codrask_check(nodes, count, &fault);
    tell(what, good && (offsets ? number == CODRASK_UNKNOWN_KIND : !passes || number == 0));
}

#define PASSES(what, nodes) expect_passing(what, nodes, COUNT(nodes), true, false)
#define IS_ASKED(what, nodes) expect_passing(what, nodes, COUNT(nodes), false, false)
#define OFFSETS_PASS(what, nodes) expect_passing(what, nodes, COUNT(nodes), true, true)
#define OFFSETS_ARE_ASKED(what, nodes) expect_passing(what, nodes, COUNT(nodes), false, true)

static const int32_t some[] = {0, 1, 2, 3, 4, 5, 6, 7, 8};

static void flat(void) {
    struct codrask_node one[] = {numbers(CODRASK_I32, 8, some, 32)};
    PASSES("numbers", one);
    one[0].byte_count = 33;
    IS_ASKED("a byte too many", one);
    one[0].byte_count = 28;
    IS_ASKED("a number less", one);
    static const uint8_t bits[8] = {0xff, 0xff};
    struct codrask_node truth[] = {truths(16, bits)};
    PASSES("truth values", truth);
    truth[0].offset = 1;
    IS_ASKED("a truth value past the bytes", truth);
    truth[0].offset = SIZE_MAX;
    IS_ASKED("a place past all", truth);
    struct codrask_node maybe[] = {numbers(CODRASK_I32, 8, some, 32), truths(8, bits)};
    maybe[0].validity = CODRASK_BY_ARRAY;
    PASSES("numbers of which some are null", maybe);
    maybe[1].length = 9;
    IS_ASKED("a validity of another length", maybe);
    maybe[1] = numbers(CODRASK_U8, 8, bits, 8);
    IS_ASKED("a validity of numbers", maybe);
    maybe[0].validity = 4;
    IS_ASKED("a validity of no number", maybe);
    struct codrask_node two[] = {numbers(CODRASK_I32, 8, some, 32), numbers(CODRASK_I32, 8, some, 32)};
    IS_ASKED("two arrays", two);
    expect_passing("no array", two, 0, false, false);
    two[0].kind = 23;
    IS_ASKED("a kind of no number", two);
}

static struct codrask_view view(uint32_t size, const char *first, uint32_t buffer, uint32_t start) {
    struct codrask_view made = {{(uint8_t)size}};
    memcpy(made.bytes + 4, first, size > 12 ? 4 : size);
    if (size > 12) {
        memcpy(made.bytes + 8, &buffer, 4);
        memcpy(made.bytes + 12, &start, 4);
    }
    return made;
}

/* Twelve times `a`, an `é` and thirteen times `b`. */
static const char heap_of_views[] = "aaaaaaaaaaaa\xc3\xa9" "bbbbbbbbbbbbb";

static void views(void) {
    struct codrask_bytes heap = {(const uint8_t *)heap_of_views, 27};
    struct codrask_view all[] = {view(12, "abcdefghijkl", 0, 0), view(14, "aaaa", 0, 0), view(13, "bbbb", 0, 14),
                                 view(2, "\xc3\xa9", 0, 0)};
    struct codrask_node texts[] = {node(CODRASK_UTF8_VIEW, 0, 4)}, bytes[] = {node(CODRASK_BINARY_VIEW, 0, 4)};
    texts[0].views = bytes[0].views = all, texts[0].view_count = bytes[0].view_count = 4;
    texts[0].buffers = bytes[0].buffers = &heap, texts[0].buffer_count = bytes[0].buffer_count = 1;
    PASSES("texts", texts);
    PASSES("byte lists", bytes);
    static const struct {
        const char *what;
        uint32_t size;
        const char *first;
        uint32_t buffer, start;
        bool is_binary;
    } others[] = {{"no such buffer", 13, "bbbb", 1, 14, false},   {"an end past the buffer", 13, "bbbb", 0, 15, false},
                  {"another prefix", 13, "bbba", 0, 14, false},   {"a start past the buffer", 13, "bbbb", 0, 27, false},
                  {"an end in a letter", 13, "aaaa", 0, 0, true}, {"a start in a letter", 14, "\xa9" "bbb", 0, 13, true},
                  {"no text", 1, "\xc3", 0, 0, true},             {"a letter cut short", 12, "aaaaaaaaaaa\xc3", 0, 0, true}};
    for (size_t i = 0; i < COUNT(others); i++) {
        all[2] = view(others[i].size, others[i].first, others[i].buffer, others[i].start);
        IS_ASKED(others[i].what, texts);
        expect_passing(others[i].what, bytes, 1, others[i].is_binary, false);
    }
    all[2] = view(13, "bbbb", 0, 14);
    static const struct codrask_bytes broken = {(const uint8_t *)"aaaaaaaaaaaa\xc3\xa9" "bbbbbbbbbbbbb\xff", 28};
    texts[0].buffers = &broken;
    expect_passing("a byte behind the texts that is none", texts, 1, false, false);
    texts[0].buffers = &heap, texts[0].length = 3;
    IS_ASKED("a view too many", texts);
}

/* A null row is asked for too: what stands there may be no view and no code. */
static void nulls_of_any_kind(void) {
    static const uint8_t first[] = {1};
    struct codrask_view all[] = {view(3, "abc", 0, 0), view(13, "bbbb", 7, 7)};
    struct codrask_node texts[] = {node(CODRASK_UTF8_VIEW, CODRASK_BY_ARRAY, 2), truths(2, first)};
    texts[0].views = all, texts[0].view_count = 2;
    struct codrask_fault fault;
    tell("a null row whose view is none", !codrask_passes(texts, 2) && !codrask_check(texts, 2, &fault));
    static const uint8_t codes[] = {0, 9};
    struct codrask_node named[] = {node(CODRASK_DICTIONARY, 0, 2), numbers(CODRASK_U8, 2, codes, 2), truths(2, first),
                                   numbers(CODRASK_I32, 2, some, 8)};
    named[1].validity = CODRASK_BY_ARRAY;
    tell("a null row whose code is none", !codrask_passes(named, 4) && !codrask_check(named, 4, &fault));
}

static void parts(void) {
    static const int64_t places[] = {0, 4, 2}, sizes[] = {4, 4, 6}, negative[] = {0, -1, 2};
    struct codrask_node lists[] = {node(CODRASK_LIST_VIEW, 0, 3), numbers(CODRASK_I32, 8, some, 32), numbers(CODRASK_I64, 3, places, 24),
                                   numbers(CODRASK_I64, 3, sizes, 24)};
    PASSES("lists that end with the elements", lists);
    lists[1] = numbers(CODRASK_I32, 7, some, 28);
    IS_ASKED("lists that pass the elements", lists);
    lists[1] = numbers(CODRASK_I32, 8, some, 32), lists[2].bytes = (const void *)negative;
    IS_ASKED("a list that begins before the elements", lists);
    lists[2].bytes = (const void *)places, lists[3].bytes = (const void *)negative;
    IS_ASKED("a list of fewer than none", lists);
    lists[3] = numbers(CODRASK_I64, 2, sizes, 16);
    IS_ASKED("a size less", lists);
    lists[3] = numbers(CODRASK_U64, 3, sizes, 24);
    IS_ASKED("sizes of another type", lists);
    struct codrask_node fixed[] = {node(CODRASK_FIXED_SIZE_LIST, 0, 4), numbers(CODRASK_I32, 8, some, 32)};
    fixed[0].size = 2;
    PASSES("lists of two", fixed);
    fixed[0].size = 3;
    IS_ASKED("lists of three", fixed);
    fixed[0].size = 0;
    IS_ASKED("lists of none", fixed);
    fixed[1] = numbers(CODRASK_I32, 0, some, 0);
    PASSES("lists of none over none", fixed);
    fixed[0].size = UINT32_MAX, fixed[0].length = SIZE_MAX;
    IS_ASKED("more elements than can be counted", fixed);
    static const uint8_t codes[] = {7, 0, 3};
    struct codrask_node named[] = {node(CODRASK_DICTIONARY, 0, 3), numbers(CODRASK_U8, 3, codes, 3), numbers(CODRASK_I32, 8, some, 32)};
    PASSES("codes", named);
    named[2] = numbers(CODRASK_I32, 7, some, 28);
    IS_ASKED("a code past the values", named);
    named[2] = numbers(CODRASK_I32, 8, some, 32), named[0].length = 4;
    IS_ASKED("a dictionary of more rows than codes", named);
    named[0].length = 3, named[0].validity = CODRASK_ALL_VALID;
    IS_ASKED("a dictionary with a validity", named);
    static const struct codrask_bytes names[] = {{(const uint8_t *)"a", 1}, {(const uint8_t *)"\xc3\xa9", 2}, {(const uint8_t *)"\xc3", 1}};
    struct codrask_node records[] = {node(CODRASK_STRUCT, 0, 8), numbers(CODRASK_I32, 8, some, 32), numbers(CODRASK_I32, 8, some, 32)};
    records[0].buffers = names, records[0].buffer_count = 2;
    PASSES("records", records);
    records[0].buffers = names + 1;
    IS_ASKED("a name that is no text", records);
    records[0].buffers = names, records[2] = numbers(CODRASK_I32, 7, some, 28);
    IS_ASKED("a column of another length", records);
    records[0].buffer_count = 3;
    IS_ASKED("a column less", records);
}

/* ---- offsets ---- */

static struct codrask_bytes heap;

static struct codrask_node between(uint32_t kind, size_t length, const void *offsets, size_t size, const char *text) {
    struct codrask_node n = numbers(kind, length, offsets, size);
    heap = (struct codrask_bytes){(const uint8_t *)text, strlen(text)};
    n.buffers = &heap, n.buffer_count = 1;
    return n;
}

static void values_between(void) {
    static const char text[] = "aaaaaaaaaaaa\xc3\xa9" "bbbbbbbbbbbbb";
    static const struct {
        const char *what;
        int32_t offsets[4];
        bool texts, values;
    } all[] = {{"from one letter to another", {0, 12, 14, 27}, true, true}, {"from an offset on", {100, 112, 114, 127}, true, true},
               {"nothing", {5, 5, 5, 5}, true, true},                         {"from below 0 on", {-12, 0, 2, 15}, true, true},
               {"an end in a letter", {0, 13, 14, 27}, false, true},          {"an offset that falls", {0, 14, 12, 27}, false, false},
               {"a byte past the end", {0, 12, 14, 28}, false, false},        {"before the first", {5, 4, 14, 27}, false, false},
               {"past all", {0, 12, 14, INT32_MAX}, false, false},            {"the last in a letter", {0, 2, 3, 13}, false, true}};
    for (size_t i = 0; i < COUNT(all); i++) {
        int64_t wide[4];
        for (size_t k = 0; k < 4; k++)
            wide[k] = all[i].offsets[k];
        for (uint32_t large = 0; large < 2; large++) {
            const void *offsets = large ? (const void *)wide : all[i].offsets;
            struct codrask_node one[] = {between(CODRASK_UTF8_OFFSETS + large, 3, offsets, large ? 32 : 16, text)};
            expect_passing(all[i].what, one, 1, all[i].texts, true);
            one[0].kind = CODRASK_BINARY_OFFSETS + large;
            expect_passing(all[i].what, one, 1, all[i].values, true);
        }
    }
    static const int32_t offsets[] = {0, 1, 2, 3};
    struct codrask_node one[] = {between(CODRASK_UTF8_OFFSETS, 3, offsets, 16, "ab\xff")};
    OFFSETS_ARE_ASKED("no text", one);
    one[0].kind = CODRASK_BINARY_OFFSETS;
    OFFSETS_PASS("bytes", one);
    one[0].length = 4;
    OFFSETS_ARE_ASKED("an offset less", one);
    one[0].length = 2;
    OFFSETS_ARE_ASKED("an offset more", one);
    one[0].length = 0, one[0].byte_count = 0;
    OFFSETS_ARE_ASKED("no offset", one);
    one[0].byte_count = 4;
    OFFSETS_PASS("one offset", one);
    one[0].buffer_count = 0, one[0].length = 3, one[0].byte_count = 16;
    OFFSETS_ARE_ASKED("no bytes", one);
    static const uint8_t valid[] = {5};
    struct codrask_node maybe[] = {between(CODRASK_UTF8_OFFSETS, 3, offsets, 16, "abc"), truths(3, valid)};
    maybe[0].validity = CODRASK_BY_ARRAY;
    OFFSETS_PASS("texts of which one is null", maybe);
    maybe[1].length = 2;
    OFFSETS_ARE_ASKED("a validity of another length", maybe);
}

static void lists_between(void) {
    static const struct {
        const char *what;
        int32_t offsets[4];
        bool passes;
    } all[] = {{"all elements", {0, 3, 3, 8}, true},
               {"from an offset on", {10, 13, 13, 18}, true},
               {"an element past the end", {0, 3, 3, 9}, false},
               {"an offset that falls", {0, 4, 3, 8}, false},
               {"before the first", {5, 4, 6, 8}, false}};
    for (size_t i = 0; i < COUNT(all); i++) {
        int64_t wide[4];
        for (size_t k = 0; k < 4; k++)
            wide[k] = all[i].offsets[k];
        for (uint32_t large = 0; large < 2; large++) {
            const void *offsets = large ? (const void *)wide : all[i].offsets;
            size_t width = large ? 8 : 4;
            struct codrask_node lists[] = {node(CODRASK_LIST_VIEW, 0, 3), numbers(CODRASK_I32, 8, some, 32),
                                           numbers(CODRASK_STARTS + large, 3, offsets, 3 * width),
                                           numbers(CODRASK_SIZES + large, 3, offsets, 4 * width)};
            expect_passing(all[i].what, lists, 4, all[i].passes, true);
            lists[2].byte_count -= width;
            OFFSETS_ARE_ASKED("a start less", lists);
            lists[2].byte_count += width, lists[3].byte_count -= width;
            OFFSETS_ARE_ASKED("a size less", lists);
            lists[3].kind = CODRASK_SIZES + !large;
            OFFSETS_ARE_ASKED("starts and sizes of two widths", lists);
        }
    }
    struct codrask_node alone[] = {numbers(CODRASK_STARTS, 3, all[0].offsets, 12)};
    OFFSETS_PASS("starts alone", alone);
    struct codrask_node sizes[] = {numbers(CODRASK_SIZES, 3, all[0].offsets, 16)};
    OFFSETS_PASS("sizes alone", sizes);
}

/* ---- random tables and structures ---- */

/* The fault of a table, as a run tells it: it makes all arrays. */
static struct codrask_fault fault_by_run(const struct codrask_node *nodes, size_t count) {
    static const struct codrask_step none_of_them;
    struct codrask_column column = {nodes, count};
    struct codrask_columns written = CODRASK_NO_COLUMNS;
    struct codrask_run_fault fault;
    const size_t wanted = 0;
    uint32_t number = codrask_run(&column, 1, &none_of_them, 0, &wanted, 1, &written, &fault);
    codrask_columns_free(&written);
    bool of_table = number && fault.part == CODRASK_IN_TABLE;
    return of_table ? (struct codrask_fault){fault.number, fault.node, fault.place} : no_fault;
}

static size_t tables, passing;

/* Whether a kind is one of codrask_passes alone. */
static bool is_of_offsets(uint32_t kind) {
    return kind >= CODRASK_UTF8_OFFSETS && kind <= CODRASK_SIZES + 1;
}

static void random_table(uint64_t seed) {
    struct codrask_fault fault;
    state = seed;
    put_column(&made, 1 + random_below(12), 0);
    tables++;
    passing += codrask_passes(made.nodes, made.count);
    turn();
    codrask_check(made.nodes, made.count, &fault);
    bool may_pass = !fault.number || (fault.number == CODRASK_UNKNOWN_KIND && is_of_offsets(made.nodes[fault.node].kind));
    tell("a turned table",
         is_same_fault(fault, fault_by_run(made.nodes, made.count)) && (may_pass || !codrask_passes(made.nodes, made.count)));
    let_go(&made);
}

/* The fault of an Arrow array by its table. */
static struct codrask_fault fault_by_table(const struct ArrowSchema *schema, const struct ArrowArray *array, struct codrask_reading how) {
    struct codrask_table table;
    struct codrask_arrow_fault fault;
    if (!codrask_read_arrow_sized(schema, array, &how, &table, &fault)) {
        fault.fault = fault_by_run(table.nodes, table.count);
        codrask_table_free(&table);
    }
    return fault.fault;
}

static struct structure built;

static void same_of_structure(const char *what) {
    const struct slot *root = &built.slots[0];
    struct codrask_fault fault;
    struct codrask_reading plain = {.lengths = NULL};
    codrask_check_arrow(root->schema, root->array, &fault);
    tell(what, is_same_fault(fault, fault_by_table(root->schema, root->array, plain)));
}

static void random_structure(uint64_t seed) {
    build_seed(&built, seed);
    same_of_structure("a structure");
    tear_down(&built);
    for (uint64_t times = 0; times < 4; times++) {
        build_seed(&built, seed);
        dice += 31 * times;
        turn_structure(&built);
        same_of_structure("a turned structure");
        tear_down(&built);
    }
}

int main(int count, char **words) {
    uint64_t seeds = count > 1 ? strtoull(words[1], NULL, 10) : 2000;
    flat();
    views();
    nulls_of_any_kind();
    parts();
    values_between();
    lists_between();
    for (uint64_t seed = 1; seed <= seeds; seed++) {
        random_table(977 * seed);
        random_structure(seed);
    }
    tell("some whole tables pass", passing > tables / 4);
    printf("%zu of %zu whole tables pass\n%d passed, %d failed\n", passing, tables, passed, failed);
    return failed != 0;
}
