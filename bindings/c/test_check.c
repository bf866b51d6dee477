/* Tables by hand: a row of the README, and one of each fault. The last line is 'N passed, M failed'. */
#include "by_hand.h"

#include <stdio.h>
#include <string.h>

static int passed, failed;

static void expect(const char *what, const struct codrask_node *nodes, size_t count, uint32_t number, size_t at, size_t place) {
    struct codrask_fault fault = {99, 99, 99};
    uint32_t answer = codrask_check(nodes, count, &fault);
    if (answer == number && fault.number == number && fault.node == at && fault.place == place) {
        passed++;
        return;
    }
    failed++;
    printf("%s: %u %s at node %zu, place %zu, wanted %u at node %zu, place %zu\n", what, answer, codrask_fault_name(answer), fault.node,
           fault.place, number, at, place);
}

static void list_views(void) {
    int64_t elements[] = {1, 2, 3, 4};
    int32_t offsets[] = {2, 0, 1}, sizes[] = {2, 1, 2};
    struct codrask_node t[] = {node(CODRASK_LIST_VIEW, 0, 3), numbers(CODRASK_I64, 4, SLICE(elements)), numbers(CODRASK_I32, 3, SLICE(offsets)),
                               numbers(CODRASK_I32, 3, SLICE(sizes))};
    expect("lists", t, 4, 0, 0, 0);
    offsets[1] = -1;
    expect("a negative offset", t, 4, CODRASK_NEGATIVE, 0, 1);
    offsets[1] = 3, sizes[1] = 9;
    expect("a list past the elements", t, 4, CODRASK_OUT_OF_BOUNDS, 0, 12);
    sizes[1] = 1;
    t[3].byte_count = 8, t[3].length = 2;
    expect("too few sizes", t, 4, CODRASK_LENGTH_MISMATCH, 0, 0);
    t[3].length = 3;
    expect("a length that is not the one told", t, 4, CODRASK_LENGTH_MISMATCH, 3, 0);
    t[3].length = 2, t[3].byte_count = 7;
    expect("half a number", t, 4, CODRASK_LENGTH_MISMATCH, 3, 0);
    expect("a node too few", t, 3, CODRASK_MISSING_NODES, 0, 0);
    expect("no list", t + 1, 3, CODRASK_LENGTH_MISMATCH, 2, 0);
    t[3].byte_count = 8;
    expect("three arrays", t + 1, 3, CODRASK_NOT_ONE_ARRAY, 0, 0);
    expect("no node", t, 0, CODRASK_NOT_ONE_ARRAY, 0, 0);
}

static void truth_values(void) {
    uint8_t bits[] = {0xac, 0x69};
    struct codrask_node t[] = {node(CODRASK_BOOL, 0, 16), node(CODRASK_BOOL, 0, 16)};
    t[0].bytes = t[1].bytes = bits;
    t[0].byte_count = t[1].byte_count = 2;
    expect("bits", t, 1, 0, 0, 0);
    t[0].offset = 1;
    expect("bits past the bytes", t, 1, CODRASK_LENGTH_MISMATCH, 0, 0);
    t[0].offset = SIZE_MAX;
    expect("bits past every count", t, 1, CODRASK_OVERFLOW, 0, 0);
    t[0].offset = 0, t[0].validity = CODRASK_BY_ARRAY;
    expect("bits with nulls", t, 2, 0, 0, 0);
    t[1].length = 15;
    expect("a validity too short", t, 2, CODRASK_LENGTH_MISMATCH, 0, 0);
    t[1].length = 16, t[1].validity = CODRASK_ALL_VALID;
    expect("a validity that may be null", t, 2, CODRASK_MISMATCHED_TYPES, 0, 0);
    expect("no validity", t, 1, CODRASK_MISSING_NODES, 0, 0);
    t[0].validity = 4;
    expect("a validity of no number", t, 1, CODRASK_BAD_VALIDITY, 0, 0);
    t[0].kind = 99;
    expect("a kind of no number", t, 1, CODRASK_UNKNOWN_KIND, 0, 0);
}

static void texts(void) {
    struct codrask_view views[2] = {{{3, 0, 0, 0, 'a', 'b', 'c'}}, {{13, 0, 0, 0, 'a', ' ', 'l', 'o', 0, 0, 0, 0, 2}}};
    struct codrask_bytes heap = {(const uint8_t *)"..a longer text", 15};
    struct codrask_node t = node(CODRASK_UTF8_VIEW, 0, 2);
    t.views = views, t.view_count = 2, t.buffers = &heap, t.buffer_count = 1;
    expect("texts by views", &t, 1, 0, 0, 0);
    heap.count = 14;
    expect("a value past its buffer", &t, 1, CODRASK_BAD_END, 0, 1);
    heap.count = 2;
    expect("a start past its buffer", &t, 1, CODRASK_BAD_START, 0, 1);
    heap.count = 15, views[1].bytes[4] = 'b';
    expect("another prefix", &t, 1, CODRASK_BAD_PREFIX, 0, 1);
    views[1].bytes[4] = 'a', views[1].bytes[8] = 1;
    expect("no such buffer", &t, 1, CODRASK_BAD_BUFFER, 0, 1);
    views[1].bytes[8] = 0, views[0].bytes[5] = 0xff;
    expect("no text", &t, 1, CODRASK_NOT_UTF8, 0, 0);
    t.kind = CODRASK_BINARY_VIEW;
    expect("bytes by views", &t, 1, 0, 0, 0);
}

static void records(void) {
    uint8_t codes[] = {1, 0, 1}, values[] = {7, 8};
    struct codrask_bytes names[] = {{(const uint8_t *)"a", 1}, {(const uint8_t *)"b", 1}};
    struct codrask_node t[] = {node(CODRASK_STRUCT, CODRASK_ALL_VALID, 3), numbers(CODRASK_U8, 3, SLICE(codes)), node(CODRASK_DICTIONARY, 0, 3),
                               numbers(CODRASK_U8, 3, SLICE(codes)), numbers(CODRASK_I8, 2, SLICE(values))};
    t[0].buffers = names, t[0].buffer_count = 2;
    expect("records", t, 5, 0, 0, 0);
    codes[2] = 2;
    expect("a code past the values", t, 5, CODRASK_OUT_OF_BOUNDS, 2, 2);
    codes[2] = 1, t[2].validity = CODRASK_ALL_VALID;
    expect("a dictionary with a validity", t, 5, CODRASK_BAD_VALIDITY, 2, 0);
    t[2].validity = 0, names[1].bytes = (const uint8_t *)"\xff";
    expect("a name that is no text", t, 5, CODRASK_NOT_UTF8, 0, 1);
    names[1].bytes = (const uint8_t *)"b", t[0].length = 4;
    expect("columns that are too short", t, 5, CODRASK_LENGTH_MISMATCH, 0, 0);
    struct codrask_node f[] = {node(CODRASK_FIXED_SIZE_LIST, 0, 1), numbers(CODRASK_I8, 2, SLICE(values))};
    f[0].size = 2;
    expect("lists of one size", f, 2, 0, 0, 0);
    f[0].length = SIZE_MAX;
    expect("lists that cannot be counted", f, 2, CODRASK_OVERFLOW, 0, 0);
    f[0].size = 0;
    expect("lists of size 0 with elements", f, 2, CODRASK_DEGENERATE_ELEMENTS, 0, 0);
}

static void many_nodes(void) {
    static struct codrask_node t[4097];
    for (size_t i = 0; i < 4097; i++)
        t[i] = node(CODRASK_FIXED_SIZE_LIST, 0, 1), t[i].size = 1;
    uint8_t number[] = {5};
    t[4095] = numbers(CODRASK_U8, 1, SLICE(number));
    expect("a nest of 4096 levels", t, 4096, 0, 0, 0);
    t[4096] = t[4095], t[4095] = t[4094];
    expect("a node too many", t, 4097, CODRASK_TOO_MANY_NODES, 0, 0);
}

int main(void) {
    if (codrask_version() == 1)
        passed++;
    else
        failed++;
    list_views();
    truth_values();
    texts();
    records();
    many_nodes();
    printf("%d passed, %d failed\n", passed, failed);
    return failed != 0;
}
