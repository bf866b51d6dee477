/* What is written of tables by hand, by name: padding, names, flags, and which node is refused. The last line is 'N passed, M failed'. */
#include "arrow_by_hand.h"
#include "by_hand.h"

static struct ArrowSchema written_schema;
static struct ArrowArray written;
static struct codrask_fault fault;

static uint32_t write_named(const struct codrask_node *nodes, size_t count, uint32_t flags, const char *name) {
    return codrask_write_arrow(nodes, count, flags, name, NULL, &written_schema, &written, &fault);
}

static void give_back(void) {
    if (written_schema.release)
        written_schema.release(&written_schema);
    if (written.release)
        written.release(&written);
}

static void refuse(const char *what, const struct codrask_node *nodes, size_t count, uint32_t flags, uint32_t number, size_t at,
                   size_t place) {
    uint32_t answer = write_named(nodes, count, flags, "x");
    bool good = answer == number && fault.number == number && fault.node == at && fault.place == place && !written.release
                && !written_schema.release;
    if (!good)
        printf("%u %s at node %zu, place %zu\n", answer, codrask_fault_name(answer), fault.node, fault.place);
    tell(what, good);
    give_back();
}

/* What follows a short value is zero, also where it was not. */
static void padding(void) {
    struct codrask_view views[] = {{{1, 0, 0, 0, 'a', 'b', 'c', 0xff, 1, 2, 3, 4, 5, 6, 7, 8}}, {{0, 0, 0, 0, 9, 9}}},
                        clean[] = {{{1, 0, 0, 0, 'a'}}, {{0}}};
    struct codrask_node n = node(CODRASK_UTF8_VIEW, 0, 2);
    n.views = views, n.view_count = 2;
    tell("padding is zero", !write_named(&n, 1, CODRASK_BY_VIEWS, NULL) && !memcmp(written.buffers[1], clean, sizeof clean));
    give_back();
}

static void names(void) {
    int64_t values[] = {1, 2};
    struct codrask_bytes columns[] = {{(const uint8_t *)"lists", 5}, {(const uint8_t *)"pairs", 5}},
                         elements[] = {{(const uint8_t *)"item", 4}};
    struct codrask_node t[] = {node(CODRASK_STRUCT, 0, 1),
                               node(CODRASK_LIST_VIEW, 0, 1),
                               numbers(CODRASK_I64, 2, SLICE(values)),
                               numbers(CODRASK_I64, 1, values, 8),
                               numbers(CODRASK_I64, 1, values, 8),
                               node(CODRASK_FIXED_SIZE_LIST, 0, 1),
                               numbers(CODRASK_I64, 2, SLICE(values))};
    struct codrask_table table = {NULL, 0, NULL};
    t[0].buffers = columns, t[0].buffer_count = 2;
    t[1].buffers = t[5].buffers = elements, t[1].buffer_count = t[5].buffer_count = 1, t[5].size = 2;
    bool good = !write_named(t, 7, CODRASK_BY_VIEWS, "the root") && !strcmp(written_schema.name, "the root")
                && !strcmp(written_schema.children[0]->children[0]->name, "item")
                && !strcmp(written_schema.children[1]->children[0]->name, "item");
    tell("names of the root and of elements are written", good);
    good = good && !codrask_table_from_arrow(&written_schema, &written, &table);
    give_back();
    tell("and read", good && !strcmp(codrask_table_name(&table), "the root") && table.nodes[1].buffer_count == 1
                         && !memcmp(table.nodes[1].buffers[0].bytes, "item", 4));
    codrask_table_free(&table);
    elements[0].count = 5;
    refuse("a name with a byte 0", t, 7, CODRASK_BY_VIEWS, CODRASK_BAD_ARROW, 1, 0);
    elements[0].count = 4, columns[1].count = 6;
    refuse("a column whose name has a byte 0", t, 7, CODRASK_BY_VIEWS, CODRASK_BAD_ARROW, 0, 1);
}

static void flags(void) {
    int64_t values[] = {1, 2};
    struct codrask_node n = numbers(CODRASK_I64, 2, SLICE(values));
    const uint32_t none_of_them[] = {2, 3, 4, (uint32_t)1 << 31};
    for (size_t i = 0; i < COUNT(none_of_them); i++)
        refuse("flags that are no flags", &n, 1, none_of_them[i], CODRASK_BAD_FLAGS, 0, 0);
    refuse("flags are tested first", &n, 0, 2, CODRASK_BAD_FLAGS, 0, 0);
    refuse("no node", &n, 0, 0, CODRASK_NOT_ONE_ARRAY, 0, 0);
}

/* The node that is refused, and not the root. */
static void nodes(void) {
    uint8_t codes[] = {1, 0};
    int64_t values[] = {0, 1};
    struct codrask_bytes name = {(const uint8_t *)"x", 1};
    struct codrask_node dictionary[] = {node(CODRASK_DICTIONARY, 0, 2), numbers(CODRASK_U8, 2, SLICE(codes)),
                                        numbers(CODRASK_I64, 2, SLICE(values))};
    struct codrask_node t[] = {node(CODRASK_STRUCT, 0, 2),
                               node(CODRASK_LIST_VIEW, 0, 2),
                               numbers(CODRASK_I64, 2, SLICE(values)),
                               dictionary[0],
                               dictionary[1],
                               dictionary[2],
                               numbers(CODRASK_I64, 2, SLICE(values))};
    t[0].buffers = &name, t[0].buffer_count = 1;
    values[1] = 0;
    refuse("offsets by a dictionary", t, 7, CODRASK_BY_VIEWS, CODRASK_BAD_ARROW, 1, 0);
    values[1] = 1;
    struct codrask_node lists[] = {t[0], t[1], t[2], numbers(CODRASK_U8, 2, SLICE(codes)), numbers(CODRASK_U8, 2, SLICE(codes))};
    codes[0] = 0, codes[1] = 1;
    lists[4] = numbers(CODRASK_U8, 2, codes + 0, 2);
    uint8_t ones[] = {0, 0};
    lists[4].bytes = ones;
    refuse("lists that do not lie end to end", lists, 5, CODRASK_BY_OFFSETS, CODRASK_NOT_END_TO_END, 1, 1);
    struct codrask_node codes_of_codes[] = {node(CODRASK_DICTIONARY, 0, 2), dictionary[0], dictionary[1], dictionary[2],
                                            numbers(CODRASK_I64, 2, SLICE(values))};
    refuse("codes by a dictionary", codes_of_codes, 5, CODRASK_BY_VIEWS, CODRASK_BAD_ARROW, 0, 0);
}

/* By offsets, and small ones where they are enough. */
static void small_offsets(void) {
    static const int32_t wanted[] = {0, 1, 3};
    uint8_t starts[] = {0, 1}, sizes[] = {1, 2}, elements[] = {5, 6, 7};
    struct codrask_view views[] = {{{1, 0, 0, 0, 'a'}}, {{2, 0, 0, 0, 'b', 'c'}}};
    struct codrask_node n = node(CODRASK_UTF8_VIEW, 0, 2);
    struct codrask_node t[] = {node(CODRASK_LIST_VIEW, 0, 2), numbers(CODRASK_U8, 3, SLICE(elements)),
                               numbers(CODRASK_U8, 2, SLICE(starts)), numbers(CODRASK_U8, 2, SLICE(sizes))};
    n.views = views, n.view_count = 2;
    tell("texts by offsets", !write_named(&n, 1, CODRASK_BY_OFFSETS, NULL) && !strcmp(written_schema.format, "u") && written.n_buffers == 3
                                 && !memcmp(written.buffers[1], wanted, sizeof wanted) && !memcmp(written.buffers[2], "abc", 3));
    give_back();
    tell("lists by offsets", !write_named(t, 4, CODRASK_BY_OFFSETS, NULL) && !strcmp(written_schema.format, "+l") && written.n_buffers == 2
                                 && !memcmp(written.buffers[1], wanted, sizeof wanted));
    give_back();
}

/* A child that a consumer took out, and one that it put in with a release of its own. */
static int own_releases;

static void own_release(struct ArrowArray *array) {
    own_releases++;
    array->release = NULL;
}

static void own_schema_release(struct ArrowSchema *schema) {
    own_releases++;
    schema->release = NULL;
}

static void taken_out(void) {
    int64_t values[] = {1, 2};
    struct codrask_bytes columns[] = {{(const uint8_t *)"a", 1}, {(const uint8_t *)"b", 1}};
    struct codrask_node t[] = {node(CODRASK_STRUCT, 0, 2), numbers(CODRASK_I64, 2, SLICE(values)), numbers(CODRASK_I64, 2, SLICE(values))};
    t[0].buffers = columns, t[0].buffer_count = 2;
    bool good = !write_named(t, 3, CODRASK_BY_VIEWS, NULL);
    struct ArrowArray first = *written.children[0], second = *written.children[1];
    written.children[0]->release = NULL;
    written.children[1]->release = own_release;
    struct ArrowSchema other = *written_schema.children[0];
    written_schema.children[0]->release = own_schema_release;
    give_back();
    tell("a child that was taken out, and two with another release", good && own_releases == 2 && !memcmp(first.buffers[1], values, 16));
    first.release(&first);
    second.release(&second);
    other.release(&other);
}

static uint32_t write_passed(const struct codrask_node *nodes, size_t count, uint32_t flags) {
    const struct codrask_limits limits = {64};
    return codrask_write_passed(nodes, count, NULL, flags, "x", &limits, &written_schema, &written, &fault);
}

/* What has passed is not tested again, and copied all the same; a text that is none shows it. What else is refused stays refused. */
static void passed_before(void) {
    static struct codrask_node many[4097];
    struct codrask_view views[] = {{{1, 0, 0, 0, 0xff}}};
    struct codrask_node n = node(CODRASK_UTF8_VIEW, 0, 1);
    uint8_t values[65] = {0};
    n.views = views, n.view_count = 1;
    refuse("a text that is none", &n, 1, CODRASK_BY_VIEWS, CODRASK_NOT_UTF8, 0, 0);
    bool good = !write_passed(&n, 1, CODRASK_BY_VIEWS) && !strcmp(written_schema.name, "x") && !strcmp(written_schema.format, "vu")
                && written.buffers[1] != (const void *)views && !memcmp(written.buffers[1], views, 16);
    tell("what has passed is not tested again", good);
    give_back();
    tell("flags that are none", write_passed(&n, 1, 2) == CODRASK_BAD_FLAGS && !written.release);
    n = numbers(CODRASK_U8, 65, SLICE(values));
    tell("too many bytes of what has passed", write_passed(&n, 1, 0) == CODRASK_TOO_MANY_BYTES && !written.release);
    tell("no node has passed", write_passed(&n, 0, 0) == CODRASK_NOT_ONE_ARRAY && fault.number == CODRASK_NOT_ONE_ARRAY);
    for (size_t i = 0; i < COUNT(many); i++)
        many[i] = numbers(CODRASK_U8, 0, values, 0);
    tell("so many nodes never passed", write_passed(many, COUNT(many), 0) == CODRASK_TOO_MANY_NODES && !written.release);
}

int main(void) {
    padding();
    names();
    flags();
    nodes();
    small_offsets();
    taken_out();
    passed_before();
    printf("%d passed, %d failed\n", passed, failed);
    return failed != 0;
}
