/* What is read and written at the limits of Arrow's numbers and of memory, by name. Here every table passes: codrask_check is wrapped,
 * which would copy gigabytes. Linked with --wrap of codrask_check. The last line is 'N passed, M failed'. */
#define _DEFAULT_SOURCE
#include "arrow_by_hand.h"
#include "by_hand.h"

#include <pthread.h>
#include <sys/mman.h>

uint32_t __wrap_codrask_check(const struct codrask_node *nodes, size_t node_count, struct codrask_fault *fault);

uint32_t __wrap_codrask_check(const struct codrask_node *nodes, size_t node_count, struct codrask_fault *fault) {
    (void)nodes, (void)node_count;
    *fault = (struct codrask_fault){0, 0, 0};
    return 0;
}

static const size_t GIB = (size_t)1 << 30;

/* Zeroes that take no memory until they are read. */
static uint8_t *zeroes(size_t size) {
    void *bytes = mmap(NULL, size, PROT_READ | PROT_WRITE, MAP_PRIVATE | MAP_ANONYMOUS | MAP_NORESERVE, -1, 0);
    if (bytes == MAP_FAILED)
        abort();
    return bytes;
}

static struct codrask_table table;
static struct codrask_fault fault;

static bool is_read(const struct ArrowSchema *schema, const struct ArrowArray *array) {
    return !codrask_read_arrow(schema, array, NULL, &table, &fault);
}

/* Whether a table is refused when it is written, by views and by offsets. */
static bool is_refused(const struct codrask_node *nodes, size_t count, uint32_t number, size_t at, size_t place) {
    bool good = true;
    for (uint32_t flags = CODRASK_BY_VIEWS; flags <= CODRASK_BY_OFFSETS; flags++) {
        struct ArrowSchema schema;
        struct ArrowArray array;
        uint32_t answer = codrask_to_arrow(nodes, count, flags, &schema, &array, &fault);
        good = good && answer == number && fault.number == number && fault.node == at && fault.place == place && !schema.release
               && !array.release;
    }
    return good;
}

/* ---- reading ---- */

static void parts(void) {
    const size_t quarter = GIB / 4;
    uint8_t *heap = zeroes(quarter);
    int32_t offsets[] = {(int32_t)quarter - 22, (int32_t)quarter}, list[] = {(int32_t)(quarter / 8) - 1, (int32_t)(quarter / 8)};
    const void *text[] = {NULL, offsets, heap}, *numbers[] = {NULL, heap}, *lists[] = {NULL, list};
    struct ArrowSchema s = schema("z", 0, NULL, 0), number = schema("l", 0, NULL, 0), *children[] = {&number};
    struct ArrowArray a = array(1, 0, text, 3, NULL, 0), elements = array((int64_t)(quarter / 8), 0, numbers, 2, NULL, 0),
                      *arrays[] = {&elements};
    tell("one text at the end of a heap", is_read(&s, &a) && table.nodes[0].buffer_count == 1 && table.nodes[0].buffers[0].count == 22
                                              && table.nodes[0].buffers[0].bytes == heap + quarter - 22);
    codrask_table_free(&table);
    s = schema("+l", 0, children, 1), a = array(1, 0, lists, 2, arrays, 1);
    tell("one list at the end of its elements", is_read(&s, &a) && table.nodes[1].length == 1 && table.nodes[1].byte_count == 8
                                                    && table.nodes[1].bytes == heap + quarter - 8
                                                    && *(const int64_t *)(const void *)table.nodes[2].bytes == 0);
    codrask_table_free(&table);
    s = schema("b", 0, NULL, 0), a = array(1, (int64_t)GIB, numbers, 2, NULL, 0);
    tell("one bit at an offset", is_read(&s, &a) && table.nodes[0].byte_count == 1 && table.nodes[0].bytes == heap + GIB / 8);
    codrask_table_free(&table);
    s = schema("l", ARROW_FLAG_NULLABLE, NULL, 0), numbers[0] = heap, a = array(1, 1000003, numbers, 2, NULL, 0);
    tell("one bit of a bitmap",
         is_read(&s, &a) && table.nodes[1].byte_count == 1 && table.nodes[1].offset == 3 && table.nodes[1].bytes == heap + 125000);
    codrask_table_free(&table);
    munmap(heap, quarter);
}

/* Texts of more than 2 GiB: an Arrow view counts 31 bits, so they are cut into heaps. */
static void long_heaps(void) {
    const int64_t half = 3 * (int64_t)GIB / 2;
    uint8_t *heap = zeroes(4 * GIB);
    int64_t offsets[] = {5, 5 + half, 5 + 2 * half, 25 + 2 * half};
    const void *buffers[] = {NULL, offsets, heap};
    struct ArrowSchema s = schema("Z", 0, NULL, 0);
    struct ArrowArray a = array(3, 0, buffers, 3, NULL, 0);
    bool good = is_read(&s, &a) && table.nodes[0].buffer_count == 2;
    for (size_t i = 0; good && i < 3; i++) {
        uint32_t field[4];
        memcpy(field, table.nodes[0].views[i].bytes, 16);
        good = field[0] == offsets[i + 1] - offsets[i] && field[2] < 2 && field[3] <= INT32_MAX
               && table.nodes[0].buffers[field[2]].count <= INT32_MAX
               && table.nodes[0].buffers[field[2]].bytes + field[3] == heap + offsets[i]
               && field[3] + field[0] <= table.nodes[0].buffers[field[2]].count;
    }
    tell("a text past 2 GiB", good);
    codrask_table_free(&table);
    int64_t falling[] = {0, half, 2 * half, 7, 27, half, 2 * half};
    buffers[1] = falling, a.length = 6;
    good = is_read(&s, &a) && table.nodes[0].buffer_count == 2;
    for (size_t i = 0; good && i < 6; i++)
        good = !memcmp(table.nodes[0].views[i].bytes + 8, "\xff\xff\xff\xff", 4) == (2 <= i && i <= 4);
    tell("texts past 2 GiB whose offsets fall", good);
    codrask_table_free(&table);
    buffers[1] = offsets, a.length = 3;
    offsets[1] = 5 + (int64_t)GIB * 2;
    tell("a text of 2 GiB", codrask_read_arrow(&s, &a, NULL, &table, &fault) == CODRASK_OVERFLOW && fault.node == 0 && fault.place == 0);
    struct codrask_view views[2] = {{{0}}, {{20, 0, 0, 0, 0, 0, 0, 0, 0, 0, 0, 0, 0, 0, 0, 0xc0}}};
    struct codrask_bytes bytes = {heap, 4 * GIB};
    struct codrask_node n = node(CODRASK_BINARY_VIEW, 0, 2);
    struct ArrowSchema schema;
    struct ArrowArray array;
    n.views = views, n.view_count = 2, n.buffers = &bytes, n.buffer_count = 1;
    tell("a view past 2 GiB", codrask_to_arrow(&n, 1, CODRASK_BY_VIEWS, &schema, &array, &fault) == CODRASK_OVERFLOW && fault.node == 0
                                  && fault.place == 1 && !schema.release && !array.release);
    munmap(heap, 4 * GIB);
}

/* Whether the view of a row that passes the end of four GiB begins where it should, and is refused at its end. */
static bool is_past(uint8_t *heap, const int64_t *offsets, size_t row) {
    const void *buffers[] = {NULL, offsets, heap};
    const size_t lengths[] = {0, 4 * sizeof *offsets, 4 * GIB};
    struct ArrowSchema s = schema("Z", 0, NULL, 0);
    struct ArrowArray a = array(3, 0, buffers, 3, NULL, 0);
    uint32_t field[4];
    if (codrask_table_from_arrow_sized(&s, &a, lengths, 3, &table))
        return false;
    memcpy(field, table.nodes[0].views[row].bytes, 16);
    const struct codrask_bytes *bytes = &table.nodes[0].buffers[field[2]];
    bool good = field[2] < table.nodes[0].buffer_count && bytes->count <= INT32_MAX && field[3] < bytes->count
                && bytes->bytes + field[3] == heap + offsets[row] && (size_t)field[3] + field[0] > bytes->count;
    codrask_table_free(&table);
    return good;
}

static void past_long_heaps(void) {
    const int64_t half = 3 * (int64_t)GIB / 2, second[] = {5, 5 + half, 5 + 2 * half, INT64_MAX}, first[] = {5, 5, 5, INT64_MAX},
                  falling[] = {0, INT64_MAX, 0, INT32_MAX};
    uint8_t *heap = zeroes(4 * GIB);
    tell("a text past the second of two heaps", is_past(heap, second, 2));
    tell("a text past the first one", is_past(heap, first, 2));
    tell("a text before one that has the whole heap", is_past(heap, falling, 0));
    munmap(heap, 4 * GIB);
}

/* No offset is read where there is no row, and what is empty is aligned. */
static void empty(void) {
    void *nothing = malloc(0);
    const void *buffers[] = {NULL, nothing, nothing};
    static const char *const formats[] = {"u", "U", "z", "Z", "+l", "+L", "vu", "+vl", "l", "b", "+s"};
    static const int64_t counts[] = {3, 3, 3, 3, 2, 2, 3, 3, 2, 2, 1};
    struct ArrowSchema number = schema("l", 0, NULL, 0), *children[] = {&number};
    struct ArrowArray elements = array(0, 0, buffers, 2, NULL, 0), *arrays[] = {&elements};
    for (size_t i = 0; i < COUNT(formats); i++) {
        int64_t parts = formats[i][0] == '+' && formats[i][1] != 's';
        struct ArrowSchema s = schema(formats[i], 0, children, parts);
        struct ArrowArray a = array(0, 0, buffers, counts[i], arrays, parts);
        bool good = is_read(&s, &a);
        for (size_t k = 0; good && k < table.count; k++)
            good = (uintptr_t)table.nodes[k].buffers % _Alignof(struct codrask_bytes) == 0 && table.nodes[k].buffers && table.nodes[k].views
                   && table.nodes[k].bytes;
        tell(formats[i], good);
        codrask_table_free(&table);
    }
    free(nothing);
}

/* Records of 4095 columns are 4096 nodes; the bitmap of one is a node more. */
static void most_nodes(void) {
    static const uint8_t bits[1];
    const void *buffers[] = {NULL, bits}, *with_bitmap[] = {bits, bits};
    static struct ArrowSchema *schemas[4096];
    static struct ArrowArray *arrays[4096];
    struct ArrowSchema column = schema("b", ARROW_FLAG_NULLABLE, NULL, 0), s = schema("+s", 0, schemas, 4095);
    struct ArrowArray whole = array(1, 0, buffers, 2, NULL, 0), nulls = array(1, 0, with_bitmap, 2, NULL, 0),
                      a = array(1, 0, buffers, 1, arrays, 4095);
    for (size_t i = 0; i < 4096; i++)
        schemas[i] = &column, arrays[i] = &whole;
    tell("4096 nodes", is_read(&s, &a) && table.count == 4096);
    codrask_table_free(&table);
    arrays[4094] = &nulls;
    tell("4097 nodes", !is_read(&s, &a) && fault.number == CODRASK_TOO_MANY_NODES && fault.node == 0 && fault.place == 0 && !table.nodes);
    s.n_children = a.n_children = 4096, arrays[4094] = &whole;
    tell("4096 columns", !is_read(&s, &a) && fault.number == CODRASK_TOO_MANY_NODES && fault.node == 0 && !table.nodes);
}

/* ---- writing ---- */

static void numbers_past_arrow(void) {
    uint64_t offsets[] = {((uint64_t)1 << 63) - 1, 4}, sizes[] = {5, 1};
    uint8_t codes[] = {0};
    struct codrask_node lists[] = {node(CODRASK_LIST_VIEW, 0, 2), node(CODRASK_STRUCT, 0, SIZE_MAX),
                                   numbers(CODRASK_U64, 2, SLICE(offsets)), numbers(CODRASK_U64, 2, SLICE(sizes))};
    struct codrask_node codes_and_values[] = {node(CODRASK_DICTIONARY, 0, 1), numbers(CODRASK_U8, 1, SLICE(codes)),
                                              node(CODRASK_STRUCT, 0, (size_t)1 << 63)};
    struct codrask_node fixed[] = {node(CODRASK_FIXED_SIZE_LIST, 0, 1), node(CODRASK_STRUCT, 0, (size_t)1 << 31)};
    fixed[0].size = (uint32_t)1 << 31;
    tell("elements past 63 bits", is_refused(lists, 4, CODRASK_OVERFLOW, 1, 0));
    lists[1].length = SIZE_MAX / 2, lists[0].length = lists[2].length = lists[3].length = 1, lists[2].byte_count = lists[3].byte_count = 8;
    tell("a list that ends past 63 bits", is_refused(lists, 4, CODRASK_OVERFLOW, 0, 0));
    offsets[0] = (uint64_t)1 << 63, sizes[0] = 0;
    tell("an offset past 63 bits", is_refused(lists, 4, CODRASK_OVERFLOW, 0, 0));
    tell("values past 63 bits", is_refused(codes_and_values, 3, CODRASK_OVERFLOW, 2, 0));
    tell("lists of a size past 31 bits", is_refused(fixed, 2, CODRASK_OVERFLOW, 0, 0));
}

/* Two byte lists that have 2^31 bytes together, or one less: offsets of 32 bits do not count the former. */
static void large_values(void) {
    static const uint8_t small[] = {CODRASK_SMALL_OFFSETS};
    const struct codrask_limits limits = {8 * GIB};
    for (uint32_t more = 0; more < 2; more++) {
        struct codrask_view views[2] = {{{0}}, {{13}}};
        const uint32_t size = INT32_MAX - 13 + more;
        uint8_t *heap = zeroes(size);
        struct codrask_bytes bytes = {heap, size};
        struct codrask_node n = node(CODRASK_BINARY_VIEW, 0, 2);
        struct ArrowSchema schema;
        struct ArrowArray array;
        memcpy(views[0].bytes, &size, 4);
        n.views = views, n.view_count = 2, n.buffers = &bytes, n.buffer_count = 1;
        bool good = !codrask_write_arrow_as(&n, 1, small, CODRASK_BY_VIEWS, NULL, &limits, &schema, &array, &fault);
        tell(more ? "2^31 bytes by large offsets" : "2^31 - 1 bytes by small ones", good && !strcmp(schema.format, more ? "Z" : "z"));
        if (good) {
            schema.release(&schema);
            array.release(&array);
        }
        munmap(heap, size);
    }
}

static struct codrask_node nest[4096];

/* Writes 4096 levels as a stream of two batches, which gives its schema. */
static void *stream_nest(void *answer) {
    struct codrask_column column = {nest, 4096}, twice[] = {column, column};
    struct codrask_run_fault told;
    struct ArrowArrayStream stream;
    struct ArrowSchema schema;
    *(uint32_t *)answer = codrask_write_stream(twice, 2, CODRASK_BY_OFFSETS, NULL, NULL, &stream, &told);
    if (*(uint32_t *)answer)
        return NULL;
    if (stream.get_schema(&stream, &schema))
        *(uint32_t *)answer = CODRASK_STREAM_FAILED;
    else
        schema.release(&schema);
    stream.release(&stream);
    return NULL;
}

static void stream_on_a_small_stack(void) {
    pthread_t thread;
    pthread_attr_t attributes;
    uint8_t number[] = {5};
    uint32_t answer = CODRASK_STREAM_FAILED;
    for (size_t i = 0; i < 4095; i++)
        nest[i] = node(CODRASK_FIXED_SIZE_LIST, 0, 1), nest[i].size = 1;
    nest[4095] = numbers(CODRASK_U8, 1, SLICE(number));
    bool good = !pthread_attr_init(&attributes) && !pthread_attr_setstacksize(&attributes, 256 << 10)
                && !pthread_create(&thread, &attributes, stream_nest, &answer) && !pthread_join(thread, NULL);
    tell("a stream of nests of 4096 arrays on a stack of 256 KiB", good && !answer);
}

/* Writes and releases 4096 levels. */
static void *write_nest(void *flags) {
    struct ArrowSchema schema;
    struct ArrowArray array;
    uint32_t answer = codrask_to_arrow(nest, 4096, *(uint32_t *)flags, &schema, &array, &fault);
    if (!answer) {
        schema.release(&schema);
        array.release(&array);
    }
    *(uint32_t *)flags = answer;
    return NULL;
}

static void small_stack(bool records) {
    static const struct codrask_bytes name = {(const uint8_t *)"\0ordered", 8};
    uint8_t number[] = {5};
    for (uint32_t flags = CODRASK_BY_VIEWS; flags <= CODRASK_BY_OFFSETS; flags++) {
        pthread_t thread;
        pthread_attr_t attributes;
        uint32_t answer = flags;
        for (size_t i = 0; i < 4095; i++) {
            nest[i] = node(records ? CODRASK_STRUCT : CODRASK_FIXED_SIZE_LIST, 0, 1);
            nest[i].size = 1, nest[i].buffers = &name, nest[i].buffer_count = records;
        }
        nest[4095] = numbers(CODRASK_U8, 1, SLICE(number));
        bool good = !pthread_attr_init(&attributes) && !pthread_attr_setstacksize(&attributes, 256 << 10)
                    && !pthread_create(&thread, &attributes, write_nest, &answer) && !pthread_join(thread, NULL);
        tell("a nest of 4096 arrays on a stack of 256 KiB", good && !answer);
    }
}

int main(void) {
    parts();
    long_heaps();
    past_long_heaps();
    empty();
    most_nodes();
    stream_on_a_small_stack();
    numbers_past_arrow();
    large_values();
    small_stack(false);
    small_stack(true);
    printf("%d passed, %d failed\n", passed, failed);
    return failed != 0;
}
