/* Random Arrow structures, whole and with one thing turned, each with the verdict that Arrow's rules give: it must be read, must be
 * refused, or may be either. What is read is written again, by views and by offsets, with the same rows, names and flags, by a reader of
 * its own. Run it under the sanitizers, with a number of seeds, or none for 2000, and the first seed. The last line is
 * 'N passed, M failed'. */
#include "turned_structures.h"

static struct structure made;
static struct codrask_fault fault;
static size_t passed, failed, read_count, refused_count, numbers[80];

/* ---- there and back ---- */

static bool is_written(const struct codrask_table *table, uint32_t flags, struct sum sum) {
    struct ArrowSchema schema;
    struct ArrowArray array;
    uint32_t number = codrask_write_arrow(table->nodes, table->count, flags, codrask_table_name(table), NULL, &schema, &array, &fault);
    if (number)
        return !schema.release && !array.release && number == CODRASK_NOT_END_TO_END && flags == CODRASK_BY_OFFSETS;
    struct sum again = sum_of(&schema, &array);
    schema.release(&schema);
    array.release(&array);
    return again.texts && again.seen == sum.seen && !schema.release && !array.release;
}

/* Whether the structure is as the verdict says, and what is read of it is all that is there. */
static bool is_as(enum verdict verdict) {
    struct codrask_table table;
    const struct slot *root = &made.slots[0];
    uint32_t number = codrask_read_arrow(root->schema, root->array, NULL, &table, &fault);
    if (!number && (number = codrask_check(table.nodes, table.count, &fault)))
        codrask_table_free(&table);
    if (number) {
        refused_count++;
        numbers[number < COUNT(numbers) ? number : 0]++;
        return verdict != READ && number != CODRASK_MEMORY && fault.number == number;
    }
    read_count++;
    struct sum sum = sum_of(root->schema, root->array);
    bool same = verdict != REFUSED && sum.texts && is_written(&table, CODRASK_BY_VIEWS, sum) && is_written(&table, CODRASK_BY_OFFSETS, sum);
    codrask_table_free(&table);
    return same;
}

static void expect(const char *what, uint64_t seed, enum verdict verdict) {
    static const char *const words[] = {"must be read", "must be refused", "may be either"};
    bool good = is_as(verdict);
    good ? passed++ : failed++;
    if (!good)
        printf("seed %llu, %s: %s; told %s at node %zu, place %zu\n", (unsigned long long)seed, what, words[verdict],
               codrask_fault_name(fault.number), fault.node, fault.place);
}

/* Counts the nodes before that of an array, where it is among the parts of another. */
static bool find_node(const struct ArrowSchema *schema, const struct ArrowArray *array, const struct ArrowArray *wanted, bool nullable,
                      size_t *node) {
    if (array == wanted)
        return true;
    *node += own_nodes(schema, array, nullable);
    for (int64_t i = 0; i < array->n_children; i++)
        if (find_node(schema->children[i], array->children[i], wanted, schema->children[i]->flags & ARROW_FLAG_NULLABLE, node))
            return true;
    if (schema->dictionary)
        return find_node(schema->dictionary, array->dictionary, wanted, nullable, node);
    *node += strchr("lLvm", schema->format[1]) && schema->format[0] == '+' ? 2 : 0;
    return false;
}

/* Whether a refusal tells the node that was turned: of nulls in a dictionary that of its codes; of what is not told by the structs, and
 * a record stands before the array, that of the array. */
static bool is_told_of(size_t node, bool dictionary, bool under_record) {
    bool of_nulls = fault.number == CODRASK_BAD_NULL_COUNT || fault.number == CODRASK_UNEXPECTED_NULL;
    bool inside = of_nulls || fault.number == CODRASK_NOT_UTF8 || fault.number == CODRASK_TOO_MANY_BUFFERS;
    size_t place = node + (of_nulls && dictionary) + (inside && under_record);
    return fault.number == CODRASK_TOO_MANY_NODES ? fault.node == 0 : fault.node == place;
}

/* Turns one thing of an array. What must be refused is told of its node; that the entries of a map are none, of the map, whose slot
 * comes before theirs. */
static void expect_turned(uint64_t seed) {
    const struct slot *t = &made.slots[roll(made.count)], *root = &made.slots[0], *map = t->entries ? t - 1 : t;
    size_t node = 0, map_node = 0;
    bool dictionary = t->schema->dictionary, under_record = is_under_record(t->schema);
    bool nullable = root->schema->flags & ARROW_FLAG_NULLABLE;
    bool found = find_node(root->schema, root->array, t->array, nullable, &node)
                 && find_node(root->schema, root->array, map->array, nullable, &map_node);
    enum verdict verdict = turn_slot(&made, t);
    expect("turned", seed, verdict);
    bool of_map = t->entries && fault.number == CODRASK_BAD_ARROW && fault.node == map_node;
    if (verdict != REFUSED || (found && (of_map || is_told_of(node, dictionary, under_record))))
        return;
    failed++;
    printf("seed %llu: told %s at node %zu, and not at %zu\n", (unsigned long long)seed, codrask_fault_name(fault.number), fault.node, node);
}

int main(int count, char **words) {
    uint64_t seeds = count > 1 ? strtoull(words[1], NULL, 10) : 2000, first = count > 2 ? strtoull(words[2], NULL, 10) : 1;
    for (uint64_t seed = first; seed < first + seeds; seed++) {
        build_seed(&made, seed);
        expect("whole", seed, READ);
        tear_down(&made);
        for (uint64_t turn = 0; turn < 4; turn++) {
            build_seed(&made, seed);
            dice += 31 * turn;
            expect_turned(seed);
            tear_down(&made);
        }
    }
    printf("%zu read, %zu refused:", read_count, refused_count);
    for (uint32_t number = 0; number < COUNT(numbers); number++)
        if (numbers[number])
            printf(" %s %zu", codrask_fault_name(number), numbers[number]);
    printf("\n%zu passed, %zu failed\n", passed, failed);
    return failed != 0;
}
