/* What a caller says of an Arrow array: which columns are read, and how long each buffer is. Columns are found by name, and lengths are
 * matched to buffers, by the structs alone: no byte of a buffer is read. */
#include "inside.h"

#include <stdlib.h>

/* ---- columns ---- */

enum { NO_COLUMN = MOST_NODES };

static int compare(const void *one, const void *other) {
    const struct chosen *a = one, *b = other;
    return strcmp(a->name, b->name);
}

/* The names that are chosen, up to the first null pointer, by their names: how many. */
static size_t sort_names(struct chosen *chosen, const struct codrask_reading *how) {
    size_t count = 0;
    for (; count < how->column_count && how->columns[count]; count++)
        chosen[count] = (struct chosen){how->columns[count], count, 0, 0};
    qsort(chosen, count, sizeof *chosen, compare);
    return count;
}

/* The first of the names that is one name, or a null pointer. */
static struct chosen *find_name(struct chosen *chosen, size_t count, const char *name) {
    size_t first = 0, end = count;
    while (first < end) {
        size_t middle = first + (end - first) / 2;
        if (strcmp(chosen[middle].name, name) < 0)
            first = middle + 1;
        else
            end = middle;
    }
    return first < count && !strcmp(chosen[first].name, name) ? &chosen[first] : NULL;
}

/* Tells the names of the columns that have them. A column whose schema was released has no name. */
static void find_columns(struct chosen *chosen, size_t count, const struct ArrowSchema *records) {
    for (size_t i = 0; i < (size_t)records->n_children; i++) {
        const struct ArrowSchema *column = records->children[i];
        struct chosen *found = column->release ? find_name(chosen, count, column->name ? column->name : "") : NULL;
        if (found) {
            found->count++;
            found->column = i;
        }
    }
}

/* Where the one column of each name stands, which comes first among all that are equal; NO_COLUMN where none or several have it. */
static void put_columns(struct choice *choice, size_t count) {
    const struct chosen *first = choice->chosen;
    for (const struct chosen *each = first; each < choice->chosen + count; each++) {
        if (strcmp(each->name, first->name))
            first = each;
        choice->columns[each->place] = first->count == 1 ? first->column : NO_COLUMN;
    }
}

/* Records that have the columns alone which are chosen of others. */
static void make_records(struct choice *choice, const struct ArrowSchema *schema, const struct ArrowArray *array, size_t count) {
    choice->schema = *schema;
    choice->array = *array;
    choice->schema.n_children = choice->array.n_children = (int64_t)count;
    choice->schema.children = choice->schemas;
    choice->array.children = choice->arrays;
}

uint32_t codrask_choose_columns(struct reader *reader, const struct codrask_reading *how, const struct ArrowSchema *schema,
                                const struct ArrowArray *array) {
    if (how->column_count >= MOST_NODES)
        return codrask_refuse(reader, CODRASK_TOO_MANY_NODES, 0, 0);
    struct choice *choice = reader->choice = malloc(sizeof *choice);
    if (!choice)
        return codrask_refuse(reader, CODRASK_MEMORY, 0, 0);
    make_records(choice, schema, array, how->column_count);
    size_t count = sort_names(choice->chosen, how);
    find_columns(choice->chosen, count, schema);
    put_columns(choice, count);
    for (size_t i = 0; i < how->column_count; i++) {
        size_t column = i < count ? choice->columns[i] : NO_COLUMN;
        if (column == NO_COLUMN)
            return codrask_refuse(reader, CODRASK_UNKNOWN_FIELD, 0, i);
        choice->schemas[i] = schema->children[column];
        choice->arrays[i] = array->children[column];
    }
    return 0;
}

/* ---- lengths ---- */

/* The lengths, and how many of them, and of the arrays, are matched. */
struct match {
    const size_t *lengths;
    size_t count, next, arrays;
};

/* Whether each buffer of an array has a length, and that of a null pointer is 0. */
static bool match_buffers(struct match *match, const struct ArrowArray *array) {
    if (array->n_buffers < 0 || (size_t)array->n_buffers > match->count - match->next || (array->n_buffers && !array->buffers))
        return false;
    for (int64_t i = 0; i < array->n_buffers; i++, match->next++)
        if (!array->buffers[i] && match->lengths[match->next])
            return false;
    return true;
}

/* The same of an array and all below it. What is no array, too deep, or too many arrays, has no lengths; one that was released has no
 * buffers. Where each child begins is told. */
static bool match_array(struct match *match, const struct ArrowArray *array, int depth, size_t *begins) {
    if (!array || depth > DEEPEST || match->arrays++ == MOST_ARRAYS)
        return false;
    if (!array->release)
        return true;
    if (!match_buffers(match, array) || array->n_children < 0 || (array->n_children && !array->children))
        return false;
    for (int64_t i = 0; i < array->n_children; i++) {
        if (begins)
            begins[i] = match->next;
        if (!match_array(match, array->children[i], depth + 1, NULL))
            return false;
    }
    return !array->dictionary || match_array(match, array->dictionary, depth + 1, NULL);
}

bool codrask_match_lengths(struct reader *reader, const struct codrask_reading *how, const struct ArrowArray *array) {
    struct match match = {how->lengths, how->length_count, 0, 0};
    return how->lengths && match_array(&match, array, 0, reader->choice ? reader->choice->lengths : NULL) && match.next == match.count;
}

/* ---- calls ---- */

/* Lengths are asked for also where none is told. */
static struct codrask_reading with_lengths(const size_t *lengths, size_t count) {
    static const size_t none;
    return (struct codrask_reading){.lengths = lengths ? lengths : &none, .length_count = lengths ? count : 0};
}

uint32_t codrask_table_from_arrow_sized(const struct ArrowSchema *schema, const struct ArrowArray *array, const size_t *lengths,
                                        size_t count, struct codrask_table *table) {
    struct codrask_reading how = with_lengths(lengths, count);
    struct codrask_arrow_fault fault;
    return codrask_read_arrow_sized(schema, array, &how, table, &fault);
}

uint32_t codrask_check_arrow_sized(const struct ArrowSchema *schema, const struct ArrowArray *array, const size_t *lengths, size_t count,
                                   struct codrask_fault *fault) {
    struct codrask_reading how = with_lengths(lengths, count);
    return codrask_check_read(schema, array, &how, fault);
}
