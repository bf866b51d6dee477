/* What is given back, and the names of faults. */
#include "inside.h"

#include <stdlib.h>

void codrask_table_free(struct codrask_table *table) {
    free(table->nodes);
    codrask_free_memory(table->memory);
    *table = (struct codrask_table){NULL, 0, NULL};
}

const char *codrask_table_name(const struct codrask_table *table) {
    const struct table_memory *memory = table->memory;
    return memory ? memory->name : "";
}

const uint8_t *codrask_table_formats(const struct codrask_table *table) {
    const struct table_memory *memory = table->memory;
    return memory ? memory->formats : NULL;
}

static const struct codrask_column no_column = {0};
const struct codrask_columns CODRASK_NO_COLUMNS = {&no_column, 0};

/* Gives back a block that codrask_run wrote: an empty slice has none. */
static void give_back(const void *block, size_t count) {
    if (count)
        free((void *)(uintptr_t)block);
}

static void give_back_node(const struct codrask_node *node) {
    for (size_t i = 0; i < node->buffer_count; i++)
        give_back(node->buffers[i].bytes, node->buffers[i].count);
    give_back(node->buffers, node->buffer_count);
    give_back(node->views, node->view_count);
    give_back(node->bytes, node->byte_count);
}

void codrask_columns_free(struct codrask_columns *made) {
    for (size_t c = 0; c < made->count; c++) {
        for (size_t i = 0; i < made->columns[c].count; i++)
            give_back_node(&made->columns[c].nodes[i]);
        give_back(made->columns[c].nodes, made->columns[c].count);
    }
    give_back(made->columns, made->count);
    *made = CODRASK_NO_COLUMNS;
}

/* The name of a number from `first` on. */
static const char *name_from(uint32_t number, uint32_t first, const char *const *names, size_t count) {
    return number >= first && number - first < count ? names[number - first] : "";
}

#define NAME_FROM(number, first, names) name_from(number, first, names, sizeof(names) / sizeof *(names))

const char *codrask_fault_name(uint32_t number) {
    static const char *const of_libraries[] = {
        "", "Memory", "MismatchedTypes", "LengthMismatch", "NullabilityMismatch", "OutOfBounds", "Negative", "Overflow",
        "NotImplemented", "HasNulls", "UnknownField", "EmptyInput", "DifferingDtypes", "NotUtf8", "BadBuffer", "BadStart",
        "BadEnd", "BadPrefix", "LimitTooLarge", "ValueTooLong", "LengthsNotExact", "FallingOffsets", "PatchOutOfRange",
        "DegenerateElements"};
    static const char *const of_streams[] = {"StreamFailed", "DifferingSchemas"};
    static const char *const of_tables[] = {"UnknownKind",  "BadValidity", "MissingNodes", "NotOneArray",
                                            "TooManyNodes", "BadMode",     "TooManySteps"};
    static const char *const of_arrow[] = {"BadArrow",     "NotEndToEnd",    "TooManyBytes", "TooManyBuffers", "TooDeep",   "Released",
                                           "BadNullCount", "UnexpectedNull", "BadFlags",     "ShortBuffer",    "BadLengths"};
    if (number < CODRASK_UNKNOWN_KIND)
        return NAME_FROM(number, 0, of_libraries);
    if (number < CODRASK_BAD_ARROW)
        return NAME_FROM(number, CODRASK_UNKNOWN_KIND, of_tables);
    return number < CODRASK_STREAM_FAILED ? NAME_FROM(number, CODRASK_BAD_ARROW, of_arrow)
                                          : NAME_FROM(number, CODRASK_STREAM_FAILED, of_streams);
}
