/* Turns one thing of a random Arrow structure, with the verdict that Arrow's rules give. No count of bytes is made more than what is
 * there, since no test could see that. For the tests alone. */
#ifndef TURNED_STRUCTURES_H
#define TURNED_STRUCTURES_H

#include "rows_of_arrow.h"
#include "structures.h"

#ifndef COUNT
#define COUNT(array) (sizeof(array) / sizeof *(array))
#endif

/* It must be read, must be refused, or may be either. */
enum verdict { READ, REFUSED, EITHER };

static enum verdict turn_count(int64_t *count, int64_t value) {
    *count = value;
    return REFUSED;
}

static bool is_format(const struct slot *t, const char *format) {
    return !strcmp(t->schema->format, format);
}

static bool has_views(const struct slot *t) {
    return t->schema->format[0] == 'v';
}

static int64_t null_rows(const struct slot *t) {
    const uint8_t *bits = is_format(t, "n") ? NULL : t->array->buffers[0];
    return bits ? (int64_t)unset_bits(bits, (size_t)t->array->offset, (size_t)t->array->length) : 0;
}

static enum verdict turn_null_count(const struct slot *t, int64_t by) {
    bool all = is_format(t, "n");
    int64_t nulls = all ? t->array->length : null_rows(t), told = nulls + by;
    if (told < 0)
        told = INT64_MAX;
    t->array->null_count = told;
    return all || t->whole || told > t->array->length || !t->array->buffers[0] ? REFUSED : EITHER;
}

static enum verdict turn_children(const struct slot *t, int64_t to) {
    bool records = is_format(t, "+s") && !t->entries, fewer = to >= 0 && to < t->schema->n_children;
    t->schema->n_children = t->array->n_children = to;
    return records && fewer ? READ : REFUSED;
}

static enum verdict turn_format(struct structure *s, const struct slot *t) {
    static const char *const others[] = {
        "ts",    "tsgarbage", "tDqqq",    "tsm", "tiMM",          "tdX",  "gg",          "ee",     "+w:", "+w:-1", "uu",   "",
        "+mm",   "+us:0",     "+r",       "+x",  "+ud:0,1",       "d:",   "d:5",         "d:40,2", "nn",  "w:",    "w:-1", "w:1x",
        "d:0,1", "d:1,x",     "d:1,2,16", "w",   "+w:2147483648", "tin:", "w:2147483648"};
    t->schema->format = roll(9) ? text(s, others[roll(COUNT(others))]) : NULL;
    return REFUSED;
}

static enum verdict turn_dictionary(struct structure *s, const struct slot *t) {
    if (!t->schema->dictionary) {
        if (roll(2))
            t->schema->dictionary = s->slots[0].schema;
        else
            t->array->dictionary = s->slots[0].array;
        return REFUSED;
    }
    switch (roll(3)) {
    case 0: t->schema->dictionary = NULL; return REFUSED;
    case 1: t->array->dictionary = NULL; return REFUSED;
    default: t->schema->format = text(s, roll(2) ? "tsm:UTC" : "b"); return REFUSED;
    }
}

/* Of an array that is not whole, a null may not be read, or may lie in a record or a list that is null. */
static enum verdict turn_flags(const struct slot *t) {
    t->schema->flags = 0;
    if (t->values || is_format(t, "n"))
        return READ;
    if (t->schema->dictionary)
        return EITHER;
    if (!null_rows(t))
        return READ;
    return t->whole ? REFUSED : EITHER;
}

static enum verdict turn_bitmap(const struct slot *t) {
    bool nulls = null_rows(t);
    if (is_format(t, "n"))
        return READ;
    t->array->buffers[0] = NULL;
    return t->array->null_count > 0 ? REFUSED : nulls ? EITHER : READ;
}

/* How many bytes of a buffer may have any value: what they tell is not how long another buffer is. */
static size_t free_bytes(const struct slot *t, int64_t place) {
    size_t rows = (size_t)(t->array->offset + t->array->length);
    const char *format = t->schema->format;
    if (strlen(format) == 1 && strchr("uUzZ", format[0])) {
        size_t width = strchr("UZ", format[0]) ? 8 : 4;
        if (place == 1)
            return rows * width;
        return rows ? (size_t)whole(t->array->buffers[1], width, true, (int64_t)rows) : 0;
    }
    if (has_views(t))
        return place == 1 ? 16 * rows : place < t->array->n_buffers - 1 ? 40 : 0;
    if (!strcmp(format, "+l") || !strcmp(format, "+L") || is_map(format))
        return rows ? (rows + 1) * (format[1] == 'L' ? 8 : 4) : 0;
    if (!strncmp(format, "+v", 2))
        return rows * (format[2] == 'L' ? 8 : 4);
    if (width_of_format(format) >= 0)
        return rows * (size_t)width_of_format(format);
    return format[0] == 'b' ? (rows + 7) / 8 : rows;
}

static enum verdict turn_byte_of(const struct slot *t) {
    int64_t place = 1 + (int64_t)roll((size_t)t->array->n_buffers - 1);
    size_t size = t->array->n_buffers > 1 && t->array->buffers[place] ? free_bytes(t, place) : 0;
    if (size)
        ((uint8_t *)(uintptr_t)t->array->buffers[place])[roll(size)] ^= (uint8_t)(1 + roll(255));
    return size && width_of_format(t->schema->format) < 0 ? EITHER : READ;
}

static enum verdict turn_buffer(const struct slot *t) {
    if (t->array->n_buffers > 1)
        t->array->buffers[1 + roll((size_t)t->array->n_buffers - 1)] = NULL;
    return t->array->n_buffers > 1 ? EITHER : READ;
}

static enum verdict turn_name(struct structure *s, const struct slot *t) {
    if (is_format(t, "+s") && t->schema->n_children) {
        t->schema->children[0]->name = text(s, "\xff");
        return REFUSED;
    }
    t->schema->name = roll(2) ? NULL : text(s, "another name");
    return READ;
}

static enum verdict turn_size(struct structure *s, const struct slot *t) {
    if (strncmp(t->schema->format, "+w:", 3))
        return READ;
    t->schema->format = text(s, roll(2) ? "+w:4" : "+w:2147483647");
    return EITHER;
}

static enum verdict turn_metadata(struct structure *s, const struct slot *t) {
    static const char *const texts[] = {"ARROW:extension:name", "an extension"};
    static const int32_t less_than_none = -1;
    char *metadata = (char *)(uintptr_t)metadata_of(s, texts, 1);
    t->schema->metadata = metadata;
    switch (roll(5)) {
    case 0: memcpy(metadata, &less_than_none, 4); return REFUSED;
    case 1: memcpy(metadata + 4, &less_than_none, 4); return REFUSED;
    case 2: memcpy(metadata + 8 + strlen(texts[0]), &less_than_none, 4); return REFUSED;
    case 3: metadata[12 + strlen(texts[0])] = 0; return REFUSED;
    default: return READ;
    }
}

static enum verdict turn_children_pointers(const struct slot *t, size_t which) {
    bool some = t->schema->n_children, none = is_format(t, "n");
    switch (which) {
    case 0: some ? (void)(t->schema->children[0] = NULL) : (void)(t->schema->format = NULL); return REFUSED;
    case 1: some ? (void)(t->array->children[0] = NULL) : (void)(t->array->buffers = NULL); return none ? READ : REFUSED;
    case 2: some ? (void)(t->schema->children = NULL) : (void)(t->schema->release = NULL); return REFUSED;
    default: some ? (void)(t->array->children = NULL) : (void)(t->array->release = NULL); return REFUSED;
    }
}

/* Turns one thing of an array. */
static enum verdict turn_slot(struct structure *s, const struct slot *t) {
    struct ArrowSchema *schema = t->schema;
    struct ArrowArray *array = t->array;
    switch (roll(40)) {
    case 0: return turn_count(&array->length, -1 - (int64_t)roll(9));
    case 1: return turn_count(&array->offset, -1 - (int64_t)roll(9));
    case 2: return turn_count(&array->null_count, -2 - (int64_t)roll(9));
    case 3: return turn_null_count(t, 1 + (int64_t)roll(3));
    case 4: return turn_null_count(t, -1);
    case 5: return turn_count(&array->n_buffers, has_views(t) ? 2 : array->n_buffers + 1);
    case 6: return turn_count(&array->n_buffers, has_views(t) ? INT64_MAX : array->n_buffers - 1);
    case 7: return turn_count(&array->n_buffers, -1);
    case 8: return turn_count(&schema->n_children, schema->n_children + 1);
    case 9: return turn_count(&array->n_children, array->n_children + 1);
    case 10: return turn_children(t, roll(2) ? 1000000000 : -1);
    case 11: return turn_children(t, schema->n_children - 1);
    case 12: return turn_children_pointers(t, 0);
    case 13: return turn_children_pointers(t, 1);
    case 14: return turn_children_pointers(t, 2);
    case 15: return turn_children_pointers(t, 3);
    case 16: schema->release = NULL; return REFUSED;
    case 17: array->release = NULL; return REFUSED;
    case 18: return turn_format(s, t);
    case 19: return turn_dictionary(s, t);
    case 20: return turn_flags(t);
    case 21: schema->flags |= ARROW_FLAG_DICTIONARY_ORDERED | ARROW_FLAG_MAP_KEYS_SORTED; return READ;
    case 22: return turn_bitmap(t);
    case 23: return turn_buffer(t);
    case 24: array->length -= array->length > 0; return EITHER;
    case 25: array->offset -= array->offset > 0; return EITHER;
    case 26: array->offset = INT64_MAX; return turn_count(&array->length, 1);
    case 27: return turn_name(s, t);
    case 28: return turn_size(s, t);
    case 29: return turn_metadata(s, t);
    default: return turn_byte_of(t);
    }
}

/* Turns one thing of any array. */
static inline enum verdict turn_structure(struct structure *s) {
    return turn_slot(s, &s->slots[roll(s->count)]);
}

#endif
