/* Columns whose values the layer has no type for. Such a column is carried: it is a record of one column, under a name that no name of
 * Arrow's can be, since it begins with a byte 0. A word follows, which is the format of the column; then, of an extension, a byte 0 and
 * its name; then, where it has metadata, a byte 0 and these. The names of records belong to their data type, so the proved calls tell
 * formats apart: nothing here does. */
#include "inside.h"

/* ---- formats ---- */

/* Formats of values of one width: floats, dates, times, durations, intervals. */
static bool is_named(const char *text, size_t *width) {
    static const struct {
        const char *text;
        size_t width;
    } formats[] = {{"e", 2},   {"f", 4},   {"g", 8},   {"tdD", 4}, {"tdm", 8}, {"tts", 4}, {"ttm", 4}, {"ttu", 8},
                   {"ttn", 8}, {"tDs", 8}, {"tDm", 8}, {"tDu", 8}, {"tDn", 8}, {"tiM", 4}, {"tiD", 8}, {"tin", 16}};
    for (size_t i = 0; i < sizeof formats / sizeof *formats; i++)
        if (!strcmp(text, formats[i].text)) {
            *width = formats[i].width;
            return true;
        }
    return false;
}

/* Instants: "ts", a unit, a colon and a time zone of any text. */
static bool is_instant(const char *text, size_t *width) {
    *width = 8;
    return !strncmp(text, "ts", 2) && text[2] && strchr("smun", text[2]) && text[3] == ':';
}

/* Byte lists of one size: "w:" and a number of 31 bits. */
static bool is_binary(const char *text, size_t *width) {
    const char *end = strncmp(text, "w:", 2) ? NULL : codrask_read_digits(text + 2, INT32_MAX, width);
    return end && !*end;
}

/* How many digits a decimal of so many bits holds; 0 where there is none. */
static size_t most_digits(size_t bits) {
    return bits == 32 ? 9 : bits == 64 ? 18 : bits == 128 ? 38 : bits == 256 ? 76 : 0;
}

/* Decimals: "d:", the number of digits, the scale, which may have a sign, and the number of bits, 128 where it is not told. */
static bool is_decimal(const char *text, size_t *width) {
    size_t digits, scale, bits = 128;
    const char *end = strncmp(text, "d:", 2) ? NULL : codrask_read_digits(text + 2, 76, &digits);
    if (!end || *end++ != ',')
        return false;
    end = codrask_read_digits(*end == '-' || *end == '+' ? end + 1 : end, INT32_MAX, &scale);
    if (end && *end == ',')
        end = codrask_read_digits(end + 1, 256, &bits);
    *width = bits / 8;
    return end && !*end && digits && digits <= most_digits(bits);
}

bool codrask_is_carried_format(const char *text, struct format *format) {
    static const uint32_t kinds[] = {[1] = CODRASK_U8, [2] = CODRASK_U16, [4] = CODRASK_U32, [8] = CODRASK_U64};
    size_t width = 0;
    if (!strcmp(text, "+m")) {
        *format = (struct format){.layout = MAPS, .kind = CODRASK_LIST_VIEW, .width = 4, .buffers = 2, .children = 1};
        return true;
    }
    bool nulls = !strcmp(text, "n");
    if (!nulls && !is_named(text, &width) && !is_instant(text, &width) && !is_binary(text, &width) && !is_decimal(text, &width))
        return false;
    uint32_t kind = width < sizeof kinds / sizeof *kinds && kinds[width] ? kinds[width] : CODRASK_FIXED_SIZE_LIST;
    *format =
        (struct format){.layout = nulls ? NULLS : CARRIED, .kind = kind, .width = width, .size = (uint32_t)width, .buffers = nulls ? 0 : 2};
    return true;
}

/* ---- texts one after another ---- */

/* Bytes that are written one after another; where there is no place for them, they are counted. */
struct writer {
    uint8_t *bytes;
    size_t count;
};

static void put(struct writer *w, const void *bytes, size_t count) {
    if (w->bytes && count)
        memcpy(w->bytes + w->count, bytes, count);
    w->count += count;
}

static void put_text(struct writer *w, const char *text) {
    put(w, text, strlen(text));
}

/* As metadata have them: how many bytes, and the bytes. */
static void put_sized(struct writer *w, const void *bytes, size_t count) {
    const int32_t size = (int32_t)count;
    put(w, &size, sizeof size);
    put(w, bytes, count);
}

/* ---- extensions ---- */

static const char name_key[] = "ARROW:extension:name", metadata_key[] = "ARROW:extension:metadata";

static bool is_key(struct codrask_bytes key, const char *text) {
    return key.count == strlen(text) && !memcmp(key.bytes, text, key.count);
}

static int32_t number_at(const uint8_t *at) {
    int32_t number;
    memcpy(&number, at, sizeof number);
    return number;
}

/* Some bytes after their number; the place behind them, or a null pointer where the number is negative. */
static const uint8_t *read_sized(const uint8_t *at, struct codrask_bytes *bytes) {
    int32_t size = number_at(at);
    if (size < 0)
        return NULL;
    *bytes = (struct codrask_bytes){at + sizeof size, (size_t)size};
    return bytes->bytes + bytes->count;
}

int32_t codrask_count_keys(const char *metadata) {
    return metadata ? number_at((const void *)metadata) : 0;
}

bool codrask_read_extension(const char *metadata, struct carried *carried) {
    const uint8_t *at = (const void *)metadata;
    carried->extension.bytes = carried->metadata.bytes = NULL;
    if (at)
        at += sizeof(int32_t);
    for (int32_t left = codrask_count_keys(metadata); left > 0; left--) {
        struct codrask_bytes key, value;
        at = read_sized(at, &key);
        if (!at || !(at = read_sized(at, &value)))
            return false;
        if (is_key(key, name_key) && !carried->extension.bytes)
            carried->extension = value;
        if (is_key(key, metadata_key) && !carried->metadata.bytes)
            carried->metadata = value;
    }
    return !carried->extension.bytes || !memchr(carried->extension.bytes, 0, carried->extension.count);
}

size_t codrask_write_extension(const struct carried *carried, void *metadata) {
    struct writer w = {metadata, 0};
    const int32_t keys = carried->metadata.bytes ? 2 : 1;
    put(&w, &keys, sizeof keys);
    put_sized(&w, name_key, strlen(name_key));
    put_sized(&w, carried->extension.bytes, carried->extension.count);
    if (carried->metadata.bytes) {
        put_sized(&w, metadata_key, strlen(metadata_key));
        put_sized(&w, carried->metadata.bytes, carried->metadata.count);
    }
    return w.count;
}

/* ---- names ---- */

static const char ordered[] = "ordered", sorted[] = "+m sorted";

/* The word for a schema: its format, where the layer has no type for it. */
static const char *word_of(const struct ArrowSchema *schema) {
    struct format format;
    if (schema->dictionary)
        return schema->flags & ARROW_FLAG_DICTIONARY_ORDERED ? ordered : "";
    if (!codrask_is_carried_format(schema->format, &format))
        return "";
    return format.layout == MAPS && schema->flags & ARROW_FLAG_MAP_KEYS_SORTED ? sorted : schema->format;
}

bool codrask_has_name(const struct ArrowSchema *schema) {
    struct carried carried;
    codrask_read_extension(schema->metadata, &carried);
    return *word_of(schema) || carried.extension.bytes;
}

size_t codrask_write_name(const struct ArrowSchema *schema, uint8_t *name) {
    struct carried carried;
    struct writer w = {name, 0};
    codrask_read_extension(schema->metadata, &carried);
    put(&w, "", 1);
    put_text(&w, word_of(schema));
    if (carried.extension.bytes) {
        put(&w, "", 1);
        put(&w, carried.extension.bytes, carried.extension.count);
    }
    if (carried.extension.bytes && carried.metadata.bytes) {
        put(&w, "", 1);
        put(&w, carried.metadata.bytes, carried.metadata.count);
    }
    return w.count;
}

bool codrask_is_carried(const struct codrask_node *node) {
    return node->kind == CODRASK_STRUCT && node->buffer_count == 1 && node->buffers[0].count && !node->buffers[0].bytes[0];
}

/* What stands before the next byte 0, and behind it; no pointer, where there is no such byte. */
static struct codrask_bytes cut(struct codrask_bytes text, struct codrask_bytes *behind) {
    const uint8_t *zero = memchr(text.bytes, 0, text.count);
    size_t count = zero ? (size_t)(zero - text.bytes) : text.count;
    *behind = (struct codrask_bytes){zero ? zero + 1 : NULL, zero ? text.count - count - 1 : 0};
    return (struct codrask_bytes){text.bytes, count};
}

struct carried codrask_carried_of(const struct codrask_node *record) {
    struct carried carried = {.sorted = false};
    struct codrask_bytes extension, name = record->buffers[0];
    carried.word = cut((struct codrask_bytes){name.bytes + 1, name.count - 1}, &extension);
    carried.extension = carried.metadata = extension;
    if (extension.bytes)
        carried.extension = cut(extension, &carried.metadata);
    return carried;
}

const char *codrask_carried_format(const struct codrask_node *node, size_t *size) {
    struct codrask_bytes word = codrask_is_carried(node) ? codrask_carried_of(node).word : (struct codrask_bytes){NULL, 0};
    *size = word.count;
    return (const char *)word.bytes;
}

/* ---- forms ---- */

/* Whether a node is records of keys and values, which may have an extension. */
static bool is_entries(const struct codrask_node *node) {
    if (codrask_is_carried(node) && !codrask_carried_of(node).word.count)
        node++;
    return node->kind == CODRASK_STRUCT && node->buffer_count == 2;
}

/* Whether a column, of which no row may be null, has the form of its format. */
static bool is_of_format(const struct codrask_node *column, const struct format *format) {
    if (column->kind != format->kind || column->validity != CODRASK_NON_NULLABLE)
        return false;
    if (format->layout == MAPS)
        return is_entries(column + 1);
    if (column->kind != CODRASK_FIXED_SIZE_LIST)
        return true;
    return column->size == format->size && column[1].kind == CODRASK_U8 && column[1].validity == CODRASK_NON_NULLABLE;
}

bool codrask_has_form(const struct codrask_node *column, struct carried *carried, const char *word) {
    carried->sorted = !strcmp(word, sorted);
    carried->format = (struct format){.layout = RECORDS};
    if (carried->extension.count > INT32_MAX || carried->metadata.count > INT32_MAX)
        return false;
    if (!*word || !strcmp(word, ordered))
        return *word || carried->extension.bytes;
    return codrask_is_carried_format(carried->sorted ? "+m" : word, &carried->format) && is_of_format(column, &carried->format);
}
