/* The formats of Arrow's C Data Interface that are read. */
#include "inside.h"

/* Whether a text is one character of these. */
static bool is_one_of(const char *text, const char *characters) {
    return text[0] && !text[1] && strchr(characters, text[0]);
}

/* Integers, as they are. */
static bool is_integer(const char *text, struct format *format) {
    static const char letters[] = "CSILcsil";
    if (!is_one_of(text, letters))
        return false;
    size_t place = (size_t)(strchr(letters, text[0]) - letters);
    *format = (struct format){
        .layout = FLAT, .kind = CODRASK_U8 + (uint32_t)place, .width = (size_t)1 << place % 4, .buffers = 2, .may_be_codes = true};
    return true;
}

const char *codrask_read_digits(const char *text, size_t most, size_t *number) {
    const char *digit = text;
    for (*number = 0; '0' <= *digit && *digit <= '9'; digit++) {
        *number = 10 * *number + (size_t)(*digit - '0');
        if (*number > most)
            return NULL;
    }
    return digit > text ? digit : NULL;
}

/* Lists of one size: "+w:" and a number of 31 bits. */
static bool is_fixed(const char *text, struct format *format) {
    size_t size;
    const char *end = strncmp(text, "+w:", 3) ? NULL : codrask_read_digits(text + 3, INT32_MAX, &size);
    if (!end || *end)
        return false;
    *format = (struct format){.layout = FIXED_LISTS, .kind = CODRASK_FIXED_SIZE_LIST, .size = (uint32_t)size, .buffers = 1, .children = 1};
    return true;
}

bool codrask_format_of(const char *text, struct format *format) {
    static const struct {
        const char *text;
        struct format format;
    } others[] = {
        {"b", {.layout = FLAT, .kind = CODRASK_BOOL, .buffers = 2}},
        {"u", {.layout = VALUES, .kind = CODRASK_UTF8_VIEW, .width = 4, .buffers = 3}},
        {"U", {.layout = VALUES, .kind = CODRASK_UTF8_VIEW, .width = 8, .buffers = 3}},
        {"z", {.layout = VALUES, .kind = CODRASK_BINARY_VIEW, .width = 4, .buffers = 3}},
        {"Z", {.layout = VALUES, .kind = CODRASK_BINARY_VIEW, .width = 8, .buffers = 3}},
        {"vu", {.layout = VIEWS, .kind = CODRASK_UTF8_VIEW, .buffers = 3}},
        {"vz", {.layout = VIEWS, .kind = CODRASK_BINARY_VIEW, .buffers = 3}},
        {"+l", {.layout = LISTS, .kind = CODRASK_LIST_VIEW, .width = 4, .buffers = 2, .children = 1}},
        {"+L", {.layout = LISTS, .kind = CODRASK_LIST_VIEW, .width = 8, .buffers = 2, .children = 1}},
        {"+vl", {.layout = LIST_VIEWS, .kind = CODRASK_LIST_VIEW, .width = 4, .buffers = 3, .children = 1}},
        {"+vL", {.layout = LIST_VIEWS, .kind = CODRASK_LIST_VIEW, .width = 8, .buffers = 3, .children = 1}},
        {"+s", {.layout = RECORDS, .kind = CODRASK_STRUCT, .buffers = 1, .children = -1}},
    };
    for (size_t i = 0; i < sizeof others / sizeof *others; i++)
        if (!strcmp(text, others[i].text)) {
            *format = others[i].format;
            return true;
        }
    return is_integer(text, format) || is_fixed(text, format) || codrask_is_carried_format(text, format);
}
