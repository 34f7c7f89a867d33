/*
 * The memory of libstr_index.a: one block for an index and its marks, over calloc and
 * free. All else of the library is proved, and takes no memory.
 *
 * The proved functions read and write these structs, so each is as Rattle declares it:
 * struct counts as Counts in `crates/str_indices`, struct mark as Mark in
 * `crates/text_index`, struct str_index as IndexHandle in `crates/text_index_c`, where a slice
 * is an address and a number. Each question has one condition, that index_fill or
 * index_fill_utf8 has made the index and that its text and marks are as they were then. So
 * no other function makes one, and none changes one. This file is read and not proved.
 */
#include <stdint.h>
#include <stdlib.h>
#include <string.h>

#include <str_index.h>

/* A count of each scheme, in their order. */
struct counts {
    size_t numbers[5];
};

/* A byte index, and what is counted of the text before it. */
struct mark {
    size_t byte;
    struct counts counts;
};

struct str_index {
    const char *text;
    size_t len;
    const struct mark *marks;
    size_t many;
    struct mark whole;
};

/* How many marks a text of `len` bytes takes. */
size_t index_marks(size_t len);

/* Makes the index that of a text, with its marks in a room for `many` of them, which is
 * what index_marks says, and answers STR_INDEX_OK. Else the index is as before. It has to
 * be a value before, with addresses that are not null. */
uint32_t index_fill(const char *text, size_t len, struct mark *room, size_t many, struct str_index *index);

/* The same for bytes that are UTF-8, which it does not check. */
uint32_t index_fill_utf8(const char *text, size_t len, struct mark *room, size_t many, struct str_index *index);

/* Either of the two. */
typedef uint32_t fill_function(const char *text, size_t len, struct mark *room, size_t many, struct str_index *index);

/* Whether a text is missing: null, though its length is not 0. */
static bool is_missing(const char *text, size_t len)
{
    return text == NULL && len != 0;
}

/* The block is zeroed, so that a value is handed on. Where there is no mark, the room for
 * them is the end of the block, which is not null either. */
static str_index_status filled(str_index **index, struct str_index *block, const char *text, size_t len,
                               fill_function *fill)
{
    struct mark *room = (struct mark *)(block + 1);
    str_index_status status;
    if (text == NULL)
        text = "";
    block->text = text;
    block->marks = room;
    status = (str_index_status)fill(text, len, room, index_marks(len), block);
    if (status == STR_INDEX_OK)
        *index = block;
    return status;
}

static str_index_status made(str_index **index, const char *text, size_t len, fill_function *fill)
{
    size_t size = str_index_size(len);
    struct str_index *block;
    str_index_status status;
    *index = NULL;
    if (is_missing(text, len))
        return STR_INDEX_NULL_TEXT;
    if (size == 0)
        return STR_INDEX_TOO_LONG;
    block = calloc(1, size);
    if (block == NULL)
        return STR_INDEX_NO_MEMORY;
    status = filled(index, block, text, len, fill);
    if (status != STR_INDEX_OK)
        free(block);
    return status;
}

str_index_status str_index_make(str_index **index, const char *text, size_t len)
{
    return made(index, text, len, index_fill);
}

str_index_status str_index_make_utf8(str_index **index, const char *text, size_t len)
{
    return made(index, text, len, index_fill_utf8);
}

str_index_status str_index_make_in(str_index **index, void *room, size_t size, const char *text, size_t len)
{
    size_t taken = str_index_size(len);
    *index = NULL;
    if (is_missing(text, len))
        return STR_INDEX_NULL_TEXT;
    if (taken == 0)
        return STR_INDEX_TOO_LONG;
    if (size < taken)
        return STR_INDEX_NO_ROOM;
    memset(room, 0, taken);
    return filled(index, room, text, len, index_fill);
}

void str_index_free(str_index *index)
{
    free(index);
}

const char *str_index_status_text(str_index_status status)
{
    switch (status) {
    case STR_INDEX_OK: return "done";
    case STR_INDEX_NO_MEMORY: return "memory was refused";
    case STR_INDEX_NOT_UTF8: return "the bytes are not UTF-8";
    case STR_INDEX_NO_ROOM: return "the memory handed over has too few bytes";
    case STR_INDEX_TOO_LONG: return "the text is too long";
    case STR_INDEX_NULL_TEXT: return "the text is null, and its length is not 0";
    }
    return "no status of this version";
}

/* The version behind the library's name, by which a build finds it in the file. */
static const char named_version[] = "str_index " STR_INDEX_VERSION;

const char *str_index_version(void)
{
    return named_version + sizeof "str_index";
}
