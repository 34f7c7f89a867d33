/*
 * What libstr_rope.a has in C: the three functions by which Rattle takes memory and gives it
 * back, over malloc, realloc and free; and those of str_rope.h that take a null pointer, or
 * two handles that may be one, before a proved function has them.
 *
 * The contracts of the heap are those of `libc::heap` in Rattle's standard library, which
 * the proofs take on trust. A proved function owes nothing for a null pointer, nor for two
 * handles that are one. So this file is read and not proved.
 *
 * Sizes are at most PTRDIFF_MAX, and `align` is a power of two that divides 16: malloc
 * aligns a block to each of those that divides its size, so a block of no bytes is asked
 * for as one of `align` bytes.
 */
#include <stdbool.h>
#include <stddef.h>
#include <stdint.h>
#include <stdlib.h>

#include <str_rope.h>

/* Whether there is memory, and where; where there is none, the address of a byte that
 * nobody reads or writes. */
struct tried {
    bool ok;
    void *block;
};

struct tried rattle_alloc(size_t size, size_t align);
struct tried rattle_realloc(void *block, size_t kept, size_t size, size_t align);
void rattle_dealloc(void *block);

static struct tried answer(void *block)
{
    static char nothing;
    struct tried tried = {block != NULL, block != NULL ? block : &nothing};
    return tried;
}

/* A new block. */
struct tried rattle_alloc(size_t size, size_t align)
{
    return answer(malloc(size != 0 ? size : align));
}

/* The block with another size and its first `kept` bytes as they were, perhaps at another
 * address. Where memory is refused, the block is as it was. */
struct tried rattle_realloc(void *block, size_t kept, size_t size, size_t align)
{
    (void)kept;
    return answer(realloc(block, size != 0 ? size : align));
}

/* Gives a block back. */
void rattle_dealloc(void *block)
{
    free(block);
}

/* The proved functions: each as the one of str_rope.h with that name, for pointers that are
 * not null and handles that differ. */
void rope_free(str_rope *rope);
uint32_t rope_assign(str_rope *rope, const char *text, size_t len);
uint32_t rope_assign_utf8(str_rope *rope, const char *text, size_t len);
uint32_t rope_snapshot(str_rope *rope, str_rope *copy);
uint32_t rope_insert(str_rope *rope, size_t at, const char *text, size_t len);
uint32_t rope_insert_utf8(str_rope *rope, size_t at, const char *text, size_t len);
uint32_t rope_replace(str_rope *rope, size_t from, size_t to, const char *text, size_t len);
uint32_t rope_replace_utf8(str_rope *rope, size_t from, size_t to, const char *text, size_t len);
uint32_t rope_append(str_rope *rope, str_rope *other);
uint32_t rope_split_off(str_rope *rope, size_t at, str_rope *rest);
bool rope_chunk_at(str_rope *rope, size_t byte_idx, str_rope_chunk *chunk);
size_t rope_chunks_at(str_rope *rope, size_t byte_idx, str_rope_chunk *chunks, size_t room);
size_t rope_chunks_before(str_rope *rope, size_t byte_idx, str_rope_chunk *chunks, size_t room);
size_t rope_read(str_rope *rope, size_t at, char *out, size_t room);
uint32_t rope_copy_to(str_rope *rope, size_t from, size_t to, char *out, size_t room);
uint32_t rope_change(str_rope *rope, uint32_t encoding, str_indices_range range, const char *text, size_t len);
uint32_t rope_change_utf8(str_rope *rope, uint32_t encoding, str_indices_range range, const char *text, size_t len);
uint32_t rope_change_exact(str_rope *rope, uint32_t encoding, str_indices_range range, const char *text, size_t len);

/* Whether a text is missing: null, though its length is not 0. */
static bool is_missing(const char *text, size_t len)
{
    return text == NULL && len != 0;
}

/* A text that may be null where its length is 0. */
static const char *text_of(const char *text)
{
    return text != NULL ? text : "";
}

/* A room that may be null where it has no byte, which is then neither read nor written. */
static char *room_of(char *out)
{
    static char nothing;
    return out != NULL ? out : &nothing;
}

void str_rope_free(str_rope *rope)
{
    if (rope != NULL)
        rope_free(rope);
}

str_rope_status str_rope_assign(str_rope *rope, const char *text, size_t len)
{
    if (is_missing(text, len))
        return STR_ROPE_NULL_TEXT;
    return (str_rope_status)rope_assign(rope, text_of(text), len);
}

str_rope_status str_rope_assign_utf8(str_rope *rope, const char *text, size_t len)
{
    if (is_missing(text, len))
        return STR_ROPE_NULL_TEXT;
    return (str_rope_status)rope_assign_utf8(rope, text_of(text), len);
}

str_rope_status str_rope_snapshot(const str_rope *rope, str_rope *copy)
{
    str_rope own = *rope;
    return rope == copy ? STR_ROPE_OK : (str_rope_status)rope_snapshot(&own, copy);
}

str_rope_status str_rope_insert(str_rope *rope, size_t at, const char *text, size_t len)
{
    if (is_missing(text, len))
        return STR_ROPE_NULL_TEXT;
    return (str_rope_status)rope_insert(rope, at, text_of(text), len);
}

str_rope_status str_rope_insert_utf8(str_rope *rope, size_t at, const char *text, size_t len)
{
    if (is_missing(text, len))
        return STR_ROPE_NULL_TEXT;
    return (str_rope_status)rope_insert_utf8(rope, at, text_of(text), len);
}

str_rope_status str_rope_replace(str_rope *rope, size_t from, size_t to, const char *text, size_t len)
{
    if (is_missing(text, len))
        return STR_ROPE_NULL_TEXT;
    return (str_rope_status)rope_replace(rope, from, to, text_of(text), len);
}

str_rope_status str_rope_replace_utf8(str_rope *rope, size_t from, size_t to, const char *text, size_t len)
{
    if (is_missing(text, len))
        return STR_ROPE_NULL_TEXT;
    return (str_rope_status)rope_replace_utf8(rope, from, to, text_of(text), len);
}

str_rope_status str_rope_append(str_rope *rope, str_rope *other)
{
    return rope == other ? STR_ROPE_SAME_HANDLE : (str_rope_status)rope_append(rope, other);
}

str_rope_status str_rope_split_off(str_rope *rope, size_t at, str_rope *rest)
{
    return rope == rest ? STR_ROPE_SAME_HANDLE : (str_rope_status)rope_split_off(rope, at, rest);
}

/* A room of chunks, each of no bytes before it is lent. It may be null where it has none. */
static str_rope_chunk *chunks_of(str_rope_chunk *chunks, size_t room)
{
    static const str_rope_chunk none = {"", 0, 0};
    static str_rope_chunk nothing;
    for (size_t i = 0; i < room; ++i)
        chunks[i] = none;
    return chunks != NULL ? chunks : &nothing;
}

bool str_rope_chunk_at(const str_rope *rope, size_t byte_idx, str_rope_chunk *chunk)
{
    str_rope own = *rope;
    return rope_chunk_at(&own, byte_idx, chunks_of(chunk, 1));
}

size_t str_rope_chunks_at(const str_rope *rope, size_t byte_idx, str_rope_chunk *chunks, size_t room)
{
    str_rope own = *rope;
    return rope_chunks_at(&own, byte_idx, chunks_of(chunks, room), room);
}

size_t str_rope_chunks_before(const str_rope *rope, size_t byte_idx, str_rope_chunk *chunks, size_t room)
{
    str_rope own = *rope;
    return rope_chunks_before(&own, byte_idx, chunks_of(chunks, room), room);
}

size_t str_rope_read(const str_rope *rope, size_t at, char *out, size_t room)
{
    str_rope own = *rope;
    return rope_read(&own, at, room_of(out), room);
}

str_rope_status str_rope_copy_to(const str_rope *rope, size_t from, size_t to, char *out, size_t room)
{
    str_rope own = *rope;
    return (str_rope_status)rope_copy_to(&own, from, to, room_of(out), room);
}

str_rope_status str_rope_change(str_rope *rope, str_indices_encoding encoding, str_indices_range range,
                                const char *text, size_t len)
{
    if (is_missing(text, len))
        return STR_ROPE_NULL_TEXT;
    return (str_rope_status)rope_change(rope, encoding, range, text_of(text), len);
}

str_rope_status str_rope_change_utf8(str_rope *rope, str_indices_encoding encoding, str_indices_range range,
                                     const char *text, size_t len)
{
    if (is_missing(text, len))
        return STR_ROPE_NULL_TEXT;
    return (str_rope_status)rope_change_utf8(rope, encoding, range, text_of(text), len);
}

str_rope_status str_rope_change_exact(str_rope *rope, str_indices_encoding encoding, str_indices_range range,
                                      const char *text, size_t len)
{
    if (is_missing(text, len))
        return STR_ROPE_NULL_TEXT;
    return (str_rope_status)rope_change_exact(rope, encoding, range, text_of(text), len);
}

const char *str_rope_status_text(str_rope_status status)
{
    switch (status) {
    case STR_ROPE_OK: return "done";
    case STR_ROPE_NOT_ORDERED: return "the end of a part is before its start";
    case STR_ROPE_NOT_BOUNDARY: return "a byte index is no boundary, or a position names no place";
    case STR_ROPE_TOO_LONG: return "a text would be too long";
    case STR_ROPE_NO_MEMORY: return "memory was refused";
    case STR_ROPE_NOT_UTF8: return "the bytes are not UTF-8";
    case STR_ROPE_SAME_HANDLE: return "two handles are one";
    case STR_ROPE_NULL_TEXT: return "a text is null, and its length is not 0";
    }
    return "no status of this version";
}

/* The version behind the library's name, by which a build finds it in the file. */
static const char named_version[] = "str_rope " STR_ROPE_VERSION;

const char *str_rope_version(void)
{
    return named_version + sizeof "str_rope";
}
