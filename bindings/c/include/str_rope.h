/*
 * A UTF-8 text that changes: a rope, which keeps a long text in a balanced
 * tree of chunks. It counts the chars, UTF-16 code units and line breaks of
 * the text, converts between those indices, byte indices and the positions of
 * the Language Server Protocol 3.17, and puts text in and takes text out.
 *
 * Each function is proved to answer by a definition, and to make the change
 * that is said here or none. They answer for every text, index and position,
 * and never end the program: where something cannot be done, they say so by a
 * status, and then each text is as before the call.
 *
 * A text is held by a handle, a str_rope. A handle that is zeroed is the empty
 * text and has taken no memory, so there is no function that makes one:
 *
 *     str_rope rope = STR_ROPE_EMPTY;
 *     if (str_rope_assign(&rope, text, len) != STR_ROPE_OK) ...
 *     size_t lines = str_rope_count(&rope, STR_INDICES_CRLF) + 1;
 *     str_rope_free(&rope);
 *
 * All indices are byte indices where nothing else is said, and begin at 0. A
 * char is a Unicode scalar value. A boundary is a byte index between two
 * chars, or at the beginning or the end of the text.
 *
 * The caller owes the following, which nothing checks:
 *
 *   - A handle is zeroed before its first use, and after that written to by
 *     these functions alone. A copy of its bytes is not used beside it: both
 *     would be one text. str_rope_snapshot makes a second text. A handle may be
 *     moved, if only one of the two is used afterwards.
 *   - A handle that is no longer used is freed by str_rope_free, also where its
 *     text is empty by then: it may still have memory, which would be lost. To
 *     free one that is zeroed, or that was freed, does nothing.
 *   - A handle may be used by every thread, one call after the other: a lock, a
 *     join or the like stands between the calls. Calls that take one handle as
 *     `const` may run at once, in many threads; a call that takes it without
 *     `const` runs beside no other. Two handles may be in two calls at once,
 *     also where their texts share chunks: so one thread saves a snapshot while
 *     another one types.
 *   - No pointer is null, but `text`, `out` and `chunks` where the number after
 *     them is 0, and what str_rope_free takes. The `len` bytes from `text` on
 *     may be read, and no thread writes to them during the call; the `room`
 *     bytes from `out` on, or chunks from `chunks` on, may be written, and no
 *     thread reads them during the call. They do not overlap with each other or
 *     with a handle, and have at most PTRDIFF_MAX bytes. Of all this a null
 *     `text` alone is checked; and that the bytes of a text are UTF-8, unless
 *     the function's name ends in _utf8.
 *   - One allocator has malloc, realloc and free, and aligns each block to
 *     every power of two up to 16 that divides its size.
 *   - No function is called from a signal handler, or in the forked child of a
 *     process with threads.
 *
 * Where one of these is broken, what a call does is undefined. The library is
 * built for Linux on x86-64 processors from the level x86-64-v2 on (with
 * SSE4.2), and does not ask whether it runs on one.
 *
 * The cost of a call, where the text has n chunks, each of at most
 * STR_ROPE_MAX_CHUNK bytes, and of 509 or more where there are several: a
 * question looks at no more nodes of the tree than twice the logarithm to base
 * 2 of n + 1, and reads the text of one chunk at most; one about positions
 * asks up to 8 such questions. A read, or a list of chunks, goes down the tree
 * once for each block of up to 32 chunks. A change takes a number of steps of
 * that order too, and more with the length of what is put in. It copies the
 * text that is put in, and three chunks at most that stand round it, a cut as
 * many for each part. Where one chunk has no room for it, or the text shares
 * its chunks with a snapshot, it makes the way to them anew as well. It frees
 * what goes out and no other text shares, chunk by chunk: 24 milliseconds for
 * 100 MB. To take out all of a text takes no memory.
 */
#ifndef STR_ROPE_H
#define STR_ROPE_H

#include <stdbool.h>
#include <stddef.h>
#include <stdint.h> /* SIZE_MAX */

#include <str_indices_positions.h> /* the types of positions */

/* The version of the header. str_rope_version tells that of the library. The
 * number is 1000000 times the first, 1000 times the second, and the third. */
#define STR_ROPE_VERSION "0.4.4"
#define STR_ROPE_VERSION_MAJOR 0
#define STR_ROPE_VERSION_MINOR 4
#define STR_ROPE_VERSION_PATCH 4
#define STR_ROPE_VERSION_NUMBER \
    (STR_ROPE_VERSION_MAJOR * 1000000 + STR_ROPE_VERSION_MINOR * 1000 + \
     STR_ROPE_VERSION_PATCH)

/* A status that nobody looks at is a change that may not have been made. */
#if defined(__GNUC__)
#define STR_ROPE_CHECKED __attribute__((warn_unused_result))
#else
#define STR_ROPE_CHECKED
#endif

#ifdef __cplusplus
extern "C" {
#endif

/* A text. Its contents are the library's own. */
typedef struct str_rope {
    void *hidden;
} str_rope;

/* The empty text: str_rope rope = STR_ROPE_EMPTY; A handle with static storage
 * has it without. */
#ifdef __cplusplus
#define STR_ROPE_EMPTY (str_rope{NULL})
#else
#define STR_ROPE_EMPTY ((str_rope){NULL})
#endif

/* A chunk of a text, lent: `len` bytes from `text` on, which are UTF-8. */
typedef struct str_rope_chunk {
    const char *text;
    size_t len;
    size_t start; /* the byte index where it starts */
} str_rope_chunk;

/* How many bytes a chunk has at most. */
#define STR_ROPE_MAX_CHUNK 1024

/* Whether a call did what it was asked. Where two reasons hold, the status is
 * the one that stands first here; but STR_ROPE_NULL_TEXT, then
 * STR_ROPE_NOT_UTF8, and STR_ROPE_SAME_HANDLE come before all others. */
typedef enum str_rope_status {
    STR_ROPE_OK,           /* it is done */
    STR_ROPE_NOT_ORDERED,  /* the end of a part is before its start */
    STR_ROPE_NOT_BOUNDARY, /* a byte index is inside a char, or past the end; or
                              a position names no place */
    STR_ROPE_TOO_LONG,     /* the text would have more than PTRDIFF_MAX bytes,
                              or a part has more than the room for it */
    STR_ROPE_NO_MEMORY,    /* memory was refused */
    STR_ROPE_NOT_UTF8,     /* the bytes handed over are not UTF-8 */
    STR_ROPE_SAME_HANDLE,  /* two handles that should differ are one */
    STR_ROPE_NULL_TEXT     /* `text` is NULL, and `len` is not 0: of each call
                              that takes a text */
} str_rope_status;

/* Says in English what a status means, by a text that stays as long as the
 * program. */
const char *str_rope_status_text(str_rope_status status);

/* The version of the library that runs, as STR_ROPE_VERSION has the header's.
 */
const char *str_rope_version(void);

/*
 * The whole text.
 */

/* Frees the text, which is then the empty one. The handle may be used again.
 * Takes a step for each chunk. For NULL it does nothing. */
void str_rope_free(str_rope *rope);

/* Makes the text another one. The old text is freed after the new one is made,
 * so there has to be room for both. Takes time in the length of both. May
 * answer STR_ROPE_NOT_UTF8 and, where `len` is not 0, STR_ROPE_NO_MEMORY. */
STR_ROPE_CHECKED str_rope_status str_rope_assign(str_rope *rope,
                                                 const char *text, size_t len);

/* Gives `copy` the text of `rope`, in one step, whatever the text's length. The
 * two share their chunks from then on, and a change of either leaves the other.
 * A count of who shares them is written to, atomically, although `rope` is
 * `const`. The former text of `copy` is freed; where both handles are one,
 * nothing happens. May answer STR_ROPE_NO_MEMORY where the text is not empty,
 * and then `copy` is as before. */
STR_ROPE_CHECKED str_rope_status str_rope_snapshot(const str_rope *rope,
                                                   str_rope *copy);

/*
 * Questions. Each leaves the text as it is.
 */

/* How many bytes the text has. Takes no longer for a longer text. */
size_t str_rope_len(const str_rope *rope);

/* How many chars, UTF-16 code units or line breaks the text has. Takes no
 * longer for a longer text. */
size_t str_rope_count(const str_rope *rope, str_indices_scheme scheme);

/* From a byte index to a char, code unit or line index: how many of them end
 * at or before the byte. A byte inside a char or a break belongs to that char,
 * or to the line that the break ends. Any byte index past the end gives all. */
size_t str_rope_from_byte_idx(const str_rope *rope, str_indices_scheme scheme,
                              size_t byte_idx);

/* From a char, code unit or line index to the byte index where that char, the
 * char of that unit, or that line begins. An index past the last gives the
 * length of the text in bytes. */
size_t str_rope_to_byte_idx(const str_rope *rope, str_indices_scheme scheme,
                            size_t idx);

/* Whether a byte index is a boundary. One past the end is none. */
bool str_rope_is_char_boundary(const str_rope *rope, size_t byte_idx);

/*
 * Changes.
 */

/* Puts a text in at a boundary. May answer STR_ROPE_NOT_BOUNDARY,
 * STR_ROPE_TOO_LONG, STR_ROPE_NOT_UTF8 and, where `len` is not 0,
 * STR_ROPE_NO_MEMORY. */
STR_ROPE_CHECKED str_rope_status str_rope_insert(str_rope *rope, size_t at,
                                                 const char *text, size_t len);

/* Takes out what is between two boundaries, from `from` up to `to`. May answer
 * STR_ROPE_NOT_ORDERED, STR_ROPE_NOT_BOUNDARY and, where something goes and
 * something stays, STR_ROPE_NO_MEMORY. */
STR_ROPE_CHECKED str_rope_status str_rope_remove(str_rope *rope, size_t from,
                                                 size_t to);

/* Replaces what is between two boundaries, from `from` up to `to`, by a
 * text. May answer STR_ROPE_NOT_ORDERED, STR_ROPE_NOT_BOUNDARY,
 * STR_ROPE_TOO_LONG, STR_ROPE_NOT_UTF8 and, where something comes, or where
 * something goes and something stays, STR_ROPE_NO_MEMORY. */
STR_ROPE_CHECKED str_rope_status str_rope_replace(str_rope *rope, size_t from,
                                                  size_t to, const char *text,
                                                  size_t len);

/* Moves all of `other` to the end of the text; `other` is then the empty text.
 * May answer STR_ROPE_TOO_LONG and, where neither is empty, STR_ROPE_NO_MEMORY;
 * then `other` is as before too. Where both handles are one, the answer is
 * STR_ROPE_SAME_HANDLE. */
STR_ROPE_CHECKED str_rope_status str_rope_append(str_rope *rope,
                                                 str_rope *other);

/* Cuts the text in two at a boundary. The second part is then the text of
 * `rest`, whose former text is freed. May answer STR_ROPE_NOT_BOUNDARY and
 * STR_ROPE_NO_MEMORY, and then `rest` is as before too. Where both handles are
 * one, the answer is STR_ROPE_SAME_HANDLE. */
STR_ROPE_CHECKED str_rope_status str_rope_split_off(str_rope *rope, size_t at,
                                                    str_rope *rest);

/*
 * The text's bytes.
 */

/* Lends the chunk that a byte is in, without a copy: its bytes stay until the
 * handle is in a call that takes it without `const`. False, with a chunk of no
 * bytes, where the text has no such byte. This reads a text in order:
 *
 *     str_rope_chunk chunk;
 *     size_t at = 0;
 *     for (; str_rope_chunk_at(&rope, at, &chunk); at += chunk.len)
 *         fwrite(chunk.text, 1, chunk.len, stdout); */
bool str_rope_chunk_at(const str_rope *rope, size_t byte_idx,
                       str_rope_chunk *chunk);

/* Lends the chunk that a byte is in and those after it, in the order of the
 * text, each as str_rope_chunk_at does. Answers how many: fewer than `room`
 * only where the text ends, and none where it has no such byte. The rest of the
 * room is chunks of no bytes. This reads a text in order, and asks less often:
 *
 *     str_rope_chunk chunks[8];
 *     size_t at = 0, n;
 *     while ((n = str_rope_chunks_at(&rope, at, chunks, 8)) != 0) {
 *         for (size_t i = 0; i < n; ++i)
 *             fwrite(chunks[i].text, 1, chunks[i].len, stdout);
 *         at = chunks[n - 1].start + chunks[n - 1].len;
 *     } */
size_t str_rope_chunks_at(const str_rope *rope, size_t byte_idx,
                          str_rope_chunk *chunks, size_t room);

/* Lends the chunk that the byte before an index is in and those before it, the
 * last one first, each as str_rope_chunk_at does. An index past the end means
 * the end. Returns how many it lends: fewer than `room` only where the text
 * begins. The rest of the room is chunks of no bytes. This reads a text
 * backwards, chunk by chunk:
 *
 *     str_rope_chunk chunks[8];
 *     size_t at = str_rope_len(&rope), n;
 *     while ((n = str_rope_chunks_before(&rope, at, chunks, 8)) != 0) {
 *         for (size_t i = 0; i < n; ++i)
 *             look_for_a_word_in(chunks[i].text, chunks[i].len);
 *         at = chunks[n - 1].start;
 *     } */
size_t str_rope_chunks_before(const str_rope *rope, size_t byte_idx,
                              str_rope_chunk *chunks, size_t room);

/* Writes to `out` the bytes from `at` on, as far as there is room for them, and
 * answers how many: fewer than `room` only where the text ends, and none from
 * its end on. `at` need be no boundary, and the last char may be written in
 * part: the next read begins with its rest. This reads a text in order:
 *
 *     char out[8192];
 *     size_t at = 0, n;
 *     while ((n = str_rope_read(&rope, at, out, sizeof out)) != 0) {
 *         fwrite(out, 1, n, stdout);
 *         at += n;
 *     } */
size_t str_rope_read(const str_rope *rope, size_t at, char *out, size_t room);

/* Writes to `out` the bytes between two boundaries, from `from` up to `to`:
 * all of them, or none. Takes time in their number too. May answer
 * STR_ROPE_NOT_ORDERED, STR_ROPE_NOT_BOUNDARY, and STR_ROPE_TOO_LONG where
 * `room` is less than `to - from`. */
STR_ROPE_CHECKED str_rope_status str_rope_copy_to(const str_rope *rope,
                                                  size_t from, size_t to,
                                                  char *out, size_t room);

/* The questions of str_indices_positions.h, about lines and the positions of a
 * language server. For the whole text, str_rope_line returns what
 * str_indices_line returns there, and so on for each name. */
str_indices_bytes str_rope_line(const str_rope *rope,
                                str_indices_line_type lines, size_t line_idx);
size_t str_rope_line_end(const str_rope *rope, str_indices_line_type lines,
                         size_t line_idx);
str_indices_position str_rope_position_of(const str_rope *rope,
                                          str_indices_line_type lines,
                                          str_indices_encoding encoding,
                                          size_t byte_idx);
str_indices_position str_rope_exact_position_of(const str_rope *rope,
                                                str_indices_line_type lines,
                                                str_indices_encoding encoding,
                                                size_t byte_idx);
str_indices_range str_rope_range_of(const str_rope *rope,
                                    str_indices_line_type lines,
                                    str_indices_encoding encoding,
                                    str_indices_bytes span);
size_t str_rope_byte_of(const str_rope *rope, str_indices_line_type lines,
                        str_indices_encoding encoding,
                        str_indices_position position);
size_t str_rope_exact_byte_of(const str_rope *rope, str_indices_line_type lines,
                              str_indices_encoding encoding,
                              str_indices_position position);
str_indices_bytes str_rope_byte_range(const str_rope *rope,
                                      str_indices_line_type lines,
                                      str_indices_encoding encoding,
                                      str_indices_range range);

/*
 * Changes by ranges of positions, as a language server's client sends them.
 * Lines end in LF, CR or CR LF.
 */

/* Replaces the bytes of a range, as str_rope_byte_range answers them for
 * STR_INDICES_LINE_TYPE_CRLF, by a text: one change as a client sends it. Each
 * change of a message is meant in the text that the one before it left. For a
 * change that has no range, which replaces the whole text, call
 * str_rope_assign. May answer STR_ROPE_NOT_ORDERED, STR_ROPE_TOO_LONG,
 * STR_ROPE_NOT_UTF8 and, where something goes or comes, STR_ROPE_NO_MEMORY. */
STR_ROPE_CHECKED str_rope_status str_rope_change(str_rope *rope,
                                                 str_indices_encoding encoding,
                                                 str_indices_range range,
                                                 const char *text, size_t len);

/* As str_rope_change, for a range whose positions each name a place, as
 * str_rope_exact_byte_of has it: where one names none, the answer is
 * STR_ROPE_NOT_BOUNDARY, and str_rope_change would cut it. So a server notices
 * a client that is out of step. May answer STR_ROPE_NOT_ORDERED,
 * STR_ROPE_NOT_BOUNDARY, STR_ROPE_TOO_LONG, STR_ROPE_NOT_UTF8 and, where
 * something goes or comes, STR_ROPE_NO_MEMORY. */
STR_ROPE_CHECKED str_rope_status
str_rope_change_exact(str_rope *rope, str_indices_encoding encoding,
                      str_indices_range range, const char *text, size_t len);

/*
 * Texts that are known to be UTF-8.
 */

/* Each does what the function named without _utf8 does, but does not check the
 * bytes: it goes over the text once less, and never answers STR_ROPE_NOT_UTF8.
 * Where they are not UTF-8, what it does is undefined, and so is each later
 * call with that text, or with one that took chunks of it by a snapshot, an
 * append or a split. They are for bindings of languages whose strings are
 * UTF-8; in C you should call the others. */
STR_ROPE_CHECKED str_rope_status str_rope_assign_utf8(str_rope *rope,
                                                      const char *text,
                                                      size_t len);
STR_ROPE_CHECKED str_rope_status str_rope_insert_utf8(str_rope *rope, size_t at,
                                                      const char *text,
                                                      size_t len);
STR_ROPE_CHECKED str_rope_status str_rope_replace_utf8(str_rope *rope,
                                                       size_t from, size_t to,
                                                       const char *text,
                                                       size_t len);
STR_ROPE_CHECKED str_rope_status
str_rope_change_utf8(str_rope *rope, str_indices_encoding encoding,
                     str_indices_range range, const char *text, size_t len);

#ifdef __cplusplus
}
#endif

#endif
