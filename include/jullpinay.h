/* The engine's calls. Each has an answer for every slice of every length: a result, or one refusal by number and place; the snippet never refuses.
 *
 * A slice is a pointer and a count of numbers, or of bytes for `text`. `section`, `families`, `selection` and `buffer` are laid out as docs/REFERENCE.md
 * says, which has the grammar of a typed search too; `work` may hold anything before the call, and after it. Nothing that a call writes, `answer`
 * included, may overlap anything else that is passed. Every pointer is aligned for its numbers, and none is null, also where its count is 0. Nothing is
 * kept between calls, and nothing else is touched.
 *
 * Link with the archive that `bash examples/build.sh jullpinay` writes, target/staticlib/libjullpinay.a. */
#ifndef JULLPINAY_H
#define JULLPINAY_H

#include <stddef.h>
#include <stdint.h>

#ifdef __cplusplus
extern "C" {
#endif

/* How many numbers `work` and `buffer` have at least. */
#define JULLPINAY_WORK 12800
#define JULLPINAY_BUFFER 1282

/* How many numbers `families` has at most. It joins words that count as one another, as 'needle' and 'needles': a size m of at most 2,048, then m word
 * numbers, rising strictly, then the numbers of their families. A word of a search fits the words that equal it, and, if it is in the table, those that
 * are there with the same family. The one number 0 is the empty table, which joins nothing. Refusal 13 is a table that is wrong: at place 0 in its size
 * or its count of numbers, else at the first entry, counted from 1, whose word isn't above the one before it. */
#define JULLPINAY_FAMILIES 4097

/* How many numbers the selection has at least that jullpinay_read writes, and how many bytes a typed search has at most. */
#define JULLPINAY_SELECTION 129
#define JULLPINAY_TEXT 2048

/* The most bytes of stack that a call takes, its return address included, as the archive is compiled for x86-64. It needs no heap. */
#define JULLPINAY_LISTING_STACK 1408
#define JULLPINAY_QUICK_STACK 3328
#define JULLPINAY_SNIPPET_STACK 128

/* The same of the typed calls, for the deepest text, one of opening parentheses; and the most that each nested parenthesis takes of it. */
#define JULLPINAY_READ_STACK 231424
#define JULLPINAY_TYPED_LISTING_STACK 231424
#define JULLPINAY_TYPED_QUICK_STACK 231424
#define JULLPINAY_PARENTHESIS_STACK 112

/* The full listing. Returns 0 and answers {0, matches, strings, yes}, with the listing in the buffer; or returns a refusal's number and answers
 * {number, place}, with the buffer and the rest of the answer unchanged. */
uint32_t jullpinay_listing(const uint32_t *section, size_t section_count,
                           const uint32_t *families, size_t families_count,
                           const uint32_t *selection, size_t selection_count,
                           uint32_t *work, size_t work_count,
                           uint32_t *buffer, size_t buffer_count,
                           uint32_t answer[4]);

/* The quick answer. Returns 0 and answers {0, yes, codes walked or built}; or returns a refusal's number and answers {number, place},
 * with the rest of the answer unchanged. */
uint32_t jullpinay_quick(const uint32_t *section, size_t section_count,
                         const uint32_t *families, size_t families_count,
                         const uint32_t *selection, size_t selection_count,
                         uint32_t *work, size_t work_count,
                         uint32_t answer[3]);

/* The snippet of the positions from `from` to `to`: how many words it has, 0 if the section isn't accepted or
 * 1 <= from <= to <= n fails. They are section[from], section[from + 1], .. */
size_t jullpinay_snippet(const uint32_t *section, size_t section_count, uint32_t from, uint32_t to);

/* A typed search, as `"10" ftand "20" window 3 words`: its bytes, with no byte after them. Refusal 10 is a token that the grammar doesn't allow, 11 a number
 * or a text too large, both at the byte counted from 1 (11 at 0 for a text too long); both come before every other refusal. */

/* The full listing of a typed search: as jullpinay_listing answers for its codes. */
uint32_t jullpinay_typed_listing(const uint32_t *section, size_t section_count,
                                 const uint32_t *families, size_t families_count,
                                 const uint8_t *text, size_t text_count,
                                 uint32_t *work, size_t work_count,
                                 uint32_t *buffer, size_t buffer_count,
                                 uint32_t answer[4]);

/* The quick answer of a typed search: as jullpinay_quick answers for its codes. */
uint32_t jullpinay_typed_quick(const uint32_t *section, size_t section_count,
                               const uint32_t *families, size_t families_count,
                               const uint8_t *text, size_t text_count,
                               uint32_t *work, size_t work_count,
                               uint32_t answer[3]);

/* The reader alone. Returns 0 and answers {0, codes}, with the codes as a selection of 1 + 2 * codes numbers; or returns a refusal's number and answers
 * {number, place}: an error of the text, 3 for over 64 codes, 8 for a selection of under 129 numbers. What is not written is unchanged. */
uint32_t jullpinay_read(const uint8_t *text, size_t text_count, uint32_t *selection, size_t selection_count, uint32_t answer[2]);

#ifdef __cplusplus
}
#endif

#endif
