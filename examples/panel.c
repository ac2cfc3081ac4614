/* A panel's calls over document 01's six tokens: the listing of '10 and 20, within a window of 3 words', typed, and again with 20 and 40 in one family,
 * and as codes; a typed search with a mistake; the quick answer to 'not 99', which is read once and kept as codes; and the snippet of the listing's
 * first match.
 *
 *   bash examples/build.sh jullpinay
 *   cc -Iinclude examples/panel.c target/staticlib/libjullpinay.a -o target/panel && target/panel
 */
#include <inttypes.h>
#include <stdio.h>

#include "jullpinay.h"

/* an array's numbers and their count */
#define SLICE(array) (array), sizeof(array) / sizeof((array)[0])
/* a text's bytes and their count, without the 0 that ends it */
#define TEXT(array) (const uint8_t *)(array), sizeof(array) - 1

/* words 10 20 30 10 40 20; sentences 1 1 1 2 2 2; paragraph 1 */
static const uint32_t section[] = {6, 10, 20, 30, 10, 40, 20, 65537, 65537, 65537, 65538, 65538, 65538};
/* no word families; and one of two words, 20 and 40: the size, the words, the number of each one's family */
static const uint32_t no_families[] = {0};
static const uint32_t families[] = {2, 20, 40, 1, 1};
/* 10, 20, and, window 3: kinds, then operands */
static const uint32_t window[] = {6, 0, 1, 0, 1, 3, 7, 10, 1, 20, 1, 0, 3};
/* the same, typed; a search that ends too soon; and one to keep */
static const char typed[] = "\"10\" ftand \"20\" window 3 words";
static const char mistyped[] = "\"10\" ftand";
static const char kept[] = "ftnot \"99\"";

static uint32_t work[JULLPINAY_WORK];
static uint32_t buffer[JULLPINAY_BUFFER];
static uint32_t selection[JULLPINAY_SELECTION];

static void print_refusal(const char *call, const uint32_t answer[])
{
    printf("%s: refused %" PRIu32 " at %" PRIu32 "\n", call, answer[0], answer[1]);
}

static void print_listing(const char *call, const uint32_t answer[4])
{
    uint32_t matches = answer[1], strings = answer[2], next = 0;
    const uint32_t *counts = buffer + 2, *spans = counts + matches, *tags = spans + strings;

    printf("%s: %s, %" PRIu32 " matches, %" PRIu32 " strings\n", call, answer[3] ? "yes" : "no", matches, strings);
    for (uint32_t m = 0; m < matches; m++) {
        printf(" ");
        for (uint32_t s = 0; s < counts[m]; s++, next++)
            printf(" %s %" PRIu32 " to %" PRIu32, tags[next] & 1 ? "not" : "at", spans[next] >> 16, spans[next] & 65535);
        printf("\n");
    }
}

static void print_quick(const char *call, const uint32_t answer[3])
{
    printf("%s: %s, %" PRIu32 " codes walked or built\n", call, answer[1] ? "yes" : "no", answer[2]);
}

int main(void)
{
    uint32_t listed[4], answered[3], read[2];

    if (jullpinay_typed_listing(SLICE(section), SLICE(no_families), TEXT(typed), SLICE(work), SLICE(buffer), listed))
        print_refusal("typed listing", listed);
    else
        print_listing("typed listing", listed);

    if (jullpinay_typed_listing(SLICE(section), SLICE(families), TEXT(typed), SLICE(work), SLICE(buffer), listed))
        print_refusal("typed listing, with a family", listed);
    else
        print_listing("typed listing, with a family", listed);

    if (jullpinay_listing(SLICE(section), SLICE(no_families), SLICE(window), SLICE(work), SLICE(buffer), listed)) {
        print_refusal("listing", listed);
        return 1;
    }
    print_listing("listing", listed);

    if (jullpinay_typed_quick(SLICE(section), SLICE(no_families), TEXT(mistyped), SLICE(work), answered))
        print_refusal("typed quick, mistyped", answered);
    else
        print_quick("typed quick, mistyped", answered);

    if (jullpinay_read(TEXT(kept), SLICE(selection), read)) {
        print_refusal("read", read);
        return 1;
    }
    printf("read: %" PRIu32 " codes\n", read[1]);
    if (jullpinay_quick(SLICE(section), SLICE(no_families), selection, 1 + 2 * read[1], SLICE(work), answered))
        print_refusal("quick, of what was read", answered);
    else
        print_quick("quick, of what was read", answered);

    if (listed[2] == 0)
        return 0;
    /* the first string of the listing: its span stands after M, S and the M counts */
    uint32_t from = buffer[2 + listed[1]] >> 16, to = buffer[2 + listed[1]] & 65535;
    size_t words = jullpinay_snippet(SLICE(section), from, to);
    printf("snippet of %" PRIu32 " to %" PRIu32 ":", from, to);
    for (size_t i = 0; i < words; i++)
        printf(" %" PRIu32, section[from + i]);
    printf("\n");
    return 0;
}
