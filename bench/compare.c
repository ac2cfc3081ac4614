/* Times two archives of the library in one process, by turns. Reads the cases that `bench cases` prints; for each prints its name and the least time of
 * each call in nanoseconds: listing of the first archive and of the second, then the quick answer of both. A case that they answer differently, as one of
 * a kind that only one of them knows, is left out. With the argument `quick` it times the quick answer alone and leaves no such case out: in place of the
 * listing's times are the refusals, 0 where it is answered. A case with a family table other than the empty one is left out where one of them takes none,
 * as before F-6: FIRST_TAKES_TABLE or SECOND_TAKES_TABLE is then 0, else 1. bench/compare builds and runs it. */
#include <stddef.h>
#include <stdint.h>
#include <stdio.h>
#include <stdlib.h>
#include <string.h>
#include <time.h>

enum { WORK = 12800, BUFFER = 1282, NAME = 256, LISTING = 0, QUICK = 2, CALLS = 4, ROUNDS = 40, ROUND_NS = 100000 };

/* The table among a call's parameters, and in a call of it. */
#define TABLE_TYPES_0
#define TABLE_TYPES_1 const uint32_t *, size_t,
#define TABLE_PASSED_0
#define TABLE_PASSED_1 f, t,
#define PASTE(one, other) one##other
#define TABLE_TYPES(takes) PASTE(TABLE_TYPES_, takes)
#define TABLE_PASSED(takes) PASTE(TABLE_PASSED_, takes)
#define FIRST_TABLE TABLE_PASSED(FIRST_TAKES_TABLE)
#define SECOND_TABLE TABLE_PASSED(SECOND_TAKES_TABLE)

#define DECLARE(archive, takes)                                                                                                                           \
  uint32_t archive##_listing(const uint32_t *, size_t, TABLE_TYPES(takes) const uint32_t *, size_t, uint32_t *, size_t, uint32_t *, size_t, uint32_t *); \
  uint32_t archive##_quick(const uint32_t *, size_t, TABLE_TYPES(takes) const uint32_t *, size_t, uint32_t *, size_t, uint32_t *);

DECLARE(first, FIRST_TAKES_TABLE)
DECLARE(second, SECOND_TAKES_TABLE)

typedef struct {
  uint32_t *numbers;
  size_t length;
} Slice;

typedef struct {
  Slice section, families, selection;
} Case;

static uint32_t work[WORK], buffer[BUFFER], answer[4];

static double now_ns(void) {
  struct timespec t;
  clock_gettime(CLOCK_MONOTONIC, &t);
  return t.tv_sec * 1e9 + t.tv_nsec;
}

static void call(int which, const Case *c) {
  const uint32_t *s = c->section.numbers, *f = c->families.numbers, *q = c->selection.numbers;
  size_t n = c->section.length, t = c->families.length, m = c->selection.length;
  (void)f, (void)t; /* passed to none if neither takes a table */
  switch (which) {
  case 0: first_listing(s, n, FIRST_TABLE q, m, work, WORK, buffer, BUFFER, answer); break;
  case 1: second_listing(s, n, SECOND_TABLE q, m, work, WORK, buffer, BUFFER, answer); break;
  case 2: first_quick(s, n, FIRST_TABLE q, m, work, WORK, answer); break;
  case 3: second_quick(s, n, SECOND_TABLE q, m, work, WORK, answer); break;
  }
}

static void keep_answers(uint32_t answers[CALLS][4], const Case *c) {
  for (int i = 0; i < CALLS; i++) {
    memset(answer, 0, sizeof answer);
    call(i, c);
    memcpy(answers[i], answer, sizeof answer);
  }
}

/* Do both archives answer this call alike? */
static int agree(uint32_t answers[CALLS][4], int first) {
  return !memcmp(answers[first], answers[first + 1], sizeof answers[first]);
}

/* Nanoseconds a call, over a round. */
static double time_round(int which, const Case *c) {
  double begun = now_ns(), passed = 0;
  long calls = 0;
  do {
    call(which, c);
    calls++;
    passed = now_ns() - begun;
  } while (passed < ROUND_NS);
  return passed / calls;
}

/* A line of numbers, how many first. */
static Slice read_slice(void) {
  Slice slice = {NULL, 0};
  if (scanf("%zu", &slice.length) != 1 || !(slice.numbers = malloc((slice.length + 1) * sizeof(uint32_t)))) exit(1);
  for (size_t i = 0; i < slice.length; i++)
    if (scanf("%u", &slice.numbers[i]) != 1) exit(1);
  getchar();
  return slice;
}

/* The least time of each call from this one on, over the rounds. */
static void time_calls(double least[CALLS], int from, const Case *c) {
  for (int i = 0; i < CALLS; i++) least[i] = 1e18;
  for (int round = 0; round < ROUNDS; round++)
    for (int i = from; i < CALLS; i++) {
      double time = time_round(i, c);
      if (time < least[i]) least[i] = time;
    }
}

/* Is its table lent to both, if it is more than the empty one? */
static int takes_table(const Case *c) {
  return (FIRST_TAKES_TABLE && SECOND_TAKES_TABLE) || c->families.length == 1;
}

static void time_both(const char *name, const Case *c) {
  uint32_t answers[CALLS][4];
  double least[CALLS];
  keep_answers(answers, c);
  if (!agree(answers, LISTING) || !agree(answers, QUICK)) return;
  time_calls(least, LISTING, c);
  printf("%s|%.1f|%.1f|%.1f|%.1f\n", name, least[0], least[1], least[2], least[3]);
}

static void time_quick(const char *name, const Case *c) {
  uint32_t answers[CALLS][4];
  double least[CALLS];
  keep_answers(answers, c);
  uint32_t first = answers[QUICK][0], second = answers[QUICK + 1][0];
  if (!first && !second && !agree(answers, QUICK)) {
    fprintf(stderr, "answered differently: %s\n", name);
    exit(1);
  }
  time_calls(least, QUICK, c);
  printf("%s|%u|%u|%.1f|%.1f\n", name, first, second, least[QUICK], least[QUICK + 1]);
}

int main(int count, char **arguments) {
  int quick_alone = count > 1 && !strcmp(arguments[1], "quick");
  char name[NAME];
  while (fgets(name, NAME, stdin)) {
    name[strcspn(name, "\n")] = 0;
    Case c;
    c.section = read_slice();
    c.families = read_slice();
    c.selection = read_slice();
    if (takes_table(&c)) (quick_alone ? time_quick : time_both)(name, &c);
    free(c.section.numbers);
    free(c.families.numbers);
    free(c.selection.numbers);
  }
}
