/* The network of adders, and the comparison of its bits with the bound (Eén and Sörensson 2006). */
#include "families.h"

/* More levels than sums below 2^62 have. */
enum { LEVELS = 72 };

/* The bits of one level that are not added up yet. */
typedef struct {
  int32_t *bits;
  uint32_t first, end, room;
} Queue;

static void join(Queue *queue, int32_t bit) {
  if (queue->end == queue->room) {
    queue->room = 2 * queue->room + 8;
    queue->bits = grown(queue->bits, queue->room * sizeof *queue->bits);
  }
  queue->bits[queue->end++] = bit;
}

static uint32_t length_left(const Queue *queue) {
  return queue->end - queue->first;
}

static void put_full_adder(int32_t a, int32_t b, int32_t c, int32_t sum, int32_t carry) {
  clause4(a, b, c, -sum);
  clause4(a, b, -c, sum);
  clause4(a, -b, c, sum);
  clause4(a, -b, -c, -sum);
  clause4(-a, b, c, sum);
  clause4(-a, b, -c, -sum);
  clause4(-a, -b, c, -sum);
  clause4(-a, -b, -c, sum);
  clause3(-a, -b, carry);
  clause3(-a, -c, carry);
  clause3(-b, -c, carry);
  clause3(a, b, -carry);
  clause3(a, c, -carry);
  clause3(b, c, -carry);
}

static void put_half_adder(int32_t a, int32_t b, int32_t sum, int32_t carry) {
  clause3(a, b, -sum);
  clause3(a, -b, sum);
  clause3(-a, b, sum);
  clause3(-a, -b, -sum);
  clause3(-a, -b, carry);
  clause2(a, -carry);
  clause2(b, -carry);
}

/* Adds up a level. Returns its one bit, or 0 where it has none. */
static int32_t add_level(Queue *level, Queue *next) {
  while (length_left(level) >= 2) {
    const int32_t *bits = level->bits + level->first;
    const int32_t sum = fresh(2), carry = sum + 1;
    if (length_left(level) == 2) {
      put_half_adder(bits[0], bits[1], sum, carry);
      level->first += 2;
    } else {
      put_full_adder(bits[0], bits[1], bits[2], sum, carry);
      level->first += 3;
    }
    join(level, sum);
    join(next, carry);
  }
  return length_left(level) ? level->bits[level->first] : 0;
}

static int has_bit(int64_t number, int level) {
  return level < 63 && number >> level & 1;
}

/* A bit that the bound does not have is false where the bits above it are the bound's. */
static void compare(const int32_t *ends, int64_t bound) {
  for (int i = 0; i < LEVELS; i++) {
    int is_below = 0;
    if (!ends[i] || has_bit(bound, i)) continue;
    for (int j = i + 1; j < LEVELS; j++) is_below |= has_bit(bound, j) && !ends[j];
    if (is_below) continue;
    put(-ends[i]);
    for (int j = i + 1; j < LEVELS; j++)
      if (has_bit(bound, j)) put(-ends[j]);
    end_clause();
  }
}

void adder(const Term *terms, uint32_t count, int64_t bound) {
  Queue levels[LEVELS + 1] = {{0}};
  int32_t ends[LEVELS];
  for (uint32_t i = 0; i < count; i++)
    for (int level = 0; terms[i].weight >> level; level++)
      if (has_bit(terms[i].weight, level)) join(&levels[level], terms[i].literal);
  for (int level = 0; level < LEVELS; level++) {
    ends[level] = add_level(&levels[level], &levels[level + 1]);
    free(levels[level].bits);
  }
  compare(ends, bound);
}
