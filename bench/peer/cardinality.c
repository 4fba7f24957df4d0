/* The sequential counter (Sinz 2005), and the totalizer in one direction and in both (after Bailleux and Boufkhad 2003). */
#include "families.h"

uint64_t counter_fresh(uint32_t count, uint32_t bound) {
  return (uint64_t)(count - 1) * bound;
}

void counter(const int32_t *literals, uint32_t count, uint32_t bound) {
  const int32_t places = (int32_t)bound, first = fresh(counter_fresh(count, bound));
  int32_t row = first - 1, before;
  /* The variables of a row are row + 1 .. row + places. */
  clause2(-literals[0], row + 1);
  for (int32_t j = 2; j <= places; j++) clause1(-(row + j));
  for (uint32_t i = 1; i + 1 < count; i++) {
    before = row;
    row += places;
    clause2(-literals[i], row + 1);
    clause2(-(before + 1), row + 1);
    for (int32_t j = 2; j <= places; j++) {
      clause3(-literals[i], -(before + j - 1), row + j);
      clause2(-(before + j), row + j);
    }
    clause2(-literals[i], -(before + places));
  }
  clause2(-literals[count - 1], -(row + places));
}

static uint32_t least(uint32_t one, uint32_t other) {
  return one < other ? one : other;
}

uint64_t totalizer_fresh(uint32_t count, uint32_t bound) {
  if (count < 2) return 0;
  return totalizer_fresh(count / 2, bound) + totalizer_fresh(count - count / 2, bound) + least(count, bound + 1);
}

/* The outputs of a part of the literals. */
typedef struct {
  int32_t *literals;
  uint32_t count;
} Outputs;

/* So many true inputs on both sides make so many true outputs. */
static void count_up(const Outputs *left, const Outputs *right, const Outputs *node) {
  for (uint32_t i = 0; i <= left->count; i++)
    for (uint32_t j = 0; j <= right->count && i + j <= node->count; j++) {
      if (i + j == 0) continue;
      if (i) put(-left->literals[i - 1]);
      if (j) put(-right->literals[j - 1]);
      clause1(node->literals[i + j - 1]);
    }
}

/* So many false inputs on both sides make so many false outputs. */
static void count_down(const Outputs *left, const Outputs *right, const Outputs *node) {
  for (uint32_t i = 0; i <= left->count; i++)
    for (uint32_t j = 0; j <= right->count && i + j < node->count; j++) {
      if (i < left->count) put(left->literals[i]);
      if (j < right->count) put(right->literals[j]);
      clause1(-node->literals[i + j]);
    }
}

static Outputs part(const int32_t *literals, uint32_t count, uint32_t bound, int is_exact) {
  Outputs node = {grown(NULL, least(count, bound + 1) * sizeof *node.literals), least(count, bound + 1)};
  if (count == 1) {
    node.literals[0] = literals[0];
    return node;
  }
  Outputs left = part(literals, count / 2, bound, is_exact);
  Outputs right = part(literals + count / 2, count - count / 2, bound, is_exact);
  int32_t first = fresh(node.count);
  for (uint32_t i = 0; i < node.count; i++) node.literals[i] = first + (int32_t)i;
  count_up(&left, &right, &node);
  if (is_exact) count_down(&left, &right, &node);
  free(left.literals);
  free(right.literals);
  return node;
}

void totalizer(const int32_t *literals, uint32_t count, uint32_t bound) {
  Outputs root = part(literals, count, bound, 0);
  clause1(-root.literals[bound]);
  free(root.literals);
}

void exact_sum(const int32_t *literals, uint32_t count, uint32_t bound) {
  Outputs root = part(literals, count, bound, 1);
  clause1(root.literals[bound - 1]);
  clause1(-root.literals[bound]);
  free(root.literals);
}
