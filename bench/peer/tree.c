/* The generalized totalizer in one direction (after Joshi, Martins and Manquinho 2015). Its sums are sorted anew at each node: it is a
 * witness of clauses rather than a peer for speed. */
#include "families.h"

/* The sums that a part of the terms may have, ascending, and the outputs that stand for them. */
typedef struct {
  int64_t *sums;
  int32_t *outputs;
  uint32_t count;
} Sums;

typedef struct Node {
  Sums own;
  struct Node *left, *right;
} Node;

/* What of the budget is left, and the bound of the sum. */
typedef struct {
  uint64_t left;
  int64_t bound;
} Limits;

static int64_t cut(int64_t sum, int64_t bound) {
  return sum > bound ? bound + 1 : sum;
}

/* For qsort: upwards. */
static int by_sum(const void *one, const void *other) {
  int64_t left = *(const int64_t *)one, right = *(const int64_t *)other;
  return (left > right) - (left < right);
}

static uint32_t without_repeats(int64_t *sums, uint32_t count) {
  uint32_t written = 0;
  qsort(sums, count, sizeof *sums, by_sum);
  for (uint32_t i = 0; i < count; i++)
    if (!written || sums[written - 1] != sums[i]) sums[written++] = sums[i];
  return written;
}

/* Makes the sums of both sides, and of one of each. Answers 0 where they are more than the budget has. */
static int add_up(Sums *sums, const Sums *left, const Sums *right, const Limits *limits) {
  uint32_t room = left->count + 2 * right->count;
  sums->sums = grown(NULL, room * sizeof *sums->sums);
  memcpy(sums->sums, right->sums, right->count * sizeof *sums->sums);
  sums->count = right->count;
  for (uint32_t i = 0; i < left->count; i++) {
    if (room < sums->count + right->count + 1) {
      room = 2 * (sums->count + right->count + 1);
      sums->sums = grown(sums->sums, room * sizeof *sums->sums);
    }
    sums->sums[sums->count++] = left->sums[i];
    for (uint32_t j = 0; j < right->count; j++) sums->sums[sums->count++] = cut(left->sums[i] + right->sums[j], limits->bound);
    sums->count = without_repeats(sums->sums, sums->count);
    if (sums->count > limits->left) return 0;
  }
  return 1;
}

static void drop(Node *node) {
  if (!node) return;
  drop(node->left);
  drop(node->right);
  free(node->own.sums);
  free(node->own.outputs);
  free(node);
}

/* The tree over the terms, or NULL where the budget does not have its variables. */
static Node *build(const Term *terms, uint32_t count, Limits *limits) {
  Node *node = grown(NULL, sizeof *node);
  *node = (Node){0};
  if (count == 1) {
    node->own = (Sums){grown(NULL, sizeof(int64_t)), grown(NULL, sizeof(int32_t)), 1};
    node->own.sums[0] = cut(terms->weight, limits->bound);
    node->own.outputs[0] = terms->literal;
    return node;
  }
  node->left = build(terms, count / 2, limits);
  if (node->left) node->right = build(terms + count / 2, count - count / 2, limits);
  if (!node->right || !add_up(&node->own, &node->left->own, &node->right->own, limits)) {
    drop(node);
    return NULL;
  }
  limits->left -= node->own.count;
  return node;
}

/* The output of a sum, at the place or after it. */
static int32_t output_of(const Sums *sums, int64_t sum, uint32_t *place) {
  while (sums->sums[*place] < sum) ++*place;
  return sums->outputs[*place];
}

/* Each sum of one side alone. */
static void put_alone(const Sums *side, const Sums *node) {
  for (uint32_t i = 0, place = 0; i < side->count; i++) clause2(-side->outputs[i], output_of(node, side->sums[i], &place));
}

static void put_node(Node *node, int64_t bound) {
  Sums *own = &node->own;
  if (!node->left) return;
  const Sums *left = &node->left->own, *right = &node->right->own;
  put_node(node->left, bound);
  put_node(node->right, bound);
  const int32_t first = fresh(own->count);
  own->outputs = grown(NULL, own->count * sizeof *own->outputs);
  for (uint32_t i = 0; i < own->count; i++) own->outputs[i] = first + (int32_t)i;
  put_alone(left, own);
  put_alone(right, own);
  for (uint32_t i = 0; i < left->count; i++)
    for (uint32_t j = 0, place = 0; j < right->count; j++)
      clause3(-left->outputs[i], -right->outputs[j], output_of(own, cut(left->sums[i] + right->sums[j], bound), &place));
}

int tree(const Term *terms, uint32_t count, int64_t bound, uint64_t budget) {
  Limits limits = {budget, bound};
  Node *root = build(terms, count, &limits);
  if (!root) return 0;
  put_node(root, bound);
  clause1(-root->own.outputs[root->own.count - 1]);
  drop(root);
  return 1;
}
