/* The diagram of intervals (after Abío et al. 2012): found from its root downwards, written level by level. */
#include "families.h"

/* A node: the residues from its least one to below its top. */
typedef struct {
  int64_t least, top;
} Node;

/* The nodes of one level, downwards. */
typedef struct {
  Node *nodes;
  uint32_t count, room;
} Level;

static const int64_t NO_TOP = INT64_MAX / 4;

/* What the search is in. Levels are kept for the next diagram. */
static struct {
  const Term *terms;
  Level *levels;
  int64_t *weight_behind;
  size_t room;
  uint64_t nodes, budget;
} search;

static void begin(const Term *terms, uint32_t count, uint64_t budget) {
  if (search.room < (size_t)count + 1) {
    search.levels = grown(search.levels, ((size_t)count + 1) * sizeof *search.levels);
    search.weight_behind = grown(search.weight_behind, ((size_t)count + 1) * sizeof *search.weight_behind);
    for (size_t i = search.room; i <= count; i++) search.levels[i] = (Level){0};
    search.room = (size_t)count + 1;
  }
  for (uint32_t i = 0; i <= count; i++) search.levels[i].count = 0;
  search.weight_behind[count] = 0;
  for (uint32_t i = count; i-- > 0;) search.weight_behind[i] = search.weight_behind[i + 1] + terms[i].weight;
  search.terms = terms;
  search.budget = budget;
  search.nodes = 0;
}

/* The place of the first node that begins at the residue or below it. */
static uint32_t place_of(const Level *level, int64_t residue) {
  uint32_t low = 0, high = level->count;
  while (low < high) {
    uint32_t middle = (low + high) / 2;
    if (level->nodes[middle].least <= residue)
      high = middle;
    else
      low = middle + 1;
  }
  return low;
}

static void insert(Level *level, Node node) {
  uint32_t place = place_of(level, node.least);
  if (level->count == level->room) {
    level->room = 2 * level->room + 4;
    level->nodes = grown(level->nodes, level->room * sizeof(Node));
  }
  memmove(level->nodes + place + 1, level->nodes + place, (level->count - place) * sizeof(Node));
  level->nodes[place] = node;
  level->count++;
}

/* Finds the node of a residue, and those below it. Answers 0 where there are more than the budget has. */
static int reach(uint32_t at, int64_t residue, Node *node) {
  if (residue < 0) {
    *node = (Node){-NO_TOP, 0};
    return 1;
  }
  if (residue >= search.weight_behind[at]) {
    *node = (Node){search.weight_behind[at], NO_TOP};
    return 1;
  }
  const Level *level = &search.levels[at];
  uint32_t place = place_of(level, residue);
  if (place < level->count && residue < level->nodes[place].top) {
    *node = level->nodes[place];
    return 1;
  }
  Node without, with;
  const int64_t weight = search.terms[at].weight;
  if (!reach(at + 1, residue, &without) || !reach(at + 1, residue - weight, &with)) return 0;
  if (++search.nodes > search.budget) return 0;
  node->least = without.least > with.least + weight ? without.least : with.least + weight;
  node->top = without.top < with.top + weight ? without.top : with.top + weight;
  if (node->least < 0) node->least = 0;
  insert(&search.levels[at], *node);
  return 1;
}

/* The variable of the child for a residue, which goes up with the residues: the place goes down to it. */
static int32_t child(const Level *level, int32_t first, int64_t residue, uint32_t *place) {
  while (level->nodes[*place].top <= residue) --*place;
  return first + (int32_t)(level->count - 1 - *place);
}

static void put_level(uint32_t at, int32_t first) {
  const Level *level = &search.levels[at], *below = &search.levels[at + 1];
  const Term term = search.terms[at];
  const int32_t first_below = first + (int32_t)level->count;
  uint32_t without = below->count - 1, with = without;
  for (uint32_t j = 0; j < level->count; j++) {
    const int32_t node = first + (int32_t)j;
    const int64_t residue = level->nodes[level->count - 1 - j].least;
    if (residue < search.weight_behind[at + 1]) clause2(-node, child(below, first_below, residue, &without));
    if (residue < term.weight)
      clause2(-node, -term.literal);
    else
      clause3(-node, -term.literal, child(below, first_below, residue - term.weight, &with));
  }
}

int diagram(const Term *terms, uint32_t count, int64_t bound, uint64_t budget) {
  Node root;
  begin(terms, count, budget);
  if (!reach(0, bound, &root)) return 0;
  const int32_t first = fresh(search.nodes);
  int32_t node = first;
  for (uint32_t i = 0; i < count; i++) {
    put_level(i, node);
    node += (int32_t)search.levels[i].count;
  }
  clause1(first);
  return 1;
}
