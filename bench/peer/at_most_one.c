/* Pairwise (Frisch and Giannaros 2010), the ladder in one direction (after Gent and Nightingale 2004), the product (after Chen 2010). */
#include "families.h"

void pairwise(const int32_t *literals, uint32_t count) {
  for (uint32_t i = 0; i < count; i++)
    for (uint32_t j = i + 1; j < count; j++) clause2(-literals[i], -literals[j]);
}

void ladder(const int32_t *literals, uint32_t count) {
  const int32_t first = fresh(count - 1);
  /* The fresh variable of place i, from 1 on, is first + i - 1. */
  for (int32_t i = 1; i + 2 <= (int32_t)count; i++) clause2(-(first + i), first + i - 1);
  for (int32_t i = 1; i < (int32_t)count; i++) clause2(-literals[i - 1], -(first + i - 1));
  for (int32_t i = 2; i <= (int32_t)count; i++) clause2(-literals[i - 1], first + i - 2);
}

void product(const int32_t *literals, uint32_t count) {
  if (count <= 4) {
    pairwise(literals, count);
    return;
  }
  uint32_t side = 1;
  while (side * side < count) side++;
  const uint32_t columns = (count + side - 1) / side, rows = (count + columns - 1) / columns;
  const int32_t first = fresh(rows + columns);
  int32_t *sides = grown(NULL, (rows + columns) * sizeof *sides);
  for (uint32_t i = 0; i < rows + columns; i++) sides[i] = first + (int32_t)i;
  for (uint32_t i = 0; i < count; i++) {
    clause2(-literals[i], sides[i / columns]);
    clause2(-literals[i], sides[rows + i % columns]);
  }
  product(sides, rows);
  product(sides + rows, columns);
  free(sides);
}
