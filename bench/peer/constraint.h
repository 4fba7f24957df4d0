/* A constraint: the weights of the true literals add up to at least the degree. */
#ifndef PEER_CONSTRAINT_H
#define PEER_CONSTRAINT_H

#include "text.h"
#include <stdlib.h>

/* What the absolute values of a constraint stay below when added up, so that sums of two fit in 64 bits. */
static const int64_t GREATEST = (int64_t)1 << 60;

typedef struct {
  int64_t weight;
  int32_t literal;
} Term;

typedef struct {
  Term *terms;
  uint32_t count, room;
  int64_t degree;
} Constraint;

static inline uint32_t variable_of(int32_t literal) {
  return (uint32_t)(literal < 0 ? -literal : literal);
}

static inline void make_room(Constraint *constraint, uint32_t count) {
  if (constraint->room < count) {
    constraint->room = 2 * count + 8;
    constraint->terms = grown(constraint->terms, constraint->room * sizeof(Term));
  }
}

/* Brings it to normal form: weights above 0, variables ascending, each at most once, no degree below 0. */
void normalise(Constraint *constraint);

/* For qsort: by variables, upwards. */
int by_variable(const void *one, const void *other);

#endif
