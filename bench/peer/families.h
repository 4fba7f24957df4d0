/* The clause lists of docs/FORMATS.md. Each is of a sum of literals, or of weighted literals, that is to stay within a bound. */
#ifndef PEER_FAMILIES_H
#define PEER_FAMILIES_H

#include "clauses.h"
#include "constraint.h"

/* At most one of the literals. */
void pairwise(const int32_t *literals, uint32_t count);
void ladder(const int32_t *literals, uint32_t count);
void product(const int32_t *literals, uint32_t count);

/* At most so many of the literals, bound >= 1; and how many fresh variables that takes. */
void counter(const int32_t *literals, uint32_t count, uint32_t bound);
void totalizer(const int32_t *literals, uint32_t count, uint32_t bound);
uint64_t counter_fresh(uint32_t count, uint32_t bound);
uint64_t totalizer_fresh(uint32_t count, uint32_t bound);

/* Exactly so many of them: a totalizer in both directions, with as many fresh variables. */
void exact_sum(const int32_t *literals, uint32_t count, uint32_t bound);

/* A sum of weights, the greater first. Diagram and tree answer 0, and make nothing, where they need more fresh variables. They are as
   deep in calls as the sum is long, and as its tree is high. */
int diagram(const Term *terms, uint32_t count, int64_t bound, uint64_t budget);
int tree(const Term *terms, uint32_t count, int64_t bound, uint64_t budget);
void adder(const Term *terms, uint32_t count, int64_t bound);

#endif
