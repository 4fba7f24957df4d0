/* The operations of `pol` on constraints in normal form. A sum of 2^60 or more ends the run. */
#ifndef PEER_OPERATIONS_H
#define PEER_OPERATIONS_H

#include "constraint.h"

/* How many terms went through additions so far: those of both sides of each. */
extern uint64_t added_terms;

void copy_terms(Constraint *constraint, const Term *terms, uint32_t count, int64_t degree);
void add(Constraint *constraint, const Constraint *other);
void multiply(Constraint *constraint, int64_t factor);

/* Divides, and rounds up. */
void divide(Constraint *constraint, int64_t divisor);
void saturate(Constraint *constraint);

/* Takes a variable out. */
void weaken(Constraint *constraint, uint32_t variable);

/* What the weights and the degree add up to; tests that it stays below 2^60. */
int64_t size_of(const Constraint *constraint);

#endif
