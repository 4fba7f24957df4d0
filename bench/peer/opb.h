/* A problem in columns. */
#ifndef PEER_OPB_H
#define PEER_OPB_H

#include "constraint.h"

/* The relation is known by its first byte. */
typedef struct {
  uint32_t terms;
  char relation;
  int64_t right;
} Statement;

typedef struct {
  int64_t *coefficients;
  int32_t *literals;
  size_t terms, room;
  Statement *statements;
  size_t count, statement_room;
  uint32_t variables;
} Problem;

/* Reads a text of statements over variables by their numbers. Passes over an objective; refuses free names, products, and a
   statement whose absolute values add up to 2^60 or more. It is no test of a text: much that is no OPB is taken. */
Problem read_problem(const char *name);

/* Makes the lower half of a statement, or the upper one, whose terms begin at a place of the columns, in normal form. */
void take_half(Constraint *half, const Problem *problem, const Statement *statement, size_t begin, int is_upper);

/* True if a statement has this half. */
static inline int has_half(const Statement *statement, int is_upper) {
  return statement->relation != (is_upper ? '>' : '<');
}

#endif
