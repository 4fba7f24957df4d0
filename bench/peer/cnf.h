/* The clauses of a CNF text. */
#ifndef PEER_CNF_H
#define PEER_CNF_H

#include "text.h"

/* The literals of clause i, from 0 on, stand from starts[i] to below starts[i + 1]. */
typedef struct {
  uint32_t variables;
  uint64_t count;
  int32_t *literals;
  uint64_t *starts;
} Cnf;

/* Reads a text whose comments stand alone in their lines; it is no test of its spelling. */
Cnf read_cnf(const char *name);

/* The integer that stands here, of a variable up to the greatest. */
static inline int32_t take_integer(Text *text, uint32_t greatest) {
  const int is_negative = *text->at == '-';
  text->at += is_negative;
  const int64_t value = digits(text);
  if (value > greatest) stop(REFUSED, "a variable that the CNF does not have");
  return (int32_t)(is_negative ? -value : value);
}

/* A place for each literal, from 2 on. */
static inline size_t index_of(int32_t literal) {
  return literal > 0 ? 2 * (size_t)literal : 2 * (size_t)-literal + 1;
}

#endif
