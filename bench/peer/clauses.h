/* A CNF text that is made: clauses are kept in memory as text, and written after the p line, which has their number. */
#ifndef PEER_CLAUSES_H
#define PEER_CLAUSES_H

#include "text.h"
#include <string.h>

/* The one text that a run makes: where its next byte goes, from where on a chunk is full, and the next fresh variable. */
extern struct Made {
  unsigned char *at, *full;
  uint64_t clauses;
  int32_t next;
} made;

void begin_clauses(uint32_t variables);
void next_chunk(void);

/* The first of so many fresh variables. */
int32_t fresh(uint64_t count);

/* Writes the text, and waits until the disk has it. */
void write_clauses(const char *name);

extern const char PAIRS[201];

static inline unsigned length_of(uint32_t value) {
  if (value < 100000) return value < 100 ? (value < 10 ? 1 : 2) : value < 1000 ? 3 : value < 10000 ? 4 : 5;
  return value < 10000000 ? (value < 1000000 ? 6 : 7) : value < 100000000 ? 8 : value < 1000000000 ? 9 : 10;
}

/* Puts a literal and a blank. */
static inline void put(int32_t literal) {
  uint32_t value = (uint32_t)(literal < 0 ? -literal : literal);
  unsigned char *at = made.at;
  if (literal < 0) *at++ = '-';
  unsigned char *digit = at += length_of(value);
  for (; value >= 100; value /= 100) memcpy(digit -= 2, PAIRS + 2 * (value % 100), 2);
  if (value >= 10)
    memcpy(digit - 2, PAIRS + 2 * value, 2);
  else
    digit[-1] = (unsigned char)('0' + value);
  *at = ' ';
  made.at = at + 1;
}

/* As put, of a clause of any length. */
static inline void put_one(int32_t literal) {
  if (made.at > made.full) next_chunk();
  put(literal);
}

static inline void end_clause(void) {
  *made.at++ = '0';
  *made.at++ = '\n';
  made.clauses++;
  if (made.at > made.full) next_chunk();
}

static inline void clause1(int32_t a) {
  put(a);
  end_clause();
}

static inline void clause2(int32_t a, int32_t b) {
  put(a);
  clause1(b);
}

static inline void clause3(int32_t a, int32_t b, int32_t c) {
  put(a);
  clause2(b, c);
}

static inline void clause4(int32_t a, int32_t b, int32_t c, int32_t d) {
  put(a);
  clause3(b, c, d);
}

#endif
