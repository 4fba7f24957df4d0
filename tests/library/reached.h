/* Values of variables, and what clauses make of them: for tests that go through all of them. */
#ifndef REACHED_H
#define REACHED_H
#include "calls.h"

enum { ROOM = 1 << 14, FIRST = 6, MOST = 4096 };

/* The clauses, and of each variable whether it is true, false or open. */
static int32_t integers[ROOM];
static int8_t values[MOST];

static int is_true(int32_t literal) {
  return literal > 0 ? values[literal] > 0 : values[-literal] < 0;
}

/* What unit propagation makes of the values: 1 where a clause is left false, 0 at its end. */
static int propagate(uint64_t length) {
  for (int again = 1; again;) {
    again = 0;
    for (uint64_t i = 0; i < length; i++) {
      int32_t open = 0;
      int opens = 0, done = 0;
      for (; integers[i]; i++) {
        if (is_true(integers[i])) done = 1;
        if (!values[abs(integers[i])]) open = integers[i], opens++;
      }
      if (!done && opens == 0) return 1;
      if (!done && opens == 1) values[abs(open)] = open > 0 ? 1 : -1, again = 1;
    }
  }
  return 0;
}

/* Whether the values extend to a model of the clauses. */
static int extends(uint64_t length, uint32_t vars) {
  int8_t before[MOST];
  uint32_t v = 1;
  memcpy(before, values, sizeof before);
  if (!propagate(length)) {
    while (v <= vars && values[v]) v++;
    if (v > vars) return 1;
    for (int8_t value = -1; value <= 1; value += 2) {
      int8_t between[MOST];
      memcpy(between, values, sizeof between);
      values[v] = value;
      if (extends(length, vars)) return 1;
      memcpy(values, between, sizeof between);
    }
  }
  memcpy(values, before, sizeof before);
  return 0;
}

/* Sets the variables of the sums by the bits of a number, and all others below the first fresh one to false. */
static void set_all(uint32_t bits, uint32_t first) {
  memset(values, 0, sizeof values);
  for (uint32_t v = 1; v < first; v++) values[v] = v < FIRST && (bits >> (v - 1) & 1) ? 1 : -1;
}

#endif
