/* An empty array may be null: each call answers as it does to an array of no items that has an address.
 *
 * It is linked with the library, and with `exports.c` in its place, whose calls answer NULL_SEEN if one of their pointers is null. */
#include "calls.h"

enum { NULL_SEEN = 99 };

static const pbcnf_options options = PBCNF_OPTIONS_DEFAULT;
static const pbcnf_bound bound = PBCNF_NO_BOUND;

/* True if there are addresses of arrays without items, or nulls. */
static int is_null;
static uint64_t item;

static void *empty(void) { return is_null ? NULL : &item; }

/* A call is made with nulls, and with addresses. */
static void try_call(const char *name, void (*make)(struct answer *)) {
  struct answer null = spoiled(), address = spoiled();
  memset(&null.refusal, 0, sizeof null.refusal);
  memset(&address.refusal, 0, sizeof address.refusal);
  is_null = 1;
  make(&null);
  is_null = 0;
  make(&address);
  judge(null.status != NULL_SEEN, "it is passed an address", name, null.status);
  judge(null.status == address.status && null.length == address.length && memcmp(&null.size, &address.size, sizeof null.size) == 0 &&
            memcmp(&null.refusal, &address.refusal, sizeof null.refusal) == 0,
        "the same answer", name, null.status);
}

#define POSED_NULL(name, type) \
  static void null_##name(struct answer *a) { \
    a->status = pbcnf_##name((const uint8_t *)empty(), 0, &options, &bound, (type *)empty(), 0, &a->size, &a->refusal); \
  }
POSED_NULL(encode, uint8_t)
POSED_NULL(clauses, int32_t)
POSED_NULL(derive, uint8_t)
POSED_NULL(bounds, pbcnf_row)
POSED_NULL(wcnf, uint8_t)

#define ONE_NULL(name, type) \
  static void null_##name(struct answer *a) { \
    static const pbcnf_side side = {PBCNF_AT_LEAST, 1, 1, 0}; \
    a->status = pbcnf_##name((const uint64_t *)empty(), 0, (const int32_t *)empty(), 0, &side, &options, (type *)empty(), 0, &a->size, \
                             &a->refusal); \
  }
ONE_NULL(constraint, int32_t)
ONE_NULL(constraint_derive, uint8_t)

#define ALL_NULL(name, type) \
  static void null_##name(struct answer *a) { \
    a->status = pbcnf_##name((const uint64_t *)empty(), 0, (const int32_t *)empty(), 0, (const pbcnf_sum *)empty(), 0, 1, &options, \
                             (type *)empty(), 0, &a->size, &a->refusal); \
  }
ALL_NULL(constraints, int32_t)
ALL_NULL(constraints_derive, uint8_t)

#define TEXT (const uint8_t *)empty(), 0

static void null_decode(struct answer *a) {
  a->status = pbcnf_decode(TEXT, &bound, TEXT, (uint8_t *)empty(), 0, &a->length, &a->refusal);
}
static void null_softs(struct answer *a) {
  pbcnf_costs costs = {0, 0, 0};
  a->status = pbcnf_softs(TEXT, &bound, (pbcnf_row *)empty(), 0, &costs, &a->refusal);
  a->length = costs.length;
}
static void null_map(struct answer *a) { a->status = pbcnf_map(TEXT, (uint8_t *)empty(), 0, &a->length, &a->refusal); }
static void null_check(struct answer *a) { a->status = pbcnf_check(TEXT, &bound, TEXT, TEXT, &a->refusal); }
static void null_refute(struct answer *a) { a->status = pbcnf_refute(TEXT, &bound, TEXT, TEXT, TEXT, &a->refusal); }
static void null_words(struct answer *a) {
  static const pbcnf_refusal no_memory = {0, 0, 0, PBCNF_NO_MEMORY, 0, 0, 0, 0, 0};
  a->status = pbcnf_words(&no_memory, (uint8_t *)empty(), 0, &a->length);
}

int main(void) {
  try_call("encode", null_encode);
  try_call("clauses", null_clauses);
  try_call("derive", null_derive);
  try_call("bounds", null_bounds);
  try_call("wcnf", null_wcnf);
  try_call("decode", null_decode);
  try_call("softs", null_softs);
  try_call("map", null_map);
  try_call("check", null_check);
  try_call("refute", null_refute);
  try_call("constraint", null_constraint);
  try_call("constraint_derive", null_constraint_derive);
  try_call("constraints", null_constraints);
  try_call("constraints_derive", null_constraints_derive);
  try_call("words", null_words);
  return conclude();
}
