/* Stands in the place of the library: each export says whether it is passed a null pointer. */
#define PBCNF_EXPORTS
#include "pbcnf.h"

enum { NO_NULL = 0, NULL_SEEN = 99 };

static uint8_t seen(const void *one, const void *two, const void *three, const void *four) {
  return one && two && three && four ? NO_NULL : NULL_SEEN;
}

#define POSED(name, type) \
  uint8_t name(const uint8_t *opb, size_t opb_len, const pbcnf_options *options, const pbcnf_bound *bound, type *put, size_t room, \
               pbcnf_size *size, pbcnf_refusal *refusal) { \
    return (void)opb_len, (void)room, (void)size, (void)refusal, seen(opb, options, bound, put); \
  }
POSED(pbcnf_encode, uint8_t)
POSED(pbcnf_clauses, int32_t)
POSED(pbcnf_derive, uint8_t)
POSED(pbcnf_bounds, pbcnf_row)
POSED(pbcnf_wcnf, uint8_t)

#define ONE(name, type) \
  uint8_t name(const uint64_t *coefficients, size_t words, const int32_t *literals, size_t count, const pbcnf_side *side, \
               const pbcnf_options *options, type *put, size_t room, pbcnf_size *size, pbcnf_refusal *refusal) { \
    return (void)words, (void)count, (void)options, (void)room, (void)size, (void)refusal, seen(coefficients, literals, side, put); \
  }
ONE(pbcnf_constraint, int32_t)
ONE(pbcnf_constraint_derive, uint8_t)

#define ALL(name, type) \
  uint8_t name(const uint64_t *coefficients, size_t words, const int32_t *literals, size_t count, const pbcnf_sum *sums, \
               size_t constraints, uint32_t first, const pbcnf_options *options, type *put, size_t room, pbcnf_size *size, \
               pbcnf_refusal *refusal) { \
    return (void)words, (void)count, (void)constraints, (void)first, (void)options, (void)room, (void)size, (void)refusal, \
           seen(coefficients, literals, sums, put); \
  }
ALL(pbcnf_constraints, int32_t)
ALL(pbcnf_constraints_derive, uint8_t)

uint8_t pbcnf_decode(const uint8_t *opb, size_t opb_len, const pbcnf_bound *bound, const uint8_t *model, size_t model_len, uint8_t *said,
                     size_t room, uint64_t *length, pbcnf_refusal *refusal) {
  return (void)opb_len, (void)model_len, (void)room, (void)length, (void)refusal, seen(opb, bound, model, said);
}

uint8_t pbcnf_softs(const uint8_t *opb, size_t opb_len, const pbcnf_bound *bound, pbcnf_row *softs, size_t room, pbcnf_costs *costs,
                    pbcnf_refusal *refusal) {
  return (void)opb_len, (void)room, (void)costs, seen(opb, bound, softs, refusal);
}

uint8_t pbcnf_map(const uint8_t *opb, size_t opb_len, uint8_t *said, size_t room, uint64_t *length, pbcnf_refusal *refusal) {
  return (void)opb_len, (void)room, seen(opb, said, length, refusal);
}

uint8_t pbcnf_check(const uint8_t *opb, size_t opb_len, const pbcnf_bound *bound, const uint8_t *cnf, size_t cnf_len, const uint8_t *proof,
                    size_t proof_len, pbcnf_refusal *refusal) {
  return (void)opb_len, (void)cnf_len, (void)proof_len, (void)refusal, seen(opb, bound, cnf, proof);
}

uint8_t pbcnf_refute(const uint8_t *opb, size_t opb_len, const pbcnf_bound *bound, const uint8_t *cnf, size_t cnf_len,
                     const uint8_t *proof, size_t proof_len, const uint8_t *lrat, size_t lrat_len, pbcnf_refusal *refusal) {
  return (void)opb_len, (void)bound, (void)cnf_len, (void)proof_len, (void)lrat_len, (void)refusal, seen(opb, cnf, proof, lrat);
}

uint8_t pbcnf_words(const pbcnf_refusal *refusal, uint8_t *said, size_t room, uint64_t *length) {
  return (void)room, seen(refusal, said, length, length);
}
