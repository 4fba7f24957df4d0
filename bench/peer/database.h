/* The constraints of a derivation that stand, by their ids from 1 on. */
#ifndef PEER_DATABASE_H
#define PEER_DATABASE_H

#include "constraint.h"

typedef struct {
  uint32_t count;
  int is_out;
  int64_t degree;
  Term terms[];
} Entry;

/* The ids of the constraints that have a variable; some of them may be gone. */
typedef struct {
  uint64_t *ids;
  size_t count, room;
} Ids;

void begin_database(uint32_t variables, uint32_t original);

/* How many ids were given. */
uint64_t last_id(void);

/* The constraint of an id; where it does not stand, the run ends. */
Entry *entry_at(uint64_t id);

/* The ids of the constraints that have a fresh variable, without those that are gone. */
const Ids *ids_of(uint32_t variable);
int is_fresh(uint32_t variable);
void join_database(const Constraint *constraint);
void delete_entry(uint64_t id);

static inline void push_id(Ids *list, uint64_t id) {
  if (list->count == list->room) {
    list->room = 2 * list->room + 4;
    list->ids = grown(list->ids, list->room * sizeof *list->ids);
  }
  list->ids[list->count++] = id;
}

#endif
