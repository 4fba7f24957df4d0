/* What stands, by ids and by the fresh variables that it has. A list of ids is cleared of those that are gone when it is asked for. */
#include "database.h"
#include <string.h>

static Entry **entries;
static uint64_t count, room;
static Ids *lists;
static uint32_t original, variables;

void begin_database(uint32_t all, uint32_t of_problem) {
  variables = all;
  original = of_problem;
  lists = grown(NULL, ((size_t)variables + 1) * sizeof *lists);
  memset(lists, 0, ((size_t)variables + 1) * sizeof *lists);
}

uint64_t last_id(void) {
  return count;
}

Entry *entry_at(uint64_t id) {
  if (id < 1 || id > count || !entries[id]) stop(DENIED, "an id of no constraint");
  return entries[id];
}

int is_fresh(uint32_t variable) {
  return variable > original;
}

const Ids *ids_of(uint32_t variable) {
  Ids *list = &lists[variable];
  size_t left = 0;
  for (size_t i = 0; i < list->count; i++)
    if (entries[list->ids[i]]) list->ids[left++] = list->ids[i];
  list->count = left;
  return list;
}

void join_database(const Constraint *constraint) {
  Entry *entry = grown(NULL, sizeof *entry + constraint->count * sizeof(Term));
  entry->count = constraint->count;
  entry->is_out = 0;
  entry->degree = constraint->degree;
  memcpy(entry->terms, constraint->terms, constraint->count * sizeof(Term));
  if (count + 1 >= room) {
    room = 2 * room + 1024;
    entries = grown(entries, room * sizeof *entries);
  }
  entries[++count] = entry;
  for (uint32_t i = 0; i < entry->count; i++) {
    const uint32_t variable = variable_of(entry->terms[i].literal);
    if (is_fresh(variable)) push_id(&lists[variable], count);
  }
}

void delete_entry(uint64_t id) {
  if (entry_at(id)->is_out) stop(DENIED, "a constraint that was put out is deleted");
  free(entries[id]);
  entries[id] = NULL;
}
