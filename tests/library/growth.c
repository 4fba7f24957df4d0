/* Each allocation of each call refused in turn: the call answers that it is out of memory, and has put and reported nothing, or it
 * does just as it does without the refusal. Whatever it answers, it has given back all that it took.
 *
 * Linked with --wrap=malloc, --wrap=realloc and --wrap=free, so that the library's calls come here. */
#include "calls.h"

enum { ROOM = 1 << 14 };

void *__real_malloc(size_t);
void *__real_realloc(void *, size_t);
void __real_free(void *);

/* How many allocations are left before one is refused, none where it is negative; and how many blocks are out. */
static long left = -1, blocks;

static int is_refused(void) { return left >= 0 && left-- == 0; }

void *__wrap_malloc(size_t size) {
  void *made = is_refused() ? NULL : __real_malloc(size);
  blocks += made != NULL;
  return made;
}

void *__wrap_realloc(void *old, size_t size) {
  void *made = is_refused() ? NULL : __real_realloc(old, size);
  blocks += made != NULL && old == NULL;
  return made;
}

void __wrap_free(void *old) {
  blocks -= old != NULL;
  __real_free(old);
}

/* A row is the greatest item. */
static _Alignas(pbcnf_row) uint8_t room[ROOM * sizeof(pbcnf_row)], whole[ROOM * sizeof(pbcnf_row)];

static int is_whole(const struct answer *a, const struct answer *b, size_t item) {
  return a->status == b->status && a->length == b->length && memcmp(&a->size, &b->size, sizeof a->size) == 0 &&
         memcmp(&a->refusal, &b->refusal, sizeof a->refusal) == 0 && memcmp(room, whole, item * ROOM) == 0;
}

static int is_wanting(const struct answer *a, size_t item) {
  return a->status == PBCNF_NO_MEMORY && is_bare(a) && is_plain(&a->refusal, PBCNF_NO_MEMORY) && is_untouched(room, 0, item * ROOM);
}

static void try_growth(const struct problem *p, const struct call *call, long where) {
  struct answer a = spoiled(), b;
  long refused, before = blocks, wanting = 0, bad = 0;
  memset(whole, 0xa5, sizeof whole);
  call->make(p, whole, ROOM, &a);
  for (refused = 0;; refused++) {
    b = spoiled();
    memset(room, 0xa5, call->item * ROOM);
    left = refused;
    call->make(p, room, ROOM, &b);
    if (left >= 0) break;
    wanting += is_wanting(&b, call->item);
    bad += (!is_wanting(&b, call->item) && !is_whole(&b, &a, call->item)) || blocks != before;
  }
  left = -1;
  judge(bad == 0, "an allocation that is refused is reported, or does no harm", call->name, where);
  judge(is_whole(&b, &a, call->item) && blocks == before, "with none refused all is done, and nothing is kept", call->name, where);
  judge(refused == 0 || wanting > 0, "some of them were missed", call->name, where);
}

int main(void) {
  for (size_t i = 0; i < COUNT(problems); i++)
    for (size_t j = 0; j < COUNT(calls); j++) try_growth(&problems[i], &calls[j], (long)i);
  return conclude();
}
