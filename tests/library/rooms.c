/* Rooms that are ample, exact, one item too small and empty: what is put, what is reported, and what stays as it was. */
#include "calls.h"

enum { AMPLE = 1 << 16 };

/* How a call's size is spoiled before it is made: with every status the call reports its own. */
static struct answer answer_of(const struct problem *p, const struct call *call, void *room, size_t count) {
  struct answer a = spoiled();
  if (encodes(call)) memset(&a.size, 0x3c, sizeof a.size);
  a.length = 7;
  call->make(p, room, count, &a);
  return a;
}

static void try_rooms(const struct problem *p, const struct call *call, long where) {
  uint8_t *ample = room_of(call, AMPLE), *exact, *scant;
  _Alignas(pbcnf_row) uint8_t nothing[32];
  struct answer a = answer_of(p, call, ample, AMPLE), b;
  judge(a.status == due(p, call), "the status is due", call->name, where);
  judge(a.refusal.status == a.status, "the refusal has the status", call->name, where);
  if (a.status == PBCNF_DONE) judge(is_plain(&a.refusal, PBCNF_DONE), "nothing is refused", call->name, where);
  if (a.status != PBCNF_DONE) {
    judge(is_untouched(ample, 0, call->item * AMPLE), "nothing is put", call->name, where);
    judge(is_bare(&a), "no size is reported", call->name, where);
    free(ample);
    return;
  }
  judge(a.length <= AMPLE && is_untouched(ample, call->item * a.length, call->item * AMPLE), "what comes after stays as it was", call->name, where);
  exact = room_of(call, a.length);
  b = answer_of(p, call, exact, a.length);
  judge(b.status == PBCNF_DONE && b.length == a.length, "an exact room is enough", call->name, where);
  judge(memcmp(exact, ample, call->item * a.length) == 0, "the same is put into it", call->name, where);
  judge(memcmp(&a.size, &b.size, sizeof a.size) == 0, "the same sizes are reported", call->name, where);
  b = answer_of(p, call, nothing, 0);
  judge(b.status == (a.length ? PBCNF_NO_ROOM : PBCNF_DONE) && b.length == a.length, "with an empty room the size is reported", call->name, where);
  judge(memcmp(&a.size, &b.size, sizeof a.size) == 0, "and the sizes", call->name, where);
  judge(is_plain(&b.refusal, b.status), "and no more", call->name, where);
  if (a.length) {
    scant = room_of(call, a.length - 1);
    b = answer_of(p, call, scant, a.length - 1);
    judge(b.status == PBCNF_NO_ROOM && b.length == a.length, "one item too few is no room", call->name, where);
    judge(is_untouched(scant, 0, call->item * (a.length - 1)), "such a room stays", call->name, where);
    free(scant);
  }
  free(exact);
  free(ample);
}

/* Texts that are refused. */
static void try_refused(const char *opb, uint8_t status, long where) {
  const struct problem p = {opb, "", PBCNF_OPTIONS_DEFAULT, PBCNF_NO_BOUND};
  for (size_t i = 0; i < COUNT(calls) && calls[i].make != make_narrow; i++) {
    uint8_t *room = room_of(&calls[i], 64);
    struct answer a = answer_of(&p, &calls[i], room, 64);
    judge(a.status == status && a.refusal.status == status, "the text is refused", calls[i].name, where);
    judge(is_bare(&a) && is_untouched(room, 0, calls[i].item * 64), "nothing is put or reported", calls[i].name, where);
    judge(a.refusal.file == PBCNF_FILE_OPB && a.refusal.line == 1 && a.refusal.column > 1, "its place is reported", calls[i].name, where);
    free(room);
  }
}

/* The words of a refusal, which are put into a room too. */
static void try_words(void) {
  pbcnf_refusal r;
  const pbcnf_options options = PBCNF_OPTIONS_DEFAULT;
  const pbcnf_bound bound = PBCNF_NO_BOUND;
  pbcnf_size size;
  uint8_t room[160], *exact, *scant;
  uint64_t length = 9, again = 9;
  static const char words[] = "pbcnf: OPB 1:10: expected an integer";
  judge(pbcnf_encode((const uint8_t *)"+1 x1 >= ;", 10, &options, &bound, room, sizeof room, &size, &r) == PBCNF_REFUSED, "no text", "encode", 0);
  memset(room, 0xa5, sizeof room);
  judge(pbcnf_words(&r, room, sizeof room, &length) == PBCNF_DONE && length == strlen(words), "all words are put", "words", 0);
  judge(memcmp(room, words, strlen(words)) == 0 && is_untouched(room, length, sizeof room), "just these", "words", 0);
  exact = malloc(length);
  scant = malloc(length - 1);
  if (!exact || !scant) exit(99);
  memset(scant, 0xa5, length - 1);
  judge(pbcnf_words(&r, exact, length, &again) == PBCNF_DONE && again == length && !memcmp(exact, words, length), "an exact room", "words", 0);
  judge(pbcnf_words(&r, scant, length - 1, &again) == PBCNF_NO_ROOM && again == length, "one byte too few", "words", 0);
  judge(is_untouched(scant, 0, length - 1), "such a room stays", "words", 0);
  judge(pbcnf_words(&r, room, 0, &again) == PBCNF_NO_ROOM && again == length, "an empty room", "words", 0);
  r.expected = 999;
  judge(pbcnf_words(&r, room, sizeof room, &again) == PBCNF_USAGE && again == 0, "numbers that no call fills in", "words", 0);
  judge(pbcnf_encode((const uint8_t *)"", 0, &options, &bound, room, sizeof room, &size, &r) == PBCNF_DONE, "an empty text", "encode", 0);
  judge(pbcnf_words(&r, room, sizeof room, &again) == PBCNF_DONE && again == 0, "no words where all was done", "words", 0);
  free(exact);
  free(scant);
}

int main(void) {
  for (size_t i = 0; i < COUNT(problems); i++)
    for (size_t j = 0; j < COUNT(calls); j++) try_rooms(&problems[i], &calls[j], (long)i);
  try_refused("+1 x1 >= ;\n", PBCNF_REFUSED, 0);
  try_refused("min: x1 ;\n", PBCNF_REFUSED, 1);
  try_refused("+1 x2147483648 >= 1 ;\n", PBCNF_LIMIT, 2);
  try_words();
  return conclude();
}
