/* The chunks of the text, and the one file that a run writes. */
#define _POSIX_C_SOURCE 200809L
#include "clauses.h"
#include <fcntl.h>
#include <stdio.h>
#include <unistd.h>

/* A chunk has room after the place from which on it is full: for some literals of a long clause, or a short clause. */
enum { CHUNK = 1 << 20, ROOM = 4096 };

struct Made made;

static struct {
  unsigned char *bytes;
  size_t length;
} *chunks;
static size_t chunk_count;

const char PAIRS[201] = "00010203040506070809101112131415161718192021222324252627282930313233343536373839404142434445464748495051525354"
                        "555657585960616263646566676869707172737475767778798081828384858687888990919293949596979899";

static void end_chunk(void) {
  if (chunk_count) chunks[chunk_count - 1].length = (size_t)(made.at - chunks[chunk_count - 1].bytes);
}

void next_chunk(void) {
  end_chunk();
  chunks = grown(chunks, (chunk_count + 1) * sizeof *chunks);
  made.at = chunks[chunk_count++].bytes = grown(NULL, CHUNK);
  made.full = made.at + CHUNK - ROOM;
}

void begin_clauses(uint32_t variables) {
  if (variables >= INT32_MAX) stop(WIDE, "the variables");
  made.next = (int32_t)variables + 1;
  next_chunk();
}

int32_t fresh(uint64_t count) {
  int32_t first = made.next;
  if (count >= (uint64_t)(INT32_MAX - first)) stop(WIDE, "the variables");
  made.next += (int32_t)count;
  return first;
}

static void write_all(int file, const void *bytes, size_t length) {
  const unsigned char *at = bytes;
  while (length) {
    ssize_t taken = write(file, at, length);
    if (taken < 0) stop(UNWRITTEN, "write fault");
    at += taken;
    length -= (size_t)taken;
  }
}

void write_clauses(const char *name) {
  char head[64];
  int file = open(name, O_WRONLY | O_CREAT | O_TRUNC, 0666);
  if (file < 0) stop(UNWRITTEN, "write fault");
  end_chunk();
  int length = snprintf(head, sizeof head, "p cnf %d %llu\n", made.next - 1, (unsigned long long)made.clauses);
  write_all(file, head, (size_t)length);
  for (size_t i = 0; i < chunk_count; i++) write_all(file, chunks[i].bytes, chunks[i].length);
  if (fsync(file) || close(file)) stop(UNWRITTEN, "write fault");
}
