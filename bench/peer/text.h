/* What all the programs share: a file as one piece of memory, rooms that grow, and how a run ends that does not go well. */
#ifndef PEER_TEXT_H
#define PEER_TEXT_H

#include <stddef.h>
#include <stdint.h>

enum { REFUSED = 1, USAGE = 2, WIDE = 3, UNREAD = 4, UNWRITTEN = 5, NO_MEMORY = 6, DENIED = 7, NOT_JUDGED = 8 };

/* The bytes that are not read yet. After the end stand 64 zeros, so that looking ahead by some bytes needs no test. */
typedef struct {
  const unsigned char *at, *end;
} Text;

Text text_of(const char *name);

/* Prints why on standard error, and ends with the status. */
void stop(int status, const char *why);

/* As realloc, but it ends the run where there is no memory. */
void *grown(void *room, size_t bytes);

static inline int is_digit(unsigned char byte) {
  return (unsigned)byte - '0' < 10;
}

static inline void skip_line(Text *text) {
  while (text->at < text->end && *text->at != '\n') text->at++;
}

/* The number that stands here, without a sign; one of more than 18 digits is taken as 2^63 - 1. */
static inline int64_t digits(Text *text) {
  const unsigned char *at = text->at;
  uint64_t value = 0;
  while (is_digit(*at)) value = value * 10 + (*at++ - '0');
  if (at == text->at) stop(REFUSED, "a number is missing");
  const int is_long = at - text->at > 18;
  text->at = at;
  return is_long ? INT64_MAX : (int64_t)value;
}

#endif
