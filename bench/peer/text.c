/* Reads whole files. Nothing here is given back: a run is short. */
#define _POSIX_C_SOURCE 200809L
#include "text.h"
#include <fcntl.h>
#include <stdio.h>
#include <stdlib.h>
#include <string.h>
#include <sys/stat.h>
#include <unistd.h>

enum { PADDING = 64 };

void stop(int status, const char *why) {
  fprintf(stderr, "peer: %s\n", why);
  exit(status);
}

void *grown(void *room, size_t bytes) {
  void *other = realloc(room, bytes ? bytes : 1);
  if (!other) stop(NO_MEMORY, "out of memory");
  return other;
}

Text text_of(const char *name) {
  int file = open(name, O_RDONLY);
  struct stat about;
  if (file < 0 || fstat(file, &about)) stop(UNREAD, "read fault");
  size_t room = (size_t)about.st_size, length = 0;
  unsigned char *bytes = grown(NULL, room + PADDING);
  ssize_t taken;
  while (length < room && (taken = read(file, bytes + length, room - length)) > 0) length += (size_t)taken;
  if (length < room) stop(UNREAD, "read fault");
  close(file);
  memset(bytes + length, 0, PADDING);
  return (Text){bytes, bytes + length};
}
