/* Reads one file, and writes the bytes of another into a third until the disk has them, in pieces of 64 KiB: the least that an encoder
 * does.
 *
 * usage: copy OPB CNF OTHER */
#define _POSIX_C_SOURCE 200809L
#include "text.h"
#include <fcntl.h>
#include <unistd.h>

static unsigned char piece[65536];

static ssize_t read_piece(int file) {
  const ssize_t count = read(file, piece, sizeof piece);
  if (count < 0) stop(UNREAD, "read fault");
  return count;
}

int main(int count, char **words) {
  if (count != 4) stop(USAGE, "usage: copy OPB CNF OTHER");
  const int opb = open(words[1], O_RDONLY), cnf = open(words[2], O_RDONLY);
  const int other = open(words[3], O_WRONLY | O_CREAT | O_TRUNC, 0666);
  while (read_piece(opb) > 0) continue;
  for (ssize_t length = read_piece(cnf); length > 0; length = read_piece(cnf))
    if (write(other, piece, (size_t)length) != length) stop(UNWRITTEN, "write fault");
  if (fsync(other) || close(other)) stop(UNWRITTEN, "write fault");
  return 0;
}
