// What the disk itself takes for commits as the journal has them: a record and then the byte that marks it, with a sync behind each.
// disk FILE COUNT BYTES: so many commits, each of so many bytes beside the mark
#include <fcntl.h>
#include <stdlib.h>
#include <unistd.h>

int main(int count, char **words) {
  if (count != 4) return 2;
  long commits = atol(words[2]), length = atol(words[3]), end = 100;
  char *record = calloc(1, length);
  int file = open(words[1], O_RDWR | O_CREAT | O_TRUNC, 0600);
  if (!record || file < 0 || pwrite(file, record, 1, end - 1) != 1) return 3;
  for (long number = 0; number < commits; number++) {
    if (pwrite(file, record, length, end) != length || fdatasync(file)) return 3;
    if (pwrite(file, "\1", 1, end - 1) != 1 || fdatasync(file)) return 3;
    end += length;
  }
  return 0;
}
