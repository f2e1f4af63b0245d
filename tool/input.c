/* The text, read whole from a file or from standard input. */
#include <errno.h>
#include <fcntl.h>
#include <stdlib.h>
#include <string.h>
#include <unistd.h>

#include "tool.h"

/* Reads up to `most` bytes into the room; answers errno of the first failure, or 0. */
static int read_up_to(int file, unsigned char *room, size_t most, size_t *count) {
  *count = 0;
  while (*count < most) {
    ssize_t taken = read(file, room + *count, most - *count);
    if (taken == 0) return 0;
    if (taken > 0) *count += (size_t)taken;
    else if (errno != EINTR) return errno;
  }
  return 0;
}

bool is_typed(const char *name) { return strcmp(name, "-") == 0 && isatty(0) == 1; }

bool read_file(const char *name, size_t most, unsigned char **text, size_t *count) {
  bool standard = strcmp(name, "-") == 0;
  int file = standard ? 0 : open(name, O_RDONLY | O_NOCTTY | O_CLOEXEC);
  int error = file < 0 ? errno : 0;
  *text = NULL;
  if (error == 0) {
    *text = malloc(most);
    error = *text == NULL ? ENOMEM : read_up_to(file, *text, most, count);
  }
  if (file >= 0 && !standard) (void)close(file);
  if (error == 0) return true;
  free(*text);
  *text = NULL;
  complain("cannot read", standard ? "standard input" : name, error);
  return false;
}
