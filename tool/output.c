/* Bytes on their way out: to standard output, to standard error, or to a file that appears whole or not at all. Written straight to the system, so that
   every failure is seen and told. */
#include <errno.h>
#include <fcntl.h>
#include <signal.h>
#include <stdio.h>
#include <stdlib.h>
#include <string.h>
#include <sys/ioctl.h>
#include <sys/stat.h>
#include <unistd.h>

#include "tool.h"

struct output standard_error = {.file = 2, .name = "standard error"};

/* The temporary file to remove when one of these signals ends the tool. */
static const char *volatile pending;
static const int ending[] = {SIGHUP, SIGINT, SIGQUIT, SIGTERM};
enum { ENDING = sizeof ending / sizeof *ending };

/* ---- bytes */

void flush(struct output *out) {
  size_t done = 0;
  while (out->file != DROPPED && out->error == 0 && done < out->used) {
    ssize_t written = write(out->file, out->waiting + done, out->used - done);
    if (written > 0) done += (size_t)written;
    else if (written == 0) out->error = EIO;
    else if (errno != EINTR) out->error = errno;
  }
  out->used = 0;
}

void put(struct output *out, const void *bytes, size_t count) {
  const unsigned char *from = bytes;
  while (count > 0) {
    size_t part = sizeof out->waiting - out->used;
    if (part > count) part = count;
    memcpy(out->waiting + out->used, from, part);
    out->used += part;
    from += part;
    count -= part;
    if (out->used == sizeof out->waiting) flush(out);
  }
}

void put_text(struct output *out, const char *text) { put(out, text, strlen(text)); }

void put_number(struct output *out, int64_t number) {
  char digits[20];
  size_t first = sizeof digits;
  uint64_t rest = number < 0 ? 0 - (uint64_t)number : (uint64_t)number;
  do {
    digits[--first] = (char)('0' + rest % 10);
    rest /= 10;
  } while (rest > 0);
  if (number < 0) put_text(out, "-");
  put(out, digits + first, sizeof digits - first);
}

void put_decimal(struct output *out, int64_t value, int decimals) {
  char digits[20];
  int64_t whole = value < 0 ? -value : value;
  int count = 0;
  for (int i = decimals; i > 0; whole /= 10) digits[--i] = (char)('0' + whole % 10);
  for (int i = 0; i < decimals; i++) count = digits[i] == '0' ? count : i + 1;
  if (value < 0) put_text(out, "-");
  put_number(out, whole);
  if (count > 0) put_text(out, ".");
  put(out, digits, (size_t)count);
}

void put_count(struct output *out, uint64_t count, const char *what) {
  put_number(out, (int64_t)count);
  put_text(out, what);
  if (count != 1) put_text(out, "s");
}

size_t columns_of(unsigned char byte) { return byte == '\t' || (byte >= ' ' && byte < 127) ? 1 : 4; }

void put_visible(struct output *out, unsigned char byte) {
  static const char hex[] = "0123456789ABCDEF";
  char shown[] = {'\\', 'x', hex[byte >> 4], hex[byte & 15]};
  size_t columns = columns_of(byte);
  if (columns == 1) shown[0] = byte == '\t' ? ' ' : (char)byte;
  put(out, shown, columns);
}

size_t take_character(const char *from, uint32_t *code) {
  static const struct {
    unsigned char mask, head;
    uint32_t least;
  } forms[] = {{0xe0, 0xc0, 0x80}, {0xf0, 0xe0, 0x800}, {0xf8, 0xf0, 0x10000}};
  unsigned char first = (unsigned char)*from;
  for (size_t i = 0; i < 3; i++) {
    if ((first & forms[i].mask) != forms[i].head) continue;
    *code = first & (unsigned char)~forms[i].mask;
    for (size_t j = 1; j <= i + 1; j++) {
      if (((unsigned char)from[j] & 0xc0) != 0x80) return 1;
      *code = *code << 6 | ((unsigned char)from[j] & 0x3f);
    }
    return *code >= forms[i].least && *code < 0x110000 ? i + 2 : 1;
  }
  return 1;
}

/* Controls that are more than one byte long: of the second table of controls, of the direction of writing, of lines, and marks of no width. */
static bool is_control(uint32_t code) {
  return (code >= 0x80 && code < 0xa0) || code == 0xad || code == 0x61c || (code >= 0x200b && code <= 0x200f) || (code >= 0x2028 && code <= 0x202e) ||
         (code >= 0x2060 && code <= 0x206f) || code == 0xfeff || (code >= 0xd800 && code < 0xe000) || (code >= 0xe0000 && code < 0xe0080);
}

void put_name(struct output *out, const char *name) {
  while (*name != 0) {
    uint32_t code = 0;
    size_t count = take_character(name, &code);
    if (count > 1 && !is_control(code)) put(out, name, count);
    else for (size_t i = 0; i < count; i++) put_visible(out, (unsigned char)name[i]);
    name += count;
  }
}

void put_marked(struct output *out, const char *mark, const char *text) {
  if (out->coloured) {
    put_text(out, "\033[");
    put_text(out, mark);
    put_text(out, "m");
  }
  put_text(out, text);
  if (out->coloured) put_text(out, "\033[0m");
}

void put_paragraph(struct output *out, const char *text) {
  size_t column = 0;
  while (*text != 0) {
    size_t word = 0;
    while (text[word] != 0 && text[word] != ' ') word++;
    bool breaks = column > 0 && out->columns != 0 && column + 1 + word >= out->columns;
    put_text(out, column == 0 ? "  " : breaks ? "\n  " : " ");
    column = column == 0 || breaks ? 2 + word : column + 1 + word;
    put(out, text, word);
    text += word;
    while (*text == ' ') text++;
  }
  put_text(out, "\n");
}

void look_at_terminal(struct output *out) {
  enum { LEAST_COLUMNS = 40, USUAL_COLUMNS = 80, MOST_COLUMNS = 1000 };
  if (isatty(out->file) != 1) return;
  struct winsize size = {0};
  size_t columns = ioctl(out->file, TIOCGWINSZ, &size) == 0 && size.ws_col > 0 ? size.ws_col : USUAL_COLUMNS;
  out->columns = columns < LEAST_COLUMNS ? LEAST_COLUMNS : columns > MOST_COLUMNS ? MOST_COLUMNS : columns;
  const char *refused = getenv("NO_COLOR"), *terminal = getenv("TERM");
  out->coloured = (refused == NULL || *refused == 0) && terminal != NULL && *terminal != 0 && strcmp(terminal, "dumb") != 0;
}

enum status complain(const char *what, const char *name, int error) {
  put_text(&standard_error, "cif: ");
  put_text(&standard_error, what);
  put_text(&standard_error, " ");
  put_name(&standard_error, name);
  if (error != 0) {
    put_text(&standard_error, ": ");
    put_text(&standard_error, strerror(error));
  }
  put_text(&standard_error, "\n");
  flush(&standard_error);
  return COULD_NOT_RUN;
}

/* ---- files */

static void start(struct output *out, int file, const char *name) {
  out->file = file;
  out->error = 0;
  out->used = 0;
  out->name = name;
  out->path = NULL;
  out->temporary = NULL;
}

static char *copy_text(const char *text) {
  size_t count = strlen(text) + 1;
  char *copy = malloc(count);
  return copy == NULL ? NULL : memcpy(copy, text, count);
}

/* A name in the directory of `path` that tells whose it is: its length does not depend on that of the last part, which may be as long as names can be. */
static char *name_beside(const char *path, int attempt) {
  const char *slash = strrchr(path, '/');
  size_t directory = slash == NULL ? 0 : (size_t)(slash - path) + 1;
  char *name = malloc(directory + 64);
  if (name == NULL) return NULL;
  memcpy(name, path, directory);
  struct output spelled = {.file = DROPPED};
  put_text(&spelled, ".cif-");
  put_number(&spelled, (int64_t)getpid());
  put_text(&spelled, "-");
  put_number(&spelled, attempt);
  put(&spelled, ".tmp", 5);
  memcpy(name + directory, spelled.waiting, spelled.used);
  return name;
}

/* Makes a file and notes that it is to be removed, and lets no signal come between. */
static int create_pending(const char *name, mode_t mode) {
  sigset_t caught, before;
  (void)sigemptyset(&caught);
  for (int i = 0; i < ENDING; i++) (void)sigaddset(&caught, ending[i]);
  (void)sigprocmask(SIG_BLOCK, &caught, &before);
  int file = open(name, O_WRONLY | O_CREAT | O_EXCL | O_NOCTTY | O_CLOEXEC, mode);
  int error = errno;
  if (file >= 0) pending = name;
  (void)sigprocmask(SIG_SETMASK, &before, NULL);
  errno = error;
  return file;
}

/* Makes the temporary file; a name that is taken, by an earlier run that was killed, is passed over. */
static bool make_temporary(struct output *out, mode_t mode) {
  for (int attempt = 0; attempt < 1000; attempt++) {
    char *name = name_beside(out->path, attempt);
    if (name == NULL) break;
    out->file = create_pending(name, mode);
    if (out->file >= 0) {
      out->temporary = name;
      return true;
    }
    int error = errno;
    free(name);
    errno = error;
    if (error != EEXIST) break;
  }
  return false;
}

/* A file that is there keeps its permissions, which the temporary file has from the start, and a link to it stays a link. */
static bool replace_file(struct output *out, const char *name, const struct stat *old) {
  out->path = old == NULL ? copy_text(name) : realpath(name, NULL);
  if (out->path == NULL) return false;
  if (old != NULL && access(out->path, W_OK) != 0) return false;
  if (!make_temporary(out, old == NULL ? 0666 : old->st_mode & 0777)) return false;
  if (old != NULL) (void)fchmod(out->file, old->st_mode & 0777);
  return true;
}

/* The open file that a name such as /dev/stdout or /dev/fd/3 stands for, or DROPPED. */
static int open_already(const char *name) {
  static const char *const folders[] = {"/dev/fd/", "/proc/self/fd/"};
  if (strcmp(name, "/dev/stdout") == 0) return 1;
  if (strcmp(name, "/dev/stderr") == 0) return 2;
  for (int i = 0; i < 2; i++) {
    size_t count = strlen(folders[i]);
    int file = 0;
    if (strncmp(name, folders[i], count) != 0 || name[count] == 0) continue;
    for (name += count; *name >= '0' && *name <= '9' && file < 100000; name++) file = file * 10 + (*name - '0');
    return *name == 0 ? file : DROPPED;
  }
  return DROPPED;
}

static bool open_file(struct output *out, const char *name) {
  struct stat old;
  int already = open_already(name);
  if (already != DROPPED) {
    /* Written to as it is: the file that it leads to must not be replaced. */
    out->file = dup(already);
    return out->file >= 0;
  }
  if (stat(name, &old) != 0) return errno == ENOENT && *name != 0 && replace_file(out, name, NULL);
  if (S_ISREG(old.st_mode)) return replace_file(out, name, &old);
  if (S_ISDIR(old.st_mode)) {
    errno = EISDIR;
    return false;
  }
  /* A device or a pipe is written to as it is: it must not be replaced by a file. */
  out->file = open(name, O_WRONLY | O_NOCTTY | O_CLOEXEC);
  return out->file >= 0;
}

static void forget_names(struct output *out) {
  pending = NULL;
  free(out->temporary);
  free(out->path);
  out->temporary = NULL;
  out->path = NULL;
}

bool open_output(struct output *out, const char *name) {
  if (name == NULL || strcmp(name, "-") == 0) {
    start(out, 1, "standard output");
    return true;
  }
  start(out, DROPPED, name);
  if (open_file(out, name)) return true;
  int error = errno;
  forget_names(out);
  complain("cannot write", name, error);
  return false;
}

void abandon_output(struct output *out) {
  if (out->file != DROPPED) (void)close(out->file);
  if (out->temporary != NULL) (void)unlink(out->temporary);
  out->file = DROPPED;
  forget_names(out);
}

static void note_failure(struct output *out, int result) {
  if (result != 0 && out->error == 0) out->error = errno;
}

/* Down to the disk, where the file system knows of such a thing: EINVAL says that it does not. */
static int settle(int file) { return fsync(file) != 0 && errno != EINVAL ? -1 : 0; }

bool close_output(struct output *out) {
  flush(out);
  if (out->temporary != NULL && out->error == 0) note_failure(out, settle(out->file));
  note_failure(out, close(out->file));
  out->file = DROPPED;
  if (out->temporary != NULL && out->error == 0) note_failure(out, rename(out->temporary, out->path));
  if (out->error == 0) {
    forget_names(out);
    return true;
  }
  /* A pipe that nobody reads any more wants no more, and no message. */
  bool unwanted = out->error == EPIPE && out->temporary == NULL;
  abandon_output(out);
  if (!unwanted) complain("cannot write", out->name, out->error);
  return false;
}

/* ---- progress */

enum { PATIENCE = 2 }; /* seconds */

static struct output progress = {.file = DROPPED};
static volatile sig_atomic_t progress_shown;

static void show_progress(int number) {
  int error = errno;
  const void *shown = progress_shown ? "." : (const void *)progress.waiting;
  if (write(2, shown, progress_shown ? 1 : progress.used) < 0) progress_shown = 1;
  progress_shown = 1;
  (void)signal(number, show_progress);
  (void)alarm(PATIENCE);
  errno = error;
}

void start_progress(const char *name) {
  if (standard_error.columns == 0) return;
  progress.used = 0;
  progress_shown = 0;
  put_text(&progress, "cif: reading ");
  put_name(&progress, name);
  put_text(&progress, " ");
  (void)signal(SIGALRM, show_progress);
  (void)alarm(PATIENCE);
}

void end_progress(void) {
  if (standard_error.columns == 0) return;
  (void)alarm(0);
  if (progress_shown) put_text(&standard_error, "\n");
  flush(&standard_error);
  progress_shown = 0;
}

/* ---- guards */

static void remove_pending(int number) {
  if (pending != NULL) (void)unlink(pending);
  (void)signal(number, SIG_DFL);
  (void)raise(number);
}

static void catch_signal(int number) {
  if (signal(number, remove_pending) == SIG_IGN) (void)signal(number, SIG_IGN);
}

void guard_files(void) {
  /* Opened the wrong way round, so that reading the one and writing the others still fails as it would on a closed file. */
  static const int wrong_way[] = {O_WRONLY, O_RDONLY, O_RDONLY};
  for (int file = 0; file < 3; file++) {
    if (fcntl(file, F_GETFD) < 0) (void)open("/dev/null", wrong_way[file]);
  }
  (void)signal(SIGPIPE, SIG_IGN);
  (void)signal(SIGXFSZ, SIG_IGN);
  for (int i = 0; i < ENDING; i++) catch_signal(ending[i]);
}
