/* The whole tool, from its words to its files: main.c and input.c and all that they lead to, over a stand-in for the archive whose answers are random and fit
   the tool's part of the bargain only. Reads and writes come in pieces, are interrupted and fail, and memory is short now and then: tool/fuzz compiles the tool
   with `main`, `read`, `write`, `malloc`, `calloc`, `fsync` and `rename` under the names that stand here. */
#include <dirent.h>
#include <errno.h>
#include <fcntl.h>
#include <stdio.h>
#include <stdlib.h>
#include <string.h>
#include <sys/stat.h>
#include <unistd.h>

#include "fuzz.h"

int cif_main(int count, char **words);
void __sanitizer_set_report_fd(void *file);
ssize_t fuzzed_read(int file, void *bytes, size_t count);
ssize_t fuzzed_write(int file, const void *bytes, size_t count);
void *fuzzed_malloc(size_t count);
void *fuzzed_calloc(size_t count, size_t size);
int fuzzed_fsync(int file);
int fuzzed_rename(const char *from, const char *to);

static char folder[4096]; /* under $TMPDIR, or else /tmp; the runs take place in it */
static int standard[3]; /* the files that the run itself was started with */
static int next_file;   /* the number that the next open file gets: another one later on means that some file was not closed */
static bool harsh;      /* in this run reads, writes and memory may fail */
static bool failed;     /* and something did */
static bool muted;      /* writing failed, so that nothing may have been told */

/* ---- what the tool calls instead of the system */

static bool fails(int error) {
  if (!harsh || below(60) != 0) return false;
  errno = error;
  failed = true;
  return true;
}

ssize_t fuzzed_read(int file, void *bytes, size_t count) {
  if (fails(EIO)) return -1;
  if (harsh && below(8) == 0) {
    errno = EINTR;
    return -1;
  }
  return read(file, bytes, harsh && count > 0 ? 1 + below(count < 900 ? (unsigned)count : 900) : count);
}

ssize_t fuzzed_write(int file, const void *bytes, size_t count) {
  if (fails(ENOSPC)) {
    muted = true;
    return -1;
  }
  if (harsh && below(8) == 0) {
    errno = EINTR;
    return -1;
  }
  return write(file, bytes, harsh && count > 1 ? 1 + below((unsigned)count) : count);
}

void *fuzzed_malloc(size_t count) { return fails(ENOMEM) ? NULL : malloc(count); }

void *fuzzed_calloc(size_t count, size_t size) { return fails(ENOMEM) ? NULL : calloc(count, size); }

/* The disk is not waited for: nothing that is looked at here depends on it. */
int fuzzed_fsync(int file) { return file < 0 || fails(EIO) ? -1 : 0; }

int fuzzed_rename(const char *from, const char *to) { return fails(EACCES) ? -1 : rename(from, to); }

/* ---- the stand-in for the archive: to the same bytes it always answers the same */

static uint64_t seed_of(const unsigned char *bytes, size_t count) {
  uint64_t seed = 88172645463325252u;
  for (size_t i = 0; i < count; i++) seed = (seed ^ bytes[i]) * 1099511628211u;
  return seed | 1;
}

static uint64_t count_shapes(struct bytes flat) {
  static struct shape shape;
  uint64_t count = 0;
  struct walk walk = walk_over(flat);
  while (next_shape(&walk, &shape)) count++;
  return count;
}

/* Any byte of the text may stand for a call. A text that is too long always gets 1: /dev/full has zeros without end. */
static void refuse(uint64_t answer[CIF_WORDS], size_t text_length) {
  uint64_t number = text_length > CIF_MOST_BYTES ? 1 : 1 + below(20);
  answer[CIF_NUMBER] = number == 19 ? 25 : number; /* the reader has 25, though not for this tool */
  answer[CIF_LINE] = answer[CIF_COLUMN] = 1 + below(1000);
  if (number != 1 && number != 18) answer[CIF_PLACE] = below((unsigned)text_length + 1);
  if ((number >= 11 && number <= 17) || number == 20) answer[CIF_OPEN_CALLS] = below(CIF_MOST_OPEN_CALLS + 1);
  for (size_t i = 0; i < answer[CIF_OPEN_CALLS]; i++) answer[CIF_CHAIN + i] = below((unsigned)text_length + 1);
}

void cif_flatten(const unsigned char *text, size_t text_length, int32_t *words, size_t words_length, unsigned char *room, size_t room_length, uint64_t answer[CIF_WORDS]) {
  static struct output flat;
  uint64_t kept = fuzz_state;
  fuzz_state = seed_of(text, text_length);
  memset(answer, 0, CIF_WORDS * sizeof *answer);
  flat = (struct output){.file = DROPPED};
  demand(words != NULL && words_length >= text_length, "the words", &flat);
  memset(words, 0, words_length * sizeof *words);
  if (text_length > CIF_MOST_BYTES || below(3) == 0) {
    refuse(answer, text_length);
  } else {
    put_random_flat(&flat);
    if (below(30) == 0) damage(&flat);
    demand(room_length == CIF_MOST_BYTES, "the room", &flat);
    memcpy(room, flat.waiting, flat.used);
    answer[CIF_LENGTH] = flat.used;
    answer[CIF_SHAPES] = count_shapes((struct bytes){room, flat.used});
    answer[CIF_CALLS] = below(4);
    answer[CIF_REDEFINITIONS] = below(3);
  }
  fuzz_state = kept;
}

/* Warnings whose places are anywhere in the text; now and then more than are told, and some that no definition and no call of the text is for. */
static int warn(char *lines, size_t text_length) {
  int length = 0;
  for (unsigned count = below(4) == 0 ? below(60) : 0; count > 0; count--) {
    if (below(2) == 0) length += snprintf(lines + length, 60, "Warning: symbol %u redefined.\n", below(4) == 0 ? below(16777216) : 1);
    else length += snprintf(lines + length, 60, "Warning: dangling references after DD.\t%u\n", below((unsigned)text_length + 1));
  }
  return length;
}

size_t cif_list(const unsigned char *text, size_t text_length, int32_t *words, size_t words_length, const unsigned char *flat, size_t flat_length,
                const uint64_t answer[CIF_WORDS], unsigned char *out, size_t out_length) {
  char lines[400 + 60 * 60];
  uint64_t kept = fuzz_state;
  int length = 0;
  demand(words != NULL && words_length >= text_length, "the words", &standard_error);
  fuzz_state = seed_of(flat, flat_length);
  int far = (int)below(67108861), near = (int)below(300);
  bool some = below(4) != 0;
  if (answer[CIF_NUMBER] != 0) {
    length = snprintf(lines, 200, "refused\t%u\t%u\n", (unsigned)answer[CIF_NUMBER], (unsigned)answer[CIF_PLACE]);
  } else {
    if (some) length = snprintf(lines, 200, "shape\t1\tA\tR\t1 0 0\n");
    fuzz_state = seed_of(text, text_length);
    length += warn(lines + length, text_length);
    if (some) length += snprintf(lines + length, 200, "total\t1\t0\t0\nwindow\t%d\t%d\t%d\t%d\n", -far, -near, near, far);
    else length += snprintf(lines + length, 200, "total\t0\t0\t0\nwindow\tnone\n");
  }
  fuzz_state = kept;
  memcpy(out, lines, out_length < (size_t)length ? out_length : (size_t)length);
  return (size_t)length;
}

/* Joined, or found too long: which of both goes by the bytes of the second. */
void cif_join(const unsigned char *first, size_t first_length, const unsigned char *second, size_t second_length, unsigned char *room, size_t room_length, uint64_t answer[CIF_WORDS]) {
  static const struct output none;
  size_t end = first_length;
  memset(answer, 0, CIF_WORDS * sizeof *answer);
  demand(room_length == CIF_MOST_BYTES, "the room for a joined text", &none);
  while (end > 0 && (end == first_length || first[end] != 'E')) end--;
  if (end + 4 + second_length > CIF_MOST_BYTES || seed_of(second, second_length) % 8 == 3) {
    answer[CIF_NUMBER] = 18;
    answer[CIF_LINE] = answer[CIF_COLUMN] = 1;
    return;
  }
  memcpy(room, first, end);
  memcpy(room + end, "DD0;", 4);
  memcpy(room + end + 4, second, second_length);
  answer[CIF_LENGTH] = end + 4 + second_length;
}

/* Any numbers; a symbol that gives 12 has calls or is not defined, and what cannot be drawn has no layers and no height. Whether a text is refused does not go by
   the symbol. */
void cif_summary(const unsigned char *text, size_t text_length, int32_t *words, size_t words_length, size_t symbol, uint64_t answer[CIF_WORDS]) {
  uint64_t kept = fuzz_state;
  demand(words != NULL && words_length >= text_length, "the words", &standard_error);
  memset(answer, 0, CIF_WORDS * sizeof *answer);
  memset(words, 0, words_length * sizeof *words);
  fuzz_state = seed_of(text, text_length);
  if (text_length > CIF_MOST_BYTES) {
    answer[CIF_NUMBER] = answer[CIF_LINE] = answer[CIF_COLUMN] = 1;
  } else if (below(4) == 0) {
    refuse(answer, text_length);
    if (answer[CIF_NUMBER] > 10) answer[CIF_NUMBER] = 19, answer[CIF_OPEN_CALLS] = 0;
  } else {
    fuzz_state += symbol;
    answer[CIF_GIVES] = below(3) == 0 ? 12 + below(3) : 0;
    answer[CIF_OWN_CALLS] = answer[CIF_GIVES] > 12 ? 1 + below(99) : below(4) * below(1000000);
    answer[CIF_OWN_SHAPES] = below(3) * below(1000000);
    answer[CIF_OWN_LAYERS] = answer[CIF_OWN_SHAPES] > 0 ? 1 + below(64) : 0;
    if (answer[CIF_GIVES] == 0) {
      answer[CIF_HEIGHT] = 1 + below(32);
      answer[CIF_LAYERS] = below(65);
      if (answer[CIF_LAYERS] > 0) answer[CIF_FIRST_LAYER] = below(2) == 0 ? 0x41000000u : 0x394d5a30u;
    }
  }
  fuzz_state = kept;
}

/* A refusal of any number, or anything of any shape: a matrix that is none of the eight, too, and translations of every length. */
void cif_why(const unsigned char *text, size_t text_length, int32_t *words, size_t words_length, size_t count, uint64_t answer[CIF_WORDS]) {
  static const uint64_t ones[] = {0, 1, (uint64_t)-1};
  uint64_t kept = fuzz_state;
  demand(words != NULL && words_length >= text_length, "the words", &standard_error);
  memset(answer, 0, CIF_WORDS * sizeof *answer);
  memset(words, 0, words_length * sizeof *words);
  fuzz_state = seed_of(text, text_length) + count;
  if (text_length > CIF_MOST_BYTES || below(4) == 0) {
    refuse(answer, text_length);
    if (answer[CIF_NUMBER] == 18) answer[CIF_NUMBER] = 26;
  } else {
    answer[CIF_SHAPE] = below((unsigned)text_length + 1);
    answer[CIF_OPEN_CALLS] = below(CIF_MOST_OPEN_CALLS + 1);
    for (size_t i = 0; i < answer[CIF_OPEN_CALLS]; i++) answer[CIF_CHAIN + i] = below((unsigned)text_length + 1);
    for (int i = 0; i < 4; i++) answer[CIF_MATRIX + i] = ones[below(3)];
    for (int i = 0; i < 2; i++) answer[CIF_TRANSLATION + i] = below(4) == 0 ? 0 : (uint64_t)((int64_t)below(67108861) - 33554430);
  }
  fuzz_state = kept;
}

/* ---- files */

static void write_whole(const char *name, const unsigned char *bytes, size_t count) {
  int file = open(name, O_WRONLY | O_CREAT | O_TRUNC, 0644);
  if (file < 0 || write(file, bytes, count) != (ssize_t)count || close(file) != 0) exit(2);
}

/* What stands in the file, up to the room of an output; nothing where there is none. */
static void read_whole(const char *name, struct output *into) {
  *into = (struct output){.file = DROPPED};
  int file = open(name, O_RDONLY);
  if (file < 0) return;
  ssize_t count = read(file, into->waiting, sizeof into->waiting);
  into->used = count < 0 ? 0 : (size_t)count;
  (void)close(file);
}

static void lay_files(void) {
  static unsigned char text[16384];
  for (const char *const *name = (const char *const[]){"a.cif", "b.cif", NULL}; *name != NULL; name++) {
    if (below(2) == 0) write_whole(*name, text, random_text(text, sizeof text));
  }
  write_whole("out", (const unsigned char *)"as it was", 9);
}

/* Temporary files are gone, whatever happened. */
static void look_for_leftovers(const struct output *told) {
  DIR *entries = opendir(".");
  if (entries == NULL) exit(2);
  for (struct dirent *entry; (entry = readdir(entries)) != NULL;) demand(strstr(entry->d_name, ".tmp") == NULL, "a file is left behind", told);
  (void)closedir(entries);
}

static void redirect(int file, const char *name, int flags) {
  int opened = open(name, flags, 0644);
  if (opened < 0 || dup2(opened, file) != file) exit(2);
  if (opened != file) (void)close(opened);
}

static int lowest_free(void) {
  int file = dup(standard[0]);
  (void)close(file);
  return file;
}

/* ---- words */

enum { MOST_WORDS = 12, WORD = 40 };

static const char *random_word(char room[WORD]) {
  static const char *const known[] = {
      "check",    "flat",       "list",     "plot",     "summary",  "compare",   "-q",        "--json",     "--strict", "--any-order",
      "--window", "--layers",   "--size",   "--size=9", "-o",       "-oout",     "--layers=A", "--help",    "--",       "-V",
      "a.cif",    "b.cif",      "a.cif",    "b.cif",    "-",        "none.cif",  ".",         "out",        "none/out", "/dev/full",
      "/dev/null", "/dev/fd/77", "NM,ND",    "800",      "0",        "-1.5",      "20",        "1e3",        "join",     "",
      "show",     "16777215",   "00000000000000000001", "1;",    "why",      "--at",      "A",
  };
  if (below(10) != 0) return known[below(sizeof known / sizeof *known)];
  size_t length = below(WORD);
  for (size_t i = 0; i < length; i++) room[i] = (char)(1 + below(126));
  for (size_t i = 0; i < length; i++) room[i] = room[i] == '/' ? '-' : room[i];
  room[length] = 0;
  return room;
}

/* Words that make sense, with one changed now and then; or any words at all. */
static int choose_words(const char *words[MOST_WORDS + 1], char rooms[MOST_WORDS][WORD]) {
  static const char *const sensible[][9] = {
      {"check", "a.cif"}, {"check", "--json", "a.cif", "b.cif"}, {"check", "-q", "-", "none.cif", "b.cif"}, {"flat", "a.cif", "-o", "out"}, {"list", "-", "--strict"},
      {"plot", "a.cif", "-oout"}, {"plot", "b.cif", "--window", "-1.5", "0", "20", "3", "--layers=NM"}, {"summary", "a.cif", "-o", "out"}, {"compare", "a.cif", "b.cif"},
      {"compare", "--any-order", "b.cif", "-"}, {"flat", "b.cif", "-o", "/dev/full"}, {"plot", "a.cif", "--size", "1600", "--layers", "NM,A,Q"},
      {"join", "a.cif", "b.cif", "-o", "out"}, {"join", "--strict", "b.cif", "-", "a.cif", "b.cif"}, {"show", "a.cif"}, {"show", "b.cif", "1", "-o", "out"}, {"show", "--json", "--strict", "-"},
      {"why", "a.cif", "1"}, {"why", "b.cif", "2", "-o", "out"}, {"why", "--json", "a.cif", "1"}, {"why", "a.cif", "--at", "0", "-0.5", "A"}, {"why", "-", "--json", "--at", "1", "2", "NM"},
  };
  int count = 1;
  words[0] = "cif";
  if (below(4) == 0) {
    for (int most = (int)below(MOST_WORDS); count < most; count++) words[count] = random_word(rooms[count]);
  } else {
    const char *const *chosen = sensible[below(sizeof sensible / sizeof *sensible)];
    for (; count < 10 && chosen[count - 1] != NULL; count++) words[count] = below(25) == 0 ? random_word(rooms[count]) : chosen[count - 1];
  }
  words[count] = NULL;
  return count;
}

static bool writes_flat(const char *const *words, int count) {
  static const char *const wanted[] = {"cif", "flat", "a.cif", "-o", "out"};
  for (int i = 0; i < 5; i++) {
    if (i >= count || strcmp(words[i], wanted[i]) != 0) return false;
  }
  return count == 5;
}

/* ---- one run */

static void look_at_told(int status, const struct output *told) {
  demand(status >= 0 && status <= 2, "a status from 0 to 2", told);
  demand(status != 2 || told->used > 0 || muted, "why it could not run is told", told);
  demand(status == 2 || !failed || muted, "what fails ends with 2", told);
  for (size_t i = 0; i < told->used; i++) demand(told->waiting[i] == '\n' || (told->waiting[i] >= ' ' && told->waiting[i] < 127), "a byte that cannot be shown", told);
}

/* OUT is whole or as it was. */
static void look_at_flat(int status, const struct output *text, const struct output *told) {
  static struct output out, want;
  static unsigned char room[CIF_MOST_BYTES];
  static int32_t words[sizeof text->waiting];
  uint64_t answer[CIF_WORDS];
  cif_flatten(text->waiting, text->used, words, text->used, room, sizeof room, answer);
  want = (struct output){.file = DROPPED};
  if (status == 0) put(&want, room, (size_t)answer[CIF_LENGTH]);
  else put_text(&want, "as it was");
  read_whole("out", &out);
  demand(out.used == want.used && memcmp(out.waiting, want.waiting, out.used) == 0, "OUT is whole or as it was", told);
}

void try_whole(void) {
  static struct output told, text;
  static char rooms[MOST_WORDS][WORD];
  const char *words[MOST_WORDS + 1];
  int count = choose_words(words, rooms);
  lay_files();
  read_whole("a.cif", &text);
  harsh = below(3) == 0;
  failed = muted = false;
  redirect(0, "a.cif", O_RDONLY);
  redirect(1, below(20) == 0 ? "/dev/full" : "stdout", O_WRONLY | O_CREAT | O_TRUNC);
  redirect(2, "stderr", O_WRONLY | O_CREAT | O_TRUNC);
  standard_error = (struct output){.file = 2, .name = "standard error"};
  int status = cif_main(count, (char **)(void *)words);
  harsh = false;
  for (int file = 0; file < 3; file++) (void)dup2(standard[file], file);
  read_whole("stderr", &told);
  look_at_told(status, &told);
  look_for_leftovers(&told);
  demand(lowest_free() == next_file, "every file is closed", &told);
  if (writes_flat(words, count)) look_at_flat(status, &text, &told);
}

/* ---- all runs */

/* Its whole name is kept, so that it is found again from inside. */
static void make_folder(void) {
  const char *above = getenv("TMPDIR");
  if (above == NULL || above[0] == '\0') above = "/tmp";
  char *whole = realpath(above, NULL);
  int length = whole == NULL ? -1 : snprintf(folder, sizeof folder, "%s/cif-fuzz-XXXXXX", whole);
  free(whole);
  if (length >= 0 && (size_t)length < sizeof folder && mkdtemp(folder) != NULL && chdir(folder) == 0) return;
  fprintf(stderr, "fuzz: no folder can be made in %s\n", above);
  exit(2);
}

void start_whole(void) {
  static unsigned char text[16384];
  for (int file = 0; file < 3; file++) standard[file] = dup(file);
  __sanitizer_set_report_fd((void *)(intptr_t)standard[2]); /* else a report would go where the tool's own standard error goes */
  make_folder();
  write_whole("a.cif", text, random_text(text, sizeof text));
  write_whole("b.cif", text, random_text(text, sizeof text));
  next_file = lowest_free();
}

/* Removes the folder, which holds no others. */
void end_whole(void) {
  for (int file = 0; file < 3; file++) (void)dup2(standard[file], file);
  DIR *entries = opendir(folder);
  if (entries == NULL) return;
  for (struct dirent *entry; (entry = readdir(entries)) != NULL;) (void)unlink(entry->d_name);
  (void)closedir(entries);
  (void)chdir("/");
  (void)rmdir(folder);
}
