/* Throws random bytes at the parts of the tool that read bytes, the telling of refusals and hints, the walk over a flat file and the picture, and random words and
   files at the whole of it (fuzz_whole.c). Built by tool/fuzz with the compiler's sanitizers and without the proved archive. fuzz COUNT SEED, or fuzz MINUTESm
   SEED; ends at the first thing that is not as it should be. */
#include <stdio.h>
#include <stdlib.h>
#include <string.h>
#include <time.h>
#include <unistd.h>

#include "fuzz.h"

uint64_t fuzz_state;

unsigned below(unsigned bound) {
  fuzz_state ^= fuzz_state << 13;
  fuzz_state ^= fuzz_state >> 7;
  fuzz_state ^= fuzz_state << 17;
  return (unsigned)(fuzz_state >> 20) % bound;
}

void demand(bool right, const char *what, const struct output *out) {
  if (right) return;
  end_whole();
  fprintf(stderr, "fuzz: not so: %s\n%.*s\n", what, (int)out->used, (const char *)out->waiting);
  exit(1);
}

/* A copy in memory of its own, so that one byte too far is noticed. */
static unsigned char *copy_of(const unsigned char *from, size_t count) {
  unsigned char *copy = malloc(count > 0 ? count : 1);
  if (copy == NULL) exit(2);
  return memcpy(copy, from, count);
}

/* ---- texts */

size_t random_text(unsigned char *text, size_t most) {
  static const char *const pieces[] = {"DS1 2 3;", "Lmetal1;", "Lpoly1;", "0 a.b;", "94 x", "W4 0 0 1 1", "P 1.5", "DF;", "DD1;",    "D", "LNM;", "L",  "B4 4 0 0", "W", "P0 0", "C1 MX T5 5;", "(",
                                       ")",        "(a(b)c)", ";", "E", "\n",    "\t", "-",        "9 x;", " ", "\r\n"};
  size_t count = 0, parts = below(40);
  for (size_t i = 0; i < parts && count + 300 < most; i++) {
    unsigned kind = below(10);
    size_t repeat = kind == 0 ? below(200) : 1;
    const char *piece = pieces[below(sizeof pieces / sizeof *pieces)];
    for (size_t j = 0; j < repeat; j++) text[count++] = (unsigned char)below(256);
    if (kind < 2) continue;
    memcpy(text + count, piece, strlen(piece));
    count += strlen(piece);
  }
  return count;
}

/* What is told has only bytes that any terminal can show, short lines, a line for each open call, and a caret in the column of its place. */
static void look_at_telling(const struct output *out, struct bytes text, size_t place, size_t calls) {
  size_t length = 0, line = 0, caret = 0, over_caret = 1 + (calls > 0 ? calls + 2 : 0);
  for (size_t i = 0; i < out->used; i++) {
    unsigned char byte = out->waiting[i];
    demand(byte == '\n' || (byte >= ' ' && byte < 127), "a byte that cannot be shown", out);
    if (byte == '^' && line == over_caret + 1) caret = length;
    length = byte == '\n' ? 0 : length + 1;
    line += byte == '\n';
    demand(length < 240, "a long line", out);
  }
  demand((line == over_caret + 3 || line == over_caret + 6) && caret >= 4 && caret < 80, "the lines of a refusal", out);
  const unsigned char *shown = out->waiting - 1;
  for (size_t i = 0; i < over_caret; i++) shown = memchr(shown + 1, '\n', (size_t)(out->waiting + out->used - shown - 1));
  bool at_end = place == text.count || text.at[place] == '\n';
  unsigned char over = shown[1 + caret], byte = at_end ? '\n' : text.at[place];
  demand(columns_of(byte) == 1 ? over == (byte == '\t' ? ' ' : byte) : over == (at_end ? '\n' : '\\'), "what stands over the caret", out);
}

/* Hints are short lines, of bytes that can be shown, at places of the text. */
static void look_at_hints(struct bytes text) {
  static struct output out;
  static struct hints hints;
  static const uint64_t answer[CIF_WORDS];
  out = (struct output){.file = DROPPED};
  find_hints(text, answer, &hints);
  demand(hints.count > 0 && hints.count <= MOST_HINTS, "no call, or nothing drawn, at the least", &out);
  for (size_t i = 0; i < hints.count; i++) demand(hints.all[i].place <= text.count && strlen(hints.all[i].words) + 1 < HINT_WORDS, "a hint", &out);
  tell_hints(&out, "f", text, &hints);
  for (size_t i = 0; i < out.used; i++) demand(out.waiting[i] == '\n' || (out.waiting[i] >= ' ' && out.waiting[i] < 127), "a hint that cannot be shown", &out);
}

/* An answer that refuses the text, with open calls where there may be some. */
static void refuse(struct reading *reading, uint64_t number, uint64_t place) {
  *reading = (struct reading){"f", reading->text, {reading->text.at, 0}, {number, place}};
  reading->answer[CIF_LINE] = 1 + below(1000);
  reading->answer[CIF_COLUMN] = 1 + below(100000000);
  if ((number < 11 || number > 17) && number != 20 && number != 21) return;
  reading->answer[CIF_OPEN_CALLS] = below(CIF_MOST_OPEN_CALLS + 1);
  for (size_t i = 0; i < reading->answer[CIF_OPEN_CALLS]; i++) reading->answer[CIF_CHAIN + i] = below((unsigned)reading->text.count + 1);
}

static void try_text(void) {
  static unsigned char room[16384];
  static struct output out;
  size_t count = random_text(room, sizeof room);
  unsigned char *copy = copy_of(room, count);
  struct bytes text = {copy, count};
  struct reading reading = {.text = text};
  for (int i = 0; i < 8; i++) {
    size_t place = below((unsigned)text.count + 1);
    uint64_t number = 2 + below(19);
    if (number == 5) continue; /* which never comes */
    if (number >= 18) number = number == 18 ? 25 : number + 1;
    out = (struct output){.file = DROPPED};
    refuse(&reading, number, place);
    tell_refusal(&out, &reading, true);
    look_at_telling(&out, text, place, open_calls(&reading));
  }
  for (uint64_t number = 0; number < 30; number++) {
    bool known = (number >= 1 && number <= 21 && number != 5) || number == 25 || number == 26;
    demand((sentence_for(number, text, text.count) != NULL) == known, "a sentence for each number but 5", &out);
    /* whatever stands in an answer */
    refuse(&reading, number, (uint64_t)below(1u << 30) << 33);
    for (size_t i = CIF_LINE; i < CIF_WORDS && below(4) == 0; i++) reading.answer[i] = (uint64_t)below(1u << 30) << below(34);
    tell_refusal(&out, &reading, below(2) == 0);
  }
  look_at_hints(text);
  free(copy);
}

/* ---- flat files */

static void put_random(struct output *flat, bool size) {
  static const int64_t odd[] = {1, 2, 16777215, 16777214, 8388608};
  int64_t number = below(3) == 0 ? odd[below(5)] : (int64_t)below(200) + 1;
  put_number(flat, size || below(2) == 0 ? number : below(4) == 0 ? 0 : -number);
}

static void put_random_shape(struct output *flat) {
  static const char kinds[] = "BRWP";
  char kind = kinds[below(4)];
  size_t points = kind == 'P' ? 3 + below(9) : kind == 'W' ? 1 + below(9) : 1, sizes = kind == 'B' ? 2 : kind == 'P' ? 0 : 1;
  put(flat, &kind, 1);
  for (size_t i = 0; i < sizes + 2 * points; i++) {
    if (i > 0) put_text(flat, " ");
    put_random(flat, i < sizes);
  }
  if (kind == 'B') {
    put_text(flat, " ");
    put_random(flat, true);
    put_text(flat, " ");
    put_random(flat, false);
  }
  put_text(flat, ";\n");
}

void put_random_flat(struct output *flat) {
  static const char *const names[] = {"LNM;\n", "LND;\n", "LA;\n", "LZZZZ;\n", "L0;\n", "LB1;\n"};
  size_t shapes = below(30);
  for (size_t i = 0; i < shapes; i++) {
    if (i == 0 || below(3) == 0) put_text(flat, names[below(6)]);
    put_random_shape(flat);
  }
  put_text(flat, "E\n");
}

void damage(struct output *flat) {
  for (unsigned i = below(4); i > 0 && flat->used > 1; i--) {
    size_t at = below((unsigned)flat->used);
    switch (below(4)) {
      case 0: flat->waiting[at] = (unsigned char)below(256); break;
      case 1: flat->used = at; break;
      case 2: flat->waiting[at] = (unsigned char)"LBRWPE0123456789 -;\n"[below(20)]; break;
      default: memmove(flat->waiting + at, flat->waiting + at + 1, --flat->used - at); break;
    }
  }
}

/* Near the shapes, or far away, from the smallest window to the largest. */
static struct view random_view(void) {
  static const int64_t spans[] = {10000, 100000, 5000000, 400000000000};
  struct view view = {.windowed = below(2) == 0, .size = below(2) == 0 ? USUAL_SIZE : 100 + (int64_t)below(19901), .layers = below(3) == 0 ? "NM,ZZZZ,B1" : NULL};
  for (int axis = 0; axis < 2; axis++) {
    view.window[axis] = ((int64_t)below(500) - 250) * (below(8) == 0 ? 1000000000 : 10000);
    view.window[axis + 2] = view.window[axis] + spans[below(4)];
  }
  return view;
}

/* Also a broken flat file must be walked over without harm, though the tool looks first. */
static void show(struct bytes flat) {
  static struct output out;
  struct view view = random_view();
  out = standard_error = (struct output){.file = DROPPED};
  while (!put_plot(&out, &(struct reading){.name = "f", .flat = flat}, &view)) continue; /* memory is short now and then */
}

static void try_flat(void) {
  static struct output made;
  made = (struct output){.file = DROPPED};
  put_random_flat(&made);
  for (bool damaged = false;; damaged = true) {
    unsigned char *copy = copy_of(made.waiting, made.used);
    struct bytes flat = {copy, made.used};
    demand(is_flat(flat) || damaged, "a flat file is one", &made);
    show(flat);
    free(copy);
    if (damaged) return;
    damage(&made);
  }
}

/* Counts rounds, or minutes where an m follows. */
static bool goes_on(const char *how_long, unsigned long rounds, time_t start) {
  unsigned long most = strtoul(how_long, NULL, 10);
  return strchr(how_long, 'm') == NULL ? rounds < most : time(NULL) - start < (time_t)(60 * most);
}

int main(int count, char **words) {
  enum { RUNS = 4 };
  unsigned long rounds = 0;
  fuzz_state = (count > 2 ? strtoull(words[2], NULL, 10) : 1) * 2654435769u + 88172645463325252u;
  start_whole();
  for (time_t start = time(NULL); goes_on(count > 1 ? words[1] : "10000", rounds, start); rounds++) {
    try_text();
    try_flat();
    for (int i = 0; i < RUNS; i++) try_whole();
  }
  end_whole();
  printf("fuzz: %lu rounds, with %lu runs of the whole tool, nothing found\n", rounds, rounds * RUNS);
  return 0;
}
