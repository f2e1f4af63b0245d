/* Where the command stands that draws a shape: asked of the archive. In a copy of the text a layer command of its own stands before every shape command, so
   that each shape of that copy's flat file bears a name that tells which command drew it. Nothing else changes by that, and it is seen to: told is a place
   only where both flat files have the same shapes. */
#include <stdlib.h>
#include <string.h>

#include "tool.h"

/* Names are numbers of up to four digits: there are so many of them. */
enum { BASE = 36, MOST_MARKS = BASE * BASE * BASE * BASE };

static const char digits[] = "0123456789ABCDEFGHIJKLMNOPQRSTUVWXYZ";

struct copy {
  unsigned char *at;
  size_t used;
  bool fits;
};

static void add(struct copy *copy, const void *bytes, size_t count) {
  if (count > CIF_MOST_BYTES - copy->used) copy->fits = false;
  if (!copy->fits) return;
  memcpy(copy->at + copy->used, bytes, count);
  copy->used += count;
}

static void add_mark(struct copy *copy, uint32_t which) {
  char name[4];
  size_t first = sizeof name;
  if (which >= MOST_MARKS) {
    copy->fits = false;
    return;
  }
  do {
    name[--first] = digits[which % BASE];
    which /= BASE;
  } while (which > 0);
  add(copy, "L", 1);
  add(copy, name + first, sizeof name - first);
  add(copy, ";", 1);
}

static uint32_t mark_of(uint32_t layer) {
  char name[5];
  uint32_t which = 0;
  spell_layer(layer, name);
  for (const char *at = name; *at != 0; at++) which = which * BASE + (uint32_t)(strchr(digits, *at) - digits);
  return which;
}

static bool is_shape(const struct command *command) { return command->letter != 0 && strchr("BPRW", command->letter) != NULL; }

static void mark_shapes(struct copy *copy, struct bytes text) {
  struct command_walk walk = {.text = text};
  struct command command;
  size_t copied = 0;
  uint32_t which = 0;
  while (copy->fits && next_command(&walk, &command)) {
    if (!is_shape(&command)) continue;
    add(copy, text.at + copied, command.start - copied);
    copied = command.start;
    add_mark(copy, which++);
  }
  add(copy, text.at + copied, text.count - copied);
}

/* Where the shape command of that number starts. */
static size_t start_of(struct bytes text, uint32_t which) {
  struct command_walk walk = {.text = text};
  struct command command;
  while (next_command(&walk, &command)) {
    if (is_shape(&command) && which-- == 0) return command.start;
  }
  return NO_PLACE;
}

static void forget(struct place *places, size_t count) {
  for (size_t i = 0; i < count; i++) places[i].place = NO_PLACE;
}

/* Goes over both flat files at once. The first shape that differs shows that the copy draws something else: then nothing is told. */
static void read_marks(const struct reading *reading, struct bytes marked, struct place *places, size_t count) {
  static struct shape shape, other;
  struct walk one = walk_over(reading->flat), two = walk_over(marked);
  for (uint64_t which = 1; next_shape(&one, &shape); which++) {
    size_t length = one.at - shape.start;
    bool same = next_shape(&two, &other) && two.at - other.start == length && memcmp(reading->flat.at + shape.start, marked.at + other.start, length) == 0;
    if (!same) {
      forget(places, count);
      return;
    }
    for (size_t i = 0; i < count; i++) {
      if (places[i].which == which) places[i].place = start_of(reading->text, mark_of(other.layer));
    }
  }
}

static bool ask(const struct reading *reading, const struct copy *copy, struct place *places, size_t count) {
  uint64_t answer[CIF_WORDS];
  unsigned char *room = malloc(CIF_MOST_BYTES);
  if (room == NULL || !flatten((struct bytes){copy->at, copy->used}, room, answer)) {
    free(room);
    return false;
  }
  bool alike = answer[CIF_NUMBER] == 0 && answer[CIF_SHAPES] == reading->answer[CIF_SHAPES] && answer[CIF_CALLS] == reading->answer[CIF_CALLS];
  if (alike) read_marks(reading, (struct bytes){room, (size_t)answer[CIF_LENGTH]}, places, count);
  free(room);
  return true;
}

bool find_places(const struct reading *reading, struct place *places, size_t count) {
  struct copy copy = {.at = malloc(CIF_MOST_BYTES), .fits = true};
  if (copy.at == NULL) return false;
  forget(places, count);
  mark_shapes(&copy, reading->text);
  bool found = !copy.fits || ask(reading, &copy, places, count);
  free(copy.at);
  return found;
}
