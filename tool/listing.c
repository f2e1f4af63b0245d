/* The flat file of a text, its list, and windows: asked of the proved archive, never worked out here. */
#include <stdlib.h>
#include <string.h>

#include "tool.h"

bool flatten(struct bytes text, unsigned char *room, uint64_t answer[CIF_WORDS]) {
  int32_t *words = calloc(text.count + 1, sizeof *words);
  if (words == NULL) return false;
  cif_flatten(text.at, text.count, words, text.count, room, CIF_MOST_BYTES, answer);
  free(words);
  return true;
}

/* Asked for with no room first, to learn how long the list is. As many words are lent as the text has bytes. NULL where there is no memory; else to be freed. */
static unsigned char *listing_of(struct bytes text, struct bytes flat, const uint64_t answer[CIF_WORDS], size_t *length) {
  unsigned char none, *lines = NULL;
  int32_t *words = calloc(text.count + 1, sizeof *words);
  if (words == NULL) return NULL;
  *length = cif_list(text.at, text.count, words, text.count, flat.at, flat.count, answer, &none, 0);
  lines = malloc(*length);
  if (lines != NULL) (void)cif_list(text.at, text.count, words, text.count, flat.at, flat.count, answer, lines, *length);
  free(words);
  return lines;
}

/* Of no shapes, and an answer without counts. */
static const uint64_t nothing[CIF_WORDS];

unsigned char *warning_lines(const struct reading *reading, size_t *length) {
  return listing_of(reading->text, (struct bytes){reading->flat.at, 0}, nothing, length);
}

bool put_list(struct output *out, const struct reading *reading) {
  size_t length;
  unsigned char *lines = listing_of(reading->text, reading->flat, reading->answer, &length);
  if (lines == NULL) return false;
  put(out, lines, length);
  free(lines);
  return true;
}

bool put_list_lines(struct output *out, const struct reading *reading, const uint64_t *counts, size_t count) {
  size_t length;
  unsigned char *lines = listing_of(reading->text, reading->flat, reading->answer, &length), *at = lines, *end = lines + (lines == NULL ? 0 : length);
  uint64_t line = 1;
  for (size_t i = 0; i < count && at < end; line++) {
    unsigned char *next = memchr(at, '\n', (size_t)(end - at));
    next = next == NULL ? end : next + 1;
    if (counts[i] == line) {
      put(out, at, (size_t)(next - at));
      i++;
    }
    at = next;
  }
  free(lines);
  return lines != NULL;
}

static int64_t take_number(const unsigned char **at, const unsigned char *end) {
  bool negative = *at < end && **at == '-';
  int64_t value = 0;
  for (*at += negative; *at < end && is_digit(**at); ++*at) value = value * 10 + (**at - '0');
  return negative ? -value : value;
}

/* The window stands in the list's last line: four numbers after tabs, or a word. */
static struct window last_window(const unsigned char *lines, size_t length) {
  const unsigned char *end = lines + length - 1, *at = end;
  struct window window = {0};
  while (at > lines && at[-1] != '\n') at--;
  for (int i = 0; i < 4; i++) {
    while (at < end && *at != '\t') at++;
    at += at < end;
    window.some = at < end && (*at == '-' || is_digit(*at));
    window.number[i] = take_number(&at, end);
  }
  return window;
}

/* The flat file is no text's, so the shortest text goes with it, which warns of nothing. */
static bool ask_window(struct bytes flat, struct window *window) {
  static const unsigned char end[] = "E";
  size_t length;
  unsigned char *lines = listing_of((struct bytes){end, 1}, flat, nothing, &length);
  if (lines == NULL) return false;
  *window = last_window(lines, length);
  free(lines);
  return true;
}

/* The L line of a layer, after what the room has already. */
static size_t gather_name(uint32_t layer, unsigned char *room, size_t used) {
  char name[5];
  spell_layer(layer, name);
  room[used++] = 'L';
  for (size_t i = 0; name[i] != 0; i++) room[used++] = (unsigned char)name[i];
  room[used++] = ';';
  room[used++] = '\n';
  return used;
}

/* All lines of one layer. */
static size_t gather_layer(const struct reading *reading, const struct layers *layers, const struct layer *layer, unsigned char *room, size_t used) {
  used = gather_name(layer->name, room, used);
  for (size_t i = 0; i < layer->runs; i++) {
    const struct run *run = &layers->runs[layer->first_run + i];
    memcpy(room + used, reading->flat.at + run->start, run->end - run->start);
    used += run->end - run->start;
  }
  return used;
}

static bool ask_gathered(unsigned char *room, size_t used, struct window *window) {
  room[used++] = 'E';
  room[used++] = '\n';
  return ask_window((struct bytes){room, used}, window);
}

bool find_lines_window(const struct reading *reading, uint32_t layer, const struct line *lines, size_t count, struct window *window) {
  enum { OTHERS = 16 }; /* bytes of the L line and the End */
  size_t size = OTHERS, used;
  for (size_t i = 0; i < count; i++) size += lines[i].end - lines[i].start;
  unsigned char *room = malloc(size);
  if (room == NULL) return false;
  used = gather_name(layer, room, 0);
  for (size_t i = 0; i < count; i++) {
    memcpy(room + used, reading->flat.at + lines[i].start, lines[i].end - lines[i].start);
    used += lines[i].end - lines[i].start;
  }
  bool found = ask_gathered(room, used, window);
  free(room);
  return found;
}

/* For some or all layers, one after the other: each has one L line then, and had one or more in the flat file. */
static unsigned char *room_to_gather(const struct reading *reading) { return malloc(reading->flat.count + 16); }

bool find_windows(const struct reading *reading, struct layers *layers, struct window *whole) {
  unsigned char *room = room_to_gather(reading);
  bool found = room != NULL && ask_window(reading->flat, whole);
  for (size_t i = 0; found && i < layers->count; i++) {
    struct layer *layer = &layers->all[i];
    found = ask_gathered(room, gather_layer(reading, layers, layer, room, 0), &layer->window);
  }
  free(room);
  return found;
}

bool find_window(const struct reading *reading, const struct layers *layers, struct window *window) {
  unsigned char *room = room_to_gather(reading);
  size_t used = 0;
  if (room == NULL) return false;
  for (size_t i = 0; i < layers->count; i++) used = gather_layer(reading, layers, &layers->all[i], room, used);
  bool found = ask_gathered(room, used, window);
  free(room);
  return found;
}
