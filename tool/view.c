/* What of a drawing a picture shows, and where a shape is looked for: the words after --window, --layers, --size and --at, taken apart. */
#include <string.h>

#include "tool.h"

/* A number of microns such as -12.5, in millionths of a micron: exact, so nothing is rounded here. */
static bool take_microns(const char *word, int64_t *number) {
  enum { DECIMALS = 6 };
  static const int64_t most = 1000000 * (int64_t)1000000; /* a metre: no drawing reaches as far */
  bool negative = *word == '-', point = false;
  int64_t value = 0;
  int digits = 0, decimals = 0;
  for (word += negative; *word != 0; word++) {
    if (*word == '.' && !point) {
      point = true;
      continue;
    }
    if (!is_digit((unsigned char)*word) || decimals == DECIMALS || value > most) return false;
    value = value * 10 + (*word - '0');
    digits++;
    decimals += point;
  }
  for (; decimals < DECIMALS && value <= most; decimals++) value *= 10;
  *number = negative ? -value : value;
  return digits > 0 && value <= most;
}

/* Any two corners that lie opposite, at least CIF's unit apart along both axes. */
bool take_window(struct view *view, char *const words[4]) {
  int64_t corner[4], unit = 10000;
  for (int i = 0; i < 4; i++) {
    if (!take_microns(words[i], &corner[i])) return false;
  }
  for (int axis = 0; axis < 2; axis++) {
    bool turned = corner[axis] > corner[axis + 2];
    view->window[axis] = corner[turned ? axis + 2 : axis];
    view->window[axis + 2] = corner[turned ? axis : axis + 2];
    if (view->window[axis + 2] - view->window[axis] < unit) return false;
  }
  view->windowed = true;
  return true;
}

/* The name that starts there, packed, and where the next one starts; 0 where none does. */
static uint32_t next_name(const char **at) {
  uint32_t name = 0;
  for (int shift = 24; shift >= 0 && (is_digit((unsigned char)**at) || is_upper((unsigned char)**at)); shift -= 8) name |= (uint32_t)(unsigned char)*(*at)++ << shift;
  if (**at != 0 && **at != ',') return 0;
  if (**at == ',') ++*at;
  return name;
}

bool take_layers(struct view *view, char *const words[1]) {
  const char *at = words[0];
  size_t length = strlen(at);
  if (length == 0 || at[length - 1] == ',') return false;
  while (*at != 0) {
    if (next_name(&at) == 0) return false;
  }
  view->layers = words[0];
  return true;
}

bool take_spot(struct view *view, char *const words[3]) {
  struct view layer;
  view->layer = words[2];
  return take_microns(words[0], &view->spot[0]) && take_microns(words[1], &view->spot[1]) && strchr(words[2], ',') == NULL && take_layers(&layer, words + 2);
}

bool take_size(struct view *view, char *const words[1]) {
  enum { LEAST = 100, MOST = 20000 };
  int64_t size = 0;
  for (const char *at = words[0]; *at != 0; at++) {
    if (!is_digit((unsigned char)*at) || size > MOST) return false;
    size = size * 10 + (*at - '0');
  }
  view->size = size;
  return size >= LEAST && size <= MOST;
}

bool shows_layer(const struct view *view, uint32_t layer) {
  if (view->layers == NULL) return true;
  for (const char *at = view->layers; *at != 0;) {
    if (next_name(&at) == layer) return true;
  }
  return false;
}

static bool is_drawn(const struct layers *layers, uint32_t name) {
  for (size_t i = 0; i < layers->count; i++) {
    if (layers->all[i].name == name) return true;
  }
  return false;
}

void tell_undrawn_layers(const struct view *view, const struct layers *layers, const char *name) {
  const char *at = view->layers == NULL ? "" : view->layers;
  while (*at != 0) {
    uint32_t layer = next_name(&at);
    char spelled[5];
    if (is_drawn(layers, layer)) continue;
    spell_layer(layer, spelled);
    put_text(&standard_error, "cif: no shape is on layer ");
    put_text(&standard_error, spelled);
    put_text(&standard_error, " in ");
    put_name(&standard_error, name);
    put_text(&standard_error, "\n");
  }
  flush(&standard_error);
}
