/* Whether two texts draw the same shapes on the same layers, exactly: their flat files say it, where a line is a shape, and equal shapes are equal bytes. */
#include <stdlib.h>
#include <string.h>

#include "tool.h"

/* How many differences are shown. */
enum { SHOWN = 5 };

struct drawn { /* one shape: a line of a flat file */
  uint32_t layer;
  uint32_t start, length;
  uint32_t which; /* from 1, as the list counts */
};

struct drawing {
  const struct reading *reading;
  struct drawn *shapes;
  size_t count;
};

static bool find_drawn(const struct reading *reading, struct drawing *drawing) {
  static struct shape shape;
  size_t count = (size_t)reading->answer[CIF_SHAPES];
  *drawing = (struct drawing){.reading = reading, .shapes = malloc((count + 1) * sizeof *drawing->shapes)};
  if (drawing->shapes == NULL) return false;
  struct walk walk = walk_over(reading->flat);
  while (drawing->count < count && next_shape(&walk, &shape)) {
    drawing->shapes[drawing->count] = (struct drawn){shape.layer, (uint32_t)shape.start, (uint32_t)(walk.at - shape.start), (uint32_t)drawing->count + 1};
    drawing->count++;
  }
  return true;
}

/* Less than, equal to or more than 0, by layer and then by the bytes of the line. */
static int order_shapes(const unsigned char *flat, const struct drawn *a, const unsigned char *other, const struct drawn *b) {
  if (a->layer != b->layer) return a->layer < b->layer ? -1 : 1;
  int order = memcmp(flat + a->start, other + b->start, a->length < b->length ? a->length : b->length);
  return order != 0 ? order : (a->length > b->length) - (a->length < b->length);
}

static int order_of(const struct drawing pair[2], size_t i, size_t j) {
  return order_shapes(pair[0].reading->flat.at, &pair[0].shapes[i], pair[1].reading->flat.at, &pair[1].shapes[j]);
}

/* What is shown: the first shapes that differ, in the order in which they are put, and how many there are in all. */
struct difference {
  size_t differing, count;
  struct {
    int side;
    size_t shape; /* its place among the shapes of its side */
  } shown[2 * SHOWN];
  struct place places[2 * SHOWN];
};

static void take(struct difference *difference, const struct drawing pair[2], int side, size_t shape) {
  difference->shown[difference->count].side = side;
  difference->shown[difference->count].shape = shape;
  difference->places[difference->count++] = (struct place){pair[side].shapes[shape].which, NO_PLACE};
}

/* ---- showing */

static void put_drawn(struct output *out, const struct drawing *drawing, size_t i, size_t place) {
  enum { LONGEST = 100 };
  const struct drawn *shape = &drawing->shapes[i];
  char name[5];
  spell_layer(shape->layer, name);
  put_text(out, "  shape ");
  put_number(out, shape->which);
  put_text(out, " of ");
  if (place != NO_PLACE) {
    put_head(out, drawing->reading->name, position_of(drawing->reading->text, place));
  } else {
    put_name(out, drawing->reading->name);
    put_text(out, ": ");
  }
  put_text(out, "L");
  put_text(out, name);
  put_text(out, "; ");
  size_t length = shape->length - 1; /* without its line end */
  put(out, drawing->reading->flat.at + shape->start, length < LONGEST ? length : LONGEST);
  put_text(out, length < LONGEST ? "\n" : "...\n");
}

static void put_names(struct output *out, const struct drawing pair[2]) {
  put_name(out, pair[0].reading->name);
  put_text(out, " and ");
  put_name(out, pair[1].reading->name);
}

static void put_same(struct output *out, const struct drawing pair[2], bool any_order) {
  put_names(out, pair);
  put_text(out, " draw the same ");
  put_count(out, pair[0].count, " shape");
  put_text(out, any_order ? ", in any order\n" : ", in the same order\n");
}

static void put_differ(struct output *out, const struct drawing pair[2], size_t alone, bool any_order) {
  put_names(out, pair);
  put_text(out, " differ: ");
  put_count(out, pair[0].count, " shape");
  put_text(out, " and ");
  put_number(out, (int64_t)pair[1].count);
  put_text(out, "; ");
  put_number(out, (int64_t)alone);
  put_text(out, any_order ? (alone == 1 ? " stands in one of them only" : " stand in one of them only") : (alone == 1 ? " differs" : " differ"));
  put_text(out, alone > SHOWN ? ", of which the first are\n" : "\n");
}

/* ---- as lists */

static bool differ_at(const struct drawing pair[2], size_t i) {
  return i >= pair[0].count || i >= pair[1].count || order_of(pair, i, i) != 0;
}

static void compare_lists(const struct drawing pair[2], struct difference *difference) {
  size_t longest = pair[0].count > pair[1].count ? pair[0].count : pair[1].count;
  for (size_t i = 0; i < longest; i++) {
    if (!differ_at(pair, i)) continue;
    for (int side = 0; side < 2 && difference->differing < SHOWN; side++) {
      if (i < pair[side].count) take(difference, pair, side, i);
    }
    difference->differing++;
  }
}

/* ---- in any order */

/* Sorting hands nothing on to the comparison, so the lines stand here meanwhile. */
static const unsigned char *lines;

static int by_which(const void *one, const void *other) {
  const struct drawn *a = one, *b = other;
  return (a->which > b->which) - (a->which < b->which);
}

static int by_shape(const void *one, const void *other) {
  int order = order_shapes(lines, one, lines, other);
  return order != 0 ? order : by_which(one, other);
}

static void sort_shapes(struct drawing *drawing) {
  lines = drawing->reading->flat.at;
  qsort(drawing->shapes, drawing->count, sizeof *drawing->shapes, by_shape);
}

/* Of two sorted drawings, moves what stands in one only to the front, and tells how much that is on either side. */
static void keep_alone(struct drawing pair[2], size_t alone[2]) {
  size_t i = 0, j = 0;
  while (i < pair[0].count || j < pair[1].count) {
    int order = i == pair[0].count ? 1 : j == pair[1].count ? -1 : order_of(pair, i, j);
    if (order < 0) pair[0].shapes[alone[0]++] = pair[0].shapes[i];
    if (order > 0) pair[1].shapes[alone[1]++] = pair[1].shapes[j];
    i += order <= 0;
    j += order >= 0;
  }
}

static void compare_in_any_order(struct drawing pair[2], struct difference *difference) {
  size_t alone[2] = {0, 0};
  for (int side = 0; side < 2; side++) sort_shapes(&pair[side]);
  keep_alone(pair, alone);
  difference->differing = alone[0] + alone[1];
  for (int side = 0; side < 2; side++) {
    qsort(pair[side].shapes, alone[side], sizeof *pair[side].shapes, by_which);
    for (size_t i = 0; i < alone[side] && i < SHOWN; i++) take(difference, pair, side, i);
  }
}

/* ---- both */

/* The places of what is shown of one side, asked for at once. */
static bool place_side(const struct drawing *drawing, int side, struct difference *difference) {
  struct place places[2 * SHOWN];
  size_t count = 0, next = 0;
  for (size_t i = 0; i < difference->count; i++) {
    if (difference->shown[i].side == side) places[count++] = difference->places[i];
  }
  if (count > 0 && !find_places(drawing->reading, places, count)) return false;
  for (size_t i = 0; i < difference->count; i++) {
    if (difference->shown[i].side == side) difference->places[i] = places[next++];
  }
  return true;
}

static void put_difference(struct output *out, const struct drawing pair[2], const struct difference *difference, bool any_order) {
  if (difference->differing == 0) put_same(out, pair, any_order);
  else put_differ(out, pair, difference->differing, any_order);
  for (size_t i = 0; i < difference->count; i++) put_drawn(out, &pair[difference->shown[i].side], difference->shown[i].shape, difference->places[i].place);
}

bool put_comparison(struct output *out, const struct reading readings[2], bool any_order, bool *same) {
  struct drawing pair[2] = {{0}, {0}};
  struct difference difference = {0};
  bool found = find_drawn(&readings[0], &pair[0]) && find_drawn(&readings[1], &pair[1]);
  if (found && any_order) compare_in_any_order(pair, &difference);
  if (found && !any_order) compare_lists(pair, &difference);
  found = found && place_side(&pair[0], 0, &difference) && place_side(&pair[1], 1, &difference);
  if (found) {
    *same = difference.differing == 0;
    put_difference(out, pair, &difference, any_order);
  }
  for (int side = 0; side < 2; side++) free(pair[side].shapes);
  return found;
}
