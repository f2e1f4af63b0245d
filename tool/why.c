/* Why a shape is there: asked of the proved archive, and shown with the lines of the text that drew it; and which shapes lie at a point, by the windows of the
   proved list. Only words and a list of a call for each of the eight turns and mirrors stand here. */
#include <stdlib.h>

#include "tool.h"

bool find_why(struct reading *reading, uint64_t count) {
  int32_t *words = calloc(reading->text.count + 1, sizeof *words);
  if (words == NULL) return false;
  cif_why(reading->text.at, reading->text.count, words, reading->text.count, (size_t)count, reading->answer);
  free(words);
  return true;
}

/* ---- the transformation */

struct turn {
  int64_t matrix[4];
  const char *words, *list; /* none where nothing is turned or mirrored */
};

static const struct turn turns[] = {
    {{1, 0, 0, 1}, "", ""},
    {{-1, 0, 0, 1}, "mirrored in x", "MX"},
    {{1, 0, 0, -1}, "mirrored in y", "MY"},
    {{0, -1, 1, 0}, "turned by 90 degrees counterclockwise", "R 0 1"},
    {{-1, 0, 0, -1}, "turned by 180 degrees", "R -1 0"},
    {{0, 1, -1, 0}, "turned by 90 degrees clockwise", "R 0 -1"},
    {{0, -1, -1, 0}, "mirrored in x, then turned by 90 degrees counterclockwise", "MX R 0 1"},
    {{0, 1, 1, 0}, "mirrored in y, then turned by 90 degrees counterclockwise", "MY R 0 1"},
};

/* Without leaving what C defines. */
int64_t signed_word(uint64_t word) { return word <= INT64_MAX ? (int64_t)word : -(int64_t)~word - 1; }

/* NULL where it is none of the eight, which the archive never tells. */
static const struct turn *turn_of(const uint64_t answer[CIF_WORDS]) {
  for (size_t i = 0; i < sizeof turns / sizeof *turns; i++) {
    bool same = true;
    for (int at = 0; at < 4; at++) same = same && signed_word(answer[CIF_MATRIX + at]) == turns[i].matrix[at];
    if (same) return &turns[i];
  }
  return NULL;
}

struct point {
  int64_t x, y;
};

static struct point translation_of(const struct reading *reading) {
  return (struct point){signed_word(reading->answer[CIF_TRANSLATION]), signed_word(reading->answer[CIF_TRANSLATION + 1])};
}

/* Nothing beyond this is a number of CIF, so a longer way takes several T; an accepted text has none longer than two of them. */
enum { MOST_NUMBER = 16777215, MOST_STEPS = 4 };

static int64_t step_of(int64_t way) { return way > MOST_NUMBER ? MOST_NUMBER : way < -MOST_NUMBER ? -MOST_NUMBER : way; }

void put_turns(struct output *out, const struct reading *reading) {
  const struct turn *turn = turn_of(reading->answer);
  struct point way = translation_of(reading);
  const char *between = turn == NULL || *turn->list == 0 ? "" : " ";
  if (turn != NULL) put_text(out, turn->list);
  for (int i = 0; i < MOST_STEPS && (way.x != 0 || way.y != 0); i++) {
    struct point step = {step_of(way.x), step_of(way.y)};
    put_text(out, between);
    put_text(out, "T ");
    put_number(out, step.x);
    put_text(out, " ");
    put_number(out, step.y);
    way = (struct point){way.x - step.x, way.y - step.y};
    between = " ";
  }
}

bool is_unmoved(const struct reading *reading) {
  struct point way = translation_of(reading);
  return turn_of(reading->answer) == &turns[0] && way.x == 0 && way.y == 0;
}

void put_turned(struct output *out, const struct reading *reading) {
  const struct turn *turn = turn_of(reading->answer);
  struct point way = translation_of(reading);
  if (is_unmoved(reading)) {
    put_text(out, "not turned, mirrored or moved");
    return;
  }
  if (turn != NULL) put_text(out, turn->words);
  if (way.x == 0 && way.y == 0) return;
  put_text(out, turn == NULL || *turn->words == 0 ? "moved by " : ", then moved by ");
  put_number(out, way.x);
  put_text(out, " ");
  put_number(out, way.y);
}

static void put_transformation(struct output *out, const struct reading *reading) {
  put_text(out, "  It is ");
  put_turned(out, reading);
  if (is_unmoved(reading)) {
    put_text(out, open_calls(reading) == 0 ? ", since it stands outside definitions.\n" : ": a call without transformations does the same.\n");
    return;
  }
  put_text(out, ". A call with this list does the same:\n    ");
  put_turns(out, reading);
  put_text(out, "\n");
}

/* ---- one shape */

size_t place_of_shape(const struct reading *reading) {
  uint64_t place = reading->answer[CIF_SHAPE];
  return place < reading->text.count ? (size_t)place : reading->text.count;
}

bool put_reason(struct output *out, const struct reading *reading, const struct reading *drawn, uint64_t count) {
  size_t place = place_of_shape(reading);
  if (drawn->answer[CIF_NUMBER] == 0 && !put_list_lines(out, drawn, &count, 1)) return false;
  put_head(out, reading->name, position_of(reading->text, place));
  put_text(out, "shape ");
  put_number(out, (int64_t)count);
  put_text(out, " is drawn by this command\n");
  if (drawn->answer[CIF_NUMBER] != 0) put_text(out, "  The flat file would be too long, so that there is no list.\n");
  put_chain(out, reading);
  put_excerpt(out, reading->text, place);
  put_transformation(out, reading);
  return true;
}

void tell_count(struct output *out, const struct reading *drawn) {
  if (drawn->answer[CIF_NUMBER] != 0) return;
  put_text(out, "  The text draws ");
  put_count(out, drawn->answer[CIF_SHAPES], " shape");
  put_text(out, ".\n");
}

/* ---- the shapes at a point */

/* Millionths of a micron in half a unit. */
enum { HALF_UNIT = 5000 };

static bool holds(const struct window *window, const int64_t spot[2]) {
  bool inside = window->some;
  for (int axis = 0; axis < 2; axis++) inside = inside && window->number[axis] * HALF_UNIT <= spot[axis] && spot[axis] <= window->number[axis + 2] * HALF_UNIT;
  return inside;
}

/* Adds those of some shapes on a layer whose windows hold the spot. Where the window of all of them does not hold it, none of theirs does: so of many shapes few are
   asked about alone. */
static bool add_held(const struct reading *reading, uint32_t layer, const int64_t spot[2], const struct line *lines, size_t count, struct counts *counts) {
  struct window window;
  size_t half = count / 2;
  if (!find_lines_window(reading, layer, lines, count, &window)) return false;
  if (!holds(&window, spot)) return true;
  if (half > 0) return add_held(reading, layer, spot, lines, half, counts) && add_held(reading, layer, spot, lines + half, count - half, counts);
  counts->all[counts->count++] = lines->count;
  return true;
}

bool find_at(const struct reading *reading, const struct view *view, struct counts *counts) {
  enum { TOGETHER = 256 };
  static struct shape shape;
  static struct line lines[TOGETHER];
  struct walk walk = walk_over(reading->flat);
  struct view wanted = {.layers = view->layer};
  uint32_t layer = 0;
  size_t kept = 0;
  uint64_t most = reading->answer[CIF_SHAPES];
  *counts = (struct counts){.all = malloc((most + 1) * sizeof *counts->all)};
  bool found = counts->all != NULL;
  for (uint64_t count = 1; found && count <= most && next_shape(&walk, &shape); count++) {
    if (!shows_layer(&wanted, shape.layer)) continue;
    layer = shape.layer;
    lines[kept++] = (struct line){shape.start, walk.at, count};
    if (kept < TOGETHER) continue;
    found = add_held(reading, layer, view->spot, lines, kept, counts);
    kept = 0;
  }
  return found && (kept == 0 || add_held(reading, layer, view->spot, lines, kept, counts));
}

void release_counts(struct counts *counts) {
  free(counts->all);
  *counts = (struct counts){0};
}

void tell_nothing_at(struct output *out, const struct reading *reading, const struct view *view) {
  put_name(out, reading->name);
  put_text(out, ": no shape on layer ");
  put_text(out, view->layer);
  put_text(out, " has a window that holds ");
  put_decimal(out, view->spot[0], 6);
  put_text(out, " ");
  put_decimal(out, view->spot[1], 6);
  put_text(out, "\n");
}
