/* A summary of an accepted text: what it draws, layer by layer, and what it is made of. */
#include <string.h>

#include "tool.h"

static const char kinds[] = "BPRW";
enum { KINDS = 4 };

static void put_column(struct output *out, int64_t number, int width) {
  int columns = 1;
  for (int64_t rest = number; rest >= 10; rest /= 10) columns++;
  for (; columns < width; columns++) put_text(out, " ");
  put_number(out, number);
}

static void count_kinds(struct bytes flat, const struct layers *layers, const struct layer *layer, int64_t counts[KINDS]) {
  static struct shape shape;
  struct layer_walk walk = walk_over_layer(flat, layers, layer);
  while (next_on_layer(&walk, &shape)) counts[strchr(kinds, shape.kind) - kinds]++;
}

/* Half units in microns: each is five thousandths of one. */
static void put_range(struct output *out, const char *axis, int64_t low, int64_t high) {
  put_text(out, axis);
  put_decimal(out, 5 * low, 3);
  put_text(out, " to ");
  put_decimal(out, 5 * high, 3);
}

static void put_window(struct output *out, const struct window *window) {
  if (window->some) {
    put_range(out, "   x ", window->number[0], window->number[2]);
    put_range(out, ", y ", window->number[1], window->number[3]);
  }
  put_text(out, "\n");
}

static void put_row(struct output *out, const char *name, const int64_t counts[KINDS], const struct window *window) {
  put_text(out, "  ");
  put_text(out, name);
  for (size_t i = strlen(name); i < 5; i++) put_text(out, " ");
  for (int i = 0; i < KINDS; i++) put_column(out, counts[i], 9);
  put_window(out, window);
}

static void put_table(struct output *out, const struct reading *reading, const struct layers *layers, const struct window *whole) {
  int64_t all[KINDS] = {0};
  put_text(out, "  layer    boxes polygons  flashes    wires   window that holds the figures, in microns\n");
  for (size_t i = 0; i < layers->count; i++) {
    int64_t counts[KINDS] = {0};
    char name[5];
    spell_layer(layers->all[i].name, name);
    count_kinds(reading->flat, layers, &layers->all[i], counts);
    put_row(out, name, counts, &layers->all[i].window);
    for (int kind = 0; kind < KINDS; kind++) all[kind] += counts[kind];
  }
  put_row(out, "all", all, whole);
}

static uint64_t count_extensions(struct bytes text) {
  struct command_walk walk = {.text = text};
  struct command command;
  uint64_t count = 0;
  while (next_command(&walk, &command)) count += is_digit(command.letter);
  return count;
}

void put_rounded_count(struct output *out, const struct reading *reading) {
  if (reading->answer[CIF_ROUNDED] == 0) return;
  put_text(out, ", ");
  put_count(out, reading->answer[CIF_ROUNDED], " rounded distance");
}

void tell_rounding(struct output *out, const struct reading *reading) {
  if (reading->answer[CIF_ROUNDED] == 0) return;
  put_paragraph(out, "Rounded distances lie between two hundredths of a micron by the scale of their definition (DS n a b), as with 100/3 on a grid of a third of a "
                     "micron. Each goes to the nearest hundredth, a half away from zero.");
}

static void put_head_line(struct output *out, const struct reading *reading, int depth) {
  put_name(out, reading->name);
  put_text(out, ": ");
  put_count(out, reading->answer[CIF_SHAPES], " shape");
  put_text(out, ", ");
  put_count(out, reading->answer[CIF_CALLS], " call");
  if (depth > 0) {
    put_text(out, depth == 1 ? " (" : " (up to ");
    put_number(out, depth);
    put_text(out, " deep)");
  }
  put_text(out, ", ");
  put_count(out, context_at_end(reading->text).definitions, " definition");
  put_text(out, ", ");
  put_count(out, reading->answer[CIF_REDEFINITIONS], " redefinition");
  put_rounded_count(out, reading);
  put_text(out, ", ");
  put_count(out, count_extensions(reading->text), " user extension");
  put_text(out, " skipped\n");
  tell_rounding(out, reading);
}

bool put_summary(struct output *out, const struct reading *reading) {
  struct layers layers = {0};
  struct window whole = {0};
  int depth;
  bool found = find_depth(reading, &depth) && find_layers(reading->flat, &layers) && find_windows(reading, &layers, &whole);
  if (found) put_head_line(out, reading, depth);
  if (found && layers.count > 0) put_table(out, reading, &layers, &whole);
  release_layers(&layers);
  return found;
}
