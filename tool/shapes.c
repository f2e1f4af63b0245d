/* The shapes of a flat file, one after another. The proved reader writes no other bytes than these lines; whatever else is met is called broken and ends
   the walk. */
#include "tool.h"

struct walk walk_over(struct bytes flat) { return (struct walk){.flat = flat}; }

/* The byte that comes next, or 0 at the end of the flat file. */
static unsigned char peek(const struct walk *walk) { return walk->at < walk->flat.count ? walk->flat.at[walk->at] : 0; }

static bool take(struct walk *walk, unsigned char byte) {
  if (walk->at == walk->flat.count || peek(walk) != byte) return false;
  walk->at++;
  return true;
}

static bool take_line_end(struct walk *walk) { return take(walk, ';') && take(walk, '\n'); }

static bool is_name(unsigned char byte) { return is_digit(byte) || is_upper(byte); }

static bool take_layer(struct walk *walk) {
  walk->layer = 0;
  for (int shift = 24; shift >= 0 && is_name(peek(walk)); shift -= 8) walk->layer |= (uint32_t)walk->flat.at[walk->at++] << shift;
  return walk->layer != 0 && take_line_end(walk);
}

static bool take_number(struct walk *walk, int32_t *number) {
  bool negative = take(walk, '-');
  size_t start = walk->at;
  int32_t value = 0;
  while (is_digit(peek(walk))) {
    if (value > 10000000) return false;
    value = value * 10 + (walk->flat.at[walk->at++] - '0');
  }
  *number = negative ? -value : value;
  return walk->at > start;
}

static bool take_numbers(struct walk *walk, struct shape *shape) {
  shape->count = 0;
  do {
    if (shape->count == MOST_NUMBERS || !take_number(walk, &shape->numbers[shape->count])) return false;
    shape->count++;
  } while (take(walk, ' '));
  return take_line_end(walk);
}

size_t first_point(const struct shape *shape) { return shape->kind == 'B' ? 2 : shape->kind == 'P' ? 0 : 1; }

size_t point_count(const struct shape *shape) { return shape->kind == 'B' ? 1 : (shape->count - first_point(shape)) / 2; }

static bool has_its_numbers(const struct shape *shape) {
  switch (shape->kind) {
    case 'B': return shape->count == 6 && (shape->numbers[4] != 0 || shape->numbers[5] != 0);
    case 'R': return shape->count == 3;
    case 'W': return shape->count >= 3 && shape->count % 2 == 1;
    default: return shape->kind == 'P' && shape->count >= 6 && shape->count % 2 == 0;
  }
}

bool next_shape(struct walk *walk, struct shape *shape) {
  if (walk->broken) return false;
  if (take(walk, 'L') && !take_layer(walk)) walk->broken = true;
  if (peek(walk) == 'E' || walk->broken) {
    walk->broken = walk->broken || walk->at + 2 != walk->flat.count || walk->flat.at[walk->at + 1] != '\n';
    return false;
  }
  shape->start = walk->at;
  shape->layer = walk->layer;
  shape->kind = walk->at < walk->flat.count ? (char)walk->flat.at[walk->at++] : 0;
  walk->broken = shape->layer == 0 || !take_numbers(walk, shape) || !has_its_numbers(shape);
  return !walk->broken;
}

void spell_layer(uint32_t layer, char name[5]) {
  for (int i = 0; i < 4; i++) name[i] = (char)(layer >> (24 - 8 * i) & 255);
  name[4] = 0;
}

bool is_flat(struct bytes flat) {
  static struct shape shape;
  struct walk walk = walk_over(flat);
  while (next_shape(&walk, &shape)) continue;
  return !walk.broken;
}
