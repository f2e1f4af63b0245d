/* A picture of a flat file, as SVG: a group for each layer with few paths in it, a legend, and a bar for the scale. Inside the frame places are counted from its upper left
   corner and downward, as SVG wants it, in CIF's unit with the decimal point moved so that the frame is some thousands long: nothing is rounded away where
   a small picture lies far from zero, and viewers that hold numbers to some range draw the largest. */
#include <string.h>

#include "tool.h"

/* Distances in the plane: ten-thousandths of CIF's unit. Halves of lengths are exact in it. */
typedef int64_t fine;
enum { FINE = 10000 };

struct spot {
  fine x, y;
};

struct reach {
  struct spot low, high;
};

struct frame {
  struct reach window; /* that holds all that is drawn, or that was asked for */
  bool windowed;
  fine left, top, width, height; /* of what is shown: a margin more than the first of these, and just the second */
  int64_t pixels_wide, pixels_high;
  fine pixel;   /* how much of the plane a pixel covers */
  int decimals; /* where the decimal point stands in numbers of the frame */
};

enum { EDGE = 24, ROW = 20, LEGEND = 150, LEGEND_ROWS = 38, LEAST_WIDTH = 420, HEAD = 44, FOOT = 74 };

/* ---- attributes */

static void open_attribute(struct output *out, const char *name) {
  put_text(out, " ");
  put_text(out, name);
  put_text(out, "=\"");
}

static void put_attribute(struct output *out, const struct frame *frame, const char *name, fine value) {
  open_attribute(out, name);
  put_decimal(out, value, frame->decimals);
  put_text(out, "\"");
}

static void put_pixels(struct output *out, const char *name, int64_t value) {
  open_attribute(out, name);
  put_number(out, value);
  put_text(out, "\"");
}

static void put_colour(struct output *out, const char *name, uint32_t colour) {
  static const char hex[] = "0123456789abcdef";
  open_attribute(out, name);
  put_text(out, "#");
  for (int shift = 20; shift >= 0; shift -= 4) put(out, &hex[colour >> shift & 15], 1);
  put_text(out, "\"");
}

/* ---- geometry */

static struct spot point_of(const struct shape *shape, size_t which) {
  const int32_t *point = &shape->numbers[first_point(shape) + 2 * which];
  return (struct spot){(fine)point[0] * FINE, (fine)point[1] * FINE};
}

/* Newton's way, from above: the sum of two sides is at most half as long again as the third. */
static double length_of(double x, double y) {
  double square = x * x + y * y, guess = (x < 0 ? -x : x) + (y < 0 ? -y : y);
  for (int i = 0; i < 8; i++) guess = (guess + square / guess) / 2;
  return guess;
}

static fine rounded(double value) { return (fine)(value < 0 ? value - 0.5 : value + 0.5); }

/* From the centre of a box half a length along its direction; exact along the axes. */
static struct spot half_along(int32_t size, int32_t x, int32_t y) {
  fine half = (fine)size * (FINE / 2);
  if (y == 0) return (struct spot){x < 0 ? -half : half, 0};
  if (x == 0) return (struct spot){0, y < 0 ? -half : half};
  double length = length_of(x, y);
  return (struct spot){rounded((double)half * x / length), rounded((double)half * y / length)};
}

static void find_corners(const struct shape *box, struct spot corners[4]) {
  const int32_t *number = box->numbers;
  struct spot centre = point_of(box, 0);
  struct spot along = half_along(number[0], number[4], number[5]), across = half_along(number[1], -number[5], number[4]);
  static const int signs[4][2] = {{-1, -1}, {1, -1}, {1, 1}, {-1, 1}};
  for (int i = 0; i < 4; i++) {
    corners[i].x = centre.x + signs[i][0] * along.x + signs[i][1] * across.x;
    corners[i].y = centre.y + signs[i][0] * along.y + signs[i][1] * across.y;
  }
}

static const struct reach nothing = {.low = {INT64_MAX, INT64_MAX}, .high = {INT64_MIN, INT64_MIN}};

static void extend(struct reach *reach, struct spot spot, fine radius) {
  if (spot.x - radius < reach->low.x) reach->low.x = spot.x - radius;
  if (spot.y - radius < reach->low.y) reach->low.y = spot.y - radius;
  if (spot.x + radius > reach->high.x) reach->high.x = spot.x + radius;
  if (spot.y + radius > reach->high.y) reach->high.y = spot.y + radius;
}

static void extend_by_shape(struct reach *reach, const struct shape *shape) {
  if (shape->kind == 'B') {
    struct spot corners[4];
    find_corners(shape, corners);
    for (int i = 0; i < 4; i++) extend(reach, corners[i], 0);
    return;
  }
  fine radius = shape->kind == 'P' ? 0 : (fine)shape->numbers[0] * (FINE / 2);
  for (size_t i = 0; i < point_count(shape); i++) extend(reach, point_of(shape, i), radius);
}

static fine larger(fine one, fine other) { return one > other ? one : other; }

static fine longer_side(const struct reach *reach) { return larger(reach->high.x - reach->low.x, reach->high.y - reach->low.y); }

/* The two leading digits: numbers that are counted from a round margin are short. */
static fine rounded_off(fine value) {
  fine power = 1;
  while (value / power >= 100) power *= 10;
  return value / power * power;
}

/* Numbers of a window, each worth so much of the plane. */
static struct reach reach_of(const int64_t number[4], fine worth) {
  return (struct reach){.low = {number[0] * worth, number[1] * worth}, .high = {number[2] * worth, number[3] * worth}};
}

/* The view is what was asked for, or else the window of what is shown, which the archive tells: so nothing that is drawn is cut. */
static struct frame frame_of(const struct window *shown, const struct view *view) {
  struct frame frame = {.window = view->windowed ? reach_of(view->window, 1) : reach_of(shown->number, FINE / 2), .windowed = view->windowed};
  fine margin = view->windowed ? 0 : larger(rounded_off(longer_side(&frame.window) / 25), FINE);
  frame.left = frame.window.low.x - margin;
  frame.top = frame.window.high.y + margin;
  frame.width = frame.window.high.x - frame.left + margin;
  frame.height = frame.top - frame.window.low.y + margin;
  fine side = larger(frame.width, frame.height);
  frame.pixels_wide = (view->size * frame.width + side - 1) / side;
  frame.pixels_high = (view->size * frame.height + side - 1) / side;
  frame.pixel = larger(side / view->size, 1);
  for (fine least = 10000; side >= least; least *= 10) frame.decimals++;
  return frame;
}

/* ---- what is shown */

static bool meets_frame(const struct frame *frame, const struct reach *reach) {
  bool across = reach->low.x < frame->left + frame->width && reach->high.x > frame->left;
  return across && reach->low.y < frame->top && reach->high.y > frame->top - frame->height;
}

/* Whether the reach of the shape meets the window; of a wire, the reach of some stretch of it, since a long wire may go round the window. */
static bool is_shown(const struct frame *frame, const struct shape *shape) {
  struct reach reach = nothing;
  if (!frame->windowed) return true;
  if (shape->kind != 'W') {
    extend_by_shape(&reach, shape);
    return meets_frame(frame, &reach);
  }
  fine radius = (fine)shape->numbers[0] * (FINE / 2);
  for (size_t i = 0; i < point_count(shape); i++) {
    reach = nothing;
    extend(&reach, point_of(shape, i), radius);
    extend(&reach, point_of(shape, i > 0 ? i - 1 : 0), radius);
    if (meets_frame(frame, &reach)) return true;
  }
  return false;
}

static size_t count_shown(struct bytes flat, const struct layers *layers, const struct layer *layer, const struct frame *frame) {
  static struct shape shape;
  size_t count = 0;
  struct layer_walk walk = walk_over_layer(flat, layers, layer);
  while (next_on_layer(&walk, &shape)) count += is_shown(frame, &shape);
  return count;
}

/* Keeps the layers that the view names. */
static void choose_named(struct layers *layers, const struct view *view) {
  size_t kept = 0;
  for (size_t i = 0; i < layers->count; i++) {
    if (shows_layer(view, layers->all[i].name)) layers->all[kept++] = layers->all[i];
  }
  layers->count = kept;
}

/* Keeps the layers that have shapes in the window, and lets each count those. */
static void choose_met(struct bytes flat, struct layers *layers, const struct frame *frame) {
  size_t kept = 0;
  for (size_t i = 0; i < layers->count && frame->windowed; i++) {
    struct layer layer = layers->all[i];
    layer.shapes = count_shown(flat, layers, &layer, frame);
    if (layer.shapes > 0) layers->all[kept++] = layer;
  }
  if (frame->windowed) layers->count = kept;
}

/* Twice the area inside a polygon that does not cross itself; negative where it goes round clockwise. */
static int64_t twice_area(const struct shape *polygon) {
  int64_t sum = 0;
  const int32_t *number = polygon->numbers;
  for (size_t i = 0; i < polygon->count; i += 2) {
    size_t next = (i + 2) % polygon->count;
    sum += (int64_t)number[i] * number[next + 1] - (int64_t)number[next] * number[i + 1];
  }
  return sum;
}

/* How thick a shape is, about: its smaller size, and for a polygon the width of a box as long and as large. */
static double thickness(const struct shape *shape) {
  if (shape->kind == 'B') return (double)FINE * (shape->numbers[0] < shape->numbers[1] ? shape->numbers[0] : shape->numbers[1]);
  if (shape->kind != 'P') return (double)FINE * shape->numbers[0];
  struct reach reach = nothing;
  extend_by_shape(&reach, shape);
  fine length = longer_side(&reach);
  double area = (double)twice_area(shape);
  return length == 0 ? 0 : (area < 0 ? -area : area) * FINE / 2 * FINE / (double)length;
}

/* ---- shapes, as parts of paths

   A layer is drawn by few paths, since a browser is slow with many elements and shows pale gaps between shapes that touch where each is an element of its own. It is slow with
   very long paths too: those end after some shapes where no gap can show (end_line).
   All that is filled goes round the same way, so that nothing is cancelled where shapes overlap. */

enum part { SPECKS, SOLID, THIN, DOTS, CROSSED, WIRES, THIN_WIRES, PARTS };

/* What is thinner than a pixel gets a line of that width around it, or along it, so that it can be seen. What has one point and is smaller than a dot is drawn as
   it is, with a dot over it: so none looks larger than one that is larger. */
enum { DOT = 3 };

static bool has_one_point(const struct shape *shape) {
  for (size_t i = first_point(shape) + 2; i < shape->count; i++) {
    if (shape->numbers[i] != shape->numbers[i - 2]) return false;
  }
  return true;
}

static int side_of(struct spot from, struct spot to, struct spot spot) {
  double turn = (double)(to.x - from.x) * (double)(spot.y - from.y) - (double)(to.y - from.y) * (double)(spot.x - from.x);
  return (turn > 0) - (turn < 0);
}

/* Whether two edges may meet: so also where they touch, and where one goes on along the other. */
static bool may_meet(struct spot a, struct spot b, struct spot c, struct spot d) {
  return side_of(a, b, c) * side_of(a, b, d) <= 0 && side_of(c, d, a) * side_of(c, d, b) <= 0;
}

/* Whether a polygon surely does not touch itself. One with many corners is not looked at: it gets a path of its own, as one that does. */
static bool is_simple(const struct shape *polygon) {
  enum { MANY_CORNERS = 64 };
  size_t count = point_count(polygon);
  if (count > MANY_CORNERS) return false;
  for (size_t i = 0; i < count; i++) {
    struct spot a = point_of(polygon, i), b = point_of(polygon, (i + 1) % count);
    if (side_of(a, b, point_of(polygon, (i + 2) % count)) == 0) return false;
    for (size_t j = i + 2; j < count && (i > 0 || j + 1 < count); j++) {
      if (may_meet(a, b, point_of(polygon, j), point_of(polygon, (j + 1) % count))) return false;
    }
  }
  return true;
}

static bool is_in_part(const struct frame *frame, const struct shape *shape, enum part part) {
  bool dot = shape->kind != 'B' && has_one_point(shape), thin = thickness(shape) < (double)frame->pixel;
  if (dot && thickness(shape) < DOT * (double)frame->pixel) return part == DOTS || part == SPECKS;
  if (shape->kind == 'W' && !dot) return part == WIRES || (part == THIN_WIRES && thin);
  if (shape->kind == 'P' && !is_simple(shape)) return part == CROSSED;
  return part == (thin ? THIN : SOLID);
}

/* A number of the frame, without a zero before its point: there are many of them. */
static void put_short(struct output *out, const struct frame *frame, fine value) {
  static struct output whole = {.file = DROPPED};
  whole.used = 0;
  put_decimal(&whole, value, frame->decimals);
  size_t sign = value < 0, zero = whole.used > sign + 1 && whole.waiting[sign] == '0';
  put(out, whole.waiting, sign);
  put(out, whole.waiting + sign + zero, whole.used - sign - zero);
}

static void put_step(struct output *out, const struct frame *frame, const char *letter, fine value) {
  put_text(out, letter);
  put_short(out, frame, value);
}

/* The second of two numbers: a minus sign separates as well as a comma. */
static void put_second(struct output *out, const struct frame *frame, fine value) { put_step(out, frame, value < 0 ? "" : ",", value); }

static void put_spot(struct output *out, const struct frame *frame, struct spot spot) {
  put_short(out, frame, spot.x - frame->left);
  put_second(out, frame, frame->top - spot.y);
}

/* Where a closed part begins: counted from where the one before it began, which is short, or from the frame, so that no viewer's rounding adds up. */
struct start {
  bool near;
  struct spot spot;
};

static void put_start(struct output *out, const struct frame *frame, struct start *start, struct spot spot) {
  if (start->near) {
    put_step(out, frame, "m", spot.x - start->spot.x);
    put_second(out, frame, start->spot.y - spot.y);
  } else {
    put_text(out, "M");
    put_spot(out, frame, spot);
  }
  start->spot = spot;
}

static bool is_upright(const struct shape *box) { return box->numbers[4] == 0 || box->numbers[5] == 0; }

/* A box along the axes: from its lower left corner to the right. */
static void put_upright(struct output *out, const struct frame *frame, const struct shape *box, struct start *start) {
  bool along = box->numbers[5] == 0;
  fine width = (fine)box->numbers[along ? 0 : 1] * FINE, height = (fine)box->numbers[along ? 1 : 0] * FINE;
  struct spot centre = point_of(box, 0);
  put_start(out, frame, start, (struct spot){centre.x - width / 2, centre.y - height / 2});
  put_step(out, frame, "h", width);
  put_step(out, frame, "v", -height);
  put_step(out, frame, "h", -width);
  put_text(out, "z");
}

static void put_circle(struct output *out, const struct frame *frame, const struct shape *shape, struct start *start) {
  struct spot centre = point_of(shape, 0);
  fine radius = shape->kind == 'P' ? 0 : (fine)shape->numbers[0] * (FINE / 2);
  put_start(out, frame, start, (struct spot){centre.x - radius, centre.y});
  for (int half = 0; half < 2; half++) {
    put_step(out, frame, "a", radius);
    put_step(out, frame, ",", radius);
    put_text(out, " 0 1 0 ");
    put_short(out, frame, half == 0 ? 2 * radius : -2 * radius);
    put_text(out, ",0");
  }
  put_text(out, "z");
}

static void put_corners(struct output *out, const struct frame *frame, const struct shape *box) {
  struct spot corners[4];
  find_corners(box, corners);
  for (int i = 0; i < 4; i++) {
    put_text(out, i == 0 ? "M" : " ");
    put_spot(out, frame, corners[i]);
  }
  put_text(out, "z");
}

/* The points of a polygon, counterclockwise, or those of a wire. */
static void put_points(struct output *out, const struct frame *frame, const struct shape *shape) {
  size_t count = point_count(shape);
  bool turned = shape->kind == 'P' && twice_area(shape) < 0;
  for (size_t i = 0; i < count; i++) {
    put_text(out, i == 0 ? "M" : " ");
    put_spot(out, frame, point_of(shape, turned ? count - 1 - i : i));
  }
  if (shape->kind == 'P') put_text(out, "z");
}

static void put_subpath(struct output *out, const struct frame *frame, const struct shape *shape, struct start *start) {
  bool box = shape->kind == 'B', circle = !box && has_one_point(shape);
  if (box && is_upright(shape)) put_upright(out, frame, shape, start);
  else if (circle) put_circle(out, frame, shape, start);
  else if (box) put_corners(out, frame, shape);
  else put_points(out, frame, shape);
  start->near = circle || (box && is_upright(shape));
}

/* A line of no length, whose round ends make it a dot. */
static void put_dot(struct output *out, const struct frame *frame, const struct shape *shape, struct start *start) {
  put_start(out, frame, start, point_of(shape, 0));
  put_text(out, "h0");
  start->near = true;
}

/* ---- the paths of a layer */

struct pencil {
  struct output *out;
  const struct frame *frame;
  const struct layer *layer;
  enum part part;
  bool down;      /* a path is open */
  int32_t width;  /* of wires: those of one width share a path */
  int32_t wider;  /* the next width that was met, or 0 */
  int32_t drawn;  /* where there are many widths: all up to this one are drawn, and now a path ends where the width changes */
  size_t on_line; /* shapes since the last line end */
  size_t in_path; /* shapes since the path was opened */
  struct start start;
};

/* Whether a path may end anywhere and the next go on: where every shape has a line of some pixels around, along or over it no gap shows between the two. What is
   filled faintly would be darker where shapes of both overlap. */
static bool can_end(const struct pencil *pencil) {
  if (pencil->layer->outlined) return false;
  if (pencil->part == WIRES) return (fine)pencil->width * FINE < pencil->frame->pixel;
  return pencil->part != SOLID && pencil->part != CROSSED;
}

static void put_line(struct output *out, const struct frame *frame, const char *name, int pixels) {
  open_attribute(out, "class");
  put_text(out, name);
  put_text(out, "\"");
  put_attribute(out, frame, "stroke-width", pixels * frame->pixel);
}

static void lower(struct pencil *pencil) {
  struct output *out = pencil->out;
  put_text(out, "<path");
  if (pencil->part == WIRES || pencil->part == THIN_WIRES) put_text(out, " fill=\"none\"");
  if (pencil->part == WIRES) put_attribute(out, pencil->frame, "stroke-width", (fine)pencil->width * FINE);
  else if (pencil->part == DOTS) put_line(out, pencil->frame, "dot", DOT);
  else if (pencil->part == THIN || pencil->part == THIN_WIRES || pencil->layer->outlined) put_line(out, pencil->frame, "line", 1);
  if (pencil->layer->outlined) put_text(out, pencil->part == WIRES ? " stroke-opacity=\"0.2\"" : " fill-opacity=\"0.1\"");
  put_text(out, " d=\"");
  pencil->down = true;
  pencil->on_line = pencil->in_path = 0;
  pencil->start.near = false;
}

static void lift(struct pencil *pencil) {
  if (pencil->down) put_text(pencil->out, "\"/>\n");
  pencil->down = false;
}

/* Whether a wire of the width is drawn now. */
static bool takes_width(struct pencil *pencil, int32_t width) {
  if (pencil->drawn != 0) {
    if (width != pencil->width) lift(pencil);
    pencil->width = width;
    return width > pencil->drawn;
  }
  if (width > pencil->width && (pencil->wider == 0 || width < pencil->wider)) pencil->wider = width;
  return width == pencil->width;
}

/* A browser draws square by square, and for each goes through every path that reaches into it, whole: so where there are many shapes a path ends after some. */
static void end_line(struct pencil *pencil) {
  enum { SHAPES_IN_A_PATH = 1024 };
  put_text(pencil->out, "\n");
  pencil->on_line = 0;
  pencil->start.near = false;
  if (pencil->in_path >= SHAPES_IN_A_PATH && can_end(pencil)) lift(pencil);
}

static void draw(struct pencil *pencil, const struct shape *shape) {
  enum { SHAPES_ON_A_LINE = 32 };
  if (!is_shown(pencil->frame, shape)) return;
  if (!is_in_part(pencil->frame, shape, pencil->part)) return;
  if (pencil->part == WIRES && !takes_width(pencil, shape->numbers[0])) return;
  if (pencil->part == CROSSED) lift(pencil);
  if (!pencil->down) lower(pencil);
  if (pencil->part == DOTS) put_dot(pencil->out, pencil->frame, shape, &pencil->start);
  else put_subpath(pencil->out, pencil->frame, shape, &pencil->start);
  pencil->in_path++;
  if (++pencil->on_line == SHAPES_ON_A_LINE) end_line(pencil);
}

static void draw_part(struct pencil *pencil, struct bytes flat, const struct layers *layers) {
  static struct shape shape;
  struct layer_walk walk = walk_over_layer(flat, layers, pencil->layer);
  pencil->wider = 0;
  while (next_on_layer(&walk, &shape)) draw(pencil, &shape);
  lift(pencil);
}

/* Once, and for wires once for each width, up to some. */
static void draw_widths(struct pencil *pencil, struct bytes flat, const struct layers *layers) {
  enum { MANY_WIDTHS = 16 };
  draw_part(pencil, flat, layers);
  for (int widths = 0; pencil->wider != 0; widths++) {
    pencil->drawn = widths == MANY_WIDTHS ? pencil->width : 0;
    pencil->width = pencil->wider;
    draw_part(pencil, flat, layers);
  }
}

static void put_layer(struct output *out, const struct frame *frame, struct bytes flat, const struct layers *layers, const struct layer *layer) {
  char name[5];
  spell_layer(layer->name, name);
  put_text(out, "<g id=\"layer-");
  put_text(out, name);
  put_text(out, layer->outlined ? "\"" : "\" opacity=\"0.65\"");
  put_text(out, " fill-rule=\"nonzero\" stroke-linecap=\"round\" stroke-linejoin=\"round\" stroke-width=\"0\"");
  put_colour(out, "fill", layer->colour);
  put_colour(out, "stroke", layer->colour);
  put_text(out, ">\n");
  for (int part = 0; part < PARTS; part++) {
    struct pencil pencil = {.out = out, .frame = frame, .layer = layer, .part = (enum part)part};
    draw_widths(&pencil, flat, layers);
  }
  put_text(out, "</g>\n");
}

/* A cross at zero, where that is in the frame. */
static void put_origin(struct output *out, const struct frame *frame) {
  static const struct spot zero;
  fine arm = 6 * frame->pixel;
  if (frame->left > 0 || frame->left + frame->width < 0 || frame->top < 0 || frame->top - frame->height > 0) return;
  put_text(out, "<path id=\"origin\" fill=\"none\" stroke=\"#000\"");
  put_line(out, frame, "line", 1);
  put_text(out, " d=\"M");
  put_spot(out, frame, (struct spot){zero.x - arm, zero.y});
  put_step(out, frame, "h", 2 * arm);
  put_text(out, "M");
  put_spot(out, frame, (struct spot){zero.x, zero.y + arm});
  put_step(out, frame, "v", 2 * arm);
  put_text(out, "\"/>\n");
}

static void put_drawing(struct output *out, const struct frame *frame, struct bytes flat, const struct layers *layers) {
  put_text(out, "<svg");
  put_pixels(out, "x", EDGE);
  put_pixels(out, "y", HEAD);
  put_pixels(out, "width", frame->pixels_wide);
  put_pixels(out, "height", frame->pixels_high);
  put_text(out, " viewBox=\"0 0 ");
  put_decimal(out, frame->width, frame->decimals);
  put_text(out, " ");
  put_decimal(out, frame->height, frame->decimals);
  put_text(out, "\">\n");
  for (size_t i = 0; i < layers->count; i++) put_layer(out, frame, flat, layers, &layers->all[i]);
  put_origin(out, frame);
  put_text(out, "</svg>\n");
}

/* ---- around the drawing */

static void open_text(struct output *out, int64_t x, int64_t y) {
  put_text(out, "<text");
  put_pixels(out, "x", x);
  put_pixels(out, "y", y);
  put_text(out, ">");
}

static void put_swatch(struct output *out, const struct layer *layer, int64_t x, int64_t y) {
  put_text(out, layer->outlined ? "<rect width=\"14\" height=\"14\"" : "<rect width=\"14\" height=\"14\" opacity=\"0.65\"");
  put_pixels(out, "x", x);
  put_pixels(out, "y", y);
  put_colour(out, "fill", layer->colour);
  if (layer->outlined) {
    put_text(out, " fill-opacity=\"0.1\"");
    put_colour(out, "stroke", layer->colour);
  }
  put_text(out, "/>");
}

static void put_legend_row(struct output *out, const struct layer *layer, int64_t x, int64_t y) {
  char name[5];
  spell_layer(layer->name, name);
  put_text(out, "<g class=\"row\" data-layer=\"layer-");
  put_text(out, name);
  put_text(out, "\">");
  put_swatch(out, layer, x, y);
  open_text(out, x + ROW, y + 12);
  put_text(out, name);
  put_text(out, "</text>");
  open_text(out, x + 4 * ROW, y + 12);
  put_number(out, (int64_t)layer->shapes);
  put_text(out, "</text></g>\n");
}

/* As many as stand beside the frame, and no fewer than beside one of the usual size. */
static size_t legend_rows(const struct frame *frame, const struct layers *layers) {
  size_t most = (size_t)larger(LEGEND_ROWS, frame->pixels_high / ROW - 2);
  return layers->count < most ? layers->count : most;
}

static void put_legend(struct output *out, const struct frame *frame, const struct layers *layers) {
  size_t rows = legend_rows(frame, layers);
  int64_t x = EDGE + frame->pixels_wide + EDGE;
  open_text(out, x + ROW, HEAD - 8);
  put_text(out, "layer</text>");
  open_text(out, x + 4 * ROW, HEAD - 8);
  put_text(out, "shapes</text>\n");
  for (size_t i = 0; i < rows; i++) put_legend_row(out, &layers->all[i], x, HEAD + (int64_t)i * ROW);
  if (rows == layers->count) return;
  open_text(out, x, HEAD + (int64_t)rows * ROW + 12);
  put_text(out, "and ");
  put_count(out, layers->count - rows, " more layer");
  put_text(out, "</text>\n");
}

/* The longest of 1, 2, 5, 10, 20, .. units that takes at most a third of the frame, and at least one unit. */
static int64_t bar_units(const struct frame *frame) {
  static const int64_t leading[] = {1, 2, 5};
  int64_t best = 1;
  for (int64_t power = 1; power * FINE <= frame->width; power *= 10) {
    for (int i = 0; i < 3; i++) {
      if (leading[i] * power * FINE <= frame->width / 3) best = leading[i] * power;
    }
  }
  return best;
}

static void put_bar(struct output *out, const struct frame *frame, int64_t y) {
  int64_t units = bar_units(frame);
  int64_t pixels = units * FINE * frame->pixels_wide / frame->width;
  put_text(out, "<rect height=\"3\" fill=\"#333\"");
  put_pixels(out, "x", EDGE);
  put_pixels(out, "y", y);
  put_pixels(out, "width", larger(pixels, 1));
  put_text(out, "/>");
  open_text(out, EDGE + pixels + 8, y + 6);
  put_decimal(out, units, 2);
  put_text(out, " \xC2\xB5m</text>\n");
}

/* The reach of the drawing along one axis, in microns. */
static void put_range(struct output *out, const char *axis, fine low, fine high) {
  put_text(out, axis);
  put_decimal(out, low / (FINE / 100), 4);
  put_text(out, " to ");
  put_decimal(out, high / (FINE / 100), 4);
}

static size_t all_shapes(const struct layers *layers) {
  size_t count = 0;
  for (size_t i = 0; i < layers->count; i++) count += layers->all[i].shapes;
  return count;
}

/* How much the whole drawing has, of which a view may show less. */
struct amount {
  size_t shapes, layers;
};

/* "67 shapes", or "12 of 67 shapes" where not all are shown. */
static void put_part_of(struct output *out, size_t shown, size_t all, const char *what) {
  if (shown < all) {
    put_number(out, (int64_t)shown);
    put_text(out, " of ");
  }
  put_count(out, all, what);
}

static void put_foot(struct output *out, const struct frame *frame, const struct layers *layers, struct amount all, int64_t y) {
  put_bar(out, frame, y + 10);
  open_text(out, EDGE, y + 38);
  put_part_of(out, all_shapes(layers), all.shapes, " shape");
  put_text(out, ", ");
  put_part_of(out, layers->count, all.layers, " layer");
  put_text(out, "</text>\n");
  open_text(out, EDGE, y + 56);
  put_range(out, "x ", frame->window.low.x, frame->window.high.x);
  put_range(out, ", y ", frame->window.low.y, frame->window.high.y);
  put_text(out, " \xC2\xB5m</text>\n");
}

/* The last part of the file's name, with what means something in XML escaped. */
static void put_file_name(struct output *out, const char *name) {
  static struct output shown;
  const char *slash = strrchr(name, '/');
  shown = (struct output){.file = DROPPED};
  put_name(&shown, slash == NULL ? name : slash + 1);
  for (size_t i = 0; i < shown.used; i++) {
    unsigned char byte = shown.waiting[i];
    if (byte == '&') put_text(out, "&amp;");
    else if (byte == '<') put_text(out, "&lt;");
    else put(out, &byte, 1);
  }
}

static void open_picture(struct output *out, const char *name, int64_t width, int64_t height) {
  put_text(out, "<?xml version=\"1.0\" encoding=\"UTF-8\"?>\n<svg xmlns=\"http://www.w3.org/2000/svg\"");
  put_pixels(out, "width", width);
  put_pixels(out, "height", height);
  put_text(out, " viewBox=\"0 0 ");
  put_number(out, width);
  put_text(out, " ");
  put_number(out, height);
  put_text(out, "\" font-family=\"sans-serif\" font-size=\"13\">\n"
                "<style>@supports (vector-effect: non-scaling-stroke) {\n"
                ".line { stroke-width: 1px; vector-effect: non-scaling-stroke }\n"
                ".dot { stroke-width: 3px; vector-effect: non-scaling-stroke }\n"
                "}\n"
                ".row { cursor: pointer }</style>\n<title>");
  put_file_name(out, name);
  put_text(out, "</title>\n<rect width=\"100%\" height=\"100%\" fill=\"#fff\"/>\n<text id=\"name\" font-weight=\"bold\"");
  put_pixels(out, "x", EDGE);
  put_pixels(out, "y", EDGE + 4);
  put_text(out, ">");
  put_file_name(out, name);
  put_text(out, "</text>\n");
}

/* In a browser a click on a row of the legend hides its layer, and another shows it again. Without a script all is shown. */
static void put_script(struct output *out) {
  put_text(out, "<script><![CDATA[\n"
                "document.querySelectorAll(\".row\").forEach(row => row.addEventListener(\"click\", () => {\n"
                "  const layer = document.getElementById(row.getAttribute(\"data-layer\")), hidden = layer.style.display === \"none\";\n"
                "  layer.style.display = hidden ? \"\" : \"none\";\n"
                "  row.style.opacity = hidden ? 1 : 0.3;\n"
                "}));\n"
                "]]></script>\n");
}

static void put_border(struct output *out, const struct frame *frame) {
  put_text(out, "<rect fill=\"none\" stroke=\"#ccc\"");
  put_pixels(out, "x", EDGE);
  put_pixels(out, "y", HEAD);
  put_pixels(out, "width", frame->pixels_wide);
  put_pixels(out, "height", frame->pixels_high);
  put_text(out, "/>\n");
}

static void put_empty(struct output *out, const char *name, struct amount all) {
  open_picture(out, name, LEAST_WIDTH, 3 * EDGE);
  open_text(out, EDGE, 2 * EDGE + 6);
  put_text(out, all.shapes == 0 ? "no shapes" : "none of ");
  if (all.shapes > 0) put_count(out, all.shapes, " shape");
  put_text(out, all.shapes == 0 ? "</text>\n</svg>\n" : " is in view</text>\n</svg>\n");
}

static void put_picture(struct output *out, const struct reading *reading, const struct frame *frame, const struct layers *layers, struct amount all) {
  int64_t legend_high = ((int64_t)legend_rows(frame, layers) + 1) * ROW;
  int64_t wide = larger(frame->pixels_wide + LEGEND, LEAST_WIDTH) + 2 * EDGE, high = larger(frame->pixels_high, legend_high) + HEAD + FOOT;
  open_picture(out, reading->name, wide, high);
  put_drawing(out, frame, reading->flat, layers);
  put_border(out, frame);
  put_legend(out, frame, layers);
  put_foot(out, frame, layers, all, high - FOOT);
  put_script(out);
  put_text(out, "</svg>\n");
}

static void put_shown(struct output *out, const struct reading *reading, struct layers *layers, const struct frame *frame, struct amount all) {
  if (layers->count > 0) choose_met(reading->flat, layers, frame);
  if (layers->count > 0) put_picture(out, reading, frame, layers, all);
  else put_empty(out, reading->name, all);
}

/* Colours are given before anything is left out, so that a layer looks the same in every view. */
static bool put_view(struct output *out, const struct reading *reading, struct layers *layers, const struct view *view) {
  struct amount all = {all_shapes(layers), layers->count};
  struct window shown = {0};
  tell_undrawn_layers(view, layers, reading->name);
  if (layers->count > 0) colour_layers(layers->all, layers->count);
  choose_named(layers, view);
  if (layers->count > 0 && !view->windowed && !find_window(reading, layers, &shown)) return false;
  struct frame frame = frame_of(&shown, view);
  put_shown(out, reading, layers, &frame, all);
  return true;
}

bool put_plot(struct output *out, const struct reading *reading, const struct view *view) {
  struct layers layers;
  bool found = find_layers(reading->flat, &layers) && put_view(out, reading, &layers, view);
  release_layers(&layers);
  return found;
}
