/* A place of a text for the eye: its line and column, and the line with a caret under it. Where a text is refused, line and column are the answer's. */
#include "tool.h"

enum { INDENT = 4, DOTS = 3, USUAL_WIDTH = 80 };

static size_t line_start(struct bytes text, size_t place) {
  while (place > 0 && text.at[place - 1] != '\n') place--;
  return place;
}

/* The end of the line as it is shown: a carriage return before a line feed belongs to the line's end, unless it is the very place. */
static size_t line_end(struct bytes text, size_t place) {
  size_t end = place;
  while (end < text.count && text.at[end] != '\n') end++;
  return end > place + 1 && end < text.count && text.at[end - 1] == '\r' ? end - 1 : end;
}

struct position position_of(struct bytes text, size_t place) {
  struct position position = {1, 1 + place - line_start(text, place)};
  for (size_t at = 0; at < place; at++) position.line += text.at[at] == '\n';
  return position;
}

static size_t columns_between(struct bytes text, size_t from, size_t to) {
  size_t columns = 0;
  for (; from < to; from++) columns += columns_of(text.at[from]);
  return columns;
}

/* What is shown of a line: all of it, or as much around the place as the columns allow. */
struct cut {
  size_t first, last;
};

static struct cut cut_line(struct bytes text, size_t place, struct cut line, size_t width) {
  size_t before = columns_between(text, line.first, place), after = columns_between(text, place, line.last);
  if (before + after <= width) return line;
  size_t room = width - 2 * DOTS, behind = room > before && room - before > room / 3 ? room - before : room / 3;
  if (behind > after) behind = after;
  struct cut cut = {place, place};
  for (size_t left = room - behind; cut.first > line.first && columns_of(text.at[cut.first - 1]) <= left;) left -= columns_of(text.at[--cut.first]);
  for (size_t left = behind; cut.last < line.last && columns_of(text.at[cut.last]) <= left;) left -= columns_of(text.at[cut.last++]);
  return cut;
}

static void put_spaces(struct output *out, size_t count) {
  for (size_t i = 0; i < count; i++) put_text(out, " ");
}

void put_excerpt(struct output *out, struct bytes text, size_t place) {
  struct cut line = {line_start(text, place), line_end(text, place)};
  struct cut cut = cut_line(text, place, line, (out->columns == 0 ? USUAL_WIDTH : out->columns) - INDENT - 1);
  put_spaces(out, INDENT);
  if (cut.first > line.first) put_text(out, "...");
  for (size_t at = cut.first; at < cut.last; at++) put_visible(out, text.at[at]);
  if (cut.last < line.last) put_text(out, "...");
  put_text(out, "\n");
  put_spaces(out, INDENT + (cut.first > line.first ? DOTS : 0) + columns_between(text, cut.first, place));
  put_marked(out, GREEN_MARK, "^");
  put_text(out, "\n");
}
