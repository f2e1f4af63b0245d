/* The calls that were open where a drawing was refused, for the eye: the line and column of each and its text, the outermost first. The answer has their places
   and nothing else of them, so that their lines are counted here; those of the refused place itself are the answer's. */
#include "tool.h"

enum { INDENT = 4, DOTS = 3, USUAL_WIDTH = 80 };

size_t open_calls(const struct reading *reading) {
  uint64_t count = reading->answer[CIF_OPEN_CALLS];
  return count < CIF_MOST_OPEN_CALLS ? (size_t)count : CIF_MOST_OPEN_CALLS;
}

size_t open_call(const struct reading *reading, size_t which) {
  uint64_t place = reading->answer[CIF_CHAIN + which];
  return place < reading->text.count ? (size_t)place : reading->text.count;
}

static size_t put_counted(struct output *out, const char *words, size_t number) {
  size_t columns = 1;
  put_text(out, words);
  put_number(out, (int64_t)number);
  for (size_t at = 0; words[at] != 0; at++) columns++;
  for (; number >= 10; number /= 10) columns++;
  return columns;
}

static bool is_space(unsigned char byte) { return byte == ' ' || (byte >= '\t' && byte <= '\r'); }

/* The call without its semicolon, white space as one space, and cut where it is long. No comment can stand in it, so the next semicolon is its own. */
static void put_call(struct output *out, struct bytes text, size_t at, size_t width) {
  size_t used = 0;
  for (; at < text.count && text.at[at] != ';'; at++) {
    bool space = is_space(text.at[at]), last = at + 1 == text.count || text.at[at + 1] == ';';
    if (space && (last || is_space(text.at[at + 1]))) continue;
    used += space ? 1 : columns_of(text.at[at]);
    if (used > width) {
      put_text(out, "...");
      return;
    }
    put_visible(out, space ? ' ' : text.at[at]);
  }
}

static void put_open_call(struct output *out, struct bytes text, size_t place) {
  struct position position = position_of(text, place);
  size_t width = (out->columns == 0 ? USUAL_WIDTH : out->columns) - 1 - INDENT - DOTS;
  size_t used = put_counted(out, "    line ", position.line) + put_counted(out, ", column ", position.column);
  put_text(out, ": ");
  put_call(out, text, place, used < width ? width - used : 0);
  put_text(out, "\n");
}

void put_chain(struct output *out, const struct reading *reading) {
  size_t count = open_calls(reading);
  if (count == 0) return;
  put_text(out, "  In ");
  put_count(out, count, " call");
  put_text(out, count == 1 ? ":\n" : ", the outermost first:\n");
  for (size_t i = 0; i < count; i++) put_open_call(out, reading->text, open_call(reading, i));
  put_text(out, "  and there:\n");
}
