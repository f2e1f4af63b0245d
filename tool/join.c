/* Texts joined one after another by the proved archive, which cuts each at its E and writes `DD0;` before the next. Here it is only kept where each begins in the
   joined text, so that a refusal of that text is told of the file it is in. */
#include <stdlib.h>
#include <string.h>

#include "tool.h"

enum { SEAM = 4 }; /* bytes of `DD0;` */

bool start_joined(struct joined *joined, int most) {
  *joined = (struct joined){.text = malloc(CIF_MOST_BYTES), .room = malloc(CIF_MOST_BYTES), .texts = malloc((size_t)most * sizeof *joined->texts)};
  return joined->text != NULL && joined->room != NULL && joined->texts != NULL;
}

void release_joined(struct joined *joined) {
  free(joined->text);
  free(joined->room);
  free(joined->texts);
}

/* The joined text so far with one more, in the room; the two then change places. */
static bool join_one(struct joined *joined, struct bytes text) {
  uint64_t answer[CIF_WORDS];
  cif_join(joined->text, joined->length, text.at, text.count, joined->room, CIF_MOST_BYTES, answer);
  if (answer[CIF_NUMBER] != 0) return false;
  unsigned char *written = joined->room;
  joined->room = joined->text;
  joined->text = written;
  joined->length = (size_t)answer[CIF_LENGTH];
  return true;
}

bool add_text(struct joined *joined, const char *name, struct bytes text) {
  if (text.count > CIF_MOST_BYTES) return false;
  if (joined->count > 0) {
    if (!join_one(joined, text)) return false;
  } else {
    memcpy(joined->text, text.at, text.count);
    joined->length = text.count;
  }
  joined->texts[joined->count++] = (struct added){name, joined->length - text.count};
  return true;
}

/* The text that a place of the joined one is in. */
static int text_at(const struct joined *joined, uint64_t place) {
  int which = joined->count - 1;
  while (which > 0 && joined->texts[which].start > place) which--;
  return which;
}

/* A text as far as it is joined: without its E, unless it is the last. */
static struct bytes text_of(const struct joined *joined, int which) {
  size_t start = joined->texts[which].start, end = which + 1 < joined->count ? joined->texts[which + 1].start - SEAM : joined->length;
  return (struct bytes){joined->text + start, end - start};
}

/* The calls that were open are in the same text: `DD0;` leaves none of an earlier one to call. */
struct reading refused_text(const struct joined *joined, const uint64_t answer[CIF_WORDS]) {
  int which = text_at(joined, answer[CIF_PLACE]);
  size_t start = joined->texts[which].start;
  struct reading reading = {.name = joined->texts[which].name, .text = text_of(joined, which)};
  memcpy(reading.answer, answer, sizeof reading.answer);
  reading.answer[CIF_PLACE] -= start;
  for (size_t i = 0; i < open_calls(&reading); i++) reading.answer[CIF_CHAIN + i] -= start;
  size_t place = reading.answer[CIF_PLACE] < reading.text.count ? (size_t)reading.answer[CIF_PLACE] : reading.text.count;
  struct position position = position_of(reading.text, place);
  reading.answer[CIF_LINE] = position.line;
  reading.answer[CIF_COLUMN] = position.column;
  return reading;
}
