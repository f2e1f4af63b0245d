/* A host as a plotter's controller has it: no heap, little stack, and nothing that recurses. Writes the flat file of the CIF text on standard input to standard
   output, with as many records for open calls as its argument says, 32 unless it is said. All memory is laid out beforehand, and what was lent is looked at
   afterwards. `tool/build` builds it, and `tool/test` runs it. */
#include <stdio.h>
#include <string.h>

#include "cif.h"

enum { LONGEST = 1 << 20, LARGEST_FLAT = 1 << 22 };

static unsigned char text[LONGEST + 1], room[LARGEST_FLAT];
static int32_t words[LONGEST];
static struct cif_record records[CIF_MOST_OPEN_CALLS];
static uint64_t answer[CIF_WORDS];

/* Whether the engine left no bit in what it was lent. */
static int is_clear(const void *lent, size_t size) {
  const unsigned char *byte = lent;
  for (size_t i = 0; i < size; i++)
    if (byte[i] != 0) return 0;
  return 1;
}

int main(int count, char **given) {
  size_t many = count > 1 ? 0 : CIF_MOST_OPEN_CALLS;
  for (const char *digit = count > 1 ? given[1] : ""; *digit != 0 && many <= CIF_MOST_OPEN_CALLS; digit++) many = 10 * many + (size_t)(*digit - '0');
  size_t length = fread(text, 1, sizeof text, stdin);
  if (many > CIF_MOST_OPEN_CALLS || length > LONGEST) return fprintf(stderr, "stacked: at most %d records and %d bytes\n", CIF_MOST_OPEN_CALLS, LONGEST), 2;
  /* Nothing needs to be cleared before: any numbers may stand there. */
  memset(records, 0xA5, sizeof records);
  memset(words, 0xA5, sizeof words);
  cif_flatten_stacked(text, length, words, length, room, sizeof room, records, many, answer);
  if (!is_clear(records, many * sizeof *records) || !is_clear(words, length * sizeof *words)) return fprintf(stderr, "stacked: something is left in what was lent\n"), 2;
  if (answer[CIF_NUMBER] != 0) {
    fprintf(stderr, "stacked: refused %zu on line %zu, column %zu", (size_t)answer[CIF_NUMBER], (size_t)answer[CIF_LINE], (size_t)answer[CIF_COLUMN]);
    for (size_t i = 0; i < answer[CIF_OPEN_CALLS]; i++) fprintf(stderr, "%s %zu", i == 0 ? "; in the calls at bytes" : ",", (size_t)answer[CIF_CHAIN + i]);
    return fprintf(stderr, "\n"), 1;
  }
  size_t flat = (size_t)answer[CIF_LENGTH];
  return fwrite(room, 1, flat, stdout) != flat || fflush(stdout) != 0 ? 2 : 0;
}
