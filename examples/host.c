/* A small host of the proved reader: writes the flat file of the CIF text on standard input to standard output.
   cc -Iinclude examples/host.c target/tool/libcif.a -o host, on x86-64 Linux. `tool/build` builds it, and `tool/test` runs it. */
#include <stdio.h>
#include <stdlib.h>

#include "cif.h"

static int flatten(unsigned char *text, int32_t *words, unsigned char *room) {
  /* One byte more than the reader takes, so that a text which is too long gets refusal 1 and is not cut. */
  size_t length = fread(text, 1, CIF_MOST_BYTES + 1, stdin);
  if (ferror(stdin)) {
    fprintf(stderr, "host: standard input cannot be read\n");
    return 2;
  }
  uint64_t answer[CIF_WORDS];
  /* As many words as the text has bytes always suffice. */
  cif_flatten(text, length, words, length, room, CIF_MOST_BYTES, answer);
  if (answer[CIF_NUMBER] != 0) {
    fprintf(stderr, "host: refused %zu on line %zu, column %zu", (size_t)answer[CIF_NUMBER], (size_t)answer[CIF_LINE], (size_t)answer[CIF_COLUMN]);
    /* The places of the calls that lead there, the outermost first. */
    for (size_t i = 0; i < answer[CIF_OPEN_CALLS]; i++) fprintf(stderr, "%s %zu", i == 0 ? "; in the calls at bytes" : ",", (size_t)answer[CIF_CHAIN + i]);
    return fprintf(stderr, "\n"), 1;
  }
  size_t flat = (size_t)answer[CIF_LENGTH];
  if (fwrite(room, 1, flat, stdout) != flat || fflush(stdout) != 0) {
    fprintf(stderr, "host: standard output cannot be written\n");
    return 2;
  }
  return 0;
}

int main(void) {
  unsigned char *text = malloc(CIF_MOST_BYTES + 1), *room = malloc(CIF_MOST_BYTES);
  int32_t *words = calloc(CIF_MOST_BYTES + 1, sizeof *words);
  int status = text == NULL || room == NULL || words == NULL ? 2 : flatten(text, words, room);
  free(text);
  free(words);
  free(room);
  return status;
}
