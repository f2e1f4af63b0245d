/* How deep the calls of an accepted text go, for the summary. Only shown: the walk counts calls as the archive does, and where the two differ nothing is
   shown. The archive has drawn all these calls, so they are at most 1,048,576, 32 deep at most, and lead to symbols that are defined. */
#include <stdlib.h>

#include "tool.h"

enum { MOST_LIVE = 512, MOST_DEPTH = 32, MOST_CALLS = 1048576 };

struct symbol {
  uint32_t number;
  size_t first, end; /* its calls */
};

struct callers {
  uint32_t *called; /* the symbols that bodies call, one body after another */
  size_t used;
  struct symbol live[MOST_LIVE];
  size_t live_count;
  uint64_t drawn;
  int deepest;
};

static struct symbol *find_symbol(struct callers *callers, uint32_t number) {
  for (size_t i = 0; i < callers->live_count; i++) {
    if (callers->live[i].number == number) return &callers->live[i];
  }
  return NULL;
}

static void enter(struct callers *callers, struct symbol symbol) {
  struct symbol *old = find_symbol(callers, symbol.number);
  if (old != NULL) *old = symbol;
  else if (callers->live_count < MOST_LIVE) callers->live[callers->live_count++] = symbol;
}

/* DD n: symbols from n up are gone. */
static void delete_from(struct callers *callers, uint32_t number) {
  size_t kept = 0;
  for (size_t i = 0; i < callers->live_count; i++) {
    if (callers->live[i].number < number) callers->live[kept++] = callers->live[i];
  }
  callers->live_count = kept;
}

static void follow(struct callers *callers, uint32_t number, int depth) {
  struct symbol *found = find_symbol(callers, number);
  if (found == NULL || depth > MOST_DEPTH || callers->drawn > MOST_CALLS) return;
  struct symbol symbol = *found;
  callers->drawn++;
  if (depth > callers->deepest) callers->deepest = depth;
  for (size_t i = symbol.first; i < symbol.end; i++) follow(callers, callers->called[i], depth + 1);
}

static size_t count_commands(struct bytes text) {
  size_t count = 1;
  for (size_t at = 0; at < text.count; at++) count += text.at[at] == ';';
  return count;
}

static void walk_over_calls(struct callers *callers, struct bytes text) {
  struct command_walk walk = {.text = text};
  struct command command;
  struct symbol open = {0};
  bool defining = false;
  while (next_command(&walk, &command)) {
    unsigned char second = command.letter == 'D' ? second_letter(text, &command) : 0;
    uint32_t number = first_number(text, &command);
    if (second == 'S') open = (struct symbol){number, callers->used, 0}, defining = true;
    if (second == 'D') delete_from(callers, number);
    if (second == 'F') {
      open.end = callers->used;
      enter(callers, open);
      defining = false;
    }
    if (command.letter == 'C' && defining) callers->called[callers->used++] = number;
    if (command.letter == 'C' && !defining) follow(callers, number, 1);
  }
}

bool find_depth(const struct reading *reading, int *depth) {
  static struct callers callers;
  callers = (struct callers){.called = malloc(count_commands(reading->text) * sizeof *callers.called)};
  if (callers.called == NULL) return false;
  walk_over_calls(&callers, reading->text);
  free(callers.called);
  *depth = callers.drawn == reading->answer[CIF_CALLS] ? callers.deepest : UNKNOWN_DEPTH;
  return true;
}
