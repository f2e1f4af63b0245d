/* The warnings of an accepted text: symbols that are redefined, and calls that find nothing after a DD (docs/RULES.md, section 13). Which there are, in which
   order, and where a dangling call stands, is told by the proved archive, in the lines of its list. Only the places of redefinitions are found here, by a walk
   over the definitions: where it does not find the symbols that the archive tells, no place of a redefinition is shown. */
#include <stdlib.h>
#include <string.h>

#include "tool.h"

enum { MOST_LIVE = 512 };

struct live_symbol {
  uint32_t number;
  size_t place; /* of its DS */
};

struct definition_walk {
  struct command_walk commands;
  struct live_symbol open; /* the definition that is being read */
  struct live_symbol live[MOST_LIVE];
  size_t count;
};

struct redefinition {
  uint32_t symbol;
  size_t place, before; /* of its DS, and of the DS that it takes the place of */
};

/* ---- where symbols are redefined */

static void delete_from(struct definition_walk *walk, uint32_t number) {
  size_t kept = 0;
  for (size_t i = 0; i < walk->count; i++) {
    if (walk->live[i].number < number) walk->live[kept++] = walk->live[i];
  }
  walk->count = kept;
}

/* Enters the open definition; true where it takes the place of another. */
static bool enter(struct definition_walk *walk, struct redefinition *found) {
  for (size_t i = 0; i < walk->count; i++) {
    if (walk->live[i].number != walk->open.number) continue;
    *found = (struct redefinition){walk->open.number, walk->open.place, walk->live[i].place};
    walk->live[i] = walk->open;
    return true;
  }
  if (walk->count < MOST_LIVE) walk->live[walk->count++] = walk->open;
  return false;
}

/* False at the end of the text. */
static bool next_redefinition(struct definition_walk *walk, struct redefinition *found) {
  struct command command;
  while (next_command(&walk->commands, &command)) {
    unsigned char second = command.letter == 'D' ? second_letter(walk->commands.text, &command) : 0;
    if (second == 'S') walk->open = (struct live_symbol){first_number(walk->commands.text, &command), command.start};
    if (second == 'D') delete_from(walk, first_number(walk->commands.text, &command));
    if (second == 'F' && enter(walk, found)) return true;
  }
  return false;
}

/* ---- words */

static void put_redefined(struct output *out, const struct warning *warning, struct bytes text) {
  struct position before = position_of(text, warning->before);
  put_text(out, "symbol ");
  put_number(out, warning->symbol);
  put_text(out, " redefined: this definition takes the place of the one ");
  if (warning->before == warning->place) {
    put_text(out, "before it.");
    return;
  }
  put_text(out, "on line ");
  put_number(out, (int64_t)before.line);
  put_text(out, ", column ");
  put_number(out, (int64_t)before.column);
  put_text(out, ".");
}

static void put_dangling(struct output *out, uint64_t times) {
  put_text(out, "dangling references after ");
  if (times == 1) put_text(out, "DD");
  else put_count(out, times, " DD command");
  put_text(out, ": the definition that this call stands in is live then, and the symbol that it calls is not.");
}

static void find_words(struct warning *warning, struct bytes text) {
  static struct output words;
  words = (struct output){.file = DROPPED};
  if (warning->kind == REDEFINED) put_redefined(&words, warning, text);
  else put_dangling(&words, warning->times);
  size_t count = words.used < sizeof warning->words ? words.used : sizeof warning->words - 1;
  memcpy(warning->words, words.waiting, count);
  warning->words[count] = 0;
}

/* ---- what the archive tells */

static void add_redefined(struct warnings *warnings, struct definition_walk *walk, uint32_t symbol) {
  struct redefinition found = {0};
  if (warnings->count == MOST_WARNINGS) return;
  if (!next_redefinition(walk, &found) || found.symbol != symbol) found = (struct redefinition){0};
  warnings->all[warnings->count++] = (struct warning){.kind = REDEFINED, .name = "redefined", .symbol = symbol, .place = found.place, .before = found.before, .times = 1};
}

/* A call that dangles after several DD is one warning. */
static void add_dangling(struct warnings *warnings, size_t place) {
  for (size_t i = 0; i < warnings->count; i++) {
    struct warning *known = &warnings->all[i];
    if (known->kind != DANGLING || known->place != place) continue;
    known->times++;
    return;
  }
  if (warnings->count < MOST_WARNINGS) warnings->all[warnings->count++] = (struct warning){.kind = DANGLING, .name = "dangling", .place = place, .times = 1};
}

static bool starts_with(struct bytes line, const char *words) { return line.count >= strlen(words) && memcmp(line.at, words, strlen(words)) == 0; }

static uint64_t number_after(struct bytes line, const char *words) {
  uint64_t number = 0;
  for (size_t at = strlen(words); at < line.count && is_digit(line.at[at]) && number < CIF_MOST_BYTES; at++) number = number * 10 + (uint64_t)(line.at[at] - '0');
  return number;
}

static size_t place_in(struct bytes text, uint64_t place) { return place < text.count ? (size_t)place : text.count; }

static void take_line(struct warnings *warnings, struct definition_walk *walk, struct bytes line) {
  static const char redefined[] = "Warning: symbol ", dangling[] = "Warning: dangling references after DD.\t";
  if (starts_with(line, redefined)) add_redefined(warnings, walk, (uint32_t)number_after(line, redefined));
  else if (starts_with(line, dangling)) add_dangling(warnings, place_in(walk->commands.text, number_after(line, dangling)));
  else return;
  warnings->total++;
}

/* ---- whether to ask */

/* How the archive looks for warnings: after a DD it goes over the calls of all definitions, unless the table is as it was at the DD before. */
struct effort {
  uint64_t calls, definitions, deletions;
};

static struct effort effort_of(struct bytes text) {
  struct effort effort = {0};
  struct command_walk walk = {.text = text};
  struct command command;
  while (next_command(&walk, &command)) {
    unsigned char second = command.letter == 'D' ? second_letter(text, &command) : 0;
    effort.calls += command.letter == 'C';
    effort.definitions += second == 'F';
    effort.deletions += second == 'D';
  }
  return effort;
}

/* A table changes with each definition, and again where it is deleted. What takes longer than a minute or so is left to the list. */
static bool takes_long(const struct effort *effort) {
  static const uint64_t most = (uint64_t)1 << 32;
  uint64_t changes = 2 * effort->definitions, searches = effort->deletions < changes ? effort->deletions : changes;
  return searches > 0 && effort->calls > most / searches;
}

bool find_warnings(const struct reading *reading, struct warnings *warnings) {
  static struct definition_walk walk;
  size_t length, end;
  *warnings = (struct warnings){0};
  if (reading->answer[CIF_NUMBER] != 0) return true;
  struct effort effort = effort_of(reading->text);
  /* Only a redefinition and a DD are ever warned of: most texts have none. */
  if (reading->answer[CIF_REDEFINITIONS] == 0 && effort.deletions == 0) return true;
  warnings->left_out = takes_long(&effort);
  if (warnings->left_out) return true;
  unsigned char *lines = warning_lines(reading, &length);
  if (lines == NULL) return false;
  walk = (struct definition_walk){.commands = {.text = reading->text}};
  for (size_t at = 0; at < length; at = end + 1) {
    for (end = at; end < length && lines[end] != '\n';) end++;
    take_line(warnings, &walk, (struct bytes){lines + at, end - at});
  }
  free(lines);
  for (size_t i = 0; i < warnings->count; i++) find_words(&warnings->all[i], reading->text);
  return true;
}

/* ---- telling */

static void put_rest(struct output *out, const char *name, const struct warnings *warnings) {
  uint64_t told = 0;
  for (size_t i = 0; i < warnings->count; i++) told += warnings->all[i].times;
  if (told == warnings->total && !warnings->left_out) return;
  put_name(out, name);
  put_text(out, ": ");
  put_marked(out, YELLOW_MARK, "warning");
  if (warnings->left_out) {
    put_text(out, ": so many calls, definitions and DD commands would take long to look for warnings in: cif list does.\n");
    return;
  }
  put_text(out, ": and ");
  put_count(out, warnings->total - told, " warning");
  put_text(out, " more: cif list has them all.\n");
}

void tell_warnings(struct output *out, const struct reading *reading, const struct warnings *warnings, bool whole) {
  for (size_t i = 0; i < warnings->count; i++) {
    const struct warning *warning = &warnings->all[i];
    put_head(out, reading->name, position_of(reading->text, warning->place));
    put_marked(out, YELLOW_MARK, "warning");
    put_text(out, ": ");
    put_text(out, warning->words);
    put_text(out, "\n");
    if (whole && warning->kind == DANGLING) put_excerpt(out, reading->text, warning->place);
  }
  put_rest(out, reading->name, warnings);
}
