/* Hints for texts that are accepted and look as if something else was meant. They change no answer: the proved reader has accepted the text, and what it draws
   stands. One hint of a kind, at the first place of its kind; docs/HINTS.md has a section for each. */
#include <string.h>

#include "tool.h"

enum kind { NO_CALL, NOTHING_DRAWN, LOWER_CASE, INCLUDE, SWALLOWED, EXTENSIONS, POINT, LONG_PATH, ONE_LAYER, KINDS };

static const char *const names[KINDS] = {"no-call", "nothing-drawn", "lower-case", "include", "swallowed", "extensions", "decimal-point", "long-path", "one-layer"};

struct finding {
  uint64_t count;
  size_t place; /* of the first */
  size_t other; /* a second place that belongs to it */
};

/* User extensions by the digits they start with, and layer names as they are written: the first few of each are told apart, which is enough for a hint. */
enum { MOST_KEYS = 6, MOST_NAMES = 64 };

struct extension {
  size_t start, length; /* its digits in the text */
  uint64_t count;
};

struct written_name {
  size_t start, length; /* the whole word in the text */
  struct bytes name;    /* what is left of it for the reader */
};

struct search {
  struct bytes text;
  bool defining, named; /* inside a definition, and one that has its name */
  struct finding found[KINDS];
  struct extension extensions[MOST_KEYS];
  size_t extension_count;
  struct written_name written[MOST_NAMES];
  size_t written_count;
};

static void note(struct search *search, enum kind kind, size_t place, size_t other) {
  struct finding *finding = &search->found[kind];
  if (finding->count++ == 0) *finding = (struct finding){1, place, other};
}

static bool same_bytes(struct bytes text, size_t one, size_t other, size_t count) { return memcmp(text.at + one, text.at + other, count) == 0; }

static bool is_command_letter(unsigned char byte) { return byte != 0 && strchr("PBRWLCD", byte) != NULL; }

static unsigned char byte_at(struct bytes text, size_t at) { return at < text.count ? text.at[at] : 0; }

static bool is_space(unsigned char byte) { return byte == ' ' || (byte >= '\t' && byte <= '\r'); }

/* Whether the letter is no word's first one: a blank or a number follows it. */
static bool stands_alone(struct bytes text, size_t letter) {
  unsigned char next = byte_at(text, letter + 1);
  return is_space(next) || is_digit(next) || next == '-';
}

/* ---- lower case: letters that are blanks, and look like the letter of a command */

static bool seems_lower_command(struct search *search, const struct command *command) {
  size_t at = command->slot;
  while (at < command->start && is_space(search->text.at[at])) at++;
  bool reads_little = command->letter == 0 || is_digit(command->letter);
  if (at == command->start || !reads_little || !is_lower(search->text.at[at]) || !is_command_letter((unsigned char)(search->text.at[at] - 'a' + 'A'))) return false;
  note(search, LOWER_CASE, at, 0);
  return true;
}

/* ---- user extensions */

/* A line inside the command that begins like a command of its own, or 0. */
static size_t swallowed_line(struct bytes text, const struct command *command) {
  for (size_t at = command->start; at < command->end; at++) {
    if (text.at[at] != '\n') continue;
    while (at + 1 < command->end && is_space(text.at[at + 1])) at++;
    unsigned char first = byte_at(text, at + 1), second = byte_at(text, at + 2);
    bool alone = stands_alone(text, at + 1) || (first == 'D' && (second == 'S' || second == 'F' || second == 'D'));
    if (at + 1 < command->end && (first == '(' || (is_command_letter(first) && alone))) return at + 1;
  }
  return 0;
}

bool find_swallower(struct bytes text, unsigned char letter, size_t *start) {
  struct command_walk walk = {.text = text};
  struct command command;
  bool found = false;
  while (next_command(&walk, &command)) {
    size_t line = is_digit(command.letter) ? swallowed_line(text, &command) : 0;
    if (line == 0 || text.at[line] != letter) continue;
    *start = command.start;
    found = true;
  }
  return found;
}

static void count_extension(struct search *search, size_t start, size_t length) {
  note(search, EXTENSIONS, start, 0);
  for (size_t i = 0; i < search->extension_count; i++) {
    struct extension *known = &search->extensions[i];
    if (known->length == length && same_bytes(search->text, known->start, start, length)) {
      known->count++;
      return;
    }
  }
  if (search->extension_count < MOST_KEYS) search->extensions[search->extension_count++] = (struct extension){start, length, 1};
}

/* 9 and a name, once in a definition, is how all programs name symbols: no hint for that. */
static void look_at_extension(struct search *search, const struct command *command) {
  struct bytes text = search->text;
  size_t at = command->start, line = swallowed_line(text, command);
  while (at < command->end && is_digit(text.at[at])) at++;
  size_t length = at - command->start;
  while (at < command->end && is_space(text.at[at])) at++;
  bool worded = at < command->end && !is_digit(text.at[at]);
  if (line != 0) note(search, SWALLOWED, command->start, line);
  if (length == 1 && command->letter == '0' && worded) note(search, INCLUDE, command->start, 0);
  else if (length == 1 && command->letter == '9' && at < command->end && search->defining && !search->named && line == 0) search->named = true;
  else count_extension(search, command->start, length);
}

/* ---- numbers and paths */

static void look_for_points(struct search *search, const struct command *command) {
  const unsigned char *byte = search->text.at;
  for (size_t at = command->start + 1; at + 1 < command->end; at++) {
    if (byte[at] == '.' && is_digit(byte[at - 1]) && is_digit(byte[at + 1])) note(search, POINT, at, 0);
  }
}

/* How many numbers follow the letter, up to another letter, on its line or on the lines after it too. */
static size_t numbers_after(struct bytes text, size_t letter, size_t end, bool further) {
  size_t numbers = 0;
  for (size_t at = letter + 1; at < end && (further || text.at[at] != '\n') && !is_upper(text.at[at]); at++) numbers += is_digit(text.at[at]) && !is_digit(text.at[at - 1]);
  return numbers;
}

static bool is_one_of(unsigned char letter, const char *letters) { return letter != 0 && strchr(letters, letter) != NULL; }

/* A path takes any number of points, and letters may stand between them. A line that begins with the letter of a shape may be a command of its own where it has
   more than the two numbers of a point that bears that letter; and one that begins with C, where it has the one number of a call. A second path may itself
   go on over lines. */
static bool runs_on_as_path(struct bytes text, size_t at, const struct command *command, size_t numbers) {
  unsigned char letter = text.at[at];
  if (numbers < (command->letter == 'W' ? 3 : 2) || !is_one_of(letter, "PBRWC")) return false;
  size_t after = numbers_after(text, at, command->end, letter == command->letter);
  return letter == 'C' ? stands_alone(text, at) && after == 1 : after > 2;
}

/* Of a box only the direction can stand on a line after its centre, and nobody writes that after the letter of another command. */
static bool runs_on_as_box(struct bytes text, size_t at, size_t numbers) {
  return stands_alone(text, at) && ((text.at[at] == 'B' && numbers >= 2) || (is_one_of(text.at[at], "PRWLC") && numbers >= 4));
}

static void look_for_running_on(struct search *search, const struct command *command) {
  struct bytes text = search->text;
  size_t numbers = 0;
  bool fresh = false; /* only blanks since the line began */
  for (size_t at = command->start + 1; at < command->end; at++) {
    if (fresh && (command->letter == 'B' ? runs_on_as_box(text, at, numbers) : runs_on_as_path(text, at, command, numbers))) {
      note(search, LONG_PATH, command->start, at);
      return;
    }
    fresh = text.at[at] == '\n' || (fresh && is_space(text.at[at]));
    numbers += is_digit(text.at[at]) && !is_digit(text.at[at - 1]);
  }
}

/* ---- layer names in lower case */

static bool is_word(unsigned char byte) { return is_digit(byte) || is_upper(byte) || is_lower(byte) || byte == '_'; }

/* The word around what the reader takes as the name; its length is 0 where it has no lower-case letter. */
static struct written_name written_name(struct bytes text, const struct command *command) {
  size_t first = command->start + 1, lower = 0;
  while (first < command->end && is_blank(text.at[first])) first++;
  size_t last = first, start = first;
  while (last < command->end && !is_blank(text.at[last])) last++;
  struct bytes name = {text.at + first, last - first};
  while (start > command->start + 1 && is_word(text.at[start - 1])) start--;
  while (last < command->end && is_word(text.at[last])) last++;
  for (size_t at = start; at < last; at++) lower += is_lower(text.at[at]);
  return (struct written_name){start, lower == 0 ? 0 : last - start, name};
}

static void look_at_layer(struct search *search, const struct command *command) {
  struct written_name written = written_name(search->text, command);
  if (written.length == 0) return;
  for (size_t i = 0; i < search->written_count; i++) {
    const struct written_name *known = &search->written[i];
    if (known->name.count != written.name.count || memcmp(known->name.at, written.name.at, written.name.count) != 0) continue;
    if (known->length == written.length && same_bytes(search->text, known->start, written.start, written.length)) return;
    note(search, ONE_LAYER, written.start, known->start);
    return;
  }
  if (search->written_count < MOST_NAMES) search->written[search->written_count++] = written;
}

/* ---- one command, all commands */

static void look_at_command(struct search *search, const struct command *command) {
  unsigned char letter = command->letter, second = letter == 'D' ? second_letter(search->text, command) : 0;
  if (second == 'S') {
    note(search, NO_CALL, command->start, 0);
    search->defining = true;
    search->named = false;
  }
  if (second == 'F') search->defining = false;
  if (seems_lower_command(search, command)) return;
  if (is_digit(letter)) look_at_extension(search, command);
  if (letter == 'L') look_at_layer(search, command);
  if (is_command_letter(letter) && letter != 'L') look_for_points(search, command);
  if (letter == 'P' || letter == 'W' || letter == 'B') look_for_running_on(search, command);
}

static void look_at_answer(struct search *search, const uint64_t answer[CIF_WORDS]) {
  if (answer[CIF_CALLS] != 0) search->found[NO_CALL].count = 0;
  if (answer[CIF_SHAPES] == 0 && search->found[NO_CALL].count == 0) note(search, NOTHING_DRAWN, 0, 0);
}

/* ---- words */

static void put_word(struct output *out, struct bytes text, size_t start, size_t length) {
  enum { LONGEST = 24 };
  for (size_t i = 0; i < length && i < LONGEST; i++) put_visible(out, text.at[start + i]);
}

static void put_line_of(struct output *out, struct bytes text, size_t place) {
  put_text(out, "line ");
  put_number(out, (int64_t)position_of(text, place).line);
}

static void put_extensions(struct output *out, const struct search *search) {
  uint64_t told = 0, all = search->found[EXTENSIONS].count;
  put_count(out, all, " user extension");
  put_text(out, all == 1 ? " is skipped: " : " are skipped: ");
  for (size_t i = 0; i < search->extension_count; i++) {
    const struct extension *extension = &search->extensions[i];
    if (i > 0) put_text(out, ", ");
    put_word(out, search->text, extension->start, extension->length);
    put_text(out, " (");
    put_number(out, (int64_t)extension->count);
    put_text(out, ")");
    told += extension->count;
  }
  put_text(out, told < all ? " and others." : ".");
}

static size_t word_length(struct bytes text, size_t start) {
  size_t length = 0;
  while (start + length < text.count && is_word(text.at[start + length])) length++;
  return length;
}

static void put_one_layer(struct output *out, struct bytes text, const struct finding *finding) {
  put_word(out, text, finding->other, word_length(text, finding->other));
  put_text(out, " on ");
  put_line_of(out, text, finding->other);
  put_text(out, " and ");
  put_word(out, text, finding->place, word_length(text, finding->place));
  put_text(out, " here are one layer: lower-case letters are blanks, so write layer names in upper case.");
}

static void put_definitions(struct output *out, uint64_t count) {
  put_text(out, "no symbol is called, so what the ");
  put_count(out, count, " definition");
  put_text(out, count == 1 ? " holds" : " hold");
  put_text(out, " is not drawn: call the top symbol, C n; with its number, before the E.");
}

static void put_running_on(struct output *out, const char *what, struct bytes text, const struct finding *finding) {
  put_text(out, what);
  put_text(out, " runs on to ");
  put_line_of(out, text, finding->other);
  put_text(out, ", which begins like a command: is a semicolon missing before it?");
}

static void put_words(struct output *out, const struct search *search, enum kind kind) {
  const struct finding *finding = &search->found[kind];
  switch (kind) {
    case NO_CALL: put_definitions(out, finding->count); break;
    case NOTHING_DRAWN: put_text(out, "the text draws no shape."); break;
    case LOWER_CASE: put_text(out, "lower-case letters are blanks: if a command is meant here, write its letter in upper case."); break;
    case INCLUDE: put_text(out, "this looks like a command to include a file. It is a user extension, and is skipped: nothing is included."); break;
    case SWALLOWED: put_running_on(out, "this user extension", search->text, finding); break;
    case EXTENSIONS: put_extensions(out, search); break;
    case POINT: put_text(out, "a decimal point is a blank, so 1.5 is read as two numbers, 1 and 5: numbers are whole."); break;
    case LONG_PATH: put_running_on(out, search->text.at[finding->place] == 'B' ? "this box" : "this path", search->text, finding); break;
    default: put_one_layer(out, search->text, finding); break;
  }
}

static void add_hint(struct hints *hints, const struct search *search, enum kind kind) {
  static struct output words;
  struct hint *hint = &hints->all[hints->count++];
  words = (struct output){.file = DROPPED};
  put_words(&words, search, kind);
  size_t count = words.used < sizeof hint->words ? words.used : sizeof hint->words - 1;
  memcpy(hint->words, words.waiting, count);
  hint->words[count] = 0;
  hint->name = names[kind];
  hint->place = search->found[kind].place;
}

void find_hints(struct bytes text, const uint64_t answer[CIF_WORDS], struct hints *hints) {
  static struct search search;
  struct command_walk walk = {.text = text};
  struct command command;
  search = (struct search){.text = text};
  while (next_command(&walk, &command)) look_at_command(&search, &command);
  look_at_answer(&search, answer);
  hints->count = 0;
  for (int kind = 0; kind < KINDS; kind++) {
    if (search.found[kind].count > 0) add_hint(hints, &search, (enum kind)kind);
  }
}

void tell_hints(struct output *out, const char *name, struct bytes text, const struct hints *hints) {
  for (size_t i = 0; i < hints->count; i++) {
    put_head(out, name, position_of(text, hints->all[i].place));
    put_marked(out, YELLOW_MARK, "hint");
    put_text(out, ": ");
    put_text(out, hints->all[i].words);
    put_text(out, "\n");
  }
}
