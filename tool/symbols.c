/* What is in the symbols of a text: asked of the proved archive, a symbol at a time. Only the numbers to ask for are found here, those that stand after a DS;
   which of them are defined at the end of the text, the archive tells. */
#include <stdlib.h>
#include <string.h>

#include "tool.h"

/* Each answer takes a pass over the text. As many bytes are gone over at most as 512 passes over the longest text: only a text with more numbers than may be
   defined at one time can need more. */
#define MOST_WORK (512 * (uint64_t)CIF_MOST_BYTES)

bool take_symbol(const char *word, uint64_t *symbol) {
  enum { DIGITS = 18 }; /* no text defines a symbol of more than eight */
  *symbol = 0;
  for (const char *at = word; *at != 0; at++) {
    if (!is_digit((unsigned char)*at)) return false;
    *symbol = *symbol * 10 + (uint64_t)(*at - '0');
  }
  return *word != 0 && strlen(word) <= DIGITS;
}

/* ---- asking */

static void ask(struct bytes text, int32_t *words, uint64_t symbol, uint64_t answer[CIF_WORDS]) { cif_summary(text.at, text.count, words, text.count, (size_t)symbol, answer); }

/* A defined symbol that gives 12 has a call, of one that is not defined or leads to one. */
bool is_defined(const struct contents *symbol) { return symbol->gives != 12 || symbol->own_calls > 0; }

static struct contents contents_of(uint64_t number, const uint64_t answer[CIF_WORDS]) {
  return (struct contents){.number = number,
                         .gives = answer[CIF_GIVES],
                         .layers = answer[CIF_LAYERS],
                         .first = (uint32_t)answer[CIF_FIRST_LAYER],
                         .height = answer[CIF_HEIGHT],
                         .own_shapes = answer[CIF_OWN_SHAPES],
                         .own_calls = answer[CIF_OWN_CALLS],
                         .own_layers = answer[CIF_OWN_LAYERS]};
}

/* ---- the numbers to ask for */

static int by_number(const void *one, const void *other) {
  uint32_t a = *(const uint32_t *)one, b = *(const uint32_t *)other;
  return (a > b) - (a < b);
}

static size_t each_once(uint32_t *numbers, size_t count) {
  size_t kept = 0;
  for (size_t i = 0; i < count; i++) {
    if (kept == 0 || numbers[kept - 1] != numbers[i]) numbers[kept++] = numbers[i];
  }
  return kept;
}

/* The number of every DS, sorted, each once. NULL where there is no memory; else to be freed. */
static uint32_t *numbers_in(struct bytes text, size_t *count) {
  struct command_walk walk = {.text = text};
  struct command command;
  uint32_t *numbers = malloc((context_at_end(text).definitions + 1) * sizeof *numbers);
  *count = 0;
  while (numbers != NULL && next_command(&walk, &command)) {
    if (command.letter == 'D' && second_letter(text, &command) == 'S') numbers[(*count)++] = first_number(text, &command);
  }
  if (numbers == NULL) return NULL;
  qsort(numbers, *count, sizeof *numbers, by_number);
  *count = each_once(numbers, *count);
  return numbers;
}

/* ---- all that are defined */

static bool ask_each(struct reading *reading, int32_t *words, const uint32_t *numbers, size_t count, struct symbols *symbols) {
  symbols->all = malloc((count + 1) * sizeof *symbols->all);
  if (symbols->all == NULL) return false;
  for (size_t i = 0; i < count; i++) {
    ask(reading->text, words, numbers[i], reading->answer);
    struct contents symbol = contents_of(numbers[i], reading->answer);
    if (is_defined(&symbol)) symbols->all[symbols->count++] = symbol;
  }
  return true;
}

static bool ask_all(struct reading *reading, int32_t *words, struct symbols *symbols) {
  size_t count;
  uint32_t *numbers = numbers_in(reading->text, &count);
  symbols->asked = count;
  symbols->left_out = count > 0 && reading->text.count > MOST_WORK / count;
  bool asked = numbers != NULL && (symbols->left_out || ask_each(reading, words, numbers, count, symbols));
  free(numbers);
  return asked;
}

static bool ask_one(struct reading *reading, uint64_t number, struct symbols *symbols) {
  symbols->all = malloc(sizeof *symbols->all);
  if (symbols->all == NULL) return false;
  symbols->all[symbols->count++] = contents_of(number, reading->answer);
  return true;
}

/* The first answer tells whether the text is refused, whatever symbol is asked for. */
bool find_symbols(struct reading *reading, const uint64_t *number, struct symbols *symbols) {
  int32_t *words = calloc(reading->text.count + 1, sizeof *words);
  *symbols = (struct symbols){0};
  if (words == NULL) return false;
  ask(reading->text, words, number != NULL ? *number : 0, reading->answer);
  bool found = reading->answer[CIF_NUMBER] != 0 || (number != NULL ? ask_one(reading, *number, symbols) : ask_all(reading, words, symbols));
  free(words);
  return found;
}

void release_symbols(struct symbols *symbols) {
  free(symbols->all);
  *symbols = (struct symbols){0};
}

size_t count_undrawn(const struct symbols *symbols) {
  size_t count = 0;
  for (size_t i = 0; i < symbols->count; i++) count += symbols->all[i].gives != 0;
  return count;
}

/* ---- showing */

const char *why_undrawn(const struct contents *symbol) {
  if (!is_defined(symbol)) return "it is not defined at the end of the text.";
  if (symbol->gives == 12) return "a call in it, or in what it calls, finds no definition.";
  if (symbol->gives == 13) return "it calls itself, or what it calls does, perhaps through others.";
  return "its calls go more than 32 deep.";
}

/* Right under its head; a dash for what does not exist. */
static void put_cell(struct output *out, const char *head, bool exists, uint64_t number) {
  size_t columns = 1;
  for (uint64_t rest = number; exists && rest >= 10; rest /= 10) columns++;
  for (size_t i = columns; i < strlen(head) + 2; i++) put_text(out, " ");
  if (exists) put_number(out, (int64_t)number);
  else put_text(out, "-");
}

#define SYMBOL "  symbol"
#define OWN_SHAPES "own shapes"
#define OWN_CALLS "own calls"
#define OWN_LAYERS "own layers"
#define DRAWN_LAYERS "layers"
#define HEIGHT "height"

static void put_first_layer(struct output *out, const struct contents *symbol) {
  char name[5] = "-";
  if (symbol->first != 0) spell_layer(symbol->first, name);
  put_text(out, "  ");
  put_text(out, name);
  for (size_t i = strlen(name); i < 5; i++) put_text(out, " ");
}

static void put_why(struct output *out, const struct contents *symbol) {
  put_text(out, "   ");
  put_number(out, (int64_t)symbol->gives);
  put_text(out, ": ");
  put_text(out, why_undrawn(symbol));
}

static void put_row(struct output *out, const struct contents *symbol) {
  put_cell(out, SYMBOL, true, symbol->number);
  put_cell(out, OWN_SHAPES, is_defined(symbol), symbol->own_shapes);
  put_cell(out, OWN_CALLS, is_defined(symbol), symbol->own_calls);
  put_cell(out, OWN_LAYERS, is_defined(symbol), symbol->own_layers);
  put_cell(out, DRAWN_LAYERS, symbol->gives == 0, symbol->layers);
  put_first_layer(out, symbol);
  put_cell(out, HEIGHT, symbol->gives == 0, symbol->height);
  if (symbol->gives != 0) put_why(out, symbol);
  put_text(out, "\n");
}

static void put_table_head(struct output *out, const struct reading *reading, const struct symbols *symbols) {
  put_name(out, reading->name);
  put_text(out, ": ");
  put_count(out, symbols->count, " symbol");
  put_text(out, " defined at the end of the text");
  if (count_undrawn(symbols) > 0) {
    put_text(out, ", ");
    put_number(out, (int64_t)count_undrawn(symbols));
    put_text(out, " of which cannot be drawn");
  }
  put_text(out, "\n");
}

void put_symbols(struct output *out, const struct reading *reading, const struct symbols *symbols, bool table) {
  if (table) put_table_head(out, reading, symbols);
  if (symbols->count == 0) return;
  put_text(out, "  " SYMBOL "  " OWN_SHAPES "  " OWN_CALLS "  " OWN_LAYERS "  " DRAWN_LAYERS "  first  " HEIGHT "\n");
  for (size_t i = 0; i < symbols->count; i++) put_row(out, &symbols->all[i]);
}
