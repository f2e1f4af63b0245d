/* The answer to a text as one object of JSON on one line, for programs: docs/JSON.md says what stands in it. */
#include <string.h>

#include "tool.h"

/* A string; bytes that are no UTF-8 become halves of surrogate pairs, as Python's own escapes for file names have it. */
static void put_string(struct output *out, const char *text) {
  static const char hex[] = "0123456789abcdef";
  put_text(out, "\"");
  while (*text != 0) {
    uint32_t code = 0;
    size_t count = take_character(text, &code);
    unsigned char byte = (unsigned char)*text;
    if (count == 1 && (byte < ' ' || byte >= 127)) {
      char escape[] = {'\\', 'u', byte < 128 ? '0' : 'd', byte < 128 ? '0' : 'c', hex[byte >> 4], hex[byte & 15]};
      put(out, escape, sizeof escape);
    } else {
      if (count == 1 && (byte == '"' || byte == '\\')) put_text(out, "\\");
      put(out, text, count);
    }
    text += count;
  }
  put_text(out, "\"");
}

static void put_field(struct output *out, const char *name) {
  put_text(out, ",\"");
  put_text(out, name);
  put_text(out, "\":");
}

static void put_number_field(struct output *out, const char *name, uint64_t number) {
  put_field(out, name);
  put_number(out, (int64_t)number);
}

static void put_place(struct output *out, uint64_t place, struct position position) {
  put_number_field(out, "place", place);
  put_number_field(out, "line", position.line);
  put_number_field(out, "column", position.column);
}

static void put_hints(struct output *out, struct bytes text, const struct hints *hints) {
  put_field(out, "hints");
  put_text(out, "[");
  for (size_t i = 0; i < hints->count; i++) {
    put_text(out, i == 0 ? "{\"name\":" : ",{\"name\":");
    put_string(out, hints->all[i].name);
    put_place(out, hints->all[i].place, position_of(text, hints->all[i].place));
    put_field(out, "message");
    put_string(out, hints->all[i].words);
    put_text(out, "}");
  }
  put_text(out, "]");
}

static void put_warnings(struct output *out, struct bytes text, const struct warnings *warnings) {
  put_field(out, "warned");
  if (warnings->left_out) put_text(out, "null");
  else put_number(out, (int64_t)warnings->total);
  put_field(out, "warnings");
  put_text(out, "[");
  for (size_t i = 0; i < warnings->count; i++) {
    const struct warning *warning = &warnings->all[i];
    put_text(out, i == 0 ? "{\"name\":" : ",{\"name\":");
    put_string(out, warning->name);
    put_place(out, warning->place, position_of(text, warning->place));
    put_number_field(out, "times", warning->times);
    put_field(out, "message");
    put_string(out, warning->words);
    put_text(out, "}");
  }
  put_text(out, "]");
}

/* In CIF's unit, as all else is here: half units may end in .5. */
static void put_window(struct output *out, const struct window *window) {
  put_field(out, "window");
  for (int i = 0; i < 4 && window->some; i++) {
    put_text(out, i == 0 ? "[" : ",");
    put_decimal(out, 5 * window->number[i], 1);
  }
  put_text(out, window->some ? "]" : "null");
}

static void put_layers(struct output *out, const struct layers *layers) {
  put_field(out, "layers");
  put_text(out, "[");
  for (size_t i = 0; i < layers->count; i++) {
    char name[5];
    spell_layer(layers->all[i].name, name);
    put_text(out, i == 0 ? "{\"name\":" : ",{\"name\":");
    put_string(out, name);
    put_number_field(out, "shapes", layers->all[i].shapes);
    put_window(out, &layers->all[i].window);
    put_text(out, "}");
  }
  put_text(out, "]");
}

static void put_open_calls(struct output *out, const struct reading *reading) {
  put_field(out, "chain");
  put_text(out, "[");
  for (size_t i = 0; i < open_calls(reading); i++) {
    size_t place = open_call(reading, i);
    struct position position = position_of(reading->text, place);
    put_text(out, i == 0 ? "{\"place\":" : ",{\"place\":");
    put_number(out, (int64_t)place);
    put_number_field(out, "line", position.line);
    put_number_field(out, "column", position.column);
    put_text(out, "}");
  }
  put_text(out, "]");
}

static void put_refusal(struct output *out, const struct reading *reading) {
  size_t place = (size_t)reading->answer[CIF_PLACE];
  const struct sentence *sentence = sentence_for(reading->answer[CIF_NUMBER], reading->text, place);
  put_number_field(out, "number", reading->answer[CIF_NUMBER]);
  put_place(out, place, refused_position(reading));
  put_open_calls(out, reading);
  put_field(out, "message");
  put_string(out, sentence == NULL ? "" : sentence->wrong);
}

static void put_counts(struct output *out, const struct reading *reading) {
  put_number_field(out, "bytes", reading->answer[CIF_LENGTH]);
  put_number_field(out, "shapes", reading->answer[CIF_SHAPES]);
  put_number_field(out, "calls", reading->answer[CIF_CALLS]);
  put_number_field(out, "redefinitions", reading->answer[CIF_REDEFINITIONS]);
  put_number_field(out, "rounded", reading->answer[CIF_ROUNDED]);
}

void put_unread(struct output *out, const char *name) {
  put_text(out, "{\"file\":");
  put_string(out, name);
  put_text(out, ",\"status\":\"unread\"}\n");
}

/* null where it does not exist. */
static void put_number_or_null(struct output *out, const char *name, bool exists, uint64_t number) {
  if (exists) put_number_field(out, name, number);
  else {
    put_field(out, name);
    put_text(out, "null");
  }
}

static void put_first(struct output *out, const struct contents *symbol) {
  char name[5];
  spell_layer(symbol->first, name);
  put_field(out, "first");
  if (symbol->first != 0) put_string(out, name);
  else put_text(out, "null");
}

/* What stands in the definition itself: nothing does where there is none. */
static void put_own(struct output *out, const struct contents *symbol) {
  put_field(out, "own");
  if (!is_defined(symbol)) {
    put_text(out, "null");
    return;
  }
  put_text(out, "{\"shapes\":");
  put_number(out, (int64_t)symbol->own_shapes);
  put_number_field(out, "calls", symbol->own_calls);
  put_number_field(out, "layers", symbol->own_layers);
  put_text(out, "}");
}

static void put_symbol(struct output *out, const struct contents *symbol) {
  put_text(out, "{\"symbol\":");
  put_number(out, (int64_t)symbol->number);
  put_number_field(out, "gives", symbol->gives);
  put_number_or_null(out, "layers", symbol->gives == 0, symbol->layers);
  put_first(out, symbol);
  put_number_or_null(out, "height", symbol->gives == 0, symbol->height);
  put_own(out, symbol);
  put_text(out, "}");
}

static void put_all_symbols(struct output *out, const struct symbols *symbols) {
  put_field(out, "symbols");
  if (symbols->left_out) {
    put_text(out, "null");
    return;
  }
  put_text(out, "[");
  for (size_t i = 0; i < symbols->count; i++) {
    if (i > 0) put_text(out, ",");
    put_symbol(out, &symbols->all[i]);
  }
  put_text(out, "]");
}

void put_symbols_json(struct output *out, const struct reading *reading, const struct symbols *symbols) {
  bool accepted = reading->answer[CIF_NUMBER] == 0;
  put_text(out, "{\"file\":");
  put_string(out, reading->name);
  put_text(out, accepted ? ",\"status\":\"accepted\",\"number\":0" : ",\"status\":\"refused\"");
  if (!accepted) put_refusal(out, reading);
  else put_all_symbols(out, symbols);
  put_text(out, "}\n");
}

/* The shape of a flat file that has this count; false where it has none. */
static bool shape_at(struct bytes flat, uint64_t count, struct shape *shape) {
  struct walk walk = walk_over(flat);
  while (count > 0 && next_shape(&walk, shape)) count--;
  return count == 0;
}

/* A shape's fields of the list. */
static void put_shape(struct output *out, uint64_t count, const struct shape *shape) {
  char name[5], kind[] = {shape->kind, 0};
  spell_layer(shape->layer, name);
  put_text(out, "{\"count\":");
  put_number(out, (int64_t)count);
  put_field(out, "layer");
  put_string(out, name);
  put_field(out, "kind");
  put_string(out, kind);
  put_field(out, "numbers");
  for (size_t i = 0; i < shape->count; i++) {
    put_text(out, i == 0 ? "[" : ",");
    put_number(out, shape->numbers[i]);
  }
  put_text(out, "]}");
}

static void put_signed_words(struct output *out, const char *field, const uint64_t *words, int count) {
  put_field(out, field);
  for (int i = 0; i < count; i++) {
    put_text(out, i == 0 ? "[" : ",");
    put_number(out, signed_word(words[i]));
  }
  put_text(out, "]");
}

static void put_reason_fields(struct output *out, const struct reading *reading, const struct reading *drawn, uint64_t count) {
  static struct shape shape;
  size_t place = place_of_shape(reading);
  put_field(out, "shape");
  if (drawn->answer[CIF_NUMBER] == 0 && shape_at(drawn->flat, count, &shape)) put_shape(out, count, &shape);
  else put_text(out, "null");
  put_place(out, place, position_of(reading->text, place));
  put_open_calls(out, reading);
  put_signed_words(out, "matrix", reading->answer + CIF_MATRIX, 4);
  put_signed_words(out, "translation", reading->answer + CIF_TRANSLATION, 2);
  put_text(out, ",\"list\":\"");
  put_turns(out, reading);
  put_text(out, "\",\"message\":\"");
  put_turned(out, reading);
  put_text(out, "\"");
}

void put_why_json(struct output *out, const struct reading *reading, const struct reading *drawn, uint64_t count) {
  bool accepted = reading->answer[CIF_NUMBER] == 0;
  put_text(out, "{\"file\":");
  put_string(out, reading->name);
  put_text(out, accepted ? ",\"status\":\"accepted\",\"number\":0" : ",\"status\":\"refused\"");
  if (!accepted) put_refusal(out, reading);
  else put_reason_fields(out, reading, drawn, count);
  put_text(out, "}\n");
}

static void put_shapes_at(struct output *out, const struct reading *reading, const struct counts *counts) {
  static struct shape shape;
  struct walk walk = walk_over(reading->flat);
  size_t put = 0;
  put_field(out, "shapes");
  put_text(out, "[");
  for (uint64_t count = 1; put < counts->count && next_shape(&walk, &shape); count++) {
    if (counts->all[put] != count) continue;
    if (put++ > 0) put_text(out, ",");
    put_shape(out, count, &shape);
  }
  put_text(out, "]");
}

void put_at_json(struct output *out, const struct reading *reading, const struct counts *counts) {
  bool accepted = reading->answer[CIF_NUMBER] == 0;
  put_text(out, "{\"file\":");
  put_string(out, reading->name);
  put_text(out, accepted ? ",\"status\":\"accepted\",\"number\":0" : ",\"status\":\"refused\"");
  if (!accepted) put_refusal(out, reading);
  else put_shapes_at(out, reading, counts);
  put_text(out, "}\n");
}

bool put_json(struct output *out, const struct reading *reading, const struct remarks *remarks) {
  bool accepted = reading->answer[CIF_NUMBER] == 0;
  struct layers layers = {0};
  struct window window = {0};
  bool found = !accepted || (find_layers(reading->flat, &layers) && find_windows(reading, &layers, &window));
  if (found) {
    put_text(out, "{\"file\":");
    put_string(out, reading->name);
    put_text(out, accepted ? ",\"status\":\"accepted\",\"number\":0" : ",\"status\":\"refused\"");
    if (!accepted) put_refusal(out, reading);
    if (accepted) {
      put_counts(out, reading);
      put_window(out, &window);
      put_layers(out, &layers);
      put_warnings(out, reading->text, &remarks->warnings);
      put_hints(out, reading->text, &remarks->hints);
    }
    put_text(out, "}\n");
  }
  release_layers(&layers);
  return found;
}
