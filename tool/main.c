/* cif: reads CIF 2.0 for people at a terminal. The proved archive decides what a text means and lists what it draws (cif_flatten, cif_list); this file takes
   the words of the command line apart, runs it, and hands its answer to the parts that show it. */
#include <stdlib.h>
#include <string.h>

#include "tool.h"

#define VERSION "4.3"

static const char help[] =
    "cif reads layouts in CIF 2.0 (Caltech Intermediate Form) and answers exactly as the\n"
    "rules say, or says why not.\n"
    "\n"
    "  cif check FILE ..            tell whether each FILE is accepted, and what it draws\n"
    "  cif flat FILE [-o OUT]       write the flat file: layers and shapes, every call drawn\n"
    "  cif list FILE [-o OUT]       a line for each shape, warnings, the totals and the window\n"
    "  cif plot FILE [-o OUT.svg]   a picture of the shapes, layer by layer\n"
    "  cif summary FILE [-o OUT]    shapes by layer and kind, windows, symbols, depth of calls\n"
    "  cif show FILE [SYMBOL]       what is in a symbol, or in each that is defined\n"
    "  cif why FILE COUNT           why a shape of the list is there: its command and calls\n"
    "  cif compare A B              tell whether two texts draw the same shapes\n"
    "  cif join A B .. [-o OUT]     one text that draws what A draws, then what B draws, ..\n"
    "  cif -h, --help; cif -V, --version\n"
    "\n"
    "  -q           with check: say nothing about texts accepted without a hint or warning\n"
    "  --json       with check, show and why: a JSON object for each FILE, on its own line\n"
    "  --any-order  with compare: whatever the order of the shapes\n"
    "  --strict     an accepted text that gets a hint or a warning ends with status 1 too;\n"
    "               with show: one with a symbol that cannot be drawn\n"
    "  --window x y x y   with plot: what lies between two corners, in microns\n"
    "  --layers NM,NP     with plot: these layers only\n"
    "  --size 1600        with plot: pixels of the frame's longer side, usually 800\n"
    "  --at X Y LAYER     with why, for a COUNT: the shapes on a layer at a point, in microns\n"
    "\n"
    "FILE or OUT may be -, for standard input or output; without -o it is standard output.\n"
    "OUT appears whole or not at all. A refusal goes to standard error and writes no OUT.\n"
    "Exit status: 0 accepted, 1 refused, 2 could not run; of several FILEs the worst.\n"
    "Texts and flat files have at most 16,777,216 bytes.\n"
    "See also cif(1), docs/RULES.md, docs/REFUSALS.md, docs/HINTS.md, docs/JSON.md.\n";

static const char version[] = "cif " VERSION ": the CIF 2.0 reader Wadhuulexi\n";

/* ---- the tasks and the words of the command line */

/* What goes with a task. */
enum takes { OUT = 1, QUIET = 2, JSON = 4, STRICT = 8, MANY = 16, REFUSALS = 32, TWO = 64, ANY_ORDER = 128, WINDOW = 256, LAYERS = 512, SIZE = 1024, JOINED = 2048, SYMBOL = 4096, COUNT = 8192, AT = 16384 };

struct task;

struct request {
  const struct task *task;
  char **files; /* the words that are no options */
  int count;
  uint64_t asked;   /* the SYMBOL of show or the COUNT of why, where a second such word is given */
  const char *out;  /* NULL: not said */
  unsigned given;   /* of the options below */
  struct view view; /* for plot and why */
};

struct task {
  const char *name;
  /* What it writes for a text, NULL for check, show, why, compare and join, which have their own ways. False where there is not enough memory. */
  bool (*show)(struct output *out, const struct request *request, const struct reading *reading);
  unsigned takes;
};

static bool flat(struct output *out, const struct request *request, const struct reading *reading) {
  (void)request;
  put(out, reading->flat.at, reading->flat.count);
  return true;
}

static bool list(struct output *out, const struct request *request, const struct reading *reading) {
  (void)request;
  return put_list(out, reading);
}

static bool plot(struct output *out, const struct request *request, const struct reading *reading) { return put_plot(out, reading, &request->view); }

static bool summary(struct output *out, const struct request *request, const struct reading *reading) {
  (void)request;
  return put_summary(out, reading);
}

static const struct task tasks[] = {
    {"check", NULL, QUIET | JSON | STRICT | MANY},
    {"flat", flat, OUT | STRICT},
    {"list", list, OUT | STRICT | REFUSALS},
    {"plot", plot, OUT | STRICT | WINDOW | LAYERS | SIZE},
    {"summary", summary, OUT | STRICT},
    {"show", NULL, OUT | JSON | STRICT | SYMBOL},
    {"why", NULL, OUT | JSON | COUNT | AT},
    {"compare", NULL, TWO | ANY_ORDER},
    {"join", NULL, OUT | STRICT | MANY | JOINED},
};

/* An option, and for those that take words after them how many, what takes them apart, and what is said where that cannot be done. */
struct option {
  const char *word;
  unsigned takes;
  int words;
  bool (*take)(struct view *view, char *const words[]);
  const char *needs;
};

static const struct option options[] = {
    {"-q", QUIET, 0, NULL, NULL},
    {"--json", JSON, 0, NULL, NULL},
    {"--strict", STRICT, 0, NULL, NULL},
    {"--any-order", ANY_ORDER, 0, NULL, NULL},
    {"--window", WINDOW, 4, take_window, "four numbers of microns, the x and y of two opposite corners, must follow"},
    {"--layers", LAYERS, 1, take_layers, "names of layers in upper case, as in NM,NP, must follow"},
    {"--size", SIZE, 1, take_size, "a number of pixels from 100 to 20000 must follow"},
    {"--at", AT, 3, take_spot, "the x and y of a point, in microns, and the name of a layer in upper case must follow"},
};

static bool same(const char *one, const char *other) { return strcmp(one, other) == 0; }

static bool misread(const char *what, const char *word) {
  complain(what, word, 0);
  put_text(&standard_error, "cif: try cif --help\n");
  flush(&standard_error);
  return false;
}

static bool take_task(struct request *request, const char *word) {
  for (size_t i = 0; i < sizeof tasks / sizeof *tasks; i++) {
    if (same(tasks[i].name, word)) request->task = &tasks[i];
  }
  return request->task != NULL || misread(*word == '-' ? "no such option:" : "no such task:", word);
}

/* The word after -o, or the rest of the same word. */
static bool take_out(struct request *request, char **words, int *at) {
  if ((request->task->takes & OUT) == 0) return misread("no -o goes with", request->task->name);
  if (request->out != NULL) return misread("a second -o:", words[*at]);
  if (words[*at][2] != 0) request->out = words[*at] + 2;
  else if (words[*at + 1] != NULL) request->out = words[++*at];
  return request->out != NULL || misread("no file name after", words[*at]);
}

/* --size=1600 is --size 1600. */
static bool is_option(const struct option *option, const char *word) {
  size_t length = strlen(option->word);
  return strncmp(option->word, word, length) == 0 && (word[length] == 0 || (word[length] == '=' && option->words == 1));
}

static bool take_values(struct request *request, const struct option *option, char **words, int *at) {
  char *joined = words[*at] + strlen(option->word) + 1, **values = &joined;
  if (words[*at][strlen(option->word)] == 0) {
    values = words + *at + 1;
    for (int i = 0; i < option->words; i++) {
      if (values[i] == NULL) return misread(option->needs, option->word);
    }
    *at += option->words;
  }
  return option->take(&request->view, values) || misread(option->needs, option->word);
}

static bool take_option(struct request *request, char **words, int *at) {
  for (size_t i = 0; i < sizeof options / sizeof *options; i++) {
    const struct option *option = &options[i];
    if (!is_option(option, words[*at])) continue;
    if ((request->task->takes & option->takes) == 0) return misread("this option does not go with it:", words[*at]);
    if (option->words > 0 && (request->given & option->takes) != 0) return misread("a second", option->word);
    request->given |= option->takes;
    return option->words == 0 || take_values(request, option, words, at);
  }
  return words[*at][1] == 'o' ? take_out(request, words, at) : misread("no such option:", words[*at]);
}

static bool take_file(struct request *request, char *word) {
  bool symbol = (request->task->takes & SYMBOL) != 0, count = (request->task->takes & COUNT) != 0;
  int most = symbol || count || (request->task->takes & TWO) != 0 ? 2 : 1;
  if ((request->task->takes & MANY) == 0 && request->count == most) return misread(symbol ? "one SYMBOL too many:" : count ? "one COUNT too many:" : "one FILE too many:", word);
  if ((symbol || count) && request->count == 1 && !take_symbol(word, &request->asked)) return misread(symbol ? "no number of a symbol:" : "no count of a shape:", word);
  request->files[request->count++] = word;
  return true;
}

/* A shape is named by its count, or shapes are looked for at a point. */
static bool has_count(const struct request *request) {
  bool at = (request->given & AT) != 0;
  if (request->count == 1 && !at) return misread("no COUNT and no --at after", request->files[0]);
  return request->count == 1 || !at || misread("no COUNT goes with --at:", request->files[1]);
}

static bool has_files(const struct request *request) {
  if (request->count == 0) return misread("no FILE after", request->task->name);
  if ((request->task->takes & COUNT) != 0) return has_count(request);
  return (request->task->takes & (TWO | JOINED)) == 0 || request->count > 1 || misread("only one FILE after", request->task->name);
}

/* Files are gathered at the front of the words. */
static bool take_words(struct request *request, char **words) {
  if (!take_task(request, words[0])) return false;
  bool options = true;
  request->files = words;
  for (int at = 1; words[at] != NULL; at++) {
    bool option = options && words[at][0] == '-' && words[at][1] != 0;
    if (option && same(words[at], "--")) options = false;
    else if (!(option ? take_option(request, words, &at) : take_file(request, words[at]))) return false;
  }
  return has_files(request);
}

/* ---- reading */

static const char *shown_name(const char *file) { return same(file, "-") ? "standard input" : file; }

static void release_reading(struct reading *reading) {
  free((void *)reading->text.at);
  free((void *)reading->flat.at);
  reading->text = reading->flat = (struct bytes){0};
}

/* Has the text answered, with its flat file in memory of its own. */
static bool flatten_text(struct reading *reading) {
  unsigned char *room = malloc(CIF_MOST_BYTES);
  reading->flat = (struct bytes){room, 0};
  if (room == NULL || !flatten(reading->text, room, reading->answer)) return complain("not enough memory to read", reading->name, 0) == ACCEPTED;
  reading->flat.count = (size_t)reading->answer[CIF_LENGTH];
  if (reading->answer[CIF_NUMBER] == 0 && !is_flat(reading->flat))
    return complain("this should not happen: the reader wrote something else than a flat file for", reading->name, 0) == ACCEPTED;
  return true;
}

static bool load_text(const char *file, struct reading *reading) {
  unsigned char *text;
  size_t count;
  /* One byte more than the reader takes, so that it sees that a text is too long. */
  if (!read_file(file, CIF_MOST_BYTES + 1, &text, &count)) return false;
  reading->text = (struct bytes){text, count};
  return true;
}

static bool flatten_file(const char *file, struct reading *reading) { return load_text(file, reading) && flatten_text(reading); }

/* False and a complaint where the file cannot be read or memory is short. Else to be released. */
static bool read_text(const char *file, struct reading *reading) {
  *reading = (struct reading){.name = shown_name(file)};
  if (!is_typed(file)) start_progress(reading->name);
  bool read = flatten_file(file, reading);
  end_progress();
  if (!read) release_reading(reading);
  return read;
}

static bool accepted(const struct reading *reading) { return reading->answer[CIF_NUMBER] == 0; }

/* What there is to tell of an accepted text beside its answer. A complaint and false where memory is short. */
static bool look_for_remarks(const struct reading *reading, struct remarks *remarks) {
  remarks->hints.count = 0;
  if (accepted(reading)) find_hints(reading->text, reading->answer, &remarks->hints);
  start_progress(reading->name);
  bool found = find_warnings(reading, &remarks->warnings);
  end_progress();
  if (!found) complain("not enough memory to look for warnings in", reading->name, 0);
  return found;
}

static void tell_remarks(const struct reading *reading, const struct remarks *remarks, bool whole) {
  tell_warnings(&standard_error, reading, &remarks->warnings, whole);
  tell_hints(&standard_error, reading->name, reading->text, &remarks->hints);
}

static enum status status_of(const struct request *request, const struct reading *reading, const struct remarks *remarks) {
  bool remarkable = remarks->hints.count > 0 || remarks->warnings.count > 0 || remarks->warnings.left_out;
  return accepted(reading) && ((request->given & STRICT) == 0 || !remarkable) ? ACCEPTED : REFUSED;
}

/* ---- check */

static void put_counts(struct output *out, const struct reading *reading) {
  put_name(out, reading->name);
  put_text(out, ": accepted: ");
  put_count(out, reading->answer[CIF_SHAPES], " shape");
  put_text(out, ", ");
  put_count(out, reading->answer[CIF_CALLS], " call");
  put_text(out, ", ");
  put_count(out, reading->answer[CIF_REDEFINITIONS], " redefinition");
  put_rounded_count(out, reading);
  put_text(out, "; the flat file has ");
  put_count(out, reading->answer[CIF_LENGTH], " byte");
  put_text(out, "\n");
}

static enum status check_reading(const struct request *request, struct output *out, const struct reading *reading) {
  static struct remarks remarks;
  if (!look_for_remarks(reading, &remarks)) return COULD_NOT_RUN;
  if ((request->given & JSON) != 0) {
    if (!put_json(out, reading, &remarks)) return complain("not enough memory to show", reading->name, 0);
  } else {
    if (accepted(reading) && (request->given & QUIET) == 0) {
      put_counts(out, reading);
      if (request->count == 1) tell_rounding(out, reading);
    }
    flush(out);
    if (!accepted(reading)) tell_refusal(&standard_error, reading, request->count == 1);
    tell_remarks(reading, &remarks, request->count == 1);
  }
  flush(out);
  flush(&standard_error);
  return status_of(request, reading, &remarks);
}

static enum status check_file(const struct request *request, struct output *out, const char *file) {
  struct reading reading;
  if (!read_text(file, &reading)) {
    if ((request->given & JSON) != 0) put_unread(out, shown_name(file));
    return COULD_NOT_RUN;
  }
  enum status status = check_reading(request, out, &reading);
  release_reading(&reading);
  return status;
}

/* "3 files: 2 accepted, 1 refused" */
static void put_tally(struct output *out, const struct request *request, const int tally[3]) {
  const char *const words[] = {" accepted", (request->given & STRICT) != 0 ? " refused or with a hint or warning" : " refused", " could not be read"};
  put_count(out, (uint64_t)request->count, " file");
  for (int status = 0; status < 3; status++) {
    if (status == COULD_NOT_RUN && tally[status] == 0) continue;
    put_text(out, status == 0 ? ": " : ", ");
    put_number(out, tally[status]);
    put_text(out, words[status]);
  }
  put_text(out, "\n");
}

static enum status check_files(const struct request *request) {
  static struct output out;
  int tally[3] = {0};
  enum status worst = ACCEPTED;
  if (!open_output(&out, NULL)) return COULD_NOT_RUN;
  for (int i = 0; i < request->count; i++) {
    enum status status = check_file(request, &out, request->files[i]);
    tally[status]++;
    if (status > worst) worst = status;
  }
  if (request->count > 1 && (request->given & (QUIET | JSON)) == 0) put_tally(&out, request, tally);
  return close_output(&out) ? worst : COULD_NOT_RUN;
}

/* ---- the other tasks: one file, and what is written for it */

static bool is_shown(const struct request *request, const struct reading *reading) {
  return accepted(reading) || ((request->task->takes & REFUSALS) != 0 && (request->out == NULL || same(request->out, "-")));
}

static bool show(const struct request *request, const struct reading *reading) {
  static struct output out;
  if (!is_shown(request, reading)) return true;
  if (!open_output(&out, request->out)) return false;
  if (request->task->show(&out, request, reading)) return close_output(&out);
  abandon_output(&out);
  complain("not enough memory to show", reading->name, 0);
  return false;
}

static enum status show_file(const struct request *request) {
  static struct remarks remarks;
  struct reading reading;
  if (!read_text(request->files[0], &reading)) return COULD_NOT_RUN;
  bool shown = show(request, &reading) && look_for_remarks(&reading, &remarks);
  if (!accepted(&reading)) tell_refusal(&standard_error, &reading, true);
  else if (shown) tell_remarks(&reading, &remarks, true);
  flush(&standard_error);
  enum status status = shown ? status_of(request, &reading, &remarks) : COULD_NOT_RUN;
  release_reading(&reading);
  return status;
}

/* ---- show */

static bool write_symbols(const struct request *request, const struct reading *reading, const struct symbols *symbols) {
  static struct output out;
  bool json = (request->given & JSON) != 0;
  if (!json && !accepted(reading)) return true;
  if (!open_output(&out, request->out)) return false;
  if (json) put_symbols_json(&out, reading, symbols);
  else put_symbols(&out, reading, symbols, request->count == 1);
  return close_output(&out);
}

/* A symbol that is asked for and cannot be drawn is refused as a call of it would be; in a table such symbols are told, and count with --strict. */
static enum status status_of_symbols(const struct request *request, const struct reading *reading, const struct symbols *symbols) {
  bool counts = request->count > 1 || (request->given & STRICT) != 0;
  return accepted(reading) && (!counts || count_undrawn(symbols) == 0) ? ACCEPTED : REFUSED;
}

static enum status tell_long(const struct reading *reading, const struct symbols *symbols) {
  put_name(&standard_error, reading->name);
  put_text(&standard_error, ": ");
  put_count(&standard_error, symbols->asked, " symbol");
  put_text(&standard_error, " are defined here and there, and to ask for each would take long: name one of them, as in cif show FILE 7.\n");
  flush(&standard_error);
  return COULD_NOT_RUN;
}

static enum status show_asked(const struct request *request, const struct reading *reading, const struct symbols *symbols) {
  bool json = (request->given & JSON) != 0;
  if ((json || !symbols->left_out) && !write_symbols(request, reading, symbols)) return COULD_NOT_RUN;
  if (symbols->left_out) return tell_long(reading, symbols);
  if (!accepted(reading) && !json) tell_refusal(&standard_error, reading, true);
  flush(&standard_error);
  return status_of_symbols(request, reading, symbols);
}

/* For programs an object tells it too. */
static enum status tell_unread(const struct request *request, const struct reading *reading) {
  static struct output out;
  if ((request->given & JSON) != 0 && open_output(&out, request->out)) {
    put_unread(&out, reading->name);
    (void)close_output(&out);
  }
  return COULD_NOT_RUN;
}

/* The text is not drawn: symbols are told of one that is refused as it is drawn, too. */
static enum status show_symbols(const struct request *request) {
  struct reading reading = {.name = shown_name(request->files[0])};
  struct symbols symbols = {0};
  if (!is_typed(request->files[0])) start_progress(reading.name);
  bool loaded = load_text(request->files[0], &reading);
  bool found = loaded && find_symbols(&reading, request->count > 1 ? &request->asked : NULL, &symbols);
  end_progress();
  if (loaded && !found) complain("not enough memory to read", reading.name, 0);
  enum status status = found ? show_asked(request, &reading, &symbols) : tell_unread(request, &reading);
  release_symbols(&symbols);
  release_reading(&reading);
  return status;
}

/* ---- why */

/* The answer about the shape, and beside it the reader's to the same text, whose list has the shape's line. The text is `drawn`'s. A complaint and false where memory
   is short. */
static bool ask_why(const struct request *request, const struct reading *drawn, struct reading *asked) {
  *asked = (struct reading){.name = drawn->name, .text = drawn->text};
  start_progress(drawn->name);
  bool found = find_why(asked, request->asked);
  end_progress();
  if (!found) complain("not enough memory to read", drawn->name, 0);
  return found;
}

/* Where what is to be shown does not fit into memory, no file appears. */
static bool close_shown(struct output *out, const char *name, bool put) {
  if (put) return close_output(out);
  abandon_output(out);
  complain("not enough memory to show", name, 0);
  return false;
}

static bool write_why(const struct request *request, const struct reading *asked, const struct reading *drawn) {
  static struct output out;
  bool json = (request->given & JSON) != 0, put = true;
  if (!json && !accepted(asked)) return true;
  if (!open_output(&out, request->out)) return false;
  look_at_terminal(&out);
  if (json) put_why_json(&out, asked, drawn, request->asked);
  else put = put_reason(&out, asked, drawn, request->asked);
  return close_shown(&out, asked->name, put);
}

static enum status why_shape(const struct request *request, const struct reading *drawn) {
  struct reading asked;
  if (!ask_why(request, drawn, &asked) || !write_why(request, &asked, drawn)) return COULD_NOT_RUN;
  if (!accepted(&asked) && (request->given & JSON) == 0) {
    tell_refusal(&standard_error, &asked, true);
    if (asked.answer[CIF_NUMBER] == 26) tell_count(&standard_error, drawn);
  }
  flush(&standard_error);
  return accepted(&asked) ? ACCEPTED : REFUSED;
}

static bool write_at(const struct request *request, const struct reading *reading, const struct counts *counts) {
  static struct output out;
  bool json = (request->given & JSON) != 0, put = true;
  if (!json && counts->count == 0) return true;
  if (!open_output(&out, request->out)) return false;
  if (json) put_at_json(&out, reading, counts);
  else put = put_list_lines(&out, reading, counts->all, counts->count);
  return close_shown(&out, reading->name, put);
}

static enum status tell_at(const struct request *request, const struct reading *reading, const struct counts *counts) {
  bool json = (request->given & JSON) != 0;
  if (!write_at(request, reading, counts)) return COULD_NOT_RUN;
  if (!accepted(reading) && !json) tell_refusal(&standard_error, reading, true);
  if (accepted(reading) && !json && counts->count == 0) tell_nothing_at(&standard_error, reading, &request->view);
  flush(&standard_error);
  return counts->count > 0 ? ACCEPTED : REFUSED;
}

static enum status shapes_at(const struct request *request, const struct reading *reading) {
  struct counts counts = {0};
  start_progress(reading->name);
  bool found = !accepted(reading) || find_at(reading, &request->view, &counts);
  end_progress();
  enum status status = found ? tell_at(request, reading, &counts) : complain("not enough memory to look into", reading->name, 0);
  release_counts(&counts);
  return status;
}

static enum status why_file(const struct request *request) {
  struct reading reading;
  if (!read_text(request->files[0], &reading)) return tell_unread(request, &(struct reading){.name = shown_name(request->files[0])});
  enum status status = (request->given & AT) != 0 ? shapes_at(request, &reading) : why_shape(request, &reading);
  release_reading(&reading);
  return status;
}

/* ---- compare */

/* Both accepted, or it is told which is not. */
static enum status read_both(const struct request *request, struct reading readings[2]) {
  enum status status = ACCEPTED;
  for (int i = 0; i < 2; i++) {
    if (!read_text(request->files[i], &readings[i])) status = COULD_NOT_RUN;
    else if (!accepted(&readings[i])) {
      tell_refusal(&standard_error, &readings[i], true);
      flush(&standard_error);
      if (status == ACCEPTED) status = REFUSED;
    }
  }
  return status;
}

static enum status compare_files(const struct request *request) {
  static struct output out;
  struct reading readings[2] = {0};
  bool same_shapes = false;
  enum status status = read_both(request, readings);
  if (status == ACCEPTED && !open_output(&out, NULL)) status = COULD_NOT_RUN;
  if (status == ACCEPTED) {
    if (!put_comparison(&out, readings, (request->given & ANY_ORDER) != 0, &same_shapes)) status = complain("not enough memory to compare", readings[0].name, 0);
    if (!close_output(&out)) status = COULD_NOT_RUN;
  }
  for (int i = 0; i < 2; i++) release_reading(&readings[i]);
  return status == ACCEPTED && !same_shapes ? REFUSED : status;
}

/* ---- join */

static const char *shown_out(const struct request *request) { return request->out == NULL || same(request->out, "-") ? "standard output" : request->out; }

static void put_not_joined(const struct request *request, const char *why, const char *name) {
  put_name(&standard_error, shown_out(request));
  put_text(&standard_error, ": not written, though each text is accepted by itself: ");
  put_text(&standard_error, why);
  put_name(&standard_error, name);
}

/* Every text must be accepted by itself: of such texts it is proved that the joined one draws their shapes one after another. One that sets no layer, say, would be
   drawn too, but on the last layer of the text before it. All are looked at, and those up to the first that cannot be joined are joined. */
static enum status join_file(const struct request *request, struct joined *joined, int which) {
  static struct remarks remarks;
  struct reading reading;
  if (!read_text(request->files[which], &reading)) return COULD_NOT_RUN;
  enum status status = look_for_remarks(&reading, &remarks) ? status_of(request, &reading, &remarks) : COULD_NOT_RUN;
  if (!accepted(&reading)) tell_refusal(&standard_error, &reading, true);
  else if (status != COULD_NOT_RUN) tell_remarks(&reading, &remarks, true);
  if (accepted(&reading) && status != COULD_NOT_RUN && joined->count == which && !add_text(joined, reading.name, reading.text)) {
    put_not_joined(request, "the joined text would be longer than 16,777,216 bytes with ", reading.name);
    put_text(&standard_error, "\n");
    status = REFUSED;
  }
  flush(&standard_error);
  release_reading(&reading);
  return status;
}

static enum status tell_not_joined(const struct request *request, const struct joined *joined, const struct reading *reading) {
  struct reading text = refused_text(joined, reading->answer);
  put_not_joined(request, "the joined text is refused", "");
  put_text(&standard_error, "\n");
  tell_refusal(&standard_error, reading->answer[CIF_NUMBER] == 18 ? reading : &text, true);
  return REFUSED;
}

static enum status put_joined(const struct request *request, const struct reading *reading) {
  static struct output out;
  if (!open_output(&out, request->out)) return COULD_NOT_RUN;
  put(&out, reading->text.at, reading->text.count);
  if (!close_output(&out)) return COULD_NOT_RUN;
  put_counts(&standard_error, reading);
  return ACCEPTED;
}

/* The joined text is read too: what is written is accepted, and what it draws is told. */
static enum status read_joined(const struct request *request, const struct joined *joined) {
  struct reading reading = {.name = shown_out(request), .text = {joined->text, joined->length}};
  enum status status = COULD_NOT_RUN;
  start_progress(reading.name);
  bool read = flatten_text(&reading);
  end_progress();
  if (read) status = accepted(&reading) ? put_joined(request, &reading) : tell_not_joined(request, joined, &reading);
  flush(&standard_error);
  free((void *)reading.flat.at);
  return status;
}

static enum status worse(enum status one, enum status other) { return one > other ? one : other; }

static enum status join_files(const struct request *request) {
  struct joined joined;
  enum status status = start_joined(&joined, request->count) ? ACCEPTED : complain("not enough memory to join", request->files[0], 0);
  for (int i = 0; i < request->count && status != COULD_NOT_RUN; i++) status = worse(status, join_file(request, &joined, i));
  if (status != COULD_NOT_RUN && joined.count == request->count) status = worse(status, read_joined(request, &joined));
  release_joined(&joined);
  return status;
}

static enum status say(const char *text) {
  static struct output out;
  if (!open_output(&out, NULL)) return COULD_NOT_RUN;
  put_text(&out, text);
  return close_output(&out) ? ACCEPTED : COULD_NOT_RUN;
}

int main(int count, char **words) {
  guard_files();
  look_at_terminal(&standard_error);
  if (count < 2) {
    put_text(&standard_error, help);
    flush(&standard_error);
    return COULD_NOT_RUN;
  }
  for (int i = 1; i < count && !same(words[i], "--"); i++) {
    if (same(words[i], "--help") || same(words[i], "-h") || (i == 1 && same(words[i], "help"))) return (int)say(help);
    if (same(words[i], "--version") || same(words[i], "-V")) return (int)say(version);
  }
  struct request request = {.view = {.size = USUAL_SIZE}};
  if (!take_words(&request, words + 1)) return COULD_NOT_RUN;
  if (request.task->show != NULL) return (int)show_file(&request);
  if ((request.task->takes & JOINED) != 0) return (int)join_files(&request);
  if ((request.task->takes & SYMBOL) != 0) return (int)show_symbols(&request);
  if ((request.task->takes & COUNT) != 0) return (int)why_file(&request);
  return (int)((request.task->takes & TWO) != 0 ? compare_files(&request) : check_files(&request));
}
