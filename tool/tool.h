/* What the files of the tool offer each other, file by file. The proved reader decides; what stands here reads files, shows and writes. */
#ifndef CIF_TOOL_H
#define CIF_TOOL_H

#include <stdbool.h>
#include <stddef.h>
#include <stdint.h>

#include "cif.h"

/* How the tool ends. */
enum status { ACCEPTED = 0, REFUSED = 1, COULD_NOT_RUN = 2 };

/* Bytes that somebody else keeps: a text, a flat file. */
struct bytes {
  const unsigned char *at;
  size_t count;
};

/* What the archive answered to a text. `flat` is empty on a refusal. */
struct reading {
  const char *name; /* of the text, as it is shown */
  struct bytes text, flat;
  uint64_t answer[CIF_WORDS];
};

/* ---- output.c: bytes on their way out. The first failure is kept, and told when the output is closed. */

struct output {
  int file;         /* DROPPED for bytes that go nowhere */
  int error;        /* errno of the first failure, or 0 */
  size_t used;      /* how many bytes wait */
  size_t columns;   /* of the terminal that shows them, or 0 */
  bool coloured;    /* the terminal shows colours, and they are welcome */
  const char *name; /* as the user wrote it, for complaints */
  char *path;       /* what the temporary file is renamed to at the end, or NULL */
  char *temporary;  /* the file beside it that is written first, or NULL */
  unsigned char waiting[1 << 15];
};

enum { DROPPED = -1 };

extern struct output standard_error;

void put(struct output *out, const void *bytes, size_t count);
void put_text(struct output *out, const char *text);
void put_number(struct output *out, int64_t number);
/* A whole number with the decimal point moved, and no zeros at its end. */
void put_decimal(struct output *out, int64_t value, int decimals);
/* "3 shapes": the thing with a space before it, and an s after it unless there is one. */
void put_count(struct output *out, uint64_t count, const char *what);
/* A byte as it can be shown on any terminal, a tab as one space, and how many columns that takes. */
void put_visible(struct output *out, unsigned char byte);
size_t columns_of(unsigned char byte);
/* How many bytes a character of UTF-8 takes, 1 for a byte that starts none. `code` is the character. */
size_t take_character(const char *from, uint32_t *code);
/* A file name, with all escaped that could change what a terminal shows around it. */
void put_name(struct output *out, const char *name);
/* In the colour of the mark, where colours are shown. */
#define RED_MARK "31;1"
#define GREEN_MARK "32;1"
#define YELLOW_MARK "33;1"
void put_marked(struct output *out, const char *mark, const char *text);
/* A paragraph, indented by two, in lines that fit the terminal; one line where there is none. */
void put_paragraph(struct output *out, const char *text);
/* Notes whether the output is a terminal, its width, and whether colours are welcome (NO_COLOR, TERM). */
void look_at_terminal(struct output *out);
void flush(struct output *out);

/* Standard output for NULL and "-". Any other file appears whole at the end, or not at all. Both complain and answer false if it cannot be written. */
bool open_output(struct output *out, const char *name);
bool close_output(struct output *out);
/* For an output that is not wanted after all: nothing of a file appears. */
void abandon_output(struct output *out);

/* Between the two, a terminal is told after some seconds what is being read. */
void start_progress(const char *name);
void end_progress(void);

/* Standard files that are closed are filled, so that no file of ours takes their place; a temporary file is removed when a signal ends the tool. */
void guard_files(void);

/* "cif: cannot WHAT NAME: why" on standard error. */
enum status complain(const char *what, const char *name, int error);

/* ---- input.c */

/* Whether the file is standard input, and somebody sits at it and types. */
bool is_typed(const char *name);
/* The whole file, or standard input for "-": at most MOST bytes are kept. `text` is to be freed. Complains and answers false if it cannot be read. */
bool read_file(const char *name, size_t most, unsigned char **text, size_t *count);

/* ---- commands.c: where commands stand in a text, as far as it follows the grammar. */

bool is_digit(unsigned char byte);
bool is_upper(unsigned char byte);
bool is_lower(unsigned char byte);
bool is_blank(unsigned char byte);

struct command {
  unsigned char letter; /* its first byte, or 0 for a command of nothing but blanks */
  size_t slot;          /* where the blanks before it start: after the semicolon before */
  size_t start, end;    /* its first byte, and its semicolon or the end of the text */
  bool open_comment;    /* a comment that is not closed */
};

struct command_walk {
  struct bytes text;
  size_t at;
};

/* False at the end of the text. */
bool next_command(struct command_walk *walk, struct command *command);
/* The S, F or D of a D command, or 0 where it ends before that. */
unsigned char second_letter(struct bytes text, const struct command *command);
/* The first number of a command. */
uint32_t first_number(struct bytes text, const struct command *command);

struct context {
  unsigned char letter; /* the first byte of the command that is being read, or 0 between commands */
  size_t start;         /* where that command starts */
  size_t slot;          /* where the blanks before it start */
  bool open_comment;    /* the command is a comment that is not closed yet */
  bool defining;        /* a definition is open before that command */
  bool begun;           /* some semicolon came earlier */
  size_t definition;    /* where the last DS before that command starts */
  size_t definitions;   /* how many DS came before that command */
};

/* What is being read at the end of the text. */
struct context context_at_end(struct bytes text);

/* ---- excerpt.c */

struct position {
  size_t line, column; /* both from 1; a line ends with byte 10 */
};

/* For places whose line no answer tells: of hints, of warnings, of shapes that are compared, of open calls, and of where a command began. */
struct position position_of(struct bytes text, size_t place);
/* The line around the place, cut where it is long, and a caret under the place. */
void put_excerpt(struct output *out, struct bytes text, size_t place);

/* ---- chain.c: the calls that were open where a text was refused, the outermost first. */

/* How many there are, and the place of each in the text. */
size_t open_calls(const struct reading *reading);
size_t open_call(const struct reading *reading, size_t which);
/* A line for each, with a line before and after them; nothing where there are none. */
void put_chain(struct output *out, const struct reading *reading);

/* ---- refusals.c: the sentences. */

struct sentence {
  int number;
  char key; /* which case of that number, or 0 for all others */
  const char *wrong;
  const char *remedy;
};

/* The sentence for a refusal; NULL for a number that none has. */
const struct sentence *sentence_for(uint64_t number, struct bytes text, size_t place);
/* All of it, or its first line only. */
void tell_refusal(struct output *out, const struct reading *reading, bool whole);
/* Where a text is refused, as the answer has it. */
struct position refused_position(const struct reading *reading);
/* "NAME:LINE:COLUMN: ", as editors and build logs understand it. */
void put_head(struct output *out, const char *name, struct position position);

/* ---- hints.c: accepted texts that look as if something else was meant. */

enum { MOST_HINTS = 9, HINT_WORDS = 256 };

struct hint {
  const char *name; /* as docs/HINTS.md has it */
  size_t place;
  char words[HINT_WORDS];
};

struct hints {
  size_t count;
  struct hint all[MOST_HINTS];
};

void find_hints(struct bytes text, const uint64_t answer[CIF_WORDS], struct hints *hints);

/* Where the last user extension starts that runs on over a line which begins like a command with this letter; false if there is none. */
bool find_swallower(struct bytes text, unsigned char letter, size_t *start);
/* A line for each. */
void tell_hints(struct output *out, const char *name, struct bytes text, const struct hints *hints);

/* ---- warnings.c: what the list warns of, for the eye. */

enum { MOST_WARNINGS = 20, WARNING_WORDS = 160 };

enum warning_kind { REDEFINED, DANGLING };

struct warning {
  enum warning_kind kind;
  const char *name; /* of its kind, for programs */
  uint32_t symbol;  /* that is redefined */
  size_t place;     /* of the DS that redefines it, or of the call that dangles */
  size_t before;    /* of the DS that is redefined, or the same place where that cannot be told */
  uint64_t times;   /* after so many DD: of a redefinition 1 */
  char words[WARNING_WORDS];
};

struct warnings {
  bool left_out;  /* they were not looked for, since that would take long */
  uint64_t total; /* lines of the list */
  size_t count;   /* of them those that are told, each place once */
  struct warning all[MOST_WARNINGS];
};

/* None for a refused text. False where there is no memory. */
bool find_warnings(const struct reading *reading, struct warnings *warnings);
/* A line for each, and where a call dangles the line around it too, unless only first lines are wanted. */
void tell_warnings(struct output *out, const struct reading *reading, const struct warnings *warnings, bool whole);

/* What is told of an accepted text beside its answer. */
struct remarks {
  struct warnings warnings;
  struct hints hints;
};

/* ---- shapes.c: the shapes of a flat file, one after another. */

enum { MOST_NUMBERS = 2049 };

struct shape {
  char kind;        /* B, R, W or P */
  uint32_t layer;   /* its bytes packed, the first highest */
  size_t start;     /* where its line starts */
  size_t count;
  int32_t numbers[MOST_NUMBERS];
};

struct walk {
  struct bytes flat;
  size_t at;
  uint32_t layer;
  bool broken; /* the bytes are no flat file */
};

/* Whether the bytes are a flat file from beginning to end. */
bool is_flat(struct bytes flat);
struct walk walk_over(struct bytes flat);
/* False at the end of the flat file, or where it is broken. */
bool next_shape(struct walk *walk, struct shape *shape);
/* Where the points of a shape start among its numbers, and how many points it has. */
size_t first_point(const struct shape *shape);
size_t point_count(const struct shape *shape);
/* The characters of a packed layer name, ended by 0. */
void spell_layer(uint32_t layer, char name[5]);

/* ---- layers.c: the flat file by layers, in the order in which they first appear. */

struct run { /* neighbouring shapes on one layer */
  uint32_t layer;
  uint32_t start, end; /* where their lines stand in the flat file */
  uint32_t shapes;
};

/* Lowest x and y, highest x and y that hold every figure, in half units: what the list calls a window. */
struct window {
  bool some;
  int64_t number[4];
};

struct layer {
  uint32_t name;
  uint32_t start; /* where its first line stands */
  uint32_t colour;
  bool outlined; /* an implant or a well: it covers much and must not hide the rest */
  int height;    /* in the usual stacking order */
  size_t first_run, runs;
  size_t shapes;
  struct window window; /* by find_windows */
};

struct layers {
  struct run *runs;
  size_t run_count;
  struct layer *all;
  size_t count;
};

/* False where there is no memory. What it answers is to be released. */
bool find_layers(struct bytes flat, struct layers *layers);
void release_layers(struct layers *layers);

/* The shapes of one layer, one after another. */
struct layer_walk {
  const struct run *run; /* the next one */
  size_t runs;           /* how many are left, with that one */
  size_t end;            /* of the run that is walked over */
  struct walk walk;
};

struct layer_walk walk_over_layer(struct bytes flat, const struct layers *layers, const struct layer *layer);
bool next_on_layer(struct layer_walk *layer, struct shape *shape);

/* ---- listing.c: the flat file and the list, by the archive. */

/* The answer to a text, in a room of CIF_MOST_BYTES bytes. As many words are lent as the text has bytes, and one more element is there, so that there are some for
   an empty text too: 25 never comes. False where there is no memory. */
bool flatten(struct bytes text, unsigned char *room, uint64_t answer[CIF_WORDS]);
/* The lines of an accepted text's list without its shapes: the warnings, and then the totals and the window of nothing. NULL where there is no memory; else to be
   freed. */
unsigned char *warning_lines(const struct reading *reading, size_t *length);
/* The list of a text, accepted or refused. False where there is no memory. */
bool put_list(struct output *out, const struct reading *reading);
/* Those lines of the list that have these counts, which rise: a shape's line is the one with its count. False where there is no memory. */
bool put_list_lines(struct output *out, const struct reading *reading, const uint64_t *counts, size_t count);

struct line { /* of a shape in the flat file, which has this count */
  size_t start, end;
  uint64_t count;
};

/* The window of some shapes of the flat file together, which are all on this layer. False where there is no memory. */
bool find_lines_window(const struct reading *reading, uint32_t layer, const struct line *lines, size_t count, struct window *window);
/* The window of each layer and of all of them. False where there is no memory. */
bool find_windows(const struct reading *reading, struct layers *layers, struct window *whole);
/* The window of these layers together. False where there is no memory. */
bool find_window(const struct reading *reading, const struct layers *layers, struct window *window);

/* ---- calls.c, summary.c */

enum { UNKNOWN_DEPTH = -1 };

/* How deep the calls of an accepted text go. False where there is no memory. */
bool find_depth(const struct reading *reading, int *depth);
/* ", 3 rounded distances" for the line with the counts, and a paragraph that says why; nothing where there are none. */
void put_rounded_count(struct output *out, const struct reading *reading);
void tell_rounding(struct output *out, const struct reading *reading);
/* False where there is no memory; then nothing is put. */
bool put_summary(struct output *out, const struct reading *reading);

/* ---- places.c: where the commands stand that draw shapes. */

#define NO_PLACE ((size_t)-1)

struct place {
  uint64_t which; /* the shape's count in the list, from 1 */
  size_t place;   /* of its command in the text, or NO_PLACE where that cannot be told */
};

/* False where there is no memory. */
bool find_places(const struct reading *reading, struct place *places, size_t count);

/* ---- compare.c */

/* Tells whether two accepted texts draw the same, and the first differences. False where there is no memory; then nothing is put. */
bool put_comparison(struct output *out, const struct reading readings[2], bool any_order, bool *same);

/* ---- join.c: texts joined one after another, by the archive. */

struct added {
  const char *name; /* of the file, as it is shown */
  size_t start;     /* where its text begins in the joined one */
};

struct joined {
  unsigned char *text, *room; /* the joined text, and where the next one is written: CIF_MOST_BYTES bytes each */
  size_t length;              /* of the joined text */
  struct added *texts;
  int count; /* of the texts that are joined */
};

/* For at most so many texts. False where there is no memory. To be released either way. */
bool start_joined(struct joined *joined, int most);
void release_joined(struct joined *joined);
/* One more text, which the reader accepts. False where the joined one would be too long for a text; then it is as it was. */
bool add_text(struct joined *joined, const char *name, struct bytes text);
/* What is refused of the joined text, with its places in the text that they come from. Nothing of it is to be released. */
struct reading refused_text(const struct joined *joined, const uint64_t answer[CIF_WORDS]);

/* ---- symbols.c: what is in the symbols of a text, by the archive. */

struct contents {
  uint64_t number;
  uint64_t gives; /* 12, 13 or 14 where it cannot be drawn, or else 0 */
  uint64_t layers, height;
  uint32_t first; /* layer, packed; 0 for none */
  uint64_t own_shapes, own_calls, own_layers;
};

struct symbols {
  struct contents *all;
  size_t count;
  size_t asked;  /* numbers that stand after a DS, each once */
  bool left_out; /* they were not asked for, since that would take long */
};

/* The number of a symbol as a word; false where it is none. */
bool take_symbol(const char *word, uint64_t *symbol);
/* The symbol asked for, or for NULL all that are defined at the end of the text, by their numbers. The reading's answer is then the archive's: of a refused text there
   are no symbols. False where there is no memory. To be released either way. */
bool find_symbols(struct reading *reading, const uint64_t *number, struct symbols *symbols);
void release_symbols(struct symbols *symbols);
bool is_defined(const struct contents *symbol);
/* How many cannot be drawn, and why one of them cannot. */
size_t count_undrawn(const struct symbols *symbols);
const char *why_undrawn(const struct contents *symbol);
/* A line of heads and one for each symbol; before them a line that counts them, for a table of all. */
void put_symbols(struct output *out, const struct reading *reading, const struct symbols *symbols, bool table);

/* ---- why.c: why a shape is there, by the archive, and which shapes lie at a point. */

struct view;

/* Asks why the shape with a count is there: the reading's answer is then the archive's. False where there is no memory. */
bool find_why(struct reading *reading, uint64_t count);
size_t place_of_shape(const struct reading *reading);
/* A word that holds a signed number, in two's complement. */
int64_t signed_word(uint64_t word);
/* What is told of that shape; `drawn` is what the reader answers to the same text, whose list has its line. False where there is no memory. */
bool put_reason(struct output *out, const struct reading *reading, const struct reading *drawn, uint64_t count);
/* The transformation in words, and as the list of a call: of a shape that is not moved there is none. */
void put_turned(struct output *out, const struct reading *reading);
void put_turns(struct output *out, const struct reading *reading);
bool is_unmoved(const struct reading *reading);
/* How many shapes there are, for a count that none has. */
void tell_count(struct output *out, const struct reading *drawn);

struct counts {
  uint64_t *all; /* rising */
  size_t count;
};

/* The shapes on a layer whose windows hold a spot. False where there is no memory. To be released either way. */
bool find_at(const struct reading *reading, const struct view *view, struct counts *counts);
void release_counts(struct counts *counts);
void tell_nothing_at(struct output *out, const struct reading *reading, const struct view *view);

/* ---- json.c */

/* False where there is no memory; then nothing is put. */
bool put_json(struct output *out, const struct reading *reading, const struct remarks *remarks);
/* For a file that cannot be read. */
void put_unread(struct output *out, const char *name);
void put_symbols_json(struct output *out, const struct reading *reading, const struct symbols *symbols);
/* Of a shape why it is there; `drawn` as above. */
void put_why_json(struct output *out, const struct reading *reading, const struct reading *drawn, uint64_t count);
void put_at_json(struct output *out, const struct reading *reading, const struct counts *counts);

/* ---- colours.c */

/* Gives each layer its colour, and puts them into the order in which they are drawn: usual ones as they are stacked, then others as they first appear. */
void colour_layers(struct layer *layers, size_t count);

/* ---- view.c: what of a drawing a picture shows, and where a shape is looked for. */

enum { USUAL_SIZE = 800 };

struct view {
  bool windowed;
  int64_t window[4];  /* lowest x and y, highest x and y, in millionths of a micron */
  const char *layers; /* names with commas between them, or NULL for all layers */
  int64_t size;       /* of the frame's longer side, in pixels */
  int64_t spot[2];    /* where shapes are looked for, in millionths of a micron, and on which layer */
  const char *layer;
};

/* From the words of the command line; false where they make no sense. */
bool take_window(struct view *view, char *const words[4]);
bool take_layers(struct view *view, char *const words[1]);
bool take_size(struct view *view, char *const words[1]);
bool take_spot(struct view *view, char *const words[3]);
bool shows_layer(const struct view *view, uint32_t layer);
/* A line on standard error for each layer that the view names and the drawing does not have. */
void tell_undrawn_layers(const struct view *view, const struct layers *layers, const char *name);

/* ---- plot.c: the picture of a flat file. */

/* False where there is no memory; then nothing is put. */
bool put_plot(struct output *out, const struct reading *reading, const struct view *view);

#endif
