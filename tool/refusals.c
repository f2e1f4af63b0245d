/* The sentences: what each refusal means in the words of somebody who has a layout to bring in, and what to do about it. The one place where they stand;
   docs/REFUSALS.md tells more about each number. */
#include <string.h>

#include "tool.h"

/* Cases of refusal 2 beside the letters of commands, which stand for themselves. */
enum {
  ANY = 0,
  NOT_ASCII = 'a',
  BLANKS_FIRST = 'b',
  CUT_COMMENT = 'c',
  NOT_OPEN = 'f',
  NOT_ENDED = 'g',
  MARKUP = 'h',
  CUT_DEFINITION = 'd',
  END_MISSING = 'e',
  END_INSIDE = 'i',
  CUT_COMMAND = 'm',
  NO_COMMAND = 'n',
  ONLY_BLANKS = 'o',
  NESTED = 's',
  EMPTY = 'v',
  CRYSTALS = 'y',
  BINARY = 'z',
};

#define NUMBERS "Numbers are whole, with a blank between two of them; only coordinates and directions may be negative, and the minus sign touches its digit."

static const struct sentence sentences[] = {
    {1, ANY, "the text is longer than 16,777,216 bytes, the most that is taken.",
     "Write what is repeated as symbols and calls (DS .. DF, C), or split the layout into several texts."},

    {2, EMPTY, "the text is empty.", "Give a layout in CIF 2.0; the shortest one is E. If the file should hold one, check whether it was written at all."},
    {2, ONLY_BLANKS, "this is no layout: the text holds blanks and no command.",
     "Lower-case letters are blanks in CIF 2.0: commands are written in upper case, and the last one is E."},
    {2, MARKUP, "this is no layout: it looks like a web page or another text in markup.",
     "If it was downloaded, the server may have sent a page instead of the file: open it, and download the file again."},
    {2, CRYSTALS, "this is no layout: it looks like a Crystallographic Information File, which shares only the letters CIF with a layout.",
     "This tool reads the Caltech Intermediate Form, for the masks of chips. Crystals need another program."},
    {2, BINARY, "this is no layout: the file is not a text.",
     "CIF 2.0 is plain ASCII. Unpack a compressed file first. A layout in GDSII or OASIS must be converted by a layout program."},
    {2, NOT_ASCII, "this byte is not ASCII, and CIF is plain ASCII, in comments too.",
     "Replace it: look for accents, a micron sign, curly quotes, or a byte-order mark at the start of the file."},
    {2, CUT_COMMENT, "the text ends inside a comment.",
     "Close the comment: each ( needs its ), and a semicolon follows the last ). Then check that the file is whole."},
    {2, CUT_DEFINITION, "the text ends inside a symbol definition.", "Finish the definition with DF; and the text with E. Then check that the file is whole."},
    {2, CUT_COMMAND, "the text ends in the middle of a command.",
     "Finish the command with a semicolon and the text with E. Then check that the file is whole."},
    {2, END_MISSING, "the text ends without its End command.", "Write E as the last command. Then check that the file is whole."},
    {2, END_INSIDE, "this End command stands inside a symbol definition.", "Write DF; before it, to finish the definition."},
    {2, BLANKS_FIRST, "blanks stand before this End command and no semicolon came before them.", "Remove the blanks, or write a semicolon before the E."},
    {2, NESTED, "a symbol definition holds no DS and no DD: definitions do not nest.", "Finish the definition before it with DF;, or find the DF that is missing."},
    {2, NOT_ENDED, "no semicolon follows this DF.", "Write DF; before whatever comes after the definition."},
    {2, NO_COMMAND, "no command can start here.",
     "A command starts with P, B, R, W, L, C, D or E, with a digit (user extension) or with ( for a comment. Put other words into a comment."},
    {2, '(', "no semicolon follows this comment.", "A comment is a command: write ; after its last ), and check that it has no extra )."},
    {2, 'L', "this layer name is not one to four digits or upper-case letters, up to the semicolon.",
     "Rename the layer, such as CM or NP: no fifth character, no underscore inside, and no other upper-case word after it."},
    {2, 'P', "this polygon does not have the form P x y x y x y ..;", NUMBERS},
    {2, 'B', "this box does not have the form B length width x y; or B length width x y dx dy;", NUMBERS},
    {2, 'R', "this flash does not have the form R diameter x y;", NUMBERS},
    {2, 'W', "this wire does not have the form W width x y x y ..;", NUMBERS},
    {2, 'C', "this call does not have the form C number; with any of T x y, MX, MY and R x y after the number.", NUMBERS},
    {2, NOT_OPEN, "this DF finishes a definition, and none is open.",
     "Remove it, or write the DS that belongs to it: check whether the definition before it was finished twice, or begun without an upper-case DS."},
    {2, 'D', "this command has none of the forms DS number; DS number a b; DD number; or, inside a definition, DF;", NUMBERS},
    {2, 'E', "only blanks may follow the End command.",
     "Remove what follows, or move E to the very end. Lower-case letters are blanks; upper-case letters, digits and ; are not."},
    {2, ANY, "this does not follow the grammar of CIF.", "Look at the byte above the caret and at what comes just before it."},

    {3, ANY, "this number is beyond 16,777,215, the largest that CIF allows.",
     "Check whether a blank is missing between two numbers. The unit is a hundredth of a micron."},
    {4, ANY, "a scale has a zero: in DS number a b both a and b are at least 1.",
     "Distances are multiplied by a and divided by b. Leave both out for no scaling."},
    /* 5 was for a scaled distance that is not whole; such a distance is rounded now, and the number stays unused. */
    {6, ANY, "this distance, times a and divided by b of its definition, is beyond 16,777,215.",
     "Check the scale in the DS command: the unit is a hundredth of a micron."},
    {7, 'B', "this box has a length or width of zero, as written or rounded after scaling, or the direction 0 0.", "Remove it, or give it a size; leave the direction out if there is none."},
    {7, 'R', "this flash has a diameter of zero, as written or rounded after scaling.", "Remove it, or give it a size."},
    {7, 'W', "this wire has a width of zero, as written or rounded after scaling.", "Remove it, or give it a width: a line without width, as other programs write them, is no mask."},
    {7, 'P', "this polygon has fewer than three points.", "Remove it, or write a line as a wire (W)."},
    {7, 'C', "this call turns its symbol to the direction 0 0, which is none.", "Write R 1 0, R 0 1, R -1 0 or R 0 -1, or leave the R out."},
    {7, ANY, "a size or direction here is zero.", "Remove the command, or give it a size."},
    {8, ANY, "no layer is set for this shape.",
     "Write an L command before it. Each definition starts with none set and needs its own; a layer set inside one ends with it."},
    {9, 'C', "this call has more than 32 transformations.", "Write several T as one, and leave out mirrors and turns that cancel each other."},
    {9, ANY, "this path has more than 1,024 points.", "Split the shape: a wire into wires that share an end point, a polygon into polygons that touch."},
    {10, ANY, "this would be the 513th symbol defined at one time; 512 is the limit.",
     "Delete symbols that are no longer called, by DD, before defining others; or split the layout."},
    {11, ANY, "this call turns its symbol by other than a right angle.",
     "R goes along an axis: 1 0, 0 1, -1 0 or 0 -1. Write what is turned otherwise as shapes of a symbol of its own."},
    {12, ANY, "this call is drawn and its symbol is not defined.",
     "Check the number. Definitions must come before the call outside them that leads here, and DD n removes symbols from n up."},
    {13, ANY, "this call draws a symbol that is being drawn already: the symbol calls itself, perhaps through others.",
     "The calls above lead round in a circle, from the one of the same symbol on: take one call out of it."},
    {14, ANY, "this call is nested 33 deep; 32 is the limit.", "Leave out levels that only call one other symbol."},
    {15, ANY, "this would be the 1,048,577th call drawn; 1,048,576 is the limit.",
     "Split the layout into several texts; or see whether symbols without shapes call each other over and over."},
    {16, ANY, "an x of this shape, where its calls put it, lies beyond 16,777,215.",
     "Check the T of the calls that lead here: the unit is a hundredth of a micron."},
    {20, ANY, "a y of this shape, where its calls put it, lies beyond 16,777,215; each x is within it.",
     "Check the T of the calls that lead here: the unit is a hundredth of a micron."},
    {17, ANY, "this would be the 1,048,577th shape drawn; 1,048,576 is the limit.", "Split the layout into several texts."},
    {18, ANY, "the flat file would be longer than 16,777,216 bytes.", "Split the layout into several texts."},
    {19, ANY, "this is the 65th layer name of the text; what is in a symbol is told of at most 64.",
     "The text itself may well be accepted: cif check takes any number of layers. To see into its symbols, split it, or leave out L commands whose layers nobody needs."},
    {26, ANY, "there is no shape with this count.", "Shapes are counted from 1, in the order of cif list."},
    /* Never from this tool, which lends as many words as the text has bytes and no records; they stand here so that every number of the reader has a sentence. */
    {21, ANY, "this call is deeper than records were lent for open calls.", "Leave out levels that only call one other symbol; or lend 32 records."},
    {25, ANY, "the symbols defined at one time need more words than were lent.", "Delete symbols that are no longer called, by DD, before defining others; or split the layout."},
};

/* ---- what kind of file it is, where it is none of ours */

static bool starts_with(struct bytes text, size_t at, const char *word) {
  size_t count = strlen(word);
  for (size_t i = 0; i < count; i++) {
    if (at + i >= text.count || text.at[at + i] != (unsigned char)word[i]) return false;
  }
  return true;
}

static size_t pass_spaces(struct bytes text) {
  size_t at = starts_with(text, 0, "\xef\xbb\xbf") ? 3 : 0;
  while (at < text.count && (text.at[at] == ' ' || (text.at[at] >= '\t' && text.at[at] <= '\r'))) at++;
  return at;
}

/* Whether some line of the first few thousand bytes starts with one of the words that a crystallographer's file must have. */
static bool tells_of_crystals(struct bytes text) {
  enum { FAR = 4096 };
  for (size_t at = 0; at < text.count && at < FAR; at++) {
    bool starts = at == 0 || text.at[at - 1] == '\n';
    if (starts && (starts_with(text, at, "data_") || starts_with(text, at, "#\\#CIF") || starts_with(text, at, "_cell_") || starts_with(text, at, "_atom_"))) return true;
  }
  return false;
}

/* Whether the first bytes hold a zero, or are mostly such as no text has. */
static bool is_binary(struct bytes text) {
  enum { FAR = 512 };
  size_t odd = 0, count = text.count < FAR ? text.count : FAR;
  for (size_t at = pass_spaces(text); at < count; at++) {
    unsigned char byte = text.at[at];
    if (byte == 0) return true;
    odd += byte >= 127 || (byte < ' ' && (byte < '\t' || byte > '\r'));
  }
  return odd * 3 > count;
}

/* Which kind of file, or ANY for what may well be a layout. The first command of a layout settles that it is one. */
static char kind_of_file(struct bytes text) {
  size_t at = pass_spaces(text);
  if (text.count == 0) return EMPTY;
  if (starts_with(text, at, "<!") || starts_with(text, at, "<?") || starts_with(text, at, "<html") || starts_with(text, at, "<HTML")) return MARKUP;
  if (tells_of_crystals(text)) return CRYSTALS;
  if (is_binary(text)) return BINARY;
  for (at = 0; at < text.count && is_blank(text.at[at]);) at++;
  return at == text.count ? ONLY_BLANKS : ANY;
}

/* ---- which sentence */

static char case_of_cut(const struct context *context) {
  if (context->open_comment) return CUT_COMMENT;
  if (context->letter != 0) return CUT_COMMAND;
  return context->defining ? CUT_DEFINITION : END_MISSING;
}

static char case_between_commands(const struct context *context, unsigned char byte) {
  if (byte != 'E') return NO_COMMAND;
  if (context->defining) return END_INSIDE;
  return context->begun ? ANY : BLANKS_FIRST;
}

/* A command inside a definition that starts with D. */
static char case_inside(struct bytes text, size_t start, size_t place) {
  size_t second = start + 1;
  while (second < place && is_blank(text.at[second])) second++;
  if (second < place && text.at[second] == 'F') return NOT_ENDED;
  return text.at[place] == 'S' || text.at[place] == 'D' ? NESTED : 'D';
}

static char case_of_grammar(struct bytes text, size_t place) {
  char kind = kind_of_file(text);
  if (kind != ANY) return kind;
  struct context context = context_at_end((struct bytes){text.at, place});
  if (place == text.count) return case_of_cut(&context);
  if (text.at[place] >= 128) return NOT_ASCII;
  if (context.letter == 0) return case_between_commands(&context, text.at[place]);
  if (context.letter != 'D') return (char)context.letter;
  return context.defining ? case_inside(text, context.start, place) : text.at[place] == 'F' ? NOT_OPEN : 'D';
}

const struct sentence *sentence_for(uint64_t number, struct bytes text, size_t place) {
  char key = place < text.count ? (char)text.at[place] : ANY;
  if (number == 2) key = case_of_grammar(text, place);
  for (size_t i = 0; i < sizeof sentences / sizeof *sentences; i++) {
    const struct sentence *sentence = &sentences[i];
    if ((uint64_t)sentence->number == number && (sentence->key == key || sentence->key == ANY)) return sentence;
  }
  return NULL;
}

/* ---- a remedy that fits what stands there */

/* Whether an R of the call has one number only, up to the place. A letter may stand between two numbers, so the grammar is stuck later. */
static bool turns_by_degrees(struct bytes text, size_t start, size_t place) {
  size_t numbers = 0;
  bool turns = false;
  for (size_t at = start; at < place && at < text.count; at++) {
    if (turns && numbers == 1 && is_upper(text.at[at])) return true;
    if (is_upper(text.at[at])) numbers = 0, turns = text.at[at] == 'R';
    numbers += is_digit(text.at[at]) && !is_digit(text.at[at - 1]);
  }
  return turns && numbers == 1 && place < text.count && text.at[place] == ';';
}

/* Whether no letter follows the command's first: of a call, no transformation is being read. */
static bool wants_letter(struct bytes text, size_t start, size_t place) {
  size_t at = start + 1, letters = 0;
  for (; at < place; at++) letters += is_upper(text.at[at]);
  return letters == 0;
}

static bool has_point(struct bytes text, size_t start, size_t end) {
  for (size_t at = start + 1; at + 1 < end; at++) {
    if (text.at[at] == '.' && is_digit(text.at[at - 1]) && is_digit(text.at[at + 1])) return true;
  }
  return false;
}

static bool has_lower(struct bytes text, size_t start, size_t end) {
  while (start < end && !is_lower(text.at[start])) start++;
  return start < end;
}

static bool is_one_of(unsigned char byte, const char *all) { return byte != 0 && strchr(all, byte) != NULL; }

#define COMMANDS "PBRWLCDE("
#define LOWER_CASE "Lower-case letters are blanks in CIF 2.0: "

/* For a call: what it takes, and what it does not. */
static const char *remedy_of_call(struct bytes text, const struct context *context, size_t place) {
  if (turns_by_degrees(text, context->start, place))
    return "R takes a direction, not degrees: the x axis is turned to it. R 0 1 turns by 90 degrees, R -1 0 by 180, R 0 -1 by 270.";
  if (place < text.count && is_upper(text.at[place]) && !is_one_of(text.at[place], COMMANDS) && wants_letter(text, context->start, place))
    return "A call takes T x y to move, R x y to turn, MX and MY to mirror, in the order in which they are to be done, and nothing else. One that turns and moves is C 1 R 0 1 T 10 20.";
  return NULL;
}

static const char *remedy_between(struct bytes text, const struct context *context, size_t place) {
  bool lower = has_lower(text, context->slot, place);
  if (place == text.count && lower && text.at[text.count - 1] != ';')
    return LOWER_CASE "commands are written in upper case, and the last one is E.";
  if (place < text.count && lower) return LOWER_CASE "if a command is meant here, write its letter in upper case.";
  return NULL;
}

/* For a command whose semicolon comes where a number must still follow. */
static const char *remedy_of_count(unsigned char letter) {
  if (letter == 'B') return "A number is missing before the semicolon: a box has 4 numbers, or 6 with a direction.";
  if (letter == 'R') return "A number is missing before the semicolon: a flash has 3 numbers.";
  if (letter == 'W') return "A number is missing before the semicolon: a wire has its width and then two numbers for each point.";
  if (letter == 'P') return "A number is missing before the semicolon: a polygon has two numbers for each point.";
  return letter == 'D' ? "A number is missing before the semicolon: DS has the symbol's number, or that and a and b; DD has one number." : NULL;
}

/* NULL: the sentence's own will do. */
static const char *fitting_remedy(uint64_t number, char key, struct bytes text, size_t place) {
  if (number != 2 || is_one_of((unsigned char)key, (const char[]){EMPTY, ONLY_BLANKS, MARKUP, CRYSTALS, BINARY, NOT_ASCII, CUT_COMMENT, 0})) return NULL;
  struct context context = context_at_end((struct bytes){text.at, place});
  if (context.letter == 0) return context.defining ? NULL : remedy_between(text, &context, place);
  if (is_one_of(context.letter, "(E")) return NULL;
  if (place < text.count && text.at[place] == '(') return "A comment is a command of its own: move it before this command, or after its semicolon.";
  if (key == 'D' && has_lower(text, context.start, place)) return LOWER_CASE "write DS, DF and DD in upper case.";
  const char *remedy = context.letter == 'C' ? remedy_of_call(text, &context, place) : NULL;
  if (remedy != NULL || !is_one_of(context.letter, "BRWPCD")) return remedy;
  if (has_point(text, context.start, place < text.count ? place + 1 : place))
    return "A decimal point is a blank here, so 1.5 is two numbers. Numbers are whole; outside a scaled definition the unit is a hundredth of a micron.";
  bool bare = context.letter == 'D' && wants_letter(text, context.start, place);
  return place < text.count && text.at[place] == ';' && !bare ? remedy_of_count(context.letter) : NULL;
}

/* Where to look as well: what is being read at the place began earlier, or what is missing there was skipped. */
struct origin {
  const char *what; /* NULL: nothing to show */
  size_t start;
  bool asks; /* whether a semicolon is missing after what began */
  const char *question;
};

static bool on_one_line(struct bytes text, size_t start, size_t place) {
  while (start < place && text.at[start] != '\n') start++;
  return start == place;
}

static struct origin origin_of(char key, struct bytes text, size_t place) {
  struct context context = context_at_end((struct bytes){text.at, place});
  if (is_one_of((unsigned char)key, (const char[]){EMPTY, ONLY_BLANKS, MARKUP, CRYSTALS, BINARY, NOT_ASCII, 0})) return (struct origin){0};
  if (key == CUT_COMMENT) return (struct origin){"The comment began", context.start, false, ":"};
  if (key == CUT_DEFINITION || key == END_INSIDE || key == NESTED) return (struct origin){"The definition began", context.definition, false, ":"};
  if (context.letter == 0 || context.letter == 'E' || on_one_line(text, context.start, place)) return (struct origin){0};
  const char *question = place == text.count ? ". Is a semicolon missing after it?" : ". Is a semicolon missing before this line?";
  return (struct origin){context.letter == '(' ? "The comment began" : "This command began", context.start, true, question};
}

/* The letter of the command that is missing at the place, where it may have been skipped as part of a user extension, or 0. */
static unsigned char missing_letter(uint64_t number, char key) {
  if (number == 8) return 'L';
  return number == 2 && is_one_of((unsigned char)key, (const char[]){CUT_DEFINITION, END_INSIDE, NESTED, NOT_OPEN, 0}) ? 'D' : 0;
}

/* Of a definition that is open, only what stands in it counts. */
static bool find_skipped(uint64_t number, char key, struct bytes text, size_t place, struct origin *origin) {
  unsigned char letter = missing_letter(number, key);
  struct bytes before = {text.at, place};
  struct context context = context_at_end(before);
  size_t start;
  if (letter == 0 || !find_swallower(before, letter, &start) || (context.defining && start < context.definition)) return false;
  *origin = (struct origin){"A user extension, which goes on up to a semicolon, began", start, false, ". Is its semicolon missing?"};
  return true;
}

/* ---- telling */

struct position refused_position(const struct reading *reading) {
  return (struct position){(size_t)reading->answer[CIF_LINE], (size_t)reading->answer[CIF_COLUMN]};
}

void put_head(struct output *out, const char *name, struct position position) {
  put_name(out, name);
  put_text(out, ":");
  put_number(out, (int64_t)position.line);
  put_text(out, ":");
  put_number(out, (int64_t)position.column);
  put_text(out, ": ");
}

static void put_where(struct output *out, const char *what, struct position position) {
  put_text(out, "  ");
  put_text(out, what);
  put_text(out, " on line ");
  put_number(out, (int64_t)position.line);
  put_text(out, ", column ");
  put_number(out, (int64_t)position.column);
}

static void put_origin(struct output *out, const struct origin *origin, struct bytes text) {
  if (origin->what == NULL) return;
  put_where(out, origin->what, position_of(text, origin->start));
  put_text(out, origin->question);
  put_text(out, "\n");
  put_excerpt(out, text, origin->start);
}

/* Whether a new command seems to begin: at the place itself, or where its line does. */
static bool seems_new(struct bytes text, size_t place, const struct origin *origin) {
  struct context context = context_at_end((struct bytes){text.at, place});
  if (place == text.count || !is_one_of(context.letter, "LBRCDWP")) return false;
  if (!origin->asks) return place > context.start + 1 && is_blank(text.at[place - 1]) && is_one_of(text.at[place], "PBWLCDE");
  size_t at = place;
  while (text.at[at - 1] != '\n') at--;
  while (at < place && is_blank(text.at[at])) at++;
  return is_one_of(text.at[at], COMMANDS);
}

static void put_remedy(struct output *out, const struct sentence *sentence, struct bytes text, size_t place, const struct origin *origin) {
  const char *fitting = fitting_remedy((uint64_t)sentence->number, sentence->key, text, place);
  if (fitting != NULL) put_paragraph(out, fitting);
  else if (sentence->number == 2 && seems_new(text, place, origin)) put_paragraph(out, "If a new command begins here, the one before it needs its semicolon.");
  else put_paragraph(out, sentence->remedy);
}

static void put_refusal(struct output *out, const struct sentence *sentence, uint64_t number, uint64_t place) {
  put_marked(out, RED_MARK, "refused");
  put_text(out, " ");
  put_number(out, (int64_t)number);
  put_text(out, " at byte ");
  put_number(out, (int64_t)place);
  put_text(out, ": ");
  put_text(out, sentence == NULL ? "a number that this tool does not know." : sentence->wrong);
  put_text(out, "\n");
}

void tell_refusal(struct output *out, const struct reading *reading, bool whole) {
  struct bytes text = reading->text;
  uint64_t number = reading->answer[CIF_NUMBER], place = reading->answer[CIF_PLACE];
  size_t at = place < text.count ? (size_t)place : text.count;
  const struct sentence *sentence = sentence_for(number, text, at);
  struct origin origin = number == 2 ? origin_of(sentence->key, text, at) : (struct origin){0};
  put_head(out, reading->name, refused_position(reading));
  put_refusal(out, sentence, number, place);
  if (!whole) return;
  if (sentence != NULL) (void)find_skipped(number, sentence->key, text, at, &origin);
  put_chain(out, reading);
  /* 1, 18 and 26 are about the text as a whole: no line of it is to blame. */
  if (number != 1 && number != 18 && number != 26) put_excerpt(out, text, at);
  put_origin(out, &origin, text);
  if (sentence != NULL) put_remedy(out, sentence, text, at, &origin);
}
