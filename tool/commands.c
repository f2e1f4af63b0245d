/* Where commands stand in a text, as far as it follows the grammar. Only for showing: which command a refused place belongs to, where it began, and what is
   worth a hint. What is right and wrong is decided by the proved reader, never here. */
#include "tool.h"

bool is_digit(unsigned char byte) { return byte >= '0' && byte <= '9'; }

bool is_upper(unsigned char byte) { return byte >= 'A' && byte <= 'Z'; }

bool is_lower(unsigned char byte) { return byte >= 'a' && byte <= 'z'; }

bool is_blank(unsigned char byte) {
  return byte < 128 && !is_digit(byte) && !is_upper(byte) && byte != '-' && byte != '(' && byte != ')' && byte != ';';
}

/* After the comment that starts at the place, or the end of the text where it is not closed. */
static size_t pass_comment(struct bytes text, size_t at, bool *open) {
  size_t depth = 0;
  for (; at < text.count; at++) {
    depth += text.at[at] == '(';
    depth -= text.at[at] == ')';
    if (depth == 0) return at + 1;
  }
  *open = true;
  return at;
}

bool next_command(struct command_walk *walk, struct command *command) {
  struct bytes text = walk->text;
  size_t at = walk->at;
  if (at >= text.count) return false;
  *command = (struct command){.slot = at};
  while (at < text.count && is_blank(text.at[at])) at++;
  command->start = at;
  if (at < text.count && text.at[at] != ';') command->letter = text.at[at];
  if (command->letter == '(') at = pass_comment(text, at, &command->open_comment);
  while (at < text.count && text.at[at] != ';') at++;
  command->end = at;
  walk->at = at < text.count ? at + 1 : at;
  return true;
}

unsigned char second_letter(struct bytes text, const struct command *command) {
  size_t at = command->start;
  do at++;
  while (at < command->end && is_blank(text.at[at]));
  return at < command->end ? text.at[at] : 0;
}

uint32_t first_number(struct bytes text, const struct command *command) {
  uint32_t number = 0;
  size_t at = command->start;
  while (at < command->end && !is_digit(text.at[at])) at++;
  for (; at < command->end && is_digit(text.at[at]) && number < 100000000; at++) number = number * 10 + (uint32_t)(text.at[at] - '0');
  return number;
}

static void finish_command(struct bytes text, const struct command *command, struct context *context) {
  unsigned char second = command->letter == 'D' ? second_letter(text, command) : 0;
  if (second == 'S') context->definition = command->start;
  context->definitions += second == 'S';
  context->defining = second == 'S' || (context->defining && second != 'F');
}

struct context context_at_end(struct bytes text) {
  struct context context = {0};
  struct command_walk walk = {.text = text};
  struct command command;
  while (next_command(&walk, &command)) {
    if (command.end < text.count) {
      context.begun = true;
      finish_command(text, &command, &context);
    } else {
      context.letter = command.letter;
      context.start = command.start;
      context.slot = command.slot;
      context.open_comment = command.open_comment;
    }
  }
  if (context.letter == 0 && walk.at == text.count && (text.count == 0 || text.at[text.count - 1] == ';')) context.slot = text.count;
  return context;
}
