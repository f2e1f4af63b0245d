/* The proved CIF 2.0 reader, for programs in C and C++: all that the archive libcif.a offers, which `tool/archive` makes, and the
   shared library libcif.so, which `tool/build` makes of it. Both are x86-64. What each function answers is settled, word for word and byte for byte, by its
   contract and proved; docs/BELIEVE.md leads through the definitions.

   Any bytes at all may stand in a text, a flat file or a room, and any numbers in words and records that are lent or an answer that is given. The places in memory that
   a call is lent must not overlap, and the pointers must be good also where a length is 0. Nothing is allocated and nothing kept from one call to the next, so several threads
   may call at once, each with its own memory. */
#ifndef CIF_H
#define CIF_H

#include <stddef.h>
#include <stdint.h>

#ifdef __cplusplus
extern "C" {
#endif

/* The most bytes of a text, and of a flat file. */
#define CIF_MOST_BYTES 16777216

/* The most calls that are open at once. */
#define CIF_MOST_OPEN_CALLS 32

/* Where each word of an answer stands. Every function that answers sets all CIF_WORDS of them, and these positions do not change. */
enum cif_word {
  CIF_NUMBER = 0,        /* why the text is refused (the table below), or 0 */
  CIF_PLACE = 1,         /* at which byte of the text, counted from 0 */
  CIF_LENGTH = 2,        /* how many bytes of the room are the flat file, or the joined text */
  CIF_SHAPES = 3,        /* how many shapes are drawn */
  CIF_CALLS = 4,         /* how many calls are drawn, at any depth */
  CIF_REDEFINITIONS = 5, /* how many definitions replaced one of the same number */
  CIF_ROUNDED = 6,       /* how many distances of the text were rounded, since a/b of their definition leaves a fraction: each once, drawn or not */
  CIF_LINE = 7,          /* on which line the place is: one more than the bytes 10 before it */
  CIF_COLUMN = 8,        /* in which column: one more than the bytes since the last of these */
  CIF_OPEN_CALLS = 9,    /* how many calls were open there, at most CIF_MOST_OPEN_CALLS */
  CIF_TEXT = 10,         /* of two texts that are joined: in which of them the place is, 1 or 2 */
  CIF_POSITION = 11,     /* nothing is told yet here, and it is 0: which of several texts is refused */
  CIF_CHAIN = 16,        /* 16 to 47: the places of the open calls, the outermost first, and 0 after them */
  CIF_GIVES = 48,        /* 48 to 54 are cif_summary's: 12, 13 or 14 where the symbol cannot be drawn, or 0 */
  CIF_LAYERS = 49,       /* how many layers a call of the symbol draws on */
  CIF_FIRST_LAYER = 50,  /* of these the one that appears first in the text, or 0: its letters as the bytes of a number of 32 bits, the first letter highest */
  CIF_HEIGHT = 51,       /* the height of the symbol */
  CIF_OWN_SHAPES = 52,   /* how many shapes stand in its definition */
  CIF_OWN_CALLS = 53,    /* how many calls */
  CIF_OWN_LAYERS = 54,   /* on how many layers those shapes are */
  CIF_SHAPE = 48,        /* 48 to 54 are cif_why's too: the place of the shape's command */
  CIF_MATRIX = 49,       /* 49 to 52: a, b, c and d, each -1, 0 or 1, in two's complement, so that (int64_t)answer[CIF_MATRIX] is a */
  CIF_TRANSLATION = 53,  /* 53 and 54: tx and ty, in two's complement. 12 to 15 and 55 to 63 are free, and 0 */
  CIF_WORDS = 64
};

/* Reads the text and writes its flat file into the room: layer commands, shapes and the End, with every call drawn.

   The words are lent for the bodies of definitions, which are kept there as numbers so that none is decoded at each call. Whatever stood in them, they are all
   0 afterwards, refused or not. Lend as many words as the text has bytes (four times its bytes of memory), and 25 never comes: no command of a body needs more
   words than it has bytes, its semicolon counted. Exactly needed is, after each DF, what the definitions take that are defined then; one that was replaced or
   deleted takes nothing any more. With words_length 0 texts without definitions are still read, and those whose definitions are empty.

      command in a definition     words
      box                         8, whether or not its direction is written
      flash                       5
      wire                        3, and 2 for each point
      polygon                     2 for each point, and 2
      layer                       3
      call                        3, and 3 for each T, 3 for each R, 1 for each M
      all else                    0: comments, user extensions, empty commands, the DS and the DF

   Accepted: answer[CIF_NUMBER] and answer[CIF_PLACE] are 0, the first answer[CIF_LENGTH] bytes of the room are the flat file and the rest of the room
   is unchanged; the four words after them are the counts. A distance in a definition is multiplied by a and divided by b and goes to the nearest whole
   number, a half away from zero.

   Refused: answer[CIF_NUMBER] tells why, answer[CIF_PLACE] at which byte, and answer[CIF_LINE] and answer[CIF_COLUMN] where an editor finds that byte; both
   count from 1, and are 0 for a text that is accepted. Only byte 10 ends a line: byte 13 is a column like any other, and a place on a byte 10 is on the line
   which that byte ends. For 11 to 17 and 20 the calls that were open are told too, answer[CIF_OPEN_CALLS] of them: the place of the outermost is
   answer[CIF_CHAIN], that of the call in its symbol answer[CIF_CHAIN + 1], and so on down to the symbol that holds the refused command. A refused call is not
   open, and outside definitions none is. All other words are 0, and not one byte of the room is changed.

      number  when                                                              place
         1    the text is longer than CIF_MOST_BYTES                            0
         2    not in the grammar                                                length of the longest prefix that could still be completed
         3    a number beyond 16,777,215                                        the number
         4    a or b of a DS is 0                                               the DS
         5    never: it was for scaled distances that are now rounded
         6    a distance scaled by a/b and rounded is beyond 16,777,215         the number
         7    a length, width or diameter of 0, scaled and rounded;             the command
              a direction 0 0; a polygon of fewer than 3 points
         8    a shape with no layer set                                         the command
         9    more than 1,024 points or 32 transformations                      the command
        10    513 definitions alive at once                                     the DS
        25    the definitions alive at once need more words than words_length   the DS
        11    a drawn call that turns by other than a right angle               the call
        12    a drawn call of a symbol that is not defined                      the call
        13    a drawn call of a symbol that is being drawn                      the call
        14    calls 33 deep                                                     the call
        15    the 1,048,577th call                                              the call
        16    a drawn shape with some x beyond 16,777,215                       the shape
        20    a drawn shape with some y beyond 16,777,215, and no x             the shape
        17    the 1,048,577th shape                                             the shape
        18    a flat file longer than the room, or than CIF_MOST_BYTES          0

   Of several faults the first counts: 1, then 2, then 3 to 9 command by command in the text's order, then 10 to 17, 20 and 25 in the order of drawing, at one
   DF 10 before 25 and at one shape 16 before 20 before 17, then 18. */
void cif_flatten(const unsigned char *text, size_t text_length, int32_t *words, size_t words_length, unsigned char *room, size_t room_length,
                 uint64_t answer[CIF_WORDS]);

/* A call that is open: what the engine below keeps of it. All that a host does is to lend an array of them. */
struct cif_record {
  uint64_t place, symbol; /* of the call */
  uint64_t at, end, layer, turn; /* where the body that holds it goes on, and how */
  int64_t tx, ty;
};

/* The same as cif_flatten by an engine that does not recurse, for hosts that may not: no function of the archive that it comes to calls itself, directly or through
   others, and it takes as much of the machine's stack for calls that are 32 deep as for none. The calls that are open stand in the records, one for each level: a
   call outside definitions takes one, a call in its symbol another. Whatever stood in them, they are all 0 afterwards, refused or not.

   With CIF_MOST_OPEN_CALLS records or more the answer, the room and the words are those of cif_flatten, for every text, words and room. With fewer all is the same,
   but for one refusal more, which comes directly after 14 and before 15, with its chain:

      number  when                                                              place
        21    a drawn call that is deeper than records_length                   the call

   With records_length 0 texts that draw no call are still read. */
void cif_flatten_stacked(const unsigned char *text, size_t text_length, int32_t *words, size_t words_length, unsigned char *room, size_t room_length,
                         struct cif_record *records, size_t records_length, uint64_t answer[CIF_WORDS]);

/* Lists what was drawn, from a text, an answer of cif_flatten or cif_flatten_stacked to it, and the flat file that goes with it (of a refusal: no bytes): a line
   for each shape, with its count, layer, kind and numbers, then the warnings, the totals and the window, which holds all figures and is in half units (all four
   numbers doubled); or of a refusal one line with its number, place, line and column and the places of the open calls. Fields are separated by tabs.

   The warnings come from the text: a line for each definition that replaced one of the same number, and one for each DD after which some definition calls a
   number that is not defined, with the place of the first such call of the lowest such definition, in the order of the commands. The words are lent for the
   bodies of definitions, as many as to cif_flatten; whatever stood in them, they are all 0 afterwards.

   The lines come to stand at the start of `out`, as far as it reaches; the rest of it is unchanged. Given back is how many bytes they are, whatever the
   length of `out`: a call with an `out` of no bytes measures. For a flat file of cif_flatten that is at most four times its length, fifteen times that of the
   text, and 1,024 more. Of a flat file that is longer than CIF_MOST_BYTES nothing is listed. */
size_t cif_list(const unsigned char *text, size_t text_length, int32_t *words, size_t words_length, const unsigned char *flat, size_t flat_length,
                const uint64_t answer[CIF_WORDS], unsigned char *out, size_t out_length);

/* The first of refusals 2 to 9 of a text of any length, with nothing drawn: answer[CIF_NUMBER], answer[CIF_PLACE], answer[CIF_LINE] and answer[CIF_COLUMN] as
   above, or all 0 where there is none. All other words are 0. */
void cif_refusal(const unsigned char *text, size_t text_length, uint64_t answer[CIF_WORDS]);

/* Whether a text of any length is in the grammar: answer[CIF_NUMBER] is 0, or 2 with the place of refusal 2 in answer[CIF_PLACE], and its line and column. All
   other words are 0. */
void cif_recognise(const unsigned char *text, size_t text_length, uint64_t answer[CIF_WORDS]);

/* Joins two texts into the room: the first up to its E, then `DD0;`, which forgets its definitions, then the second. Where cif_flatten accepts both, it accepts the
   joined text as well, as long as that and its flat file have at most CIF_MOST_BYTES bytes and both together have at most 1,048,576 calls and 1,048,576 shapes; it then
   draws the shapes of the first and after them those of the second, and calls, redefinitions and rounded distances are the sums. A joined text can be joined again.

   Joined: answer[CIF_LENGTH] bytes of the room are the joined text and the rest of the room is unchanged. It is never longer than the two and 3 bytes. All other
   words are 0.

   Refused: answer[CIF_TEXT] is 1 or 2 for the text that answer[CIF_PLACE], answer[CIF_LINE] and answer[CIF_COLUMN] are in, and 0 for 18, whose place is 0. All other
   words are 0 and not one byte of the room is changed.

      number  when
         1    the first text is longer than CIF_MOST_BYTES, or the second is
         2    the first text is not in the grammar, or the second is not
        18    the joined text is longer than the room, or than CIF_MOST_BYTES

   Nothing is drawn here. Texts that are in the grammar and break another rule are joined too: a second text that sets no layer, which cif_flatten refuses, is then drawn
   on the last layer of the first. */
void cif_join(const unsigned char *first, size_t first_length, const unsigned char *second, size_t second_length, unsigned char *room, size_t room_length,
              uint64_t answer[CIF_WORDS]);

/* What is in a symbol, in the table of definitions that the text leaves at its end. The text is read and its definitions kept, as by cif_flatten, but nothing is drawn.

   Told: answer[CIF_OWN_SHAPES] and answer[CIF_OWN_CALLS] are the shapes and the calls that stand in the symbol's definition, and answer[CIF_OWN_LAYERS] the layers of
   these shapes, each counted once. answer[CIF_LAYERS] is the number of layers that a call of the symbol would draw on, with all that it calls;
   answer[CIF_FIRST_LAYER] the one of them whose first L command stands first in the text, wherever that is; and answer[CIF_HEIGHT] one more than the tallest
   height of the symbols that it calls, and 1 if it calls none. Whatever draws nothing has no layers and the first layer 0.

   A symbol that cannot be drawn: answer[CIF_GIVES] is the first of these that drawing it would meet, and layers, first layer and height are 0.

      12    a call of a symbol that is not defined; also where the symbol asked for is not. Its own numbers are then 0, and only then are its calls 0
      13    a call of a symbol that is being drawn
      14    calls 33 deep

   Angles, ranges and the limits of calls and shapes play no part.

   Refused: answer[CIF_NUMBER], answer[CIF_PLACE], answer[CIF_LINE] and answer[CIF_COLUMN] as above, for every symbol alike, with 1 to 10 and 25, and 19 among 3 to
   9 in the order of the text. Nothing from 11 on comes.

      19    the 65th layer name of the text, at its L command: 64 are told apart. cif_flatten takes any number

   All other words are 0. The words lent are as many as to cif_flatten; whatever stood in them, they are all 0 afterwards. The time is that of one pass over the text,
   and of one over each definition that the symbol leads to. */
void cif_summary(const unsigned char *text, size_t text_length, int32_t *words, size_t words_length, size_t symbol, uint64_t answer[CIF_WORDS]);

/* Why a shape is there: the shape with a count, from 1, among those that cif_flatten draws, in the order of drawing; cif_list counts them alike.

   Told: answer[CIF_SHAPE] is the place of the shape's command. answer[CIF_OPEN_CALLS] calls drew it, and their places stand from answer[CIF_CHAIN] on, the outermost
   first: the first is a call outside definitions, each other one stands in the definition that the one before it found, and so does the shape's command in that of
   the last. A shape outside definitions has none. What their transformations come to, the inner before the outer, is one of eight turns and mirrors and after it one
   translation: the point (x, y) of the command, scaled by its definition, goes to (a x + b y + tx, c x + d y + ty), and the direction of a box goes the same way
   without tx and ty. a, b, c and d are answer[CIF_MATRIX] and the three words after it, tx and ty answer[CIF_TRANSLATION] and the word after it, as signed numbers of
   64 bits. All other words are 0: also line and column, which are a refusal's.

   Refused: answer[CIF_NUMBER], answer[CIF_PLACE], answer[CIF_LINE], answer[CIF_COLUMN], answer[CIF_OPEN_CALLS] and answer[CIF_CHAIN] as cif_flatten has them for 1 to
   17, 20 and 25, whether what is refused comes before the shape or after it. 18 does not come, since no flat file is written. Last comes

      number  when                                                              place
        26    the count is 0, or greater than the number of shapes              0

   All other words are 0. The words lent are as many as to cif_flatten; whatever stood in them, they are all 0 afterwards. */
void cif_why(const unsigned char *text, size_t text_length, int32_t *words, size_t words_length, size_t count, uint64_t answer[CIF_WORDS]);

#ifdef __cplusplus
}
#endif

#endif
