/*
 * Threadknoll: the mode table of a scenario, proved.
 *
 * Four functions over lent buffers. There is no heap and no global state. Any bytes, any words and any lengths get a reply, and the caller
 * checks nothing first. Each function is proved to keep its promise, listed in docs/PROMISES.md; this header says it in plain words, and
 * docs/FORMATS.md what texts, words, names, tables and listings are, with an example.
 *
 * A reply is a number, which is handed back, a place and a count, which are put behind the two pointers. 0 is "accepted": the place is
 * then 0, the count says how much was written, and the rest of each lent buffer is zeros. Every other number is a refusal: the count is
 * then 0, and every word and byte of the lent output is 0. Places are word indexes for words, and byte offsets for texts and names.
 *
 * Pointers are valid, aligned and never NULL, also for length 0; no two of the buffers, *place and *count overlap.
 * A thread that calls them should have 96 KiB of stack.
 */
#ifndef THREADKNOLL_H
#define THREADKNOLL_H

#include <stddef.h>
#include <stdint.h>

#ifdef __cplusplus
extern "C" {
#endif

/* The limits. A text, words, names and a listing never need more room; a table of more than MAX_ROWS rows is refused in any room. */
#define THREADKNOLL_MAX_TEXT 40960       /* bytes of a scenario text */
#define THREADKNOLL_MAX_WORDS 2048       /* words of an encoded program */
#define THREADKNOLL_MAX_NAMES 2048       /* bytes of its names: 16 for each of at most 128 symbols */
#define THREADKNOLL_MAX_ROWS 4096        /* rows of a table */
#define THREADKNOLL_MAX_SHAPES 1025      /* shapes of a program: that of the goal, and of 64 clauses with 16 body atoms each */
#define THREADKNOLL_MAX_VARIABLES 16     /* variables of a clause, of the goal and of a shape; bits of a mask */

/* Bytes of a listing, 181,276: the first line, the lines of the shapes, a tab and a name for each of their cells, the rows, the last line. */
#define THREADKNOLL_MAX_LISTING (8 + 11 * THREADKNOLL_MAX_SHAPES + 17 * THREADKNOLL_MAX_WORDS + 33 * THREADKNOLL_MAX_ROWS + 9)

/* The units of the formats. */
#define THREADKNOLL_FIRST_VARIABLE 32768 /* the cell of variable v is 32768 + v; cells below are numbers of functions, or an atom's predicate */
#define THREADKNOLL_ATOM_CELLS 32        /* the most cells of an atom, its predicate's among them */
#define THREADKNOLL_NAME_BYTES 16        /* bytes of each name, padded with zeros */
#define THREADKNOLL_ROW_WORDS 5          /* words of a row */

enum threadknoll_number {
    THREADKNOLL_ACCEPTED = 0,
    THREADKNOLL_TOO_SOON = 1,      /* the input, or a text line's atom, ends too soon */
    THREADKNOLL_OUT_OF_RANGE = 2,  /* a count or arity is out of range, a 65th declaration or clause, a 17th body atom, no `pred` */
    THREADKNOLL_UNDECLARED = 3,    /* the symbol is not declared, or an atom starts with no predicate */
    THREADKNOLL_BAD_VARIABLE = 4,  /* a variable is above 15 or skips a number */
    THREADKNOLL_LONG_ATOM = 5,     /* an atom reaches a 33rd cell */
    THREADKNOLL_BAD_GOAL = 6,      /* the goal's variable count is wrong, or a mode is neither 0 nor 1 */
    THREADKNOLL_FOLLOWS = 7,       /* something follows the goal, or the names */
    THREADKNOLL_TOO_LONG = 8,      /* over 2,048 words, or over 40,960 bytes */
    THREADKNOLL_NO_ROOM = 9,       /* the complete result is larger than the room; the place is the room: rows, words or bytes */
    /* 10 is not used */
    THREADKNOLL_ILL_FORMED = 11,   /* the text's line or token has a wrong form */
    THREADKNOLL_BAD_NAME = 12,     /* a declared name is ill formed, or declared twice in its kind */
    THREADKNOLL_BOTH_MODES = 13    /* a query variable is both `V` and `G` */
};

/*
 * A row's five words, by their index. Bit v of the mask is set where variable v is ground.
 *
 *   kind            a              b                    variable v of the mask is
 *   1 call          the shape      0                    variable v of the shape
 *   2 cont          the clause     the body atom that   variable v of the clause; only those of the place's list have bits:
 *                   from 1         it waits at, from 1  they occur in the head or an atom before b, and in the head, atom b or one behind it
 *   3 solution      the shape      0                    variable v of the shape
 *
 * A shape is an atom with its variables renumbered from 0 by first appearance. Shape 0 is the goal's; the body atoms follow in program
 * order, each distinct shape numbered once. Heads are no shapes.
 */
enum threadknoll_word {
    THREADKNOLL_ROUND = 0, /* the round in which the row first appears, from 0 */
    THREADKNOLL_KIND = 1,
    THREADKNOLL_A = 2,
    THREADKNOLL_B = 3,
    THREADKNOLL_MASK = 4
};
enum threadknoll_kind { THREADKNOLL_CALL = 1, THREADKNOLL_CONT = 2, THREADKNOLL_SOLUTION = 3 };

/*
 * From a scenario text to an encoded program with its names; the count is in words. Names are 16 bytes each, padded with zeros, predicates
 * first: 16 * (words[0] + words[1]) bytes.
 * All faults come before room, and room for words before room for names. What is accepted, and written again with threadknoll_write, is
 * the same text.
 */
uint16_t threadknoll_read(const uint8_t *text, size_t text_length,
                          uint16_t *words, size_t words_length,
                          uint8_t *names, size_t names_length,
                          size_t *place, size_t *count);

/*
 * From an encoded program with its names back to the scenario text; the count is in bytes. names_length is 16 * (words[0] + words[1]).
 * After all faults in the words come those in the names: 1 at their length where they are too short, 7 at the first byte over, 12 at the
 * name's byte index. A room of THREADKNOLL_MAX_TEXT bytes is always enough. What is accepted, and read again with threadknoll_read, is the
 * same program with the same names.
 */
uint16_t threadknoll_write(const uint16_t *words, size_t words_length,
                           const uint8_t *names, size_t names_length,
                           uint8_t *text, size_t text_length,
                           size_t *place, size_t *count);

/*
 * The mode table of an encoded program; the count is in rows, and the room in rows is table_length / 5, at most 4,096.
 * An accepted table is the least set of rows closed under the mode rules, each row once, with the round in which it first appears, in
 * ascending order of the five words. In any run of the program, every atom called is covered by a call row of the shape that it was written
 * in, and every atom solved by a solution row of that shape: a variable that every call row of a shape marks ground is ground at every call
 * of an atom written in that shape.
 */
uint16_t threadknoll_analyse(const uint16_t *words, size_t words_length,
                             uint16_t *table, size_t table_length,
                             size_t *place, size_t *count);

/*
 * The mode table of an encoded program with its names, as threadknoll_analyse leaves it, and its listing, as `modes` prints it; the count is
 * in bytes of the listing. Names are checked as by threadknoll_write. Room for rows comes before room for bytes; where either is too small,
 * both buffers are zeros. A room of THREADKNOLL_MAX_LISTING bytes is always enough. The table's rows end at the first whose kind is 0, or with the room.
 */
uint16_t threadknoll_list(const uint16_t *words, size_t words_length,
                          const uint8_t *names, size_t names_length,
                          uint16_t *table, size_t table_length,
                          uint8_t *listing, size_t listing_length,
                          size_t *place, size_t *count);

/* Four of the limits, as the library has them: they are the constants above. */
size_t threadknoll_max_text(void);
size_t threadknoll_max_words(void);
size_t threadknoll_max_names(void);
size_t threadknoll_max_rows(void);

#ifdef __cplusplus
}
#endif

#endif
