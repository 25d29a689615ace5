/*
 * Torfianka: sets a formula by the rules of TeX's Appendix G.
 *
 * A style, a font table, a client's symbols over it and a formula go in. Out
 * come the formula's width, height and depth, the number of its nodes and, when
 * setting, the nodes. All lengths are whole scaled points, 65,536 to the point.
 * Every input has an answer. The library keeps nothing between calls; the
 * caller lends words for an index of each table, and may keep them.
 *
 * Link with target/staticlib/libtorfianka.a, which bindings/archive writes.
 */
#ifndef TORFIANKA_H
#define TORFIANKA_H

#include <stddef.h>
#include <stdint.h>

#ifdef __cplusplus
extern "C" {
#endif

/*
 * What a call returns; 1 to 9 and 19 are refusals, listed in the order tested,
 * 16 to 18 those of the two calls for DVI, and 10 to 13, 20 and 21 those of the
 * two calls for typed text.
 */
enum torfianka_number {
    TORFIANKA_ACCEPTED = 0,
    TORFIANKA_BAD_STYLE = 1,   /* the style is above 7 */
    TORFIANKA_BAD_TABLE = 2,   /* the font table breaks a rule of its format */
    TORFIANKA_BAD_CLIENT = 8,  /* the client's table breaks a rule, has over 512
                                  records, or makes a chain of successors over
                                  both tables of more than sixteen steps */
    TORFIANKA_SHORT_INDEX = 19, /* fewer than 240 words are lent for either
                                  index */
    TORFIANKA_UNREADABLE = 3,  /* the formula has over 131,072 bytes (place 0),
                                  or an item can't be read (its first byte; the
                                  innermost such item) */
    TORFIANKA_TOO_DEEP = 4,    /* a list at depth 33 (its kind byte) */
    TORFIANKA_NO_SYMBOL = 5,   /* a symbol, or a successor that the rules take,
                                  isn't in either table (the field's kind
                                  byte); of a root's sign, of a fence's
                                  delimiters and of lists that a C4 doesn't
                                  take nothing is missed */
    TORFIANKA_TOO_LARGE = 6,   /* a list's size, or a node's x or y seen from a
                                  list around it, passes 1,073,741,823 */
    TORFIANKA_NO_ROOM = 7,     /* setting only: nodes_len is less than 18 bytes
                                  for each node */
    TORFIANKA_NOT_SHIFTED = 9, /* torfianka_why only: no fraction, and no item
                                  whose scripts are set beside it, that is set
                                  starts at the place asked for */
    TORFIANKA_BAD_NODES = 16,  /* torfianka_dvi_write: not nodes, or a length
                                  past 1,073,741,823 */
    TORFIANKA_OUTSIDE_PROFILE = 17, /* torfianka_dvi_read: no nodes have this
                                  body */
    TORFIANKA_BODY_NO_ROOM = 18, /* the result of either has no room */
    TORFIANKA_BAD_NAMES = 20,  /* both calls for typed text: the name table is
                                  malformed, repeats a name or names a keyword
                                  (the first byte of the first such record, of
                                  two with one name the later) */
    TORFIANKA_UNKNOWN_WORD = 10, /* torfianka_eqn_read: a word that the table
                                  has not (its first byte) */
    TORFIANKA_OUTSIDE_GRAMMAR = 11, /* torfianka_eqn_read: a text outside the
                                  grammar (the first byte of the first token
                                  that can continue no text, or the end) */
    TORFIANKA_LONG_OR_DEEP = 12, /* torfianka_eqn_read: too long or too deep for
                                  a formula */
    TORFIANKA_NOT_TYPED = 21,  /* torfianka_eqn_write: no text with that table
                                  gives the formula */
    TORFIANKA_TYPED_NO_ROOM = 13, /* the result of either has no room */
    TORFIANKA_SHORT_ANSWER = 255 /* answer_len is less than 5, or for DVI and
                                  typed text less than 2; nothing was changed */
};

/* The words of an answer. */
enum torfianka_word {
    TORFIANKA_PLACE = 0,  /* of a refusal: a byte of the formula, counted from
                             0, as said in brackets above; else 0 */
    TORFIANKA_WIDTH = 1,  /* may be negative */
    TORFIANKA_HEIGHT = 2,
    TORFIANKA_DEPTH = 3,
    TORFIANKA_COUNT = 4,  /* of nodes */
    TORFIANKA_ANSWER_WORDS = 5
};

/* The words of an answer of torfianka_why. */
enum torfianka_why_word {
    TORFIANKA_UP_BY = 1,   /* what decided the shift up, a torfianka_reason */
    TORFIANKA_UP = 2,      /* that shift, of a superscript or a numerator */
    TORFIANKA_DOWN_BY = 3, /* what decided the shift down */
    TORFIANKA_DOWN = 4     /* that shift, of a subscript or a denominator */
};

/* What a shift comes from. */
enum torfianka_reason {
    TORFIANKA_NO_SHIFT = 0,  /* there is none, and the shift is 0 */
    TORFIANKA_DROP = 1,      /* the nucleus and its drop, 0 for a plain symbol */
    TORFIANKA_SIGMA = 2,     /* the font's parameter */
    TORFIANKA_X_HEIGHT = 3,  /* the script's edge and the x-height */
    TORFIANKA_GAP = 4,       /* four rules between two scripts */
    TORFIANKA_PSI = 5,       /* both scripts raised to four fifths of the
                                x-height */
    TORFIANKA_CLEARANCE = 6  /* a fraction's clearance */
};

/*
 * A node has 18 bytes; its numbers are little-endian.
 *
 *   bytes   glyph                     rule
 *   0, 1    "GL"                      "RU"
 *   2-5     x, signed                 x of its left edge, signed
 *   6-9     y of its baseline, signed y of its lower edge, signed
 *   10-13   size, family, code, 0     width, not negative
 *   14-17   zeros                     thickness
 *
 * x is counted from the formula's left edge, y upward from its baseline. Size
 * is 0 text, 1 script, 2 scriptscript.
 */
enum { TORFIANKA_NODE_BYTES = 18 };

/*
 * The index of a table has 240 words: for each size, then for each of its
 * sixteen families, four words in which bit c % 64 of word c / 64 tells whether
 * code c is there, and then the number of records before those of this size and
 * family. A record's position is that number and the ones below its bit.
 *
 * A caller need not build one. Whatever the lent words hold, a call that is not
 * refused with 1, 2, 8 or 19 leaves each index right for its table and the words
 * past 240 as they are; those refusals, and 255, change no word. Words kept
 * with their tables from call to call are right already.
 */
enum { TORFIANKA_INDEX_WORDS = 240 };

/*
 * Finds the formula's sizes and the number of its nodes.
 *
 *   style        0 to 7: D, D', T, T', S, S', SS, SS' (' is cramped)
 *   table        the font table's table_len bytes
 *   client       the client_len bytes of a client's table: character records
 *                alone, in rising order. A symbol, and each successor, is looked
 *                up there first and then in the font table; parameters are the
 *                font table's. Length 0 is no client.
 *   formula      the formula's formula_len bytes
 *   index        index_len words for the font table's index, at least 240
 *   client_index client_index_len words for the client's, at least 240 even
 *                where there is no client
 *   answer       answer_len words, of which the first five receive place,
 *                width, height, depth and count; of a refusal its place and
 *                zeros. Words past the fifth are left as they are. With fewer
 *                than five words the call returns 255 and changes nothing.
 *
 * Returns a number of torfianka_number, never TORFIANKA_NO_ROOM.
 *
 * The memory lent by pointers must not overlap. A pointer lent with length 0
 * is not followed, but must be aligned and not null; client alone may be null
 * then.
 */
uint8_t torfianka_measure(uint8_t style,
                          const uint8_t *table, size_t table_len,
                          const uint8_t *client, size_t client_len,
                          const uint8_t *formula, size_t formula_len,
                          uint64_t *index, size_t index_len,
                          uint64_t *client_index, size_t client_index_len,
                          int64_t *answer, size_t answer_len);

/*
 * Measures, and writes the nodes to the front of a buffer. Parameters and
 * result are those of torfianka_measure, and
 *
 *   nodes        nodes_len bytes; 18 x count are enough, and measuring gives
 *                the count.
 *
 * An acceptance writes the 18 x count bytes of its nodes and leaves the bytes
 * after them as they are. A refusal, 255 too, leaves the whole buffer as it is.
 */
uint8_t torfianka_set(uint8_t style,
                      const uint8_t *table, size_t table_len,
                      const uint8_t *client, size_t client_len,
                      const uint8_t *formula, size_t formula_len,
                      uint8_t *nodes, size_t nodes_len,
                      uint64_t *index, size_t index_len,
                      uint64_t *client_index, size_t client_index_len,
                      int64_t *answer, size_t answer_len);

/*
 * Tells which quantity decided each shift of an item: of the candidates the
 * greatest, and of equals the first, or the last correction that changed the
 * shift. Parameters are those of torfianka_measure, and
 *
 *   place        the item's first byte, counted from 0
 *   answer       the first five words receive the place of a refusal, else 0;
 *                what decided the shift up, that shift, what decided the shift
 *                down, and that shift. A shift that is not there is 0 and 0,
 *                and so are all on a refusal.
 *
 * Refuses what torfianka_measure refuses, and then TORFIANKA_NOT_SHIFTED.
 */
uint8_t torfianka_why(uint8_t style,
                      const uint8_t *table, size_t table_len,
                      const uint8_t *client, size_t client_len,
                      const uint8_t *formula, size_t formula_len,
                      size_t place,
                      uint64_t *index, size_t index_len,
                      uint64_t *client_index, size_t client_index_len,
                      int64_t *answer, size_t answer_len);

/*
 * Tables and the words for their indexes, for callers who keep them together.
 * The words may hold anything at first, and the tables may be exchanged for
 * others at any time:
 *
 *   struct torfianka_font font = {table, table_len, client, client_len, {0}, {0}};
 */
struct torfianka_font {
    const uint8_t *table;
    size_t table_len;
    const uint8_t *client; /* null with length 0 where there is none */
    size_t client_len;
    uint64_t index[TORFIANKA_INDEX_WORDS];
    uint64_t client_index[TORFIANKA_INDEX_WORDS];
};

/* torfianka_measure over a font, with all five words of an answer. */
static inline uint8_t torfianka_measure_in(struct torfianka_font *font, uint8_t style,
                                           const uint8_t *formula, size_t formula_len,
                                           int64_t *answer)
{
    return torfianka_measure(style, font->table, font->table_len, font->client,
                             font->client_len, formula, formula_len, font->index,
                             TORFIANKA_INDEX_WORDS, font->client_index,
                             TORFIANKA_INDEX_WORDS, answer, TORFIANKA_ANSWER_WORDS);
}

/* torfianka_set over a font, with all five words of an answer. */
static inline uint8_t torfianka_set_in(struct torfianka_font *font, uint8_t style,
                                       const uint8_t *formula, size_t formula_len,
                                       uint8_t *nodes, size_t nodes_len, int64_t *answer)
{
    return torfianka_set(style, font->table, font->table_len, font->client,
                         font->client_len, formula, formula_len, nodes, nodes_len,
                         font->index, TORFIANKA_INDEX_WORDS, font->client_index,
                         TORFIANKA_INDEX_WORDS, answer, TORFIANKA_ANSWER_WORDS);
}

/* torfianka_why over a font, with all five words of an answer. */
static inline uint8_t torfianka_why_in(struct torfianka_font *font, uint8_t style,
                                       const uint8_t *formula, size_t formula_len,
                                       size_t place, int64_t *answer)
{
    return torfianka_why(style, font->table, font->table_len, font->client,
                         font->client_len, formula, formula_len, place, font->index,
                         TORFIANKA_INDEX_WORDS, font->client_index,
                         TORFIANKA_INDEX_WORDS, answer, TORFIANKA_ANSWER_WORDS);
}

/*
 * Nodes as the body of a page of DVI, and back.
 *
 * For each node the body has: before a glyph one byte fnt_num, 171 + 16 x size
 * + family; push; right4 by x; down4 by -y; set1 with the code, or set_rule
 * with thickness and width; pop. Its numbers are big-endian. A glyph has 15
 * bytes, a rule 21. Preamble, font definitions, bop and eop are the caller's.
 *
 * The answer has two words: the place, which is 0, and how many bytes were
 * written, 0 on a refusal. Words past the second are left as they are. With
 * fewer than two words a call returns 255 and changes nothing.
 *
 * The memory lent by pointers must not overlap. A pointer lent with length 0
 * is not followed, but must be aligned and not null.
 */
enum torfianka_dvi_word {
    TORFIANKA_DVI_PLACE = 0,
    TORFIANKA_DVI_BYTES = 1,
    TORFIANKA_DVI_ANSWER_WORDS = 2
};

/*
 * Writes nodes as a body. Refusals, in the order tested:
 *
 *   16   a node is not of the form above (its mark, the zeros of a glyph, a
 *        size above 2, a family above 15, a negative width or thickness), the
 *        last one is cut off, or x, y, a width or a thickness passes
 *        1,073,741,823
 *   18   the body has no room; 21 bytes for each node are enough
 *
 * Nodes that torfianka_set wrote are never refused by 16. An acceptance leaves
 * the bytes after the body as they are, a refusal all of them.
 */
uint8_t torfianka_dvi_write(const uint8_t *nodes, size_t nodes_len,
                            uint8_t *body, size_t body_len,
                            int64_t *answer, size_t answer_len);

/*
 * Reads the nodes back. Refusals, in the order tested:
 *
 *   17   no nodes have this body
 *   18   the nodes have no room; 18 bytes for 15 of the body are enough
 *
 * What torfianka_dvi_write wrote reads back to the same nodes.
 */
uint8_t torfianka_dvi_read(const uint8_t *body, size_t body_len,
                           uint8_t *nodes, size_t nodes_len,
                           int64_t *answer, size_t answer_len);

/*
 * Typed text as a formula, and back, in the manner of eqn.
 *
 * A text has words, the keywords sub, sup, over, from and to, and braces; bytes
 * 9, 10 and 32 separate. A word is a longest run of bytes 33 to 126 without
 * braces. From the tightest to the loosest:
 *
 *   x sub i sup 2      scripts of one word or one group in braces; either may
 *                      be absent
 *   a over b           a fraction; a over b over c is { a over b } over c
 *   s from a to b      an operator with limits; either may be absent
 *   a b                side by side
 *
 * A group by itself is an Ord atom, a word one of its own class. An operand that
 * is one bare word is a symbol field, any other a list field of its items; of a
 * group they are those inside. A text may be empty, and so may a group.
 *
 * A name table has a record for each word:
 *
 *   1 byte       the length, 1 to 32
 *   so many      the word; no keyword, and none that an earlier record has
 *   3 bytes      family (0 to 15), code, class (0 to 7)
 *
 * The answer has two words: the place of a refusal, a byte of the name table for
 * 20 and of the text for 10 and 11, counted from 0, else 0; and how many bytes
 * were written, 0 on a refusal. Words past the second are left as they are. With
 * fewer than two words a call returns 255 and changes nothing. No memory has more
 * bytes than a word can count, so that each place is told.
 */
enum torfianka_eqn_word {
    TORFIANKA_EQN_PLACE = 0,
    TORFIANKA_EQN_BYTES = 1,
    TORFIANKA_EQN_ANSWER_WORDS = 2
};

/*
 * Reads a text. Refusals, in the order tested:
 *
 *   20   the name table breaks a rule above, or its last record is cut off
 *   10   a word of the text is neither a keyword nor in the table
 *   11   the text is outside the grammar
 *   12   the formula has over 131,072 bytes, or a list at depth 33
 *   13   the formula has no room; 9 bytes for each of the text are enough, and so
 *        are 131,072
 *
 * torfianka_measure and torfianka_set never refuse the formula by 3 or 4. An
 * acceptance leaves the bytes after it as they are, a refusal all of them.
 */
uint8_t torfianka_eqn_read(const uint8_t *names, size_t names_len,
                           const uint8_t *text, size_t text_len,
                           uint8_t *formula, size_t formula_len,
                           int64_t *answer, size_t answer_len);

/*
 * Writes a formula as text: one space between tokens, each list in braces, for a
 * symbol the first word of the table that will do. Refusals, in the order tested:
 *
 *   20   as above
 *   21   no text with that table gives the formula
 *   13   the text has no room; 9 bytes for each of the formula are enough
 *
 * Reading what was written gives the same formula, and what torfianka_eqn_read
 * gave is never refused by 21.
 */
uint8_t torfianka_eqn_write(const uint8_t *names, size_t names_len,
                            const uint8_t *formula, size_t formula_len,
                            uint8_t *text, size_t text_len,
                            int64_t *answer, size_t answer_len);

#ifdef __cplusplus
}
#endif

#endif
