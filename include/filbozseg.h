/*
 * The proved plate reader, for C (C99 or later) and C++, on x86-64 Linux. To build the library and a program over it, at the top of the
 * repository:
 *
 *     tools/make library
 *     gcc -std=c11 -O2 -Iinclude program.c target/staticlib/libfilbozseg.a -o program
 *
 * examples/hello.c is such a program.
 *
 * Every function returns a code:
 *     0          no; none
 *     1          yes; loaded; found; measured; written; handed out; counted
 *     2          more (only from filbozseg_count)
 *     256 + n    refusal n, 1 <= n <= 21: FILBOZSEG_REFUSED gives n, enum filbozseg_refusal has its name,
 *                filbozseg_refusal_text says what it means, and docs/REFERENCE.md when a call is refused with it and what the call leaves
 * and no other code. No function allocates or keeps anything between calls. Of the C library they need only memcpy and memset. Several
 * threads may call them at once if what is lent for writing is lent to one call only.
 *
 * Arrays and slices. An array such as `grammar[FILBOZSEG_ROW]` is a plain pointer to that many elements. A slice is a pointer, followed by
 * its length in elements. A slice may have any length, even 0: a function checks the lengths that it needs, and answers with a refusal. No
 * pointer may be NULL, even if the length is 0 as for an input of no bytes, and each must be aligned as C aligns its type.
 *
 * Overlap. What is lent for writing (every pointer to non-const) must not overlap anything else that is lent to the same call, and nobody
 * else may read or write it until the call returns. What is lent for reading may overlap.
 *
 * What is written. A lent number is written only with an answer that carries it: the offset with a refused book or rule, offset and length
 * with a name found, the tenths with a measured derivation, the bytes with a text written, the nodes with a derivation handed out, the
 * count with a counted input. With any other answer it is left as found. Each call says below what it leaves in a row, a hand, a chart, an
 * output and a buffer. Only filbozseg_learn writes a grammar's row that it is given. Cells from 4225 on are never touched. What a lent
 * place holds before a call has no effect, except for the grammar and the hand of filbozseg_learn, and the hand and the chart of
 * filbozseg_take, filbozseg_set_point and filbozseg_return_to.
 *
 * Years. Each rule has a first and a last year, and is in force from one to the other, both included. A call on an input goes by the year
 * that it is given, and a call on a hand by the year that the hand was opened with: only rules in force in that year build trees, empty
 * ones included. Out of force, a rule keeps its number. Any year from 0 to 65535 may be given.
 *
 * Terms: a grammar is a loaded book, an input a plate, a hand a plate in hand, a mark one of its bytes, a chart a sheet, a derivation a
 * reading, a node a part.
 *
 * Stack. Nothing proves how much stack a call needs. The macro named at each call is a figure in bytes, measured on x86-64 for a full
 * grammar, 64 bytes and a derivation of 512 nodes nested 512 deep. examples/stack.c measures it again and checks each call against its
 * macro.
 */
#ifndef FILBOZSEG_H
#define FILBOZSEG_H

#include <stddef.h>
#include <stdint.h>

#ifdef __cplusplus
extern "C" {
#endif

/* The version of this header and of the library that it describes. */
#define FILBOZSEG_VERSION_MAJOR 0
#define FILBOZSEG_VERSION_MINOR 11
#define FILBOZSEG_VERSION_PATCH 0

/* The version as one number, which grows from version to version: 1000000 * major + 1000 * minor + patch. Like the other functions with a
   body here it is the header's own, compiled into the program; the library has no such symbol. */
static inline uint32_t filbozseg_version(void)
{
    return UINT32_C(1000000) * FILBOZSEG_VERSION_MAJOR + UINT32_C(1000) * FILBOZSEG_VERSION_MINOR + FILBOZSEG_VERSION_PATCH;
}

/* The version as a text, such as "1.2.3". The text is static. */
#define FILBOZSEG_AS_WRITTEN(value) #value
#define FILBOZSEG_AS_TEXT(value) FILBOZSEG_AS_WRITTEN(value)
static inline const char *filbozseg_version_text(void)
{
    return FILBOZSEG_AS_TEXT(FILBOZSEG_VERSION_MAJOR) "." FILBOZSEG_AS_TEXT(FILBOZSEG_VERSION_MINOR) "."
           FILBOZSEG_AS_TEXT(FILBOZSEG_VERSION_PATCH);
}

/* Sizes: the numbers in a grammar's row, the numbers in a hand's row, the points of a hand, the used cells of a chart, the maximum number
   of bytes of an input, the minimum length of an output, which has two numbers for each of at most 512 nodes of a derivation, the maximum
   number of bytes of a derivation's text, for which a buffer of this size is always enough, and the maximum number of bytes of a book that
   loads: 128 rules with years, a name and 8 ranges each, start and end. A longer book may be handed in too, and is refused. */
#define FILBOZSEG_ROW 3715
#define FILBOZSEG_HAND 74
#define FILBOZSEG_POINTS 8
#define FILBOZSEG_CELLS 4225
#define FILBOZSEG_BYTES 64
#define FILBOZSEG_OUTPUT 1024
#define FILBOZSEG_TEXT 5888
#define FILBOZSEG_BOOK 5251

/* How many bytes of stack a call needs, rounded up to pages of 4 KiB. A thread with 256 KiB is enough for all calls but the last three.
   These three have their tables on the stack: their macros are bounds, within the 2 MiB that a Rust thread has by default. How much they
   take depends on book and input, up to 1.8 MB at their deepest. So a thread of 1 MiB passes small tests, and crashes on deep plates: give
   it FILBOZSEG_FIRST_STACK and what the thread itself needs. */
#define FILBOZSEG_LOAD_STACK (48 * 1024)
#define FILBOZSEG_NAME_STACK (48 * 1024)
#define FILBOZSEG_OPEN_STACK (48 * 1024)
#define FILBOZSEG_TAKE_STACK (56 * 1024)
#define FILBOZSEG_SET_POINT_STACK (24 * 1024)
#define FILBOZSEG_RETURN_TO_STACK (24 * 1024)
#define FILBOZSEG_LEARN_STACK (96 * 1024)
#define FILBOZSEG_CHECK_STACK (148 * 1024)
#define FILBOZSEG_LENGTH_STACK (148 * 1024)
#define FILBOZSEG_WORDS_STACK (152 * 1024)
#define FILBOZSEG_SAME_BUILD_STACK (148 * 1024)
#define FILBOZSEG_FIRST_STACK (1900 * 1024)
#define FILBOZSEG_NEXT_STACK (1900 * 1024)
#define FILBOZSEG_COUNT_STACK (1900 * 1024)

/* The refusals and their numbers; filbozseg_refusal_text says what each one means. There may be more in a later version, so a switch over
   them needs a default. */
enum filbozseg_refusal {
    FILBOZSEG_REFUSAL_UNEXPECTED_END = 1,
    FILBOZSEG_REFUSAL_UNKNOWN_COMMAND = 2,
    FILBOZSEG_REFUSAL_OUT_OF_TURN = 3,
    FILBOZSEG_REFUSAL_NONTERMINAL_TOO_LARGE = 4,
    FILBOZSEG_REFUSAL_TOO_MANY_RULES = 5,
    FILBOZSEG_REFUSAL_TOO_MANY_PLACES = 6,
    FILBOZSEG_REFUSAL_FURTHER_BYTE = 7,
    FILBOZSEG_REFUSAL_INVALID_GRAMMAR = 8,
    FILBOZSEG_REFUSAL_INPUT_LENGTH = 9,
    FILBOZSEG_REFUSAL_CHART_TOO_SHORT = 10,
    FILBOZSEG_REFUSAL_OUTPUT_TOO_SHORT = 11,
    FILBOZSEG_REFUSAL_NOT_A_DERIVATION = 12,
    FILBOZSEG_REFUSAL_ONLY_LARGER_TREES = 13,
    FILBOZSEG_REFUSAL_INVALID_RECOGNIZER = 14,
    FILBOZSEG_REFUSAL_RECOGNIZER_FULL = 15,
    FILBOZSEG_REFUSAL_RANGE_REVERSED = 16,
    FILBOZSEG_REFUSAL_INVALID_NAME = 17,
    FILBOZSEG_REFUSAL_TEXT_TOO_LONG = 18,
    FILBOZSEG_REFUSAL_NO_POINT = 19,
    FILBOZSEG_REFUSAL_NOT_ONE_RULE = 20,
    FILBOZSEG_REFUSAL_YEARS_REVERSED = 21
};

/* The number of the refusal that a code stands for, or 0 if it is no refusal. The argument is evaluated once. */
#define FILBOZSEG_REFUSED(code) filbozseg_refused(code)
static inline uint32_t filbozseg_refused(uint32_t code)
{
    return code > 256 ? code - 256 : 0;
}

/* What the refusal with this number means, in a sentence without a capital and without a full stop. The text is static. Any number may be
   given: 0 is no refusal, and one that this header does not know is called unknown. */
static inline const char *filbozseg_refusal_text(uint32_t refusal)
{
    switch (refusal) {
    case 0:
        return "no refusal";
    case FILBOZSEG_REFUSAL_UNEXPECTED_END:
        return "the book ends inside a command, or where a command is due";
    case FILBOZSEG_REFUSAL_UNKNOWN_COMMAND:
        return "a byte of the book is no command";
    case FILBOZSEG_REFUSAL_OUT_OF_TURN:
        return "a command of the book is out of turn";
    case FILBOZSEG_REFUSAL_NONTERMINAL_TOO_LARGE:
        return "a nonterminal of the book is over 31";
    case FILBOZSEG_REFUSAL_TOO_MANY_RULES:
        return "the book has more than 128 rules";
    case FILBOZSEG_REFUSAL_TOO_MANY_PLACES:
        return "a rule of the book has more than 8 places";
    case FILBOZSEG_REFUSAL_FURTHER_BYTE:
        return "a byte follows the end of the book";
    case FILBOZSEG_REFUSAL_INVALID_GRAMMAR:
        return "the grammar has a used number out of its range";
    case FILBOZSEG_REFUSAL_INPUT_LENGTH:
        return "the input has more than 64 bytes";
    case FILBOZSEG_REFUSAL_CHART_TOO_SHORT:
        return "the chart has fewer than 4,225 cells";
    case FILBOZSEG_REFUSAL_OUTPUT_TOO_SHORT:
        return "the output has fewer than 1,024 numbers";
    case FILBOZSEG_REFUSAL_NOT_A_DERIVATION:
        return "what is offered is no reading of the input";
    case FILBOZSEG_REFUSAL_ONLY_LARGER_TREES:
        return "the input has trees, but none of at most 512 nodes";
    case FILBOZSEG_REFUSAL_INVALID_RECOGNIZER:
        return "the recognizer's count is over 64, a byte taken is over 255, or a set point is past its count";
    case FILBOZSEG_REFUSAL_RECOGNIZER_FULL:
        return "the recognizer has taken 64 bytes and takes no more";
    case FILBOZSEG_REFUSAL_RANGE_REVERSED:
        return "a range of the book has its low end over its high end";
    case FILBOZSEG_REFUSAL_INVALID_NAME:
        return "a name of the book is empty, has a wrong byte, or is that of an earlier rule";
    case FILBOZSEG_REFUSAL_TEXT_TOO_LONG:
        return "the text of the reading is longer than the buffer";
    case FILBOZSEG_REFUSAL_NO_POINT:
        return "the name of the point is over 7, or the point to return to is not set";
    case FILBOZSEG_REFUSAL_NOT_ONE_RULE:
        return "the bytes to learn are not exactly one rule";
    case FILBOZSEG_REFUSAL_YEARS_REVERSED:
        return "a rule of the book has its first year over its last";
    default:
        return "a refusal that this version does not know";
    }
}

/*
 * The row of a grammar has numbers of 16 bits: the start symbol, the number of rules, the nullable depth, and then 29 numbers for each of
 * 128 rules. These are the left side, the length in hundredths of a millimetre (two's complement), the number of places, for each of 8
 * places a tag and a value, the first year, the last year, and the eight bytes of the name. Tag 0 is a nonterminal and 1 a terminal. Tag 2
 * is a range, whose value is low + 256 * high: any byte from low to high fits such a place, both ends included, and no other. A name is one
 * to eight capitals A to Z and digits 0 to 9, filled up with blanks (0x20); eight zeros are no name.
 *
 * The nullable depth of a loaded grammar is 0 to 32: the greatest, over all nonterminals that have an empty tree, of the height of the
 * lowest one, and 0 if none has any. A rule without places makes a tree of height 1. All rules count, whatever their years.
 *
 * A row may hold anything, and all 16 bits of each number are checked. Refusal 8: a start over 31; more than 128 rules; in a used rule a
 * left side over 31, more than 8 places, a first year over the last, or eight bytes that are neither a name nor zeros; in a used place a
 * tag over 2, a nonterminal over 31, a terminal over 255, or a range with low over high; two used rules with one name. A rule is used if
 * its number is below the number of rules. A place is used if its number is below its rule's number of places. The depth, the lengths, and
 * all numbers of unused rules and unused places may have any value.
 *
 * The row of a hand has numbers of 16 bits: 64 marks, then the count, hand[FILBOZSEG_BYTES], then the year that it was opened with,
 * hand[FILBOZSEG_BYTES + 1], and then 8 points, hand[FILBOZSEG_BYTES + 2 + name] with a name from 0 to 7. A point is 0 if it is not set,
 * else 1 plus the count at which it was set. The row may hold anything too, and all 16 bits of each number are checked. Refusal 14: a count
 * over 64, a used mark over 255, or a point over 1 plus the count, which is a set point past the count. A mark is used if its number is
 * below the count; other marks and the year may have any value.
 */

/*
 * Loads a book of any length; one that loads has at most FILBOZSEG_BOOK bytes. Returns 1, writes the row of its grammar, and leaves the
 * offset as found. Or returns 256 + n, n from 1 to 7 or 16, 17 or 21, writes the row of the grammar without rules, which is all zeros, and
 * writes to offset where the fault is. Either way it writes all numbers of the row.
 *
 * A book is a row of commands. Their first bytes, in hexadecimal, and their operands:
 *     10 start                 the start symbol; the first command, and only there
 *     20 left low high         opens a rule: its left side, and its length in 16 bits with the low byte first; its years are 0 to 65535
 *     21 left low high f f l l opens a rule likewise, with its first and its last year, each in 16 bits with the low byte first
 *     30 nonterminal           adds a place to that rule
 *     40 byte                  adds a place that this byte fits
 *     41 low high              adds a place that any byte from low to high fits; 40 a and 41 a a are two symbols
 *     60 name                  names the open rule, before, between or after its places: eight bytes as in a row, but not eight zeros
 *     50                       the end; the last byte
 * A second name for a rule is refused 3, and a name that an earlier rule has is refused 17. At one command the order of the refusals is 2,
 * 3, 1, then 4, 16 or 17, then 21, then 5 or 6, then 7.
 * Stack: FILBOZSEG_LOAD_STACK.
 */
uint32_t filbozseg_load(const uint8_t *book, size_t book_length, uint16_t grammar[FILBOZSEG_ROW], size_t *offset);

/*
 * Finds the name of a rule, any number, in the bytes of its book. Returns 1 and writes where it is: from book + offset on, length bytes, 1
 * to 8, which follow the 60 of the rule, without the blanks that fill them up. Or returns 0 and leaves both as found, if the bytes do not
 * load, the book has no such rule, or the rule has no name. No refusal.
 * Stack: FILBOZSEG_NAME_STACK.
 */
uint32_t filbozseg_name(const uint8_t *book, size_t book_length, size_t rule, size_t *offset, size_t *length);

/*
 * Opens the recognizer in a year: writes the hand without marks and points, which is zeros but for the year, clears the first 4225 cells of
 * the chart and writes its first column. Returns whether the empty input is complete. Refusals, in this order: 8 the grammar; 10 a chart of
 * fewer than 4225 cells. If refused, it still writes a hand without marks and points, with year 0, and leaves the chart as found.
 * Stack: FILBOZSEG_OPEN_STACK.
 */
uint32_t filbozseg_open(const uint16_t grammar[FILBOZSEG_ROW], uint16_t year, uint16_t hand[FILBOZSEG_HAND],
                        uint32_t *chart, size_t chart_length);

/*
 * Takes a byte into the hand: writes the new mark, zeros after it, and a count of one more, keeps year and points, and writes the mark's
 * column of the chart. Returns whether the input so far is complete in the hand's year. Refusals, in this order: 8 the grammar; 14 the
 * hand; 10 a chart of fewer than 4225 cells; 15 a hand of 64 marks. If refused, it leaves the hand, whatever it holds, and the chart as
 * found.
 * Stack: FILBOZSEG_TAKE_STACK.
 */
uint32_t filbozseg_take(const uint16_t grammar[FILBOZSEG_ROW], uint16_t hand[FILBOZSEG_HAND], uint8_t byte,
                        uint32_t *chart, size_t chart_length);

/*
 * Sets the point of this name, 0 to 7, at the hand's count, wherever it was: writes the point and zeros into the unused marks, and keeps
 * marks, count, year and the other points. It writes no cell. Returns whether the input so far is complete in the hand's year, as the chart
 * has it. Refusals, in this order: 8 the grammar; 14 the hand; 10 a chart of fewer than 4225 cells; 19 a name over 7. If refused, it leaves
 * the hand, whatever it holds, as found.
 * Stack: FILBOZSEG_SET_POINT_STACK.
 */
uint32_t filbozseg_set_point(const uint16_t grammar[FILBOZSEG_ROW], uint16_t hand[FILBOZSEG_HAND], size_t name,
                             const uint32_t *chart, size_t chart_length);

/*
 * Returns to the point of this name: writes the point's count and zeros into the marks from there on, and keeps the marks before and the
 * year. Points beyond the count become 0; the others stay as they are, this one too. It writes 0 into the columns of the chart after the
 * count, up to the last: into the cells 65 * i + j with i <= j and count < j <= 64, and into no other. Returns whether the input that
 * remains is complete in the hand's year, as the chart has it. Marks, count and chart are then what opening and taking only the marks that
 * remain would have left, if the hand was opened with this grammar on this chart and nothing but calls on the hand wrote to either.
 * Refusals, in this order: 8 the grammar; 14 the hand; 10 a chart of fewer than 4225 cells; 19 a name over 7, or a point that is not set.
 * If refused, it leaves the hand, whatever it holds, and the chart as found.
 * Stack: FILBOZSEG_RETURN_TO_STACK.
 */
uint32_t filbozseg_return_to(const uint16_t grammar[FILBOZSEG_ROW], uint16_t hand[FILBOZSEG_HAND], size_t name,
                             uint32_t *chart, size_t chart_length);

/*
 * Learns a rule with a hand under way. The bytes are the commands of one rule as in a book, and nothing else: 20 or 21 first, then places
 * and a name; the rule ends where the bytes end, without 50. Writes the row of the grammar with this rule under the next number: the old
 * rules keep theirs, the nullable depth is that of the longer grammar, and all unused numbers become zeros. The hand keeps marks, count,
 * points and year, and gets zeros in its unused marks. The chart's first 4225 cells are what opening with the longer grammar in the hand's
 * year and taking the marks leaves, whatever the chart held. Returns whether the input so far is then complete in the hand's year. A rule
 * that is out of force in that year is learnt too. Each derivation of an input under the old grammar is one under the longer grammar, and
 * the old ones keep their order.
 *
 * Refusals, in this order: 8 the grammar; 14 the hand; 10 a chart of fewer than 4225 cells; 20 no bytes. Then, at each command from the
 * left: 2 an unknown byte; 20 a first command that opens no rule, or a later one that opens a rule, is 10 or is 50, also if it is cut
 * short; 3 a second name for the rule; 1 the bytes end inside the command; then as for filbozseg_load 4, 16, 17, 21, 5 and 6. A grammar of
 * 128 rules gets 5, and 17 goes by the names of all its used rules. If refused, it writes none of grammar, hand and chart, whatever they
 * hold.
 *
 * The offset is written if the rule is refused. It is where the faulty command begins in these bytes; with 1 it is their length; with 8,
 * 14, 10 and with no bytes it is 0. filbozseg_name does not find the name of a learnt rule, since it goes by the bytes of a book.
 * Stack: FILBOZSEG_LEARN_STACK.
 */
uint32_t filbozseg_learn(uint16_t grammar[FILBOZSEG_ROW], uint16_t hand[FILBOZSEG_HAND], const uint8_t *bytes, size_t bytes_length,
                         uint32_t *chart, size_t chart_length, size_t *offset);

/*
 * Returns whether the offered row is a derivation of the input in the year: for each node, in preorder, how many bytes it covers and the
 * number of its rule. An input of no bytes is read like any other. Refusals, in this order: 8 the grammar; 9 an input of more than 64
 * bytes; 10 a chart of fewer than 4225 cells. If refused, it leaves the chart as found; otherwise the chart is filled for the input and
 * the year.
 * Stack: FILBOZSEG_CHECK_STACK.
 */
uint32_t filbozseg_check(const uint16_t grammar[FILBOZSEG_ROW], const uint8_t *input, size_t input_length, uint16_t year,
                         const uint16_t *offered, size_t offered_length, uint32_t *chart, size_t chart_length);

/*
 * Returns 1 and writes the length of the offered derivation to tenths, in tenths of a millimetre; an exact half goes to the even tenth.
 * Refusals, in this order: 8, 9, 10 as for filbozseg_check; 12 the offered row is no derivation of the input. If refused, it leaves the
 * tenths as found, and the chart as found (8, 9, 10) or filled for the input (12).
 * Stack: FILBOZSEG_LENGTH_STACK.
 */
uint32_t filbozseg_length(const uint16_t grammar[FILBOZSEG_ROW], const uint8_t *input, size_t input_length, uint16_t year,
                          const uint16_t *offered, size_t offered_length, uint32_t *chart, size_t chart_length, int32_t *tenths);

/*
 * Writes the text of the offered derivation to the front of the buffer, leaves the rest of the buffer as found, writes its length in bytes
 * to bytes, and returns 1. The text ends in no zero byte. For a node it is the name of its rule, `(`, the texts of its places with commas
 * between them, and `)`. A rule without a name is `#` and its number in three digits, and a byte of the input is `=` and two hexadecimal
 * digits in capitals: BODY(#001(),PORT(=41)). For one grammar two texts are equal exactly if inputs and derivations are equal. The buffer
 * may have any length; FILBOZSEG_TEXT bytes are always enough. Refusals, in this order: 8, 9, 10, 12 as for filbozseg_length; 18 the text
 * is longer than the buffer. If refused, it leaves buffer and bytes as found, and the chart as found (8, 9, 10) or filled for the input
 * (12, 18).
 * Stack: FILBOZSEG_WORDS_STACK.
 */
uint32_t filbozseg_words(const uint16_t grammar[FILBOZSEG_ROW], const uint8_t *input, size_t input_length, uint16_t year,
                         const uint16_t *offered, size_t offered_length, uint32_t *chart, size_t chart_length,
                         uint8_t *buffer, size_t buffer_length, size_t *bytes);

/*
 * Returns whether two offered derivations of the input are the same build: whether their nodes that cover something have the same rules
 * in preorder. Refusals and chart as for filbozseg_length; 12 if either row is no derivation.
 * Stack: FILBOZSEG_SAME_BUILD_STACK.
 */
uint32_t filbozseg_same_build(const uint16_t grammar[FILBOZSEG_ROW], const uint8_t *input, size_t input_length, uint16_t year,
                              const uint16_t *a, size_t a_length, const uint16_t *b, size_t b_length,
                              uint32_t *chart, size_t chart_length);

/*
 * Hands out the first derivation of the input in the year, as filbozseg_check takes it. Derivations are ordered by the first number in
 * which they differ. Returns 1, writes the derivation to the first 2 * nodes numbers of the output, leaves the others as found, and writes
 * its number of nodes, 1 to 512, to nodes. Or returns 0 if the input has no tree at all. Refusals, in this order: 8, 9, 10 as for
 * filbozseg_check; 11 an output of fewer than 1024 numbers; 13 the input has trees, but none of at most 512 nodes. If it returns 0 or is
 * refused, it leaves output and nodes as found. If refused with 8 to 11, it leaves the chart as found too; otherwise the chart is filled
 * for the input.
 * Stack: FILBOZSEG_FIRST_STACK.
 */
uint32_t filbozseg_first(const uint16_t grammar[FILBOZSEG_ROW], const uint8_t *input, size_t input_length, uint16_t year,
                         uint32_t *chart, size_t chart_length, uint16_t *output, size_t output_length, size_t *nodes);

/*
 * Hands out the derivation of the input in the year that follows the offered one in the order of filbozseg_first. Returns 1 and writes
 * output and nodes as filbozseg_first does; or returns 0 if the offered derivation is the last. Refusals, in this order: 8, 9, 10, 11 as
 * for filbozseg_first; 12 the offered row, which may have any length, is no derivation of the input. If it returns 0 or is refused, it
 * leaves output and nodes as found. If refused with 8 to 11, it leaves the chart as found too; otherwise the chart is filled for the input.
 *
 * Cost: nothing is kept between calls, so each call makes the tables of book and input anew, which takes 0.03 to 75 ms. To list thousands
 * of derivations this way takes 45 to 150 times as long as with the listing program, which makes the tables once (docs/REFERENCE.md).
 *
 * The offered row must not overlap the output, so a derivation must be copied before it is offered. This finds all derivations, in order:
 *
 *     uint16_t output[FILBOZSEG_OUTPUT], offered[FILBOZSEG_OUTPUT];
 *     size_t nodes = 0;
 *     uint32_t code = filbozseg_first(grammar, input, length, year, chart, FILBOZSEG_CELLS, output, FILBOZSEG_OUTPUT, &nodes);
 *     while (code == 1) {
 *         memcpy(offered, output, 2 * nodes * sizeof offered[0]);
 *         code = filbozseg_next(grammar, input, length, year, offered, 2 * nodes, chart, FILBOZSEG_CELLS,
 *                               output, FILBOZSEG_OUTPUT, &nodes);
 *     }
 *
 * Stack: FILBOZSEG_NEXT_STACK.
 */
uint32_t filbozseg_next(const uint16_t grammar[FILBOZSEG_ROW], const uint8_t *input, size_t input_length, uint16_t year,
                        const uint16_t *offered, size_t offered_length, uint32_t *chart, size_t chart_length,
                        uint16_t *output, size_t output_length, size_t *nodes);

/*
 * Counts the derivations of the input in the year. Returns 1 and writes their number, 0 to 4096, to count (0 if the input has no tree at
 * all); or returns 2 if there are more than 4096. Refusals, in this order: 8, 9, 10 as for filbozseg_check; 13 the input has trees, but
 * none of at most 512 nodes. If it returns 2 or is refused, it leaves the count as found. If refused with 8 to 10, it leaves the chart as
 * found too; otherwise the chart is filled for the input.
 * Stack: FILBOZSEG_COUNT_STACK.
 */
uint32_t filbozseg_count(const uint16_t grammar[FILBOZSEG_ROW], const uint8_t *input, size_t input_length, uint16_t year,
                         uint32_t *chart, size_t chart_length, size_t *count);

#ifdef __cplusplus
}
#endif

#endif
