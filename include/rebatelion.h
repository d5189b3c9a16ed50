/* Rebatelion for C: questions about mode charts, answered by proved code.
 *
 * Link crates/viewer/out/libviewer.a, which `rt lib` makes in the folder crates/viewer, for x86-64 Linux. It needs nothing but C's
 * own library.
 *
 * THE CALLS
 *
 * Each call takes the bytes of a chart file, or of two, answers one question and returns. A call keeps no state, allocates
 * nothing and always returns, whatever the bytes are; it may be called from several threads at once.
 *
 * WHAT IS LENT
 *
 * - Inputs (chart, sheet, second chart, list) are a pointer and a length. They are read during the call only and never written.
 * - A buffer is a pointer and a length. An answer fills its start; the bytes after that stay as they were.
 * - A number is a pointer to one aligned uint64_t, never null. An answer is written there.
 * - Three numbers are a pointer to an array of three, aligned as one is, never null. An answer is written to all three.
 * - 64 numbers are a pointer to an array of 64, aligned as one is, never null. An answer is written to all 64, however few states
 *   the chart has.
 * - Everything lent must stay in place until the call returns, and may be freed or reused from then on: no pointer is kept.
 * - What is written, a buffer, a number or an array of numbers, must not overlap any other part that is lent to the same call,
 *   another array included. Two inputs may overlap, or be the same bytes, since both are only read.
 * - No other thread may write to any part during the call, nor read a buffer, a number or an array of numbers.
 * - Where a length is 0 the pointer is not used and may be null.
 *
 * WHAT IS RETURNED
 *
 * 0 where the call answered. Else the call refused, and the value holds why:
 *
 *     number | input << 8 | place << 16 | byte << 48
 *
 * A refused call has written nothing: every buffer and every number is as it was. The macros below take the value apart.
 *
 * Input: 0 the chart, of two the first; 1 the sheet or the list; 2 the buffer or the name, or two charts together; 3 the second
 * chart.
 * Place: the byte at fault, counted from 0, unless said otherwise. In 6 and 7, and in no other refusal, it is the number of the
 * triple at fault, counted from 0; their input is 0 or 3. In 21 it is the number of the line at fault, counted from 0.
 * Byte: in 6 the byte within that triple: 0 its source, 1 its action, 2 its target. In every other refusal 0.
 *
 * In the file, the byte of a 6, and the first byte of a 7's triple, is number 4 + n + m + 3 * place + byte, counted from 0, where
 * n is the number of states and m that of actions.
 *
 *      1  a needed byte is absent; place: that input's length
 *      2  the chart has no state, or more than 64
 *      3  more than 32 actions
 *      4  an action code not greater than the one before
 *      5  more than 1,024 transitions; place: the first byte of their count
 *      6  a state or an action of a triple out of range; place: the triple's number; byte: that within it
 *      7  a triple not greater than the one before; place: the triple's number
 *      8  bytes left over; place: the first
 *      9  the sheet's equation count is not 1, or its kind is above 2
 *     10  no node, or more than 200, also of a short form's result; place: 2
 *     11  a node above 6
 *     12  a node's action byte neither below the action count nor 255
 *     13  the formula is complete while nodes remain, or the nodes are used up and operands missing; place: where the next
 *         node would stand
 *     14  the buffer is too short; place: 0
 *     15  4,096 rounds done and a further one still changes the answer; place: 0
 *     16  a short form's F has a variable; place: the first, in the sheet
 *     17  a short form's name is above 3; place: 0
 *     18  two charts have more than 64 states together; place: 0
 *     19  two charts have more than 32 distinct action codes; place: 0
 *     20  two charts have more than 1,024 transitions together; place: 0
 *     21  a line of a list of reasons is bad or incomplete; place: the number of the first such line
 */
#ifndef REBATELION_H
#define REBATELION_H

#include <stddef.h>
#include <stdint.h>

#ifdef __cplusplus
extern "C" {
#endif

/* The parts of a refusal. */
#define REBATELION_NUMBER(refusal) ((unsigned)((refusal) & 0xff))
#define REBATELION_INPUT(refusal) ((unsigned)((refusal) >> 8 & 0xff))
#define REBATELION_PLACE(refusal) ((unsigned long)((refusal) >> 16 & 0xffffffff))
#define REBATELION_BYTE(refusal) ((unsigned)((refusal) >> 48 & 0xff))

/* The longest inputs that are accepted, and buffers that are long enough for every answer. */
#define REBATELION_MAX_STATES 64
#define REBATELION_MAX_CHART 3172
#define REBATELION_MAX_SHEET 402
#define REBATELION_MATRIX (REBATELION_MAX_STATES * REBATELION_MAX_STATES)
#define REBATELION_MAX_COMPARISON 67
#define REBATELION_MAX_REASONS 20160

/* The marks of all pairs of states (strong bisimulation).
 *
 * Answers n, the number of states, in *states; the rounds in *rounds; and n * n bytes at the start of the buffer. The byte at
 * p * n + q is 0 where p and q are bisimilar, and else the smallest depth of a formula that holds at one of them and not at
 * the other, from 1 to n - 1. The mode code of state s stands in chart[1 + s].
 *
 * Refuses what is wrong with the chart; then 14 where the buffer has fewer than n * n bytes. */
uint64_t rebatelion_marks(const uint8_t *chart, size_t chart_len, uint8_t *buffer, size_t buffer_len, uint64_t *states,
                          uint64_t *rounds);

/* Which states are equal (strongly bisimilar), one word a row: all that the zeros of rebatelion_marks say, without a buffer.
 *
 * Answers n, the number of states, in *states, and all 64 words of rows. Bit q of rows[p] is set exactly where states p and q are
 * equal, that is, where their mark is 0. Rows from n on are 0, and so are the bits from n on of every row.
 * So rows[p] is the class of state p: it holds p itself, the states of a class have the same row, and p is the lowest state of its
 * class where no bit below p is set in rows[p].
 *
 * Refuses what is wrong with the chart. */
uint64_t rebatelion_equal_rows(const uint8_t *chart, size_t chart_len, uint64_t rows[64], uint64_t *states);

/* How many pairs (p, q) of states are equal, in both orders and p with itself included.
 *
 * Answers in *pairs the number of bits that rebatelion_equal_rows sets, which is that of the zeros of rebatelion_marks: at least n,
 * and n exactly where no two different states are equal; n * n where all are.
 *
 * Refuses what is wrong with the chart. */
uint64_t rebatelion_equal_pairs(const uint8_t *chart, size_t chart_len, uint64_t *pairs);

/* The largest simulation.
 *
 * As rebatelion_marks, but the byte at p * n + q is 1 where q simulates p, that is, can match every step of p, and else 0.
 * The rounds are at most n * n - n. */
uint64_t rebatelion_simulation(const uint8_t *chart, size_t chart_len, uint8_t *buffer, size_t buffer_len, uint64_t *states,
                               uint64_t *rounds);

/* The states that satisfy a property sheet, by the solution that its kind asks for: 1 the least, 2 the greatest, and 0, unsaid,
 * the least. The kind is byte 1 of the sheet, counted from 0. (Unsaid was the greatest. A sheet of kind 0 that was stored then is
 * read as least now: rebatelion_both_solutions tells what that changes, and its owner writes the kind that is meant.)
 *
 * Answers *word, whose bit s is set where state s satisfies; *count, how many do; and *rounds, the steps until the solution was
 * reached, at most n.
 *
 * Refuses what is wrong with the chart; then what is wrong with the sheet. */
uint64_t rebatelion_property(const uint8_t *chart, size_t chart_len, const uint8_t *sheet, size_t sheet_len, uint64_t *word,
                             uint64_t *count, uint64_t *rounds);

/* Both solutions of a property sheet, the least and the greatest, whatever its kind says, so that its owner can choose.
 *
 * Answers in least[0] the word of the least solution, in least[1] how many states it has and in least[2] its rounds, as
 * rebatelion_property does where the kind is 1; and in greatest those of the greatest, as where it is 2. Every state of the least
 * is one of the greatest.
 * The word of a stored sheet of kind 0 was greatest[0] and is least[0]. Where the two are equal, the states that satisfy it on this
 * chart stay what they were, and only the rounds may be others. Where they are not, kind 2 keeps what the sheet said, and kind 1
 * says what it is read as now.
 *
 * Refuses what is wrong with the chart; then what is wrong with the sheet, a kind above 2 too. */
uint64_t rebatelion_both_solutions(const uint8_t *chart, size_t chart_len, const uint8_t *sheet, size_t sheet_len,
                                   uint64_t least[3], uint64_t greatest[3]);

/* A property sheet made from a sheet for F, a formula without variable, by one of four short forms.
 *
 * Name: 0 always F, 1 possibly F, 2 a safe path (some way to go on as long as the chart does, with F all along), 3 eventually F.
 * Eventually F is "or F, and (diamond 255 true), box 255 X": every way to go on comes to F. One that comes to rest before F does
 * not, and a state at rest satisfies it only where F holds. (It was "or F, box 255 X", by which every state at rest satisfied it; a
 * sheet that was made so is still read as it stands.)
 * The kind written is 2, the greatest, with names 0 and 2, and 1, the least, with names 1 and 3. (Names 0 and 2 wrote kind 0 while
 * unsaid was the greatest. A stored sheet that was made so says the same again with its byte 1 set to 2, or made anew.)
 * F may have at most 197 nodes with names 0 and 1, and 194 with names 2 and 3.
 * F's own kind is ignored. The sheet fills the start of the buffer, and *written is its length; a buffer of
 * REBATELION_MAX_SHEET bytes is always long enough. Hand it to rebatelion_property with a chart that has the same actions.
 *
 * Refuses what is wrong with the chart; then what is wrong with the sheet; then 16, 17, 10 where the result would have more
 * than 200 nodes, and 14 where the buffer is shorter than the result. */
uint64_t rebatelion_short_form(const uint8_t *chart, size_t chart_len, const uint8_t *sheet, size_t sheet_len, uint64_t name,
                               uint8_t *buffer, size_t buffer_len, uint64_t *written);

/* An old unit beside a new one: which states of either chart have no bisimilar state in the other.
 *
 * The two charts are put side by side, the second's states numbered after the first's, and their actions are matched by code,
 * whatever their places in the two files; marks are those of rebatelion_marks on that one chart. Mode codes are not compared.
 * The list fills the start of the buffer, one byte each: the mark of the two start states, which are state 0 of either chart;
 * a count and the states of the first that have no bisimilar state in the second, rising; a count and the states of the second
 * that have none in the first, rising, in the second chart's own numbers. *written is its length: 3, and 1 for each state
 * listed; a buffer of REBATELION_MAX_COMPARISON bytes is always long enough.
 * Where the charts have n1 and n2 states, the mark is 0 if the start states are bisimilar, and else the smallest depth of a
 * formula that holds at one of them and not at the other, from 1 to n1 + n2 - 1. *rounds are those of the two charts side by
 * side, at most n1 + n2 - 1. A chart beside itself, where it is not refused, gives 0 0 0.
 *
 * Refuses what is wrong with the first chart; then what is wrong with the second, by the same numbers and with input 3; then,
 * with input 2, 18 where the two have more than 64 states together, 19 where their action sections have more than 32 distinct
 * codes (one that both have counts once, and one that no step bears counts too), 20 where they have more than 1,024 transitions
 * together, and 14 where the buffer is shorter than the list. */
uint64_t rebatelion_compare(const uint8_t *first, size_t first_len, const uint8_t *second, size_t second_len, uint8_t *buffer,
                            size_t buffer_len, uint64_t *written, uint64_t *rounds);

/* Why states are unequal: a list of moves, from which a formula can be read that tells each pair apart.
 *
 * A line has five bytes: p, q, side, action, target. It says that state p is not state q. The action is its number in the chart,
 * from 0; its code stands in chart[2 + n + action]. Side 0: p steps by the action to target, and the line relies on the pairs
 * (target, u), for each state u that q reaches by that action. Side 1: q steps by the action to target, and the line relies on
 * the pairs (u, target), for each state u that p reaches by it. Where nothing answers, the line relies on no pair. It spells a
 * formula that is true at p and false at q: side 0 a diamond by the action over the "and" of what the pairs spell that it relies
 * on, and true where there are none; side 1 a box by the action over their "or", and false where there are none.
 *
 * The list has one line for each ordered pair of states that are not bisimilar, so that p, q and q, p are two lines; they rise by
 * mark, then by p, then by q. Each relies only on pairs whose marks are smaller than its own, all of which are listed earlier; of
 * the moves that do, it has the first by side, then by action, then by target. The depth of the formula is the mark.
 * The list fills the start of the buffer, and *written is its length, 5 bytes for each line, 0 where all states are bisimilar; a
 * buffer of REBATELION_MAX_REASONS bytes is always long enough.
 *
 * Refuses what is wrong with the chart; then 14 where the buffer is shorter than the list. */
uint64_t rebatelion_reasons(const uint8_t *chart, size_t chart_len, uint8_t *buffer, size_t buffer_len, uint64_t *written);

/* Whether a list of such lines, chosen and ordered in any way, tells every pair apart that it has.
 *
 * The list is any bytes. A line is good if p and q are states; its side is 0 or 1; its move is a step of the chart, from p on side
 * 0 and from q on side 1; every pair that it relies on is that of an earlier line; and its own pair is not. The list is accepted
 * if every line is good, and every pair that it has is then told apart by the formula that its lines spell. It need not have
 * every unequal pair, and an empty list is accepted. What rebatelion_reasons writes is accepted.
 * Answers the number of lines in *lines.
 *
 * Refuses what is wrong with the chart; then 21, with input 1, where a line is bad or, at the end, has 1 to 4 bytes only. */
uint64_t rebatelion_check_reasons(const uint8_t *chart, size_t chart_len, const uint8_t *list, size_t list_len,
                                  uint64_t *lines);

#ifdef __cplusplus
}
#endif

#endif
