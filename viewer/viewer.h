/* What the viewer's files share: a question each, how a file is read, how a refusal is shown, and what a line of reasons says. */
#ifndef VIEWER_H
#define VIEWER_H

#include "rebatelion.h"

/* Says on standard error what may be asked, a line for each question, and returns the status of wrong arguments. */
int usage(void);

/* Reads at most so many bytes of a file, and says how many; 0 where it cannot be read. */
int read_file(const char *path, uint8_t *bytes, size_t most, size_t *length);

/* Prints "refused INPUT NUMBER PLACE BYTE", without a line's end. */
void print_refusal(uint64_t refusal);

/* Whether the place is the number of a triple, and not that of a byte. */
int is_of_triple(uint64_t refusal);

/* Prints the place of such a refusal in words, "triple 7, byte 0". */
void print_triple(uint64_t refusal);

/* Prints a refusal as a line, a triple's fault in words too, and returns the status of what was refused. */
int show_refusal(uint64_t refusal);

/* The parts of an accepted chart. */

unsigned actions_of(const uint8_t *chart);
unsigned code_of(const uint8_t *chart, unsigned action);

/* The states that a state reaches by an action, rising, and how many they are. */
unsigned reached(const uint8_t *chart, unsigned state, unsigned action, uint8_t states[REBATELION_MAX_STATES]);

/* A line of reasons is five bytes. */
enum { P, Q, SIDE, ACTION, TARGET, LINE };

/* An ordered pair of states. */
struct pair {
    uint8_t p, q;
};

/* The state that moves by a line of side 0 or 1, and the other, which answers. */
unsigned mover(const uint8_t *line);
unsigned answerer(const uint8_t *line);

/* The pairs that a line of side 0 or 1 relies on, and how many they are. */
unsigned relied_on(const uint8_t *chart, const uint8_t *line, struct pair pairs[REBATELION_MAX_STATES]);

/* Prints the move of a line that is one, and what answers it: "0 --10--> 2, and 1 answers with 3 or 4". */
void print_move(const uint8_t *chart, const uint8_t *line);

/* Finds, in a list of rebatelion_reasons, the line of this number and those that it rests on. */
void find_rest(const uint8_t *chart, const uint8_t *list, size_t number);

/* Whether this line was found. */
int is_found(const uint8_t *line);

/* Prints the formula that the lines found spell. */
void print_formula(void);

/* The questions. Each prints its answer and returns the status: 0 all shown, 1 something was refused, 2 no file. */

/* The sheet and the form may be null. */
int show(const char *chart_path, const char *sheet_path, const uint64_t *form);
int compare(const char *old_path, const char *new_path);
/* Of all pairs, or of one: null, or its two numbers. 2 also where one of them is no state. */
int why(const char *chart_path, const uint64_t *pair);
int check(const char *chart_path, const char *list_path);
int both(const char *chart_path, const char *sheet_path);

#endif
