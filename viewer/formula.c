/* The formula that a pair's lines spell, as text. A line of side 0 spells a diamond by its action over the "and" of what the
 * pairs spell that it relies on, and one of side 1 a box over their "or": <10>(f and g), [10](f or g); where nothing answers,
 * <10>true and [10]false. The formula of p and q is true at p and false at q.
 *
 * Several lines may rely on one pair, and a formula in which that pair is spelled each time can be too long to print. So what
 * is used more than once has a name, p|q, and is spelled on a line of its own. Each line of the list is spelled just once then,
 * and the text grows no faster than the lines and the pairs that they rely on. */
#include "viewer.h"

#include <stdarg.h>
#include <stdio.h>
#include <string.h>

enum {
    WIDTH = 100,  /* a formula that would go beyond this column is broken */
    STEP = 2,     /* what is within it stands so much further to the right, */
    DEEPEST = 40, /* up to here */
    UNBROKEN = 0
};

static const uint8_t *chart, *list, *last;
/* of each pair its line, and how many of the lines found rely on it; the pair asked for is used once */
static const uint8_t *line_of[REBATELION_MAX_STATES][REBATELION_MAX_STATES];
static unsigned uses[REBATELION_MAX_STATES][REBATELION_MAX_STATES];
/* where the text has come to, and whether it is only measured */
static unsigned column;
static int silent;

void find_rest(const uint8_t *of_chart, const uint8_t *of_list, size_t number) {
    struct pair pairs[REBATELION_MAX_STATES];
    chart = of_chart;
    list = of_list;
    last = list + LINE * number;
    memset(uses, 0, sizeof uses);
    uses[last[P]][last[Q]] = 1;
    /* a line relies on earlier ones only: backwards, each is met after all that rely on it */
    for (size_t i = number + 1; i-- > 0;) {
        const uint8_t *line = list + LINE * i;
        line_of[line[P]][line[Q]] = line;
        if (!is_found(line)) continue;
        unsigned count = relied_on(chart, line, pairs);
        for (unsigned j = 0; j < count; j++) uses[pairs[j].p][pairs[j].q]++;
    }
}

int is_found(const uint8_t *line) { return uses[line[P]][line[Q]] > 0; }

static int is_named(const uint8_t *line) { return uses[line[P]][line[Q]] > 1; }

static void put(const char *format, ...) {
    va_list parts;
    va_start(parts, format);
    column += (unsigned)(silent ? vsnprintf(NULL, 0, format, parts) : vprintf(format, parts));
    va_end(parts);
}

static void start_line(unsigned indent) {
    put("\n%*s", (int)indent, "");
    column = indent;
}

static void spell(const uint8_t *line, unsigned indent);

/* How wide a line's formula is on one line. */
static unsigned width(const uint8_t *line) {
    unsigned before = column;
    silent = 1;
    spell(line, UNBROKEN);
    silent = 0;
    unsigned after = column;
    column = before;
    return after - before;
}

/* A pair as a part of a formula: its name, or what its line spells. */
static void spell_pair(struct pair pair, unsigned indent) {
    const uint8_t *line = line_of[pair.p][pair.q];
    if (is_named(line))
        put("%u|%u", pair.p, pair.q);
    else
        spell(line, indent);
}

/* What is too wide stands below its operator: each part of an "and" or an "or", and one that begins beyond the width. */
static void spell(const uint8_t *line, unsigned indent) {
    struct pair pairs[REBATELION_MAX_STATES];
    unsigned count = relied_on(chart, line, pairs);
    int diamond = line[SIDE] == 0, broken = indent != UNBROKEN && column + width(line) > WIDTH;
    put(diamond ? "<%u>" : "[%u]", code_of(chart, line[ACTION]));
    if (count == 0) put(diamond ? "true" : "false");
    if (count > 1) put("(");
    int below = broken && (count > 1 || column >= WIDTH);
    unsigned inner = below && indent < DEEPEST ? indent + STEP : indent;
    for (unsigned i = 0; i < count; i++) {
        if (below) start_line(inner);
        if (i > 0) put("%s%s ", below ? "" : " ", diamond ? "and" : "or");
        spell_pair(pairs[i], inner);
    }
    if (below && count > 1) start_line(indent);
    if (count > 1) put(")");
}

void print_formula(void) {
    int names = 0;
    for (const uint8_t *line = list; line <= last; line += LINE) names += is_named(line);
    printf("formula, true at %u and false at %u", last[P], last[Q]);
    printf(names ? ", where what is used more than once has a name:\n" : ":\n");
    for (const uint8_t *line = list; line <= last; line += LINE) {
        if (line != last && !is_named(line)) continue;
        column = 0;
        put("%*s", STEP, "");
        if (names) put("%u|%u = ", line[P], line[Q]);
        spell(line, STEP);
        put("\n");
    }
}
