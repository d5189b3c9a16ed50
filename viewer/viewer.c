/* Shows charts as the bench does. Each question has a file: show.c, compare.c, why.c, check.c, both.c. A chart whose name is a
 * question's word is named with its folder, as ./compare.
 *
 * tests/run builds it as tests/target/viewer. By hand, on x86-64, in the project's root:
 *     (cd crates/viewer && rt lib)
 *     gcc -std=c11 -Iinclude viewer/[a-z]*.c crates/viewer/out/libviewer.a -o tests/target/viewer
 *
 * Exit status: 0 all shown, 1 something was refused, 2 no file, wrong arguments or output that could not be written. Where the
 * reader of a pipe has gone, the system ends it by a signal, as it does every program. */
#include "viewer.h"

#include <errno.h>
#include <stdio.h>
#include <stdlib.h>
#include <string.h>

int usage(void) {
    fputs("usage: viewer CHART [SHEET [FORM]]    marks, simulation, and the states that satisfy a sheet or its short form\n"
          "       viewer compare OLD NEW         the states of either chart without a partner in the other\n"
          "       viewer why CHART [P Q]         the moves that tell unequal states apart, or the formula of states P and Q\n"
          "       viewer check CHART LIST        whether a list of such moves is accepted, or which line is bad\n"
          "       viewer both CHART SHEET        the least and the greatest solution of a sheet, and which one its kind asks for\n",
          stderr);
    return 2;
}

/* 0 where the word is no number. */
static int read_number(const char *word, uint64_t *number) {
    char *end;
    errno = 0;
    *number = strtoull(word, &end, 10);
    return word[0] >= '0' && word[0] <= '9' && *end == '\0' && errno == 0;
}

static int ask_why(int argc, char **argv) {
    uint64_t pair[2];
    if (argc != 3 && argc != 5) return usage();
    if (argc == 5 && !(read_number(argv[3], &pair[0]) && read_number(argv[4], &pair[1]))) {
        fprintf(stderr, "viewer: P and Q are numbers\n");
        return usage();
    }
    return why(argv[2], argc == 5 ? pair : NULL);
}

/* The question that the words ask, and its status. */
static int ask(int argc, char **argv) {
    if (argc >= 2 && strcmp(argv[1], "compare") == 0) return argc == 4 ? compare(argv[2], argv[3]) : usage();
    if (argc >= 2 && strcmp(argv[1], "why") == 0) return ask_why(argc, argv);
    if (argc >= 2 && strcmp(argv[1], "check") == 0) return argc == 4 ? check(argv[2], argv[3]) : usage();
    if (argc >= 2 && strcmp(argv[1], "both") == 0) return argc == 4 ? both(argv[2], argv[3]) : usage();
    if (argc < 2 || argc > 4) return usage();
    uint64_t form;
    if (argc == 4 && !read_number(argv[3], &form)) {
        fprintf(stderr, "viewer: FORM is a number\n");
        return usage();
    }
    return show(argv[1], argc > 2 ? argv[2] : NULL, argc > 3 ? &form : NULL);
}

int main(int argc, char **argv) {
    int status = ask(argc, argv);
    /* a full disk, for one, may show only when the last bytes are written */
    int lost = ferror(stdout);
    if (fclose(stdout) != 0 || lost) {
        fprintf(stderr, "viewer: cannot write\n");
        return 2;
    }
    return status;
}
