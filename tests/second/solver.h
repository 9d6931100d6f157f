/* The second solver: what every call of pipeotter.h should answer, found by another road than the engine's. */
#ifndef SECOND_SOLVER_H
#define SECOND_SOLVER_H
#include "../../include/pipeotter.h"

/* What a call should return, its two halves apart. */
typedef struct {
    unsigned number, value;
} Answer;

/* What a display should show: the answer, and the bits of its reading, those of a NaN where there is none. */
typedef struct {
    Answer answer;
    uint32_t bits;
} Screen;

/* What the writer is given: a number of atoms, and three runs of bytes, of any lengths. */
typedef struct {
    uint8_t *byte;
    size_t length;
} Part;

typedef struct {
    size_t atoms;
    Part rows, literals, pairs;
} Content;

/* A rule of a program. Bodies and heads as lists of atoms, and the bodies as words too. */
typedef struct {
    int heads, head[6];
    uint32_t positive, negative;
} Rule;

/* A set of row indexes: bit r is row r of the program, which has at most 48. */
typedef unsigned long long Rows;

/* The rows of each degree in one answer set, degrees 1 to 6. */
typedef struct {
    Rows degree[7];
} Collections;

/* A page and a flag word, solved whole. */
typedef struct {
    int page_fault;     /* 0, or the page's first fault, 1 to 8 */
    int flags_fault;    /* the flag word has a bit at A or above */
    int roads_differ;   /* two of this solver's own roads did not agree: an error in the solver */
    int atoms, page_rows, rules, pairs;
    int split_number;   /* how many split programs, 4,097 where there are more than 4,096 */
    Rule rule[48];      /* the page's rows, then a row for each raised atom */
    uint32_t pair[8];   /* the two atoms of a pair, as a word */
    int sets, bests;
    uint16_t set[65536];  /* the answer sets, rising */
    uint16_t best[65536]; /* the best ones, rising */
    uint8_t is_answer[65536];
    int counted;          /* split_count was filled for all sets */
    uint16_t split_count[65536];
    Collections ranked[65536]; /* of set[i] */
} Solved;

void second_solve(Solved *s, const uint8_t *page, size_t length, uint16_t flags);

/* What the calls should answer. `first` for compare is PIPEOTTER_FIRST and so on. */
Answer second_pick(const Solved *s);
Answer second_test(const Solved *s, uint16_t set);
Answer second_split(const Solved *s, uint16_t set);
Answer second_rounds(const Solved *s, uint16_t set);
Answer second_list(const Solved *s, size_t room);
Answer second_best(const Solved *s, size_t room);
Answer second_degrees(const Solved *s, uint16_t set, size_t room, uint8_t *degrees);
Answer second_compare(const Solved *s, uint16_t first, uint16_t second);
int second_prefers(const Solved *s, int m, int n); /* set[m] is preferred to set[n] */
Screen second_display(const Solved *s, const uint32_t *readings); /* the bits of live, second and held */
Answer second_write(const Content *content, size_t room, uint8_t *page); /* `page`: 866 bytes; filled where accepted */
uint8_t second_letter(uint16_t number);
#endif
