/* The pages with known results: what is known of each, to which the second solver is held first. */
#ifndef SECOND_CASES_H
#define SECOND_CASES_H
#include "pages.h"

typedef struct {
    int atoms;
    const char *rows; /* rows parted by ';', each "head<body"; atoms are letters, '-' before a negative one */
    const char *pair; /* two letters, or none */
    uint16_t flags;
    const char *sets; /* the answer sets, then the pick after '/'; no pick where it is refused by 10 */
} Case;

enum { CASES = 16 };
extern const Case cases[CASES];

/* Pages for the display: here `sets` is the number and the value that ordinary readings get. */
enum { SCREENS = 14 };
extern const Case screens[SCREENS];

/* Pages for the rounds: here `sets` has some sets, each with its count of rounds. */
enum { CHAINS = 15 };
extern const Case chains[CHAINS];
void case_page(Page *page, const Case *c);
#endif
