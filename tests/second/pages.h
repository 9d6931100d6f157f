/* Pages for the driver: hand-made ones, generated good ones of every shape, and damaged ones. */
#ifndef SECOND_PAGES_H
#define SECOND_PAGES_H
#include "../../include/pipeotter.h"

/* Bytes that may or may not be a page. Longer than any page, since a page may be too long. */
typedef struct {
    size_t length;
    uint8_t byte[1200];
} Page;

/* Numbers that look random and follow from the seed alone (Steele, Lea and Flood's splitmix). */
typedef struct {
    unsigned long long state;
} Random;

uint32_t random_below(Random *random, uint32_t limit); /* 0 up to limit - 1; limit above 0 */
int one_in(Random *random, uint32_t chances);

enum { HAND_MADE = 18 };
void hand_made_page(Page *page, int which); /* which: 0 up to HAND_MADE - 1 */
void generated_page(Page *page, Random *random);
void dense_page(Page *page, Random *random); /* up to thousands of answer sets */
void damage(Page *page, Random *random);
#endif
