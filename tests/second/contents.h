/* Contents for the writer: read from a page, and damaged around every bound. */
#ifndef SECOND_CONTENTS_H
#define SECOND_CONTENTS_H
#include "pages.h"
#include "solver.h"

/* The longest part that is tried: rows whose number fits 16 bits only when it is cut to them. */
enum { LONGEST_PART = 3 * 65536 + 100 };

/* Makes the content of a page, whatever its rows, literals and pairs are. 0 where the page has not the length that its
   counts say. There is one content at a time: the next call makes the same memory new. */
int content_of_page(Content *content, const uint8_t *page, size_t length);

/* The kinds of damage are numbered from 0 on. One may change nothing, as an atom of a pair where there is no pair. */
int content_damages(void);
void damage_content(Content *content, Random *random, int which);
#endif
