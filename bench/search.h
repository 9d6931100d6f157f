/* The calls of search.c. They refuse as the engine does: see ../include/pipeotter.h. */
#ifndef SEARCH_H
#define SEARCH_H
#include "../include/pipeotter.h"

uint32_t search_list(const uint8_t *page, size_t length, uint16_t flags, uint16_t *sets, size_t room);
uint32_t search_best(const uint8_t *page, size_t length, uint16_t flags, uint16_t *sets, size_t room);
uint32_t search_pick(const uint8_t *page, size_t length, uint16_t flags);
#endif
