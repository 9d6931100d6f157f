/* The calls of limit.c. They take accepted pages and flag words only, and give refusals 10 and 11 alone. */
#ifndef LIMIT_H
#define LIMIT_H
#include "../include/pipeotter.h"

uint32_t limit_list(const uint8_t *page, size_t length, uint16_t flags, uint16_t *sets, size_t room);
uint32_t limit_best(const uint8_t *page, size_t length, uint16_t flags, uint16_t *sets, size_t room);
uint32_t limit_pick(const uint8_t *page, size_t length, uint16_t flags);
#endif
