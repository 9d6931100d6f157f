/* The calls of pipeotter.h, made by plain.c under names of its own, so that both can stand in one program. */
#ifndef PLAIN_H
#define PLAIN_H
#include "../include/pipeotter.h"

uint32_t plain_pick(const uint8_t *page, size_t length, uint16_t flags);
uint32_t plain_reduct_test(const uint8_t *page, size_t length, uint16_t flags, uint16_t set);
uint32_t plain_here_there_test(const uint8_t *page, size_t length, uint16_t flags, uint16_t set);
uint32_t plain_split_test(const uint8_t *page, size_t length, uint16_t flags, uint16_t set);
uint32_t plain_rounds(const uint8_t *page, size_t length, uint16_t flags, uint16_t set);
uint32_t plain_list(const uint8_t *page, size_t length, uint16_t flags, uint16_t *sets, size_t room);
uint32_t plain_best(const uint8_t *page, size_t length, uint16_t flags, uint16_t *sets, size_t room);
uint32_t plain_degrees(const uint8_t *page, size_t length, uint16_t flags, uint16_t set, uint8_t *degrees, size_t room);
uint32_t plain_compare(const uint8_t *page, size_t length, uint16_t flags, uint16_t first, uint16_t second);
uint64_t plain_display(float live, float second, float held, const uint8_t *page, size_t length, uint16_t flags);
uint32_t plain_write(size_t atoms, const uint8_t *rows, size_t rows_length, const uint8_t *literals, size_t literals_length,
                     const uint8_t *pairs, size_t pairs_length, uint8_t *buffer, size_t room);
uint8_t plain_letter(uint16_t number);
#endif
