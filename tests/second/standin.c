/* The plain C solver under the engine's names, for trying the driver without the engine. */
#include "../../bench/plain.h"

uint32_t pipeotter_pick(const uint8_t *page, size_t length, uint16_t flags) { return plain_pick(page, length, flags); }
uint32_t pipeotter_reduct_test(const uint8_t *page, size_t length, uint16_t flags, uint16_t set) {
    return plain_reduct_test(page, length, flags, set);
}
uint32_t pipeotter_here_there_test(const uint8_t *page, size_t length, uint16_t flags, uint16_t set) {
    return plain_here_there_test(page, length, flags, set);
}
uint32_t pipeotter_split_test(const uint8_t *page, size_t length, uint16_t flags, uint16_t set) {
    return plain_split_test(page, length, flags, set);
}
uint32_t pipeotter_rounds(const uint8_t *page, size_t length, uint16_t flags, uint16_t set) {
    return plain_rounds(page, length, flags, set);
}
uint32_t pipeotter_list(const uint8_t *page, size_t length, uint16_t flags, uint16_t *sets, size_t room) {
    return plain_list(page, length, flags, sets, room);
}
uint32_t pipeotter_best(const uint8_t *page, size_t length, uint16_t flags, uint16_t *sets, size_t room) {
    return plain_best(page, length, flags, sets, room);
}
uint32_t pipeotter_degrees(const uint8_t *page, size_t length, uint16_t flags, uint16_t set, uint8_t *degrees, size_t room) {
    return plain_degrees(page, length, flags, set, degrees, room);
}
uint32_t pipeotter_compare(const uint8_t *page, size_t length, uint16_t flags, uint16_t first, uint16_t second) {
    return plain_compare(page, length, flags, first, second);
}
uint64_t pipeotter_display(float live, float second, float held, const uint8_t *page, size_t length, uint16_t flags) {
    return plain_display(live, second, held, page, length, flags);
}
uint32_t pipeotter_write(size_t atoms, const uint8_t *rows, size_t rows_length, const uint8_t *literals, size_t literals_length,
                         const uint8_t *pairs, size_t pairs_length, uint8_t *buffer, size_t room) {
    return plain_write(atoms, rows, rows_length, literals, literals_length, pairs, pairs_length, buffer, room);
}
uint8_t pipeotter_letter(uint16_t number) { return plain_letter(number); }
