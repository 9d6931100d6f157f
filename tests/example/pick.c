/* The example of README.md: ask for the pick of a page, and say what a refusal means. */
#include "pipeotter.h"

int printf(const char *text, ...);

/* a, else b: two atoms, one row of two wishes. docs/PAGE.md goes through it byte by byte. */
static const uint8_t page[24] = {1, 0, 2, 0, 1, 0, 2, 0, 0, 0, 18, 0, 22, 0, 24, 0, 24, 0, 2, 0, 0, 0, 0, 1};

int main(void) {
    uint32_t answer = pipeotter_pick(page, sizeof page, 0);
    uint16_t number = PIPEOTTER_NUMBER(answer);
    if (number != PIPEOTTER_ACCEPTED) {
        printf("refused %u %c\n", number, pipeotter_letter(number));
        return 1;
    }
    printf("pick %u\n", PIPEOTTER_VALUE(answer));
    answer = pipeotter_pick(page, sizeof page - 1, 0);
    number = PIPEOTTER_NUMBER(answer);
    printf("one byte short: refused %u %c\n", number, pipeotter_letter(number));
    return 0;
}
