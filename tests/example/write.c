/* The third example of README.md: make a page, ask for its pick, and say what a refusal means. */
#include "pipeotter.h"

int printf(const char *text, ...);

/* Atom 0 is live, 1 is second. Row 0 wants live, else second; row 1 forbids live. The two are never shown together. */
static const uint8_t rows[] = {2, 0, 0, 0, 1, 0}; /* how many: head, if, if not; then the next row */
static const uint8_t literals[] = {0, 1, 0};
static const uint8_t pairs[] = {0, 1};

static uint8_t page[PIPEOTTER_LONGEST_PAGE];

static uint16_t make(size_t atoms) {
    uint32_t answer = pipeotter_write(atoms, rows, sizeof rows, literals, sizeof literals, pairs, sizeof pairs, page, sizeof page);
    uint16_t number = PIPEOTTER_NUMBER(answer);
    if (number != PIPEOTTER_ACCEPTED) printf("%u atom: refused %u %c\n", (unsigned)atoms, number, pipeotter_letter(number));
    return PIPEOTTER_VALUE(answer);
}

int main(void) {
    uint16_t length = make(2);
    printf("%u bytes:", length);
    for (uint16_t i = 0; i < length; i++) printf(" %02x", page[i]);
    printf("\n");
    uint32_t pick = pipeotter_pick(page, length, 0);
    if (PIPEOTTER_NUMBER(pick) == PIPEOTTER_ACCEPTED) printf("pick %u\n", PIPEOTTER_VALUE(pick));
    make(1); /* literals and pairs name atom 1, which is not below 1 */
    return 0;
}
