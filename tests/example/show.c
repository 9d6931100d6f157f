/* The second example of README.md: what a display shows of three readings, with one alarm after the other. */
#include "pipeotter.h"

int printf(const char *text, ...);

/* examples/display.page: live, else second, else held, else none; not live with a bubble, not second while off, not held when stale. */
static const uint8_t page[] = {1, 0, 7, 0, 4, 0, 10, 0, 0, 0, 18, 0, 34, 0, 44, 0, 44, 0, 4, 0, 0, 0, 0, 2, 0, 0,
                               0, 2, 0, 0, 0, 2, 0, 0, 0, 1, 2, 3, 0, 4, 1, 5, 2, 6};

static void show(float live, float second, float held, uint16_t flags) {
    uint64_t answer = pipeotter_display(live, second, held, page, sizeof page, flags);
    uint16_t number = PIPEOTTER_SHOWN_NUMBER(answer);
    switch (PIPEOTTER_SHOWN_CASE(answer)) {
    case PIPEOTTER_CASE_LIVE: printf("live %.2f\n", (double)pipeotter_shown_reading(answer)); break;
    case PIPEOTTER_CASE_SECOND: printf("second %.2f\n", (double)pipeotter_shown_reading(answer)); break;
    case PIPEOTTER_CASE_HELD: printf("held %.2f\n", (double)pipeotter_shown_reading(answer)); break;
    default: printf(number == PIPEOTTER_ACCEPTED ? "---\n" : "--- refused %u\n", number);
    }
}

int main(void) {
    float huge = 3.4e38f;
    show(0.08f, 0.11f, 0.25f, 0);
    show(0.08f, 0.11f, 0.25f, 1 << 4);
    show(0.08f, 0.11f, 0.25f, 1 << 4 | 1 << 5);
    show(0.08f, 0.11f, 0.25f, 1 << 4 | 1 << 5 | 1 << 6);
    show(huge * huge, 0.11f, 0.25f, 0);
    show(huge * huge, 0.11f, 0.25f, 1 << 4);
    return 0;
}
