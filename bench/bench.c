/* The engine, the limit and plain C in one process and one run: bench NAME FILE FLAGS WHO [NAME FILE FLAGS WHO ..].
   WHO has a letter for each solver that is asked for best, pick and display: e, l, p. One that would take too long is left
   out, and its ratios are a dash. Each call is timed in turns, one solver after the other, the pages are gone through three
   times, and the least time of each is kept, so that what else the machine does counts for little; the answers must be the
   same. Only ratios are printed: times say little about another machine. */
#include "limit.h"
#include "plain.h"

int printf(const char *, ...);
int open(const char *, int, ...);
long read(int, void *, size_t);
int close(int);
unsigned long strtoul(const char *, char **, int);
char *strchr(const char *, int);
int memcmp(const void *, const void *, size_t);
void *memset(void *, int, size_t);
struct timespec {
    long seconds, nanoseconds;
};
int clock_gettime(int, struct timespec *);

/* The same calls of three solvers. */
typedef uint32_t (*Test)(const uint8_t *, size_t, uint16_t, uint16_t);
typedef struct {
    char letter;
    uint32_t (*list)(const uint8_t *, size_t, uint16_t, uint16_t *, size_t);
    uint32_t (*best)(const uint8_t *, size_t, uint16_t, uint16_t *, size_t);
    uint32_t (*pick)(const uint8_t *, size_t, uint16_t);
    Test test, rounds;
    uint64_t (*display)(float, float, float, const uint8_t *, size_t, uint16_t);
    uint32_t (*write)(size_t, const uint8_t *, size_t, const uint8_t *, size_t, const uint8_t *, size_t, uint8_t *, size_t);
} Solver;
enum { ENGINE, LIMIT, PLAIN, SOLVERS };
static const Solver solver[SOLVERS] = {
    {'e', pipeotter_list, pipeotter_best, pipeotter_pick, pipeotter_reduct_test, pipeotter_rounds, pipeotter_display,
     pipeotter_write},
    {'l', limit_list, limit_best, limit_pick, 0, 0, 0, 0},
    {'p', plain_list, plain_best, plain_pick, plain_reduct_test, plain_rounds, plain_display, plain_write}};

static uint8_t page[2000];
static size_t length;
static uint16_t flags, sets[SOLVERS][65536];

/* What the writer is given: the page's own content. The counts of its rows stand apart, three a row. */
static uint8_t counts[3 * PIPEOTTER_MOST_ROWS], written[SOLVERS][PIPEOTTER_LONGEST_PAGE];

enum { LIST, TEST, ROUNDS, BEST, PICK, DISPLAY, WRITE, CALLS }; /* in this order: the tests take their sets from the list */

/* What came out of one page. No time is 0: that is a call that was not made. */
typedef struct {
    const char *name, *fault;
    uint32_t sets, best_sets;
    double least[CALLS][SOLVERS];
} Result;
enum { MOST_PAGES = 32, PASSES = 3, MOST_TURNS = 8 };
static Result result[MOST_PAGES], *current;

/* Asks of 64 sets: answer sets spread over the list, which is asked first, and others. */
static uint32_t tests(Test test) {
    uint32_t sum = 0, all = 1u << page[2], listed = current->sets;
    for (uint32_t i = 0; i < 64; i++) {
        uint16_t set = i % 2 && listed ? sets[ENGINE][(i * 977) % listed] : (uint16_t)((flags | i * 40503u) % all);
        sum = sum * 31 + test(page, length, flags, set);
    }
    return sum;
}

static size_t field(int at) { return page[at] + 256u * page[at + 1]; }

static uint32_t write_again(int which) {
    const uint8_t *literals = page + field(12), *pairs = page + field(14);
    return solver[which].write(field(2), counts, 3 * field(4), literals, field(6), pairs, 2 * field(8), written[which],
                               sizeof written[which]);
}

static uint64_t call(int which, int what) {
    const Solver *s = &solver[which];
    switch (what) {
    case TEST: return tests(s->test);
    case ROUNDS: return tests(s->rounds);
    case LIST: return s->list(page, length, flags, sets[which], 65536);
    case BEST: return s->best(page, length, flags, sets[which], 65536);
    case PICK: return s->pick(page, length, flags);
    case WRITE: return write_again(which);
    default: return s->display(0.08f, 0.11f, 0.25f, page, length, flags);
    }
}

static int is_asked(int which, int what, const char *who) {
    if (which == LIMIT && what != LIST && what != BEST && what != PICK) return 0; /* it has these three alone */
    return (what != BEST && what != PICK && what != DISPLAY) || strchr(who, solver[which].letter) != 0;
}

static double now(void) {
    struct timespec t;
    clock_gettime(2, &t); /* processor time of this process: the turns of other programs do not count */
    return (double)t.seconds + 1e-9 * (double)t.nanoseconds;
}

volatile uint64_t kept; /* the last answer, so that no call is left out */

/* Times one call, from `times` in a row, and keeps the least. Answers how long they took together. */
static double timed(int which, int what, long times, double *least) {
    double start = now();
    for (long i = 0; i < times; i++) kept = call(which, what);
    double took = now() - start, each = took / (double)times;
    if (*least == 0 || each < *least) *least = each;
    return took;
}

/* A list's entries and the page that is written are the same too. */
static int same(int which, int other, int what, uint64_t answer) {
    if (what == WRITE) return answer == length && !memcmp(written[which], page, length) && !memcmp(written[other], page, length);
    size_t stored = what == LIST || what == BEST ? PIPEOTTER_VALUE(answer) : 0;
    return !memcmp(sets[which], sets[other], stored * sizeof sets[0][0]);
}

/* The first turn compares the answers. Then turns that are long enough for the clock, the more the cheaper they are; a
   solver that takes a second or more has no further turn. Answers 0 where the answers differ. */
static int measure(int what, const char *who, double *least) {
    int first = -1, turns[SOLVERS] = {0};
    long times[SOLVERS];
    uint64_t answer = 0;
    for (int which = 0; which < SOLVERS; which++) {
        if (!is_asked(which, what, who) || least[which] >= 1) continue;
        if (what == LIST || what == BEST) memset(sets[which], 1 + which, sizeof sets[which]); /* nothing there is right beforehand */
        timed(which, what, 1, &least[which]);
        if (first < 0) first = which, answer = kept;
        if (kept != answer || !same(first, which, what, answer)) return 0;
    }
    if (first >= 0 && what == LIST) current->sets = PIPEOTTER_VALUE(answer);
    if (first >= 0 && what == BEST) current->best_sets = PIPEOTTER_VALUE(answer);
    for (int which = 0; which < SOLVERS; which++) {
        if (!is_asked(which, what, who) || least[which] >= 1) continue;
        times[which] = 1;
        while (timed(which, what, times[which], &least[which]) < 0.001) times[which] *= 2;
        turns[which] = least[which] < 0.05 ? MOST_TURNS : 1;
    }
    for (int turn = 0; turn < MOST_TURNS * SOLVERS; turn++) {
        int place = turn % SOLVERS, which = turn / SOLVERS % 2 ? SOLVERS - 1 - place : place; /* none is always first */
        if (turns[which]-- > 0) timed(which, what, times[which], &least[which]);
    }
    return 1;
}

static int load(const char *path) {
    int file = open(path, 0);
    long got = file < 0 ? -1 : read(file, page, sizeof page);
    if (file >= 0) close(file);
    length = got < 0 ? 0 : (size_t)got;
    for (size_t i = 0; i < sizeof counts; i++) counts[i] = page[18 + i / 3 * 4 + i % 3];
    return got >= 0;
}

/* NAME FILE FLAGS WHO */
static void try_page(char **word) {
    current->name = word[0];
    flags = (uint16_t)strtoul(word[2], 0, 0);
    if (current->fault) return;
    if (!load(word[1])) current->fault = "cannot be read";
    else if (PIPEOTTER_NUMBER(pipeotter_reduct_test(page, length, flags, 0))) current->fault = "is refused";
    for (int what = 0; what < CALLS && !current->fault; what++)
        if (!measure(what, word[3], current->least[what])) current->fault = "the answers differ";
}

/* Three digits or so, whatever the size. */
static void show(double time, double other) {
    double ratio = other > 0 ? time / other : 0;
    int digits = ratio < 0.01 ? 4 : ratio < 0.1 ? 3 : ratio < 10 ? 2 : ratio < 100 ? 1 : 0;
    if (ratio > 0) printf(" %.*f |", digits, ratio);
    else printf(" - |");
}

/* A line without the calls' own columns, if there is nothing to say against the page. */
static int begins(const Result *r) {
    printf("| %s |", r->name);
    if (r->fault) printf(" %s |\n", r->fault);
    else printf(" %u |", r->sets);
    return !r->fault;
}

static void to_limit(void) {
    static const int column[] = {LIST, BEST, PICK};
    printf("Time of the engine over time of the limit:\n\n");
    printf("| page | sets | best sets | list | best | pick |\n|---|---|---|---|---|---|\n");
    for (const Result *r = result; r < current; r++) {
        if (!begins(r)) continue;
        printf(" %u |", r->best_sets);
        for (int c = 0; c < 3; c++) show(r->least[column[c]][ENGINE], r->least[column[c]][LIMIT]);
        printf("\n");
    }
}

static void to_plain(void) {
    static const int column[CALLS] = {TEST, ROUNDS, LIST, BEST, PICK, DISPLAY, WRITE};
    printf("\nTime of the engine over time of plain C:\n\n");
    printf("| page | sets | test | rounds | list | best | pick | display | write ");
    printf("| pick / list, engine | pick / list, plain C |\n|---|---|---|---|---|---|---|---|---|---|---|\n");
    for (const Result *r = result; r < current; r++) {
        if (!begins(r)) continue;
        for (int c = 0; c < CALLS; c++) show(r->least[column[c]][ENGINE], r->least[column[c]][PLAIN]);
        show(r->least[PICK][ENGINE], r->least[LIST][ENGINE]);
        show(r->least[PICK][PLAIN], r->least[LIST][PLAIN]);
        printf("\n");
    }
}

int main(int words, char **word) {
    int faults = 0;
    for (int pass = 0; pass < PASSES; pass++) {
        current = result;
        for (int i = 1; i + 3 < words && current < result + MOST_PAGES; i += 4, current++) try_page(word + i);
    }
    for (const Result *r = result; r < current; r++) faults += r->fault != 0;
    to_limit();
    to_plain();
    return faults != 0;
}
