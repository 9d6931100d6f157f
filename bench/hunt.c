/* Looks for pages that are slow for the engine, by counted steps: hunt CALL SEED MILLIONS OUT [PAGE..]. CALL is list, best
   or pick; a step is an edge of the engine's own code that a call passes, counted where the compiler put a guard
   (bench/hunt); MILLIONS says after how many millions of steps in all the hunt ends. Nothing depends on time, so the same
   seed and the same engine give the same pages. The climber knows nothing of the engine but the count. The slowest page
   goes to the file OUT.
   hunt CALL PAGE FLAGS says how long one call takes, which is for an engine without guards. */
#include "../tests/second/pages.h"

int printf(const char *, ...);
int open(const char *, int, ...);
long read(int, void *, size_t);
long write(int, const void *, size_t);
int close(int);
unsigned long strtoul(const char *, char **, int);
int strcmp(const char *, const char *);
struct timespec {
    long seconds, nanoseconds;
};
int clock_gettime(int, struct timespec *);

/* ---- the count ---- */

static uint64_t steps;

/* The compiler's own names: all guards, once, before main; and one guard, each time that its edge is passed. */
void __sanitizer_cov_trace_pc_guard_init(uint32_t *guard, uint32_t *end) {
    for (uint32_t number = 1; guard < end; guard++) *guard = number++;
}
void __sanitizer_cov_trace_pc_guard(uint32_t *guard) { steps += *guard != 0; }

/* ---- drafts ---- */

/* A page's content, in a form in which most changes leave a page that is accepted. */
typedef struct {
    uint8_t heads, head[6];
    uint16_t positive, negative; /* bodies as sets */
} Row;
typedef struct {
    int atoms, rows;
    uint16_t flags;
    uint8_t mate[16]; /* the other atom of the pair, or the atom itself */
    Row row[PIPEOTTER_MOST_ROWS];
    uint64_t steps;
} Draft;

static Random random;
static int below(int limit) { return (int)random_below(&random, (uint32_t)limit); }
static int has(uint16_t set, int atom) { return set >> atom & 1; }

static size_t put_body(uint8_t *literals, uint16_t body) {
    size_t count = 0;
    for (int a = 0; a < 16; a++)
        if (has(body, a)) literals[count++] = (uint8_t)a;
    return count;
}

/* Lays the draft out as a page. False if it is refused: then the draft is no use. */
static int lay_out(const Draft *d, Page *page) {
    uint8_t counts[3 * PIPEOTTER_MOST_ROWS], literals[PIPEOTTER_MOST_ROWS * (6 + 16 + 16)], pairs[16];
    size_t end = 0, paired = 0;
    for (int r = 0; r < d->rows; r++) {
        const Row *row = &d->row[r];
        uint8_t *count = counts + 3 * r;
        for (int k = 0; k < row->heads; k++) literals[end++] = row->head[k];
        count[0] = row->heads;
        end += count[1] = (uint8_t)put_body(literals + end, row->positive);
        end += count[2] = (uint8_t)put_body(literals + end, row->negative);
    }
    for (int a = 0; a < d->atoms; a++)
        if (d->mate[a] > a) pairs[paired++] = (uint8_t)a, pairs[paired++] = d->mate[a];
    uint32_t result = pipeotter_write((size_t)d->atoms, counts, 3 * (size_t)d->rows, literals, end, pairs, paired, page->byte,
                                      sizeof page->byte);
    page->length = PIPEOTTER_VALUE(result);
    return !PIPEOTTER_NUMBER(result) && !PIPEOTTER_NUMBER(pipeotter_reduct_test(page->byte, page->length, d->flags, 0));
}

static uint16_t get_body(const uint8_t *literal, int count) {
    uint16_t body = 0;
    while (count-- > 0) body |= (uint16_t)(1u << *literal++);
    return body;
}

/* The draft of a page, nothing raised. False if the page is refused. */
static int take_down(const Page *page, Draft *d) {
    if (PIPEOTTER_NUMBER(pipeotter_reduct_test(page->byte, page->length, 0, 0))) return 0;
    const uint8_t *count = page->byte + 18, *literal = count + 4 * page->byte[4];
    d->atoms = page->byte[2], d->rows = page->byte[4], d->flags = 0;
    for (int r = 0; r < d->rows; r++, count += 4) {
        Row *row = &d->row[r];
        row->heads = count[0];
        for (int k = 0; k < count[0]; k++) row->head[k] = *literal++;
        row->positive = get_body(literal, count[1]), literal += count[1];
        row->negative = get_body(literal, count[2]), literal += count[2];
    }
    for (int a = 0; a < 16; a++) d->mate[a] = (uint8_t)a;
    for (int q = page->byte[8]; q > 0; q--, literal += 2) d->mate[literal[0]] = literal[1], d->mate[literal[1]] = literal[0];
    return 1;
}

/* ---- the call ---- */

enum { LIST, BEST, PICK };
static int asked;
static uint16_t sets[65536];

static uint32_t call(int what, const Page *page, uint16_t flags) {
    if (what == LIST) return pipeotter_list(page->byte, page->length, flags, sets, 65536);
    if (what == BEST) return pipeotter_best(page->byte, page->length, flags, sets, 65536);
    return pipeotter_pick(page->byte, page->length, flags);
}

enum { TURN = 1000 };         /* what a turn costs beside the call, so that a hunt ends whatever becomes of its drafts */
static uint64_t spent, turns;

/* Counts the steps of a draft's call; 0 for a draft that is no page. */
static void measure(Draft *d) {
    Page page;
    d->steps = 0;
    if (lay_out(d, &page)) {
        steps = 0;
        call(asked, &page, d->flags);
        d->steps = steps;
    }
    spent += d->steps + TURN;
    turns++;
}

/* ---- changes ---- */

static uint16_t some_body(int atoms) {
    uint16_t body = 0;
    for (int n = below(4) ? below(3) : below(9); n > 0; n--) body |= (uint16_t)(1u << below(atoms));
    return below(2) ? body : 0;
}

static Row some_row(int atoms) {
    Row row = {.heads = (uint8_t)(below(3) ? 1 + below(2) : below(7)), .positive = some_body(atoms), .negative = some_body(atoms)};
    for (int k = 0; k < row.heads; k++) row.head[k] = (uint8_t)below(atoms);
    return row;
}

/* Behind the other rows, or now and then, and where there is no room, in the place of one of them. */
static void add_row(Draft *d, Row row) {
    int fits = d->rows < PIPEOTTER_MOST_ROWS;
    d->row[fits && (below(4) || !d->rows) ? d->rows++ : below(d->rows)] = row;
}

static int mentions(const Row *row, int atom) {
    for (int k = 0; k < row->heads; k++)
        if (row->head[k] == atom) return 1;
    return has(row->positive | row->negative, atom);
}

static int same_shape(const Row *one, const Row *other) {
    return one->heads == other->heads && __builtin_popcount(one->positive) == __builtin_popcount(other->positive) &&
           __builtin_popcount(one->negative) == __builtin_popcount(other->negative);
}

static uint16_t renamed(uint16_t set, const uint8_t *name) {
    uint16_t result = 0;
    for (int a = 0; a < 16; a++)
        if (has(set, a)) result |= (uint16_t)(1u << name[a]);
    return result;
}

static void rename_row(Row *row, const uint8_t *name) {
    for (int k = 0; k < row->heads; k++) row->head[k] = name[row->head[k]];
    row->positive = renamed(row->positive, name);
    row->negative = renamed(row->negative, name);
}

/* A change to a row: the same one is made to all rows of a kind, since the slow pages are mostly regular ones. */
enum { PUT, INSERT, REMOVE, EXCHANGE, POSITIVE, NEGATIVE, BODIES, RENAME, CHANGES };
typedef struct {
    int what, atom, own, place, other;
    uint8_t name[16]; /* for RENAME */
} Change;

static void change_row(Row *row, const Change *c, int atoms) {
    int atom = c->atom, heads = row->heads, place = heads ? c->place % heads : 0, other = heads ? c->other % heads : 0;
    if (c->own == 1 && heads) atom = (row->head[0] + atom) % atoms; /* an atom of the row's own, or so many further on */
    if (c->own == 2 && row->positive) atom = (__builtin_ctz(row->positive) + atom) % atoms;
    uint8_t kept = row->head[place];
    uint16_t body = row->positive;
    switch (c->what) {
    case PUT: row->head[place] = (uint8_t)atom; break;
    case INSERT:
        if (heads == 6) break;
        for (int k = row->heads++; k > place; k--) row->head[k] = row->head[k - 1];
        row->head[place] = (uint8_t)atom;
        break;
    case REMOVE:
        if (heads == 0) break;
        row->heads--;
        for (int k = place; k < row->heads; k++) row->head[k] = row->head[k + 1];
        break;
    case EXCHANGE: row->head[place] = row->head[other], row->head[other] = kept; break;
    case POSITIVE: row->positive ^= (uint16_t)(1u << atom); break;
    case NEGATIVE: row->negative ^= (uint16_t)(1u << atom); break;
    case BODIES: row->positive = row->negative, row->negative = body; break;
    default: rename_row(row, c->name);
    }
}

/* One row, those of its shape, those that mention an atom, or all: a bit each. */
static uint32_t some_rows(const Draft *d, int atom) {
    int kind = below(8), one = below(d->rows);
    uint32_t chosen = 0;
    for (int r = 0; r < d->rows; r++) {
        const Row *row = &d->row[r];
        int is = kind < 4 ? r == one : kind < 6 ? same_shape(row, &d->row[one]) : kind < 7 ? mentions(row, atom) : 1;
        chosen |= (uint32_t)is << r;
    }
    return chosen;
}

/* Changes the chosen rows, or adds copies of them that are changed. */
static void change_rows(Draft *d, uint32_t chosen, const Change *c, int copies) {
    for (int r = 0, rows = d->rows; r < rows; r++) {
        Row row = d->row[r];
        if (!(chosen >> r & 1)) continue;
        change_row(&row, c, d->atoms);
        if (copies) add_row(d, row);
        else d->row[r] = row;
    }
}

static void one_name(uint8_t *name, int atom, int other) {
    for (int a = 0; a < 16; a++) name[a] = (uint8_t)(a == atom ? other : a);
}

static void unpair(Draft *d, int atom) {
    int mate = d->mate[atom];
    d->mate[mate] = (uint8_t)mate;
    d->mate[atom] = (uint8_t)atom;
}

static void pair(Draft *d, int atom, int other) {
    unpair(d, atom);
    unpair(d, other);
    d->mate[atom] = (uint8_t)other;
    d->mate[other] = (uint8_t)atom;
}

static void exchange_atoms(Draft *d, int atom, int other) {
    uint8_t name[16], mate[16];
    one_name(name, atom, other);
    name[other] = (uint8_t)atom;
    for (int r = 0; r < d->rows; r++) rename_row(&d->row[r], name);
    d->flags = renamed(d->flags, name);
    for (int a = 0; a < 16; a++) mate[name[a]] = name[d->mate[a]];
    for (int a = 0; a < 16; a++) d->mate[a] = mate[a];
}

static void remove_rows(Draft *d, uint32_t chosen) {
    for (int r = d->rows - 1; r >= 0; r--)
        if (chosen >> r & 1) d->row[r] = d->row[--d->rows];
}

/* An atom less: rows that mention it go, or mention another. */
static void remove_atom(Draft *d, int atom) {
    int last = d->atoms - 1;
    uint8_t name[16];
    if (last == 0) return;
    exchange_atoms(d, atom, last);
    unpair(d, last);
    d->flags &= (uint16_t)~(1u << last);
    d->atoms--;
    one_name(name, last, below(last));
    for (int r = d->rows - 1; r >= 0; r--) {
        if (mentions(&d->row[r], last) && below(2)) remove_rows(d, 1u << r);
        else rename_row(&d->row[r], name);
    }
}

/* An atom that stands wherever another does: the rows that mention that one, once more. */
static void twin(Draft *d, int atom) {
    Change c = {.what = RENAME};
    uint32_t chosen = 0;
    if (d->atoms == 16) return;
    one_name(c.name, atom, d->atoms++);
    for (int r = 0; r < d->rows; r++) chosen |= (uint32_t)mentions(&d->row[r], atom) << r;
    change_rows(d, chosen, &c, 1);
}

static void change(Draft *d) {
    int atom = below(d->atoms), other = below(d->atoms), kind = below(20);
    if (d->rows == 0) kind = 0;
    switch (kind) {
    case 0: add_row(d, some_row(d->atoms)); break;
    case 1: remove_rows(d, some_rows(d, atom)); break;
    case 2: case 3: exchange_atoms(d, atom, other); break; /* an atom's number says where its sets stand */
    case 4: if (d->atoms < 16) d->atoms++; break;
    case 5: remove_atom(d, atom); break;
    case 6: case 7: twin(d, atom); break;
    case 8: d->flags ^= (uint16_t)(1u << atom); break;
    case 9: if (d->mate[atom] != atom) unpair(d, atom); else pair(d, atom, other); break;
    case 10: {
        Row *row = &d->row[below(d->rows)], *next = &d->row[below(d->rows)], kept = *row;
        *row = *next, *next = kept;
        break;
    }
    default: {
        Change c = {below(CHANGES), below(d->atoms), below(3), below(6), below(6), {0}};
        if (below(2)) one_name(c.name, atom, other);
        else for (int a = 0; a < 16; a++) c.name[a] = (uint8_t)((a + other) % d->atoms);
        change_rows(d, some_rows(d, atom), &c, below(4) == 0);
    }
    }
}

/* ---- the hunt ---- */

enum { STARTS = 64 };
static Draft pool[STARTS], slowest;

static int load(const char *path, Page *page) {
    int file = open(path, 0);
    long got = file < 0 ? -1 : read(file, page->byte, sizeof page->byte);
    if (file >= 0) close(file);
    page->length = got < 0 ? 0 : (size_t)got;
    return got >= 0;
}

static void note(const Draft *d) {
    if (d->steps > slowest.steps) slowest = *d;
}

/* The pages that were named come first, then dense pages and others of the tests' own generator. */
static void start(int files, char **file) {
    for (int i = 0; i < STARTS; note(&pool[i++])) {
        Page page;
        do {
            if (files > 0) load(*file++, &page), files--;
            else if (i % 2) generated_page(&page, &random);
            else dense_page(&page, &random);
        } while (!take_down(&page, &pool[i]));
        measure(&pool[i]);
    }
}

/* Some changes at once, kept where the count does not fall. */
static void turn(Draft *d) {
    Draft changed = *d;
    for (int n = below(2) ? 1 : below(2) ? 2 : 1 + below(5); n > 0; n--) change(&changed);
    measure(&changed);
    if (changed.steps >= d->steps) *d = changed;
    note(d);
}

static void show(const char *name, const Draft *d) {
    Page page;
    lay_out(d, &page);
    uint32_t listed = PIPEOTTER_VALUE(call(LIST, &page, d->flags)), best = PIPEOTTER_VALUE(call(BEST, &page, d->flags));
    printf("%s: %llu steps, %d atoms, %d rows, %u sets, %u best, flags %u\n", name, (unsigned long long)d->steps, d->atoms,
           d->rows, listed, best, d->flags);
}

static void sort(int count) {
    for (int i = 1; i < count; i++) {
        Draft d = pool[i];
        int at = i;
        for (; at > 0 && pool[at - 1].steps < d.steps; at--) pool[at] = pool[at - 1];
        pool[at] = d;
    }
}

/* Every draft has its turns, the same number for a slow one as for a fast one; then the slower half goes on. */
static void hunt(uint64_t budget) {
    for (int count = STARTS, rounds = 7; count > 0; count /= 2, rounds--) {
        uint64_t until = spent + (budget > spent ? budget - spent : 0) / (uint64_t)rounds;
        while (spent < until)
            for (int i = 0; i < count && spent < until; i++) turn(&pool[i]);
        sort(count);
        printf("%llu turns, %d pages left, ", (unsigned long long)turns, count);
        show("the slowest of them", &pool[0]);
    }
}

static double now(void) {
    struct timespec t;
    clock_gettime(2, &t); /* processor time of this process */
    return (double)t.seconds + 1e-9 * (double)t.nanoseconds;
}

static double least_time(const Page *page, uint16_t flags) {
    double least = 0;
    for (int i = 0; i < 5; i++) {
        double from = now();
        call(asked, page, flags);
        double took = now() - from;
        if (i == 0 || took < least) least = took;
    }
    return least;
}

int main(int words, char **word) {
    static const char *const name[] = {"list", "best", "pick"};
    Page page;
    if (words < 4) return 2;
    while (strcmp(word[1], name[asked]))
        if (++asked > PICK) return 2;
    if (words == 4) {
        if (!load(word[2], &page)) return 2;
        printf("%.3f ms\n", 1e3 * least_time(&page, (uint16_t)strtoul(word[3], 0, 0)));
        return 0;
    }
    random.state = strtoul(word[2], 0, 0);
    start(words - 5, word + 5);
    hunt(1000000 * strtoul(word[3], 0, 0));
    show("slowest", &slowest);
    lay_out(&slowest, &page);
    int file = open(word[4], 01101, 0644); /* written from its start, made if need be */
    return file < 0 || write(file, page.byte, page.length) != (long)page.length || close(file) ? 2 : 0;
}
