/* A plain C solver with no proof: a yardstick for the engine's speed, and the stand-in for it when the tests themselves are
   tested.

   One set at a time. Only numbers between the flag word and the flag word with all head atoms are tested, since no
   other can be an answer set; 16 numbers that cannot be between are passed over at once. Pick and best climb to a
   champion and skip what it beats. The page is checked once for each call, and its rows are read once, each body into
   a set. Lists run once to count and once to store, because a refused call must store nothing. For the same reason the
   writer looks at all that it is lent before it stores a byte. */
#include "plain.h"

enum { NONE = 65536 }; /* no set: one more than the greatest */

/* One row: its bodies as sets, its head from the most wanted atom on. */
typedef struct {
    uint16_t positive, negative;
    uint8_t heads, head[8]; /* at most six; two more, so that a wrong count does no harm */
} Row;

/* A page that was accepted, and a flag word that fits it. */
typedef struct {
    Row row[32];
    uint8_t pair[8][2];
    unsigned rows, pairs;
    uint16_t flags;
    uint16_t reach; /* flags and head atoms: nothing else can be in an answer set */
    uint16_t marks[4096]; /* a bit for each set: it is an answer set. Only what `mark` wrote is read */
} Program;

static uint32_t refused(unsigned number) { return (uint32_t)number << 16; }
static int holds(uint16_t set, uint8_t atom) { return set >> atom & 1; }
static unsigned field(const uint8_t *page, size_t at) { return page[at] + 256u * page[at + 1]; }

/* ---- the page ---- */

static int header_fault(const uint8_t *page, size_t length) {
    if (length < 18) return 1;
    unsigned atoms = field(page, 2), rows = field(page, 4), literals = field(page, 6), pairs = field(page, 8);
    if (field(page, 0) != 1) return 2;
    if (atoms < 1 || atoms > 16 || rows > 32 || literals > 704 || pairs > 8) return 3;
    unsigned literals_at = 18 + 4 * rows, pairs_at = literals_at + literals, end = pairs_at + 2 * pairs;
    if (field(page, 10) != 18 || field(page, 12) != literals_at || field(page, 14) != pairs_at) return 4;
    if (field(page, 16) != end || length != end) return 4;
    return 0;
}

static int rows_fault(const uint8_t *page) {
    unsigned rows = page[4], sum = 0;
    for (unsigned r = 0; r < rows; r++) {
        const uint8_t *row = page + 18 + 4 * r;
        if (row[0] > 6 || row[1] > 8 || row[2] > 8 || row[3] != 0) return 5;
        sum += row[0] + row[1] + row[2];
    }
    return sum == field(page, 6) ? 0 : 5;
}

static int atoms_fault(const uint8_t *page, size_t length) {
    for (size_t i = 18 + 4 * (size_t)page[4]; i < length; i++)
        if (page[i] >= page[2]) return 6; /* literals and pairs are one stretch to the end */
    return 0;
}

static int rises(const uint8_t *list, unsigned count) {
    for (unsigned i = 1; i < count; i++)
        if (list[i] <= list[i - 1]) return 0;
    return 1;
}

static int bodies_fault(const uint8_t *page) {
    const uint8_t *at = page + 18 + 4 * page[4];
    for (unsigned r = 0; r < page[4]; r++) {
        const uint8_t *row = page + 18 + 4 * r;
        at += row[0];
        if (!rises(at, row[1])) return 7;
        at += row[1];
        if (!rises(at, row[2])) return 7;
        at += row[2];
    }
    return 0;
}

static int pairs_fault(const uint8_t *page) {
    const uint8_t *pair = page + field(page, 14);
    uint16_t met = 0;
    for (unsigned q = 0; q < page[8]; q++, pair += 2) {
        if (pair[0] >= pair[1]) return 8;
        if (q > 0 && pair[0] <= pair[-2]) return 8;
        if (holds(met, pair[0]) || holds(met, pair[1])) return 8;
        met = (uint16_t)(met | 1u << pair[0] | 1u << pair[1]);
    }
    return 0;
}

static int page_fault(const uint8_t *page, size_t length) {
    int fault = header_fault(page, length);
    if (!fault) fault = rows_fault(page);
    if (!fault) fault = atoms_fault(page, length);
    if (!fault) fault = bodies_fault(page);
    if (!fault) fault = pairs_fault(page);
    return fault;
}

static int stray(const uint8_t *page, uint16_t word) { return word >> page[2] != 0; }

static uint16_t set_of(const uint8_t *list, unsigned count) {
    unsigned set = 0;
    for (unsigned i = 0; i < count; i++) set |= 1u << list[i];
    return (uint16_t)set;
}

/* Accepts the page and the flag word and reads the rows and pairs, or answers the first refusal of 1 to 9. */
static int open(Program *p, const uint8_t *page, size_t length, uint16_t flags) {
    int fault = page_fault(page, length);
    if (fault) return fault;
    if (stray(page, flags)) return 9;
    p->rows = page[4];
    p->pairs = page[8];
    p->flags = flags;
    p->reach = flags;
    const uint8_t *at = page + 18 + 4 * p->rows;
    for (unsigned r = 0; r < p->rows; r++) {
        const uint8_t *count = page + 18 + 4 * r;
        Row *row = &p->row[r];
        row->heads = count[0];
        for (unsigned i = 0; i < count[0]; i++) row->head[i] = at[i];
        row->positive = set_of(at + count[0], count[1]);
        row->negative = set_of(at + count[0] + count[1], count[2]);
        p->reach = (uint16_t)(p->reach | set_of(at, count[0]));
        at += count[0] + count[1] + count[2];
    }
    for (unsigned q = 0; q < p->pairs; q++, at += 2) p->pair[q][0] = at[0], p->pair[q][1] = at[1];
    return 0;
}

/* ---- one set ---- */

static int all_in(uint16_t body, uint16_t set) { return (body & set) == body; }
static int none_in(uint16_t body, uint16_t set) { return (body & set) == 0; }

/* The place from 1 of the first head atom in the set, 0 if there is none. */
static unsigned first_in(const Row *row, uint16_t set) {
    for (unsigned i = 0; i < row->heads; i++)
        if (holds(set, row->head[i])) return i + 1;
    return 0;
}

static int body_holds(const Row *row, uint16_t set) {
    return all_in(row->positive, set) && none_in(row->negative, set);
}

static int no_pair(const Program *p, uint16_t set) {
    for (unsigned q = 0; q < p->pairs; q++)
        if (holds(set, p->pair[q][0]) && holds(set, p->pair[q][1])) return 0;
    return 1;
}

static int satisfies(const Program *p, uint16_t set) {
    for (const Row *row = p->row; row < p->row + p->rows; row++)
        if (body_holds(row, set) && first_in(row, set) == 0) return 0;
    return 1;
}

/* One round: what the reduct of `set` gives from `now`, with `now`. */
static uint16_t reduct_round(const Program *p, uint16_t set, uint16_t now) {
    uint16_t next = now;
    for (const Row *row = p->row; row < p->row + p->rows; row++) {
        if (!all_in(row->positive, now) || !none_in(row->negative, set)) continue;
        unsigned place = first_in(row, set);
        if (place) next = (uint16_t)(next | 1u << row->head[place - 1]);
    }
    return next;
}

/* Makes rounds from `*now` on, which they change, and answers how many added something. They add atoms of the set alone:
   the end is the set, or a round that adds nothing. */
static unsigned rounds_from(const Program *p, uint16_t set, uint16_t *now) {
    unsigned count = 0;
    while (*now != set) {
        uint16_t next = reduct_round(p, set, *now);
        if (next == *now) break;
        *now = next;
        count++;
    }
    return count;
}

static int is_answer(const Program *p, uint16_t set) {
    if (!no_pair(p, set)) return 0;
    if (p->flags & ~set) return 0;
    if (!satisfies(p, set)) return 0;
    uint16_t now = p->flags;
    rounds_from(p, set, &now);
    return now == set;
}

/* Here the flags are not there from the start, as above: those in the set come in with the first round, beside the rows
   that need nothing. */
static unsigned count_rounds(const Program *p, uint16_t set) {
    uint16_t now = (uint16_t)(reduct_round(p, set, 0) | (p->flags & set));
    return now ? 1 + rounds_from(p, set, &now) : 0;
}

/* ---- here-and-there, every part of the set in turn ---- */

static int here_there_model(const Program *p, uint16_t here, uint16_t there) {
    if (p->flags & ~here) return 0;
    for (const Row *row = p->row; row < p->row + p->rows; row++) {
        unsigned place = first_in(row, there);
        if (body_holds(row, there) && place == 0) return 0;
        if (!all_in(row->positive, here) || !none_in(row->negative, there)) continue;
        if (place == 0 || !holds(here, row->head[place - 1])) return 0;
    }
    return 1;
}

static int is_equilibrium(const Program *p, uint16_t set) {
    if (!no_pair(p, set) || !here_there_model(p, set, set)) return 0;
    for (uint16_t here = set; here != 0;) {
        here = (uint16_t)((here - 1) & set);
        if (here_there_model(p, here, set)) return 0;
    }
    return 1;
}

/* ---- split programs, from the last row down ---- */

static unsigned split_programs(const Program *p) {
    unsigned product = 1;
    for (unsigned r = 0; r < p->rows && product <= 4096; r++) {
        if (p->row[r].heads > 1) product *= p->row[r].heads;
    }
    return product;
}

/* The set is an answer set of the split program with these options (option from 0 on, headless rows have none). */
static int split_answer(const Program *p, uint16_t set, const uint8_t *option) {
    uint16_t now = p->flags, next;
    if (p->flags & ~set) return 0;
    for (;;) {
        next = now;
        for (unsigned r = 0; r < p->rows; r++) {
            const Row *row = &p->row[r];
            if (row->heads == 0) continue;
            if (!none_in(row->negative, set) || !none_in(set_of(row->head, option[r]), set)) continue;
            if (all_in(row->positive, now)) next = (uint16_t)(next | 1u << row->head[option[r]]);
        }
        if (next == now) break;
        now = next;
    }
    if (now != set) return 0;
    for (const Row *row = p->row; row < p->row + p->rows; row++)
        if (row->heads == 0 && body_holds(row, set)) return 0;
    return 1;
}

/* How many choices for the rows below `row` have the set, those above being chosen. */
static unsigned count_splits(const Program *p, uint16_t set, unsigned row, uint8_t *option) {
    if (row == 0) return (unsigned)split_answer(p, set, option);
    unsigned heads = p->row[row - 1].heads, count = 0;
    if (heads == 0) heads = 1;
    for (unsigned k = 0; k < heads; k++) {
        option[row - 1] = (uint8_t)k;
        count += count_splits(p, set, row - 1, option);
    }
    return count;
}

/* ---- degrees and preference ---- */

static void degrees_of(const Program *p, uint16_t set, uint8_t *degrees) {
    for (const Row *row = p->row; row < p->row + p->rows; row++)
        *degrees++ = body_holds(row, set) ? (uint8_t)first_in(row, set) : 1;
}

/* M, with degrees m, is preferred to N. The first degree at which the collections differ is the least degree of a row
   in which they differ; there no row may be N's alone. */
static int preferred(const Program *p, const uint8_t *m, const uint8_t *n) {
    unsigned first = 7;
    int alone = 0;
    for (unsigned r = 0; r < p->rows; r++) {
        if (m[r] == n[r]) continue;
        unsigned least = m[r] < n[r] ? m[r] : n[r];
        if (least < first) first = least, alone = 0;
        if (least == first && n[r] == least) alone = 1;
    }
    return first < 7 && !alone;
}

/* ---- from set to set ---- */

static int in_reach(const Program *p, uint32_t set) {
    return (set & p->flags) == p->flags && (set & ~(uint32_t)p->reach) == 0;
}

/* Marks the answer sets, a bit for each set up to `reach`: every set is tested once, and the searches go by the bits. */
static void mark(Program *p) {
    for (uint32_t block = 0; block <= p->reach / 16u; block++) {
        uint16_t bits = 0;
        int between = !(p->flags / 16 & ~block) && !(block & ~(p->reach / 16u)); /* by what the 16 sets share */
        for (uint32_t j = 0; between && j < 16; j++)
            if (in_reach(p, 16 * block + j) && is_answer(p, (uint16_t)(16 * block + j))) bits = (uint16_t)(bits | 1u << j);
        p->marks[block] = bits;
    }
}

/* The least answer set from `from` on; a word of marks with no bit left is passed over. */
static uint32_t next_set(const Program *p, uint32_t from) {
    for (uint32_t s = from; s <= p->reach; s = (s | 15) + 1) {
        unsigned left = (unsigned)p->marks[s / 16] >> s % 16;
        if (left) return s + (uint32_t)__builtin_ctz(left);
    }
    return NONE;
}

/* The least answer set from `from` on that is preferred to m. */
static uint32_t next_better(const Program *p, uint32_t m, uint32_t from) {
    uint8_t old[32], degrees[32];
    degrees_of(p, (uint16_t)m, old);
    for (uint32_t s = next_set(p, from); s != NONE; s = next_set(p, s + 1)) {
        degrees_of(p, (uint16_t)s, degrees);
        if (preferred(p, degrees, old)) return s;
    }
    return NONE;
}

/* The least answer set from `from` on to which the champion is not preferred. */
static uint32_t next_unbeaten(const Program *p, uint32_t from, uint32_t champion) {
    uint8_t top[32], degrees[32];
    if (champion == NONE) return next_set(p, from);
    degrees_of(p, (uint16_t)champion, top);
    for (uint32_t s = next_set(p, from); s != NONE; s = next_set(p, s + 1)) {
        degrees_of(p, (uint16_t)s, degrees);
        if (!preferred(p, top, degrees)) return s;
    }
    return NONE;
}

/* The least best set from m on, where m is NONE or an answer set. The champion is kept for the next call. */
static uint32_t next_best(const Program *p, uint32_t m, uint32_t *champion) {
    while (m != NONE) {
        uint32_t n = next_better(p, m, 0);
        if (n == NONE) return m;
        while (n != NONE) {
            *champion = n;
            n = next_better(p, *champion, *champion + 1);
        }
        m = next_unbeaten(p, m + 1, *champion);
    }
    return NONE;
}

/* Goes through the list, or the best list; stores the sets where `sets` is given; answers how many there are. */
static size_t walk(const Program *p, int only_best, uint16_t *sets) {
    size_t count = 0;
    uint32_t champion = NONE, s = next_set(p, 0);
    if (only_best) s = next_best(p, s, &champion);
    while (s != NONE) {
        if (sets) sets[count] = (uint16_t)s;
        count++;
        s = next_unbeaten(p, s + 1, champion);
        if (only_best) s = next_best(p, s, &champion);
    }
    return count;
}

static uint32_t listed(Program *p, int only_best, uint16_t *sets, size_t room) {
    mark(p);
    size_t count = walk(p, only_best, 0);
    if (count > room) return refused(11);
    walk(p, only_best, sets);
    return (uint32_t)count;
}

/* ---- the calls ---- */

uint32_t plain_pick(const uint8_t *page, size_t length, uint16_t flags) {
    Program p;
    int fault = open(&p, page, length, flags);
    if (fault) return refused(fault);
    mark(&p);
    uint32_t champion = NONE, s = next_best(&p, next_set(&p, 0), &champion);
    return s == NONE ? refused(10) : s;
}

uint32_t plain_reduct_test(const uint8_t *page, size_t length, uint16_t flags, uint16_t set) {
    Program p;
    int fault = open(&p, page, length, flags);
    if (fault) return refused(fault);
    if (stray(page, set)) return refused(9);
    return (uint32_t)is_answer(&p, set);
}

uint32_t plain_here_there_test(const uint8_t *page, size_t length, uint16_t flags, uint16_t set) {
    Program p;
    int fault = open(&p, page, length, flags);
    if (fault) return refused(fault);
    if (stray(page, set)) return refused(9);
    return (uint32_t)is_equilibrium(&p, set);
}

uint32_t plain_split_test(const uint8_t *page, size_t length, uint16_t flags, uint16_t set) {
    Program p;
    uint8_t option[32];
    int fault = open(&p, page, length, flags);
    if (fault) return refused(fault);
    if (stray(page, set)) return refused(9);
    if (split_programs(&p) > 4096) return refused(12);
    return no_pair(&p, set) ? count_splits(&p, set, p.rows, option) : 0;
}

uint32_t plain_rounds(const uint8_t *page, size_t length, uint16_t flags, uint16_t set) {
    Program p;
    int fault = open(&p, page, length, flags);
    if (fault) return refused(fault);
    if (stray(page, set)) return refused(9);
    return count_rounds(&p, set);
}

uint32_t plain_list(const uint8_t *page, size_t length, uint16_t flags, uint16_t *sets, size_t room) {
    Program p;
    int fault = open(&p, page, length, flags);
    return fault ? refused(fault) : listed(&p, 0, sets, room);
}

uint32_t plain_best(const uint8_t *page, size_t length, uint16_t flags, uint16_t *sets, size_t room) {
    Program p;
    int fault = open(&p, page, length, flags);
    return fault ? refused(fault) : listed(&p, 1, sets, room);
}

uint32_t plain_degrees(const uint8_t *page, size_t length, uint16_t flags, uint16_t set, uint8_t *degrees, size_t room) {
    Program p;
    int fault = open(&p, page, length, flags);
    if (fault) return refused(fault);
    if (stray(page, set)) return refused(9);
    if (room < p.rows) return refused(11);
    if (!is_answer(&p, set)) return refused(13);
    degrees_of(&p, set, degrees);
    return p.rows;
}

uint32_t plain_compare(const uint8_t *page, size_t length, uint16_t flags, uint16_t first, uint16_t second) {
    Program p;
    uint8_t m[32], n[32];
    int fault = open(&p, page, length, flags);
    if (fault) return refused(fault);
    if (stray(page, first) || stray(page, second)) return refused(9);
    if (!is_answer(&p, first) || !is_answer(&p, second)) return refused(13);
    degrees_of(&p, first, m);
    degrees_of(&p, second, n);
    if (preferred(&p, m, n)) return PIPEOTTER_FIRST;
    if (preferred(&p, n, m)) return PIPEOTTER_SECOND;
    return PIPEOTTER_NEITHER;
}

/* What is shown, and a NaN for the reading where none is. */
static uint64_t blank(uint32_t answer) { return (uint64_t)answer << 32 | 0x7fc00000; }

static uint32_t bits_of(float reading) {
    union {
        float reading;
        uint32_t bits;
    } both = {reading};
    return both.bits;
}

uint64_t plain_display(float live, float second, float held, const uint8_t *page, size_t length, uint16_t flags) {
    const float readings[3] = {live, second, held};
    uint32_t pick = plain_pick(page, length, flags), four = pick & 15;
    if (pick >> 16) return blank(pick);
    if (field(page, 2) < 4 || four == 0 || four & (four - 1)) return blank(refused(14));
    if (four == 8) return blank(PIPEOTTER_CASE_NO_NUMBER);
    uint32_t chosen = four >> 1, bits = bits_of(readings[chosen]);
    if ((bits & 0x7f800000) == 0x7f800000) return blank(refused(15));
    return (uint64_t)(chosen + PIPEOTTER_CASE_LIVE) << 32 | bits;
}

/* ---- writing a page ---- */

/* What a page is to be made of. */
typedef struct {
    size_t atoms, rows, literals, pairs; /* how many of each */
    const uint8_t *row, *literal, *pair;
} Content;

static int all_below(const uint8_t *list, size_t count, size_t atoms) {
    for (size_t i = 0; i < count; i++)
        if (list[i] >= atoms) return 0;
    return 1;
}

/* As page_fault, for a page that does not stand anywhere yet. The conditions are put once more: an error that is planted
   in the one check must not be found by way of the other. */
static int content_fault(const Content *c) {
    if (c->atoms < 1 || c->atoms > 16 || c->rows > 32 || c->literals > 704 || c->pairs > 8) return 3;
    const uint8_t *end = c->row + 3 * c->rows, *at = c->literal;
    size_t sum = 0;
    for (const uint8_t *count = c->row; count < end; count += 3) {
        if (count[0] > 6 || count[1] > 8 || count[2] > 8) return 5;
        sum += count[0] + count[1] + count[2];
    }
    if (sum != c->literals) return 5;
    if (!all_below(c->literal, c->literals, c->atoms) || !all_below(c->pair, 2 * c->pairs, c->atoms)) return 6;
    for (const uint8_t *count = c->row; count < end; count += 3) {
        at += count[0];
        if (!rises(at, count[1]) || !rises(at + count[1], count[2])) return 7;
        at += count[1] + count[2];
    }
    uint16_t met = 0;
    for (const uint8_t *pair = c->pair; pair < c->pair + 2 * c->pairs; pair += 2) {
        if (pair[0] >= pair[1] || (pair > c->pair && pair[0] <= pair[-2])) return 8;
        if (met & (1u << pair[0] | 1u << pair[1])) return 8;
        met = (uint16_t)(met | 1u << pair[0] | 1u << pair[1]);
    }
    return 0;
}

uint32_t plain_write(size_t atoms, const uint8_t *rows, size_t rows_length, const uint8_t *literals, size_t literals_length,
                     const uint8_t *pairs, size_t pairs_length, uint8_t *buffer, size_t room) {
    if (rows_length % 3 != 0 || pairs_length % 2 != 0) return refused(3);
    const Content c = {atoms, rows_length / 3, literals_length, pairs_length / 2, rows, literals, pairs};
    int fault = content_fault(&c);
    if (fault) return refused(fault);
    size_t literals_at = 18 + 4 * c.rows, pairs_at = literals_at + c.literals, end = pairs_at + 2 * c.pairs;
    if (room < end) return refused(11);
    const size_t fields[9] = {1, c.atoms, c.rows, c.literals, c.pairs, 18, literals_at, pairs_at, end};
    uint8_t *to = buffer;
    for (size_t i = 0; i < 9; i++) *to++ = (uint8_t)fields[i], *to++ = (uint8_t)(fields[i] >> 8);
    for (size_t r = 0; r < c.rows; r++) {
        for (size_t i = 0; i < 3; i++) *to++ = rows[3 * r + i];
        *to++ = 0;
    }
    for (size_t i = 0; i < literals_length; i++) *to++ = literals[i];
    for (size_t i = 0; i < pairs_length; i++) *to++ = pairs[i];
    return (uint32_t)end;
}

/* ---- the letter ---- */

uint8_t plain_letter(uint16_t number) {
    if (number >= 1 && number <= 8) return 'P';
    if (number == 9 || number == 11 || number == 12) return 'C';
    if (number == 10 || number == 13) return 'F';
    return ' ';
}
