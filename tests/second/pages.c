/* Pages for the driver. A draft has the page's content as numbers, good or not; `write` lays it out as bytes with
   offsets that fit it, so that a draft with one fault gives a page with that fault alone. */
#include "pages.h"

void *memset(void *, int, size_t);
void *memmove(void *, const void *, size_t);

typedef struct {
    int heads, positives, negatives, fourth; /* fourth: the byte that must be 0 */
    int head[9], positive[9], negative[9]; /* room for one more than allowed, and then some */
} DraftRow;

typedef struct {
    int atoms, rows, pairs, spare; /* spare: literals that no row counts */
    DraftRow row[40];
    int pair[10][2];
} Draft;

/* ---- numbers ---- */

static unsigned long long next_random(Random *random) {
    unsigned long long z = random->state += 0x9E3779B97F4A7C15u;
    z = (z ^ z >> 30) * 0xBF58476D1CE4E5B9u;
    z = (z ^ z >> 27) * 0x94D049BB133111EBu;
    return z ^ z >> 31;
}
uint32_t random_below(Random *random, uint32_t limit) { return (uint32_t)((next_random(random) >> 32) * limit >> 32); }
int one_in(Random *random, uint32_t chances) { return random_below(random, chances) == 0; }
static int below(Random *random, int limit) { return (int)random_below(random, (uint32_t)limit); }
static int between(Random *random, int low, int high) { return low + below(random, high - low + 1); }

/* ---- layout ---- */

static void put_field(Page *page, size_t at, unsigned value) {
    page->byte[at] = (uint8_t)value;
    page->byte[at + 1] = (uint8_t)(value >> 8);
}
static unsigned get_field(const Page *page, size_t at) { return page->byte[at] | (unsigned)page->byte[at + 1] << 8; }

static void put_byte(Page *page, int value) { page->byte[page->length++] = (uint8_t)value; }

static void write(Page *page, const Draft *draft) {
    unsigned literals = (unsigned)draft->spare, rows = (unsigned)draft->rows, pairs = (unsigned)draft->pairs;
    for (int r = 0; r < draft->rows; r++)
        literals += (unsigned)(draft->row[r].heads + draft->row[r].positives + draft->row[r].negatives);
    unsigned field[] = {1,  (unsigned)draft->atoms, rows, literals, pairs, 18, 18 + 4 * rows, 18 + 4 * rows + literals,
                        18 + 4 * rows + literals + 2 * pairs};
    for (size_t i = 0; i < 9; i++) put_field(page, 2 * i, field[i]);
    page->length = 18;
    for (int r = 0; r < draft->rows; r++) {
        put_byte(page, draft->row[r].heads);
        put_byte(page, draft->row[r].positives);
        put_byte(page, draft->row[r].negatives);
        put_byte(page, draft->row[r].fourth);
    }
    for (int r = 0; r < draft->rows; r++) {
        const DraftRow *row = &draft->row[r];
        for (int i = 0; i < row->heads; i++) put_byte(page, row->head[i]);
        for (int i = 0; i < row->positives; i++) put_byte(page, row->positive[i]);
        for (int i = 0; i < row->negatives; i++) put_byte(page, row->negative[i]);
    }
    for (int i = 0; i < draft->spare; i++) put_byte(page, 0);
    for (int q = 0; q < draft->pairs; q++) {
        put_byte(page, draft->pair[q][0]);
        put_byte(page, draft->pair[q][1]);
    }
}

/* ---- rows ---- */

static DraftRow *add_row(Draft *draft) {
    DraftRow *row = &draft->row[draft->rows++];
    memset(row, 0, sizeof *row);
    return row;
}
static void add_head(DraftRow *row, int atom) { row->head[row->heads++] = atom; }
static void add_positive(DraftRow *row, int atom) { row->positive[row->positives++] = atom; }
static void add_negative(DraftRow *row, int atom) { row->negative[row->negatives++] = atom; }

/* `count` different atoms, rising. */
static void rising(Random *random, int atoms, int count, int *list) {
    int left = count;
    for (int atom = 0; atom < atoms; atom++)
        if (below(random, atoms - atom) < left) list[count - left--] = atom;
}

static void shuffle(Random *random, int *list, int count) {
    for (int i = count - 1; i > 0; i--) {
        int j = below(random, i + 1), kept = list[i];
        list[i] = list[j];
        list[j] = kept;
    }
}

static int least(int a, int b) { return a < b ? a : b; }

static int some_heads(Random *random) {
    static const int count[] = {0, 0, 0, 1, 1, 1, 1, 1, 1, 2, 2, 2, 2, 2, 3, 3, 4, 4, 5, 6};
    return count[below(random, 20)];
}
static int some_body(Random *random, int atoms) {
    static const int count[] = {0, 0, 0, 0, 0, 0, 0, 0, 1, 1, 1, 1, 1, 1, 2, 2, 2, 3, 4, 8};
    return least(atoms, count[below(random, 20)]);
}

static void random_row(Draft *draft, Random *random) {
    int atoms = draft->atoms;
    if (draft->rows > 0 && one_in(random, 8)) { /* a row that was pasted */
        draft->row[draft->rows] = draft->row[below(random, draft->rows)];
        draft->rows++;
        return;
    }
    DraftRow *row = add_row(draft);
    row->heads = some_heads(random);
    if (row->heads > atoms || one_in(random, 6)) { /* atoms may repeat */
        for (int i = 0; i < row->heads; i++) row->head[i] = below(random, atoms);
    } else {
        rising(random, atoms, row->heads, row->head);
        shuffle(random, row->head, row->heads);
    }
    row->positives = some_body(random, atoms);
    row->negatives = some_body(random, atoms);
    rising(random, atoms, row->positives, row->positive);
    rising(random, atoms, row->negatives, row->negative);
    if (row->positives > 0 && one_in(random, 10)) { /* an atom in both bodies */
        row->negatives = 1;
        row->negative[0] = row->positive[below(random, row->positives)];
    }
}

static void random_pairs(Draft *draft, Random *random) {
    int atom[17], most = least(8, draft->atoms / 2); /* a damaged draft may have 17 atoms */
    if (most == 0) return;
    int count = one_in(random, 3) ? most : between(random, 1, least(2, most));
    for (int i = 0; i < draft->atoms; i++) atom[i] = i;
    shuffle(random, atom, draft->atoms);
    for (int q = 0; q < count; q++) {
        int a = atom[2 * q], b = atom[2 * q + 1], at = draft->pairs++;
        int first = a < b ? a : b, second = a < b ? b : a;
        for (; at > 0 && draft->pair[at - 1][0] > first; at--) { /* kept in order of the first atoms */
            draft->pair[at][0] = draft->pair[at - 1][0];
            draft->pair[at][1] = draft->pair[at - 1][1];
        }
        draft->pair[at][0] = first;
        draft->pair[at][1] = second;
    }
}

static void shuffle_rows(Draft *draft, Random *random) {
    for (int i = draft->rows - 1; i > 0; i--) {
        int j = below(random, i + 1);
        DraftRow kept = draft->row[i];
        draft->row[i] = draft->row[j];
        draft->row[j] = kept;
    }
}

/* ---- shapes ---- */

/* Rows of every kind. */
static void mixed(Draft *draft, Random *random) {
    int rows = one_in(random, 12) ? between(random, 0, 32) : between(random, 0, 9);
    while (draft->rows < rows) random_row(draft, random);
}

/* Rings: for each atom of a group a row that starts at it and goes once round. Many answer sets. */
static void rings(Draft *draft, Random *random) {
    for (int start = 0; start < draft->atoms;) {
        int size = least(between(random, 1, 6), draft->atoms - start);
        for (int i = 0; i < size; i++) {
            DraftRow *row = add_row(draft);
            for (int k = 0; k < size; k++) add_head(row, start + (i + k) % size);
        }
        start += size;
    }
    while (draft->rows < 32 && one_in(random, 2)) random_row(draft, random);
}

/* A plant: trains that choose one of some readings, and bars that rule a reading out while an alarm is up. */
static void plant(Draft *draft, Random *random) {
    int readings = between(random, 2, 4), at = 0;
    while (at + readings < draft->atoms && draft->rows < 5) {
        DraftRow *row = add_row(draft);
        for (int k = 0; k < readings; k++) add_head(row, at + k);
        at += readings;
    }
    for (int alarm = at; alarm < draft->atoms && at > 0; alarm++) {
        DraftRow *row = add_row(draft);
        add_positive(row, below(random, at));
        add_positive(row, alarm);
        if (one_in(random, 3)) { /* an alarm that the page itself may raise */
            row = add_row(draft);
            add_head(row, alarm);
            add_negative(row, below(random, at));
        }
    }
    while (draft->rows < 20 && one_in(random, 2)) random_row(draft, random);
}

/* A chain of rows each of which needs the one before, in any order: the rounds of a reduct take long. */
static void chain(Draft *draft, Random *random) {
    int atom[16], atoms = draft->atoms;
    for (int i = 0; i < atoms; i++) atom[i] = i;
    shuffle(random, atom, atoms);
    for (int i = 0; i < atoms; i++) {
        DraftRow *row = add_row(draft);
        add_head(row, atom[i]);
        if (one_in(random, 4)) add_head(row, below(random, atoms));
        if (i > 0) add_positive(row, atom[i - 1]);
        if (one_in(random, 5)) add_negative(row, below(random, atoms));
    }
    if (atoms > 1 && one_in(random, 2)) { /* closed to a loop: the first leans on the last */
        add_positive(&draft->row[0], atom[atoms - 1]);
        random_row(draft, random);
    }
    shuffle_rows(draft, random);
}

/* Two rows that lean on each other, with rankings around them. */
static void leaning(Draft *draft, Random *random) {
    for (int n = between(random, 1, 3); n > 0; n--) {
        int a = below(random, draft->atoms), b = below(random, draft->atoms);
        DraftRow *row = add_row(draft);
        add_head(row, a);
        add_positive(row, b);
        row = add_row(draft);
        add_head(row, b);
        add_positive(row, a);
    }
    for (int n = between(random, 0, 4); n > 0; n--) random_row(draft, random);
    shuffle_rows(draft, random);
}

/* Rankings without bodies over the same atoms in other orders: many sets, many of them not comparable. */
static void rankings(Draft *draft, Random *random) {
    int atom[16], rows = between(random, 1, 6);
    for (int i = 0; i < draft->atoms; i++) atom[i] = i;
    while (draft->rows < rows) {
        DraftRow *row = add_row(draft);
        int heads = least(between(random, 2, 4), draft->atoms);
        shuffle(random, atom, draft->atoms);
        for (int k = 0; k < heads; k++) add_head(row, atom[k]);
    }
    while (draft->rows < 12 && one_in(random, 2)) random_row(draft, random);
}

/* As long as a page can be: rows with full lists. */
static void full(Draft *draft, Random *random) {
    int rows = one_in(random, 2) ? 32 : between(random, 20, 32);
    while (draft->rows < rows) {
        DraftRow *row = add_row(draft);
        row->heads = 6;
        for (int k = 0; k < 6; k++) row->head[k] = below(random, draft->atoms);
        row->positives = least(8, draft->atoms);
        row->negatives = least(8, draft->atoms);
        rising(random, draft->atoms, row->positives, row->positive);
        rising(random, draft->atoms, row->negatives, row->negative);
    }
}

static int some_atoms(Random *random) {
    int n = below(random, 1000);
    if (n < 330) return between(random, 1, 4);
    if (n < 600) return between(random, 5, 6);
    if (n < 780) return between(random, 7, 9);
    if (n < 890) return between(random, 10, 12);
    return between(random, 13, 16);
}

static void draft_page(Draft *draft, Random *random) {
    memset(draft, 0, sizeof *draft);
    draft->atoms = some_atoms(random);
    int shape = below(random, 20);
    if (shape < 9) mixed(draft, random);
    else if (shape < 11) rings(draft, random);
    else if (shape < 13) plant(draft, random);
    else if (shape < 15) chain(draft, random);
    else if (shape < 17) leaning(draft, random);
    else if (shape < 19) rankings(draft, random);
    else full(draft, random);
    if (one_in(random, 3)) random_pairs(draft, random);
}

void generated_page(Page *page, Random *random) {
    Draft draft;
    draft_page(&draft, random);
    write(page, &draft);
}

/* ---- dense pages ---- */

static int short_body(Draft *draft, Random *random, int *body) {
    int count = one_in(random, 4) ? between(random, 1, 2) : 0;
    rising(random, draft->atoms, count, body);
    return count;
}

/* A row that wants an atom, or else some others, mostly up to one that holds anyway: then it rules no set out. */
static void want(Draft *draft, Random *random, int atom, int holds) {
    DraftRow *row = add_row(draft);
    add_head(row, atom);
    for (int n = one_in(random, 2) ? 0 : below(random, 5); n > 0; n--) add_head(row, below(random, draft->atoms)); /* atoms may repeat */
    if (!one_in(random, 8)) add_head(row, holds);
    row->positives = short_body(draft, random, row->positive);
    row->negatives = short_body(draft, random, row->negative);
}

/* A row that would rather be without an atom: it wants one that cannot hold. */
static void shun(Draft *draft, Random *random, int atom, int never, int holds) {
    DraftRow *row = add_row(draft);
    for (int n = one_in(random, 3) ? between(random, 2, 4) : 1; n > 0; n--) add_head(row, never);
    add_head(row, one_in(random, 2) ? holds : atom);
    add_positive(row, atom);
    row->negatives = short_body(draft, random, row->negative);
}

/* One atom holds and one cannot. Rings and wishes over the others, and rows against them: many sets, of which few can be
   compared, or most. */
void dense_page(Page *page, Random *random) {
    Draft draft;
    int atom[16], against = below(random, 3);
    memset(&draft, 0, sizeof draft);
    draft.atoms = one_in(random, 4) ? between(random, 7, 13) : between(random, 14, 16);
    for (int i = 0; i < draft.atoms; i++) atom[i] = i;
    shuffle(random, atom, draft.atoms);
    int left = draft.atoms - 2, holds = atom[left], never = atom[left + 1];
    add_head(add_row(&draft), holds);
    add_positive(add_row(&draft), never);
    for (int start = 0, size; start < left; start += size) {
        size = one_in(random, 2) ? 1 : least(between(random, 2, 6), left - start);
        if (size == 1) want(&draft, random, atom[start], holds);
        for (int i = 0; size > 1 && i < size; i++) {
            DraftRow *row = add_row(&draft);
            for (int k = 0; k < size; k++) add_head(row, atom[start + (i + k) % size]);
        }
    }
    for (int i = 0; i < left; i++)
        if (against == 0 || (against == 1 && one_in(random, 3))) shun(&draft, random, atom[i], never, holds);
    while (draft.rows < 32 && one_in(random, 2)) want(&draft, random, below(random, draft.atoms), holds);
    shuffle_rows(&draft, random);
    if (one_in(random, 4)) random_pairs(&draft, random);
    write(page, &draft);
}

/* ---- damage ---- */

/* A fault in the content, with a layout that fits it. */
static void spoil_draft(Draft *draft, Random *random) {
    int fault = below(random, 18);
    if (fault >= 11 && fault < 16 && draft->pairs == 0) random_pairs(draft, random); /* a fault in a pair needs one */
    DraftRow *row = draft->rows ? &draft->row[below(random, draft->rows)] : 0;
    int *pair = draft->pairs ? draft->pair[below(random, draft->pairs)] : 0;
    int bad_atom = one_in(random, 2) ? draft->atoms : between(random, draft->atoms, 255);
    switch (fault) {
    case 0: draft->atoms = one_in(random, 2) ? 0 : 17; break;
    case 1: while (draft->rows < 33) draft->row[draft->rows++] = draft->row[0]; break;
    case 2: /* nine pairs, or pairs in the wrong order */
        while (draft->pairs < 9) {
            draft->pair[draft->pairs][0] = 2 * draft->pairs;
            draft->pair[draft->pairs][1] = 2 * draft->pairs + 1;
            draft->pairs++;
        }
        if (one_in(random, 2)) draft->pairs = 8;
        break;
    case 3: if (row) while (row->heads < 7) add_head(row, 0); break;
    case 4: if (row) for (row->positives = 0; row->positives < 9; row->positives++) row->positive[row->positives] = row->positives; break;
    case 5: if (row) for (row->negatives = 0; row->negatives < 9; row->negatives++) row->negative[row->negatives] = row->negatives; break;
    case 6: if (row && row->heads) row->head[below(random, row->heads)] = bad_atom; break;
    case 7: if (row && row->positives) row->positive[row->positives - 1] = bad_atom; break;
    case 8: if (row && row->negatives) row->negative[row->negatives - 1] = bad_atom; break;
    case 9: if (row && row->positives > 0 && row->positives < 8) add_positive(row, row->positive[below(random, row->positives)]); break;
    case 10: if (row && row->negatives > 0 && row->negatives < 8) add_negative(row, row->negative[below(random, row->negatives)]); break;
    case 11: if (pair) { int a = pair[0]; pair[0] = pair[1]; pair[1] = one_in(random, 2) ? a : pair[0]; } break;
    case 12: if (pair) pair[below(random, 2)] = draft->pair[0][below(random, 2)]; break;
    case 13: if (pair) pair[1] = draft->pair[draft->pairs - 1][below(random, 2)]; break;
    case 14: if (pair) pair[below(random, 2)] = bad_atom; break;
    case 16: if (row) row->fourth = between(random, 1, 255); break;
    case 17: draft->spare = between(random, 1, 3); break;
    default: /* two at once: a bad atom in a pair (6) and a bad body (7), the one behind the other in the page */
        if (pair) pair[1] = bad_atom;
        if (row && row->positives > 0 && row->positives < 8) add_positive(row, row->positive[0]);
    }
}

/* A value at a bound of this field, or near what it was. */
static unsigned near_bound(Random *random, unsigned field, unsigned value) {
    static const unsigned most[] = {1, 16, 32, 704, 8};
    switch (below(random, 8)) {
    case 0: return field < 5 ? most[field] : value;
    case 1: return field < 5 ? most[field] + 1 : value + 4;
    case 2: return value + 1;
    case 3: return value - 1;
    case 4: return value + 256;
    case 5: return 0;
    case 6: return value << 8 | value >> 8;
    default: return random_below(random, 65536);
    }
}

static void spoil_bytes(Page *page, Random *random) {
    size_t length = page->length;
    unsigned rows = length >= 18 ? get_field(page, 4) : 0;
    unsigned field = random_below(random, 9);
    switch (below(random, 10)) {
    case 0: case 1:
        if (length >= 18) put_field(page, 2 * field, near_bound(random, field, get_field(page, 2 * field)));
        break;
    case 2: case 3: /* a byte of a row */
        if (rows > 0 && rows <= 40 && 18 + 4 * rows <= length) {
            uint8_t *byte = page->byte + 18 + random_below(random, 4 * rows);
            *byte = (uint8_t)(one_in(random, 2) ? *byte + 1 : one_in(random, 2) ? *byte - 1 : between(random, 0, 10));
        }
        break;
    case 4: /* two rows trade a literal: the sum stays */
        if (rows > 1 && rows <= 40 && 18 + 4 * rows <= length) {
            page->byte[18 + 4 * random_below(random, rows) + random_below(random, 3)]++;
            page->byte[18 + 4 * random_below(random, rows) + random_below(random, 3)]--;
        }
        break;
    case 5: page->length = random_below(random, (uint32_t)length + 1); break;
    case 6: if (length > 0) page->length--; break;
    case 7: /* a tail, owned up to in the whole length or not */
        page->length += one_in(random, 2) ? 1 : random_below(random, 200);
        for (size_t i = length; i < page->length; i++) page->byte[i] = (uint8_t)random_below(random, 4);
        if (page->length >= 18 && one_in(random, 2)) put_field(page, 16, (unsigned)page->length);
        break;
    default: /* any byte */
        for (int n = between(random, 1, 3); n > 0 && length > 0; n--)
            page->byte[random_below(random, (uint32_t)length)] = (uint8_t)(one_in(random, 2) ? below(random, 20) : below(random, 256));
    }
}

/* Writes a page with one to three faults, of content, of layout or of both. Now and then it is good after all. */
void damage(Page *page, Random *random) {
    Draft draft;
    static const int faults[][2] = {{1, 0}, {1, 0}, {1, 0}, {2, 0}, {3, 0}, {0, 1}, {0, 1}, {1, 1}, {2, 1}, {0, 2}, {1, 2}};
    const int *fault = faults[below(random, 11)];
    draft_page(&draft, random);
    for (int n = fault[0]; n > 0; n--) spoil_draft(&draft, random);
    write(page, &draft);
    for (int n = fault[1]; n > 0; n--)
        if (page->length <= 900) spoil_bytes(page, random);
}

/* ---- hand-made pages: the ends of every range ---- */

static void facts(Draft *draft, int rows) {
    while (draft->rows < rows) {
        int atom = draft->rows % draft->atoms;
        add_head(add_row(draft), atom);
    }
}

static void choices(Draft *draft, int rows, int heads) {
    while (draft->rows < rows) {
        DraftRow *row = add_row(draft);
        for (int k = 0; k < heads; k++) add_head(row, (draft->rows + k) % draft->atoms);
    }
}

void hand_made_page(Page *page, int which) {
    Random random = {(unsigned)which};
    Draft draft;
    memset(&draft, 0, sizeof draft);
    draft.atoms = 16;
    switch (which) {
    case 0: draft.atoms = 1; break;                     /* the shortest page */
    case 1: facts(&draft, 32); break;                   /* most rows */
    case 2: facts(&draft, 33); break;                   /* and one more */
    case 3: choices(&draft, 1, 6); break;               /* six alternatives */
    case 4: choices(&draft, 1, 7); break;               /* seven */
    case 5: draft.atoms = 8; choices(&draft, 6, 4); break;                        /* 4,096 split programs */
    case 6: draft.atoms = 8; choices(&draft, 6, 4); choices(&draft, 7, 2); break; /* 8,192 */
    case 7: choices(&draft, 12, 2); break;              /* 4,096 from rows of two */
    case 8: draft.atoms = 6; choices(&draft, 32, 6); break; /* more split programs than 64 bits count */
    case 9:                                             /* 59,535 answer sets, with one best */
        for (int start = 0; start < 16; start += 6)
            for (int size = least(6, 16 - start), i = 0; i < size; i++) {
                DraftRow *row = add_row(&draft);
                for (int k = 0; k < size; k++) add_head(row, start + (i + k) % size);
            }
        break;
    case 10:                                            /* 32,768 answer sets */
        add_head(add_row(&draft), 15);
        for (int a = 0; a < 15; a++) {
            DraftRow *row = add_row(&draft);
            add_head(row, a);
            add_head(row, 15);
        }
        break;
    case 11: full(&draft, &random); while (draft.rows < 32) draft.row[draft.rows++] = draft.row[0]; break; /* most literals */
    case 12: case 13: case 14:                          /* eight pairs; a ninth; the longest page */
        for (; draft.pairs < (which == 13 ? 9 : 8); draft.pairs++) {
            draft.pair[draft.pairs][0] = draft.pairs % 8;
            draft.pair[draft.pairs][1] = draft.pairs % 8 + 8;
        }
        if (which == 14) { full(&draft, &random); while (draft.rows < 32) draft.row[draft.rows++] = draft.row[0]; }
        break;
    case 15: draft.atoms = 17; facts(&draft, 17); break; /* one atom too many */
    case 16: draft.atoms = 0; break;                    /* no atom */
    default: facts(&draft, 3); add_row(&draft); break;  /* a row with no head and no body: no answer set */
    }
    write(page, &draft);
}
