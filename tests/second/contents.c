/* Contents for the writer. One that was read from an accepted page is good; each damage sets one thing at a bound, beside
   it, or where a shorter word would wrap. Most leave everything else as it fits, so that the fault stands alone. */
#include "contents.h"

void *memcpy(void *, const void *, size_t);
void *memmove(void *, const void *, size_t);
void *memset(void *, int, size_t);

enum { EDITED = 2048 }; /* only so many bytes of a part are ever other than 0; what a part is drawn out by is 0 */
static uint8_t memory[3][LONGEST_PART];

/* ---- from a page ---- */

static size_t field(const uint8_t *page, size_t at) { return page[at] | (size_t)page[at + 1] << 8; }

static Part fresh(int which, size_t length) {
    memset(memory[which], 0, EDITED);
    return (Part){memory[which], length};
}

int content_of_page(Content *content, const uint8_t *page, size_t length) {
    if (length < 18 || length > EDITED) return 0;
    size_t rows = field(page, 4), literals = field(page, 6), pairs = field(page, 8);
    if (length != 18 + 4 * rows + literals + 2 * pairs) return 0;
    *content = (Content){field(page, 2), fresh(0, 3 * rows), fresh(1, literals), fresh(2, 2 * pairs)};
    for (size_t r = 0; r < rows; r++) memcpy(content->rows.byte + 3 * r, page + 18 + 4 * r, 3);
    memcpy(content->literals.byte, page + 18 + 4 * rows, literals);
    memcpy(content->pairs.byte, page + 18 + 4 * rows + literals, 2 * pairs);
    return 1;
}

/* ---- sizes ---- */

enum { ATOMS, ROWS, LITERALS, PAIRS };
#define LESS(n) (0 - (size_t)(n))
#define POWER(n) ((size_t)1 << (n))

/* A size to take, or to add to the one that is there. */
static const struct {
    int what, adds;
    size_t size;
} sizes[] = {
    {ATOMS, 0, 0},          {ATOMS, 0, 1},           {ATOMS, 0, 16},          {ATOMS, 0, 17},
    {ATOMS, 0, 255},        {ATOMS, 0, 256},         {ATOMS, 0, 257},         {ATOMS, 0, 65536},
    {ATOMS, 0, LESS(1)},    {ATOMS, 1, LESS(1)},     {ATOMS, 1, 1},           {ATOMS, 1, 256},
    {ATOMS, 1, POWER(16)},  {ATOMS, 1, POWER(32)},   {ATOMS, 1, POWER(63)},
    /* three bytes a row */
    {ROWS, 1, 1},           {ROWS, 1, 2},            {ROWS, 1, 3},            {ROWS, 1, LESS(1)},
    {ROWS, 1, LESS(2)},     {ROWS, 1, LESS(3)},      {ROWS, 0, 95},           {ROWS, 0, 96},
    {ROWS, 0, 97},          {ROWS, 0, 98},           {ROWS, 0, 99},           {ROWS, 1, 256},
    {ROWS, 1, 3 * 256},     {ROWS, 1, 65536},        {ROWS, 0, 3 * 65536},    {ROWS, 0, 3 * 65536 + 1},
    {ROWS, 0, 3 * 65536 - 1}, {ROWS, 1, 3 * 65536},
    {LITERALS, 0, 0},       {LITERALS, 1, 1},        {LITERALS, 1, LESS(1)},  {LITERALS, 0, 704},
    {LITERALS, 0, 705},     {LITERALS, 1, 256},      {LITERALS, 1, LESS(256)}, {LITERALS, 0, 65536},
    {LITERALS, 1, 65536},
    /* two bytes a pair */
    {PAIRS, 1, 1},          {PAIRS, 1, LESS(1)},     {PAIRS, 1, 2},           {PAIRS, 1, LESS(2)},
    {PAIRS, 0, 15},         {PAIRS, 0, 16},          {PAIRS, 0, 17},          {PAIRS, 0, 18},
    {PAIRS, 1, 256},        {PAIRS, 1, 2 * 256},     {PAIRS, 1, 65536},       {PAIRS, 0, 2 * 65536},
    {PAIRS, 0, 2 * 65536 + 1}, {PAIRS, 1, 2 * 65536},
};

static void resize(Content *content, int which) {
    size_t *size[] = {&content->atoms, &content->rows.length, &content->literals.length, &content->pairs.length};
    int what = sizes[which].what;
    size_t now = (sizes[which].adds ? *size[what] : 0) + sizes[which].size;
    if (what == ATOMS || now <= LONGEST_PART) *size[what] = now;
}

/* ---- lists of a row: the head, 0, and the two bodies, 1 and 2 ---- */

/* Any row that is there, of those that can be edited. Where there is none, one is made. */
static size_t some_row(Content *content, Random *random) {
    if (content->rows.length < 3) content->rows.length = 3;
    size_t rows = content->rows.length / 3;
    return random_below(random, rows < 33 ? (uint32_t)rows : 33);
}

/* Gives a list other atoms. Its count and the literals fit them, but where other counts do not fit already. */
static void put_list(Content *content, size_t row, int list, const uint8_t *atoms, size_t count) {
    Part *literals = &content->literals;
    uint8_t *counted = content->rows.byte + 3 * row + list;
    size_t at = 0, old = *counted;
    for (const uint8_t *before = content->rows.byte; before < counted; before++) at += *before;
    if (at + old > literals->length || literals->length + count > EDITED) return;
    memmove(literals->byte + at + count, literals->byte + at + old, literals->length - at - old);
    memcpy(literals->byte + at, atoms, count);
    literals->length = literals->length + count - old;
    *counted = (uint8_t)count;
}

/* Heads and bodies of 6, 7, 8 and 9; bodies that rise, stay or fall, at the start and at the end. A head may do all that. */
static const char *const lists[] = {"",        "a",         "p",         "ab",       "aa",       "ba",        "abb",
                                    "acb",     "abcdef",    "fedcba",    "aaaaaa",   "abcdefg",  "abcdefgh",  "abcdefgg",
                                    "bacdefgh", "ijklmnop", "ijklmnpo", "abcdefghi"};

/* Atoms are letters, 'a' is 0. Half the time the page gets 16 atoms, so that all of them are known. */
static size_t spelled(Content *content, Random *random, const char *word, uint8_t *atoms) {
    size_t count = 0;
    for (; word[count]; count++) atoms[count] = (uint8_t)(word[count] - 'a');
    if (one_in(random, 2)) content->atoms = 16;
    return count;
}

static void spell_list(Content *content, Random *random, int list, const char *word) {
    uint8_t atoms[16];
    size_t count = spelled(content, random, word, atoms);
    put_list(content, some_row(content, random), list, atoms, count);
}

/* 255 of them: as many as a byte counts. */
static void longest_list(Content *content, Random *random, int list) {
    uint8_t atoms[255];
    for (int i = 0; i < 255; i++) atoms[i] = (uint8_t)i;
    put_list(content, some_row(content, random), list, atoms, 255);
}

/* ---- counts that the literals do not follow ---- */

static const struct {
    int adds, count;
} counts[] = {{1, 1}, {1, -1}, {0, 0}, {0, 6}, {0, 7}, {0, 8}, {0, 9}, {0, 255}};

static void miscount(Content *content, Random *random, int list, int which) {
    uint8_t *count = content->rows.byte + 3 * some_row(content, random) + list;
    *count = (uint8_t)((counts[which].adds ? *count : 0) + counts[which].count);
}

/* One list counts an atom more, another one less: the sum stays, but where the latter had none. */
static void trade(Content *content, Random *random) {
    content->rows.byte[3 * some_row(content, random) + random_below(random, 3)]++;
    content->rows.byte[3 * some_row(content, random) + random_below(random, 3)]--;
}

/* ---- atoms ---- */

/* The greatest that is known, the least that is not, and the greatest of all, in the literals or the pairs. */
static void put_atom(Content *content, Random *random, Part *part, int which) {
    if (part->length == 0 || part->length > EDITED) return;
    part->byte[random_below(random, (uint32_t)part->length)] = (uint8_t)(which == 2 ? 255 : content->atoms - 1 + (size_t)which);
}

/* ---- pairs ---- */

static const char *const pairs[] = {
    "ab", "abcd", "apbocndmelfkgjhi",       /* good ones: one, two, eight */
    "abcdefghijklmnop", "abcdefghijklmnopqr", /* eight in a row, and a ninth */
    "ba", "aa", "abdc", "abcc",             /* crossed, or one atom twice, in the first pair and in the last */
    "cdab", "abefcd",                       /* first atoms that fall */
    "abac", "acab",                         /* two firsts alike */
    "abbc", "adbcde",                       /* a second is a later first, side by side and apart */
    "bcab", "acba",                         /* a second is an earlier first, which cannot stand alone */
    "acbc", "adbecd", "apbocndmelfkgjhp",   /* two seconds alike, side by side, apart, and at the ends */
};

static void spell_pairs(Content *content, Random *random, const char *word) {
    content->pairs.length = spelled(content, random, word, content->pairs.byte);
}

/* ---- all of it ---- */

#define ENTRIES(table) ((int)(sizeof table / sizeof table[0]))

int content_damages(void) {
    return ENTRIES(sizes) + 3 * ENTRIES(lists) + 3 * ENTRIES(counts) + ENTRIES(pairs) + 3 + 6 + 1;
}

void damage_content(Content *content, Random *random, int which) {
    if (which < ENTRIES(sizes)) resize(content, which);
    else if ((which -= ENTRIES(sizes)) < 3 * ENTRIES(lists)) spell_list(content, random, which % 3, lists[which / 3]);
    else if ((which -= 3 * ENTRIES(lists)) < 3 * ENTRIES(counts)) miscount(content, random, which % 3, which / 3);
    else if ((which -= 3 * ENTRIES(counts)) < ENTRIES(pairs)) spell_pairs(content, random, pairs[which]);
    else if ((which -= ENTRIES(pairs)) < 3) longest_list(content, random, which);
    else if ((which -= 3) < 6) put_atom(content, random, which % 2 ? &content->pairs : &content->literals, which / 2);
    else trade(content, random);
}
