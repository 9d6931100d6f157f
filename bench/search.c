/* search_list, search_best, search_pick: a second solver made for speed, unverified, inclusion ranking.
   It keeps to what the engine could do: the page is checked, nothing is kept between calls, there are no tables, and
   14 KiB of stack are enough. What makes it fast:
   - bounds: facts, barred atoms and what follows from them are settled first, so that only open atoms are tried;
   - four blocks of 64 sets at once, a group: in it the eight lowest open atoms differ from lane to lane;
   - a group looks only at rows whose bodies can hold in it, and is passed over where an upper atom has no such row;
   - rows of lane atoms alone are passed once for the call;
   - what a set beats lies in a cube (take), so few blocks are looked at for it; and the marks get fewer meanwhile;
   - where some set has degree 1 in every row that ranks, the best sets are just those that have;
   - pick looks whether the lowest set stands before all groups are filled, and finds all best sets only as a last way. */
#include "search.h"
typedef uint8_t u8; typedef uint16_t u16; typedef uint32_t u32; typedef unsigned long u64;
typedef u64 W __attribute__((vector_size(32)));   /* a bit for each set of a group */
enum { WIDE = 4, INNER = 8, NONE = 65536, TRIES = 8 };   /* blocks in a group; open atoms that differ in it; no set; tries of pick */
#define ONES (~0ul)
static const W ZERO;
static const u64 LANE[6] = {0xAAAAAAAAAAAAAAAA, 0xCCCCCCCCCCCCCCCC, 0xF0F0F0F0F0F0F0F0, 0xFF00FF00FF00FF00, 0xFFFF0000FFFF0000, 0xFFFFFFFF00000000};
#define ANY(x) (((x)[0] | (x)[1] | (x)[2] | (x)[3]) != 0)
static inline int low(u64 x) { return __builtin_ctzl(x); }
static inline int high(u64 x) { return 63 - __builtin_clzl(x); }
static inline u64 bit(u32 i) { return 1ul << (i & 63); }
static inline u32 first_bits(int n) { return n == 32 ? ~0u : (1u << n) - 1; }
static inline u32 field(const u8 *page, int at) { return page[at] | (u32)page[at + 1] << 8; }

/* ---- the page: its refusal number, 0 if it is accepted ---- */
static u32 check(const u8 *page, size_t length, u32 flags) {
    if (length < 18) return 1;
    u32 A = field(page, 2), R = field(page, 4), L = field(page, 6), Q = field(page, 8), at = 18 + 4 * R, sum = 0, seen = 0;
    if (field(page, 0) != 1) return 2;
    if (A < 1 || A > 16 || R > 32 || L > 704 || Q > 8) return 3;
    if (field(page, 10) != 18 || field(page, 12) != at || field(page, 14) != at + L || field(page, 16) != at + L + 2 * Q || length != field(page, 16)) return 4;
    const u8 *end = page + at, *l = end;
    for (const u8 *c = page + 18; c < end; c += 4) { if (c[0] > 6 || c[1] > 8 || c[2] > 8 || c[3]) return 5; sum += c[0] + c[1] + c[2]; }
    if (sum != L) return 5;
    for (u32 i = at; i < length; i++) if (page[i] >= A) return 6;
    for (const u8 *c = page + 18; c < end; c += 4) {
        l += c[0];
        for (int part = 1; part < 3; l += c[part++]) for (int k = 1; k < c[part]; k++) if (l[k - 1] >= l[k]) return 7;
    }
    for (u32 q = 0; q < Q; q++, l += 2) {
        if (l[0] >= l[1] || (q && l[-2] >= l[0]) || (seen >> l[0] & 1) || (seen >> l[1] & 1)) return 8;
        seen |= 1u << l[0] | 1u << l[1];
    }
    return flags >> A ? 9 : 0;
}

/* ---- what is found out once for a call ---- */
typedef struct {
    int rows, pairs, none;                  /* none: there is no answer set, which showed early */
    u16 pos[32], neg[32], any[32], pair[8]; /* a row: its bodies and its head atoms as sets */
    u32 head[32]; u8 heads[32];             /* its head in order, four bits an atom, and how long it is */
    u16 lo, hi, inner, upper;               /* every answer set lies between lo and hi; open atoms: those of the lanes, the others */
    u32 alive, bars, done;                  /* rows that can fire; without head; passed once for the call */
    int open, blocks, groups;
    u8 at[16], to[16];                      /* open atom i is atom at[i], and back */
    u32 live[8][2], by[16];                 /* rows alive while an upper atom is out, in; rows with the atom in their heads */
    W start, word[16], given[16], body[32]; /* sets not ruled out; words of group 0; what holds from the start; lane parts of bodies */
} Plan;

static inline W cut(W x, u32 in, u32 out, const W *w) {   /* x where all of in and none of out hold */
    for (; in; in &= in - 1) x &= w[low(in)];
    for (; out; out &= out - 1) x &= ~w[low(out)];
    return x;
}
static inline u64 lanes(u32 in, u32 out) {                /* the same for a block's lowest six atoms */
    u64 x = ONES;
    for (in &= 63; in; in &= in - 1) x &= LANE[low(in)];
    for (out &= 63; out; out &= out - 1) x &= ~LANE[low(out)];
    return x;
}

static void read_page(Plan *p, const u8 *page) {
    const u8 *c = page + 18, *l = c + 4 * page[4];
    p->rows = page[4]; p->pairs = page[8];
    for (int r = 0; r < p->rows; r++, c += 4) {
        u32 part[3] = {0, 0, 0}, head = 0;
        for (int k = 0; k < c[0]; k++) head |= (u32)l[k] << 4 * k;
        for (int i = 0; i < 3; l += c[i++]) for (int k = 0; k < c[i]; k++) part[i] |= 1u << l[k];
        p->any[r] = part[0]; p->pos[r] = part[1]; p->neg[r] = part[2]; p->head[r] = head; p->heads[r] = c[0];
    }
    for (int q = 0; q < p->pairs; q++, l += 2) p->pair[q] = 1u << l[0] | 1u << l[1];
}

/* Bounds: lo grows by what must hold, hi shrinks by what cannot, until neither moves. Rows that cannot fire go. */
static void bound(Plan *p, u16 flags) {
    u16 lo = flags, hi = flags, lo_was, hi_was;
    u32 alive = first_bits(p->rows);
    for (int r = 0; r < p->rows; r++) hi |= p->any[r];
    p->none = 0;
    do {
        u16 up = flags;                                   /* atoms that still have a row */
        lo_was = lo; hi_was = hi;
        for (u32 m = alive; m; m &= m - 1) {
            int r = low(m); u16 a = p->pos[r], b = p->neg[r], h = p->any[r] & hi;
            if ((a & ~hi) | (b & lo) | (a & b)) { alive &= ~(1u << r); continue; }
            up |= h;
            if (b & hi) continue;
            a &= ~lo;
            if (!a) { if (!(h & (h - 1))) { lo |= h; if (!h) p->none = 1; } }
            else if (!h && !(a & (a - 1))) hi &= ~a;
        }
        for (int q = 0; q < p->pairs; q++) if (p->pair[q] & lo) { u16 a = p->pair[q] & ~lo; hi &= ~a; if (!a) p->none = 1; }
        hi &= up;
        if (lo & ~hi) p->none = 1;
    } while (!p->none && (lo != lo_was || hi != hi_was));
    p->lo = lo; p->hi = hi; p->alive = alive;
}

/* Numbers the open atoms, so that lanes and blocks are dense, and makes the words that are the same in every group. */
static void lay_out(Plan *p) {
    u16 open = p->hi & ~p->lo, inner = 0;
    int n = 0;
    for (u32 x = open; x; x &= x - 1) { int a = low(x); p->to[a] = n; p->at[n++] = a; if (n <= INNER) inner |= 1u << a; }
    p->inner = inner; p->upper = open & ~inner;
    p->open = n; p->blocks = n <= 6 ? 1 : 1 << (n - 6); p->groups = n <= INNER ? 1 : 1 << (n - INNER);
    for (int a = 0; a < 16; a++) { p->word[a] = p->given[a] = p->lo >> a & 1 ? ~ZERO : ZERO; p->by[a] = 0; }
    p->start = ZERO + (n < 6 ? (1ul << (1 << n)) - 1 : ONES);
    for (int k = 0; k < 6 && k < n; k++) p->word[p->at[k]] = ZERO + LANE[k];
    for (int z = 0; z < WIDE; z++) {
        for (int k = 6; k < INNER && k < n; k++) p->word[p->at[k]][z] = z >> (k - 6) & 1 ? ONES : 0;
        if (z >= p->blocks) p->start[z] = 0;
    }
    for (int i = INNER; i < n; i++) p->live[i - INNER][0] = p->live[i - INNER][1] = ~0u;
    p->bars = p->done = 0;
    for (u32 m = p->alive; m; m &= m - 1) {
        int r = low(m); u32 row = 1u << r;
        W x = cut(~ZERO, p->pos[r] & inner, p->neg[r] & inner, p->word);
        p->body[r] = x;
        if (!ANY(x)) p->alive &= ~row;
        for (u32 z = p->pos[r] & p->upper; z; z &= z - 1) p->live[p->to[low(z)] - INNER][0] &= ~row;
        for (u32 z = p->neg[r] & p->upper; z; z &= z - 1) p->live[p->to[low(z)] - INNER][1] &= ~row;
        for (u32 z = p->any[r] & p->upper; z; z &= z - 1) p->by[low(z)] |= row;
        if (!p->heads[r]) p->bars |= row;
    }
}

/* Rows of lane atoms alone say the same in every group: those that need not wait for others are passed here. */
static void pass_once(Plan *p) {
    for (u32 m = p->alive; m; m &= m - 1) {
        int r = low(m);
        if ((p->pos[r] | p->neg[r] | p->any[r]) & p->upper) continue;
        W x = p->body[r], f = cut(x, p->pos[r], 0, p->given);
        if (ANY(f ^ x)) continue;
        p->done |= 1u << r;
        for (u32 k = p->heads[r], h = p->head[r]; k; k--, h >>= 4) { W y = p->word[h & 15]; p->given[h & 15] |= x & y; x &= ~y; }
        p->start &= ~x;
    }
}

static void plan(Plan *p, const u8 *page, u16 flags) {
    read_page(p, page);
    bound(p, flags);
    if (p->none) return;
    lay_out(p);
    if (p->groups > 1) pass_once(p);
}

/* ---- the answer sets of one group: w has its words, f its atoms outside the lanes ---- */
static W group(const Plan *p, const W *w, u16 f) {
    W cur[16], can[16], ok = p->start;                    /* cur: what is reached; can: what a row that waits might reach */
    u32 live = p->alive & ~p->done, wait = 0, holds = p->inner | (f & p->upper);
    for (int i = p->open - 1; i >= INNER; i--) live &= p->live[i - INNER][f >> p->at[i] & 1];
    for (u32 z = f & p->upper; z; z &= z - 1) if (!(p->by[low(z)] & live)) return ZERO;
    for (int q = 0; q < p->pairs; q++) ok &= ~cut(ok, p->pair[q], 0, w);
    for (u32 m = live & p->bars; m; m &= m - 1) ok &= ~p->body[low(m)];
    if (!ANY(ok)) return ZERO;
    for (int a = 0; a < 16; a++) cur[a] = p->given[a];
    for (u32 m = live & ~p->bars; m; m &= m - 1) {
        int r = low(m);
        W x = p->body[r] & ok, y;
        if (!ANY(x)) continue;
        W fires = cut(x, p->pos[r], 0, cur);
        u32 k = p->heads[r], h = p->head[r];
        if (ANY(fires ^ x)) {
            if (!wait) for (int a = 0; a < 16; a++) can[a] = ZERO;
            wait |= 1u << r;
            for (; k; k--, h >>= 4) { y = w[h & 15]; cur[h & 15] |= fires & x & y; can[h & 15] |= x & y; x &= ~y; if (!ANY(x)) goto met; }
        } else for (; k; k--, h >>= 4) { y = w[h & 15]; cur[h & 15] |= x & y; x &= ~y; if (!ANY(x)) goto met; }
        ok &= ~x;
        if (!ANY(ok)) return ZERO;
    met:;
    }
    if (wait) {                                           /* a set with an atom that no row can give goes before any round */
        for (u32 z = holds; z; z &= z - 1) { int a = low(z); ok &= ~w[a] | cur[a] | can[a]; }
        if (!ANY(ok)) return ZERO;
    }
    for (;;) {
        W todo = ZERO, grew = ZERO;
        for (u32 z = holds; z; z &= z - 1) { int a = low(z); todo |= w[a] & ~cur[a]; }
        todo &= ok;
        if (!ANY(todo)) return ok;
        for (u32 m = wait; m; m &= m - 1) {
            int r = low(m);
            W x = p->body[r] & todo, y;
            if (!ANY(x)) { wait &= ~(1u << r); continue; }
            W fires = cut(x, p->pos[r], 0, cur);
            if (!ANY(fires)) continue;
            if (!ANY(fires ^ x)) wait &= ~(1u << r);
            for (u32 k = p->heads[r], h = p->head[r]; k && ANY(fires); k--, h >>= 4) {
                y = fires & w[h & 15]; grew |= y & ~cur[h & 15]; cur[h & 15] |= y; fires &= ~y;
            }
        }
        ok &= ~todo | grew;                               /* a lane that gained nothing is closed, and short of its set */
    }
}

/* ---- filling the marks: a word for each block ---- */
typedef struct { W w[16]; u16 f; int next; } Filler;      /* words and upper atoms of the group that comes next */
static void begin(const Plan *p, Filler *g) { for (int a = 0; a < 16; a++) g->w[a] = p->word[a]; g->f = p->lo; g->next = 0; }
static int filled(const Plan *p, const Filler *g) { int b = g->next * WIDE; return b < p->blocks ? b : p->blocks; }
static void fill_next(const Plan *p, Filler *g, u64 *marks) {
    W x = group(p, g->w, g->f);
    int b = g->next++ * WIDE;
    for (int z = 0; z < WIDE && b + z < p->blocks; z++) marks[b + z] = x[z];
    u16 f = (((g->f | ~p->upper) + 1) & p->upper) | p->lo; /* the carry runs to the next open atom */
    for (u32 z = (g->f ^ f) & p->upper; z; z &= z - 1) g->w[low(z)] = ~g->w[low(z)];
    g->f = f;
}
static void fill(const Plan *p, u64 *marks) {
    Filler g;
    for (begin(p, &g); g.next < p->groups; ) fill_next(p, &g, marks);
}

static u16 set_of(const Plan *p, u32 i) {
    u16 s = p->lo;
    for (; i; i &= i - 1) s |= 1u << p->at[low(i)];
    return s;
}
static u32 store(const Plan *p, const u64 *marks, u16 *out, size_t room) {
    u32 count = 0; u16 t[64], up = 0, f = p->lo;          /* t: the sets of a block; up: the open atoms that number the blocks */
    for (int b = 0; b < p->blocks; b++) count += __builtin_popcountl(marks[b]);
    if (count > room) return 11u << 16;
    if (p->blocks == 1) { for (u64 x = marks[0]; x; x &= x - 1) *out++ = set_of(p, low(x)); return count; }
    t[0] = 0;
    for (int a = 0; a < 6; a++) for (int j = 0; j < 1 << a; j++) t[(1 << a) + j] = t[j] | 1u << p->at[a];
    for (int i = 6; i < p->open; i++) up |= 1u << p->at[i];
    for (int b = 0; b < p->blocks; b++, f = (((f | ~up) + 1) & up) | p->lo) {
        u64 x = marks[b], pairs = x & x >> 1;
        if (!x) continue;
        if (x == ONES) { for (int j = 0; j < 64; j++) out[j] = f | t[j]; out += 64; continue; }
        if (pairs & pairs >> 2) for (const u16 *v = t; x; x >>= 8, v += 8) {               /* dense: by bytes */
            u32 y = x & 255;
            if (y == 255) { for (int j = 0; j < 8; j++) out[j] = f | v[j]; out += 8; } else for (; y; y &= y - 1) *out++ = f | v[low(y)];
        } else for (; x; x &= x - 1) *out++ = f | t[low(x)];
    }
    return count;
}

/* ---- ranking. A set is 64 times its block and its lane. A row is missed (degree above 1) exactly in a cube: where
   the set agrees with `want` in the atoms of `care` ---- */
typedef struct { u16 care[32], want[32]; u64 lane[32]; u8 row[32]; int n; u32 all, unit, deep; } Ranks;   /* unit: one atom cared for; deep: heads of three or more */

static u16 press(const Plan *p, u32 atoms) { u16 s = 0; for (; atoms; atoms &= atoms - 1) s |= 1u << p->to[low(atoms)]; return s; }
static void rank_rows(const Plan *p, Ranks *q) {
    u16 open = p->inner | p->upper;
    q->n = 0; q->unit = q->deep = 0;
    for (u32 m = p->alive; m; m &= m - 1) {
        int r = low(m), y = q->n;
        u16 in = p->pos[r], out = p->neg[r] | 1u << (p->head[r] & 15);
        if (p->heads[r] < 2 || (in & out) | (in & ~p->hi) | (out & p->lo)) continue;      /* always degree 1 */
        u16 want = press(p, in & open), care = press(p, (in | out) & open);
        q->n++; q->row[y] = r; q->want[y] = want; q->care[y] = care; q->lane[y] = lanes(want, care & ~want);
        if (care && !(care & (care - 1))) q->unit |= 1u << y;
        if (p->heads[r] > 2) q->deep |= 1u << y;
    }
    q->all = first_bits(q->n);
}
/* lanes of block b in which row y is missed */
static inline u64 missed(const Ranks *q, int y, u32 b) { return (b << 6 ^ q->want[y]) & q->care[y] & 0xFFC0 ? 0 : q->lane[y]; }
static inline u32 missed_rows(const Ranks *q, u32 i) { u32 m = 0; for (int y = 0; y < q->n; y++) m |= (u32)(((i ^ q->want[y]) & q->care[y]) == 0) << y; return m; }
static inline u64 none_missed(const Ranks *q, u32 rows, u32 b, u64 x) { for (; rows && x; rows &= rows - 1) x &= ~missed(q, low(rows), b); return x; }

/* The sets that hold `in` and nothing of `out`, block by block. */
typedef struct { u32 block, first, shut; u64 lane; } Cube;
static inline Cube cube(const Plan *p, u32 in, u32 out) { return (Cube){in >> 6, in >> 6, ~(p->blocks - 1u) | in >> 6 | out >> 6, lanes(in, out)}; }
static inline int next_block(Cube *c) { u32 n = (c->block | c->shut) + 1; c->block = (n & ~c->shut) | c->first; return n != 0; }   /* no: the carry ran out */

/* The degrees above 1 of the set in hand. Among sets that miss the same rows and are equal up to degree k - 1, one has
   degree k wherever the set in hand has it iff it holds in[k], and nowhere else iff it holds nothing of out[k]. */
typedef struct { u16 in[7], out[7]; int last; } Degrees;
static void grade(const Plan *p, const Ranks *q, u32 miss, u32 i, Degrees *d) {
    u16 s = set_of(p, i), open = p->inner | p->upper;
    d->last = 1;
    for (u32 m = miss & q->deep; m; ) {                   /* rows of two head atoms say no more */
        u16 in = 0, out = 0; int k = ++d->last;
        for (u32 z = m; z; z &= z - 1) {
            int y = low(z), a = p->head[q->row[y]] >> 4 * (k - 1) & 15;
            u32 h = s >> a & 1;
            in |= h << a; out |= (h ^ 1) << a; m &= ~(h << y);
        }
        d->in[k] = press(p, in & open); d->out[k] = press(p, out & open);
    }
}
static inline u64 holds(u32 in, u32 out, u32 b) { return (in >> 6 & ~b) | (out >> 6 & b) ? 0 : lanes(in, out); }
typedef struct { u64 won, lost; } Both;
static Both deeper(const Degrees *d, u32 b, u64 x) {      /* lanes of x preferred to the set in hand, and those that it is preferred to */
    Both c = {0, 0};
    for (int k = 2; k <= d->last && x; k++) {
        u64 up = x & holds(d->in[k], 0, b), down = x & holds(0, d->out[k], b);
        c.won |= up & ~down; c.lost |= down & ~up; x = up & down;
    }
    return c;
}

/* i clears what it beats: that misses every row which i misses, so it lies in a cube. Is i itself beaten on the way? */
static int take(const Plan *p, const Ranks *q, u64 *marks, u32 i) {
    u32 miss = 0, in = 0, care = 0;
    for (int y = 0; y < q->n; y++) {
        u32 c = q->care[y], v = q->want[y], hit = -(u32)(((i ^ v) & c) == 0);
        miss |= hit & 1u << y; in |= hit & v; care |= hit & c;
    }
    u32 rest = q->all & ~miss;
    Cube c = cube(p, in, care & ~in);
    Degrees d; d.last = 0;
    do {
        u32 b = c.block;
        u64 x = marks[b] & c.lane, lost = 0;
        if (b == i >> 6) x &= ~bit(i);
        if (!x) continue;
        for (u32 z = rest; z; z &= z - 1) lost |= missed(q, low(z), b);
        u64 same = x & ~lost;
        lost &= x;
        if (same && (miss & q->deep)) {
            if (!d.last) grade(p, q, miss, i, &d);
            Both both = deeper(&d, b, same);
            lost |= both.lost;
            if (both.won) { marks[b] &= ~lost; return 1; }
        }
        marks[b] &= ~lost;
    } while (next_block(&c));
    return 0;
}

/* A set preferred to i has degree 1 wherever i has. Where that hangs on one atom alone, the atom is settled. */
static Cube rivals(const Plan *p, const Ranks *q, u32 first) {
    u32 in = 0, out = 0;
    for (u32 z = first & q->unit; z; z &= z - 1) { int y = low(z); in |= q->care[y] & ~q->want[y]; out |= q->want[y]; }
    return cube(p, in, out);
}
/* the least marked set that is preferred to i, NONE where there is none */
static u32 rival(const Plan *p, const Ranks *q, const u64 *marks, u32 i) {
    u32 miss = missed_rows(q, i), first = q->all & ~miss;
    Cube c = rivals(p, q, first);
    do {
        u32 b = c.block;
        u64 x = marks[b] & c.lane;
        if (b == i >> 6) x &= ~bit(i);
        x = none_missed(q, first & ~q->unit, b, x);
        if (!x) continue;
        u64 same = x;
        for (u32 z = miss; z && same; z &= z - 1) same &= missed(q, low(z), b);
        x &= ~same;
        if (!x && same && (miss & q->deep)) { Degrees d; grade(p, q, miss, i, &d); x = deeper(&d, b, same).won; }
        if (x) return b * 64 + low(x);
    } while (next_block(&c));
    return NONE;
}
/* Nothing can be preferred to i, whatever the blocks from `end` on will have. */
static int stands(const Plan *p, const Ranks *q, const u64 *marks, u32 end, u32 i) {
    u32 first = q->all & ~missed_rows(q, i);
    Cube c = rivals(p, q, first);
    do {
        u64 x = c.block < end ? marks[c.block] & c.lane : c.lane;
        if (c.block == i >> 6) x &= ~bit(i);
        if (none_missed(q, first & ~q->unit, c.block, x)) return 0;
    } while (next_block(&c));
    return 1;
}
/* A champion above n clears what it beats. */
static void champion(const Plan *p, const Ranks *q, u64 *marks, u32 n) {
    for (u32 k; (k = rival(p, q, marks, n)) != NONE; ) n = k;
    take(p, q, marks, n);
}
static int first_block(const Plan *p, const u64 *marks, int b) { while (b < p->blocks && !marks[b]) b++; return b; }

static void keep_best(const Plan *p, const Ranks *q, u64 *marks) {
    u64 f = 0;
    int b = 0;
    if (!q->n) return;
    for (; b < p->blocks; b++) if (marks[b] && (f = none_missed(q, q->all, b, marks[b]))) break;
    if (f) {                                              /* degree 1 everywhere: only such sets are best */
        for (int c = 0; c < b; c++) marks[c] = 0;
        for (; b < p->blocks; b++) if (marks[b]) marks[b] = none_missed(q, q->all, b, marks[b]);
        return;
    }
    b = first_block(p, marks, 0);
    if (b == p->blocks) return;
    u32 m = b * 64 + low(marks[b]), n = rival(p, q, marks, m);
    if (n == NONE) take(p, q, marks, m);                  /* no duty: one best set first, so that most marks go early */
    else { marks[b] &= ~bit(m); champion(p, q, marks, n); }
    for (b = p->blocks - 1; b >= 0; b--)
        for (u64 x = marks[b]; x; ) {                     /* falling: what beats a set mostly has the greater number */
            int j = high(x);
            if (take(p, q, marks, b * 64 + j)) marks[b] &= ~bit(j);
            x &= marks[b] & ~bit(j);
        }
}

u32 search_list(const u8 *page, size_t length, u16 flags, u16 *sets, size_t room) {
    Plan p; u64 marks[1024];
    u32 refusal = check(page, length, flags);
    if (refusal) return refusal << 16;
    plan(&p, page, flags);
    if (p.none) return 0;
    fill(&p, marks);
    return store(&p, marks, sets, room);
}
u32 search_best(const u8 *page, size_t length, u16 flags, u16 *sets, size_t room) {
    Plan p; Ranks q; u64 marks[1024];
    u32 refusal = check(page, length, flags);
    if (refusal) return refusal << 16;
    plan(&p, page, flags);
    if (p.none) return 0;
    fill(&p, marks);
    rank_rows(&p, &q);
    keep_best(&p, &q, marks);
    return store(&p, marks, sets, room);
}
u32 search_pick(const u8 *page, size_t length, u16 flags) {
    Plan p; Ranks q; Filler g; u64 marks[1024], f;
    u32 refusal = check(page, length, flags), m, n;
    int b = 0, e = 0;
    if (refusal) return refusal << 16;
    plan(&p, page, flags);
    if (p.none) return 10u << 16;
    rank_rows(&p, &q);
    begin(&p, &g);
    while (b == e && g.next < p.groups) {                 /* up to the first answer set */
        fill_next(&p, &g, marks);
        for (e = filled(&p, &g); b < e && !marks[b]; ) b++;
    }
    if (b == e) return 10u << 16;
    m = b * 64 + low(marks[b]);
    if (!q.n) return set_of(&p, m);                       /* nothing ranks */
    for (int c = b; c < e; c++) if (marks[c] && (f = none_missed(&q, q.all, c, marks[c]))) return set_of(&p, c * 64 + low(f));
    if (stands(&p, &q, marks, e, m)) return set_of(&p, m);
    while (g.next < p.groups)
        for (fill_next(&p, &g, marks); e < filled(&p, &g); e++)
            if (marks[e] && (f = none_missed(&q, q.all, e, marks[e]))) return set_of(&p, e * 64 + low(f));
    for (int t = 0; t < TRIES; t++) {                     /* most pages end here */
        b = first_block(&p, marks, b);
        m = b * 64 + low(marks[b]); n = rival(&p, &q, marks, m);
        if (n == NONE) return set_of(&p, m);
        marks[b] &= ~bit(m);
        champion(&p, &q, marks, n);
    }
    keep_best(&p, &q, marks);
    b = first_block(&p, marks, b);
    return set_of(&p, b * 64 + low(marks[b]));
}
