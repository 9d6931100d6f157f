/* limit_list, limit_best, limit_pick: a tuned, unverified solver, inclusion ranking.
   The yardstick "how fast could it be". Pages must be good: only refusals 10 and 11 are given. Not reentrant.
   Many (64, 256 or 512) sets at once, cached words of degree 1, or-index, climb and clear.
   What makes it fast (with -DFIX=0 bare facts and barred atoms stay open):
   - only the atoms still open get lanes: raised atoms and bare facts are in, atoms in no head or barred by
     "no head if a" are out, and rows are cut down to the open atoms (rising order of sets is kept);
   - one pass gives "satisfied", "supported" and the atoms of rows without positive body; rounds only for the rest;
   - and-index for the clearing, both indexes in two levels; best sets reached by climbing are not searched again;
   - pick first tries the lowest answer set, filling only the blocks needed; four sets or fewer are compared one by one. */
#ifndef CORE
#include "limit.h"
typedef uint8_t u8; typedef uint16_t u16; typedef uint32_t u32; typedef unsigned long u64;
#ifndef FIX
#define FIX 1
#endif
#define HEADS 6
typedef struct { u16 p, n; u8 np, nn, nh, cut, first; u8 pos[8], neg[8], head[HEADS], place[HEADS]; } Row;   /* cut: place of an atom known in, 0 none */
static Row row[40]; static int bars, facts, rests, mets;   /* rows with no head left; without positive body; the others; met by an atom known in: only for degrees */
static Row *bar[40], *fact_[32], *rest[32], *met[32];
static int open_, nblk; static u16 in, at16[16]; static u32 none;
static u64 bits[1024] __attribute__((aligned(64)));
static const u64 LANE[6] = {0xAAAAAAAAAAAAAAAA, 0xCCCCCCCCCCCCCCCC, 0xF0F0F0F0F0F0F0F0, 0xFF00FF00FF00FF00, 0xFFFF0000FFFF0000, 0xFFFFFFFF00000000};
static inline int low(u64 x) { return __builtin_ctzl(x); }

static void decode(const u8 *page, u16 flags) {
    int A = page[2], R = page[4], Q = page[8];
    const u8 *lit = page + 18 + 4 * R, *l = lit;
    u16 up = 0, fact = flags, out = 0, full = (u16)((1u << A) - 1);
    u16 hm[32], pm[32], nm[32];
    for (int r = 0; r < R; r++) {
        int h = page[18 + 4 * r], p = page[19 + 4 * r], n = page[20 + 4 * r];
        u32 a = 0, b = 0, c = 0;
        for (int k = 0; k < h; k++) a |= 1u << l[k];
        for (int k = 0; k < p; k++) b |= 1u << l[h + k];
        for (int k = 0; k < n; k++) c |= 1u << l[h + p + k];
        hm[r] = a; pm[r] = b; nm[r] = c; up |= a; l += h + p + n;
        if (FIX && !c) { if (!b && h == 1) fact |= a; if (!h && p == 1) out |= b; }
    }
    out |= full & ~(fact | up);
    none = (fact & out) != 0;
    in = fact;
    u16 fr = full & ~(fact | out); u8 to[16]; int n = 0;
    for (u32 x = fr; x; x &= x - 1) { int a = low(x); to[a] = n; at16[n++] = 1 << a; }
    open_ = n; nblk = n <= 6 ? 1 : 1 << (n - 6);
    bars = facts = rests = mets = 0;
    Row *t = row;
    l = lit;
    for (int r = 0; r < R; l += page[18 + 4 * r] + page[19 + 4 * r] + page[20 + 4 * r], r++) {
        if ((pm[r] & out) | (nm[r] & in) | (pm[r] & nm[r])) continue;
        u16 p = pm[r] & fr, q = nm[r] & fr, seen = 0; int h = page[18 + 4 * r], nh = 0, cut = 0;
        u8 hd[HEADS], pl[HEADS];
        for (int k = 0; k < h; k++) {
            u16 b = 1 << l[k];
            if (b & in) { cut = k + 1; break; }
            if (b & out || b & seen) continue;
            seen |= b; hd[nh] = to[l[k]]; pl[nh++] = k + 1;
        }
        if (!nh && cut && (cut == 1 || !(p | q))) continue;
        if (!nh && !cut && !p && !q) { none = 1; return; }
        if (!nh) { if (cut) met[mets++] = t; else bar[bars++] = t; } else if (!p) fact_[facts++] = t; else rest[rests++] = t;
        t->nh = nh; t->cut = cut; t->np = t->nn = 0; t->p = t->n = 0;
        t->first = nh && pl[0] == 1;
        for (int k = 0; k < nh; k++) { t->head[k] = hd[k]; t->place[k] = pl[k]; }
        for (u32 x = p; x; x &= x - 1) { int a = to[low(x)]; t->pos[t->np++] = a; t->p |= 1 << a; }
        for (u32 x = q; x; x &= x - 1) { int a = to[low(x)]; t->neg[t->nn++] = a; t->n |= 1 << a; }
        t++;
    }
    const u8 *pr = lit + (page[6] | page[7] << 8);
    for (int k = 0; k < Q; k++, pr += 2) {
        u16 b = 1 << pr[0] | 1 << pr[1];
        if (b & out) continue;
        if (!(b & fr)) { none = 1; return; }
        bar[bars++] = t;
        t->nh = t->cut = t->nn = t->np = t->first = 0; t->p = t->n = 0;
        for (u32 x = b & fr; x; x &= x - 1) { int a = to[low(x)]; t->pos[t->np++] = a; t->p |= 1 << a; }
        t++;
    }
}

#define CORE
typedef u64 W1; typedef u64 W4 __attribute__((vector_size(32))); typedef u64 W8 __attribute__((vector_size(64)));
#define NAME fill1
#define LOG 0
#define W W1
#define ANY(x) ((x) != 0)
#include "limit.c"
#define NAME fill4
#define LOG 2
#define W W4
#define ANY(x) (((x)[0] | (x)[1] | (x)[2] | (x)[3]) != 0)
#include "limit.c"
#define NAME fill8
#define LOG 3
#define W W8
#define ANY(x) (((x)[0] | (x)[1] | (x)[2] | (x)[3] | (x)[4] | (x)[5] | (x)[6] | (x)[7]) != 0)
#include "limit.c"
static int step(void) { return open_ <= 7 ? 1 : open_ <= 9 ? 4 : 8; }
static void fill(int from, int to) { (open_ <= 7 ? fill1 : open_ <= 9 ? fill4 : fill8)(from, to); }   /* blocks from..to, a multiple of step() */

static u16 dep(u32 i) { u16 s = in; for (; i; i &= i - 1) s |= at16[low(i)]; return s; }
static u32 store(const u64 *s, u16 *out, size_t room) {
    u32 c = 0; u16 t[64];
    for (int b = 0; b < nblk; b++) c += __builtin_popcountl(s[b]);
    if (c > room) return 11u << 16;
    if (nblk == 1) { u64 x = s[0]; for (u32 k = 0; x; x &= x - 1) out[k++] = dep(low(x)); return c; }
    t[0] = 0;
    for (int a = 0; a < 6; a++) for (int j = 0; j < 1 << a; j++) t[(1 << a) + j] = t[j] | at16[a];
    u16 *o = out;
    for (int b = 0; b < nblk; b++) {
        u64 x = s[b];
        if (!x) continue;
        u16 base = dep((u32)b << 6);
        if (x == ~0ul) { for (int j = 0; j < 64; j++) o[j] = base | t[j]; o += 64; continue; }
        if (x & x >> 1 & x >> 2 & x >> 3) for (const u16 *v = t; x; x >>= 8, v += 8) {      /* dense: by bytes */
            u32 y = x & 255;
            if (y == 255) { for (int j = 0; j < 8; j++) o[j] = base | v[j]; o += 8; } else for (; y; y &= y - 1) *o++ = base | v[low(y)];
        } else for (; x; x &= x - 1) *o++ = base | t[low(x)];
    }
    return c;
}

/* ---- ranking ---- */
static Row *rk[32]; static int nr, deepest;
static u64 tab[1024 * 32], al[1024], known[1024], res[1024];
static u32 orx[1024], andx[1024], or2[64], and2[64]; static u16 blk[1024];
static u8 g[32];
static inline u64 lanes(int a, u32 b) { return a < 6 ? LANE[a] : b >> (a - 6) & 1 ? ~0ul : 0; }
static inline u64 nobody(const Row *t, u32 b) {            /* lanes where the body does not hold */
    u32 h = b << 6;
    if (((t->p & 0xFFC0) & ~h) | ((t->n & 0xFFC0) & h)) return ~0ul;
    u64 x = 0;
    for (u32 z = t->p & 63; z; z &= z - 1) x |= ~LANE[low(z)];
    for (u32 z = t->n & 63; z; z &= z - 1) x |= LANE[low(z)];
    return x;
}
static inline u64 atmost(const Row *t, u32 b, int k) {      /* lanes (of answer sets) of degree at most k */
    if (t->cut && t->cut <= k) return ~0ul;
    u64 x = nobody(t, b);
    for (int j = 0; j < t->nh && t->place[j] <= k; j++) x |= lanes(t->head[j], b);
    return x;
}
static int degree(const Row *t, u32 i) {
    if ((t->p & ~i) | (t->n & i)) return 1;
    for (int k = 0; k < t->nh; k++) if (i >> t->head[k] & 1) return t->place[k];
    return t->cut;
}
static void degrees(u32 i) { for (int y = 0; y < nr; y++) g[y] = degree(rk[y], i); }
static u64 deepbetter(u64 eq, u32 b) {                      /* lanes of eq (same rows of degree 1) that beat g */
    u64 bet = 0;
    for (int k = 2; k <= deepest; k++) {
        u64 ex = 0;
        for (int y = 0; y < nr; y++) if (g[y] == k) { eq &= atmost(rk[y], b, k); if (!eq) return bet; }
        for (int y = 0; y < nr; y++) if (g[y] > k) ex |= atmost(rk[y], b, k);
        bet |= eq & ex; eq &= ~ex; if (!eq) return bet;
    }
    return bet;
}
static u64 deepworse(u64 eq, u32 b) {
    u64 wor = 0;
    for (int k = 2; k <= deepest; k++) {
        u64 ms = 0;
        for (int y = 0; y < nr; y++) if (g[y] > k) { eq &= ~atmost(rk[y], b, k); if (!eq) return wor; }
        for (int y = 0; y < nr; y++) if (g[y] == k) ms |= ~atmost(rk[y], b, k);
        wor |= eq & ms; eq &= ~ms; if (!eq) return wor;
    }
    return wor;
}
static u32 ones(int x, int j) { u32 m = 0; const u64 *t = tab + x * nr; for (int y = 0; y < nr; y++) m |= (u32)(t[y] >> j & 1) << y; return m; }

static void rank_row(Row *t) {
    if (t->nh + (t->cut > 0) + (!t->first && (t->np | t->nn)) < 2) return;       /* one degree only */
    int d = t->cut ? t->cut : t->place[t->nh - 1];
    if (d > deepest) deepest = d;
    rk[nr++] = t;
}
static void rank_rows(void) {
    nr = 0; deepest = 1;
    for (int r = 0; r < facts; r++) rank_row(fact_[r]);
    for (int r = 0; r < rests; r++) rank_row(rest[r]);
    for (int r = 0; r < mets; r++) rank_row(met[r]);
}
/* the lowest answer set, if it is best and this shows before all blocks are filled; -1: not known, blocks below *filled are filled */
static int early(int *filled) {
    int b = 0, st = step(), f = 0; u32 m;
    for (; b < nblk; b++) { if (b >= f) fill(f, f + st), f += st; if (bits[b]) break; }
    *filled = f;
    if (b == nblk) return -1;
    m = b * 64 + low(bits[b]);
    if (!nr) return m;
    degrees(m);
    for (b = 0; b < nblk; b++) {
        u64 e = b < f ? bits[b] : ~0ul;
        for (int y = 0; y < nr && e; y++) if (g[y] == 1) { e &= nobody(rk[y], b) | (rk[y]->first ? lanes(rk[y]->head[0], b) : 0); }
        if (b == m >> 6) e &= ~(1ul << (m & 63));
        if (e) return -1;
    }
    return m;
}
/* four sets at most: one by one */
static u32 few[4]; static int fews;
static void search_few(u64 *best) {
    u32 d[4][7];
    *best = 0;
    for (int i = 0; i < fews; i++) { for (int k = 1; k <= deepest; k++) d[i][k] = 0; for (int y = 0; y < nr; y++) d[i][degree(rk[y], few[i])] |= 1u << y; }
    for (int i = 0; i < fews; i++) {
        int beaten = 0;
        for (int j = 0; j < fews && !beaten; j++) for (int k = 1; k <= deepest; k++) if (d[j][k] != d[i][k]) { beaten = !(d[i][k] & ~d[j][k]); break; }
        if (!beaten) *best |= 1ul << i;
    }
}
/* all = 1: marks every best set in res; all = 0: answers the lowest one. -1: no answer set */
static int search(int all) {
    int nb = 0;
    for (int b = 0; b < nblk; b++) { if (bits[b]) { al[nb] = bits[b]; known[nb] = 0; blk[nb++] = b; } if (all) res[b] = 0; }
    if (!nb) return -1;
    if (!nr) { if (!all) return blk[0] * 64 + low(al[0]); for (int b = 0; b < nblk; b++) res[b] = bits[b]; return 0; }
    if (nb <= 4) {
        fews = 0;
        for (int x = 0; x < nb; x++) for (u64 z = al[x]; z; z &= z - 1) { if (fews == 4) goto many; few[fews++] = blk[x] * 64 + low(z); }
        u64 best;
        search_few(&best);
        for (int i = 0; i < fews; i++) if (best >> i & 1) { if (!all) return few[i]; res[few[i] >> 6] |= 1ul << (few[i] & 63); }
        return 0;
    }
many:;
    u32 every = nr == 32 ? ~0u : (1u << nr) - 1;
    int n2 = (nb + 15) >> 4;
    for (int q = 0; q < n2; q++) or2[q] = 0, and2[q] = every;
    for (int x = 0; x < nb; x++) {
        u64 *t = tab + x * nr, s = al[x]; u32 o = 0, n = 0, b = blk[x];
        for (int y = 0; y < nr; y++) {
            const Row *w = rk[y];
            u64 v = nobody(w, b);
            if (w->first) v |= lanes(w->head[0], b);
            t[y] = v; o |= (u32)((v & s) != 0) << y; n |= (u32)((~v & s) == 0) << y;
        }
        orx[x] = o; andx[x] = n; or2[x >> 4] |= o; and2[x >> 4] &= n;
    }
    for (int x0 = 0; x0 < nb; x0++) for (u64 pend = al[x0]; pend; ) {
        int j = low(pend); u64 bit = 1ul << j; pend &= ~bit;
        u32 m = blk[x0] * 64 + j;
        if (known[x0] & bit) { if (!all) return m; res[blk[x0]] |= bit; continue; }
        u32 cur = m, k1 = ones(x0, j); int deg = 0, cx = x0, cj = j;
        for (int q = 0; q < n2; q++) {
            if (k1 & ~or2[q]) continue;
            int end = (q + 1) << 4; if (end > nb) end = nb;
            for (int x = q << 4; x < end; ) {
                if (k1 & ~orx[x]) { x++; continue; }
                const u64 *t = tab + x * nr; u64 e = al[x], bt = 0; u32 z;
                for (z = k1; z && e; z &= z - 1) e &= t[low(z)];
                if (e) {
                    for (z = every & ~k1; z; z &= z - 1) bt |= t[low(z)];
                    bt &= e;
                    if (!bt && deepest > 1) {
                        if (x == cx) e &= ~(1ul << cj);
                        if (e) { if (!deg) degrees(cur), deg = 1; bt = deepbetter(e, blk[x]); }
                    }
                    if (bt) { cx = x; cj = low(bt); cur = blk[x] * 64 + cj; k1 = ones(x, cj); deg = 0; continue; }
                }
                x++;
            }
        }
        if (cur == m) { if (!all) return m; res[blk[x0]] |= bit; continue; }
        known[cx] |= 1ul << cj;
        al[x0] &= ~bit;
        for (int q = x0 >> 4; q < n2; q++) {
            if (and2[q] & ~k1) continue;
            int end = (q + 1) << 4; if (end > nb) end = nb;
            for (int x = q << 4 > x0 ? q << 4 : x0; x < end; x++) {
                if (andx[x] & ~k1 || !al[x]) continue;
                const u64 *t = tab + x * nr; u64 e = al[x], ms = 0; u32 z;
                for (z = every & ~k1; z && e; z &= z - 1) e &= ~t[low(z)];
                if (!e) continue;
                for (z = k1; z; z &= z - 1) ms |= ~t[low(z)];
                u64 wor = e & ms; e &= ~ms;
                if (e && deepest > 1) { if (!deg) degrees(cur), deg = 1; wor |= deepworse(e, blk[x]); }
                al[x] &= ~wor;
            }
        }
        pend &= al[x0];
    }
    return 0;
}

u32 limit_list(const u8 *page, size_t length, u16 flags, u16 *sets, size_t room) {
    (void)length;
    decode(page, flags);
    if (none) return 0;
    fill(0, nblk);
    return store(bits, sets, room);
}
u32 limit_best(const u8 *page, size_t length, u16 flags, u16 *sets, size_t room) {
    (void)length;
    decode(page, flags);
    if (none) return 0;
    fill(0, nblk);
    rank_rows();
    return search(1) < 0 ? 0 : store(res, sets, room);
}
u32 limit_pick(const u8 *page, size_t length, u16 flags) {
    (void)length;
    decode(page, flags);
    if (none) return 10u << 16;
    int f = 0; rank_rows();
    int m = nblk > 4 ? early(&f) : -1;
    if (m >= 0) return dep(m);
    if (f < nblk) fill(f, nblk);
    m = search(0);
    return m < 0 ? 10u << 16 : dep(m);
}

#else  /* ---- the step on 64 << LOG sets, read once for each width ---- */
static void NAME(int from, int to) {
    int n = open_; enum { fix = 6 + LOG };
    u32 himask = 0xFFFFu << fix & 0xFFFF;
    const W zero = {0}; W w[16], start = ~zero, act[32], cur[16], can[16];
    for (int a = 0; a < 6; a++) w[a] = zero + LANE[a];
#if LOG > 0
    for (int a = 6; a < fix; a++) for (int z = 0; z < 1 << LOG; z++) w[a][z] = z >> (a - 6) & 1 ? ~0ul : 0;
    if (n < fix) for (int z = 0; z < 1 << LOG; z++) if (n < 6 ? z > 0 : z >> (n - 6)) start[z] = 0;
#else
    if (n < 6) start = (1ul << (1 << n)) - 1;
#endif
    Row *live[32];
    for (int s = from; s < to; s += 1 << LOG) {
        u32 h = s << 6;
        for (int a = fix; a < n; a++) w[a] = h >> a & 1 ? ~zero : zero;
        W ok = start;
        for (int r = 0; r < bars; r++) {
            const Row *t = bar[r];
            if (himask & ((t->p & ~h) | (t->n & h))) continue;
            W x = ok;
            for (int k = 0; k < t->np && t->pos[k] < fix; k++) x &= w[t->pos[k]];
            for (int k = 0; k < t->nn && t->neg[k] < fix; k++) x &= ~w[t->neg[k]];
            ok &= ~x;
            if (!ANY(ok)) goto dead;
        }
        for (int a = 0; a < n; a++) cur[a] = zero;
        for (int r = 0; r < facts; r++) {
            const Row *t = fact_[r];
            if (himask & t->n & h) continue;
            W x = ok;
            for (int k = 0; k < t->nn && t->neg[k] < fix; k++) x &= ~w[t->neg[k]];
            for (int k = 0; k < t->nh; k++) {
                int a = t->head[k];
                if (a < fix) { cur[a] |= x & w[a]; x &= ~w[a]; } else if (h >> a & 1) { cur[a] |= x; goto met; }
            }
            if (!t->cut) ok &= ~x;
        met:;
        }
        if (!ANY(ok)) goto dead;
        if (!rests) { for (int a = 0; a < n; a++) ok &= ~(w[a] & ~cur[a]); goto done; }
        for (int a = 0; a < n; a++) can[a] = cur[a];
        int lv = 0;
        for (int r = 0; r < rests; r++) {
            Row *t = rest[r];
            if (himask & ((t->p & ~h) | (t->n & h))) continue;
            W x = ok;
            for (int k = 0; k < t->np && t->pos[k] < fix; k++) x &= w[t->pos[k]];
            for (int k = 0; k < t->nn && t->neg[k] < fix; k++) x &= ~w[t->neg[k]];
            act[lv] = x; live[lv++] = t;
            for (int k = 0; k < t->nh; k++) {
                int a = t->head[k];
                if (a < fix) { can[a] |= x & w[a]; x &= ~w[a]; } else if (h >> a & 1) { can[a] |= x; goto met2; }
            }
            if (!t->cut) { ok &= ~x; if (!ANY(ok)) goto dead; }
        met2:;
        }
        for (int a = 0; a < n; a++) ok &= ~(w[a] & ~can[a]);
        for (;;) {
            W todo = zero, ch = zero;
            for (int a = 0; a < n; a++) todo |= w[a] & ~cur[a];
            todo &= ok;
            if (!ANY(todo)) break;
            for (int y = 0; y < lv; y++) {
                const Row *t = live[y];
                W x = act[y] & todo;
                for (int k = 0; k < t->np; k++) x &= cur[t->pos[k]];
                if (!ANY(x)) continue;
                for (int k = 0; k < t->nh; k++) { int a = t->head[k]; W c = x & w[a] & ~cur[a]; ch |= c; cur[a] |= c; x &= ~w[a]; }
            }
            if (!ANY(ch)) { ok &= ~todo; break; }
        }
    done:
#if LOG > 0
        if (nblk >= 1 << LOG) *(W *)(bits + s) = ok; else for (int z = 0; z < nblk; z++) bits[z] = ok[z];
#else
        bits[s] = ok;
#endif
        continue;
    dead:
        ok = zero;
        goto done;
    }
}
#undef NAME
#undef LOG
#undef W
#undef ANY
#endif
