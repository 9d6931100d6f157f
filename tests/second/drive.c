/* The driver: every call of the engine against the second solver, on hand-made, generated and damaged pages; and list, best
   and pick on dense pages. On all of these that are accepted the limit must agree too.
   drive [SEED [COUNT [STOP]]]: the seed fixes the pages; COUNT of them are generated, and one dense page for each 100; it
   stops at STOP pages that failed, since a broken engine may be slow too. The last line counts pages on which everything
   agreed, and those on which something did not. It is linked with the engine's archive, or with a stand-in under the same
   names. */
#include "../../bench/limit.h"
#include "cases.h"
#include "contents.h"
#include "solver.h"

int printf(const char *, ...);
int fflush(void *);
void *memcpy(void *, const void *, size_t);
int memcmp(const void *, const void *, size_t);
unsigned long strtoul(const char *, char **, int);
void *mmap(void *, size_t, int, int, int, long);
int mprotect(void *, size_t, int);

typedef uint32_t (*Test)(const uint8_t *, size_t, uint16_t, uint16_t);
typedef uint32_t (*List)(const uint8_t *, size_t, uint16_t, uint16_t *, size_t);

/* Pages that do not depend on the seed: those with known results, for the display and for the rounds, those made by hand. */
enum { FIXED = CASES + SCREENS + CHAINS + HAND_MADE };

/* 1 where plain C plays the engine: it takes one set at a time, and up to minutes for the best sets of a dense page. */
#ifndef ONE_BY_ONE
#define ONE_BY_ONE 0
#endif

static Random rng;
static Random dice; /* the writer's: what is asked of it changes no page */
static Solved solved;
static Content content;

/* What is being asked, for the report. */
static struct {
    long number;
    uint8_t *lent;
    const uint8_t *copy;
    size_t length;
    uint16_t flags;
    long wrong;
} page;

static long calls, shown, shown_as[4], rounds_seen[17], picks_left_out, bests_left_out, refusals[16], writes[16], sets_seen;

/* ---- reports ---- */

enum { MOST_SHOWN = 5 };

/* Counts a disagreement; the first of each of the first few pages is shown, with all it takes to try it again. */
static int disagrees(const char *call) {
    page.wrong++;
    if (page.wrong > 1 || shown >= MOST_SHOWN) return 0;
    shown++;
    printf("disagreement %ld: page %ld, call %s\n  page of %lu bytes:", shown, page.number, call, (unsigned long)page.length);
    for (size_t i = 0; i < page.length && i < 900; i++) printf(" %02x", page.copy[i]);
    printf("\n  flags 0x%04x", page.flags);
    return 1;
}

/* ---- memory to lend ---- */

/* What is lent stands against a part of memory that may not be touched, after it or before it, and guard bytes stand on
   the other side: a byte read outside it ends the run, a byte written is seen. Or it stands free, with guard bytes on
   both sides. */
enum { WALL = 65536, YARD = 4 * 65536, GUARD = 64 };
enum { AT_START, AT_END, FREE };

typedef struct {
    uint8_t *ground;      /* YARD bytes between two walls */
    uint8_t *lent;
    uint8_t *watched;     /* what is lent, and its guard bytes */
    size_t whole;         /* how many bytes are watched */
    uint8_t right[YARD];  /* what they must be */
} Yard;

static Yard page_yard, row_yard, literal_yard, pair_yard, buffer_yard;

static int build_walls(Yard *yard) {
    uint8_t *all = mmap(0, YARD + 3 * WALL, 0, 0x22, -1, 0); /* no access; private, from no file */
    if ((long)(size_t)all == -1) return 0;
    yard->ground = all + WALL + (WALL - (size_t)all % WALL) % WALL;
    return mprotect(yard->ground, YARD, 3) == 0; /* read and write */
}

static void lend(Yard *yard, Random *random, int stand, const uint8_t *bytes, size_t length) {
    size_t before = stand == AT_START ? 0 : GUARD, after = stand == AT_END ? 0 : GUARD;
    yard->lent = stand == AT_END ? yard->ground + YARD - length : yard->ground + before;
    yard->watched = yard->lent - before;
    yard->whole = before + length + after;
    for (size_t i = 0; i < before; i++) yard->watched[i] = (uint8_t)random_below(random, 256);
    for (size_t i = 0; i < after; i++) yard->lent[length + i] = (uint8_t)random_below(random, 256);
    memcpy(yard->lent, bytes, length);
    memcpy(yard->right, yard->watched, yard->whole);
}

/* Something watched was changed; it is put right for the next call. */
static int meddled(Yard *yard) {
    if (memcmp(yard->right, yard->watched, yard->whole) == 0) return 0;
    memcpy(yard->watched, yard->right, yard->whole);
    return 1;
}

static void lend_page(const uint8_t *bytes, size_t length) {
    lend(&page_yard, &rng, one_in(&rng, 2) ? AT_END : AT_START, bytes, length);
    page.lent = page_yard.lent;
    page.copy = page_yard.right + (page_yard.lent - page_yard.watched);
    page.length = length;
}

static void check_page_memory(const char *call) {
    if (meddled(&page_yard) && disagrees(call)) printf("\n  the call changed the page, or bytes beside it\n");
}

/* ---- comparing one call ---- */

static void compare_result(const char *call, uint32_t got, Answer want, uint16_t set, uint16_t other, size_t room) {
    calls++;
    refusals[want.number]++;
    if (got != want.number * 65536 + want.value && disagrees(call))
        printf(", set 0x%04x, second set 0x%04x, room %lu\n  engine: number %u value %u; second solver: number %u value %u\n",
               set, other, (unsigned long)room, PIPEOTTER_NUMBER(got), PIPEOTTER_VALUE(got), want.number, want.value);
    check_page_memory(call);
}

static void ask_test(const char *call, Test test, uint16_t set, Answer want) {
    compare_result(call, test(page.lent, page.length, page.flags, set), want, set, 0, 0);
}

/* Each round brings in an atom of the set, and by a rule that brought in nothing before. The count that the engine is held
   to must keep within both bounds. */
static void ask_rounds(uint16_t set) {
    Answer want = second_rounds(&solved, set);
    ask_test("rounds", pipeotter_rounds, set, want);
    if (want.number) return;
    if ((int)want.value <= __builtin_popcount(set) && (int)want.value <= solved.rules)
        rounds_seen[want.value]++;
    else if (disagrees("none"))
        printf("\n  the second solver counts more rounds than there are atoms or rules: set 0x%04x, %u\n", set, want.value);
}

static void ask_pick(void) {
    compare_result("pick", pipeotter_pick(page.lent, page.length, page.flags), second_pick(&solved), 0, 0, 0);
}

static void ask_compare(uint16_t first, uint16_t second) {
    Answer want = second_compare(&solved, first, second);
    compare_result("compare", pipeotter_compare(page.lent, page.length, page.flags, first, second), want, first, second, 0);
}

/* Readings of every kind, by their bits: ordinary ones of both signs, the zeros, the smallest and the largest subnormal,
   the smallest and the largest normal, infinities, and NaNs quiet and signalling. */
enum { KINDS = 14 };
static const uint32_t kinds[KINDS] = {0x3da3d70a, 0xc1200000, 0x00000000, 0x80000000, 0x00000001, 0x807fffff, 0x00800000,
                                      0x7f7fffff, 0xff7fffff, 0x7f800000, 0xff800000, 0x7fc00000, 0x7f800001, 0xffffffff};

static float reading_of(uint32_t bits) {
    float reading;
    memcpy(&reading, &bits, sizeof reading);
    return reading;
}

static void ask_display(const uint32_t *readings) {
    Screen want = second_display(&solved, readings);
    uint64_t got = pipeotter_display(reading_of(readings[0]), reading_of(readings[1]), reading_of(readings[2]), page.lent, page.length, page.flags);
    calls++;
    refusals[want.answer.number]++;
    shown_as[want.answer.number ? PIPEOTTER_CASE_NO_NUMBER : want.answer.value]++;
    if (got != ((uint64_t)(want.answer.number * 65536 + want.answer.value) << 32 | want.bits) && disagrees("display"))
        printf(", readings 0x%08x 0x%08x 0x%08x\n  engine: number %u value %u bits 0x%08x; second solver: number %u value %u bits 0x%08x\n",
               readings[0], readings[1], readings[2], PIPEOTTER_SHOWN_NUMBER(got), PIPEOTTER_SHOWN_CASE(got),
               PIPEOTTER_SHOWN_BITS(got), want.answer.number, want.answer.value, want.bits);
    check_page_memory("display");
}

/* Readings of any kinds. */
static void ask_displays(int times) {
    for (int i = 0; i < times; i++) {
        uint32_t readings[3];
        for (int k = 0; k < 3; k++) readings[k] = one_in(&rng, 3) ? random_below(&rng, 0xFFFFFFFF) : kinds[random_below(&rng, KINDS)];
        ask_display(readings);
    }
}

/* What stands in a lent entry before the call: it differs from place to place and from call to call. */
static uint16_t filling(size_t i, uint32_t salt) { return (uint16_t)((salt + i) * 40503u ^ salt >> 16); }

static void ask_list(const char *call, List list, const uint16_t *sets, size_t room, Answer want) {
    static uint16_t memory[GUARD + 65536 + 64 + GUARD];
    uint32_t salt = random_below(&rng, 0xFFFFFFFF);
    size_t whole = room + 2 * GUARD;
    for (size_t i = 0; i < whole; i++) memory[i] = filling(i, salt);
    compare_result(call, list(page.lent, page.length, page.flags, memory + GUARD, room), want, 0, 0, room);
    for (size_t i = 0; i < whole; i++) {
        int stored = i >= GUARD && i < GUARD + want.value;
        uint16_t right = stored ? sets[i - GUARD] : filling(i, salt);
        if (memory[i] == right) continue;
        if (disagrees(call))
            printf(", room %lu\n  entry %ld: engine 0x%04x, second solver 0x%04x (%s)\n", (unsigned long)room, (long)i - GUARD,
                   memory[i], right, stored ? "a set of the list" : "must stay as it was");
        break;
    }
}

static void ask_degrees(uint16_t set, size_t room) {
    static uint8_t memory[GUARD + 64 + GUARD];
    uint8_t degrees[32];
    uint32_t salt = random_below(&rng, 0xFFFFFFFF);
    Answer want = second_degrees(&solved, set, room, degrees);
    size_t whole = room + 2 * GUARD;
    for (size_t i = 0; i < whole; i++) memory[i] = (uint8_t)filling(i, salt);
    compare_result("degrees", pipeotter_degrees(page.lent, page.length, page.flags, set, memory + GUARD, room), want, set, 0, room);
    for (size_t i = 0; i < whole; i++) {
        int stored = i >= GUARD && i < GUARD + want.value;
        uint8_t right = stored ? degrees[i - GUARD] : (uint8_t)filling(i, salt);
        if (memory[i] == right) continue;
        if (disagrees("degrees"))
            printf(", set 0x%04x, room %lu\n  byte %ld: engine %u, second solver %u (%s)\n", set, (unsigned long)room, (long)i - GUARD,
                   memory[i], right, stored ? "a degree" : "must stay as it was");
        break;
    }
}

/* ---- the writer ---- */

static void show_part(const char *name, const Part *part) {
    printf("\n  %s, %lu bytes:", name, (unsigned long)part->length);
    for (size_t i = 0; i < part->length && i < 900; i++) printf(" %02x", part->byte[i]);
}

static int write_disagrees(size_t room) {
    if (!disagrees("write")) return 0;
    printf(", A %lu, room %lu", (unsigned long)content.atoms, (unsigned long)room);
    show_part("rows", &content.rows);
    show_part("literals", &content.literals);
    show_part("pairs", &content.pairs);
    printf("\n");
    return 1;
}

static void lend_part(Yard *yard, const Part *part) {
    lend(yard, &dice, (int)random_below(&dice, 3), part->byte, part->length);
}

/* Lends the content, and answers how much room it wants; where it is refused, as much as the longest page. */
static size_t lend_content(void) {
    uint8_t written[PIPEOTTER_LONGEST_PAGE];
    Answer want = second_write(&content, sizeof written, written);
    lend_part(&row_yard, &content.rows);
    lend_part(&literal_yard, &content.literals);
    lend_part(&pair_yard, &content.pairs);
    return want.number ? sizeof written : want.value;
}

/* The buffer against what must be in it: the page where there is one, and otherwise what was there. */
static void compare_buffer(size_t room, const uint8_t *written, size_t length) {
    Yard *yard = &buffer_yard;
    long start = yard->lent - yard->watched, at = 0;
    memcpy(yard->right + start, written, length);
    if (memcmp(yard->right, yard->watched, yard->whole) == 0 || !write_disagrees(room)) return;
    while (yard->right[at] == yard->watched[at]) at++;
    printf("  byte %ld of the buffer: engine 0x%02x, second solver 0x%02x (%s)\n", at - start, yard->watched[at], yard->right[at],
           at >= start && at < start + (long)length ? "a byte of the page" : "must stay as it was");
}

/* The lent content into a buffer with this room. What was written must be a page to the other calls too. */
static void ask_write(size_t room) {
    static uint8_t written[PIPEOTTER_LONGEST_PAGE], before[YARD];
    uint32_t salt = random_below(&dice, 0xFFFFFFFF);
    Answer want = second_write(&content, room, written);
    for (size_t i = 0; i < room; i++) before[i] = (uint8_t)filling(i, salt);
    lend_part(&buffer_yard, &(Part){before, room});
    uint32_t got = pipeotter_write(content.atoms, row_yard.lent, content.rows.length, literal_yard.lent, content.literals.length,
                                   pair_yard.lent, content.pairs.length, buffer_yard.lent, room);
    calls++;
    refusals[want.number]++;
    writes[want.number]++;
    if (got != want.number * 65536 + want.value && write_disagrees(room))
        printf("  engine: number %u value %u; second solver: number %u value %u\n", PIPEOTTER_NUMBER(got), PIPEOTTER_VALUE(got),
               want.number, want.value);
    compare_buffer(room, written, want.value);
    if (meddled(&row_yard) + meddled(&literal_yard) + meddled(&pair_yard) > 0 && write_disagrees(room))
        printf("  the call changed the rows, the literals or the pairs, or bytes beside them\n");
    if (want.number) return;
    calls++;
    refusals[0]++;
    got = pipeotter_reduct_test(buffer_yard.lent, want.value, 0, 0);
    if (PIPEOTTER_NUMBER(got) && write_disagrees(room)) printf("  the page that was written is refused by %u\n", PIPEOTTER_NUMBER(got));
}

static void ask_rooms(void) {
    size_t enough = lend_content();
    ask_write(enough);
    ask_write(enough - 1);
    ask_write(0);
    ask_write(enough + 1 + random_below(&dice, 40));
    if (page.number > FIXED && !one_in(&dice, 32)) return;
    ask_write(65536); /* in 16 bits these two are too short */
    ask_write(65535 + enough);
}

/* A damaged content, with room enough, and with too little: 11 comes after all that is wrong with the content itself. */
static void ask_damaged(void) {
    size_t enough = lend_content();
    ask_write(enough + random_below(&dice, 2));
    ask_write(one_in(&dice, 2) ? enough - 1 : 0);
}

static int is_long(void) { return content.rows.length + content.literals.length + content.pairs.length > 4096; }

/* The page's own content must give back the page. A refused page has a content too, if its length fits its counts. */
static void ask_writes(void) {
    uint8_t written[PIPEOTTER_LONGEST_PAGE];
    int kinds = content_damages(), all = page.number <= FIXED;
    if (!content_of_page(&content, page.copy, page.length)) return;
    if (solved.page_fault) {
        ask_damaged();
        return;
    }
    Answer again = second_write(&content, sizeof written, written);
    if ((again.number || again.value != page.length || memcmp(written, page.copy, page.length) != 0) && write_disagrees(sizeof written))
        printf("  the second solver does not give back the page\n");
    ask_rooms();
    for (int i = 0; i < (all ? kinds : 12); i++) {
        content_of_page(&content, page.copy, page.length);
        damage_content(&content, &dice, all ? i : (int)random_below(&dice, (uint32_t)kinds));
        if (all || !is_long() || one_in(&dice, 8)) ask_damaged();
    }
    for (int i = 0; i < 6; i++) { /* several at once */
        content_of_page(&content, page.copy, page.length);
        for (int n = 2 + (int)random_below(&dice, 3); n > 0; n--) damage_content(&content, &dice, (int)random_below(&dice, (uint32_t)kinds));
        if (!is_long() || one_in(&dice, 8)) ask_damaged();
    }
}

/* ---- what to ask of one page and one flag word ---- */

static int any_set(void) { return (int)random_below(&rng, 1u << solved.atoms); }
static uint16_t any_answer(void) { return solved.set[random_below(&rng, (uint32_t)solved.sets)]; }

/* How many numbers the engine has to test: one for each way to add head atoms to the flags. */
static long span(void) {
    uint32_t reach = page.flags;
    for (int r = 0; r < solved.rules; r++)
        for (int k = 0; k < solved.rule[r].heads; k++) reach |= 1u << solved.rule[r].head[k];
    return 1L << __builtin_popcount(reach & ~(uint32_t)page.flags);
}

/* The dear calls are asked as often as a budget of visited rows allows, at least now and then. */
static int affordable(long rows_visited, long budget) {
    return rows_visited <= budget || (rows_visited <= 64 * budget && one_in(&rng, 64));
}

/* The first place from `from` on whose set is preferred to set m (or, with `better` 0, to which m is not preferred). */
static int seek(int from, int m, int better) {
    int i = from;
    while (i < solved.sets && (better ? !second_prefers(&solved, i, m) : second_prefers(&solved, m, i))) i++;
    return i;
}

/* How many rows an engine visits that goes from set to set, climbs to a champion and skips what it beats, until the
   first best set or past the last. A page with thousands of sets may take minutes; this is told beforehand, on the
   answer sets alone, and given up at the limit. */
static long climb(int to_last, long limit) {
    long visits = 0, each = span() * (solved.rules + 1) / (solved.sets + 1) + 1;
    for (int m = 0, champion = -1; m < solved.sets && visits * each <= limit;) {
        int n = seek(0, m, 1);
        visits += n + 1;
        if (n == solved.sets && !to_last) break;
        for (int c = n; c < solved.sets; visits += c - champion) {
            champion = c;
            c = seek(c + 1, c, 1);
        }
        int next = champion < 0 ? m + 1 : seek(m + 1, champion, 0);
        visits += next - m;
        m = next;
    }
    return (visits + solved.sets) * each;
}

enum { DEAR = 50000, TOO_DEAR = 50000000 };

static void ask_about_set(uint16_t set) {
    long rules = solved.rules + 1, parts = 1L << __builtin_popcount(set);
    ask_test("reduct_test", pipeotter_reduct_test, set, second_test(&solved, set));
    ask_rounds(set);
    if (affordable(parts * rules, 20000)) ask_test("here_there_test", pipeotter_here_there_test, set, second_test(&solved, set));
    if (solved.split_number > 4096 || page.number <= FIXED || affordable(solved.split_number * rules, 3000))
        ask_test("split_test", pipeotter_split_test, set, second_split(&solved, set));
}

static void ask_about_sets(void) {
    if (solved.atoms <= 4) {
        for (int set = 0; set < 1 << solved.atoms; set++) ask_about_set((uint16_t)set);
    } else {
        for (int i = 0; i < 6; i++) ask_about_set((uint16_t)any_set());
        for (int i = 0; i < 6 && solved.sets > 0; i++) {
            uint16_t set = any_answer();
            ask_about_set(set);
            ask_about_set((uint16_t)(set ^ 1u << random_below(&rng, (uint32_t)solved.atoms))); /* a neighbour */
        }
        ask_about_set(page.flags);
    }
}

/* Sets with bits at A and above are refused by 9, before a short room (11), too many split programs (12) or no answer set (13). */
static void ask_stray_sets(void) {
    for (int i = 0; i < 3 && solved.atoms < 16; i++) {
        uint16_t good = solved.sets ? any_answer() : (uint16_t)any_set();
        uint16_t set = (uint16_t)(good | 1u << (i == 0 ? solved.atoms : i == 1 ? 15 : (int)random_below(&rng, 16)));
        ask_test("reduct_test", pipeotter_reduct_test, set, second_test(&solved, set));
        ask_rounds(set);
        if (set >> solved.atoms) { /* for these two a set that fits may be dear */
            ask_test("here_there_test", pipeotter_here_there_test, set, second_test(&solved, set));
            ask_test("split_test", pipeotter_split_test, set, second_split(&solved, set));
        }
        ask_degrees(set, (size_t)solved.page_rows);
        ask_degrees(set, 0);
        ask_compare(set, good);
        ask_compare(good, set);
        ask_compare(set, set);
    }
}

static void ask_ranking(void) {
    size_t rows = (size_t)solved.page_rows;
    uint16_t other = (uint16_t)any_set();
    for (int i = 0; i < 4; i++) {
        uint16_t set = solved.sets && i < 3 ? any_answer() : other;
        ask_degrees(set, rows);
        if (rows > 0) ask_degrees(set, rows - 1);
        ask_degrees(set, rows + 1 + random_below(&rng, 9));
    }
    ask_compare(other, (uint16_t)any_set());
    if (solved.sets == 0) return;
    for (int i = 0; i < 8; i++) ask_compare(any_answer(), any_answer());
    uint16_t set = any_answer();
    ask_compare(set, set);
    ask_compare(set, other);
    ask_compare(other, set);
}

static void ask_in_rooms(const char *call, List list, const uint16_t *sets, size_t count, Answer (*want)(const Solved *, size_t), int dear) {
    ask_list(call, list, sets, count, want(&solved, count));
    if (count > 0 && (!dear || one_in(&rng, 4))) ask_list(call, list, sets, count - 1, want(&solved, count - 1));
    if (dear) return;
    ask_list(call, list, sets, 0, want(&solved, 0));
    size_t more = count + 1 + random_below(&rng, 40);
    ask_list(call, list, sets, more, want(&solved, more));
}

/* What is too dear for plain C is asked of the engine all the same. The generator is then put back, so that both are asked
   about the same pages afterwards. */
static void ask_lists(void) {
    long visits = span() * (solved.rules + 1), bests = visits + climb(1, TOO_DEAR);
    ask_in_rooms("list", pipeotter_list, solved.set, (size_t)solved.sets, second_list, visits > DEAR);
    int dear_best = bests > TOO_DEAR, dear_pick = dear_best && climb(0, TOO_DEAR) > TOO_DEAR;
    Random before = rng;
    if (ONE_BY_ONE && dear_best) bests_left_out++;
    else ask_in_rooms("best", pipeotter_best, solved.best, (size_t)solved.bests, second_best, bests > DEAR);
    if (dear_best) rng = before;
    before = rng;
    if (ONE_BY_ONE && dear_pick) picks_left_out++;
    else {
        ask_pick();
        ask_displays(bests > DEAR ? 1 : 4);
    }
    if (dear_pick) rng = before;
}

/* A refused page or flag word: every call is asked, with rooms that would and would not do. */
static void ask_refused(void) {
    for (int i = 0; i < 2; i++) {
        uint16_t set = (uint16_t)random_below(&rng, i ? 65536 : 2), other = (uint16_t)random_below(&rng, 65536);
        ask_test("reduct_test", pipeotter_reduct_test, set, second_test(&solved, set));
        ask_test("here_there_test", pipeotter_here_there_test, set, second_test(&solved, set));
        ask_test("split_test", pipeotter_split_test, set, second_split(&solved, set));
        ask_rounds(set);
        ask_degrees(set, i ? 40 : 0);
        ask_compare(set, i ? other : set);
        ask_list("list", pipeotter_list, solved.set, i ? 100 : 0, second_list(&solved, i ? 100 : 0));
        ask_list("best", pipeotter_best, solved.best, i ? 100 : 0, second_best(&solved, i ? 100 : 0));
    }
    ask_pick();
    ask_displays(2);
}

/* The entries are spoilt first, so that those of the call before do not pass for this one's. Room for one too few is refused. */
static int limit_differs(List list, const uint16_t *sets, int count) {
    static uint16_t found[65536];
    for (int i = 0; i < count; i++) found[i] = (uint16_t)~sets[i];
    if (count && list(page.copy, page.length, page.flags, found, (size_t)count - 1) != 11 * 65536) return 1;
    return list(page.copy, page.length, page.flags, found, 65536) != (uint32_t)count || memcmp(found, sets, (size_t)count * sizeof *sets) != 0;
}

/* The limit, which takes accepted pages only, is held to the second solver: the bench holds the engine to the limit. */
static void check_limit(void) {
    Answer pick = second_pick(&solved);
    int wrong = limit_pick(page.copy, page.length, page.flags) != pick.number * 65536 + pick.value;
    wrong |= limit_differs(limit_list, solved.set, solved.sets) || limit_differs(limit_best, solved.best, solved.bests);
    if (wrong && disagrees("none")) printf("\n  the limit does not find what the second solver finds\n");
}

/* Answers 0 where the page or the flag word is refused. */
static int solve(uint16_t flags) {
    page.flags = flags;
    second_solve(&solved, page.copy, page.length, flags);
    if (solved.roads_differ && disagrees("none")) printf("\n  the second solver's own roads differ\n");
    if (solved.page_fault || solved.flags_fault) return 0;
    sets_seen += solved.sets;
    check_limit();
    return 1;
}

static void ask_all(uint16_t flags) {
    if (!solve(flags)) {
        ask_refused();
        return;
    }
    ask_lists();
    ask_about_sets();
    ask_stray_sets();
    ask_ranking();
}

static void ask_dense(uint16_t flags) {
    if (!solve(flags) && disagrees("none")) printf("\n  a dense page is refused\n");
    ask_in_rooms("list", pipeotter_list, solved.set, (size_t)solved.sets, second_list, 1);
    if (ONE_BY_ONE && (long)solved.sets * solved.sets * solved.rules > 40 * DEAR) { /* each set against each */
        bests_left_out++;
        picks_left_out++;
        return;
    }
    ask_in_rooms("best", pipeotter_best, solved.best, (size_t)solved.bests, second_best, 1);
    ask_pick();
}

/* ---- one page, with flag words that suit it ---- */

static uint16_t some_flags(int atoms) {
    uint32_t all = (1u << atoms) - 1, word = random_below(&rng, 65536) & all;
    return (uint16_t)(one_in(&rng, 3) ? word : word & random_below(&rng, 65536) & random_below(&rng, 65536));
}

static void try_page(const uint8_t *bytes, size_t length) {
    page.number++;
    page.wrong = 0;
    lend_page(bytes, length);
    if (length >= 18 && bytes[2] >= 1 && bytes[2] <= 16) {
        int atoms = bytes[2];
        ask_all(page.number <= FIXED || one_in(&rng, 2) ? 0 : some_flags(atoms));
        if (atoms <= 6) ask_all(some_flags(atoms));
        if (one_in(&rng, 4)) ask_all((uint16_t)(1u << (atoms - 1))); /* the highest bit that is allowed */
        if (atoms < 16 && one_in(&rng, 4)) ask_all((uint16_t)(some_flags(atoms) | 1u << atoms)); /* the lowest that is not */
        if (atoms < 16 && one_in(&rng, 8)) ask_all((uint16_t)random_below(&rng, 65536));
    } else {
        ask_all((uint16_t)random_below(&rng, 65536));
    }
    ask_writes();
}

/* A page with known results: the second solver against what is known, before the engine is held to the second solver. */
static void try_case(const Case *c) {
    Page made;
    case_page(&made, c);
    page.number++;
    page.wrong = 0;
    lend_page(made.byte, made.length);
    ask_all(c->flags);
    const char *text = c->sets;
    int right = 1;
    for (int i = 0; i < solved.sets; i++) {
        char *end;
        right &= *text != 0 && *text != '/' && strtoul(text, &end, 10) == solved.set[i];
        text = right ? end + 1 : "";
    }
    right &= solved.sets ? *text == '/' && strtoul(text + 1, 0, 10) == second_pick(&solved).value : *text == 0;
    if (!right && disagrees("none")) printf("\n  the second solver does not find the sets and the pick that are known: %s\n", c->sets);
    ask_writes();
}

/* A page made for the display, whose number and value are known: all kinds of the three readings, one with another. Of the
   readings that are not chosen each kind is met beside each kind of the chosen one. */
static void try_screen(const Case *c) {
    Page made;
    char *end;
    case_page(&made, c);
    page.number++;
    page.wrong = 0;
    lend_page(made.byte, made.length);
    page.flags = c->flags;
    second_solve(&solved, page.copy, page.length, page.flags);
    static const uint32_t plain[3] = {0x3f800000, 0x40000000, 0x40400000};
    Screen want = second_display(&solved, plain);
    unsigned long number = strtoul(c->sets, &end, 10), value = strtoul(end + 1, 0, 10);
    if ((want.answer.number != number || want.answer.value != value) && disagrees("none"))
        printf("\n  the second solver does not show what is known: %s\n", c->sets);
    for (int i = 0; i < KINDS * KINDS * KINDS; i++) {
        uint32_t readings[3] = {kinds[i % KINDS], kinds[i / KINDS % KINDS], kinds[i / KINDS / KINDS]};
        ask_display(readings);
    }
    ask_writes();
}

/* A page whose counts of rounds are known, for some sets. Each of these is asked, and each with one atom more or less. */
static void try_chain(const Case *c) {
    Page made;
    case_page(&made, c);
    page.number++;
    page.wrong = 0;
    lend_page(made.byte, made.length);
    ask_all(c->flags);
    for (const char *text = c->sets; *text;) {
        char *end;
        uint16_t set = (uint16_t)strtoul(text, &end, 10);
        unsigned long count = strtoul(end + 1, &end, 10);
        if (second_rounds(&solved, set).value != count && disagrees("none"))
            printf("\n  the second solver does not count the rounds that are known: set 0x%04x, %lu\n", set, count);
        ask_rounds(set);
        for (int atom = 0; atom < solved.atoms; atom++) ask_rounds((uint16_t)(set ^ 1u << atom));
        text = *end ? end + 1 : end;
    }
    ask_writes();
}

/* A page with many answer sets. It has random numbers of its own: what is asked of the others does not change it. */
static void try_dense(unsigned long seed, unsigned long which) {
    Page made;
    Random own = {seed * 1000003 + which};
    dense_page(&made, &own);
    page.number++;
    page.wrong = 0;
    lend_page(made.byte, made.length);
    ask_dense(0);
    uint32_t raised = random_below(&own, 65536) & random_below(&own, 65536) & ((1u << solved.atoms) - 1);
    if (solved.sets > 0 && !one_in(&own, 4)) raised &= solved.set[random_below(&own, (uint32_t)solved.sets)]; /* it stays one */
    ask_dense((uint16_t)raised);
}

/* Lent 65,536 bytes more than the page has: 16 bits of its length are right, and it must be refused all the same. */
static void try_too_long(const Page *made) {
    static uint8_t memory[65536 + sizeof made->byte];
    memcpy(memory, made->byte, made->length);
    try_page(memory, 65536 + made->length);
}

static int letters_differ(void) {
    for (uint32_t n = 0; n < 65536; n++)
        if (pipeotter_letter((uint16_t)n) != second_letter((uint16_t)n)) {
            printf("letter of %u: engine %u, second solver %u\n", n, pipeotter_letter((uint16_t)n), second_letter((uint16_t)n));
            return 1;
        }
    return 0;
}

int main(int words, char **word) {
    unsigned long seed = words > 1 ? strtoul(word[1], 0, 0) : 1, count = words > 2 ? strtoul(word[2], 0, 0) : 20000;
    unsigned long dense = count / 100;
    long passed = 0, failed = 0, stop = words > 3 ? (long)strtoul(word[3], 0, 0) : 20;
    Page made;
    Yard *yards[] = {&page_yard, &row_yard, &literal_yard, &pair_yard, &buffer_yard};
    for (int i = 0; i < 5; i++)
        if (!build_walls(yards[i])) {
            printf("no memory\n0 passed, 1 failed\n");
            return 2;
        }
    rng.state = seed;
    dice.state = ~(unsigned long long)seed;
    *(letters_differ() ? &failed : &passed) += 1;
    for (unsigned long i = 0; i < FIXED + count + dense && failed < stop; i++) {
        if (i < CASES) try_case(&cases[i]);
        else if (i < CASES + SCREENS) try_screen(&screens[i - CASES]);
        else if (i < CASES + SCREENS + CHAINS) try_chain(&chains[i - CASES - SCREENS]);
        else if (i < FIXED) {
            hand_made_page(&made, (int)(i - CASES - SCREENS - CHAINS));
            try_page(made.byte, made.length);
        } else if (i >= FIXED + count) try_dense(seed, i - FIXED - count);
        else {
            if (one_in(&rng, 3)) damage(&made, &rng);
            else generated_page(&made, &rng);
            if (one_in(&rng, 400)) try_too_long(&made);
            else try_page(made.byte, made.length);
        }
        *(page.wrong ? &failed : &passed) += 1;
    }
    if (failed >= stop) printf("stopped at page %ld\n", page.number);
    printf("seed %lu: the letters, %d pages with known results, %d for the display, %d for the rounds, %d made by hand, ",
           seed, CASES, SCREENS, CHAINS, HAND_MADE);
    printf("%lu generated, %lu dense; %ld calls compared, %ld answer sets listed\n", count, dense, calls, sets_seen);
    printf("answers by number:");
    for (int n = 0; n < 16; n++) printf(" %d:%ld", n, refusals[n]);
    printf("\nof these the writer:");
    for (int n = 0; n < 16; n++)
        if (writes[n]) printf(" %d:%ld", n, writes[n]);
    printf("\nrounds:");
    for (int n = 0; n < 17; n++) printf(" %d:%ld", n, rounds_seen[n]);
    printf("\ndisplays: no number %ld, live %ld, second %ld, held %ld", shown_as[0], shown_as[1], shown_as[2], shown_as[3]);
    printf("\nnot asked, being too dear: best %ld times, pick %ld times\n%ld passed, %ld failed\n", bests_left_out, picks_left_out, passed, failed);
    fflush(0);
    return failed != 0;
}
