/* The second solver, written from the page format and the two papers by other roads than the engine's.

   Page     parsed into a sheet of numbers first; then a table of faults, in order, is asked for the first that holds.
   Writing  what is lent makes the same kind of sheet; the same table is asked; then the sheet is printed.
   Sets     road 1: every split program is built, and for each set its Gelfond-Lifschitz reduct and least model
            (001, section 2.2; a headless row is its own one option, as 01 corrects it);
            road 2: here-and-there by its definition, every pair H inside T (001, Definition 1 and operator 13);
            road 3: a search that decides atom after atom, cuts where a row must fail or an atom has lost every
            support, and drops a set in which some atoms only support each other (no reduct, no least model).
            Road 3 runs always. Roads 1 and 2 run too where the page is small enough, and must agree with it.
   Rounds   none are made: each atom gets a height, one above its reasons, and the greatest height is the count.
   Ranking  the collections of rows by degree are compared as sets of row indexes, to the letter of 000, Definition 6.
            Where there are too many sets for a double loop, degree by degree: only groups with a greatest collection
            stay. Where both can be run they must agree.

   Nothing here is shared with the engine or with bench/plain.c but the header's types. */
#include "solver.h"

void *memset(void *, int, size_t);
void qsort(void *, size_t, size_t, int (*)(const void *, const void *));

/* ---- the sheet: a page taken apart, whatever its bytes ---- */

enum { FORM, ATOMS, ROWS, LITERALS, PAIRS, ROWS_AT, LITERALS_AT, PAIRS_AT, WHOLE, FIELDS };

typedef struct {
    size_t length;
    size_t left_over; /* lent bytes that make no whole row or pair; a page has none */
    long field[FIELDS]; /* all -1 where the header is cut off */
    int rows, literals, pairs; /* how many were there to read, within the greatest counts */
    int row[32][4];
    int literal[704];
    int pair[8][2];
} Sheet;

/* The byte at `at`, -1 past the end: a missing byte is unlike any byte. */
static int byte(const uint8_t *page, size_t length, size_t at) { return at < length ? page[at] : -1; }

static void parse(Sheet *sheet, const uint8_t *page, size_t length) {
    sheet->length = length;
    sheet->left_over = 0;
    sheet->rows = sheet->literals = sheet->pairs = 0;
    for (int f = 0; f < FIELDS; f++) sheet->field[f] = length < 18 ? -1 : page[2 * f] | page[2 * f + 1] << 8;
    if (length < 18) return;
    size_t at = 18;
    while (sheet->rows < sheet->field[ROWS] && sheet->rows < 32) {
        for (int i = 0; i < 4; i++) sheet->row[sheet->rows][i] = byte(page, length, at++);
        sheet->rows++;
    }
    while (sheet->literals < sheet->field[LITERALS] && sheet->literals < 704)
        sheet->literal[sheet->literals++] = byte(page, length, at++);
    while (sheet->pairs < sheet->field[PAIRS] && sheet->pairs < 8) {
        for (int i = 0; i < 2; i++) sheet->pair[sheet->pairs][i] = byte(page, length, at++);
        sheet->pairs++;
    }
}

/* The faults, each one a question to the sheet that is asked only where none before it holds. */

static int cut_off(const Sheet *sheet) { return sheet->length < 18; }

static int other_form(const Sheet *sheet) { return sheet->field[FORM] != 1; }

static int in_pieces(const Sheet *sheet) { return sheet->left_over != 0; }

static int out_of_range(const Sheet *sheet) {
    static const long least[] = {0, 1, 0, 0, 0}, most[] = {0, 16, 32, 704, 8};
    for (int f = ATOMS; f <= PAIRS; f++)
        if (sheet->field[f] < least[f] || sheet->field[f] > most[f]) return 1;
    return 0;
}

static const int bytes_each[] = {4, 1, 2}; /* of a row, a literal, a pair */

static int other_layout(const Sheet *sheet) {
    long place = 18;
    for (int part = 0; part < 3; part++) { /* each part starts where the one before it ends */
        if (sheet->field[ROWS_AT + part] != place) return 1;
        place += bytes_each[part] * sheet->field[ROWS + part];
    }
    return sheet->field[WHOLE] != place || sheet->length != (size_t)place;
}

static int bad_row(const Sheet *sheet) {
    static const int most[] = {6, 8, 8, 0};
    int sum = 0;
    for (int r = 0; r < sheet->rows; r++)
        for (int i = 0; i < 4; i++) {
            if (sheet->row[r][i] > most[i]) return 1;
            sum += sheet->row[r][i];
        }
    return sum != sheet->field[LITERALS];
}

static int unknown_atom(const Sheet *sheet) {
    for (int i = 0; i < sheet->literals; i++)
        if (sheet->literal[i] >= sheet->field[ATOMS]) return 1;
    for (int q = 0; q < sheet->pairs; q++)
        if (sheet->pair[q][0] >= sheet->field[ATOMS] || sheet->pair[q][1] >= sheet->field[ATOMS]) return 1;
    return 0;
}

static int unsorted_body(const Sheet *sheet) {
    int at = 0;
    for (int r = 0; r < sheet->rows; r++)
        for (int list = 0; list < 3; list++) {
            int end = at + sheet->row[r][list], last = -1;
            for (; at < end; last = sheet->literal[at++])
                if (list > 0 && sheet->literal[at] <= last) return 1; /* list 0 is the head: any order will do */
        }
    return 0;
}

static int bad_pair(const Sheet *sheet) {
    for (int q = 0; q < sheet->pairs; q++) {
        const int *one = sheet->pair[q];
        if (!(one[0] < one[1])) return 1;
        for (int later = q + 1; later < sheet->pairs; later++) {
            const int *other = sheet->pair[later];
            if (later == q + 1 && !(one[0] < other[0])) return 1;
            for (int i = 0; i < 4; i++)
                if (one[i / 2] == other[i % 2]) return 1;
        }
    }
    return 0;
}

static const struct {
    int number;
    int (*holds)(const Sheet *);
} faults[] = {
    {1, cut_off}, {2, other_form},   {3, in_pieces},     {3, out_of_range}, {4, other_layout},
    {5, bad_row}, {6, unknown_atom}, {7, unsorted_body}, {8, bad_pair},
};

static int first_fault(const Sheet *sheet) {
    for (unsigned i = 0; i < sizeof faults / sizeof faults[0]; i++)
        if (faults[i].holds(sheet)) return faults[i].number;
    return 0;
}

/* ---- the sheet the other way: from what the writer is given, and out as bytes ---- */

static int at_most(int limit, size_t count) { return count < (size_t)limit ? (int)count : limit; }

/* Form and layout come out right here, so of the faults only 3 and 5 to 8 can hold. */
static void take_down(Sheet *sheet, const Content *content) {
    const Part *rows = &content->rows, *literals = &content->literals, *pairs = &content->pairs;
    size_t count[] = {rows->length / 3, literals->length, pairs->length / 2};
    sheet->left_over = rows->length % 3 + pairs->length % 2;
    sheet->field[FORM] = 1;
    sheet->field[ATOMS] = (long)content->atoms; /* what a long cannot hold comes out below 0: not in range either */
    sheet->length = 18;
    for (int part = 0; part < 3; part++) {
        sheet->field[ROWS + part] = (long)count[part];
        sheet->field[ROWS_AT + part] = (long)sheet->length;
        sheet->length += (size_t)bytes_each[part] * count[part];
    }
    sheet->field[WHOLE] = (long)sheet->length;
    sheet->rows = at_most(32, count[0]);
    sheet->literals = at_most(704, count[1]);
    sheet->pairs = at_most(8, count[2]);
    for (int r = 0; r < sheet->rows; r++)
        for (int i = 0; i < 4; i++) sheet->row[r][i] = i < 3 ? rows->byte[3 * r + i] : 0;
    for (int i = 0; i < sheet->literals; i++) sheet->literal[i] = literals->byte[i];
    for (int i = 0; i < 2 * sheet->pairs; i++) sheet->pair[i / 2][i % 2] = pairs->byte[i];
}

/* The page of a sheet without fault, number after number; its length is what came out. */
static unsigned print(const Sheet *sheet, uint8_t *page) {
    unsigned at = 0;
    for (int i = 0; i < 2 * FIELDS; i++) page[at++] = (uint8_t)(sheet->field[i / 2] >> 8 * (i % 2));
    for (int i = 0; i < 4 * sheet->rows; i++) page[at++] = (uint8_t)sheet->row[i / 4][i % 4];
    for (int i = 0; i < sheet->literals; i++) page[at++] = (uint8_t)sheet->literal[i];
    for (int i = 0; i < 2 * sheet->pairs; i++) page[at++] = (uint8_t)sheet->pair[i / 2][i % 2];
    return at;
}

/* ---- the program ---- */

static void build(Solved *s, const Sheet *sheet, uint16_t flags) {
    int at = 0;
    s->page_rows = s->rules = sheet->rows;
    s->pairs = sheet->pairs;
    for (int r = 0; r < sheet->rows; r++) {
        Rule *rule = &s->rule[r];
        rule->heads = sheet->row[r][0];
        rule->positive = rule->negative = 0;
        for (int i = 0; i < rule->heads; i++) rule->head[i] = sheet->literal[at++];
        for (int i = 0; i < sheet->row[r][1]; i++) rule->positive |= 1u << sheet->literal[at++];
        for (int i = 0; i < sheet->row[r][2]; i++) rule->negative |= 1u << sheet->literal[at++];
    }
    for (int q = 0; q < sheet->pairs; q++) s->pair[q] = 1u << sheet->pair[q][0] | 1u << sheet->pair[q][1];
    for (int atom = 0; atom < s->atoms; atom++)
        if (flags >> atom & 1) s->rule[s->rules++] = (Rule){.heads = 1, .head = {atom}};
    s->split_number = 1;
    for (int r = 0; r < s->rules && s->split_number <= 4096; r++)
        s->split_number *= s->rule[r].heads ? s->rule[r].heads : 1;
    if (s->split_number > 4096) s->split_number = 4097;
}

static int holds_pair(const Solved *s, uint32_t set) {
    for (int q = 0; q < s->pairs; q++)
        if ((set & s->pair[q]) == s->pair[q]) return 1;
    return 0;
}

/* ---- road 1: split programs ---- */

/* A rule of a split program, which is a normal program: one head atom or none. */
typedef struct {
    uint32_t head, positive, negative;
} Normal;

/* The first choice of options, and the next one; 0 after the last. */
static void first_choice(int *choice) { memset(choice, 0, 48 * sizeof *choice); }
static int next_choice(const Solved *s, int *choice) {
    for (int r = 0; r < s->rules; r++) {
        if (++choice[r] < s->rule[r].heads) return 1;
        choice[r] = 0;
    }
    return 0;
}

/* The split program of a choice: head atom k if the body holds and no head atom before k does. */
static void split_program(const Solved *s, const int *choice, Normal *split) {
    for (int r = 0; r < s->rules; r++) {
        const Rule *rule = &s->rule[r];
        split[r] = (Normal){0, rule->positive, rule->negative};
        if (rule->heads == 0) continue;
        split[r].head = 1u << rule->head[choice[r]];
        for (int k = 0; k < choice[r]; k++) split[r].negative |= 1u << rule->head[k];
    }
}

/* Gelfond and Lifschitz: drop the rules with a negative atom in the set, strike the negative atoms of the others;
   the set is an answer set if it is the least model of what is left, and no headless rule fires. */
static int is_split_answer(const Normal *split, int rules, uint32_t set) {
    Normal reduct[48];
    int left = 0;
    uint32_t model = 0, before;
    for (int r = 0; r < rules; r++)
        if (!(split[r].negative & set)) reduct[left++] = split[r];
    do {
        before = model;
        for (int i = 0; i < left; i++)
            if (!(reduct[i].positive & ~model)) model |= reduct[i].head;
    } while (model != before);
    if (model != set) return 0;
    for (int i = 0; i < left; i++)
        if (!reduct[i].head && !(reduct[i].positive & ~set)) return 0;
    return 1;
}

/* In how many split programs one set is an answer set. */
static int count_choices(const Solved *s, uint32_t set) {
    int choice[48], count = 0;
    Normal split[48];
    if (holds_pair(s, set)) return 0;
    first_choice(choice);
    do {
        split_program(s, choice, split);
        count += is_split_answer(split, s->rules, set);
    } while (next_choice(s, choice));
    return count;
}

/* The same for all sets at once, each split program being built once. */
static void count_all(Solved *s) {
    int choice[48];
    Normal split[48];
    memset(s->split_count, 0, sizeof(uint16_t) << s->atoms);
    first_choice(choice);
    do {
        split_program(s, choice, split);
        for (uint32_t set = 0; set < 1u << s->atoms; set++)
            if (is_split_answer(split, s->rules, set) && !holds_pair(s, set)) s->split_count[set]++;
    } while (next_choice(s, choice));
    s->counted = 1;
    for (uint32_t set = 0; set < 1u << s->atoms; set++)
        if ((s->split_count[set] > 0) != s->is_answer[set]) s->roads_differ = 1;
}

/* ---- road 2: here-and-there ---- */

/* H and T satisfy "body implies ordered head": in T alone as an implication, and in H and T together. */
static int pair_satisfies(const Rule *rule, uint32_t here, uint32_t there) {
    int head_there = 0, head_here = 0;
    for (int k = 0; k < rule->heads && !head_there; k++)
        if (there >> rule->head[k] & 1) {
            head_there = 1;
            head_here = here >> rule->head[k] & 1;
        }
    int denied = (rule->negative & there) != 0;
    int body_there = (rule->positive & ~there) == 0 && !denied;
    int body_here = (rule->positive & ~here) == 0 && !denied;
    return (!body_there || head_there) && (!body_here || head_here);
}

static int is_pair_model(const Solved *s, uint32_t here, uint32_t there) {
    for (int r = 0; r < s->rules; r++)
        if (!pair_satisfies(&s->rule[r], here, there)) return 0;
    return 1;
}

static void all_equilibria(Solved *s) {
    for (uint32_t there = 0; there < 1u << s->atoms; there++) {
        int yes = !holds_pair(s, there) && is_pair_model(s, there, there);
        for (uint32_t here = 0; yes && here < there; here++)
            if ((here & ~there) == 0 && is_pair_model(s, here, there)) yes = 0;
        if (yes != s->is_answer[there]) s->roads_differ = 1;
    }
}

/* ---- road 3: a search ---- */

/* Some rule can still bring in this atom: its body is not ruled out, and no head atom before it is in. */
static int can_be_brought(const Solved *s, int atom, uint32_t in, uint32_t out) {
    for (int r = 0; r < s->rules; r++) {
        const Rule *rule = &s->rule[r];
        if ((rule->positive & out) | (rule->negative & in)) continue;
        for (int k = 0; k < rule->heads; k++) {
            if (rule->head[k] == atom) return 1;
            if (in >> rule->head[k] & 1) break;
        }
    }
    return 0;
}

/* No set between the atoms that are in and those not out can be an answer set. */
static int hopeless(const Solved *s, uint32_t in, uint32_t out) {
    if (holds_pair(s, in)) return 1;
    for (int r = 0; r < s->rules; r++) {
        const Rule *rule = &s->rule[r];
        if ((rule->positive & ~in) | (rule->negative & ~out)) continue;
        int open = 0;
        for (int k = 0; k < rule->heads; k++) open |= !(out >> rule->head[k] & 1);
        if (!open) return 1;
    }
    for (int atom = 0; atom < s->atoms; atom++)
        if (in >> atom & 1 && !can_be_brought(s, atom, in, out)) return 1;
    return 0;
}

/* Some atoms of the set have no support but each other: what is left of the set when atoms with a support outside of
   it are taken away, again and again. (The set satisfies every rule when this is asked.) */
static int leans_on_itself(const Solved *s, uint32_t set) {
    uint32_t leaning = set, before;
    do {
        before = leaning;
        for (int r = 0; r < s->rules; r++) {
            const Rule *rule = &s->rule[r];
            if ((rule->positive & ~set) | (rule->negative & set) | (rule->positive & leaning)) continue;
            for (int k = 0; k < rule->heads; k++)
                if (set >> rule->head[k] & 1) {
                    leaning &= ~(1u << rule->head[k]);
                    break;
                }
        }
    } while (leaning != before);
    return leaning != 0;
}

/* Decides the atoms below `open`, the highest first and out before in, so that sets come out rising. */
static void search(Solved *s, int open, uint32_t in, uint32_t out) {
    if (hopeless(s, in, out)) return;
    if (open > 0) {
        search(s, open - 1, in, out | 1u << (open - 1));
        search(s, open - 1, in | 1u << (open - 1), out);
    } else if (!leans_on_itself(s, in)) {
        s->is_answer[in] = 1;
        s->set[s->sets++] = (uint16_t)in;
    }
}

/* ---- rounds: the heights of atoms ---- */

enum { NO_HEIGHT = 1000 }; /* above every height */

/* The atom that a rule gives in the reduct of the set, -1 where it gives none. */
static int given(const Rule *rule, uint32_t set) {
    if (rule->negative & set) return -1;
    for (int k = 0; k < rule->heads; k++)
        if (set >> rule->head[k] & 1) return rule->head[k];
    return -1;
}

/* The height of the highest of these atoms, 0 where there are none. */
static int highest(const int *height, uint32_t atoms) {
    int most = 0;
    for (int atom = 0; atom < 16; atom++)
        if (atoms >> atom & 1 && height[atom] > most) most = height[atom];
    return most;
}

/* Another road than rounds, as shortest ways are found in a net of roads: an atom stands one above the highest atom in the
   body of a rule that gives it, and the rule that puts it lowest counts. At first no atom has a height; then rule after
   rule, in the order of the page, lowers the atom that it gives, until none lowers one. Atoms that only lean on each other
   never get a height. An atom's height is the round that brings it in, and no height below it is left out. */
static int greatest_height(const Solved *s, uint32_t set) {
    int height[16], lowered;
    uint32_t reached = 0;
    for (int atom = 0; atom < 16; atom++) height[atom] = NO_HEIGHT;
    do {
        lowered = 0;
        for (int r = 0; r < s->rules; r++) {
            int atom = given(&s->rule[r], set), above = highest(height, s->rule[r].positive) + 1;
            if (atom < 0 || above >= height[atom]) continue;
            height[atom] = above;
            reached |= 1u << atom;
            lowered = 1;
        }
    } while (lowered);
    return highest(height, reached);
}

/* ---- ranking ---- */

/* 1 where the body does not hold, otherwise the place of the first head atom in the set; 0 cannot be in an answer set. */
static int degree(const Rule *rule, uint32_t set) {
    if ((rule->positive & ~set) | (rule->negative & set)) return 1;
    for (int k = 1; k <= rule->heads; k++)
        if (set >> rule->head[k - 1] & 1) return k;
    return 0;
}

static Collections collect(const Solved *s, uint32_t set) {
    Collections c = {{0}};
    for (int r = 0; r < s->rules; r++) c.degree[degree(&s->rule[r], set)] |= (Rows)1 << r;
    return c;
}

static int is_strict_part(Rows part, Rows whole) { return (part & ~whole) == 0 && part != whole; }

/* 000, Definition 6: for some k the rows of degree k in N are a strict part of those in M, and for each smaller degree
   the two collections are equal. */
static int is_preferred(const Collections *m, const Collections *n) {
    for (int k = 1; k <= 6; k++) {
        int equal_below = 1;
        for (int j = 1; j < k; j++) equal_below &= m->degree[j] == n->degree[j];
        if (equal_below && is_strict_part(n->degree[k], m->degree[k])) return 1;
    }
    return 0;
}

/* Sorting of set indexes by the collection of one degree: the larger ones first, equal ones side by side. */
static const Solved *sorted_for;
static int sorted_degree;
static int by_collection(const void *x, const void *y) {
    Rows a = sorted_for->ranked[*(const uint16_t *)x].degree[sorted_degree];
    Rows b = sorted_for->ranked[*(const uint16_t *)y].degree[sorted_degree];
    int more = __builtin_popcountll(b) - __builtin_popcountll(a);
    return more ? more : (a > b) - (a < b);
}

/* Among sets that are equal in all degrees below k, only those whose collection of degree k is no strict part of
   another's can be best; each group of equal collections is then ranked by the next degree. */
static void mark_best(const Solved *s, uint16_t *index, int count, int k, uint8_t *is_best) {
    if (k > 6 || count == 1) {
        for (int i = 0; i < count; i++) is_best[index[i]] = 1;
        return;
    }
    sorted_for = s;
    sorted_degree = k;
    qsort(index, (size_t)count, sizeof *index, by_collection);
    static int tops_of[7][65536];
    int *top = tops_of[k], tops = 0, end;
    for (int start = 0; start < count; start = end) {
        Rows mine = s->ranked[index[start]].degree[k];
        int beaten = 0;
        for (end = start; end < count && s->ranked[index[end]].degree[k] == mine; end++) {}
        for (int t = 0; t < tops && !beaten; t++) beaten = is_strict_part(mine, s->ranked[index[top[t]]].degree[k]);
        if (!beaten) top[tops++] = start;
    }
    /* A group keeps its place while it is ranked further: only its own part of the list is sorted again. */
    for (int t = 0; t < tops; t++) {
        Rows mine = s->ranked[index[top[t]]].degree[k];
        for (end = top[t]; end < count && s->ranked[index[end]].degree[k] == mine; end++) {}
        mark_best(s, index + top[t], end - top[t], k + 1, is_best);
    }
}

enum { DOUBLE_LOOP = 400 };

static void find_best(Solved *s) {
    static uint8_t is_best[65536];
    static uint16_t index[65536];
    for (int i = 0; i < s->sets; i++) {
        s->ranked[i] = collect(s, s->set[i]);
        is_best[i] = 0;
        index[i] = (uint16_t)i;
    }
    if (s->sets > 0) mark_best(s, index, s->sets, 1, is_best);
    for (int n = 0; n < s->sets; n++) {
        if (s->sets <= DOUBLE_LOOP) {
            int unbeaten = 1;
            for (int m = 0; m < s->sets; m++) unbeaten &= !is_preferred(&s->ranked[m], &s->ranked[n]);
            if (unbeaten != is_best[n]) s->roads_differ = 1;
        }
        if (is_best[n]) s->best[s->bests++] = s->set[n];
    }
}

/* ---- all of it ---- */

enum { SPLIT_WORK = 1 << 13, PAIR_WORK = 7 };

void second_solve(Solved *s, const uint8_t *page, size_t length, uint16_t flags) {
    static Sheet sheet;
    parse(&sheet, page, length);
    s->page_fault = first_fault(&sheet);
    s->flags_fault = s->roads_differ = s->counted = s->sets = s->bests = 0;
    if (s->page_fault) return;
    s->atoms = (int)sheet.field[ATOMS];
    s->flags_fault = flags >> s->atoms != 0;
    if (s->flags_fault) {
        s->page_rows = sheet.rows;
        return;
    }
    build(s, &sheet, flags);
    memset(s->is_answer, 0, (size_t)1 << s->atoms);
    search(s, s->atoms, 0, 0);
    if (s->split_number <= 4096 && s->split_number << s->atoms <= SPLIT_WORK) count_all(s);
    if (s->atoms <= PAIR_WORK) all_equilibria(s);
    find_best(s);
}

/* ---- the calls: each has its refusals as a list, in order ---- */

enum { MOST = 16 };

/* The page's fault, or the first number of the list (ended by 0) whose condition holds; 0 where none does. */
static unsigned first_refusal(int page_fault, const int *order, const int *holds) {
    if (page_fault) return (unsigned)page_fault;
    for (; *order; order++)
        if (holds[*order]) return (unsigned)*order;
    return 0;
}

static Answer answer(unsigned number, unsigned value) { return (Answer){number, number ? 0 : value}; }

static int strays(const Solved *s, uint16_t set) { return s->flags_fault || (!s->page_fault && set >> s->atoms); }
static int knows(const Solved *s, uint16_t set) {
    return !s->page_fault && !strays(s, set) && s->is_answer[set];
}

Answer second_pick(const Solved *s) {
    static const int order[] = {9, 10, 0};
    int holds[MOST] = {[9] = s->flags_fault, [10] = s->sets == 0};
    unsigned number = first_refusal(s->page_fault, order, holds);
    return answer(number, number ? 0 : s->best[0]);
}

Answer second_test(const Solved *s, uint16_t set) {
    static const int order[] = {9, 0};
    int holds[MOST] = {[9] = strays(s, set)};
    return answer(first_refusal(s->page_fault, order, holds), (unsigned)knows(s, set));
}

Answer second_split(const Solved *s, uint16_t set) {
    static const int order[] = {9, 12, 0};
    int holds[MOST] = {[9] = strays(s, set), [12] = s->split_number > 4096};
    unsigned number = first_refusal(s->page_fault, order, holds);
    if (number) return answer(number, 0);
    return answer(0, s->counted ? s->split_count[set] : (unsigned)count_choices(s, set));
}

Answer second_rounds(const Solved *s, uint16_t set) {
    static const int order[] = {9, 0};
    int holds[MOST] = {[9] = strays(s, set)};
    unsigned number = first_refusal(s->page_fault, order, holds);
    return answer(number, number ? 0 : (unsigned)greatest_height(s, set));
}

static Answer listed(const Solved *s, int count, size_t room) {
    static const int order[] = {9, 11, 0};
    int holds[MOST] = {[9] = s->flags_fault, [11] = room < (size_t)count};
    return answer(first_refusal(s->page_fault, order, holds), (unsigned)count);
}
Answer second_list(const Solved *s, size_t room) { return listed(s, s->sets, room); }
Answer second_best(const Solved *s, size_t room) { return listed(s, s->bests, room); }

Answer second_degrees(const Solved *s, uint16_t set, size_t room, uint8_t *degrees) {
    static const int order[] = {9, 11, 13, 0};
    int holds[MOST] = {[9] = strays(s, set), [11] = room < (size_t)s->page_rows, [13] = !knows(s, set)};
    unsigned number = first_refusal(s->page_fault, order, holds);
    if (number) return answer(number, 0);
    for (int r = 0; r < s->page_rows; r++) degrees[r] = (uint8_t)degree(&s->rule[r], set);
    return answer(0, (unsigned)s->page_rows);
}

Answer second_compare(const Solved *s, uint16_t first, uint16_t second) {
    static const int order[] = {9, 13, 0};
    int holds[MOST] = {[9] = strays(s, first) || strays(s, second), [13] = !knows(s, first) || !knows(s, second)};
    unsigned number = first_refusal(s->page_fault, order, holds);
    if (number) return answer(number, 0);
    Collections one = collect(s, first), other = collect(s, second);
    return answer(0, is_preferred(&one, &other) ? 1 : is_preferred(&other, &one) ? 2 : 0);
}

/* Of the four outcomes the pick has to hold one. The exponent tells an infinity or a NaN from a number. */
Screen second_display(const Solved *s, const uint32_t *readings) {
    static const int order[] = {9, 10, 14, 15, 0};
    Answer picked = second_pick(s);
    int chosen = -1, outcomes = 0;
    for (int atom = 0; atom < 4; atom++)
        if (picked.value >> atom & 1) chosen = atom, outcomes++;
    int has_reading = chosen >= 0 && chosen < 3;
    int holds[MOST] = {[9] = s->flags_fault,
                       [10] = s->sets == 0,
                       [14] = s->atoms < 4 || outcomes != 1,
                       [15] = has_reading && (readings[chosen] >> 23 & 255) == 255};
    Screen screen = {answer(first_refusal(s->page_fault, order, holds), has_reading ? (unsigned)chosen + 1 : 0), 0x7fc00000};
    if (screen.answer.value) screen.bits = readings[chosen];
    return screen;
}

Answer second_write(const Content *content, size_t room, uint8_t *page) {
    static const int order[] = {11, 0};
    static Sheet sheet;
    take_down(&sheet, content);
    int holds[MOST] = {[11] = room < sheet.length};
    unsigned number = first_refusal(first_fault(&sheet), order, holds);
    return answer(number, number ? 0 : print(&sheet, page));
}

int second_prefers(const Solved *s, int m, int n) { return is_preferred(&s->ranked[m], &s->ranked[n]); }

/* As docs/PAGE.md lists them: a string with the letter of each number, a blank for all others. */
uint8_t second_letter(uint16_t number) { return number < 14 ? (uint8_t)" PPPPPPPPCFCCF"[number] : ' '; }
