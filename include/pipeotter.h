/* Pipeotter for C: which sets of atoms does a page of ranked rules allow, by how long a chain of reasons, which of them is
   best, and what a display shows by it. One more call makes a page from its parts.

   Link with libcapi.a (x86-64; `rt lib` in crates/capi writes it). It wants memcpy and memset from you, and a compiler for C99
   or C++11. The calls keep nothing between them, take no heap, and touch only what you lend. No call needs more than
   20 KiB of stack. As built by the kit before this one, list, best, pick and display need up to 15 KiB, the split test
   5.8 KiB, the writer 1.3 KiB, every other call less than 1 KiB. A call that takes a page reads it some three times, however many sets it tries
   (docs/SPEED.md, which also tells of time). The calls may be made from several threads at once if no lent slice is
   written by two.

   Words used here
     page    the bytes of one page, form 1: header of 18 bytes, rows, literals, pairs (docs/PAGE.md)
     flags   raised atoms: bit i raised means that atom i holds, as if the page had a row that says so
     set     atoms that hold: bit i is atom i. An answer set is a set that the page and the flags allow
     A, R    the page's number of atoms (1 to 16) and of rows (0 to 32)
     L, Q    its number of literals (0 to 704) and of pairs (0 to 8)

   What a call returns
     65,536 times the refusal number, plus the value. PIPEOTTER_NUMBER and PIPEOTTER_VALUE take them apart.
     The letter is a plain byte. The display returns 64 bits, with macros of its own: such a word in the upper half, and
     a reading's bits in the lower.
     Number 0 is "accepted". Look at the number first: the value 0 is also a good value (the empty set, a count of 0).
     Where several refusals hold, the lowest number of the call's own list is returned. Each number is returned exactly
     when its condition holds and none before it in the list does, so it can be relied on as a diagnosis.
     A refused call has the value 0 (the display: no number) and leaves all lent memory as it was, entry for entry.

   What the proof covers
     For every page content, length, number of atoms, flag word, set, room and reading: the result and the lent memory
     afterwards are the ones written here, no byte outside the lent memory is read or written, and the call returns.

   What lies outside the proof. These are yours to keep:
     - a pointer must be good for the length given with it: `page` for reading `length` bytes, `rows`, `literals` and
       `pairs` for reading as many bytes as their own lengths say, `sets` for `room` entries of 16 bits, `degrees` and
       `buffer` for `room` bytes. A null pointer is never good, not even with length or room 0: lend the address of any
       object instead
     - `sets` must be aligned as a uint16_t
     - a `float` is single precision by IEEE 754, and is passed as x86-64 compilers for Linux pass one
     - a lent slice to write to must not overlap what the call reads, the page or the writer's rows, literals and pairs,
       and nobody else may write to any of them during the call
     - this header: nothing but the tests compares it with the proved code */
#ifndef PIPEOTTER_H
#define PIPEOTTER_H

/* A compiler without the standard headers (some firmware kits) gets the types from its own macros. */
#if !defined(__has_include)
#  include <stddef.h>
#  include <stdint.h>
#elif __has_include(<stdint.h>) && __has_include(<stddef.h>)
#  include <stddef.h>
#  include <stdint.h>
#else
typedef __UINT8_TYPE__ uint8_t;
typedef __UINT16_TYPE__ uint16_t;
typedef __UINT32_TYPE__ uint32_t;
typedef __UINT64_TYPE__ uint64_t;
typedef __SIZE_TYPE__ size_t;
#endif

#ifdef __cplusplus
extern "C" {
#endif

/* The refusal numbers. 1 to 8 are faults of the page, 9, 11 and 12 faults of the call, 10 and 13 findings; 14 and 15 are
   the display's. */
enum {
    PIPEOTTER_ACCEPTED = 0,
    PIPEOTTER_SHORT_PAGE = 1,      /* the page has fewer than 18 bytes */
    PIPEOTTER_WRONG_FORM = 2,      /* its form is not 1 */
    PIPEOTTER_COUNT_RANGE = 3,     /* atoms, rows, literals or pairs outside their range; for the writer also a length that
                                      is no whole number of rows or of pairs */
    PIPEOTTER_WRONG_LAYOUT = 4,    /* an offset or the whole length is not as the counts say, or not the lent length */
    PIPEOTTER_BAD_ROW = 5,         /* a row's count too large, its fourth byte not 0 (the writer's rows have none), or the
                                      counts do not add up */
    PIPEOTTER_UNKNOWN_ATOM = 6,    /* an atom number of A or more, in the literals or in the pairs */
    PIPEOTTER_UNSORTED_BODY = 7,   /* a body list that does not rise strictly */
    PIPEOTTER_BAD_PAIR = 8,        /* a pair out of order, or an atom in two pairs */
    PIPEOTTER_STRAY_BIT = 9,       /* the flag word or a given set has a bit at A or above */
    PIPEOTTER_NO_ANSWER_SET = 10,  /* no set is allowed: there is nothing to pick */
    PIPEOTTER_SHORT_ROOM = 11,     /* the lent slice is too short for the whole result */
    PIPEOTTER_TOO_MANY_SPLITS = 12,/* the page has more than 4,096 split programs */
    PIPEOTTER_NOT_ANSWER_SET = 13, /* a given set is not an answer set */
    PIPEOTTER_NO_OUTCOME = 14,     /* the page has fewer than four atoms, or the pick not exactly one of atoms 0 to 3 */
    PIPEOTTER_BAD_READING = 15     /* the chosen reading is infinite or not a number */
};

/* The two halves of what a call returns. */
#define PIPEOTTER_NUMBER(result) ((uint16_t)((uint32_t)(result) >> 16))
#define PIPEOTTER_VALUE(result) ((uint16_t)((uint32_t)(result) & 0xFFFFu))

/* Limits, for buffers. No page is longer, read or written, and no list either: 65,535 sets fit every list, 32 bytes all
   degrees. */
#define PIPEOTTER_LONGEST_PAGE 866
#define PIPEOTTER_MOST_SETS 65535
#define PIPEOTTER_MOST_ROWS 32

/* What pipeotter_compare answers. */
#define PIPEOTTER_NEITHER 0
#define PIPEOTTER_FIRST 1
#define PIPEOTTER_SECOND 2

/* What pipeotter_display answers: which of the readings is shown. */
#define PIPEOTTER_CASE_NO_NUMBER 0
#define PIPEOTTER_CASE_LIVE 1
#define PIPEOTTER_CASE_SECOND 2
#define PIPEOTTER_CASE_HELD 3

/* The set to act on: the lowest-numbered best set.
   Value: the set. 0 with number 0 is the empty set, a good pick.
   Refusals, in order: 1 to 8, 9 (flags), 10. */
uint32_t pipeotter_pick(const uint8_t *page, size_t length, uint16_t flags);

/* Is `set` an answer set? Three routes that always agree. The first is the fast one; the others are for cross-checks
   (the second tries every part of the set, the third every choice of options).
   Value of the first two: 1 yes, 0 no. Refusals, in order: 1 to 8, 9 (flags or set). */
uint32_t pipeotter_reduct_test(const uint8_t *page, size_t length, uint16_t flags, uint16_t set);
uint32_t pipeotter_here_there_test(const uint8_t *page, size_t length, uint16_t flags, uint16_t set);

/* Value: in how many split programs `set` is an answer set, 0 to 4,096; yes where it is above 0.
   Refusals, in order: 1 to 8, 9 (flags or set), 12. */
uint32_t pipeotter_split_test(const uint8_t *page, size_t length, uint16_t flags, uint16_t set);

/* How long is the chain of reasons behind `set`? Its atoms come in by rounds, starting from none. A row whose negative
   body has no atom in the set brings in the first of its head atoms that is in the set, one round after the last atom of
   its positive body came in, and in round 1 if that body is empty. A raised flag comes in with round 1, if the set has it.
   An atom comes in once, by the first that brings it.
   Any set will do. Of an answer set every atom comes in; of another some may never, and those count for nothing. Pairs
   change nothing, nor do rows that the set breaks: the value does not say whether the set is allowed.
   Value: in how many rounds something new comes in, 0 to 16. It is never above the number of atoms in the set, nor above
   R and the number of raised flags together.
   Refusals, in order: 1 to 8, 9 (flags or set). */
uint32_t pipeotter_rounds(const uint8_t *page, size_t length, uint16_t flags, uint16_t set);

/* All answer sets, or only the best ones, rising, each once.
   Value: the count, which may be 0. The sets stand in sets[0] up to sets[count - 1]; every later entry is unchanged.
   Refusals, in order: 1 to 8, 9 (flags), 11 (room below the count). A refused call stores nothing, not even a part. */
uint32_t pipeotter_list(const uint8_t *page, size_t length, uint16_t flags, uint16_t *sets, size_t room);
uint32_t pipeotter_best(const uint8_t *page, size_t length, uint16_t flags, uint16_t *sets, size_t room);

/* How well the answer set `set` does in each row of the page: 1 is the row's first wish (or the row does not apply),
   2 its second, up to 6.
   Value: R. The degrees stand in degrees[0] up to degrees[R - 1]; every later byte is unchanged.
   Refusals, in order: 1 to 8, 9 (flags or set), 11 (room below R), 13. */
uint32_t pipeotter_degrees(const uint8_t *page, size_t length, uint16_t flags, uint16_t set, uint8_t *degrees,
                           size_t room);

/* Which of two answer sets is preferred.
   Value: PIPEOTTER_FIRST, PIPEOTTER_SECOND, or PIPEOTTER_NEITHER (also for equal sets).
   Refusals, in order: 1 to 8, 9 (flags, first or second), 13 (either set). */
uint32_t pipeotter_compare(const uint8_t *page, size_t length, uint16_t flags, uint16_t first, uint16_t second);

/* What a display shows of three readings. On its pages atom 0 is live, 1 second, 2 held and 3 none; where the pick holds
   exactly one of these, that one is shown, with its reading. "None" is shown as no number, and is not a refusal.
   The result has 64 bits. Take it apart by the four below, not by PIPEOTTER_NUMBER and PIPEOTTER_VALUE.
   PIPEOTTER_SHOWN_NUMBER   the refusal number
   PIPEOTTER_SHOWN_CASE     PIPEOTTER_CASE_LIVE, _SECOND, _HELD or _NO_NUMBER; with every refusal _NO_NUMBER
   PIPEOTTER_SHOWN_BITS     the very bits of the reading that is shown
   pipeotter_shown_reading  the same as a float: never an infinity or a NaN where a reading is shown
   Where none is shown the bits are those of a NaN, 7fc00000, so that a caller who forgets to look at the case does not
   show 0. The refusals 14 and 15 have no panel letter: test the number.
   The readings that are not chosen change nothing, whatever they are.
   Refusals, in order: 1 to 8, 9 (flags), 10, 14, 15. */
uint64_t pipeotter_display(float live, float second, float held, const uint8_t *page, size_t length, uint16_t flags);

#define PIPEOTTER_SHOWN_NUMBER(result) ((uint16_t)((uint64_t)(result) >> 48))
#define PIPEOTTER_SHOWN_CASE(result) ((uint16_t)((uint64_t)(result) >> 32 & 0xFFFFu))
#define PIPEOTTER_SHOWN_BITS(result) ((uint32_t)((uint64_t)(result) & 0xFFFFFFFFu))

static inline float pipeotter_shown_reading(uint64_t result) {
    uint32_t bits = PIPEOTTER_SHOWN_BITS(result);
    float reading;
    const unsigned char *from = (const unsigned char *)&bits;
    unsigned char *to = (unsigned char *)&reading;
    for (size_t i = 0; i < sizeof reading; i++) to[i] = from[i];
    return reading;
}

/* Makes a page from its content. The header and the fourth byte of each row are the writer's own.
   atoms     A, 1 to 16; every other number is refused by 3
   rows      three bytes a row: how many atoms its head has (0 to 6; the alternatives, best first), its positive body
             (0 to 8; "if") and its negative body (0 to 8; "if not"). R is rows_length / 3
   literals  one atom a byte, row after row: the head, then the positive, then the negative body. L is literals_length
   pairs     two atoms a pair, one a byte. Q is pairs_length / 2
   Each of the three may be empty: pass any address and 0, but never null. They are not changed, and may overlap one
   another; `buffer` must not overlap them.
   Value: the page's length, 18 + 4R + L + 2Q. The page stands in buffer[0] up to buffer[length - 1]; every later byte is
   unchanged. No call refuses this page by 1 to 8, and it reads back as what was given. An accepted page that is read and
   written again has the same bytes.
   Refusals, in order: 3 (A, R, L or Q; or rows_length no multiple of 3, or pairs_length odd), 5, 6, 7, 8, 11 (room below
   the length; PIPEOTTER_LONGEST_PAGE is always enough). A refused call stores nothing, not even a part.
   With room 0 the call only checks: 11 then says that the content is fine.
   There is no call that takes a page apart; docs/PAGE.md says where its parts stand. */
uint32_t pipeotter_write(size_t atoms, const uint8_t *rows, size_t rows_length, const uint8_t *literals,
                         size_t literals_length, const uint8_t *pairs, size_t pairs_length, uint8_t *buffer, size_t room);

/* The letter that a panel shows for a refusal number: 'P' fault of the page, or of what it would be made of (1 to 8),
   'C' call fault (9, 11, 12), 'F' finding (10, 13), ' ' for 0 and every other number. Never refused. */
uint8_t pipeotter_letter(uint16_t number);

#ifdef __cplusplus
}
#endif
#endif
