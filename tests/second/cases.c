/* The pages with known results, but for the one with 59,535 sets, which pages.c makes. */
#include "cases.h"

const Case cases[CASES] = {
    {2, "ab", "", 0, "1 2 /1"},
    {4, "ab<-c;bc<-d", "", 0, "2 3 4 /3"},
    {5, "ab<c-d;da<-b;de<-a", "", 0, "1 8 /8"}, /* known of its sets is only that 6 and 0 are none */
    {5, "ab;cd<a;e", "ce", 0, "18 25 /18"},
    {2, "ab;b", "", 0, "2 3 /3"},
    {1, "a<-a", "", 0, ""},
    {1, "", "", 0, "0 /0"},
    {1, "<", "", 0, ""},
    {2, "ab;<a", "", 0, "2 /2"},
    {2, "a<b;b<a", "", 0, "0 /0"},
    {2, "aba", "", 0, "1 2 /1"},
    {6, "abcd;<ae;<bf", "", 0, "1 2 4 8 /1"},
    {6, "abcd;<ae;<bf", "", 16, "18 20 24 /18"},
    {6, "abcd;<ae;<bf", "", 48, "52 56 /52"},
    {5, "abc;de;<b;<ad;<ce", "", 0, "12 17 /12"},
    {2, "a;b<a", "", 0, "3 /3"}, /* needs a second round */
};

/* Live, second, held, none; then three causes that rule out the first three. */
#define FILTER "abcd;<ae;<bf;<cg"

const Case screens[SCREENS] = {
    {7, FILTER, "", 0x00, "0 1"},
    {7, FILTER, "", 0x10, "0 2"},
    {7, FILTER, "", 0x30, "0 3"},
    {7, FILTER, "", 0x70, "0 0"},            /* none: no number, and no refusal */
    {7, FILTER, "", 0x08, "14 0"},           /* none is raised, and live stands beside it */
    {16, "a;p", "", 0, "0 1"},               /* atoms above the four do not count */
    {4, "a", "", 0, "0 1"},                  /* four atoms are enough */
    {3, "a", "", 0, "14 0"},                 /* three are not, though the pick holds one outcome alone */
    {4, "", "", 0, "14 0"},                  /* the empty pick */
    {5, "e", "", 0, "14 0"},                 /* none of the four */
    {4, "a;b", "", 0, "14 0"},               /* two of them */
    {4, "b;d", "", 0, "14 0"},               /* two, one of which is none */
    {4, "a;b;c;d", "", 0, "14 0"},           /* all four */
    {3, "a<-a", "", 0, "10 0"},              /* no answer set comes before too few atoms */
};

/* Each atom but the first needs the one before it. */
#define UPWARD "b<a;c<b;d<c;e<d;f<e;g<f;h<g;i<h;j<i;k<j;l<k;m<l;n<m;o<n;p<o"
#define DOWNWARD "p<o;o<n;n<m;m<l;l<k;k<j;j<i;i<h;h<g;g<f;f<e;e<d;d<c;c<b;b<a"

const Case chains[CHAINS] = {
    {3, "a;b<a;c<b", "", 0, "7 3, 1 1, 0 0, 6 0, 5 1"},
    {3, "c<b;b<a;a", "", 0, "7 3, 1 1, 0 0, 6 0, 5 1"},       /* the order of the rows changes nothing */
    {1, "", "", 1, "1 1, 0 0"},                               /* a raised flag comes in with the first round */
    {3, "c<b;b", "", 1, "7 2, 1 1, 6 2"},                     /* and does not have it for itself */
    {4, "a;b<a;c<b;d<c;d<a", "", 0, "15 3, 7 3, 9 2"},        /* two ways to d, the shorter one counts */
    {4, "a;b;c<b;d<ac", "", 0, "15 3, 13 1, 14 2"},           /* two reasons for d, the later one counts */
    {3, "b<c;c<b;a", "", 0, "7 1, 6 0"},                      /* what leans on itself never comes in */
    {3, "ab;c<b", "", 0, "7 1, 6 2, 5 1"},                    /* a row gives its first atom in the set alone */
    {3, "a<-b;b<a;c<-a", "", 0, "1 1, 3 0, 2 0, 4 1, 6 1"},   /* negative bodies are looked up in the set */
    {3, "a;b<a;c<b", "ac", 0, "7 3"},                         /* a pair changes nothing */
    {3, "a;b<a;<b;c<-c", "", 0, "3 2, 1 1"},                  /* nor do rows that the set breaks */
    {16, "a;" UPWARD, "", 0, "65535 16, 32767 15, 65279 8, 65534 0"},
    {16, DOWNWARD ";a", "", 0, "65535 16, 32767 15, 65279 8, 65534 0"},
    {16, DOWNWARD, "", 1, "65535 16, 32767 15, 65534 0"},     /* as many rounds as rows and flags together */
    {16, UPWARD, "", 257, "65535 8, 65279 8, 65280 8"},       /* two chains side by side, each from a flag */
};

static void put_field(Page *page, size_t at, size_t value) {
    page->byte[at] = (uint8_t)value;
    page->byte[at + 1] = (uint8_t)(value >> 8);
}

/* The bytes of a case. Bodies are written in rising order above, the positive atoms first. */
void case_page(Page *page, const Case *c) {
    size_t rows = *c->rows ? 1 : 0, literals = 0, pairs = *c->pair ? 1 : 0;
    for (const char *t = c->rows; *t; t++) {
        rows += *t == ';';
        literals += *t >= 'a';
    }
    size_t at = 18 + 4 * rows, row = 18;
    put_field(page, 0, 1);
    put_field(page, 2, (size_t)c->atoms);
    put_field(page, 4, rows);
    put_field(page, 6, literals);
    put_field(page, 8, pairs);
    put_field(page, 10, 18);
    put_field(page, 12, at);
    put_field(page, 14, at + literals);
    put_field(page, 16, at + literals + 2 * pairs);
    for (size_t i = 18; i < at; i++) page->byte[i] = 0;
    int list = 0; /* 0 head, 1 positive body, 2 negative body */
    for (const char *t = c->rows; *t; t++) {
        if (*t == ';') row += 4, list = 0;
        else if (*t == '<') list = 1;
        else if (*t == '-') list = 2;
        else {
            page->byte[row + (size_t)list]++;
            page->byte[at++] = (uint8_t)(*t - 'a');
        }
    }
    for (const char *t = c->pair; *t; t++) page->byte[at++] = (uint8_t)(*t - 'a');
    page->length = at;
}
