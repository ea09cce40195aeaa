/* Every function of include/rushgirdle.h, at the edges: each number from 0 to 13, every field, every lent element before, in and after what is
 * written, and NULL with length 0; then once more with every slice just before memory that cannot be touched. What is expected was worked out by
 * hand from docs/RULE.md. Prints what fails, and at the end 'N passed, M failed'. */
#define _DEFAULT_SOURCE
#include <stdio.h>
#include <string.h>
#include <sys/mman.h>
#include <unistd.h>

#include "rushgirdle.h"

static unsigned passed, failed;

static void expect(int held, const char *what, int line)
{
    if (held) {
        passed++;
    } else {
        failed++;
        printf("FAILED: tests/surface.c:%d: %s\n", line, what);
    }
}

#define EXPECT(held) expect((held), #held, __LINE__)

#define BLANK 4294967295u
#define KEPT 2779096485u /* A5A5A5A5, what stands in a word that is lent */
#define ROOM 64

#define WORDS 260000 /* more than RUSHGIRDLE_MOST_WORDS */
#define LONGEST 200 /* bytes of a name */
#define POSTINGS 51712 /* of 256 names that long: 256 * 202 */

static uint32_t words[WORDS];

static void fill_words(uint32_t *w, size_t n)
{
    for (size_t i = 0; i < n; i++)
        w[i] = KEPT;
}

static int all_words(const uint32_t *w, size_t from, size_t to, uint32_t value)
{
    for (size_t i = from; i < to; i++)
        if (w[i] != value)
            return 0;
    return 1;
}

static int all_bytes(const uint8_t *b, size_t from, size_t to, uint8_t value)
{
    for (size_t i = from; i < to; i++)
        if (b[i] != value)
            return 0;
    return 1;
}

/* 256 lines of names of LONGEST bytes, which have the most postings; how many bytes they are */
#define LINE (9 + 2 * LONGEST)
static char most[256 * LINE + 1];

static size_t most_lines(void)
{
    int at = 0;
    for (unsigned i = 0; i < 256; i++) {
        at += sprintf(most + at, "4E%04X%02X", i, LONGEST);
        for (unsigned k = 0; k < LONGEST; k++)
            at += sprintf(most + at, "%02X", k % 2 == 0 ? 128 + i % 16 + 16 * (k / 2 % 8) : 128 + i / 16 + 16 * (k / 16 % 8));
        at += sprintf(most + at, "\n");
    }
    return (size_t)at;
}

/* a name of one byte too many; filled by main */
static char too_long[LONGEST + 2];

static rushgirdle_build_answer build(const char *text, size_t room)
{
    fill_words(words, ROOM);
    return rushgirdle_build((const uint8_t *)text, strlen(text), words, room);
}

/* ---- the index */

/* A under 1 and 2: grams 00 00 41, 00 41 00, 41 00 00, so features 65*256+1, 65*65536+1, 65*16777216+1, and size 3 */
static const char two_lines[] = "4E00010141\n4E00020141\n";
static const uint32_t two_words[23] = {
    2, 3, 6,
    259, 515,
    3, 16641, 0, 2,
    3, 4259841, 2, 2,
    3, 1090519041, 4, 2,
    1, 2, 1, 2, 1, 2};

/* the index of LA, a tab and NE under 5, as it was built when control characters were let in: it stays good, and is searched */
static const uint32_t tabbed[39] = {
    1, 7, 7, 5 * 256 + 7,
    7, 19457, 0, 1, 7, 4997377, 1, 1, 7, 156124417, 2, 1, 7, 1091128833, 3, 1, 7, 1157627905, 4, 1, 7, 1279330561, 5, 1, 7, 1313144833, 6, 1,
    5, 5, 5, 5, 5, 5, 5,
};

static void test_build(void)
{
    rushgirdle_build_answer b = build(two_lines, 25);
    EXPECT(b.number == 0 && b.line == 0);
    EXPECT(memcmp(words, two_words, sizeof two_words) == 0);
    EXPECT(all_words(words, 23, 25, BLANK));
    EXPECT(all_words(words, 25, ROOM, KEPT));
    b = build(two_lines, 23);
    EXPECT(b.number == 0 && b.line == 0 && memcmp(words, two_words, sizeof two_words) == 0);
    EXPECT(all_words(words, 23, ROOM, KEPT));
    b = build(two_lines, 22);
    EXPECT(b.number == 8 && b.line == 0);
    EXPECT(all_words(words, 0, 22, BLANK) && all_words(words, 22, ROOM, KEPT));

    /* an empty register: three words 0 */
    b = build("", 5);
    EXPECT(b.number == 0 && b.line == 0);
    EXPECT(all_words(words, 0, 3, 0) && all_words(words, 3, 5, BLANK) && all_words(words, 5, ROOM, KEPT));
    fill_words(words, ROOM);
    b = rushgirdle_build(NULL, 0, words, 3);
    EXPECT(b.number == 0 && b.line == 0 && all_words(words, 0, 3, 0) && all_words(words, 3, ROOM, KEPT));
    fill_words(words, ROOM);
    b = rushgirdle_build(NULL, 0, words, 2);
    EXPECT(b.number == 8 && b.line == 0 && all_words(words, 0, 2, BLANK) && all_words(words, 2, ROOM, KEPT));
    b = rushgirdle_build(NULL, 0, NULL, 0);
    EXPECT(b.number == 8 && b.line == 0);
    b = rushgirdle_build((const uint8_t *)two_lines, strlen(two_lines), NULL, 0);
    EXPECT(b.number == 8 && b.line == 0);

    /* the first bad line decides */
    b = build("4E00010141\n4E00020141", 30);
    EXPECT(b.number == 11 && b.line == 2);
    EXPECT(all_words(words, 0, 30, BLANK) && all_words(words, 30, ROOM, KEPT));
    b = build("4E00010141\n\n", 30);
    EXPECT(b.number == 11 && b.line == 2);
    b = build("4e00010141\n4E00020141\n", 30);
    EXPECT(b.number == 11 && b.line == 1);
    b = build("4E000100\n", 30);
    EXPECT(b.number == 1 && b.line == 1);
    b = build("4E00010100\n", 30);
    EXPECT(b.number == 3 && b.line == 1);
    b = build("4E00010141\n4E00010109\n", 30);
    EXPECT(b.number == 12 && b.line == 2);
    EXPECT(all_words(words, 0, 30, BLANK));
    b = build("4E00010141\n4E00020141\n4E00020141\n", 30);
    EXPECT(b.number == 9 && b.line == 3);
    EXPECT(all_words(words, 0, 30, BLANK));

    /* 64, 65 and 200 bytes pass, 201 give 2 */
    static const unsigned bytes_of[] = {64, 65, LONGEST, LONGEST + 1};
    char long_line[2 * (LONGEST + 1) + 16];
    for (unsigned k = 0; k < 4; k++) {
        unsigned n = bytes_of[k];
        int at = sprintf(long_line, "4E0001%02X", n);
        for (unsigned i = 0; i < n; i++)
            at += sprintf(long_line + at, "41");
        sprintf(long_line + at, "\n");
        fill_words(words, 1100);
        b = rushgirdle_build((const uint8_t *)long_line, strlen(long_line), words, 1100);
        EXPECT(b.number == (n <= LONGEST ? 0 : 2) && b.line == (n <= LONGEST ? 0u : 1u));
        EXPECT(n > LONGEST || (words[2] == n + 2 && rushgirdle_good(words, 1100)));
    }

    /* 256 names pass, a 257th gives 10; the largest id is 65535 */
    static char many[257 * 11 + 1];
    int at = 0;
    for (unsigned i = 0; i < 256; i++)
        at += sprintf(many + at, "4E%04X0141\n", 65535 - 256 + i);
    b = rushgirdle_build((const uint8_t *)many, (size_t)at, words, RUSHGIRDLE_MOST_WORDS);
    EXPECT(b.number == 0 && b.line == 0 && words[0] == 256 && words[1] == 3 && words[2] == 768);
    EXPECT(words[3] == 65279u * 256 + 3 && words[258] == 65534u * 256 + 3);
    sprintf(many + at, "4EFFFF0141\n");
    b = rushgirdle_build((const uint8_t *)many, (size_t)at + 11, words, RUSHGIRDLE_MOST_WORDS);
    EXPECT(b.number == 10 && b.line == 257);
    EXPECT(all_words(words, 0, RUSHGIRDLE_MOST_WORDS, BLANK));

    /* 256 names of 200 bytes have the most postings; the index takes 3+N+4D+P words, and a word less gives 8 */
    size_t length = most_lines();
    b = rushgirdle_build((const uint8_t *)most, length, words, RUSHGIRDLE_MOST_WORDS);
    EXPECT(b.number == 0 && words[0] == 256 && words[2] == POSTINGS && rushgirdle_good(words, RUSHGIRDLE_MOST_WORDS));
    size_t total = 3 + 256 + 4 * (size_t)words[1] + POSTINGS;
    EXPECT(rushgirdle_build((const uint8_t *)most, length, words, total).number == 0);
    EXPECT(rushgirdle_build((const uint8_t *)most, length, words, total - 1).number == 8);
}

static void test_good(void)
{
    uint32_t w[25];
    memcpy(w, two_words, sizeof two_words);
    w[23] = w[24] = KEPT;
    EXPECT(rushgirdle_good(w, 23) == true);
    EXPECT(rushgirdle_good(w, 25) == true);
    EXPECT(rushgirdle_good(w, 22) == false);
    EXPECT(rushgirdle_good(NULL, 0) == false);
    uint32_t none[3] = {0, 0, 0};
    EXPECT(rushgirdle_good(none, 3) == true);
    EXPECT(rushgirdle_good(none, 2) == false);
    /* one more in any word, and it is good no longer; but for the feature of a row, which may be any that keeps the order */
    for (unsigned i = 0; i < 23; i++) {
        w[i]++;
        EXPECT(rushgirdle_good(w, 23) == (i == 6 || i == 10 || i == 14));
        w[i]--;
    }
    EXPECT(memcmp(w, two_words, sizeof two_words) == 0 && w[23] == KEPT && w[24] == KEPT);
    EXPECT(rushgirdle_good(tabbed, 39) == true);
}

static void test_list(void)
{
    /* rows start at 5, postings at 17 */
    rushgirdle_list_answer l = rushgirdle_list(two_words, 23, 3, 16641);
    EXPECT(l.start == 17 && l.count == 2);
    l = rushgirdle_list(two_words, 23, 3, 4259841);
    EXPECT(l.start == 19 && l.count == 2);
    EXPECT(two_words[l.start] == 1 && two_words[l.start + 1] == 2);
    l = rushgirdle_list(two_words, 23, 3, 1090519041);
    EXPECT(l.start == 21 && l.count == 2);
    l = rushgirdle_list(two_words, 23, 3, 16642);
    EXPECT(l.start == 0 && l.count == 0);
    l = rushgirdle_list(two_words, 23, 4, 16641);
    EXPECT(l.start == 0 && l.count == 0);
    l = rushgirdle_list(two_words, 23, 3, 16641 + 4294967296u);
    EXPECT(l.start == 0 && l.count == 0);
    l = rushgirdle_list(two_words, 23, BLANK, UINT64_MAX);
    EXPECT(l.start == 0 && l.count == 0);
    l = rushgirdle_list(two_words, 22, 3, 16641);
    EXPECT(l.start == 0 && l.count == 0);
    l = rushgirdle_list(NULL, 0, 3, 16641);
    EXPECT(l.start == 0 && l.count == 0);
}

/* ---- adding and withdrawing */

/* A under 5 and under 9, the example of the rule; under 9 alone; under 5, 6 and 9 */
static const uint32_t both[23] = {2, 3, 6, 1283, 2307, 3, 16641, 0, 2, 3, 4259841, 2, 2, 3, 1090519041, 4, 2, 5, 9, 5, 9, 5, 9};
static const uint32_t nine[19] = {1, 3, 3, 2307, 3, 16641, 0, 1, 3, 4259841, 1, 1, 3, 1090519041, 2, 1, 9, 9, 9};
static const uint32_t three[27] = {
    3, 3, 9, 1283, 1539, 2307, 3, 16641, 0, 3, 3, 4259841, 3, 3, 3, 1090519041, 6, 3, 5, 6, 9, 5, 6, 9, 5, 6, 9};
static const uint32_t no_names[3] = {0, 0, 0};

/* the words of an index, in a slice of that length with others beyond; and whether that is what stands there, and nothing else is written */
static void lend(const uint32_t *index, size_t n, size_t length, uint32_t beyond)
{
    fill_words(words, ROOM);
    for (size_t i = 0; i < length; i++)
        words[i] = i < n ? index[i] : beyond;
}

static int stand(const uint32_t *index, size_t n, size_t length, uint32_t beyond)
{
    return memcmp(words, index, n * sizeof *words) == 0 && all_words(words, n, length, beyond) && all_words(words, length, ROOM, KEPT);
}

static unsigned add(size_t length, unsigned id, const char *name)
{
    return rushgirdle_add(words, length, (uint16_t)id, (const uint8_t *)name, strlen(name));
}

/* an add to the words of the example, in a slice of that length, has this number and changes no word */
static int add_refused(size_t length, unsigned id, const char *name, size_t name_length, unsigned number)
{
    lend(both, 23, length, 7);
    return rushgirdle_add(words, length, (uint16_t)id, (const uint8_t *)name, name_length) == number && stand(both, 23, length, 7);
}

static void test_add(void)
{
    /* the example of the rule: 5 goes and comes back, and then 9 goes as well */
    lend(both, 23, 25, 7);
    EXPECT(rushgirdle_withdraw(words, 25, 5) == 0 && stand(nine, 19, 25, BLANK));
    EXPECT(add(25, 5, "A") == 0 && stand(both, 23, 25, BLANK));
    EXPECT(rushgirdle_withdraw(words, 25, 5) == 0 && rushgirdle_withdraw(words, 25, 9) == 0 && stand(no_names, 3, 25, BLANK));
    lend(no_names, 3, 18, 7);
    EXPECT(add(18, 9, "A") == 8 && stand(no_names, 3, 18, 7));
    lend(no_names, 3, 19, 7);
    EXPECT(add(19, 9, "A") == 0 && stand(nine, 19, 19, BLANK));

    /* what a build leaves, and the words of a build of both */
    rushgirdle_build_answer b = build("", 25);
    EXPECT(b.number == 0 && add(25, 2, "A") == 0 && add(25, 1, "A") == 0 && stand(two_words, 23, 25, BLANK));

    /* a third name takes a name word and three postings; rubbish beyond goes */
    EXPECT(add_refused(23, 6, "A", 1, RUSHGIRDLE_ROOM));
    EXPECT(add_refused(26, 6, "A", 1, 8));
    lend(both, 23, 27, 7);
    EXPECT(add(27, 6, "A") == 0 && stand(three, 27, 27, BLANK));
    lend(both, 23, ROOM, 7);
    EXPECT(add(ROOM, 6, "A") == 0 && stand(three, 27, ROOM, BLANK));

    /* the refusals in their order, each before those after it: the id is live, and there is no room */
    static char long_name[LONGEST + 1];
    memset(long_name, 'A', sizeof long_name);
    lend(both, 23, 23, 7);
    words[2]++;
    EXPECT(add(23, 5, "") == RUSHGIRDLE_NOT_GOOD && words[2] == 7);
    words[2]--;
    EXPECT(stand(both, 23, 23, 7));
    EXPECT(add_refused(23, 5, "", 0, RUSHGIRDLE_EMPTY));
    EXPECT(add_refused(23, 5, long_name, LONGEST + 1, RUSHGIRDLE_LONG));
    EXPECT(add_refused(23, 5, "A\0", 2, RUSHGIRDLE_ZERO_BYTE));
    EXPECT(add_refused(23, 5, "\t\0", 2, 3));
    EXPECT(add_refused(23, 5, "A\t", 2, RUSHGIRDLE_CONTROL));
    EXPECT(add_refused(40, 6, "\x7f", 1, 12));
    EXPECT(add_refused(23, 5, "A", 1, RUSHGIRDLE_ORDER));
    EXPECT(add_refused(ROOM, 9, "B", 1, 9));
    EXPECT(add_refused(22 + 4, 6, long_name, LONGEST, 8));

    /* the least id and the greatest, before and after the others */
    lend(both, 23, 31, 7);
    EXPECT(add(31, 65535, "A") == 0 && words[5] == 65535u * 256 + 3 && add(31, 0, "A") == 0 && words[3] == 3 && words[0] == 4 && words[2] == 12);
    EXPECT(words[19] == 0 && words[20] == 5 && words[21] == 9 && words[22] == 65535 && rushgirdle_good(words, 31));
    EXPECT(add(31, 0, "A") == 9 && add(31, 65535, "A") == 9 && add(31, 1, "A") == 8);
    EXPECT(rushgirdle_withdraw(words, 31, 0) == 0 && rushgirdle_withdraw(words, 31, 65535) == 0 && stand(both, 23, 31, BLANK));

    /* 200 bytes take 3 + 1 + 4 * 202 + 202 words */
    b = rushgirdle_build(NULL, 0, words, 1014);
    EXPECT(rushgirdle_add(words, 1013, 1, (const uint8_t *)long_name, 200) == 8 && all_words(words, 0, 3, 0) && all_words(words, 3, 1014, BLANK));
    EXPECT(rushgirdle_add(words, 1014, 1, (const uint8_t *)long_name, 201) == 2);
    EXPECT(rushgirdle_add(words, 1014, 1, (const uint8_t *)long_name, 200) == 0 && words[0] == 1 && words[1] == 202 && words[2] == 202);
    EXPECT(words[3] == 256 + 202 && rushgirdle_good(words, 1014) && !rushgirdle_good(words, 1013));

    /* a name with a tab that is in the index stays as it is, and no other comes */
    static const uint32_t beside[55] = {
        2, 10, 10, 1287, 1539, 3, 16641, 0, 1, 3, 4259841, 1, 1, 3, 1090519041, 2, 1,
        7, 19457, 3, 1, 7, 4997377, 4, 1, 7, 156124417, 5, 1, 7, 1091128833, 6, 1, 7, 1157627905, 7, 1, 7, 1279330561, 8, 1, 7, 1313144833, 9, 1,
        6, 6, 6, 5, 5, 5, 5, 5, 5, 5};
    lend(tabbed, 39, 55, 0);
    EXPECT(add(55, 6, "LA\tNE") == 12 && add(54, 6, "A") == 8 && stand(tabbed, 39, 55, 0));
    EXPECT(add(55, 6, "A") == 0 && stand(beside, 55, 55, BLANK));
    EXPECT(rushgirdle_withdraw(words, 55, 6) == 0 && stand(tabbed, 39, 55, BLANK));

    /* NULL with length 0: the words, the name, both; and words that are too few */
    EXPECT(rushgirdle_add(NULL, 0, 5, (const uint8_t *)"A", 1) == 6);
    EXPECT(rushgirdle_add(NULL, 0, 5, NULL, 0) == 6);
    lend(both, 23, 30, 7);
    EXPECT(rushgirdle_add(words, 30, 6, NULL, 0) == 1 && stand(both, 23, 30, 7));
    for (size_t n = 0; n < 23; n++)
        EXPECT(add(n, 6, "A") == 6 && stand(both, 23, 30, 7));
    EXPECT(build("\n", 30).number == 11 && add(30, 6, "A") == 6 && all_words(words, 0, 30, BLANK));
}

static int withdraw_refused(size_t length, unsigned id, unsigned number)
{
    lend(both, 23, length, 7);
    return rushgirdle_withdraw(words, length, (uint16_t)id) == number && stand(both, 23, length, 7);
}

static void test_withdraw(void)
{
    static const uint32_t five[19] = {1, 3, 3, 1283, 3, 16641, 0, 1, 3, 4259841, 1, 1, 3, 1090519041, 2, 1, 5, 5, 5};
    lend(both, 23, 23, 7);
    EXPECT(rushgirdle_withdraw(words, 23, 9) == 0 && stand(five, 19, 23, BLANK));
    EXPECT(rushgirdle_withdraw(words, 23, 9) == 13 && stand(five, 19, 23, BLANK));
    EXPECT(rushgirdle_withdraw(words, 23, 5) == 0 && stand(no_names, 3, 23, BLANK));
    EXPECT(rushgirdle_withdraw(words, 23, 5) == 13 && stand(no_names, 3, 23, BLANK));

    /* ids that are not live: below, between and above the two, the least and the greatest */
    static const unsigned missing[] = {0, 4, 6, 8, 10, 5 + 256, 65535};
    for (size_t k = 0; k < sizeof missing / sizeof *missing; k++) {
        EXPECT(withdraw_refused(23, missing[k], RUSHGIRDLE_NOT_LIVE));
        EXPECT(withdraw_refused(30, missing[k], 13));
    }

    /* AB under 3 and AC under 7 share the first of their four features; the rows of the others are their own */
    static const uint32_t ab_ac[41] = {
        2, 7, 8, 772, 1796, 4, 16641, 0, 2, 4, 4276737, 2, 1, 4, 4276993, 3, 1, 4, 1094844417, 4, 1, 4, 1094909953, 5, 1,
        4, 1107296257, 6, 1, 4, 1124073473, 7, 1, 3, 7, 3, 7, 3, 7, 3, 7};
    static const uint32_t ac[24] = {1, 4, 4, 1796, 4, 16641, 0, 1, 4, 4276993, 1, 1, 4, 1094909953, 2, 1, 4, 1124073473, 3, 1, 7, 7, 7, 7};
    lend(ab_ac, 41, 43, 7);
    EXPECT(rushgirdle_withdraw(words, 43, 3) == 0 && stand(ac, 24, 43, BLANK));
    EXPECT(add(40, 3, "AB") == 8 && stand(ac, 24, 43, BLANK));
    EXPECT(add(41, 3, "AB") == 0 && stand(ab_ac, 41, 43, BLANK));

    /* not good: before the id, and however many words there are; NULL with length 0 */
    lend(both, 23, 30, 7);
    words[0]++;
    EXPECT(rushgirdle_withdraw(words, 30, 5) == 6 && rushgirdle_withdraw(words, 30, 4) == 6 && words[0] == 3);
    words[0]--;
    for (size_t n = 0; n < 23; n++)
        EXPECT(rushgirdle_withdraw(words, n, 5) == 6 && stand(both, 23, 30, 7));
    EXPECT(rushgirdle_withdraw(NULL, 0, 5) == 6);
    fill_words(words, ROOM);
    EXPECT(rushgirdle_withdraw(words, ROOM, 5) == 6 && all_words(words, 0, ROOM, KEPT));
}

static uint32_t before[WORDS];

/* whether as many words as there can be are those of before */
static int as_before(void) { return memcmp(words, before, sizeof before) == 0; }

static void test_upkeep_most(void)
{
    /* 256 names: a live id is 9, any other 10, and a bad name comes first; one that goes makes place */
    static char many[256 * 11 + 1];
    int at = 0;
    for (unsigned i = 0; i < 256; i++)
        at += sprintf(many + at, "4E%04X0141\n", 2 * i);
    fill_words(words, WORDS);
    EXPECT(rushgirdle_build((const uint8_t *)many, (size_t)at, words, RUSHGIRDLE_MOST_WORDS).number == 0);
    memcpy(before, words, sizeof before);
    EXPECT(add(RUSHGIRDLE_MOST_WORDS, 510, "A") == 9 && add(RUSHGIRDLE_MOST_WORDS, 0, "B") == 9 && as_before());
    EXPECT(add(RUSHGIRDLE_MOST_WORDS, 511, "A") == RUSHGIRDLE_FULL && add(RUSHGIRDLE_MOST_WORDS, 1, "B") == 10 && as_before());
    EXPECT(add(1039, 1, "A") == 10 && add(RUSHGIRDLE_MOST_WORDS, 1, "") == 1 && add(1039, 0, "\t") == 12 && as_before());
    EXPECT(rushgirdle_withdraw(words, RUSHGIRDLE_MOST_WORDS, 1) == 13 && as_before());
    EXPECT(rushgirdle_withdraw(words, RUSHGIRDLE_MOST_WORDS, 256) == 0 && words[0] == 255 && words[1] == 3 && words[2] == 765);
    EXPECT(add(1038, 256, "A") == 8 && add(1039, 256, "A") == 0 && as_before());

    /* all of them go, one after the other, in as many words as they took; those beyond stay */
    unsigned gone = 0;
    for (unsigned i = 0; i < 256; i++)
        gone += rushgirdle_withdraw(words, 1039, (uint16_t)(2 * (167 * i % 256))) == 0;
    EXPECT(gone == 256 && all_words(words, 0, 3, 0) && all_words(words, 3, RUSHGIRDLE_MOST_WORDS, BLANK));
    EXPECT(all_words(words, RUSHGIRDLE_MOST_WORDS, WORDS, KEPT));

    /* 256 names of 200 bytes: one and then another goes and comes back, into as many words as the index takes */
    size_t length = most_lines();
    fill_words(words, WORDS);
    EXPECT(rushgirdle_build((const uint8_t *)most, length, words, RUSHGIRDLE_MOST_WORDS).number == 0);
    memcpy(before, words, sizeof before);
    size_t total = 3 + 256 + 4 * (size_t)words[1] + POSTINGS;
    for (unsigned i = 0; i < 256; i += 51) {
        uint8_t name[LONGEST];
        EXPECT(rushgirdle_read_name((const uint8_t *)most + LINE * i, LINE, name, LONGEST).len == LONGEST);
        EXPECT(rushgirdle_withdraw(words, RUSHGIRDLE_MOST_WORDS, (uint16_t)i) == 0 && words[0] == 255 && words[2] == POSTINGS - 202);
        EXPECT(rushgirdle_add(words, total - 1, (uint16_t)i, name, LONGEST) == 8);
        EXPECT(rushgirdle_add(words, total, (uint16_t)i, name, LONGEST) == 0 && as_before());
        EXPECT(rushgirdle_add(words, RUSHGIRDLE_MOST_WORDS, 300, name, LONGEST) == 10 && as_before());
    }
}

/* ---- the search */

#define INDEX 200
static uint32_t lane[INDEX], ids[8], shared[8], sizes[8], least[8];

static void fill_columns(void)
{
    fill_words(ids, 8);
    fill_words(shared, 8);
    fill_words(sizes, 8);
    fill_words(least, 8);
}

static int columns_kept(size_t from)
{
    return all_words(ids, from, 8, KEPT) && all_words(shared, from, 8, KEPT) && all_words(sizes, from, 8, KEPT) && all_words(least, from, 8, KEPT);
}

static int columns_are(size_t k, uint32_t id, uint32_t share, uint32_t size, uint32_t count)
{
    return ids[k] == id && shared[k] == share && sizes[k] == size && least[k] == count;
}

/* into the four columns, of these lengths */
static rushgirdle_search_answer search(const char *query, unsigned measure, unsigned p, unsigned q, uint32_t allowance, size_t a, size_t b, size_t c, size_t d)
{
    fill_columns();
    return rushgirdle_search((const uint8_t *)query, strlen(query), (uint8_t)measure, (uint16_t)p, (uint16_t)q, allowance,
                             lane, INDEX, ids, a, shared, b, sizes, c, least, d);
}

static int refused(rushgirdle_search_answer a, unsigned number, uint32_t touches)
{
    return a.number == number && a.rows == 0 && a.touches == touches && a.p == 0 && a.q == 0 && columns_kept(0);
}

static void test_search(void)
{
    const char *lines = "4E000A044C414E45\n4E000B054C414E4553\n4E000C05504C414E45\n";
    rushgirdle_build_answer b = rushgirdle_build((const uint8_t *)lines, strlen(lines), lane, INDEX);
    EXPECT(b.number == 0);

    /* LANE has size 6; LANES and PLANE have 7 and share 4 with it; 6 touches at size 6 and 9 at size 7 */
    rushgirdle_search_answer a = search("LANE", RUSHGIRDLE_DICE, 8, 13, 15, 8, 8, 8, 8);
    EXPECT(a.number == 0 && a.rows == 3 && a.touches == 15 && a.p == 8 && a.q == 13);
    /* the least count is 4 of both sizes: 26 * 4 reaches 8 * 12 and 8 * 13, and 26 * 3 neither */
    EXPECT(columns_are(0, 10, 6, 6, 4) && columns_are(1, 11, 4, 7, 4) && columns_are(2, 12, 4, 7, 4) && columns_kept(3));
    /* the same in lowest terms, with just the room, one column at a time */
    a = search("LANE", 1, 16, 26, BLANK, 3, 8, 5, 8);
    EXPECT(a.number == 0 && a.rows == 3 && a.touches == 15 && a.p == 8 && a.q == 13 && columns_are(2, 12, 4, 7, 4));
    a = search("LANE", 1, 8, 13, 15, 8, 4, 8, 3);
    EXPECT(a.number == 0 && a.rows == 3 && columns_are(2, 12, 4, 7, 4) && columns_kept(3));
    a = search("LANE", 1, 8, 13, 14, 8, 8, 8, 8);
    EXPECT(refused(a, 7, 14));
    a = search("LANE", 1, 8, 13, 0, 8, 8, 8, 8);
    EXPECT(refused(a, 7, 0));
    a = search("LANE", 1, 8, 13, 15, 2, 8, 8, 8);
    EXPECT(refused(a, 8, 15));
    a = search("LANE", 1, 8, 13, 15, 8, 2, 8, 8);
    EXPECT(refused(a, 8, 15));
    a = search("LANE", 1, 8, 13, 15, 8, 8, 2, 8);
    EXPECT(refused(a, 8, 15));
    a = search("LANE", 1, 8, 13, 15, 8, 8, 8, 2);
    EXPECT(refused(a, 8, 15));
    /* one step above the similarity: LANE alone */
    a = search("LANE", 1, 9, 13, 100, 8, 8, 8, 8);
    EXPECT(a.number == 0 && a.rows == 1 && a.p == 9 && a.q == 13 && columns_are(0, 10, 6, 6, 5) && columns_kept(1));
    /* the other measures, on the threshold and beside it */
    EXPECT(search("LANE", RUSHGIRDLE_JACCARD, 4, 9, 100, 8, 8, 8, 8).rows == 3);
    EXPECT(search("LANE", RUSHGIRDLE_JACCARD, 1, 2, 100, 8, 8, 8, 8).rows == 1);
    EXPECT(search("LANE", RUSHGIRDLE_COSINE, 617, 1000, 100, 8, 8, 8, 8).rows == 3);
    EXPECT(search("LANE", RUSHGIRDLE_COSINE, 618, 1000, 100, 8, 8, 8, 8).rows == 1);
    EXPECT(search("LANE", RUSHGIRDLE_OVERLAP, 2, 3, 100, 8, 8, 8, 8).rows == 3);
    EXPECT(search("LANE", RUSHGIRDLE_OVERLAP, 667, 1000, 100, 8, 8, 8, 8).rows == 1);

    /* the refusals in their order, each before those after it */
    a = search("", 0, 0, 0, 0, 0, 0, 0, 0);
    EXPECT(refused(a, 1, 0));
    a = search(too_long, 0, 0, 0, 0, 8, 8, 8, 8);
    EXPECT(refused(a, 2, 0));
    fill_columns();
    a = rushgirdle_search((const uint8_t *)"A\0B", 3, 0, 0, 0, 0, lane, INDEX, ids, 8, shared, 8, sizes, 8, least, 8);
    EXPECT(refused(a, 3, 0));
    /* a tab, the delete code and the last control character; a 0 byte comes before them, and what is beside them passes */
    EXPECT(refused(search("A\tB", 0, 0, 0, 0, 8, 8, 8, 8), RUSHGIRDLE_CONTROL, 0));
    EXPECT(refused(search("A\x7f", 1, 8, 13, 15, 8, 8, 8, 8), 12, 0));
    EXPECT(refused(search("\x1f", 1, 8, 13, 15, 8, 8, 8, 8), 12, 0));
    fill_columns();
    EXPECT(refused(rushgirdle_search((const uint8_t *)"\t\0", 2, 1, 8, 13, 15, lane, INDEX, ids, 8, shared, 8, sizes, 8, least, 8), 3, 0));
    EXPECT(refused(search(" ~\x80\xff", 0, 0, 0, 0, 8, 8, 8, 8), 4, 0));
    /* a name with a tab that is in the index shares 4 features with LANE: 1 signature posting and 3 tests */
    a = rushgirdle_search((const uint8_t *)"LANE", 4, 1, 8, 13, 4, tabbed, 39, ids, 8, shared, 8, sizes, 8, least, 8);
    EXPECT(a.number == 0 && a.rows == 1 && a.touches == 4 && columns_are(0, 5, 4, 7, 4));
    EXPECT(refused(search("LANE", 0, 0, 0, 15, 8, 8, 8, 8), 4, 0));
    EXPECT(refused(search("LANE", 5, 8, 13, 15, 8, 8, 8, 8), 4, 0));
    EXPECT(refused(search("LANE", 255, 8, 13, 15, 8, 8, 8, 8), 4, 0));
    EXPECT(refused(search("LANE", 1, 0, 13, 15, 8, 8, 8, 8), 5, 0));
    EXPECT(refused(search("LANE", 1, 14, 13, 15, 8, 8, 8, 8), 5, 0));
    EXPECT(refused(search("LANE", 1, 8, 1001, 15, 8, 8, 8, 8), 5, 0));
    EXPECT(search("LANE", 1, 1000, 1000, 15, 8, 8, 8, 8).number == 0);
    uint32_t last = lane[2];
    lane[2] = last + 1;
    EXPECT(refused(search("LANE", 1, 8, 13, 0, 0, 0, 0, 0), 6, 0));
    lane[2] = last;

    /* NULL with length 0: a query, an index, the four columns */
    fill_columns();
    EXPECT(refused(rushgirdle_search(NULL, 0, 1, 8, 13, 15, lane, INDEX, ids, 8, shared, 8, sizes, 8, least, 8), 1, 0));
    EXPECT(refused(rushgirdle_search((const uint8_t *)"LANE", 4, 1, 8, 13, 15, NULL, 0, ids, 8, shared, 8, sizes, 8, least, 8), 6, 0));
    EXPECT(refused(rushgirdle_search((const uint8_t *)"LANE", 4, 1, 8, 13, 15, lane, INDEX, NULL, 0, NULL, 0, NULL, 0, NULL, 0), 8, 15));
    a = rushgirdle_search((const uint8_t *)"XYZ", 3, 1, 1, 1, 100, lane, INDEX, NULL, 0, NULL, 0, NULL, 0, NULL, 0);
    EXPECT(a.number == 0 && a.rows == 0 && a.touches == 0 && a.p == 1 && a.q == 1);
}

/* ---- the search with records */

static rushgirdle_row rows[8];

static int row_is(const rushgirdle_row *r, uint32_t id, uint32_t share, uint32_t size, uint32_t count)
{
    return r->id == id && r->shared == share && r->size == size && r->least == count;
}

static int rows_kept(size_t from)
{
    for (size_t k = from; k < 8; k++)
        if (!row_is(&rows[k], KEPT, KEPT, KEPT, KEPT))
            return 0;
    return 1;
}

static void fill_rows(void) { memset(rows, 0xA5, sizeof rows); }

static rushgirdle_search_answer search_rows(const char *query, unsigned measure, unsigned p, unsigned q, uint32_t allowance, size_t room)
{
    fill_rows();
    return rushgirdle_search_rows((const uint8_t *)query, strlen(query), (uint8_t)measure, (uint16_t)p, (uint16_t)q, allowance,
                                  lane, INDEX, rows, room);
}

static int rows_refused(rushgirdle_search_answer a, unsigned number, uint32_t touches)
{
    return a.number == number && a.rows == 0 && a.touches == touches && a.p == 0 && a.q == 0 && rows_kept(0);
}

static void test_rows(void)
{
    /* a record is four words, one after the other */
    EXPECT(sizeof(rushgirdle_row) == 16 && sizeof rows == 128);

    /* the index of LANE, LANES and PLANE that test_search has built */
    rushgirdle_search_answer a = search_rows("LANE", RUSHGIRDLE_DICE, 8, 13, 15, 8);
    EXPECT(a.number == 0 && a.rows == 3 && a.touches == 15 && a.p == 8 && a.q == 13);
    EXPECT(row_is(&rows[0], 10, 6, 6, 4) && row_is(&rows[1], 11, 4, 7, 4) && row_is(&rows[2], 12, 4, 7, 4) && rows_kept(3));
    /* the same in lowest terms, with just the room; with one less, or one touch less, no row is written */
    a = search_rows("LANE", 1, 16, 26, BLANK, 3);
    EXPECT(a.number == 0 && a.rows == 3 && a.touches == 15 && a.p == 8 && a.q == 13 && row_is(&rows[2], 12, 4, 7, 4) && rows_kept(3));
    EXPECT(rows_refused(search_rows("LANE", 1, 8, 13, 15, 2), 8, 15));
    EXPECT(rows_refused(search_rows("LANE", 1, 8, 13, 14, 8), 7, 14));
    EXPECT(rows_refused(search_rows("LANE", 1, 8, 13, 0, 8), 7, 0));
    /* one step above the similarity: LANE alone */
    a = search_rows("LANE", 1, 9, 13, 100, 8);
    EXPECT(a.number == 0 && a.rows == 1 && a.p == 9 && a.q == 13 && row_is(&rows[0], 10, 6, 6, 5) && rows_kept(1));

    /* the refusals in their order, each before those after it */
    EXPECT(rows_refused(search_rows("", 0, 0, 0, 0, 0), 1, 0));
    EXPECT(rows_refused(search_rows(too_long, 0, 0, 0, 0, 8), 2, 0));
    fill_rows();
    EXPECT(rows_refused(rushgirdle_search_rows((const uint8_t *)"A\0B", 3, 0, 0, 0, 0, lane, INDEX, rows, 8), 3, 0));
    EXPECT(rows_refused(search_rows("A\tB", 0, 0, 0, 0, 8), 12, 0));
    EXPECT(rows_refused(search_rows("LANE", 0, 0, 0, 15, 8), 4, 0));
    EXPECT(rows_refused(search_rows("LANE", 5, 8, 13, 15, 8), 4, 0));
    EXPECT(rows_refused(search_rows("LANE", 1, 0, 13, 15, 8), 5, 0));
    EXPECT(rows_refused(search_rows("LANE", 1, 14, 13, 15, 8), 5, 0));
    EXPECT(rows_refused(search_rows("LANE", 1, 8, 1001, 15, 8), 5, 0));
    uint32_t last = lane[2];
    lane[2] = last + 1;
    EXPECT(rows_refused(search_rows("LANE", 1, 8, 13, 0, 0), 6, 0));
    lane[2] = last;

    /* NULL with length 0: a query, an index, the records */
    fill_rows();
    EXPECT(rows_refused(rushgirdle_search_rows(NULL, 0, 1, 8, 13, 15, lane, INDEX, rows, 8), 1, 0));
    EXPECT(rows_refused(rushgirdle_search_rows((const uint8_t *)"LANE", 4, 1, 8, 13, 15, NULL, 0, rows, 8), 6, 0));
    EXPECT(rows_refused(rushgirdle_search_rows((const uint8_t *)"LANE", 4, 1, 8, 13, 15, lane, INDEX, NULL, 0), 8, 15));
    a = rushgirdle_search_rows((const uint8_t *)"XYZ", 3, 1, 1, 1, 100, lane, INDEX, NULL, 0);
    EXPECT(a.number == 0 && a.rows == 0 && a.touches == 0 && a.p == 1 && a.q == 1);

    /* 256 names that are all alike: 255 records are too few, and of 300 the last 44 stay */
    static char many[256 * 11 + 1];
    static rushgirdle_row all[300];
    int at = 0;
    for (unsigned i = 0; i < 256; i++)
        at += sprintf(many + at, "4E%04X0141\n", 2 * i);
    rushgirdle_build_answer b = rushgirdle_build((const uint8_t *)many, (size_t)at, words, RUSHGIRDLE_MOST_WORDS);
    EXPECT(b.number == 0);
    memset(all, 0xA5, sizeof all);
    a = rushgirdle_search_rows((const uint8_t *)"A", 1, 1, 1, 1, BLANK, words, RUSHGIRDLE_MOST_WORDS, all, 255);
    EXPECT(a.number == 8 && a.rows == 0 && all_bytes((const uint8_t *)all, 0, sizeof all, 0xA5));
    a = rushgirdle_search_rows((const uint8_t *)"A", 1, 1, 1, 1, BLANK, words, RUSHGIRDLE_MOST_WORDS, all, 300);
    EXPECT(a.number == 0 && a.rows == 256 && a.touches == 768);
    EXPECT(row_is(&all[0], 0, 3, 3, 3) && row_is(&all[255], 510, 3, 3, 3) && all_bytes((const uint8_t *)&all[256], 0, 44 * sizeof *all, 0xA5));
}

/* ---- many queries at once, of the index of LANE, LANES and PLANE that test_search has built */

enum { NUMBERS, UNTIL, TOUCHES, OUTCOMES };
static uint32_t outcome[OUTCOMES][8];

/* the bytes of all queries one after the other, so many ends of them, and the places of the outcomes and of the rows */
static rushgirdle_many_answer ask_into(const char *text, const uint32_t *ends, size_t n, unsigned p, uint32_t allowance, const size_t *places, const size_t *room)
{
    memset(outcome, 0xA5, sizeof outcome);
    fill_columns();
    return rushgirdle_search_many((const uint8_t *)text, strlen(text), ends, n, RUSHGIRDLE_DICE, (uint16_t)p, 13, allowance, lane, INDEX,
                                  outcome[NUMBERS], places[0], outcome[UNTIL], places[1], outcome[TOUCHES], places[2],
                                  ids, room[0], shared, room[1], sizes, room[2], least, room[3]);
}

static const size_t eight[4] = {8, 8, 8, 8};

static rushgirdle_many_answer ask(const char *text, const uint32_t *ends, size_t n, unsigned p, uint32_t allowance)
{
    return ask_into(text, ends, n, p, allowance, eight, eight);
}

/* the answer, and the outcomes with nothing after them */
static int came(rushgirdle_many_answer a, unsigned number, uint32_t n, const uint32_t (*expected)[OUTCOMES], uint32_t all)
{
    for (int c = 0; c < OUTCOMES; c++) {
        for (uint32_t k = 0; k < n; k++)
            if (outcome[c][k] != expected[k][c])
                return 0;
        if (!all_words(outcome[c], n, 8, KEPT))
            return 0;
    }
    return a.number == number && a.queries == n && a.rows == all && columns_kept(all);
}

static int three_rows(void) { return columns_are(0, 10, 6, 6, 4) && columns_are(1, 11, 4, 7, 4) && columns_are(2, 12, 4, 7, 4); }

static void test_many(void)
{
    /* LANE, no query, XYZ, LANES. LANES has size 7, and least counts 4 for size 6 (26 * 4 reaches 8 * 13) and 5 for size 7 (26 * 5 reaches 8 * 14, 26 * 4
     * does not). At size 6 three of its features have no list and four have one name: 1 signature posting and 3 tests. At size 7 five have one name and
     * LAN and ANE two: 3 signature postings, of LANES alone, and 4 tests */
    static const char text[] = "LANEXYZLANES";
    static const uint32_t ends[4] = {4, 4, 7, 12};
    static const uint32_t four[4][OUTCOMES] = {{0, 3, 15}, {1, 3, 0}, {0, 3, 0}, {0, 5, 11}};
    EXPECT(came(ask(text, ends, 4, 8, 15), 0, 4, four, 5) && three_rows() && columns_are(3, 10, 4, 6, 4) && columns_are(4, 11, 7, 7, 5));

    /* each has the whole allowance: 14 is too little for LANE alone, 10 for both, 0 for neither of the others */
    static const uint32_t fourteen[4][OUTCOMES] = {{7, 0, 14}, {1, 0, 0}, {0, 0, 0}, {0, 2, 11}}, ten[4][OUTCOMES] = {{7, 0, 10}, {1, 0, 0}, {0, 0, 0}, {7, 0, 10}};
    EXPECT(came(ask(text, ends, 4, 8, 14), 0, 4, fourteen, 2) && columns_are(0, 10, 4, 6, 4) && columns_are(1, 11, 7, 7, 5));
    EXPECT(came(ask(text, ends, 4, 8, 10), 0, 4, ten, 0));

    /* with just the places and the room, in columns of different lengths; a place less in any stops it before LANES, and nothing of LANES is written */
    static const size_t just[3] = {4, 7, 5}, just_rows[4] = {6, 5, 8, 7};
    EXPECT(came(ask_into(text, ends, 4, 8, 15, just, just_rows), 0, 4, four, 5) && three_rows() && columns_are(4, 11, 7, 7, 5));
    for (int c = 0; c < 3; c++) {
        size_t places[3] = {8, 8, 8};
        places[c] = 3;
        EXPECT(came(ask_into(text, ends, 4, 8, 15, places, eight), RUSHGIRDLE_ROOM, 3, four, 3) && three_rows());
    }
    for (int c = 0; c < 4; c++)
        for (size_t n = 3; n <= 4; n++) {
            size_t room[4] = {8, 8, 8, 8};
            room[c] = n;
            EXPECT(came(ask_into(text, ends, 4, 8, 15, eight, room), 8, 3, four, 3) && three_rows());
            room[c] = 2;
            EXPECT(came(ask_into(text, ends, 4, 8, 15, eight, room), 8, 0, NULL, 0));
        }
    /* it goes on from there: the rest of the bytes and their ends */
    EXPECT(came(ask("LANES", (const uint32_t[]){5}, 1, 8, 15), 0, 1, (const uint32_t[1][OUTCOMES]){{0, 2, 11}}, 2) && columns_are(1, 11, 7, 7, 5));
    /* what has no rows needs no room, and stands before and after what has */
    static const size_t none[4] = {0, 0, 0, 0};
    EXPECT(came(ask_into("XYZ", (const uint32_t[]){0, 3}, 2, 8, 15, eight, none), 0, 2, (const uint32_t[2][OUTCOMES]){{1, 0, 0}, {0, 0, 0}}, 0));

    /* a query whose ends do not ascend, or lie beyond the bytes, is 11, before all else; the one after it goes from there */
    EXPECT(came(ask(text, (const uint32_t[]){4, 3, 7, 12}, 4, 8, 15), 0, 4, (const uint32_t[4][OUTCOMES]){{0, 3, 15}, {11, 3, 0}, {0, 3, 0}, {0, 5, 11}}, 5));
    EXPECT(came(ask(text, (const uint32_t[]){13, 7, 12}, 3, 8, 15), 0, 3, (const uint32_t[3][OUTCOMES]){{11, 0, 0}, {11, 0, 0}, {0, 2, 11}}, 2));
    EXPECT(came(ask(text, (const uint32_t[]){BLANK, BLANK, 0, 4}, 4, 0, 0), 0, 4, (const uint32_t[4][OUTCOMES]){{11, 0, 0}, {11, 0, 0}, {11, 0, 0}, {5, 0, 0}}, 0));
    EXPECT(came(ask("", (const uint32_t[]){0, 1}, 2, 8, 15), 0, 2, (const uint32_t[2][OUTCOMES]){{1, 0, 0}, {11, 0, 0}}, 0));

    /* a bad query, measure, threshold or index refuses each query, and not the whole */
    EXPECT(came(ask("A\tLANE", (const uint32_t[]){2, 6}, 2, 8, 15), 0, 2, (const uint32_t[2][OUTCOMES]){{12, 0, 0}, {0, 3, 15}}, 3) && three_rows());
    EXPECT(came(ask(text, ends, 4, 14, 15), 0, 4, (const uint32_t[4][OUTCOMES]){{5, 0, 0}, {1, 0, 0}, {5, 0, 0}, {5, 0, 0}}, 0));
    lane[2]++;
    EXPECT(came(ask(text, ends, 4, 8, 15), 0, 4, (const uint32_t[4][OUTCOMES]){{6, 0, 0}, {1, 0, 0}, {6, 0, 0}, {6, 0, 0}}, 0));
    lane[2]--;
    memset(outcome, 0xA5, sizeof outcome);
    fill_columns();
    EXPECT(came(rushgirdle_search_many((const uint8_t *)text, 12, ends, 4, 5, 8, 13, 15, lane, INDEX, outcome[0], 8, outcome[1], 8, outcome[2], 8, ids, 8, shared, 8, sizes, 8, least, 8),
                0, 4, (const uint32_t[4][OUTCOMES]){{4, 0, 0}, {1, 0, 0}, {4, 0, 0}, {4, 0, 0}}, 0));

    /* NULL with length 0: everything, the bytes, the ends, the outcomes, the rows */
    rushgirdle_many_answer a = rushgirdle_search_many(NULL, 0, NULL, 0, 1, 8, 13, 15, NULL, 0, NULL, 0, NULL, 0, NULL, 0, NULL, 0, NULL, 0, NULL, 0, NULL, 0);
    EXPECT(a.number == 0 && a.queries == 0 && a.rows == 0);
    EXPECT(came(ask(text, NULL, 0, 8, 15), 0, 0, NULL, 0));
    EXPECT(came(ask_into(text, ends, 4, 8, 15, none, eight), 8, 0, NULL, 0));
    a = rushgirdle_search_many(NULL, 0, ends, 4, 1, 8, 13, 15, lane, INDEX, NULL, 0, NULL, 0, NULL, 0, NULL, 0, NULL, 0, NULL, 0, NULL, 0);
    EXPECT(a.number == 8 && a.queries == 0 && a.rows == 0);
}

/* ---- the import */

enum { CASES, VALUES, IDS, WEEKS, SUMS, COUNTS, COLUMNS };
#define PLACES 8
static uint32_t lent[COLUMNS][PLACES], pools[INDEX];
static const size_t all_places[COLUMNS] = {PLACES, PLACES, PLACES, PLACES, PLACES, PLACES};

static void fill_lent(void) { memset(lent, 0xA5, sizeof lent); }

/* into the six columns, of these lengths */
static rushgirdle_import_answer import_into(const size_t *room, const char *log, unsigned measure, unsigned p, unsigned q, uint32_t allowance)
{
    fill_lent();
    return rushgirdle_import((const uint8_t *)log, strlen(log), (uint8_t)measure, (uint16_t)p, (uint16_t)q, allowance, pools, INDEX,
                             lent[CASES], room[CASES], lent[VALUES], room[VALUES], lent[IDS], room[IDS],
                             lent[WEEKS], room[WEEKS], lent[SUMS], room[SUMS], lent[COUNTS], room[COUNTS]);
}

static rushgirdle_import_answer import(const char *log, unsigned measure, unsigned p, unsigned q, uint32_t allowance)
{
    return import_into(all_places, log, measure, p, q, allowance);
}

/* the outcomes, each a case and a value, and nothing after them */
static int outcomes_are(rushgirdle_import_answer a, uint32_t n, const uint32_t (*outcome)[2])
{
    for (uint32_t k = 0; k < n; k++)
        if (lent[CASES][k] != outcome[k][0] || lent[VALUES][k] != outcome[k][1])
            return 0;
    return a.number == 0 && a.line == 0 && a.lines == n && all_words(lent[CASES], n, PLACES, KEPT) && all_words(lent[VALUES], n, PLACES, KEPT);
}

/* the pairs, each an id, a week, a sum and a count, and nothing after them */
static int pairs_are(rushgirdle_import_answer a, uint32_t n, const uint32_t (*pair)[4])
{
    for (int c = 0; c < 4; c++) {
        for (uint32_t k = 0; k < n; k++)
            if (lent[IDS + c][k] != pair[k][c])
                return 0;
        if (!all_words(lent[IDS + c], n, PLACES, KEPT))
            return 0;
    }
    return a.number == 0 && a.pairs == n;
}

static int import_refused(rushgirdle_import_answer a, unsigned number, uint32_t line)
{
    return a.number == number && a.line == line && a.lines == 0 && a.pairs == 0 && all_bytes((const uint8_t *)lent, 0, sizeof lent, 0xA5);
}

/* the six lines of the rule: AB with 45, LANE, ZZ, no name, AB without a reading, and a week after the first AB with 0 */
static const char six[] =
    "4C0000002D024142\n4C00000001044C414E45\n4C00000002025A5A\n4C0000000300\n4C0006FFFF024142\n4C00070000024142\n";

/* each of the six refused with this number, the one without a name with 1 still */
static int each_refused(rushgirdle_import_answer a, uint32_t number)
{
    const uint32_t outcomes[6][2] = {{4, number}, {4, number}, {4, number}, {4, 1}, {4, number}, {4, number}};
    return outcomes_are(a, 6, outcomes) && pairs_are(a, 0, NULL);
}

static void test_import(void)
{
    const char *lines = "4E000A044C414E45\n4E000B054C414E4553\n4E0014024142\n";
    rushgirdle_build_answer b = rushgirdle_build((const uint8_t *)lines, strlen(lines), pools, INDEX);
    EXPECT(b.number == 0);

    static const uint32_t outcomes[6][2] = {{RUSHGIRDLE_BELONGS, 20}, {RUSHGIRDLE_AMBIGUOUS, 0}, {RUSHGIRDLE_UNRESOLVED, 0}, {RUSHGIRDLE_REFUSED, 1}, {1, 20}, {1, 20}};
    static const uint32_t pairs[2][4] = {{20, 0, 45, 1}, {20, 1, 0, 1}};
    rushgirdle_import_answer a = import(six, RUSHGIRDLE_DICE, 1, 2, 1000);
    EXPECT(outcomes_are(a, 6, outcomes) && pairs_are(a, 2, pairs));

    /* AB takes 4 touches, 3 signatures and a test; LANE 6 at size 6 and 4 at size 7; each line has the whole allowance */
    EXPECT(outcomes_are(import(six, 1, 1, 2, 10), 6, outcomes));
    static const uint32_t lane_too_long[6][2] = {{1, 20}, {4, 7}, {2, 0}, {4, 1}, {1, 20}, {1, 20}};
    a = import(six, 1, 1, 2, 9);
    EXPECT(outcomes_are(a, 6, lane_too_long) && pairs_are(a, 2, pairs));
    a = import(six, 1, 1, 2, 4);
    EXPECT(outcomes_are(a, 6, lane_too_long) && pairs_are(a, 2, pairs));
    static const uint32_t all_too_long[6][2] = {{4, 7}, {4, 7}, {2, 0}, {4, 1}, {4, 7}, {4, 7}};
    a = import(six, 1, 1, 2, 3);
    EXPECT(outcomes_are(a, 6, all_too_long) && pairs_are(a, 0, NULL));

    /* a bad measure, threshold or index refuses each line, and not the whole */
    EXPECT(each_refused(import(six, 0, 0, 0, 1000), 4));
    EXPECT(each_refused(import(six, 5, 1, 2, 1000), 4));
    EXPECT(each_refused(import(six, 1, 2, 1, 1000), 5));
    EXPECT(each_refused(import(six, 1, 1, 1001, 0), 5));
    pools[2]++;
    EXPECT(each_refused(import(six, 1, 1, 2, 0), 6));
    pools[2]--;

    /* the other numbers of a line: 201 bytes, a 0 byte, a tab */
    static char odd[500];
    int at = sprintf(odd, "4C00000000C9");
    for (int k = 0; k < 201; k++)
        at += sprintf(odd + at, "41");
    sprintf(odd + at, "\n4C00000000024100\n4C00000000024109\n");
    a = import(odd, 1, 1, 2, 1000);
    EXPECT(outcomes_are(a, 3, (const uint32_t[3][2]){{4, 2}, {4, 3}, {4, 12}}) && pairs_are(a, 0, NULL));

    /* a missing reading is no 0: one alone has count 0, a 0 alone has count 1, and beside a reading it adds nothing */
    a = import("4C0000FFFF024142\n", 1, 1, 2, 1000);
    EXPECT(outcomes_are(a, 1, (const uint32_t[1][2]){{1, 20}}) && pairs_are(a, 1, (const uint32_t[1][4]){{20, 0, 0, 0}}));
    a = import("4C00000000024142\n", 1, 1, 2, 1000);
    EXPECT(outcomes_are(a, 1, (const uint32_t[1][2]){{1, 20}}) && pairs_are(a, 1, (const uint32_t[1][4]){{20, 0, 0, 1}}));
    a = import("4C0000FFFF024142\n4C00060000024142\n4C0003FFFE024142\n4C0001FFFE024142\n", 1, 1, 2, 1000);
    EXPECT(a.lines == 4 && pairs_are(a, 1, (const uint32_t[1][4]){{20, 0, 2 * 65534, 3}}));

    /* by id and then by week, whatever the order of the lines; 65535 days are 9362 weeks and a day. By 1/1 LANE and LANES belong each to its own */
    a = import("4C000D0005024142\n4CFFFF0006054C414E4553\n4C00070002044C414E45\n4C00060001044C414E45\n4C000E0004054C414E4553\n4C00070003044C414E45\n", 1, 1, 1, 1000);
    EXPECT(outcomes_are(a, 6, (const uint32_t[6][2]){{1, 20}, {1, 11}, {1, 10}, {1, 10}, {1, 11}, {1, 10}}));
    EXPECT(pairs_are(a, 5, (const uint32_t[5][4]){{10, 0, 1, 1}, {10, 1, 5, 2}, {11, 2, 4, 1}, {11, 9362, 6, 1}, {20, 1, 5, 1}}));

    /* the first bad line decides, before the room, and nothing is written */
    static const size_t none[COLUMNS] = {0, 0, 0, 0, 0, 0};
    EXPECT(import_refused(import("4C0000002D024142\n4C\n4E000A044C414E45\n", 1, 1, 2, 1000), RUSHGIRDLE_MALFORMED, 2));
    EXPECT(import_refused(import("4C0000002D024142\n4E0000024142\n4C0000002D024142\n", 0, 1, 2, 1000), 11, 2));
    EXPECT(import_refused(import("4C0000002D024142\n4C0000002D024142", 1, 1, 2, 1000), 11, 2));
    EXPECT(import_refused(import("\n4C0000002D024142\n", 1, 1, 2, 1000), 11, 1));
    EXPECT(import_refused(import_into(none, "4C0000002D024142\n\n", 1, 1, 2, 1000), 11, 2));

    /* with just the room, in columns of different lengths; and with a place less in each of the six */
    static const size_t just[COLUMNS] = {6, 6, 2, 2, 2, 2}, uneven[2][COLUMNS] = {{6, 8, 2, 7, 5, 3}, {7, 6, 8, 2, 3, 2}};
    a = import_into(just, six, 1, 1, 2, 1000);
    EXPECT(outcomes_are(a, 6, outcomes) && pairs_are(a, 2, pairs));
    for (int k = 0; k < 2; k++) {
        a = import_into(uneven[k], six, 1, 1, 2, 1000);
        EXPECT(outcomes_are(a, 6, outcomes) && pairs_are(a, 2, pairs));
    }
    for (int k = 0; k < COLUMNS; k++) {
        size_t room[COLUMNS];
        memcpy(room, all_places, sizeof room);
        room[k] = k <= VALUES ? 5 : 1;
        EXPECT(import_refused(import_into(room, six, 1, 1, 2, 1000), RUSHGIRDLE_ROOM, 0));
    }

    /* an empty log is answered; NULL with length 0: the log, the index, the columns */
    a = import("", 0, 0, 0, 0);
    EXPECT(outcomes_are(a, 0, NULL) && pairs_are(a, 0, NULL));
    a = rushgirdle_import(NULL, 0, 1, 1, 2, 1000, NULL, 0, NULL, 0, NULL, 0, NULL, 0, NULL, 0, NULL, 0, NULL, 0);
    EXPECT(a.number == 0 && a.line == 0 && a.lines == 0 && a.pairs == 0);
    a = rushgirdle_import((const uint8_t *)six, strlen(six), 1, 1, 2, 1000, pools, INDEX, NULL, 0, NULL, 0, NULL, 0, NULL, 0, NULL, 0, NULL, 0);
    EXPECT(a.number == 8 && a.line == 0 && a.lines == 0 && a.pairs == 0);
    fill_lent();
    a = rushgirdle_import((const uint8_t *)six, strlen(six), 1, 1, 2, 1000, NULL, 0, lent[CASES], 6, lent[VALUES], 6, NULL, 0, NULL, 0, NULL, 0, NULL, 0);
    EXPECT(each_refused(a, 6));
    /* no pair takes no place */
    fill_lent();
    a = rushgirdle_import((const uint8_t *)"4C00000002025A5A\n", 17, 1, 1, 2, 1000, pools, INDEX, lent[CASES], 1, lent[VALUES], 1, NULL, 0, NULL, 0, NULL, 0, NULL, 0);
    EXPECT(outcomes_are(a, 1, (const uint32_t[1][2]){{2, 0}}) && pairs_are(a, 0, NULL));
}

enum { MOST = RUSHGIRDLE_MOST_LINES, LOG_LINE = 17 };
static char long_log[(MOST + 1) * LOG_LINE + 1];
static uint32_t many[COLUMNS][MOST + 1];

/* the first bytes of the long log, with so many places for ids; the other columns have enough */
static rushgirdle_import_answer import_long(size_t length, size_t places)
{
    memset(many, 0xA5, sizeof many);
    return rushgirdle_import((const uint8_t *)long_log, length, 1, 1, 1, 4, words, INDEX, many[CASES], MOST, many[VALUES], MOST + 1,
                             many[IDS], places, many[WEEKS], MOST, many[SUMS], MOST + 1, many[COUNTS], MOST);
}

static int long_refused(rushgirdle_import_answer a, unsigned number, uint32_t line)
{
    return a.number == number && a.line == line && a.lines == 0 && a.pairs == 0 && all_bytes((const uint8_t *)many, 0, sizeof many, 0xA5);
}

static void test_import_most(void)
{
    EXPECT(rushgirdle_build((const uint8_t *)"4EFFFF024142\n", 13, words, INDEX).number == 0);

    /* AB under 65535 in weeks 1023 down to 0, with the readings 0 to 1023: 1024 lines pass, with as many pairs */
    for (unsigned i = 0; i < MOST; i++)
        sprintf(long_log + LOG_LINE * i, "4C%04X%04X024142\n", 7 * (MOST - 1 - i), i);
    rushgirdle_import_answer a = import_long(MOST * LOG_LINE, MOST);
    EXPECT(a.number == 0 && a.line == 0 && a.lines == 1024 && a.pairs == 1024);
    EXPECT(all_words(many[CASES], 0, MOST, 1) && all_words(many[VALUES], 0, MOST, 65535));
    EXPECT(all_words(many[IDS], 0, MOST, 65535) && all_words(many[COUNTS], 0, MOST, 1));
    int ascend = 1;
    for (uint32_t k = 0; k < MOST; k++)
        ascend = ascend && many[WEEKS][k] == k && many[SUMS][k] == 1023 - k;
    EXPECT(ascend);
    for (int c = 0; c < COLUMNS; c++)
        EXPECT(many[c][MOST] == KEPT);
    EXPECT(long_refused(import_long(MOST * LOG_LINE, MOST - 1), 8, 0));

    /* a 1025th is refused with 10, a frame or not; one before it that is no frame comes first */
    sprintf(long_log + LOG_LINE * MOST, "4C00000000024142\n");
    EXPECT(long_refused(import_long((MOST + 1) * LOG_LINE, MOST), RUSHGIRDLE_FULL, 1025));
    EXPECT(long_refused(import_long(MOST * LOG_LINE + 1, 0), 10, 1025));
    long_log[MOST * LOG_LINE - 2] = 'x';
    EXPECT(long_refused(import_long((MOST + 1) * LOG_LINE, MOST), 11, 1024));

    /* 1024 of the largest readings in one week */
    for (unsigned i = 0; i < MOST; i++)
        sprintf(long_log + LOG_LINE * i, "4C0006FFFE024142\n");
    a = import_long(MOST * LOG_LINE, 1);
    EXPECT(a.number == 0 && a.lines == 1024 && a.pairs == 1);
    EXPECT(many[IDS][0] == 65535 && many[WEEKS][0] == 0 && many[SUMS][0] == 1024u * 65534 && many[COUNTS][0] == 1024);
    EXPECT(many[IDS][1] == KEPT && many[WEEKS][1] == KEPT && many[SUMS][1] == KEPT && many[COUNTS][1] == KEPT);
}

/* ---- frames */

static uint8_t buffer[600];

static void fill_bytes(void) { memset(buffer, 0xA5, sizeof buffer); }

static const uint8_t *bytes(const char *s) { return (const uint8_t *)s; }

static void test_read(void)
{
    fill_bytes();
    const char *line = "4EABCD044C414E45\n";
    rushgirdle_name_answer n = rushgirdle_read_name(bytes(line), strlen(line), buffer, 6);
    EXPECT(n.number == 0 && n.id == 0xABCD && n.len == 4);
    EXPECT(memcmp(buffer, "LANE", 4) == 0 && all_bytes(buffer, 4, 600, 0xA5));
    fill_bytes();
    n = rushgirdle_read_name(bytes(line), strlen(line), buffer, 3);
    EXPECT(n.number == 8 && n.id == 0 && n.len == 0 && all_bytes(buffer, 0, 600, 0xA5));
    n = rushgirdle_read_name(bytes(line), strlen(line) - 1, buffer, 600);
    EXPECT(n.number == 11 && n.id == 0 && n.len == 0 && all_bytes(buffer, 0, 600, 0xA5));
    n = rushgirdle_read_name(bytes(line), strlen(line), NULL, 0);
    EXPECT(n.number == 8 && n.id == 0 && n.len == 0);
    n = rushgirdle_read_name(bytes("4E000100\n"), 9, NULL, 0);
    EXPECT(n.number == 0 && n.id == 1 && n.len == 0);
    n = rushgirdle_read_name(NULL, 0, buffer, 600);
    EXPECT(n.number == 11 && n.id == 0 && n.len == 0 && all_bytes(buffer, 0, 600, 0xA5));

    line = "5103123456789ABCDEF0025A59\n";
    rushgirdle_query_answer q = rushgirdle_read_query(bytes(line), strlen(line), buffer, 2);
    EXPECT(q.number == 0 && q.measure == 3 && q.p == 0x1234 && q.q == 0x5678 && q.allowance == 0x9ABCDEF0u && q.len == 2);
    EXPECT(memcmp(buffer, "ZY", 2) == 0 && all_bytes(buffer, 2, 600, 0xA5));
    fill_bytes();
    q = rushgirdle_read_query(bytes(line), strlen(line), buffer, 1);
    EXPECT(q.number == 8 && q.measure == 0 && q.p == 0 && q.q == 0 && q.allowance == 0 && q.len == 0 && all_bytes(buffer, 0, 600, 0xA5));
    q = rushgirdle_read_query(bytes(line), 3, buffer, 600);
    EXPECT(q.number == 11 && q.measure == 0 && q.p == 0 && q.q == 0 && q.allowance == 0 && q.len == 0 && all_bytes(buffer, 0, 600, 0xA5));
    q = rushgirdle_read_query(NULL, 0, NULL, 0);
    EXPECT(q.number == 11 && q.measure == 0 && q.p == 0 && q.q == 0 && q.allowance == 0 && q.len == 0);

    rushgirdle_row_answer r = rushgirdle_read_row(bytes("521234AB5678\n"), 13);
    EXPECT(r.number == 0 && r.id == 0x1234 && r.shared == 0xAB && r.size == 0x56 && r.least == 0x78);
    r = rushgirdle_read_row(bytes("521234Ab5678\n"), 13);
    EXPECT(r.number == 11 && r.id == 0 && r.shared == 0 && r.size == 0 && r.least == 0);
    r = rushgirdle_read_row(bytes("521234AB56\n"), 11); /* without a least count */
    EXPECT(r.number == 11 && r.id == 0 && r.shared == 0 && r.size == 0 && r.least == 0);
    r = rushgirdle_read_row(NULL, 0);
    EXPECT(r.number == 11 && r.id == 0 && r.shared == 0 && r.size == 0 && r.least == 0);

    rushgirdle_end_answer e = rushgirdle_read_end(bytes("45123456789ABCDEF01122\n"), 23);
    EXPECT(e.number == 0 && e.rows == 0x1234 && e.touches == 0x56789ABC && e.p == 0xDEF0 && e.q == 0x1122);
    e = rushgirdle_read_end(bytes("45123456789ABCDEF011\n"), 21);
    EXPECT(e.number == 11 && e.rows == 0 && e.touches == 0 && e.p == 0 && e.q == 0);
    e = rushgirdle_read_end(NULL, 0);
    EXPECT(e.number == 11 && e.rows == 0 && e.touches == 0 && e.p == 0 && e.q == 0);

    rushgirdle_refusal_answer x = rushgirdle_read_refusal(bytes("5807FEDCBA98\n"), 13);
    EXPECT(x.number == 0 && x.refusal == 7 && x.touches == 0xFEDCBA98u);
    x = rushgirdle_read_refusal(bytes("5207FEDCBA98\n"), 13);
    EXPECT(x.number == 11 && x.refusal == 0 && x.touches == 0);
    x = rushgirdle_read_refusal(NULL, 0);
    EXPECT(x.number == 11 && x.refusal == 0 && x.touches == 0);

    line = "4C1234ABCD025A59\n";
    rushgirdle_log_answer l = rushgirdle_read_log(bytes(line), strlen(line), buffer, 2);
    EXPECT(l.number == 0 && l.day == 0x1234 && l.reading == 0xABCD && l.len == 2);
    EXPECT(memcmp(buffer, "ZY", 2) == 0 && all_bytes(buffer, 2, 600, 0xA5));
    fill_bytes();
    l = rushgirdle_read_log(bytes(line), strlen(line), buffer, 1);
    EXPECT(l.number == 8 && l.day == 0 && l.reading == 0 && l.len == 0 && all_bytes(buffer, 0, 600, 0xA5));
    l = rushgirdle_read_log(bytes(line), strlen(line) - 1, buffer, 600);
    EXPECT(l.number == 11 && l.day == 0 && l.reading == 0 && l.len == 0 && all_bytes(buffer, 0, 600, 0xA5));
    l = rushgirdle_read_log(bytes("4E1234ABCD025A59\n"), 17, buffer, 600);
    EXPECT(l.number == 11 && l.day == 0 && l.reading == 0 && l.len == 0 && all_bytes(buffer, 0, 600, 0xA5));
    l = rushgirdle_read_log(bytes("4C0007FFFF00\n"), 13, NULL, 0);
    EXPECT(l.number == 0 && l.day == 7 && l.reading == RUSHGIRDLE_MISSING && l.len == 0);
    l = rushgirdle_read_log(NULL, 0, buffer, 600);
    EXPECT(l.number == 11 && l.day == 0 && l.reading == 0 && l.len == 0 && all_bytes(buffer, 0, 600, 0xA5));
}

/* the answer is the line, and what is after it is kept */
static int wrote(rushgirdle_write_answer w, const char *line)
{
    size_t n = strlen(line);
    int held = w.number == 0 && w.len == n && memcmp(buffer, line, n) == 0 && all_bytes(buffer, n, 600, 0xA5);
    fill_bytes();
    return held;
}

static int not_written(rushgirdle_write_answer w, unsigned number)
{
    return w.number == number && w.len == 0 && all_bytes(buffer, 0, 600, 0xA5);
}

static void test_write(void)
{
    fill_bytes();
    EXPECT(wrote(rushgirdle_write_name(buffer, 600, 0xABCD, bytes("LANE"), 4), "4EABCD044C414E45\n"));
    EXPECT(wrote(rushgirdle_write_name(buffer, 17, 0xABCD, bytes("LANE"), 4), "4EABCD044C414E45\n"));
    EXPECT(not_written(rushgirdle_write_name(buffer, 16, 0xABCD, bytes("LANE"), 4), 8));
    EXPECT(wrote(rushgirdle_write_name(buffer, 600, 1, NULL, 0), "4E000100\n"));
    EXPECT(not_written(rushgirdle_write_name(NULL, 0, 1, NULL, 0), 8));
    EXPECT(wrote(rushgirdle_write_query(buffer, 27, 3, 0x1234, 0x5678, 0x9ABCDEF0u, bytes("ZY"), 2), "5103123456789ABCDEF0025A59\n"));
    EXPECT(not_written(rushgirdle_write_query(buffer, 26, 3, 0x1234, 0x5678, 0x9ABCDEF0u, bytes("ZY"), 2), 8));
    EXPECT(wrote(rushgirdle_write_query(buffer, 600, 255, 0, 65535, 1, NULL, 0), "51FF0000FFFF0000000100\n"));
    EXPECT(not_written(rushgirdle_write_query(NULL, 0, 1, 1, 1, 1, NULL, 0), 8));
    EXPECT(wrote(rushgirdle_write_row(buffer, 13, 0x1234, 0xAB, 0x56, 0x78), "521234AB5678\n"));
    EXPECT(not_written(rushgirdle_write_row(buffer, 12, 0x1234, 0xAB, 0x56, 0x78), 8));
    EXPECT(not_written(rushgirdle_write_row(NULL, 0, 1, 2, 3, 4), 8));
    EXPECT(wrote(rushgirdle_write_end(buffer, 23, 0x1234, 0x56789ABC, 0xDEF0, 0x1122), "45123456789ABCDEF01122\n"));
    EXPECT(not_written(rushgirdle_write_end(buffer, 22, 0x1234, 0x56789ABC, 0xDEF0, 0x1122), 8));
    EXPECT(not_written(rushgirdle_write_end(NULL, 0, 1, 2, 3, 4), 8));
    EXPECT(wrote(rushgirdle_write_refusal(buffer, 13, 7, 0xFEDCBA98u), "5807FEDCBA98\n"));
    EXPECT(not_written(rushgirdle_write_refusal(buffer, 12, 7, 0xFEDCBA98u), 8));
    EXPECT(not_written(rushgirdle_write_refusal(NULL, 0, 7, 1), 8));
    EXPECT(wrote(rushgirdle_write_log(buffer, 17, 0x1234, 0xABCD, bytes("ZY"), 2), "4C1234ABCD025A59\n"));
    EXPECT(not_written(rushgirdle_write_log(buffer, 16, 0x1234, 0xABCD, bytes("ZY"), 2), 8));
    EXPECT(wrote(rushgirdle_write_log(buffer, 600, 7, RUSHGIRDLE_MISSING, NULL, 0), "4C0007FFFF00\n"));
    EXPECT(not_written(rushgirdle_write_log(NULL, 0, 1, 2, NULL, 0), 8));

    /* 255 bytes are written, into just RUSHGIRDLE_LONGEST_LINE; 256 give 2, before 8 */
    uint8_t name[256];
    memset(name, 0x5A, sizeof name);
    rushgirdle_write_answer w = rushgirdle_write_query(buffer, RUSHGIRDLE_LONGEST_LINE, 1, 2, 3, 4, name, 255);
    EXPECT(w.number == 0 && w.len == RUSHGIRDLE_LONGEST_LINE && memcmp(buffer, "5101000200030000000" "4FF5A5A", 26) == 0);
    EXPECT(buffer[531] == 'A' && buffer[532] == '\n' && all_bytes(buffer, 533, 600, 0xA5));
    fill_bytes();
    EXPECT(not_written(rushgirdle_write_query(buffer, RUSHGIRDLE_LONGEST_LINE - 1, 1, 2, 3, 4, name, 255), 8));
    EXPECT(not_written(rushgirdle_write_query(buffer, 0, 1, 2, 3, 4, name, 256), 2));
    EXPECT(not_written(rushgirdle_write_name(buffer, 600, 1, name, 256), 2));
    EXPECT(not_written(rushgirdle_write_log(buffer, 600, 1, 2, name, 256), 2));
}

/* ---- slices that end where memory ends */

/* a copy of the bytes, or as many bytes A5, before a page that cannot be read or written */
static void *fenced(const void *from, size_t n)
{
    size_t page = (size_t)sysconf(_SC_PAGESIZE), whole = (n / page + 1) * page;
    char *block = mmap(NULL, whole + page, PROT_READ | PROT_WRITE, MAP_PRIVATE | MAP_ANONYMOUS, -1, 0);
    if (block == MAP_FAILED || mprotect(block + whole, page, PROT_NONE) != 0) {
        printf("FAILED: no memory\n0 passed, 1 failed\n");
        fflush(stdout);
        _exit(1);
    }
    memset(block, 0xA5, whole);
    if (from != NULL)
        memcpy(block + whole - n, from, n);
    return block + whole - n;
}

static void test_fences(void)
{
    uint8_t *lines = fenced(two_lines, strlen(two_lines));
    uint32_t *w = fenced(NULL, sizeof two_words);
    rushgirdle_build_answer b = rushgirdle_build(lines, strlen(two_lines), w, 23);
    EXPECT(b.number == 0 && memcmp(w, two_words, sizeof two_words) == 0);
    EXPECT(rushgirdle_good(w, 23));
    for (size_t n = 0; n < 23; n++) /* every shorter slice, its end at the fence too */
        EXPECT(!rushgirdle_good(fenced(two_words, 4 * n), n));
    EXPECT(rushgirdle_list(w, 23, 3, 1090519041).start == 21);

    /* a name goes and comes back in just its words; every shorter slice of words, and every shorter name */
    uint32_t *u = fenced(both, sizeof both);
    EXPECT(rushgirdle_withdraw(u, 23, 5) == 0 && memcmp(u, nine, sizeof nine) == 0 && all_words(u, 19, 23, BLANK) && u[-1] == KEPT);
    EXPECT(rushgirdle_add(u, 23, 6, fenced("AB", 2), 2) == 8 && rushgirdle_add(u, 23, 5, fenced("A", 1), 1) == 0);
    EXPECT(memcmp(u, both, sizeof both) == 0 && u[-1] == KEPT);
    for (size_t n = 0; n < 23; n++) {
        u = fenced(both, 4 * n);
        EXPECT(rushgirdle_add(u, n, 6, fenced("A", 1), 1) == 6 && rushgirdle_withdraw(u, n, 5) == 6 && memcmp(u, both, 4 * n) == 0);
        u = fenced(nine, 4 * (n < 19 ? n : 19));
        EXPECT(rushgirdle_add(u, n < 19 ? n : 19, 5, fenced("A", 1), 1) == (n < 19 ? 6 : 8));
    }

    uint8_t *query = fenced("A", 1);
    uint32_t *i = fenced(NULL, 8), *h = fenced(NULL, 8), *z = fenced(NULL, 8), *l = fenced(NULL, 8);
    rushgirdle_search_answer a = rushgirdle_search(query, 1, 1, 1, 1, 6, w, 23, i, 2, h, 2, z, 2, l, 2);
    EXPECT(a.number == 0 && a.rows == 2 && a.touches == 6 && a.p == 1 && a.q == 1);
    EXPECT(i[0] == 1 && i[1] == 2 && h[0] == 3 && h[1] == 3 && z[0] == 3 && z[1] == 3 && l[0] == 3 && l[1] == 3);
    EXPECT(i[-1] == KEPT && h[-1] == KEPT && z[-1] == KEPT && l[-1] == KEPT);
    rushgirdle_row *r = fenced(NULL, 2 * sizeof *r);
    a = rushgirdle_search_rows(query, 1, 1, 1, 1, 6, w, 23, r, 2);
    EXPECT(a.number == 0 && a.rows == 2 && a.touches == 6 && a.p == 1 && a.q == 1);
    EXPECT(row_is(&r[0], 1, 3, 3, 3) && row_is(&r[1], 2, 3, 3, 3) && row_is(&r[-1], KEPT, KEPT, KEPT, KEPT));

    /* A and A again: two rows each, in just the places */
    static const uint32_t two_ends[2] = {1, 2};
    uint32_t *f[7];
    for (int k = 0; k < 7; k++)
        f[k] = fenced(NULL, k < 3 ? 8 : 16);
    rushgirdle_many_answer s = rushgirdle_search_many(fenced("AA", 2), 2, fenced(two_ends, 8), 2, 1, 1, 1, 6, w, 23, f[0], 2, f[1], 2, f[2], 2, f[3], 4, f[4], 4, f[5], 4, f[6], 4);
    EXPECT(s.number == 0 && s.queries == 2 && s.rows == 4 && f[0][1] == 0 && f[1][0] == 2 && f[1][1] == 4 && f[2][1] == 6);
    EXPECT(f[3][0] == 1 && f[3][1] == 2 && f[3][2] == 1 && f[3][3] == 2 && f[4][3] == 3 && f[5][3] == 3 && f[6][3] == 3);
    for (int k = 0; k < 7; k++)
        EXPECT(f[k][-1] == KEPT);
    for (size_t n = 0; n < 2; n++) { /* fewer bytes and fewer ends */
        s = rushgirdle_search_many(fenced("AA", n), n, fenced(two_ends, 8), 2, 1, 1, 1, 6, w, 23, f[0], 2, f[1], 2, f[2], 2, f[3], 4, f[4], 4, f[5], 4, f[6], 4);
        EXPECT(s.number == 0 && s.queries == 2 && s.rows == 2 * n && f[0][1] == 11);
        s = rushgirdle_search_many(fenced("AA", 2), 2, fenced(two_ends, 4 * n), n, 1, 1, 1, 6, w, 23, f[0], 2, f[1], 2, f[2], 2, f[3], 4, f[4], 4, f[5], 4, f[6], 4);
        EXPECT(s.number == 0 && s.queries == n && s.rows == 2 * n);
    }

    /* A alone, under 5: a reading of 45 and a missing one in one week; and every shorter log */
    static const uint32_t five[19] = {1, 3, 3, 1283, 3, 16641, 0, 1, 3, 4259841, 1, 1, 3, 1090519041, 2, 1, 5, 5, 5};
    static const char log[] = "4C0000002D0141\n4C0006FFFF0141\n";
    uint32_t *index = fenced(five, sizeof five), *column[COLUMNS];
    for (int k = 0; k < COLUMNS; k++)
        column[k] = fenced(NULL, k <= VALUES ? 8 : 4);
    for (size_t n = 0; n <= 30; n++) {
        rushgirdle_import_answer m = rushgirdle_import(fenced(log, n), n, 1, 1, 1, 6, index, 19, column[CASES], 2, column[VALUES], 2,
                                                       column[IDS], 1, column[WEEKS], 1, column[SUMS], 1, column[COUNTS], 1);
        EXPECT(m.number == (n % 15 == 0 ? 0 : 11) && m.line == (n % 15 == 0 ? 0 : n / 15 + 1));
        EXPECT(m.lines == (n % 15 == 0 ? n / 15 : 0) && m.pairs == (n % 15 == 0 && n > 0));
    }
    EXPECT(column[CASES][0] == 1 && column[CASES][1] == 1 && column[VALUES][0] == 5 && column[VALUES][1] == 5);
    EXPECT(column[IDS][0] == 5 && column[WEEKS][0] == 0 && column[SUMS][0] == 45 && column[COUNTS][0] == 1);
    for (int k = 0; k < COLUMNS; k++)
        EXPECT(column[k][-1] == KEPT);

    const char *line = "5103123456789ABCDEF0025A59\n";
    uint8_t *whole = fenced(line, 27), *name = fenced(NULL, 2), *out = fenced(NULL, 27);
    rushgirdle_query_answer q = rushgirdle_read_query(whole, 27, name, 2);
    EXPECT(q.number == 0 && q.len == 2 && name[-1] == 0xA5 && name[0] == 'Z' && name[1] == 'Y');
    rushgirdle_write_answer t = rushgirdle_write_query(out, 27, q.measure, q.p, q.q, q.allowance, name, q.len);
    EXPECT(t.number == 0 && t.len == 27 && out[-1] == 0xA5 && memcmp(out, line, 27) == 0);
    for (size_t n = 0; n < 27; n++) { /* every shorter line and buffer */
        EXPECT(rushgirdle_read_query(fenced(line, n), n, name, 2).number == 11);
        EXPECT(rushgirdle_write_query(fenced(NULL, n), n, 3, 1, 1, 1, name, 2).number == 8);
    }
    EXPECT(rushgirdle_read_name(fenced("4EABCD044C414E45\n", 17), 17, fenced(NULL, 4), 4).number == 0);
    EXPECT(rushgirdle_read_row(fenced("521234AB5678\n", 13), 13).number == 0);
    EXPECT(rushgirdle_read_end(fenced("45123456789ABCDEF01122\n", 23), 23).number == 0);
    EXPECT(rushgirdle_read_refusal(fenced("5807FEDCBA98\n", 13), 13).number == 0);
    EXPECT(rushgirdle_read_log(fenced("4C1234ABCD025A59\n", 17), 17, fenced(NULL, 2), 2).number == 0);
    EXPECT(rushgirdle_write_name(fenced(NULL, 17), 17, 1, fenced("LANE", 4), 4).number == 0);
    EXPECT(rushgirdle_write_row(fenced(NULL, 13), 13, 1, 2, 3, 4).number == 0);
    EXPECT(rushgirdle_write_end(fenced(NULL, 23), 23, 1, 2, 3, 4).number == 0);
    EXPECT(rushgirdle_write_refusal(fenced(NULL, 13), 13, 1, 2).number == 0);
    EXPECT(rushgirdle_write_log(fenced(NULL, 17), 17, 1, 2, fenced("ZY", 2), 2).number == 0);
}

/* each answer fits two registers, and so is returned the same way on every processor */
static void test_sizes(void)
{
    EXPECT(sizeof(rushgirdle_build_answer) <= 16 && sizeof(rushgirdle_list_answer) <= 16 && sizeof(rushgirdle_search_answer) <= 16);
    EXPECT(sizeof(rushgirdle_many_answer) <= 16 && sizeof(rushgirdle_import_answer) <= 16 && sizeof(rushgirdle_write_answer) <= 16);
    EXPECT(sizeof(rushgirdle_name_answer) <= 16 && sizeof(rushgirdle_query_answer) <= 16 && sizeof(rushgirdle_row_answer) <= 16);
    EXPECT(sizeof(rushgirdle_end_answer) <= 16 && sizeof(rushgirdle_refusal_answer) <= 16 && sizeof(rushgirdle_log_answer) <= 16);
}

int main(void)
{
    test_sizes();
    memset(too_long, 'A', LONGEST + 1);
    test_build();
    test_good();
    test_list();
    test_add();
    test_withdraw();
    test_upkeep_most();
    test_search();
    test_rows();
    test_many();
    test_import();
    test_import_most();
    test_read();
    test_write();
    test_fences();
    printf("%u passed, %u failed\n", passed, failed);
    return failed == 0 ? 0 : 1;
}
