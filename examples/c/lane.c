/* Which of three registered names are like LANE? Then LANES is withdrawn, and added under another id. examples/python/lane.py and
 * examples/rust/lane.rs print the same.
 *
 *   bash tools/library
 *   cc -Itarget/library -o target/lane examples/c/lane.c target/library/librushgirdle.a
 *   target/lane
 */
#include <stdio.h>
#include <string.h>

#include "rushgirdle.h"

static const char lines[] =
    "4E000A044C414E45\n"    /* 10: LANE */
    "4E000B054C414E4553\n"  /* 11: LANES */
    "4E000C05504C414E45\n"; /* 12: PLANE */

static uint32_t words[RUSHGIRDLE_MOST_WORDS];

static void look_up(const char *query, uint32_t allowance)
{
    rushgirdle_row rows[RUSHGIRDLE_MOST_NAMES];
    rushgirdle_search_answer found = rushgirdle_search_rows(
        (const uint8_t *)query, strlen(query), RUSHGIRDLE_DICE, 8, 13, allowance,
        words, RUSHGIRDLE_MOST_WORDS, rows, RUSHGIRDLE_MOST_NAMES);
    printf("%s, Dice 8/13, allowance %u: number %u\n", query, (unsigned)allowance, (unsigned)found.number);
    for (uint32_t k = 0; k < found.rows; k++)
        printf("id %u shared %u size %u least %u\n",
               (unsigned)rows[k].id, (unsigned)rows[k].shared, (unsigned)rows[k].size, (unsigned)rows[k].least);
    printf("rows %u touches %u threshold %u/%u\n",
           (unsigned)found.rows, (unsigned)found.touches, (unsigned)found.p, (unsigned)found.q);
}

static void withdraw(uint16_t id)
{
    printf("withdraw %u: number %u\n", (unsigned)id, (unsigned)rushgirdle_withdraw(words, RUSHGIRDLE_MOST_WORDS, id));
}

static void add(uint16_t id, const char *name)
{
    printf("add %s under %u: number %u\n", name, (unsigned)id,
           (unsigned)rushgirdle_add(words, RUSHGIRDLE_MOST_WORDS, id, (const uint8_t *)name, strlen(name)));
}

int main(void)
{
    rushgirdle_build_answer built = rushgirdle_build(
        (const uint8_t *)lines, strlen(lines), words, RUSHGIRDLE_MOST_WORDS);
    if (built.number != RUSHGIRDLE_ANSWERED) {
        printf("line %u is refused with %u\n", (unsigned)built.line, (unsigned)built.number);
        return 1;
    }
    look_up("LANE", 15);
    look_up("LANE", 14);
    withdraw(11);
    add(13, "LANES");
    look_up("LANE", 15);
    withdraw(11);
    return 0;
}
