/* How much stack each function of include/rushgirdle.h takes. It is called on a stack that was painted before, on inputs that lead it as deep as
 * it goes, and how far the paint is gone is compared with the header's figure: that has to be enough, and at most one and a half times what is
 * taken. Prints what is taken, what fails, and at the end 'N passed, M failed'. For x86-64 and aarch64. */
#include <stdio.h>
#include <string.h>

#include "rushgirdle.h"

static unsigned passed, failed;

/* ---- the painted stack */

#define AREA 1048576
_Alignas(16) static unsigned char area[AREA];

/* Calls it on the area, its stack pointer at the area's end. */
static void on_area(void (*call)(void))
{
#ifdef __aarch64__
    __asm__ volatile(
        "mov x19, sp\n\t"
        "mov sp, %0\n\t"
        "blr %1\n\t"
        "mov sp, x19"
        :
        : "r"(area + AREA), "r"(call)
        : "x19", "x0", "x1", "x2", "x3", "x4", "x5", "x6", "x7", "x8", "x9", "x10", "x11", "x12", "x13", "x14", "x15", "x16", "x17", "x18", "x30",
          "memory", "cc", "v0", "v1", "v2", "v3", "v4", "v5", "v6", "v7", "v8", "v9", "v10", "v11", "v12", "v13", "v14", "v15", "v16", "v17", "v18",
          "v19", "v20", "v21", "v22", "v23", "v24", "v25", "v26", "v27", "v28", "v29", "v30", "v31");
#else
    __asm__ volatile(
        "movq %%rsp, %%r12\n\t"
        "movq %0, %%rsp\n\t"
        "callq *%1\n\t"
        "movq %%r12, %%rsp"
        :
        : "r"(area + AREA), "r"(call)
        : "r12", "rax", "rcx", "rdx", "rsi", "rdi", "r8", "r9", "r10", "r11", "memory", "cc", "xmm0", "xmm1", "xmm2", "xmm3", "xmm4", "xmm5",
          "xmm6", "xmm7", "xmm8", "xmm9", "xmm10", "xmm11", "xmm12", "xmm13", "xmm14", "xmm15");
#endif
}

typedef void any(void);

static void idle(void) {}

/* what a call below calls: the function that it is for, or `idle` */
static any *volatile callee;
#define CALLEE(f) ((__typeof__(&f))callee)

static size_t taken(void (*call)(void), any *function, int paint)
{
    memset(area, paint, AREA);
    callee = function;
    on_area(call);
    size_t low = 0;
    while (low < AREA && area[low] == paint)
        low++;
    return AREA - low;
}

/* The bytes below the caller's own, its return address among them. What was written may look like one paint, so there are two; the first call
 * is for the loader, which may have a function of the C library to find. */
static size_t need(void (*call)(void), any *function)
{
    taken(call, function, 0);
    size_t most = 0;
    for (int paint = 0x5A; paint <= 0xA5; paint += 0x4B) {
        size_t n = taken(call, function, paint) - taken(call, idle, paint) + sizeof(void *);
        if (n > most)
            most = n;
    }
    return most;
}

/* ---- the inputs: 256 names of 200 bytes, logs of these names, and what is largest of a line */

#define NAME 200
#define LINE (9 + 2 * NAME) /* a 4E line of such a name; a 4C line has 4 bytes more */
static char lines[RUSHGIRDLE_MOST_NAMES * LINE + 1], logged[RUSHGIRDLE_MOST_LINES * (LINE + 4) + 1];
static size_t lines_length, logged_length;
static uint8_t query[NAME];
static uint32_t words[RUSHGIRDLE_MOST_WORDS], built[RUSHGIRDLE_MOST_WORDS], fewer[RUSHGIRDLE_MOST_WORDS]; /* `fewer` has not the last name */
static uint32_t ids[RUSHGIRDLE_MOST_NAMES], shared[RUSHGIRDLE_MOST_NAMES], sizes[RUSHGIRDLE_MOST_NAMES], least[RUSHGIRDLE_MOST_NAMES];
static rushgirdle_row rows[RUSHGIRDLE_MOST_NAMES];
static const uint32_t ends[2] = {0, NAME}; /* no query, and the query */
static uint32_t cases[RUSHGIRDLE_MOST_LINES], values[RUSHGIRDLE_MOST_LINES];
static uint32_t pair_ids[RUSHGIRDLE_MOST_LINES], weeks[RUSHGIRDLE_MOST_LINES], sums[RUSHGIRDLE_MOST_LINES], counts[RUSHGIRDLE_MOST_LINES];
static uint8_t name[RUSHGIRDLE_LONGEST_NAME], line[RUSHGIRDLE_LONGEST_LINE];
static size_t line_length;
static uint8_t measure;
static uint16_t p, q;

/* An input that is refused would lead nowhere. */
static void wanted(int held, const char *otherwise)
{
    if (!held) {
        failed++;
        printf("FAILED: tests/stack.c: %s\n", otherwise);
    }
}

/* A log with so many lines, each of a registered name: the last name first, and the later weeks before the earlier. */
static void log_of(unsigned count)
{
    logged_length = 0;
    for (unsigned i = count; i-- > 0;)
        logged_length += (size_t)sprintf(logged + logged_length, "4C%04X%04X%02X%.*s\n", 7 * (i / RUSHGIRDLE_MOST_NAMES), i, NAME,
                                         2 * NAME, lines + i % RUSHGIRDLE_MOST_NAMES * LINE + 8);
}

/* Names that have every feature in common, or none but a few; and a log of two lines. */
static void register_of(int equal)
{
    lines_length = 0;
    for (unsigned i = 0; i < RUSHGIRDLE_MOST_NAMES; i++) {
        lines_length += (size_t)sprintf(lines + lines_length, "4E%04X%02X", i, NAME);
        for (unsigned k = 0; k < NAME; k++) {
            unsigned byte = equal ? 'A' : k % 2 == 0 ? 128 + i % 16 + 16 * (k / 2 % 8) : 128 + i / 16 + 16 * (k / 16 % 8);
            if (i == 0)
                query[k] = (uint8_t)byte;
            lines_length += (size_t)sprintf(lines + lines_length, "%02X", byte);
        }
        lines_length += (size_t)sprintf(lines + lines_length, "\n");
    }
    wanted(rushgirdle_build((const uint8_t *)lines, lines_length, words, RUSHGIRDLE_MOST_WORDS).number == 0, "a register is refused");
    memcpy(fewer, words, sizeof fewer);
    wanted(rushgirdle_withdraw(fewer, RUSHGIRDLE_MOST_WORDS, RUSHGIRDLE_MOST_NAMES - 1) == 0, "the last name is not withdrawn");
    log_of(2);
}

static void call_build(void) { CALLEE(rushgirdle_build)((const uint8_t *)lines, lines_length, built, RUSHGIRDLE_MOST_WORDS); }
static void call_add(void)
{
    memcpy(built, fewer, sizeof built);
    CALLEE(rushgirdle_add)(built, RUSHGIRDLE_MOST_WORDS, RUSHGIRDLE_MOST_NAMES, query, NAME);
}
static void call_withdraw(void)
{
    memcpy(built, words, sizeof built);
    CALLEE(rushgirdle_withdraw)(built, RUSHGIRDLE_MOST_WORDS, RUSHGIRDLE_MOST_NAMES - 1);
}
static void call_good(void) { CALLEE(rushgirdle_good)(words, RUSHGIRDLE_MOST_WORDS); }
static void call_list(void) { CALLEE(rushgirdle_list)(words, RUSHGIRDLE_MOST_WORDS, NAME + 2, words[4 + RUSHGIRDLE_MOST_NAMES]); }
static void call_search(void)
{
    CALLEE(rushgirdle_search)(query, NAME, measure, p, q, UINT32_MAX, words, RUSHGIRDLE_MOST_WORDS,
                              ids, RUSHGIRDLE_MOST_NAMES, shared, RUSHGIRDLE_MOST_NAMES, sizes, RUSHGIRDLE_MOST_NAMES, least, RUSHGIRDLE_MOST_NAMES);
}
static void call_search_rows(void)
{
    CALLEE(rushgirdle_search_rows)(query, NAME, measure, p, q, UINT32_MAX, words, RUSHGIRDLE_MOST_WORDS, rows, RUSHGIRDLE_MOST_NAMES);
}
static void call_search_many(void)
{
    CALLEE(rushgirdle_search_many)(query, NAME, ends, 2, measure, p, q, UINT32_MAX, words, RUSHGIRDLE_MOST_WORDS,
                                   cases, RUSHGIRDLE_MOST_LINES, values, RUSHGIRDLE_MOST_LINES, weeks, RUSHGIRDLE_MOST_LINES,
                                   ids, RUSHGIRDLE_MOST_NAMES, shared, RUSHGIRDLE_MOST_NAMES, sizes, RUSHGIRDLE_MOST_NAMES, least, RUSHGIRDLE_MOST_NAMES);
}
static void call_import(void)
{
    CALLEE(rushgirdle_import)((const uint8_t *)logged, logged_length, measure, p, q, UINT32_MAX, words, RUSHGIRDLE_MOST_WORDS,
                              cases, RUSHGIRDLE_MOST_LINES, values, RUSHGIRDLE_MOST_LINES, pair_ids, RUSHGIRDLE_MOST_LINES,
                              weeks, RUSHGIRDLE_MOST_LINES, sums, RUSHGIRDLE_MOST_LINES, counts, RUSHGIRDLE_MOST_LINES);
}
static void call_read_name(void) { CALLEE(rushgirdle_read_name)(line, line_length, name, sizeof name); }
static void call_read_query(void) { CALLEE(rushgirdle_read_query)(line, line_length, name, sizeof name); }
static void call_read_row(void) { CALLEE(rushgirdle_read_row)(line, line_length); }
static void call_read_end(void) { CALLEE(rushgirdle_read_end)(line, line_length); }
static void call_read_refusal(void) { CALLEE(rushgirdle_read_refusal)(line, line_length); }
static void call_read_log(void) { CALLEE(rushgirdle_read_log)(line, line_length, name, sizeof name); }
static void call_write_name(void) { CALLEE(rushgirdle_write_name)(line, sizeof line, 65535, name, sizeof name); }
static void call_write_query(void) { CALLEE(rushgirdle_write_query)(line, sizeof line, 4, 610, 987, UINT32_MAX, name, sizeof name); }
static void call_write_row(void) { CALLEE(rushgirdle_write_row)(line, sizeof line, 65535, 202, 202, 202); }
static void call_write_end(void) { CALLEE(rushgirdle_write_end)(line, sizeof line, 256, UINT32_MAX, 610, 987); }
static void call_write_refusal(void) { CALLEE(rushgirdle_write_refusal)(line, sizeof line, 7, UINT32_MAX); }
static void call_write_log(void) { CALLEE(rushgirdle_write_log)(line, sizeof line, 65535, 65535, name, sizeof name); }

/* ---- the figures */

static size_t most; /* of the calls since the last figure */

#define TRY(f) deepen(need(call_##f, (any *)rushgirdle_##f))
static void deepen(size_t n)
{
    if (n > most)
        most = n;
}

/* By every measure, of both registers. No fraction up to 1000 has a divisor that is found in more steps than 610/987. */
#define SEARCHES(f) searches(call_##f, (any *)rushgirdle_##f)
static void searches(void (*call)(void), any *function)
{
    static const uint16_t thresholds[][2] = {{1, 1000}, {610, 987}, {1000, 1000}};
    for (int equal = 0; equal <= 1; equal++) {
        register_of(equal);
        for (measure = 1; measure <= 4; measure++)
            for (int i = 0; i < 3; i++) {
                p = thresholds[i][0];
                q = thresholds[i][1];
                deepen(need(call, function));
                wanted(rushgirdle_search_rows(query, NAME, measure, p, q, UINT32_MAX, words, RUSHGIRDLE_MOST_WORDS, rows, RUSHGIRDLE_MOST_NAMES).rows >=
                           (equal ? RUSHGIRDLE_MOST_NAMES : 1),
                       "a search finds too little");
            }
    }
}

#define HOLDS(figure) holds(figure, #figure)
static void holds(size_t figure, const char *what)
{
    int held = most <= figure && 2 * figure <= 3 * most;
    *(held ? &passed : &failed) += 1;
    printf("%s%s is %zu, and %zu bytes are taken\n", held ? "" : "FAILED: tests/stack.c: ", what, figure, most);
    most = 0;
}

int main(void)
{
    memset(name, 'Z', sizeof name);
    for (int equal = 0; equal <= 1; equal++) {
        register_of(equal);
        TRY(build);
    }
    HOLDS(RUSHGIRDLE_STACK_BUILD);

    for (int equal = 0; equal <= 1; equal++) {
        register_of(equal);
        TRY(add);
        wanted(rushgirdle_add(built, RUSHGIRDLE_MOST_WORDS, RUSHGIRDLE_MOST_NAMES, query, NAME) == 0, "a name is not added");
        TRY(withdraw);
        wanted(rushgirdle_withdraw(built, RUSHGIRDLE_MOST_WORDS, RUSHGIRDLE_MOST_NAMES - 1) == 0, "a name is not withdrawn");
    }
    HOLDS(RUSHGIRDLE_STACK_UPKEEP);

    for (int equal = 0; equal <= 1; equal++) {
        register_of(equal);
        TRY(good);
        TRY(list);
    }
    HOLDS(RUSHGIRDLE_STACK_INDEX);

    SEARCHES(search);
    HOLDS(RUSHGIRDLE_STACK_SEARCH);
    SEARCHES(search_rows);
    HOLDS(RUSHGIRDLE_STACK_ROWS);
    SEARCHES(search_many);
    HOLDS(RUSHGIRDLE_STACK_MANY);

    /* every search, and then as many pairs as there can be: four weeks of each name */
    SEARCHES(import);
    register_of(0);
    measure = RUSHGIRDLE_DICE;
    p = q = 1;
    log_of(RUSHGIRDLE_MOST_LINES);
    TRY(import);
    wanted(pair_ids[1023] == 255 && weeks[1023] == 3 && counts[1023] == 1, "an import has too few pairs");
    HOLDS(RUSHGIRDLE_STACK_IMPORT);

    TRY(write_name);
    line_length = rushgirdle_write_name(line, sizeof line, 1, name, sizeof name).len;
    TRY(read_name);
    TRY(write_query);
    line_length = rushgirdle_write_query(line, sizeof line, 1, 1, 1, 1, name, sizeof name).len;
    TRY(read_query);
    TRY(write_row);
    line_length = rushgirdle_write_row(line, sizeof line, 1, 1, 1, 1).len;
    TRY(read_row);
    TRY(write_end);
    line_length = rushgirdle_write_end(line, sizeof line, 1, 1, 1, 1).len;
    TRY(read_end);
    TRY(write_refusal);
    line_length = rushgirdle_write_refusal(line, sizeof line, 1, 1).len;
    TRY(read_refusal);
    TRY(write_log);
    line_length = rushgirdle_write_log(line, sizeof line, 1, 1, name, sizeof name).len;
    TRY(read_log);
    HOLDS(RUSHGIRDLE_STACK_FRAMES);

    printf("%u passed, %u failed\n", passed, failed);
    return failed == 0 ? 0 : 1;
}
