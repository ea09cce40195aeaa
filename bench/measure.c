/* The proved lookup and import beside an unverified twin in Rust, SimString and Rust's sort, in one run. bench/run builds
 * and calls it.
 *
 *     measure DIRECTORY    a directory for SimString's files
 *
 * Before anything is timed every contender answers every query, and the answers are compared; a sample that is timed
 * adds up what it found, and the sum is compared too. A difference ends the run with status 1. Times are the least of
 * many samples, the contenders taking turns, so that what else the machine does falls on all alike. */
#define _POSIX_C_SOURCE 200809L
#include <stdarg.h>
#include <stdbool.h>
#include <stdint.h>
#include <stdio.h>
#include <stdlib.h>
#include <string.h>
#include <time.h>

#include "rushgirdle.h"

/* ---- what is measured */

/* search_good, of an index that is known to be good (bench/measured.rattle) */
rushgirdle_search_answer measured_search_good(const uint8_t *, size_t, uint8_t, uint16_t, uint16_t, uint32_t,
                                              const uint32_t *, size_t, uint32_t *, size_t, uint32_t *, size_t,
                                              uint32_t *, size_t, uint32_t *, size_t);

/* bench/twin.rs */
bool twin_good(const uint32_t *, size_t);
rushgirdle_build_answer twin_build(const uint8_t *, size_t, uint32_t *, size_t);
rushgirdle_search_answer twin_search(const uint8_t *, size_t, uint8_t, uint16_t, uint16_t, uint32_t, const uint32_t *,
                                     size_t, uint32_t *, uint32_t *, uint32_t *, uint32_t *, size_t, bool);
size_t twin_triples(const uint8_t *, size_t, uint64_t *, size_t);
void twin_sort(uint64_t *, size_t);

/* bench/simstring.cpp */
#ifdef SIMSTRING
void *simstring_make(const char *, const char *const *, size_t);
size_t simstring_search(void *, const char *, int, double);
const char *simstring_found(void *, size_t);
void simstring_drop(void *);
#endif

enum { NAMES = 256, LONGEST = 200, QUERIES = 32, WORDS = RUSHGIRDLE_MOST_WORDS, POSTINGS = NAMES * (LONGEST + 2), COPIES = 16 };

/* A log: as many lines as one may have, of ten weeks. */
enum { LINES = RUSHGIRDLE_MOST_LINES, WEEKS = 10 };

static _Noreturn void fail(const char *format, ...)
{
    va_list words;
    va_start(words, format);
    fputs("bench: ", stderr);
    vfprintf(stderr, format, words);
    fputc('\n', stderr);
    va_end(words);
    exit(1);
}

/* ---- names */

static uint64_t state = 1;

static uint64_t below(uint64_t limit)
{
    state += 0x9E3779B97F4A7C15u;
    uint64_t mixed = state;
    mixed = (mixed ^ (mixed >> 30)) * 0xBF58476D1CE4E5B9u;
    mixed = (mixed ^ (mixed >> 27)) * 0x94D049BB133111EBu;
    return (mixed ^ (mixed >> 31)) % limit;
}

static const char *pick(const char *const *from, size_t count)
{
    return from[below(count)];
}

/* A name as pools have them: a place, now and then a saint or a side before it, and a kind of pool. */
static void pool_name(char *name)
{
    static const char *const before[] = { "", "", "", "NORTH ", "SOUTH ", "OLD ", "ST ", "UPPER ", "KING " };
    static const char *const place[] = { "ASHFORD", "BRIDGE", "CANAL", "DERBY", "EASTON", "FERRY", "GRANGE", "HARBOUR",
                                         "ISLE", "JUBILEE", "KELSO", "LARCH", "MARINE", "NEWTON", "ORCHARD", "PARK",
                                         "QUARRY", "RIVERSIDE", "STATION", "TINSIDE", "UNION", "VALE", "WATERLOO" };
    static const char *const kind[] = { " LIDO", " POOL", " BATHS", " LEISURE CENTRE", " SWIM", " BATH", "", " SPA" };
#define PICK(list) pick(list, sizeof list / sizeof *list)
    const char *first = PICK(before), *middle = PICK(place), *last = PICK(kind);
#undef PICK
    snprintf(name, LONGEST + 1, "%s%s%s", first, middle, last);
}

/* Pool names one after the other, cut at a length. */
static void long_name(char *name, size_t length)
{
    char part[LONGEST + 1];
    size_t at = 0;
    while (at < length) {
        pool_name(part);
        for (const char *from = part; *from && at < length; from++)
            name[at++] = *from;
    }
    name[length] = 0;
}

/* A name as it is mistyped: one letter more, less, another, or two swapped. */
static void mistype(char *name)
{
    size_t length = strlen(name), at = below(length);
    char letter = (char)('A' + below(26));
    switch (below(4)) {
    case 0:
        if (length < LONGEST) {
            memmove(name + at + 1, name + at, length + 1 - at);
            name[at] = letter;
            break;
        }
        /* fall through */
    case 1:
        if (length > 1) {
            memmove(name + at, name + at + 1, length - at);
            break;
        }
        /* fall through */
    case 2:
        name[at] = letter;
        break;
    default:
        if (at + 1 < length) {
            char kept = name[at];
            name[at] = name[at + 1];
            name[at + 1] = kept;
        }
    }
}

/* ---- a scene: a register, its index, and queries, or a log */

struct query {
    char name[LONGEST + 1];
    size_t length;
    uint16_t day, reading; /* where it is the typed name of a log line */
};

struct scene {
    char label[64];
    uint8_t measure;
    uint16_t p, q;
    size_t names, queries;
    char name[NAMES][LONGEST + 1];
    struct query query[LINES];
    uint8_t lines[NAMES * (9 + 2 * LONGEST)];
    size_t bytes;
    uint8_t log[LINES * (13 + 2 * LONGEST)];
    size_t logged; /* its bytes; 0 where the scene has no log */
    bool changes;  /* names are added and withdrawn */
    bool at_once;  /* all queries are asked in one call */
    bool checks;   /* the index is checked, and nothing else */
    unsigned step; /* so far the ids are apart */
    uint8_t text[LINES * LONGEST]; /* the queries one after the other, where they are asked in one call */
    uint32_t ends[LINES];
    uint32_t words[WORDS];
    size_t total;
    uint64_t triples[POSTINGS];
    size_t postings;
    void *simstring;
    uint64_t rows, lost, touches, belong, pairs;
};

/* Where searches, builds and imports write. */
static uint32_t ids[NAMES], shared[NAMES], sizes[NAMES], least[NAMES], built[WORDS];
static uint32_t outcomes[3][LINES], many[4][LINES * NAMES];
static uint64_t copies[COPIES][POSTINGS];
static uint32_t indexes[COPIES][WORDS];
enum { CASE, VALUE, ID, WEEK, SUM, COUNT, COLUMNS };
static uint32_t imported[COLUMNS][LINES];

static const char *directory;

static void ask(struct scene *s, const char *name)
{
    struct query *q = &s->query[s->queries++];
    strcpy(q->name, name);
    q->length = strlen(name);
}

static uint16_t id_of(const struct scene *s, size_t name)
{
    return (uint16_t)(name * s->step + 7);
}

static size_t name_of(const struct scene *s, uint32_t id)
{
    return (id - 7) / s->step;
}

/* Writes the register's lines, builds the index twice, compares, and makes SimString's. */
static void ready(struct scene *s)
{
    s->bytes = 0;
    for (size_t at = 0; at < s->names; at++) {
        rushgirdle_write_answer w =
            rushgirdle_write_name(s->lines + s->bytes, sizeof s->lines - s->bytes, id_of(s, at),
                                  (const uint8_t *)s->name[at], strlen(s->name[at]));
        if (w.number)
            fail("%s: a name cannot be written", s->label);
        s->bytes += w.len;
    }
    rushgirdle_build_answer one = rushgirdle_build(s->lines, s->bytes, s->words, WORDS);
    rushgirdle_build_answer other = twin_build(s->lines, s->bytes, built, WORDS);
    if (one.number || other.number || memcmp(s->words, built, sizeof built))
        fail("%s: the builds differ, or are refused with %u and %u", s->label, one.number, other.number);
    s->total = 3 + s->words[0] + 4 * (size_t)s->words[1] + s->words[2];
    if (!rushgirdle_good(s->words, s->total) || !twin_good(s->words, s->total))
        fail("%s: a built index is not good", s->label);
    s->postings = twin_triples(s->lines, s->bytes, s->triples, POSTINGS);
    memcpy(copies[0], s->triples, s->postings * sizeof *s->triples);
    twin_sort(copies[0], s->postings);
    for (size_t at = 0; at < s->postings; at++)
        if ((uint32_t)(copies[0][at] & 0xFFFF) != s->words[s->total - s->postings + at])
            fail("%s: the sorted triples are not the postings", s->label);
#ifdef SIMSTRING
    char path[512];
    const char *names[NAMES];
    for (size_t at = 0; at < s->names; at++)
        names[at] = s->name[at];
    snprintf(path, sizeof path, "%s/names.db", directory);
    if (!(s->simstring = simstring_make(path, names, s->names)))
        fail("%s: SimString makes no database in %s", s->label, directory);
#endif
}

static void finish(struct scene *s)
{
#ifdef SIMSTRING
    simstring_drop(s->simstring);
#endif
    s->simstring = NULL;
}

/* Gives each query a day and a reading, one in eight of these missing, and writes the lines of the log. */
static void write_log(struct scene *s)
{
    char *to = (char *)s->log;
    for (size_t at = 0; at < s->queries; at++) {
        struct query *q = &s->query[at];
        q->day = (uint16_t)below(7 * WEEKS);
        q->reading = (uint16_t)(below(8) ? below(400) : RUSHGIRDLE_MISSING);
        to += sprintf(to, "4C%04X%04X%02X", q->day, q->reading, (unsigned)q->length);
        for (const char *from = q->name; *from; from++)
            to += sprintf(to, "%02X", (unsigned char)*from);
        *to++ = '\n';
    }
    s->logged = (size_t)(to - (char *)s->log);
}

/* ---- the contenders, each over all queries of a scene once; what they found is added up */

typedef uint64_t contender(struct scene *);

static uint64_t proved_search_good(struct scene *s)
{
    uint64_t sum = 0;
    for (size_t at = 0; at < s->queries; at++) {
        const struct query *q = &s->query[at];
        sum += measured_search_good((const uint8_t *)q->name, q->length, s->measure, s->p, s->q, UINT32_MAX, s->words,
                                    s->total, ids, NAMES, shared, NAMES, sizes, NAMES, least, NAMES).rows;
    }
    return sum;
}

static uint64_t proved_search(struct scene *s)
{
    uint64_t sum = 0;
    for (size_t at = 0; at < s->queries; at++) {
        const struct query *q = &s->query[at];
        sum += rushgirdle_search((const uint8_t *)q->name, q->length, s->measure, s->p, s->q, UINT32_MAX, s->words,
                                 s->total, ids, NAMES, shared, NAMES, sizes, NAMES, least, NAMES).rows;
    }
    return sum;
}

static rushgirdle_many_answer ask_many(struct scene *s)
{
    enum { ROWS = LINES * NAMES };
    return rushgirdle_search_many(s->text, s->ends[s->queries - 1], s->ends, s->queries, s->measure, s->p, s->q, UINT32_MAX,
                                  s->words, s->total, outcomes[0], LINES, outcomes[1], LINES, outcomes[2], LINES,
                                  many[0], ROWS, many[1], ROWS, many[2], ROWS, many[3], ROWS);
}

static uint64_t proved_many(struct scene *s)
{
    return ask_many(s).rows;
}

static uint64_t twin_by(struct scene *s, bool checked)
{
    uint64_t sum = 0;
    for (size_t at = 0; at < s->queries; at++) {
        const struct query *q = &s->query[at];
        sum += twin_search((const uint8_t *)q->name, q->length, s->measure, s->p, s->q, UINT32_MAX, s->words, s->total,
                           ids, shared, sizes, least, NAMES, checked).rows;
    }
    return sum;
}

static uint64_t twin_search_good(struct scene *s)
{
    return twin_by(s, false);
}

static uint64_t twin_check_search(struct scene *s)
{
    return twin_by(s, true);
}

static uint64_t by_simstring(struct scene *s)
{
    uint64_t sum = 0;
#ifdef SIMSTRING
    for (size_t at = 0; at < s->queries; at++)
        sum += simstring_search(s->simstring, s->query[at].name, s->measure, (double)s->p / s->q);
#else
    (void)s;
#endif
    return sum;
}

static uint64_t proved_good(struct scene *s)
{
    return rushgirdle_good(s->words, s->total);
}

static uint64_t twin_check(struct scene *s)
{
    return twin_good(s->words, s->total);
}

/* Into a slice of exactly the index's length, so that nobody is charged for filling what is beyond. */
static uint64_t proved_build(struct scene *s)
{
    return rushgirdle_build(s->lines, s->bytes, built, s->total).number == 0;
}

static uint64_t twin_builds(struct scene *s)
{
    return twin_build(s->lines, s->bytes, built, s->total).number == 0;
}

static rushgirdle_import_answer import_log(struct scene *s, uint32_t allowance)
{
    uint32_t(*c)[LINES] = imported;
    return rushgirdle_import(s->log, s->logged, s->measure, s->p, s->q, allowance, s->words, s->total, c[CASE], LINES,
                             c[VALUE], LINES, c[ID], LINES, c[WEEK], LINES, c[SUM], LINES, c[COUNT], LINES);
}

static uint64_t proved_import(struct scene *s)
{
    rushgirdle_import_answer answer = import_log(s, UINT32_MAX);
    return answer.lines + answer.pairs;
}

/* Sorts copies that were made before the clock started. */
static uint64_t rust_sort(struct scene *s)
{
    for (size_t at = 0; at < COPIES; at++)
        twin_sort(copies[at], s->postings);
    return COPIES;
}

/* Each copy of the index has or lacks another name, in a slice of the whole index's length. */
static uint16_t changed_id(const struct scene *s, size_t copy)
{
    return id_of(s, copy * s->names / COPIES);
}

static uint64_t proved_add(struct scene *s)
{
    uint64_t sum = 0;
    for (size_t at = 0; at < COPIES; at++) {
        const char *name = s->name[at * s->names / COPIES];
        sum += rushgirdle_add(indexes[at], s->total, changed_id(s, at), (const uint8_t *)name, strlen(name)) == 0;
    }
    return sum;
}

static uint64_t proved_withdraw(struct scene *s)
{
    uint64_t sum = 0;
    for (size_t at = 0; at < COPIES; at++)
        sum += rushgirdle_withdraw(indexes[at], s->total, changed_id(s, at)) == 0;
    return sum;
}

/* What the copies hold before the clock starts. */
static void copy_triples(struct scene *s)
{
    for (size_t at = 0; at < COPIES; at++)
        memcpy(copies[at], s->triples, s->postings * sizeof *s->triples);
}

static void copy_index(struct scene *s)
{
    for (size_t at = 0; at < COPIES; at++)
        memcpy(indexes[at], s->words, s->total * sizeof *s->words);
}

static void copy_index_less(struct scene *s)
{
    copy_index(s);
    proved_withdraw(s);
}

/* ---- answers compared */

static int by_text(const void *one, const void *other)
{
    return strcmp(*(const char *const *)one, *(const char *const *)other);
}

/* What SimString lists has to be among the answers; what it lacks is counted. */
static void compare_simstring(struct scene *s, const struct query *q, size_t rows)
{
#ifdef SIMSTRING
    const char *ours[NAMES], *theirs[NAMES];
    size_t found = simstring_search(s->simstring, q->name, s->measure, (double)s->p / s->q), at = 0;
    if (found > NAMES)
        fail("%s, %s: SimString lists %zu names", s->label, q->name, found);
    for (size_t k = 0; k < rows; k++)
        ours[k] = s->name[name_of(s, ids[k])];
    for (size_t k = 0; k < found; k++)
        theirs[k] = simstring_found(s->simstring, k);
    qsort(ours, rows, sizeof *ours, by_text);
    qsort(theirs, found, sizeof *theirs, by_text);
    for (size_t k = 0; k < found; k++) {
        while (at < rows && strcmp(ours[at], theirs[k]))
            at++;
        if (at++ == rows)
            fail("%s, %s: SimString lists %s, and that is no answer", s->label, q->name, theirs[k]);
    }
    s->lost += rows - found;
#else
    (void)s, (void)q, (void)rows;
#endif
}

/* Every query by every contender; the rows, the counts and the threshold have to be the same. */
static void compare(struct scene *s)
{
    s->rows = s->lost = s->touches = 0;
    for (size_t at = 0; at < s->queries; at++) {
        const struct query *q = &s->query[at];
        const uint8_t *name = (const uint8_t *)q->name;
        uint32_t column[4][4][NAMES];
        rushgirdle_search_answer answer[4];
        memset(column, 0xA5, sizeof column);
        for (int by = 0; by < 4; by++) {
            uint32_t(*c)[NAMES] = column[by];
            answer[by] =
                by == 0 ? rushgirdle_search(name, q->length, s->measure, s->p, s->q, UINT32_MAX, s->words, s->total,
                                            c[0], NAMES, c[1], NAMES, c[2], NAMES, c[3], NAMES)
                : by == 1 ? measured_search_good(name, q->length, s->measure, s->p, s->q, UINT32_MAX, s->words,
                                                 s->total, c[0], NAMES, c[1], NAMES, c[2], NAMES, c[3], NAMES)
                          : twin_search(name, q->length, s->measure, s->p, s->q, UINT32_MAX, s->words, s->total, c[0],
                                        c[1], c[2], c[3], NAMES, by == 2);
            const rushgirdle_search_answer *one = &answer[0], *other = &answer[by];
            if (one->number || other->number || one->rows != other->rows || one->touches != other->touches ||
                one->p != other->p || one->q != other->q || memcmp(column[0], c, sizeof column[0]))
                fail("%s, %s: contenders 0 and %d differ", s->label, q->name, by);
        }
        memcpy(ids, column[0][0], sizeof ids);
        s->rows += answer[0].rows;
        s->touches += answer[0].touches;
        compare_simstring(s, q, answer[0].rows);
    }
}

/* All queries in one call: each has to have the rows and the touches of a search of its own. */
static void compare_many(struct scene *s)
{
    uint32_t from = 0;
    size_t bytes = 0;
    for (size_t at = 0; at < s->queries; at++) {
        memcpy(s->text + bytes, s->query[at].name, s->query[at].length);
        s->ends[at] = (uint32_t)(bytes += s->query[at].length);
    }
    rushgirdle_many_answer answer = ask_many(s);
    if (answer.number || answer.queries != s->queries || answer.rows != s->rows)
        fail("%s: asked at once, %u queries answer %u and have %u rows", s->label, answer.queries, answer.number, answer.rows);
    for (size_t at = 0; at < s->queries; at++) {
        const struct query *q = &s->query[at];
        uint32_t *single[] = { ids, shared, sizes, least };
        rushgirdle_search_answer found =
            rushgirdle_search((const uint8_t *)q->name, q->length, s->measure, s->p, s->q, UINT32_MAX, s->words, s->total,
                              ids, NAMES, shared, NAMES, sizes, NAMES, least, NAMES);
        if (outcomes[0][at] != found.number || outcomes[1][at] != from + found.rows || outcomes[2][at] != found.touches)
            fail("%s, %s: asked at once it has another outcome", s->label, q->name);
        for (int c = 0; c < 4; c++)
            if (memcmp(many[c] + from, single[c], found.rows * sizeof **many))
                fail("%s, %s: asked at once it has other rows", s->label, q->name);
        from += found.rows;
    }
}

/* Every outcome has to be what search_good lists for that typed name, and every pair a sum over the lines; what stands
 * behind them is kept. */
static void compare_import(struct scene *s, uint32_t allowance)
{
    static uint32_t expected[COLUMNS][LINES];
    static struct {
        uint32_t lines, sum, count;
    } pair[NAMES][WEEKS];
    memset(imported, 0xA5, sizeof imported);
    memset(expected, 0xA5, sizeof expected);
    memset(pair, 0, sizeof pair);
    rushgirdle_import_answer answer = import_log(s, allowance);
    s->belong = s->pairs = 0;
    for (size_t at = 0; at < s->queries; at++) {
        const struct query *q = &s->query[at];
        rushgirdle_search_answer found =
            measured_search_good((const uint8_t *)q->name, q->length, s->measure, s->p, s->q, allowance, s->words,
                                 s->total, ids, NAMES, shared, NAMES, sizes, NAMES, least, NAMES);
        bool belongs = !found.number && found.rows == 1;
        expected[CASE][at] = found.number ? RUSHGIRDLE_REFUSED
                             : belongs    ? RUSHGIRDLE_BELONGS
                             : found.rows ? RUSHGIRDLE_AMBIGUOUS
                                          : RUSHGIRDLE_UNRESOLVED;
        expected[VALUE][at] = found.number ? found.number : belongs ? ids[0] : 0;
        if (!belongs)
            continue;
        s->belong++;
        size_t name = name_of(s, ids[0]), week = q->day / 7;
        pair[name][week].lines++;
        if (q->reading != RUSHGIRDLE_MISSING) {
            pair[name][week].sum += q->reading;
            pair[name][week].count++;
        }
    }
    for (uint32_t name = 0; name < s->names; name++)
        for (uint32_t week = 0; week < WEEKS; week++)
            if (pair[name][week].lines) {
                expected[ID][s->pairs] = id_of(s, name);
                expected[WEEK][s->pairs] = week;
                expected[SUM][s->pairs] = pair[name][week].sum;
                expected[COUNT][s->pairs] = pair[name][week].count;
                s->pairs++;
            }
    if (answer.number || answer.line || answer.lines != s->queries || answer.pairs != s->pairs)
        fail("%s: the import answers %u at line %u, %u lines, %u pairs", s->label, answer.number, answer.line,
             answer.lines, answer.pairs);
    for (int c = 0; c < COLUMNS; c++)
        for (size_t at = 0; at < LINES; at++)
            if (imported[c][at] != expected[c][at])
                fail("%s: the import has %u and not %u at place %zu of column %d", s->label, imported[c][at],
                     expected[c][at], at, c);
}

/* ---- times: of this thread alone, so that a wait for the processor is not counted */

static double now(void)
{
    struct timespec at;
    clock_gettime(CLOCK_THREAD_CPUTIME_ID, &at);
    return (double)at.tv_sec + 1e-9 * (double)at.tv_nsec;
}

struct timed {
    contender *run;
    uint64_t per, expected; /* how many searches, builds or changes a run is, and what it adds up to */
    void (*copy)(struct scene *); /* before each run of one that changes what it is given */
    unsigned times;
    double least; /* seconds for one */
};

/* One sample: as many runs as make half a millisecond, or the copies changed once. */
static void sample(struct timed *t, struct scene *s)
{
    if (t->copy) {
        t->copy(s);
        double from = now();
        uint64_t sum = t->run(s);
        double took = (now() - from) / (double)t->per;
        if (sum != t->expected)
            fail("%s: a contender answers otherwise while it is timed", s->label);
        t->least = took < t->least ? took : t->least;
        return;
    }
    for (;;) {
        double from = now();
        for (unsigned k = 0; k < t->times; k++)
            if (t->run(s) != t->expected)
                fail("%s: a contender answers otherwise while it is timed", s->label);
        double took = now() - from;
        if (took < 5e-4) {
            t->times *= 2;
            continue;
        }
        took /= (double)t->times * (double)t->per;
        t->least = took < t->least ? took : t->least;
        return;
    }
}

enum { GOOD, TWIN_GOOD, SIM, SEARCH, TWIN_SEARCH, CHECK, TWIN_CHECK, BUILD, TWIN_BUILD, SORT, IMPORT, ADD, WITHDRAW, MANY, CONTENDERS };

/* In a scene with a log the import takes turns with search_good and SimString, in one with changes these with the build and the check, in one of
 * queries asked at once these with searches of their own and SimString, in one of checks the two checks; elsewhere all others do. */
static bool takes_part(int which, const struct scene *s)
{
    bool change = which == ADD || which == WITHDRAW;
    if (s->checks)
        return which == CHECK || which == TWIN_CHECK;
    if (s->at_once || which == MANY)
        return s->at_once && (which == MANY || which == GOOD || which == SEARCH || (which == SIM && s->simstring));
    if (s->changes || change)
        return s->changes && (change || which == BUILD || which == CHECK);
    if (which == SIM)
        return s->simstring;
    return which == GOOD || (which == IMPORT) == (s->logged > 0);
}

static void take_times(struct scene *s, double *seconds, unsigned rounds)
{
    struct timed t[CONTENDERS] = {
        [GOOD] = { proved_search_good, s->queries, s->rows, NULL, 1, 1e9 },
        [TWIN_GOOD] = { twin_search_good, s->queries, s->rows, NULL, 1, 1e9 },
        [SIM] = { by_simstring, s->queries, s->rows - s->lost, NULL, 1, 1e9 },
        [SEARCH] = { proved_search, s->queries, s->rows, NULL, 1, 1e9 },
        [TWIN_SEARCH] = { twin_check_search, s->queries, s->rows, NULL, 1, 1e9 },
        [CHECK] = { proved_good, 1, 1, NULL, 1, 1e9 },
        [TWIN_CHECK] = { twin_check, 1, 1, NULL, 1, 1e9 },
        [BUILD] = { proved_build, 1, 1, NULL, 1, 1e9 },
        [TWIN_BUILD] = { twin_builds, 1, 1, NULL, 1, 1e9 },
        [SORT] = { rust_sort, COPIES, COPIES, copy_triples, 1, 1e9 },
        [IMPORT] = { proved_import, s->queries, s->queries + s->pairs, NULL, 1, 1e9 },
        [ADD] = { proved_add, COPIES, COPIES, copy_index_less, 1, 1e9 },
        [WITHDRAW] = { proved_withdraw, COPIES, COPIES, copy_index, 1, 1e9 },
        [MANY] = { proved_many, s->queries, s->rows, NULL, 1, 1e9 },
    };
    for (unsigned round = 0; round < rounds; round++)
        for (int k = 0; k < CONTENDERS; k++)
            if (takes_part(k, s))
                sample(&t[k], s);
    for (int k = 0; k < CONTENDERS; k++)
        seconds[k] = t[k].least;
}

/* ---- what is printed */

/* How the labels of the rows begin that the goals are for. */
static const char pool_rows[] = "256 pool names", log_rows[] = "1,024 lines", change_rows[] = "one of 256 pool names",
                  many_rows[] = "1024 queries", few_rows[] = "32 queries";

static struct {
    const char *what, *rows;
    int over, under;
    double goal, worst;
    char at[64];
} goals[] = {
    { "search_good / SimString", pool_rows, GOOD, SIM, 0.7, 0, "" },
    { "search_good / twin", pool_rows, GOOD, TWIN_GOOD, 1.1, 0, "" },
    { "search / twin's check and search", pool_rows, SEARCH, TWIN_SEARCH, 1.2, 0, "" },
    { "build / sort_unstable", pool_rows, BUILD, SORT, 3.0, 0, "" },
    { "a line of an import / search_good", log_rows, IMPORT, GOOD, 1.2, 0, "" },
    { "a line of an import / SimString", log_rows, IMPORT, SIM, 1.0, 0, "" },
    { "a query of 1,024 at once / SimString", many_rows, MANY, SIM, 0.8, 0, "" },
    { "a query of 32 at once, over and over / SimString", few_rows, MANY, SIM, 0.8, 0, "" },
    { "an add / a build of all names", change_rows, ADD, BUILD, 0.5, 0, "" },
    { "a withdrawal / a build of all names", change_rows, WITHDRAW, BUILD, 0.5, 0, "" },
};

static void note(const struct scene *s, const double *seconds)
{
    for (size_t g = 0; g < sizeof goals / sizeof *goals; g++) {
        double ratio = seconds[goals[g].over] / seconds[goals[g].under];
        if ((goals[g].under == SIM && !s->simstring) || strncmp(s->label, goals[g].rows, strlen(goals[g].rows)) != 0)
            continue;
        if (ratio > goals[g].worst) {
            goals[g].worst = ratio;
            snprintf(goals[g].at, sizeof goals[g].at, "%s", s->label);
        }
    }
}

static void measure(struct scene *s, unsigned rounds)
{
    double t[CONTENDERS];
    ready(s);
    compare(s);
    take_times(s, t, rounds);
    note(s, t);
    printf("| %s | %.0f | %.2f | ", s->label, (double)s->touches / (double)s->queries, t[GOOD] * 1e6);
    if (s->simstring)
        printf("%.2f | ", t[GOOD] / t[SIM]);
    else
        printf("- | ");
    printf("%.2f | %.1f | %.2f | %.2f | %.1f | %.2f | %.2f |\n", t[GOOD] / t[TWIN_GOOD], t[SEARCH] * 1e6,
           t[SEARCH] / t[TWIN_SEARCH], t[CHECK] / t[TWIN_CHECK], t[BUILD] * 1e6, t[BUILD] / t[SORT],
           t[BUILD] / t[TWIN_BUILD]);
    fflush(stdout);
    finish(s);
}

/* A log: compared with the whole allowance, and with one that refuses some of its lines. */
static void measure_import(struct scene *s, unsigned rounds)
{
    double t[CONTENDERS];
    ready(s);
    compare(s);
    compare_import(s, (uint32_t)(s->touches / s->queries));
    compare_import(s, UINT32_MAX);
    take_times(s, t, rounds);
    note(s, t);
    printf("| %s | %.0f | %.0f | %.0f | %.2f | %.2f | %.2f | ", s->label, (double)s->touches / (double)s->queries,
           (double)s->belong, (double)s->pairs, t[IMPORT] * 1e6, t[GOOD] * 1e6, t[IMPORT] / t[GOOD]);
    if (s->simstring)
        printf("%.2f | %.2f |\n", t[SIM] * 1e6, t[IMPORT] / t[SIM]);
    else
        printf("- | - |\n");
    fflush(stdout);
    finish(s);
}

/* Names added to the others, and withdrawn: compared with the words of the build, and of a build without the name. */
static void measure_changes(struct scene *s, unsigned rounds)
{
    double t[CONTENDERS];
    ready(s);
    copy_index_less(s);
    if (proved_add(s) != COPIES)
        fail("%s: an add is refused", s->label);
    for (size_t at = 0; at < COPIES; at++)
        if (memcmp(indexes[at], s->words, s->total * sizeof *s->words))
            fail("%s: the words differ after an add", s->label);
    take_times(s, t, rounds);
    note(s, t);
    printf("| %s | %.1f | %.1f | %.2f | %.1f | %.2f | %.1f |\n", s->label, t[BUILD] * 1e6, t[ADD] * 1e6, t[ADD] / t[BUILD],
           t[WITHDRAW] * 1e6, t[WITHDRAW] / t[BUILD], t[CHECK] * 1e6);
    fflush(stdout);
    finish(s);
}

/* Queries asked at once, beside searches of their own. */
static void measure_many(struct scene *s, unsigned rounds)
{
    double t[CONTENDERS];
    ready(s);
    compare(s);
    compare_many(s);
    take_times(s, t, rounds);
    note(s, t);
    printf("| %s | %.0f | %.2f | %.2f | %.2f | %.2f | ", s->label, (double)s->touches / (double)s->queries, t[MANY] * 1e6,
           t[SEARCH] * 1e6, t[MANY] / t[SEARCH], t[MANY] / t[GOOD]);
    if (s->simstring)
        printf("%.2f | %.2f |\n", t[SIM] * 1e6, t[MANY] / t[SIM]);
    else
        printf("- | - |\n");
    fflush(stdout);
    finish(s);
}

/* The check of an index, whose cost goes by the ids. */
static void measure_check(struct scene *s, unsigned rounds)
{
    double t[CONTENDERS];
    ready(s);
    take_times(s, t, rounds);
    printf("| %s | %.2f | %.2f | %.2f |\n", s->label, t[CHECK] * 1e6, t[TWIN_CHECK] * 1e6, t[CHECK] / t[TWIN_CHECK]);
    fflush(stdout);
    finish(s);
}

static void head(void)
{
    puts("| register and queries | touches | search_good, µs | / SimString | / twin | search, µs | / twin's check and search |"
         " check / twin's | build, µs | / sort | / twin's |");
    puts("|---|---|---|---|---|---|---|---|---|---|---|");
}

static struct scene scene;

static struct scene *begin(uint8_t measure, uint16_t p, uint16_t q, const char *format, ...)
{
    va_list words;
    va_start(words, format);
    memset(&scene, 0, sizeof scene);
    vsnprintf(scene.label, sizeof scene.label, format, words);
    va_end(words);
    scene.measure = measure;
    scene.p = p;
    scene.q = q;
    scene.step = 251;
    return &scene;
}

static void register_pools(struct scene *s)
{
    state = 1;
    for (s->names = 0; s->names < NAMES; s->names++)
        pool_name(s->name[s->names]);
}

static void mistyped_queries(struct scene *s, size_t count)
{
    char name[LONGEST + 1];
    while (s->queries < count) {
        strcpy(name, s->name[below(s->names)]);
        mistype(name);
        ask(s, name);
    }
}

static const char *const measures[] = { "", "Dice", "Jaccard", "cosine", "overlap" };

static void pools(uint8_t measure_by, uint16_t p, uint16_t q, unsigned rounds)
{
    struct scene *s = begin(measure_by, p, q, "256 pool names, %s %u/%u", measures[measure_by], p, q);
    register_pools(s);
    mistyped_queries(s, QUERIES);
    measure(s, rounds);
}

static void many_pools(size_t queries, uint8_t measure_by, uint16_t p, uint16_t q, unsigned rounds)
{
    struct scene *s = begin(measure_by, p, q, "%zu queries of 256 pool names, %s %u/%u", queries, measures[measure_by], p, q);
    register_pools(s);
    mistyped_queries(s, queries);
    s->at_once = true;
    measure_many(s, rounds);
}

static void apart(size_t names, unsigned step, unsigned rounds)
{
    struct scene *s = begin(1, 1, 1, "%zu pool names, ids %u apart", names, step);
    register_pools(s);
    s->names = names;
    s->step = step;
    s->checks = true;
    measure_check(s, rounds);
}

static void log_of_pools(uint8_t measure_by, uint16_t p, uint16_t q, unsigned rounds)
{
    struct scene *s = begin(measure_by, p, q, "1,024 lines, %s %u/%u", measures[measure_by], p, q);
    register_pools(s);
    mistyped_queries(s, LINES);
    write_log(s);
    measure_import(s, rounds);
}

static void changed_pools(unsigned rounds)
{
    struct scene *s = begin(1, 1, 1, "one of 256 pool names");
    register_pools(s);
    s->changes = true;
    measure_changes(s, rounds);
}

static void changed(size_t names, size_t length, bool equal, unsigned rounds)
{
    struct scene *s = begin(1, 1, 1, "one of %zu %snames of %zu bytes", names, equal ? "equal " : "", length);
    state = 1;
    for (s->names = 0; s->names < names; s->names++)
        if (equal && s->names)
            strcpy(s->name[s->names], s->name[0]);
        else
            long_name(s->name[s->names], length);
    s->changes = true;
    measure_changes(s, rounds);
}

static void worst(size_t length, uint16_t p, uint16_t q, unsigned rounds)
{
    struct scene *s = begin(1, p, q, "256 equal names of %zu bytes, Dice %u/%u", length, p, q);
    state = 1;
    long_name(s->name[0], length);
    for (s->names = 1; s->names < NAMES; s->names++)
        strcpy(s->name[s->names], s->name[0]);
    ask(s, s->name[0]);
    measure(s, rounds);
}

static void grown(size_t names, size_t length, unsigned rounds)
{
    struct scene *s = begin(3, 7, 10, "%zu names of %zu bytes, cosine 7/10", names, length);
    state = 1;
    for (s->names = 0; s->names < names; s->names++)
        long_name(s->name[s->names], length);
    mistyped_queries(s, QUERIES);
    measure(s, rounds);
}

/* A name exactly on the threshold: listed here, and by SimString or not. */
static void on_threshold(const char *name, const char *query, uint16_t p, uint16_t q)
{
    struct scene *s = begin(1, p, q, "threshold");
    strcpy(s->name[s->names++], name);
    ask(s, query);
    ready(s);
    compare(s);
    printf("| %s | %s | Dice %u/%u | %s | ", name, query, p, q, s->rows ? "listed" : "not listed");
    if (s->simstring)
        puts(s->lost ? "not listed |" : "listed |");
    else
        puts("- |");
    finish(s);
}

int main(int count, char **given)
{
    static const size_t lengths[] = {8, 16, 64, LONGEST};
    if (count != 2) {
        fputs("usage: measure DIRECTORY\n", stderr);
        return 2;
    }
    directory = given[1];
    unsigned rounds = 60;
    head();
    for (uint8_t by = 1; by <= 4; by++)
        pools(by, 7, 10, rounds);
    for (size_t length = 64; length <= LONGEST; length += LONGEST - 64) {
        worst(length, 1, 1, rounds);
        worst(length, 1, 1000, rounds);
    }
    puts("\nAs names and lengths grow:\n");
    head();
    for (size_t names = 16; names <= 256; names *= 4)
        for (size_t at = 0; at < sizeof lengths / sizeof *lengths; at++)
            grown(names, lengths[at], rounds);
    puts("\nA log of mistyped names of 256 pools, imported:\n");
    puts("| log | touches | lines that belong | pairs | a line of an import, µs | search_good, µs | import / search_good |"
         " SimString, µs | import / SimString |");
    puts("|---|---|---|---|---|---|---|---|---|");
    for (uint8_t by = 1; by <= 4; by++)
        log_of_pools(by, 7, 10, rounds);
    puts("\nQueries asked at once, in one call that checks the index once, beside searches of their own, for each query:\n");
    puts("| queries | touches | at once, µs | search, µs | at once / search | at once / search_good | SimString, µs |"
         " at once / SimString |");
    puts("|---|---|---|---|---|---|---|---|");
    for (uint8_t by = 1; by <= 4; by++)
        many_pools(LINES, by, 7, 10, rounds);
    for (uint8_t by = 1; by <= 4; by++)
        many_pools(QUERIES, by, 7, 10, rounds);
    puts("\nThe check of an index, by how far its ids are apart:\n");
    puts("| register | check, µs | twin's check, µs | check / twin's |\n|---|---|---|---|");
    apart(256, 1, rounds);
    apart(256, 251, rounds);
    apart(256, 256, rounds);
    apart(16, 1, rounds);
    apart(16, 4096, rounds);
    puts("\nA name added to the others, or withdrawn, with the check of the index, beside a build of all of them:\n");
    puts("| name | build, µs | add, µs | / build | withdrawal, µs | / build | check of the whole index, µs |");
    puts("|---|---|---|---|---|---|---|");
    changed_pools(rounds);
    changed(16, 8, false, rounds);
    changed(256, 64, false, rounds);
    changed(256, 64, true, rounds);
    changed(256, LONGEST, false, rounds);
    puts("\nThe goals, by the largest ratio of the rows of 256 pool names that each is for:\n");
    puts("| ratio | goal | largest | at | |\n|---|---|---|---|---|");
    for (size_t g = 0; g < sizeof goals / sizeof *goals; g++)
        if (goals[g].worst == 0)
            printf("| %s | %.1f | - | | not measured |\n", goals[g].what, goals[g].goal);
        else
            printf("| %s | %.1f | %.2f | %s | %s |\n", goals[g].what, goals[g].goal, goals[g].worst, goals[g].at,
                   goals[g].worst <= goals[g].goal ? "met" : "missed");
    puts("\nNames on the threshold:\n");
    puts("| register | query | threshold | here | SimString |\n|---|---|---|---|---|");
    on_threshold("abcdefghijcd", "abcd", 3, 5);
    on_threshold("abab", "ab", 4, 5);
    return 0;
}
