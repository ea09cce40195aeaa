/* Rushgirdle for C: which registered names are like this one?
 *
 * The functions of librushgirdle.a and librushgirdle.so, which `bash tools/library` makes from proved code, for Linux on x86-64 and aarch64. The
 * rule that they follow is docs/RULE.md. Every call ends, whatever it is given, and answers with number 0 or with a refusal.
 *
 * What a caller owes
 *   A slice is a pointer and how many elements stand there, at most PTRDIFF_MAX bytes in all.
 *   - Where the length is above 0, every element can be read, and written where the pointer is not to const, for the whole call.
 *   - Where the length is 0, the pointer may be NULL; nothing is read or written through it.
 *   - A pointer to uint32_t or to rushgirdle_row is aligned to 4 bytes.
 *   - What is lent to be written overlaps nothing else that is lent to the same call, and no other thread looks at it or writes it meanwhile.
 *     What is lent as const may overlap other const, and no thread writes it meanwhile.
 *   - As many bytes of stack are left as RUSHGIRDLE_STACK_BUILD and the others below say.
 *   Nothing checks these: a call that breaks one has no promise. Every value of every other parameter is taken.
 *
 * What is promised
 *   - The number, every field, and every lent element afterwards are fixed by the rule. Nothing but the lent elements is written.
 *   - What an answer tells a caller to read lies within what was lent: start + count is at most the number of words, rows at most the length of
 *     each column or of the list of rows, queries and each end of rows likewise, lines and pairs at most the length of each column of theirs, len
 *     at most the length of the buffer.
 *   - A refused search writes no row, a refused import no outcome and no pair, a refused read no byte of the name, a refused write no byte of the
 *     line, a refused add or withdrawal no word. A refused build sets every word to 4294967295.
 *   - No memory is taken, no pointer is kept, nothing is remembered from call to call: any number of threads may call at once.
 */
#ifndef RUSHGIRDLE_H
#define RUSHGIRDLE_H

#include <stdbool.h>
#include <stddef.h>
#include <stdint.h>

#ifdef __cplusplus
extern "C" {
#endif

/* The numbers that a caller can get. */
enum rushgirdle_number {
    RUSHGIRDLE_ANSWERED = 0,
    RUSHGIRDLE_EMPTY = 1,      /* the name or query is empty */
    RUSHGIRDLE_LONG = 2,       /* it is longer than 200 bytes; frame writer: longer than 255 */
    RUSHGIRDLE_ZERO_BYTE = 3,  /* it holds a 0 byte */
    RUSHGIRDLE_MEASURE = 4,    /* the measure is not 1 to 4 */
    RUSHGIRDLE_THRESHOLD = 5,  /* not 1 <= p <= q <= 1000 */
    RUSHGIRDLE_NOT_GOOD = 6,   /* the words are no good index */
    RUSHGIRDLE_ALLOWANCE = 7,  /* the touches needed exceed the allowance */
    RUSHGIRDLE_ROOM = 8,       /* search: more answers than rows lent; many queries: there was no room for all; build, add: the index exceeds the words;
                                * frames: the line or the name exceeds its buffer; import: more lines than places for outcomes, or more pairs than
                                * places for pairs */
    RUSHGIRDLE_ORDER = 9,      /* a register id is not above the one before; add: the id is live */
    RUSHGIRDLE_FULL = 10,      /* build: a 257th name; add: 256 names are live; import: a 1025th line */
    RUSHGIRDLE_MALFORMED = 11, /* not a frame of the kind that was asked for; many queries: a query that does not lie in the bytes */
    RUSHGIRDLE_CONTROL = 12,   /* the name or query holds a control character other than 0: a byte from 1 to 31, or 127 */
    RUSHGIRDLE_NOT_LIVE = 13   /* withdraw: the id is not live */
};

/* The measures. */
enum rushgirdle_measure {
    RUSHGIRDLE_DICE = 1,
    RUSHGIRDLE_JACCARD = 2,
    RUSHGIRDLE_COSINE = 3,
    RUSHGIRDLE_OVERLAP = 4
};

/* The cases of an outcome of an import. */
enum rushgirdle_case {
    RUSHGIRDLE_BELONGS = 1,    /* the search of the line lists one name; the value is its id */
    RUSHGIRDLE_UNRESOLVED = 2, /* it lists none; the value is 0 */
    RUSHGIRDLE_AMBIGUOUS = 3,  /* it lists several; the value is 0 */
    RUSHGIRDLE_REFUSED = 4     /* it is refused; the value is its number */
};

#define RUSHGIRDLE_MOST_NAMES 256    /* so many rows are enough for every search */
#define RUSHGIRDLE_MOST_WORDS 258819 /* so many words are enough for every register and every add: 3 + 256 + 4 * 51712 + 51712 */
#define RUSHGIRDLE_LONGEST_NAME 255  /* so many bytes are enough for every name or query that is read from a line */
#define RUSHGIRDLE_LONGEST_LINE 533  /* so many bytes are enough for every line that is written, its line feed included */
#define RUSHGIRDLE_MOST_LINES 1024   /* so many places are enough for the outcomes of every log, and for its pairs */
#define RUSHGIRDLE_MISSING 65535     /* the reading that says that there is none; 0 is a reading */

/* The bytes of stack that a call takes below its caller's own, the return address among them. A loader that looks for memcpy and memset at their
 * first call takes its own besides. */
#define RUSHGIRDLE_STACK_BUILD 840000  /* rushgirdle_build */
#define RUSHGIRDLE_STACK_UPKEEP 21500  /* rushgirdle_add, rushgirdle_withdraw */
#define RUSHGIRDLE_STACK_INDEX 10500   /* rushgirdle_good, rushgirdle_list */
#define RUSHGIRDLE_STACK_SEARCH 17000  /* rushgirdle_search */
#define RUSHGIRDLE_STACK_ROWS 25000    /* rushgirdle_search_rows */
#define RUSHGIRDLE_STACK_MANY 17000    /* rushgirdle_search_many */
#define RUSHGIRDLE_STACK_IMPORT 47000  /* rushgirdle_import */
#define RUSHGIRDLE_STACK_FRAMES 256    /* each function that reads or writes a frame */

/* ---- the index */

typedef struct {
    uint8_t number;  /* 0, or in this order for the first bad line 11, 1, 2, 3, 12, 9, 10, then for the whole 8 */
    uint32_t line;   /* the bad line, counted from 1; 0 after 0 and after 8 */
} rushgirdle_build_answer;

/* Builds the index of a register: the bytes of 4E lines, in order. Where it answers 0, the words are the index, and after it 4294967295 to the
 * end; otherwise every word is 4294967295, which no search takes for an index. Its cost grows with the length of the register. */
rushgirdle_build_answer rushgirdle_build(
    const uint8_t *register_bytes, size_t register_length,
    uint32_t *words, size_t words_length);

/* Adds a name to an index under an id, in place. Answers 0, or the first that holds of 6, of 1, 2, 3, 12 for the name, 9 where the id is live (a
 * name of the index has it), 10 where 256 names are live, 8 where the index that would result exceeds the words. Takes any words, however they
 * came about, and checks the index each time.
 *
 * Where it answers 0, the words are the one good index of the names then live: those of before, each with the features that it stood for, and the
 * one that was added; every word beyond it is 4294967295, whatever stood there. An index that fits is never refused with 8. Where the index came
 * from a build and from such calls, its words are those of a build of the live names. A refusal changes no word. */
uint8_t rushgirdle_add(
    uint32_t *words, size_t words_length,
    uint16_t id, const uint8_t *name, size_t name_length);

/* Withdraws the name of an id from an index, in place. Answers 0, or the first that holds of 6, 13. Takes any words, and checks the index each time.
 * Where it answers 0, the words are the one good index of the other names, each with the features that it stood for, and every word beyond it is
 * 4294967295; withdrawing what was added gives the very words of before. A refusal changes no word. */
uint8_t rushgirdle_withdraw(uint32_t *words, size_t words_length, uint16_t id);

/* Whether the words are a good index, whatever they are. Words beyond the index are not looked at. */
bool rushgirdle_good(const uint32_t *words, size_t words_length);

typedef struct {
    size_t start;  /* the list's first word is words[start] */
    size_t count;  /* and it has so many */
} rushgirdle_list_answer;

/* Where the list of a size and a feature lies among the words: the ids, ascending, of the names of that size that have the feature. start 0 and
 * count 0 where there is no such list or the index is not good; a list that is there has a count of at least 1. Checks the index each time. */
rushgirdle_list_answer rushgirdle_list(
    const uint32_t *words, size_t words_length,
    uint32_t size, uint64_t feature);

typedef struct {
    uint8_t number;    /* 0, or the first that holds of 1, 2, 3, 12, 4, 5, 6, 7, 8 */
    uint32_t rows;     /* how many rows were written; 0 where refused */
    uint32_t touches;  /* the touches made: all after 0 and 8, the allowance after 7, 0 after any other */
    uint16_t p;        /* the threshold p/q in lowest terms; 0/0 where refused */
    uint16_t q;
} rushgirdle_search_answer;

/* The names that are like the query by the measure and the threshold p/q, within the allowance of touches. Row k of the answer is ids[k],
 * shared[k], sizes[k], least[k]: the name's id, how many features it shares with the query, its own size, and the least count of shared features
 * with which a name of that size passes; by ascending id. shared[k] is never below least[k], and a name with the two equal only just passes. The
 * rows lent are as many as the shortest of the four columns has places; those beyond the answer keep their contents, all of them where it is
 * refused. Checks the index each time. */
rushgirdle_search_answer rushgirdle_search(
    const uint8_t *query, size_t query_length,
    uint8_t measure, uint16_t p, uint16_t q, uint32_t allowance,
    const uint32_t *words, size_t words_length,
    uint32_t *ids, size_t ids_length,
    uint32_t *shared, size_t shared_length,
    uint32_t *sizes, size_t sizes_length,
    uint32_t *least, size_t least_length);

typedef struct {
    uint32_t id;      /* the name's id */
    uint32_t shared;  /* how many features it shares with the query */
    uint32_t size;    /* its own size */
    uint32_t least;   /* the least count of shared features with which a name of that size passes; at most shared */
} rushgirdle_row;

/* The same search, with its rows as records: row k of the answer is rows[k], by ascending id. The rows lent are rows_length; those beyond the
 * answer keep their contents, all of them where it is refused. Checks the index each time. */
rushgirdle_search_answer rushgirdle_search_rows(
    const uint8_t *query, size_t query_length,
    uint8_t measure, uint16_t p, uint16_t q, uint32_t allowance,
    const uint32_t *words, size_t words_length,
    rushgirdle_row *rows, size_t rows_length);

typedef struct {
    uint8_t number;    /* 0 where every query has its outcome, 8 otherwise */
    uint32_t queries;  /* how many have, from the first on */
    uint32_t rows;     /* how many rows were written, of all queries together */
} rushgirdle_many_answer;

/* Many queries of one index, which is checked once for all of them. Query k is the bytes from ends[k - 1], or from 0 where k is 0, up to and without
 * ends[k]; all are asked by the one measure and threshold p/q, and each has the whole allowance.
 *
 * Outcome k is numbers[k], until[k], touches[k]: the number of query k, 0 or the first that holds of 11 where its ends do not ascend or lie beyond
 * the bytes, 1, 2, 3, 12, 4, 5, 6, 7; where its rows end; and its touches, as a search of its own reports them. The rows of query k are those
 * from until[k - 1], or from 0 where k is 0, up to and without until[k]; a refused query has none. A row is ids[i], shared[i], sizes[i], least[i], as
 * after rushgirdle_search.
 *
 * The queries are answered in order until the rows of one have no room, or there is no place for its outcome: then the number is 8, and queries says how
 * far it came. A list is whole or not there: of the query that it came to nothing is written. Go on with that one and those after it, or with
 * more room; RUSHGIRDLE_MOST_NAMES rows are enough for one. The rows lent are as many as the shortest of the four columns has places, the outcomes as
 * many as the shortest of the three; those beyond what is written keep their contents. */
rushgirdle_many_answer rushgirdle_search_many(
    const uint8_t *bytes, size_t bytes_length,
    const uint32_t *ends, size_t ends_length,
    uint8_t measure, uint16_t p, uint16_t q, uint32_t allowance,
    const uint32_t *words, size_t words_length,
    uint32_t *numbers, size_t numbers_length,
    uint32_t *until, size_t until_length,
    uint32_t *touches, size_t touches_length,
    uint32_t *ids, size_t ids_length,
    uint32_t *shared, size_t shared_length,
    uint32_t *sizes, size_t sizes_length,
    uint32_t *least, size_t least_length);

/* ---- the import of a log */

typedef struct {
    uint8_t number;  /* 0, or for the first bad line 10 where it is the 1025th, which is not read, and 11 where it is no 4C frame, then for the whole 8 */
    uint32_t line;   /* the bad line, counted from 1; 0 after 0 and after 8 */
    uint32_t lines;  /* how many outcomes were written, one a line; 0 where refused */
    uint32_t pairs;  /* how many pairs were written; 0 where refused */
} rushgirdle_import_answer;

/* Which registered name each line of a log belongs to, and the readings by id and week. A log is the bytes of 4C lines, at most 1024 of them. The
 * typed name of each is searched by the measure and the threshold p/q, within the whole allowance, with room for every row.
 *
 * Outcome k is cases[k], one of enum rushgirdle_case, and values[k]: that of line k, counted from 0. A bad measure, threshold or index refuses
 * each line, with the number that its own search gives, and not the whole.
 *
 * Pair k is ids[k], weeks[k], sums[k], counts[k]: an id, a week (a day divided by 7, rounded down), and the sum and the count of the readings of the
 * lines that belong to the id in that week; by ascending id and then week, once each. A missing reading adds to neither sum nor count. Where
 * every reading is missing the pair is there with count 0: a count of 0 means no reading, whatever the sum.
 *
 * The places lent are as many as the shorter of cases and values has for outcomes, and as the shortest of the other four has for pairs; those
 * beyond what is written keep their contents, all of them where the import is refused. Checks the index each time. */
rushgirdle_import_answer rushgirdle_import(
    const uint8_t *log, size_t log_length,
    uint8_t measure, uint16_t p, uint16_t q, uint32_t allowance,
    const uint32_t *words, size_t words_length,
    uint32_t *cases, size_t cases_length,
    uint32_t *values, size_t values_length,
    uint32_t *ids, size_t ids_length,
    uint32_t *weeks, size_t weeks_length,
    uint32_t *sums, size_t sums_length,
    uint32_t *counts, size_t counts_length);

/* ---- frames: reading
 *
 * A line has to be exactly one frame of its kind: upper-case hexadecimal pairs and one line feed, which is part of the line. Otherwise 11; then
 * 8 where the name does not fit its buffer. A refused read has 0 in every field and leaves the buffer as it was; otherwise the name stands at
 * the buffer's start, and the bytes after it keep their contents. Fields are not judged: every value that fits its bytes is taken. */

typedef struct {
    uint8_t number;
    uint16_t id;
    size_t len;  /* the bytes of the name, 0 to 255 */
} rushgirdle_name_answer;

/* 4E: a registered name */
rushgirdle_name_answer rushgirdle_read_name(
    const uint8_t *line, size_t line_length,
    uint8_t *name, size_t name_length);

typedef struct {
    uint8_t number;
    uint8_t measure;
    uint16_t p;
    uint16_t q;
    uint32_t allowance;
    uint16_t len;  /* the bytes of the query, 0 to 255 */
} rushgirdle_query_answer;

/* 51: a query */
rushgirdle_query_answer rushgirdle_read_query(
    const uint8_t *line, size_t line_length,
    uint8_t *query, size_t query_length);

typedef struct {
    uint8_t number;
    uint16_t id;
    uint8_t shared;
    uint8_t size;
    uint8_t least;
} rushgirdle_row_answer;

/* 52: a row of an answer */
rushgirdle_row_answer rushgirdle_read_row(const uint8_t *line, size_t line_length);

typedef struct {
    uint8_t number;
    uint16_t rows;
    uint32_t touches;
    uint16_t p;
    uint16_t q;
} rushgirdle_end_answer;

/* 45: the end of an answer */
rushgirdle_end_answer rushgirdle_read_end(const uint8_t *line, size_t line_length);

typedef struct {
    uint8_t number;   /* of this reading */
    uint8_t refusal;  /* the number that the frame holds */
    uint32_t touches;
} rushgirdle_refusal_answer;

/* 58: a refusal */
rushgirdle_refusal_answer rushgirdle_read_refusal(const uint8_t *line, size_t line_length);

typedef struct {
    uint8_t number;
    uint16_t day;
    uint16_t reading;  /* in hundredths of a milligram per litre; RUSHGIRDLE_MISSING where there is none */
    size_t len;        /* the bytes of the typed name, 0 to 255 */
} rushgirdle_log_answer;

/* 4C: a line of a log */
rushgirdle_log_answer rushgirdle_read_log(
    const uint8_t *line, size_t line_length,
    uint8_t *name, size_t name_length);

/* ---- frames: writing
 *
 * Writes the line, its line feed included, at the start of out; the bytes after it keep their contents. The fields are written as given. 2
 * where a name or query is longer than 255 bytes, then 8 where the line does not fit; a refused write leaves out as it was. */

typedef struct {
    uint8_t number;
    size_t len;  /* the bytes written; 0 where refused */
} rushgirdle_write_answer;

rushgirdle_write_answer rushgirdle_write_name(
    uint8_t *out, size_t out_length,
    uint16_t id, const uint8_t *name, size_t name_length);

rushgirdle_write_answer rushgirdle_write_query(
    uint8_t *out, size_t out_length,
    uint8_t measure, uint16_t p, uint16_t q, uint32_t allowance, const uint8_t *query, size_t query_length);

rushgirdle_write_answer rushgirdle_write_row(
    uint8_t *out, size_t out_length,
    uint16_t id, uint8_t shared, uint8_t size, uint8_t least);

rushgirdle_write_answer rushgirdle_write_end(
    uint8_t *out, size_t out_length,
    uint16_t rows, uint32_t touches, uint16_t p, uint16_t q);

rushgirdle_write_answer rushgirdle_write_refusal(
    uint8_t *out, size_t out_length,
    uint8_t number, uint32_t touches);

rushgirdle_write_answer rushgirdle_write_log(
    uint8_t *out, size_t out_length,
    uint16_t day, uint16_t reading, const uint8_t *name, size_t name_length);

#ifdef __cplusplus
}
#endif

#endif
