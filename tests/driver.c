/* The proved library behind the second program's protocols (second/README.md): one case a line in, one line out.
 *
 *     driver good|list|build|search|rows|many|import|frames|add|withdraw|calls
 *
 * `rows` is the protocol `search`, with the rows lent as records. Of an import's frames `frames` has the log line, 4C.
 *
 * What is lent stands between two guards and is filled before the call; what is only read is compared with a copy
 * after it, and so are the words after an add or a withdrawal that is refused. A touched guard or a changed input ends the
 * program with status 3, a line that does not follow its protocol with status 2. An empty slice is passed as a null
 * pointer. */
#include <stdint.h>
#include <stdio.h>
#include <stdlib.h>
#include <string.h>

#include "rushgirdle.h"

enum { LENT = 0xA5, LENT_FIELD = 165, GUARD = 64, GUARD_BYTE = 0x5C };

static size_t line_number = 0;

static _Noreturn void refuse(const char *what)
{
    fprintf(stderr, "line %zu: %s\n", line_number, what);
    exit(2);
}

static _Noreturn void broken(const char *what)
{
    fprintf(stderr, "line %zu: %s\n", line_number, what);
    exit(3);
}

static void *room_for(size_t bytes)
{
    void *at = malloc(bytes ? bytes : 1);
    if (!at) {
        fputs("no memory\n", stderr);
        exit(4);
    }
    return at;
}

/* ---- slices: a part of a block with a guard on each side, and a copy for those that are only read */

struct slice {
    unsigned char *block, *copy;
    size_t bytes;
};

static struct slice slice_of(size_t bytes, int fill)
{
    struct slice s = { room_for(bytes + 2 * GUARD), NULL, bytes };
    memset(s.block, GUARD_BYTE, bytes + 2 * GUARD);
    memset(s.block + GUARD, fill, bytes);
    return s;
}

/* The part itself: null where it is empty. */
static void *part(const struct slice *s)
{
    return s->bytes ? s->block + GUARD : NULL;
}

/* From here on the slice is only to be read. */
static void keep(struct slice *s)
{
    s->copy = room_for(s->bytes);
    memcpy(s->copy, s->block + GUARD, s->bytes);
}

static void check_slice(const struct slice *s)
{
    for (size_t at = 0; at < GUARD; at++)
        if (s->block[at] != GUARD_BYTE || s->block[GUARD + s->bytes + at] != GUARD_BYTE)
            broken("a byte beside a lent slice was written");
    if (s->copy && memcmp(s->copy, s->block + GUARD, s->bytes))
        broken("a slice that is only read was written");
}

static void drop(struct slice *s)
{
    free(s->block);
    free(s->copy);
}

/* ---- the words of a case */

static char *rest;

static char *word(const char *what)
{
    while (*rest == ' ')
        rest++;
    if (!*rest)
        refuse(what);
    char *at = rest;
    while (*rest && *rest != ' ')
        rest++;
    if (*rest)
        *rest++ = 0;
    return at;
}

static int digit(char c)
{
    if ('0' <= c && c <= '9')
        return c - '0';
    if ('A' <= c && c <= 'F')
        return c - 'A' + 10;
    return 'a' <= c && c <= 'f' ? c - 'a' + 10 : 99;
}

/* The number of a text, in decimal, or in hexadecimal after 0x. */
static uint64_t number_in(const char *at, const char *what, uint64_t most)
{
    uint64_t base = 10, value = 0;
    if (at[0] == '0' && at[1] == 'x') {
        base = 16;
        at += 2;
    }
    if (!*at)
        refuse(what);
    for (; *at; at++) {
        uint64_t d = (uint64_t)digit(*at);
        if (d >= base || value > (most - d) / base)
            refuse(what);
        value = value * base + d;
    }
    return value;
}

static uint64_t number(const char *what, uint64_t most)
{
    return number_in(word(what), what, most);
}

/* The bytes of a text of hexadecimal pairs, or of - for none. */
static struct slice bytes_in(const char *at, const char *what)
{
    if (!strcmp(at, "-"))
        at = "";
    size_t digits = strlen(at);
    if (digits % 2)
        refuse(what);
    struct slice s = slice_of(digits / 2, 0);
    for (size_t i = 0; i < s.bytes; i++) {
        int high = digit(at[2 * i]), low = digit(at[2 * i + 1]);
        if (high > 15 || low > 15)
            refuse(what);
        s.block[GUARD + i] = (unsigned char)(high * 16 + low);
    }
    keep(&s);
    return s;
}

static struct slice bytes(const char *what)
{
    return bytes_in(word(what), what);
}

/* All words that are left, as the 32-bit words of a slice. */
static struct slice lent_words(void)
{
    size_t count = 0;
    for (const char *at = rest; *at;) {
        while (*at == ' ')
            at++;
        count += *at != 0;
        while (*at && *at != ' ')
            at++;
    }
    struct slice s = slice_of(count * sizeof(uint32_t), 0);
    uint32_t *into = (uint32_t *)(s.block + GUARD);
    for (size_t i = 0; i < count; i++)
        into[i] = (uint32_t)number("word", UINT32_MAX);
    return s;
}

/* The same, only to be read. */
static struct slice words(void)
{
    struct slice s = lent_words();
    keep(&s);
    return s;
}

/* Whether there is a word left. */
static int more(void)
{
    while (*rest == ' ')
        rest++;
    return *rest != 0;
}

static void end(void)
{
    if (more())
        refuse("one word too many");
}

/* Each word of a slice, with a space before it. */
static void print_words(const struct slice *s)
{
    for (size_t i = 0; i < s->bytes / sizeof(uint32_t); i++)
        printf(" %u", ((uint32_t *)part(s))[i]);
    putchar('\n');
}

static void print_bytes(const struct slice *s)
{
    putchar(' ');
    if (!s->bytes)
        putchar('-');
    for (size_t i = 0; i < s->bytes; i++)
        printf("%02X", s->block[GUARD + i]);
    putchar('\n');
}

/* ---- the kinds */

static void good(void)
{
    struct slice index = words();
    end();
    printf("%d\n", rushgirdle_good(part(&index), index.bytes / 4) ? 1 : 0);
    check_slice(&index);
    drop(&index);
}

static void list(void)
{
    uint32_t size = (uint32_t)number("size", UINT32_MAX);
    uint64_t feature = number("feature", UINT64_MAX);
    struct slice index = words();
    end();
    rushgirdle_list_answer a = rushgirdle_list(part(&index), index.bytes / 4, size, feature);
    check_slice(&index);
    printf("%zu %zu", (size_t)a.start, (size_t)a.count);
    if (a.start > index.bytes / 4 || a.count > index.bytes / 4 - a.start)
        broken("a list beyond its words");
    for (size_t i = 0; i < a.count; i++)
        printf(" %u", ((uint32_t *)part(&index))[a.start + i]);
    putchar('\n');
    drop(&index);
}

static void build(void)
{
    size_t room = (size_t)number("length", SIZE_MAX / 8);
    struct slice lines = bytes("register"), index = slice_of(room * sizeof(uint32_t), LENT);
    end();
    rushgirdle_build_answer a = rushgirdle_build(part(&lines), lines.bytes, part(&index), room);
    check_slice(&lines);
    check_slice(&index);
    printf("%u %u", (unsigned)a.number, (unsigned)a.line);
    print_words(&index);
    drop(&lines);
    drop(&index);
}

/* One call on the words: an add where there is a name, and otherwise a withdrawal. Its number. */
static unsigned upkeep(struct slice *index, uint16_t id, struct slice *name)
{
    keep(index);
    unsigned given = name ? rushgirdle_add(part(index), index->bytes / 4, id, part(name), name->bytes)
                          : rushgirdle_withdraw(part(index), index->bytes / 4, id);
    if (!given) { /* the words were to be written */
        free(index->copy);
        index->copy = NULL;
    }
    check_slice(index);
    free(index->copy);
    index->copy = NULL;
    if (name) {
        check_slice(name);
        drop(name);
    }
    return given;
}

static void add(void)
{
    uint16_t id = (uint16_t)number("id", UINT16_MAX);
    struct slice name = bytes("name"), index = lent_words();
    end();
    printf("%u", upkeep(&index, id, &name));
    print_words(&index);
    drop(&index);
}

static void withdraw(void)
{
    uint16_t id = (uint16_t)number("id", UINT16_MAX);
    struct slice index = lent_words();
    end();
    printf("%u", upkeep(&index, id, NULL));
    print_words(&index);
    drop(&index);
}

/* A run from what a build of no register leaves: +ID:NAME is an add, -ID a withdrawal. */
static void calls(void)
{
    size_t room = (size_t)number("length", SIZE_MAX / 8);
    struct slice index = slice_of(room * sizeof(uint32_t), LENT);
    const char *between = "";
    rushgirdle_build(NULL, 0, part(&index), room);
    check_slice(&index);
    for (; more(); between = " ") {
        char *call = word("call"), *colon = strchr(call, ':');
        unsigned given;
        if (*call == '+' && colon) {
            *colon = 0;
            uint16_t id = (uint16_t)number_in(call + 1, "id", UINT16_MAX);
            struct slice name = bytes_in(colon + 1, "name");
            given = upkeep(&index, id, &name);
        } else if (*call == '-') {
            given = upkeep(&index, (uint16_t)number_in(call + 1, "id", UINT16_MAX), NULL);
        } else {
            refuse("neither an add nor a withdrawal");
        }
        printf("%s%u", between, given);
    }
    for (size_t i = 0; i < room; i++, between = " ")
        printf("%s%u", between, ((uint32_t *)part(&index))[i]);
    putchar('\n');
    drop(&index);
}

/* A column of answers, each place filled. */
static struct slice column(size_t room)
{
    struct slice s = slice_of(room * sizeof(uint32_t), 0);
    for (size_t i = 0; i < room; i++)
        ((uint32_t *)part(&s))[i] = LENT_FIELD;
    return s;
}

/* The case of a search. */
static uint8_t measure;
static uint16_t p, q;
static uint32_t allowance;
static size_t room;
static struct slice query, searched;

static void search_case(void)
{
    measure = (uint8_t)number("measure", UINT8_MAX);
    p = (uint16_t)number("p", UINT16_MAX);
    q = (uint16_t)number("q", UINT16_MAX);
    allowance = (uint32_t)number("allowance", UINT32_MAX);
    room = (size_t)number("room", SIZE_MAX / 16);
    query = bytes("query");
    searched = words();
    end();
}

static void print_found(rushgirdle_search_answer a)
{
    printf("%u %u %u %u %u", (unsigned)a.number, (unsigned)a.rows, (unsigned)a.touches, (unsigned)a.p, (unsigned)a.q);
}

static void print_row(uint32_t id, uint32_t shared, uint32_t size, uint32_t least)
{
    printf(" %u:%u:%u:%u", id, shared, size, least);
}

static void search(void)
{
    search_case();
    struct slice ids = column(room), shared = column(room), sizes = column(room), least = column(room);
    rushgirdle_search_answer a =
        rushgirdle_search(part(&query), query.bytes, measure, p, q, allowance, part(&searched), searched.bytes / 4,
                          part(&ids), room, part(&shared), room, part(&sizes), room, part(&least), room);
    struct slice *lent[] = { &query, &searched, &ids, &shared, &sizes, &least };
    for (size_t i = 0; i < sizeof lent / sizeof *lent; i++)
        check_slice(lent[i]);
    print_found(a);
    for (size_t i = 0; i < room; i++)
        print_row(((uint32_t *)part(&ids))[i], ((uint32_t *)part(&shared))[i], ((uint32_t *)part(&sizes))[i],
                  ((uint32_t *)part(&least))[i]);
    putchar('\n');
    for (size_t i = 0; i < sizeof lent / sizeof *lent; i++)
        drop(lent[i]);
}

static void rows(void)
{
    search_case();
    struct slice list = slice_of(room * sizeof(rushgirdle_row), 0);
    rushgirdle_row *row = part(&list);
    for (size_t i = 0; i < room; i++)
        row[i] = (rushgirdle_row){ LENT_FIELD, LENT_FIELD, LENT_FIELD, LENT_FIELD };
    rushgirdle_search_answer a = rushgirdle_search_rows(part(&query), query.bytes, measure, p, q, allowance,
                                                        part(&searched), searched.bytes / 4, row, room);
    struct slice *lent[] = { &query, &searched, &list };
    for (size_t i = 0; i < sizeof lent / sizeof *lent; i++)
        check_slice(lent[i]);
    print_found(a);
    for (size_t i = 0; i < room; i++)
        print_row(row[i].id, row[i].shared, row[i].size, row[i].least);
    putchar('\n');
    for (size_t i = 0; i < sizeof lent / sizeof *lent; i++)
        drop(lent[i]);
}

static uint32_t at(const struct slice *s, size_t i)
{
    return ((uint32_t *)part(s))[i];
}

static void many(void)
{
    measure = (uint8_t)number("measure", UINT8_MAX);
    p = (uint16_t)number("p", UINT16_MAX);
    q = (uint16_t)number("q", UINT16_MAX);
    allowance = (uint32_t)number("allowance", UINT32_MAX);
    size_t places = (size_t)number("places", SIZE_MAX / 16), rows = (size_t)number("room", SIZE_MAX / 16);
    struct slice text = bytes("bytes"), ends = slice_of((size_t)number("count", UINT32_MAX) * sizeof(uint32_t), 0);
    for (size_t i = 0; i < ends.bytes / 4; i++)
        ((uint32_t *)part(&ends))[i] = (uint32_t)number("end", UINT32_MAX);
    keep(&ends);
    struct slice index = words();
    end();
    struct slice numbers = column(places), until = column(places), touches = column(places);
    struct slice ids = column(rows), shared = column(rows), sizes = column(rows), least = column(rows);
    rushgirdle_many_answer a = rushgirdle_search_many(
        part(&text), text.bytes, part(&ends), ends.bytes / 4, measure, p, q, allowance, part(&index), index.bytes / 4,
        part(&numbers), places, part(&until), places, part(&touches), places,
        part(&ids), rows, part(&shared), rows, part(&sizes), rows, part(&least), rows);
    struct slice *lent[] = { &text, &ends, &index, &numbers, &until, &touches, &ids, &shared, &sizes, &least };
    for (size_t i = 0; i < sizeof lent / sizeof *lent; i++)
        check_slice(lent[i]);
    printf("%u %u %u", (unsigned)a.number, (unsigned)a.queries, (unsigned)a.rows);
    for (size_t i = 0; i < places; i++)
        printf(" %u:%u:%u", at(&numbers, i), at(&until, i), at(&touches, i));
    for (size_t i = 0; i < rows; i++)
        print_row(at(&ids, i), at(&shared, i), at(&sizes, i), at(&least, i));
    putchar('\n');
    for (size_t i = 0; i < sizeof lent / sizeof *lent; i++)
        drop(lent[i]);
}

/* An outcome as its protocol shows it: two numbers that are none are shown as they are. */
static void print_outcome(uint32_t given, uint32_t value)
{
    if (given == RUSHGIRDLE_BELONGS)
        printf(" b%u", value);
    else if (given == RUSHGIRDLE_UNRESOLVED && value == 0)
        printf(" u");
    else if (given == RUSHGIRDLE_AMBIGUOUS && value == 0)
        printf(" a");
    else if (given == RUSHGIRDLE_REFUSED)
        printf(" r%u", value);
    else
        printf(" %u:%u", given, value);
}

static void import(void)
{
    uint8_t measure = (uint8_t)number("measure", UINT8_MAX);
    uint16_t p = (uint16_t)number("p", UINT16_MAX), q = (uint16_t)number("q", UINT16_MAX);
    uint32_t allowance = (uint32_t)number("allowance", UINT32_MAX);
    size_t lines = (size_t)number("lines", SIZE_MAX / 16), pairs = (size_t)number("pairs", SIZE_MAX / 16);
    struct slice log = bytes("log"), index = words();
    end();
    struct slice cases = column(lines), values = column(lines);
    struct slice ids = column(pairs), weeks = column(pairs), sums = column(pairs), counts = column(pairs);
    rushgirdle_import_answer a =
        rushgirdle_import(part(&log), log.bytes, measure, p, q, allowance, part(&index), index.bytes / 4,
                          part(&cases), lines, part(&values), lines, part(&ids), pairs, part(&weeks), pairs,
                          part(&sums), pairs, part(&counts), pairs);
    struct slice *lent[] = { &log, &index, &cases, &values, &ids, &weeks, &sums, &counts };
    for (size_t i = 0; i < sizeof lent / sizeof *lent; i++)
        check_slice(lent[i]);
    printf("%u %u %u %u", (unsigned)a.number, (unsigned)a.line, (unsigned)a.lines, (unsigned)a.pairs);
    for (size_t i = 0; i < lines; i++)
        print_outcome(((uint32_t *)part(&cases))[i], ((uint32_t *)part(&values))[i]);
    for (size_t i = 0; i < pairs; i++)
        printf(" %u:%u:%u:%u", ((uint32_t *)part(&ids))[i], ((uint32_t *)part(&weeks))[i],
               ((uint32_t *)part(&sums))[i], ((uint32_t *)part(&counts))[i]);
    putchar('\n');
    for (size_t i = 0; i < sizeof lent / sizeof *lent; i++)
        drop(lent[i]);
}

static void read_frame(unsigned kind, struct slice *buffer)
{
    struct slice line = bytes("line");
    const uint8_t *at = part(&line);
    size_t length = line.bytes;
    switch (kind) {
    case 0x4E: {
        rushgirdle_name_answer a = rushgirdle_read_name(at, length, part(buffer), buffer->bytes);
        printf("%u %u %zu", (unsigned)a.number, (unsigned)a.id, (size_t)a.len);
        break;
    }
    case 0x51: {
        rushgirdle_query_answer a = rushgirdle_read_query(at, length, part(buffer), buffer->bytes);
        printf("%u %u %u %u %u %zu", (unsigned)a.number, (unsigned)a.measure, (unsigned)a.p, (unsigned)a.q,
               (unsigned)a.allowance, (size_t)a.len);
        break;
    }
    case 0x52: {
        rushgirdle_row_answer a = rushgirdle_read_row(at, length);
        printf("%u %u %u %u %u", (unsigned)a.number, (unsigned)a.id, (unsigned)a.shared, (unsigned)a.size, (unsigned)a.least);
        break;
    }
    case 0x45: {
        rushgirdle_end_answer a = rushgirdle_read_end(at, length);
        printf("%u %u %u %u %u", (unsigned)a.number, (unsigned)a.rows, (unsigned)a.touches, (unsigned)a.p,
               (unsigned)a.q);
        break;
    }
    case 0x58: {
        rushgirdle_refusal_answer a = rushgirdle_read_refusal(at, length);
        printf("%u %u %u", (unsigned)a.number, (unsigned)a.refusal, (unsigned)a.touches);
        break;
    }
    case 0x4C: {
        rushgirdle_log_answer a = rushgirdle_read_log(at, length, part(buffer), buffer->bytes);
        printf("%u %u %u %zu", (unsigned)a.number, (unsigned)a.day, (unsigned)a.reading, (size_t)a.len);
        break;
    }
    default:
        refuse("no such kind");
    }
    check_slice(&line);
    drop(&line);
}

static void write_frame(unsigned kind, struct slice *buffer)
{
    uint8_t *out = part(buffer);
    size_t room = buffer->bytes;
    struct slice name = slice_of(0, 0);
    rushgirdle_write_answer a;
    switch (kind) {
    case 0x4E: {
        uint16_t id = (uint16_t)number("id", UINT16_MAX);
        drop(&name);
        name = bytes("name");
        a = rushgirdle_write_name(out, room, id, part(&name), name.bytes);
        break;
    }
    case 0x51: {
        uint8_t measure = (uint8_t)number("measure", UINT8_MAX);
        uint16_t p = (uint16_t)number("p", UINT16_MAX), q = (uint16_t)number("q", UINT16_MAX);
        uint32_t allowance = (uint32_t)number("allowance", UINT32_MAX);
        drop(&name);
        name = bytes("query");
        a = rushgirdle_write_query(out, room, measure, p, q, allowance, part(&name), name.bytes);
        break;
    }
    case 0x52: {
        uint16_t id = (uint16_t)number("id", UINT16_MAX);
        uint8_t shared = (uint8_t)number("shared", UINT8_MAX), size = (uint8_t)number("size", UINT8_MAX);
        uint8_t least = (uint8_t)number("least", UINT8_MAX);
        a = rushgirdle_write_row(out, room, id, shared, size, least);
        break;
    }
    case 0x45: {
        uint16_t rows = (uint16_t)number("rows", UINT16_MAX);
        uint32_t touches = (uint32_t)number("touches", UINT32_MAX);
        uint16_t p = (uint16_t)number("p", UINT16_MAX), q = (uint16_t)number("q", UINT16_MAX);
        a = rushgirdle_write_end(out, room, rows, touches, p, q);
        break;
    }
    case 0x58: {
        uint8_t refusal = (uint8_t)number("number", UINT8_MAX);
        uint32_t touches = (uint32_t)number("touches", UINT32_MAX);
        a = rushgirdle_write_refusal(out, room, refusal, touches);
        break;
    }
    case 0x4C: {
        uint16_t day = (uint16_t)number("day", UINT16_MAX), reading = (uint16_t)number("reading", UINT16_MAX);
        drop(&name);
        name = bytes("name");
        a = rushgirdle_write_log(out, room, day, reading, part(&name), name.bytes);
        break;
    }
    default:
        refuse("no such kind");
    }
    check_slice(&name);
    drop(&name);
    printf("%u %zu", (unsigned)a.number, (size_t)a.len);
}

static void frames(void)
{
    const char *way = word("read or write");
    struct slice kind = bytes("kind"), buffer = slice_of((size_t)number("room", SIZE_MAX / 8), LENT);
    if (kind.bytes != 1)
        refuse("no such kind");
    if (!strcmp(way, "read"))
        read_frame(kind.block[GUARD], &buffer);
    else if (!strcmp(way, "write"))
        write_frame(kind.block[GUARD], &buffer);
    else
        refuse("neither read nor write");
    end();
    check_slice(&buffer);
    print_bytes(&buffer);
    drop(&kind);
    drop(&buffer);
}

/* ---- standard input, line by line */

static char *read_all(void)
{
    size_t length = 0, room = 1 << 16;
    char *text = room_for(room);
    for (size_t got; (got = fread(text + length, 1, room - 1 - length, stdin)) > 0;) {
        length += got;
        if (length == room - 1 && !(text = realloc(text, room *= 2)))
            exit(4);
    }
    text[length] = 0;
    return text;
}

int main(int count, char **given)
{
    static const struct { const char *name; void (*answer)(void); } kinds[] = {
        { "good", good }, { "list", list }, { "build", build }, { "search", search }, { "rows", rows }, { "many", many },
        { "import", import }, { "frames", frames }, { "add", add }, { "withdraw", withdraw }, { "calls", calls },
    };
    for (size_t k = 0; count == 2 && k < sizeof kinds / sizeof *kinds; k++) {
        if (strcmp(given[1], kinds[k].name))
            continue;
        char *text = read_all();
        for (char *line = text, *next; *line; line = next) {
            next = strchr(line, '\n');
            if (next)
                *next++ = 0;
            else
                next = line + strlen(line);
            line_number++;
            rest = line;
            kinds[k].answer();
        }
        free(text);
        return fflush(stdout) ? 4 : 0;
    }
    fputs("usage: driver good|list|build|search|rows|many|import|frames|add|withdraw|calls\n", stderr);
    return 2;
}
