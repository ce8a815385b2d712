/* calls [--exact]: carries out a script of calls (docs/CALLS.md) from standard input through the C boundary, and prints a line for each.

   Every slice is lent in a freshly placed block, between two guards. The guards are looked at after each call; where one has changed, that
   is said and the exit status is 1. With --exact the block ends where the slice ends, so that a memory checker such as valgrind sees the
   first byte that is read or written past it. */
#include "reedgosling.h"

#include <stdio.h>
#include <stdlib.h>
#include <string.h>

/* ---- what a script works on */

enum { TARGETS, COSTS, MASKS, LIMITS, KEPT, ROSTER, WORK, SESSION, INPUT, OUTPUT, DRAWN, PLAN, SLICES };

struct slice {
    const char *name;
    size_t width; /* bytes of an entry */
    size_t room;  /* entries */
    size_t length;
    unsigned char *entries;
    unsigned char *block; /* during a call: a guard, what is lent, a guard */
    void *lent;
    uint64_t before; /* the checksum before the call */
};

static struct slice slices[SLICES] = {
    [TARGETS] = {.name = "targets", .width = 1, .room = 1100},
    [COSTS] = {.name = "costs", .width = 2, .room = 1100},
    [MASKS] = {.name = "masks", .width = 2, .room = 400},
    [LIMITS] = {.name = "limits", .width = 4, .room = 400},
    [KEPT] = {.name = "kept", .width = 2, .room = 400},
    [ROSTER] = {.name = "roster", .width = 1, .room = 400},
    [WORK] = {.name = "work", .width = 4, .room = 24000},
    [SESSION] = {.name = "session", .width = 4, .room = 3000},
    [INPUT] = {.name = "input", .width = 1, .room = 33000},
    [OUTPUT] = {.name = "output", .width = 1, .room = 20000},
    [DRAWN] = {.name = "drawn", .width = 1, .room = 400},
    [PLAN] = {.name = "plan", .width = 4, .room = 190000},
};

enum { PLACES, STATES, VALUES, START, ACCEPTING, SIZES };

static uint64_t sizes[SIZES];

static void stop(const char *why)
{
    printf("calls: %s\n", why);
    exit(1);
}

static void make_room(void)
{
    for (struct slice *s = slices; s < slices + SLICES; s++) {
        s->entries = calloc(s->room, s->width);
        if (!s->entries) stop("no memory");
    }
}

static uint64_t entry(const struct slice *s, size_t place)
{
    uint16_t half;
    uint32_t whole;
    switch (s->width) {
    case 1:
        return s->entries[place];
    case 2:
        memcpy(&half, s->entries + 2 * place, sizeof half);
        return half;
    default:
        memcpy(&whole, s->entries + 4 * place, sizeof whole);
        return whole;
    }
}

/* The upper bits of a number that is too wide are lost, and what falls outside the room is dropped. */
static void set_entry(struct slice *s, uint64_t place, uint64_t number)
{
    uint16_t half = (uint16_t)number;
    uint32_t whole = (uint32_t)number;
    if (place >= s->room) return;
    switch (s->width) {
    case 1:
        s->entries[place] = (unsigned char)number;
        break;
    case 2:
        memcpy(s->entries + 2 * place, &half, sizeof half);
        break;
    default:
        memcpy(s->entries + 4 * place, &whole, sizeof whole);
    }
}

static uint64_t checksum(const struct slice *s)
{
    uint64_t sum = 0;
    for (size_t i = 0; i < s->length; i++) sum = (sum * 65599 + entry(s, i)) % 140737488355213u;
    return sum;
}

static int all_zeros(const struct slice *s)
{
    for (size_t i = 0; i < s->length; i++)
        if (entry(s, i)) return 0;
    return 1;
}

/* ---- lending a slice to a call */

enum { GUARD_BYTE = 0xa5, GUARD_LENGTH = 64 };

static size_t guard_behind = GUARD_LENGTH; /* the length of the guard behind a slice; 0 with --exact */

static void lend(struct slice *s)
{
    size_t bytes = s->length * s->width, all = GUARD_LENGTH + bytes + guard_behind;
    s->before = checksum(s);
    s->block = malloc(all);
    if (!s->block) stop("no memory");
    memset(s->block, GUARD_BYTE, all);
    s->lent = s->block + GUARD_LENGTH;
    memcpy(s->lent, s->entries, bytes);
}

static int guard_stands(const unsigned char *guard, size_t length)
{
    for (size_t i = 0; i < length; i++)
        if (guard[i] != GUARD_BYTE) return 0;
    return 1;
}

static void take_back(struct slice *s, const char *call)
{
    size_t bytes = s->length * s->width;
    if (!guard_stands(s->block, GUARD_LENGTH) || !guard_stands(s->block + GUARD_LENGTH + bytes, guard_behind)) {
        printf("calls: %s wrote outside the slice %s\n", call, s->name);
        exit(1);
    }
    memcpy(s->entries, s->lent, bytes);
    free(s->block);
}

/* ---- the script, and the line at hand: its numbers, and its slice where it names one */

enum { MOST_SCRIPT = 2097152 };

struct text {
    const unsigned char *at;
    size_t length;
};

static unsigned char script_bytes[MOST_SCRIPT + 1];
static struct text script; /* what is still to be carried out */
static struct slice *slice;
static size_t count;
static uint64_t numbers[MOST_SCRIPT / 2];

/* ---- the calls: each returns what it answers and carries */

struct told {
    size_t count;
    uint64_t numbers[6];
};

#define LENT(which) slices[which].lent, slices[which].length
#define RULES (size_t)sizes[STATES], (size_t)sizes[VALUES], (uint8_t)sizes[START], LENT(TARGETS), LENT(COSTS), sizes[ACCEPTING]
#define HANDED (size_t)sizes[PLACES], RULES

static struct told answered(uint32_t answer)
{
    return (struct told){1, {answer}};
}

/* A carried number has all its bits set before the call, so that one that is not written is seen. */
static struct told call_filter(void)
{
    uint32_t least = UINT32_MAX;
    uint32_t answer = reedgosling_filter(HANDED, LENT(MASKS), LENT(LIMITS), LENT(KEPT), LENT(WORK), &least);
    return (struct told){2, {answer, least}};
}

static struct told call_first(void)
{
    size_t place = (size_t)numbers[0];
    uint8_t value = (uint8_t)numbers[1];
    return answered(reedgosling_first_roster(HANDED, LENT(MASKS), LENT(LIMITS), place, value, LENT(ROSTER), LENT(WORK)));
}

static struct told call_report(void)
{
    size_t report = SIZE_MAX;
    uint32_t answer = reedgosling_prefix_report(HANDED, LENT(ROSTER), &report);
    return (struct told){2, {answer, report}};
}

static struct told call_mend(void)
{
    uint32_t changes = UINT32_MAX, most = (uint32_t)numbers[0];
    uint32_t answer =
        reedgosling_mend(HANDED, LENT(MASKS), LENT(LIMITS), LENT(DRAWN), most, LENT(ROSTER), LENT(PLAN), &changes);
    return (struct told){2, {answer, changes}};
}

static struct told call_check(void)
{
    uint8_t says = UINT8_MAX;
    uint32_t claimed = (uint32_t)numbers[0];
    uint32_t answer = reedgosling_check(HANDED, LENT(MASKS), LENT(LIMITS), LENT(DRAWN), LENT(ROSTER), claimed, &says);
    return (struct told){2, {answer, says}};
}

static struct told call_read(void)
{
    size_t line = SIZE_MAX, states = SIZE_MAX, values = SIZE_MAX;
    uint8_t start = UINT8_MAX;
    uint64_t accepting = UINT64_MAX;
    uint32_t answer = reedgosling_read_sheet(LENT(INPUT), LENT(TARGETS), LENT(COSTS), &line, &states, &values, &start, &accepting);
    return (struct told){6, {answer, line, states, values, start, accepting}};
}

static struct told call_pattern(void)
{
    size_t states = SIZE_MAX, values = SIZE_MAX;
    uint8_t start = UINT8_MAX;
    uint64_t accepting = UINT64_MAX;
    uint32_t answer = reedgosling_read_pattern(
        LENT(INPUT), (size_t)sizes[VALUES], LENT(TARGETS), LENT(COSTS), &states, &values, &start, &accepting);
    return (struct told){5, {answer, states, values, start, accepting}};
}

static struct told call_write(void)
{
    size_t length = SIZE_MAX;
    uint32_t answer = reedgosling_write_sheet(RULES, LENT(OUTPUT), &length);
    return (struct told){2, {answer, length}};
}

static struct told call_open(void)
{
    return answered(reedgosling_open(HANDED, LENT(MASKS), LENT(LIMITS), LENT(SESSION), LENT(WORK)));
}

static struct told call_keep(void)
{
    return answered(reedgosling_keep(HANDED, LENT(SESSION), LENT(WORK), (size_t)numbers[0], (uint16_t)numbers[1]));
}

static struct told call_limit(void)
{
    return answered(reedgosling_limit(HANDED, LENT(SESSION), LENT(WORK), (size_t)numbers[0], (uint32_t)numbers[1]));
}

static struct told call_mark(void)
{
    return answered(reedgosling_mark(HANDED, LENT(SESSION), LENT(WORK)));
}

static struct told call_back(void)
{
    return answered(reedgosling_back(HANDED, LENT(SESSION), LENT(WORK)));
}

static struct told call_job(void)
{
    return (struct told){1, {reedgosling_job(LENT(INPUT), LENT(OUTPUT))}};
}

static struct told call_mendjob(void)
{
    return (struct told){1, {reedgosling_mend_job(LENT(INPUT), LENT(OUTPUT))}};
}

static struct told call_patternjob(void)
{
    return (struct told){1, {reedgosling_pattern_job(LENT(INPUT), LENT(OUTPUT))}};
}

/* A call: its name, how many numbers its line has, the slices that it is lent, one bit each, and how it is made. */
struct call {
    const char *name;
    size_t count;
    unsigned lent;
    struct told (*make)(void);
};

enum {
    TABLES = 1u << TARGETS | 1u << COSTS,
    CHOICES = 1u << MASKS | 1u << LIMITS,
    MEMORY = 1u << SESSION | 1u << WORK
};

static const struct call calls[] = {
    {"filter", 0, TABLES | CHOICES | 1u << KEPT | 1u << WORK, call_filter},
    {"first", 2, TABLES | CHOICES | 1u << ROSTER | 1u << WORK, call_first},
    {"report", 0, TABLES | 1u << ROSTER, call_report},
    {"mend", 1, TABLES | CHOICES | 1u << ROSTER | 1u << DRAWN | 1u << PLAN, call_mend},
    {"check", 1, TABLES | CHOICES | 1u << ROSTER | 1u << DRAWN, call_check},
    {"read", 0, TABLES | 1u << INPUT, call_read},
    {"pattern", 0, TABLES | 1u << INPUT, call_pattern},
    {"write", 0, TABLES | 1u << OUTPUT, call_write},
    {"open", 0, TABLES | CHOICES | MEMORY, call_open},
    {"keep", 2, TABLES | MEMORY, call_keep},
    {"limit", 2, TABLES | MEMORY, call_limit},
    {"mark", 0, TABLES | MEMORY, call_mark},
    {"back", 0, TABLES | MEMORY, call_back},
    {"job", 0, 1u << INPUT | 1u << OUTPUT, call_job},
    {"mendjob", 0, 1u << INPUT | 1u << OUTPUT, call_mendjob},
    {"patternjob", 0, 1u << INPUT | 1u << OUTPUT, call_patternjob},
};

static void print_number(uint64_t number)
{
    printf("\t%llu", (unsigned long long)number);
}

static void print_entries(const struct slice *s, uint64_t from, uint64_t most)
{
    for (uint64_t i = from; i < s->length && i - from < most; i++) print_number(entry(s, (size_t)i));
}

static void print_changed(const struct slice *s)
{
    uint64_t sum = checksum(s);
    if (sum == s->before) return;
    printf("\t%s", s->name);
    if (s->length <= 16) {
        print_entries(s, 0, s->length);
    } else if (all_zeros(s)) {
        printf("\tzeros");
    } else {
        printf("\tsum");
        print_number(sum);
    }
}

static void make_call(const struct call *call)
{
    for (size_t i = 0; i < SLICES; i++)
        if (call->lent >> i & 1) lend(&slices[i]);
    struct told told = call->make();
    for (size_t i = 0; i < SLICES; i++)
        if (call->lent >> i & 1) take_back(&slices[i], call->name);
    printf("%s", call->name);
    for (size_t i = 0; i < told.count; i++) print_number(told.numbers[i]);
    for (size_t i = 0; i < SLICES; i++)
        if (call->lent >> i & 1) print_changed(&slices[i]);
    printf("\n");
}

/* ---- the other lines */

static size_t smaller(uint64_t a, size_t b)
{
    return a < b ? (size_t)a : b;
}

static void do_size(void)
{
    memcpy(sizes, numbers, sizeof sizes);
}

static void do_length(void)
{
    slice->length = smaller(numbers[0], slice->room);
}

static void do_put(void)
{
    size_t from = smaller(numbers[0], slice->room);
    for (size_t i = 1; i < count; i++) set_entry(slice, from + i - 1, numbers[i]);
}

static void do_fill(void)
{
    size_t from = smaller(numbers[0], slice->room), most = smaller(numbers[1], slice->room);
    for (size_t i = 0; i < most; i++) set_entry(slice, from + i, numbers[2]);
}

static void do_show(void)
{
    printf("show");
    print_entries(slice, numbers[0], numbers[1]);
    printf("\n");
}

static void do_bytes(void)
{
    struct slice *input = &slices[INPUT];
    size_t taken = smaller(numbers[0], script.length);
    input->length = smaller(taken, input->room);
    memcpy(input->entries, script.at, input->length);
    script.at += taken;
    script.length -= taken;
}

/* Another line: its name, whether it names a slice, how many numbers it has, and what it does. */
struct order {
    const char *name;
    int names_slice;
    size_t least, most;
    void (*carry_out)(void);
};

static const struct order orders[] = {
    {"size", 0, SIZES, SIZES, do_size},
    {"length", 1, 1, 1, do_length},
    {"put", 1, 1, SIZE_MAX, do_put},
    {"fill", 1, 3, 3, do_fill},
    {"show", 1, 2, 2, do_show},
    {"bytes", 0, 1, 1, do_bytes},
};

/* ---- reading lines */

static int is(struct text text, const char *word)
{
    return text.length == strlen(word) && !memcmp(text.at, word, text.length);
}

/* Cuts off the text up to a byte, and drops the byte. Where it is not there, all is cut off and the rest is nowhere. */
static struct text cut(struct text *rest, int byte)
{
    const unsigned char *end = memchr(rest->at, byte, rest->length);
    struct text first = *rest;
    if (!end) {
        *rest = (struct text){NULL, 0};
        return first;
    }
    first.length = (size_t)(end - first.at);
    *rest = (struct text){end + 1, rest->length - first.length - 1};
    return first;
}

static int take_number(struct text field)
{
    uint64_t number = 0;
    if (!field.length) return 0;
    for (size_t i = 0; i < field.length; i++) {
        unsigned digit = field.at[i] - (unsigned)'0';
        if (digit > 9 || number > (UINT64_MAX - digit) / 10) return 0;
        number = number * 10 + digit;
    }
    numbers[count++] = number;
    return 1;
}

static int take_slice(struct text name)
{
    for (slice = slices; slice < slices + SLICES; slice++)
        if (is(name, slice->name)) return 1;
    return 0;
}

/* Takes the fields behind a line's name: a slice's name where there is to be one, then numbers, as many as there may be. */
static int take_fields(struct text rest, int names_slice, size_t least, size_t most)
{
    count = 0;
    if (names_slice && (!rest.at || !take_slice(cut(&rest, '\t')))) return 0;
    while (rest.at)
        if (!take_number(cut(&rest, '\t'))) return 0;
    return least <= count && count <= most;
}

/* Carries out a line, or says that it is none of those that there are. */
static int carry_out(struct text line)
{
    if (line.length && line.at[0] == '#') return 1;
    struct text name = cut(&line, '\t');
    for (const struct order *o = orders; o < orders + sizeof orders / sizeof *orders; o++) {
        if (!is(name, o->name)) continue;
        if (!take_fields(line, o->names_slice, o->least, o->most)) return 0;
        o->carry_out();
        return 1;
    }
    for (const struct call *c = calls; c < calls + sizeof calls / sizeof *calls; c++) {
        if (!is(name, c->name)) continue;
        if (!take_fields(line, 0, c->count, c->count)) return 0;
        make_call(c);
        return 1;
    }
    return 0;
}

int main(int argc, char **argv)
{
    if (argc > 2 || (argc == 2 && strcmp(argv[1], "--exact"))) {
        fprintf(stderr, "usage: calls [--exact] < SCRIPT\n");
        return 2;
    }
    if (argc == 2) guard_behind = 0;
    script = (struct text){script_bytes, fread(script_bytes, 1, sizeof script_bytes, stdin)};
    if (script.length > MOST_SCRIPT) {
        printf("long\n");
        return 0;
    }
    make_room();
    while (script.length) {
        struct text line = cut(&script, '\n');
        int ended = script.at != NULL;
        if (!ended || !carry_out(line)) printf("unknown\n");
    }
    return 0;
}
