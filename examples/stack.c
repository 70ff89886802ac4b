/*
 * Measures how much stack each call needs at its deepest: with a full book, 64 bytes, and a derivation of 512 nodes nested 512 deep. Each
 * call runs on a stack of its own that is painted first: the paint that is gone shows what the call used. Then the call runs again on a
 * stack of exactly as many bytes as the header's macro says, with a protected page below it. Exits 1 if a call answers wrongly or needs
 * more than its macro says; a call that touches the protected page is killed. For x86-64 Linux; `examples/run stack` builds and runs it.
 */
#define _GNU_SOURCE
#include <stdio.h>
#include <stdlib.h>
#include <string.h>
#include <sys/mman.h>
#include <ucontext.h>
#include "filbozseg.h"

enum { KIB = 1024, PAGE = 4096, LARGE = 4096 * KIB, KNOWN = 100 * KIB, PAINT = 0xA5 };
enum { YEAR = 2008 }; /* any, since all rules of the books here are in force in it */

static uint8_t book[FILBOZSEG_BOOK], plate[FILBOZSEG_BYTES], text[FILBOZSEG_TEXT];
static uint16_t full[FILBOZSEG_ROW], deep[FILBOZSEG_ROW], wide[FILBOZSEG_ROW], left[FILBOZSEG_ROW], hand[FILBOZSEG_HAND];
static uint16_t nested[FILBOZSEG_OUTPUT], output[FILBOZSEG_OUTPUT];
static uint16_t twin[FILBOZSEG_ROW], fewer[FILBOZSEG_ROW], longer[FILBOZSEG_ROW];
static uint8_t last[64];
static uint32_t chart[FILBOZSEG_CELLS], code;
static size_t offset, size, nodes, length, bytes, last_size;
static int32_t tenths;
static ucontext_t home, away;

static void known(void)
{
    volatile uint8_t room[KNOWN];
    size_t at;
    for (at = 0; at < KNOWN; at++)
        room[at] = 0;
    code = room[0] + 1;
}
static void load(void) { code = filbozseg_load(book, size, left, &offset); }
/* The name of the last rule of a full book. */
static void name_last(void)
{
    length = 0;
    code = filbozseg_name(book, size, 127, &offset, &length);
    if (code == 1 && (length != 8 || memcmp(book + offset, "RULE0127", 8) != 0))
        code = ~0u;
}
static void open_full(void) { code = filbozseg_open(full, YEAR, hand, chart, FILBOZSEG_CELLS); }
/* A hand of this many marks, with each point at this count. */
static void hold(uint16_t count, uint16_t at_count)
{
    size_t at;
    for (at = 0; at < FILBOZSEG_BYTES; at++)
        hand[at] = 'A';
    hand[FILBOZSEG_BYTES] = count;
    hand[FILBOZSEG_BYTES + 1] = YEAR;
    for (at = 0; at < FILBOZSEG_POINTS; at++)
        hand[FILBOZSEG_BYTES + 2 + at] = at_count + 1;
}
static void take_full(void)
{
    hold(FILBOZSEG_BYTES - 1, 0);
    code = filbozseg_take(full, hand, 'A', chart, FILBOZSEG_CELLS);
}
static void set_full(void)
{
    hold(FILBOZSEG_BYTES, 0);
    code = filbozseg_set_point(full, hand, FILBOZSEG_POINTS - 1, chart, FILBOZSEG_CELLS);
    if (hand[FILBOZSEG_HAND - 1] != FILBOZSEG_BYTES + 1)
        code = ~0u;
}
/* All marks are given back, and all columns but the first are cleared. */
static void return_full(void)
{
    hold(FILBOZSEG_BYTES, 0);
    code = filbozseg_return_to(full, hand, FILBOZSEG_POINTS - 1, chart, FILBOZSEG_CELLS);
    if (hand[FILBOZSEG_BYTES] != 0 || chart[FILBOZSEG_CELLS - 1] != 0)
        code = ~0u;
}
/* The last rule of the full book, with 64 marks and 127 rules before it. */
static void learn_full(void)
{
    hold(FILBOZSEG_BYTES, 0);
    memcpy(longer, fewer, sizeof longer);
    offset = ~(size_t)0;
    code = filbozseg_learn(longer, hand, last, last_size, chart, FILBOZSEG_CELLS, &offset);
    if (offset != ~(size_t)0 || memcmp(longer, full, sizeof full) != 0)
        code = ~0u;
}
/* The same bytes without the last one. */
static void learn_cut(void)
{
    hold(FILBOZSEG_BYTES, 0);
    memcpy(longer, fewer, sizeof longer);
    code = filbozseg_learn(longer, hand, last, last_size - 1, chart, FILBOZSEG_CELLS, &offset);
    if (offset != last_size - 1 || memcmp(longer, fewer, sizeof fewer) != 0)
        code = ~0u;
}
static void check_deep(void) { code = filbozseg_check(deep, plate, 64, YEAR, nested, 1024, chart, FILBOZSEG_CELLS); }
static void check_full(void) { code = filbozseg_check(full, plate, 64, YEAR, nested, 1024, chart, FILBOZSEG_CELLS); }
static void length_deep(void) { code = filbozseg_length(deep, plate, 64, YEAR, nested, 1024, chart, FILBOZSEG_CELLS, &tenths); }
/* 512 nodes of 10 bytes each, 4 commas at each turn but the last, which has 3, and 64 bytes of 3. */
static void words_deep(void)
{
    bytes = 0;
    code = filbozseg_words(deep, plate, 64, YEAR, nested, 1024, chart, FILBOZSEG_CELLS, text, FILBOZSEG_TEXT, &bytes);
    /* the last mark, and then 512 brackets */
    if (code == 1 && (bytes != 5375 || memcmp(text, "RULE0000(RULE0001(", 18) != 0 || memcmp(text + bytes - 515, "=41))", 5) != 0))
        code = ~0u;
}
static void build_deep(void)
{
    code = filbozseg_same_build(deep, plate, 64, YEAR, nested, 1024, nested, 1024, chart, FILBOZSEG_CELLS);
}
static void first_in(const uint16_t *grammar)
{
    nodes = 0;
    code = filbozseg_first(grammar, plate, 64, YEAR, chart, FILBOZSEG_CELLS, output, FILBOZSEG_OUTPUT, &nodes);
}
/* The derivation of `nested`: 512 nodes nested 512 deep. */
static void first_deep(void)
{
    first_in(deep);
    if (code == 1 && (nodes != 512 || memcmp(output, nested, sizeof nested) != 0))
        code = ~0u;
}
static void first_wide(void) { first_in(wide); }
/* The last derivation, 512 nodes nested 512 deep: the call looks for an alternative at each node. */
static void next_deep(void)
{
    code = filbozseg_next(deep, plate, 64, YEAR, nested, 1024, chart, FILBOZSEG_CELLS, output, FILBOZSEG_OUTPUT, &nodes);
}
/* With a twin of rule 0: after the last derivation with rule 0 at the root comes the first with its twin, again 512 deep. */
static void next_turn(void)
{
    static uint16_t turn[FILBOZSEG_OUTPUT];
    size_t at;
    memcpy(turn, nested, sizeof turn);
    for (at = 32; at < 512; at += 32)
        turn[2 * at + 1] = 33;
    nodes = 0;
    code = filbozseg_next(twin, plate, 64, YEAR, turn, 1024, chart, FILBOZSEG_CELLS, output, FILBOZSEG_OUTPUT, &nodes);
    if (code == 1 && (nodes != 512 || output[1] != 33 || memcmp(output + 2, nested + 2, sizeof nested - 4) != 0))
        code = ~0u;
}
/* Offers the first derivation of a full grammar. */
static void next_wide(void)
{
    static uint16_t offered[FILBOZSEG_OUTPUT];
    first_in(wide);
    memcpy(offered, output, sizeof offered);
    code = filbozseg_next(wide, plate, 64, YEAR, offered, 2 * nodes, chart, FILBOZSEG_CELLS, output, FILBOZSEG_OUTPUT, &nodes);
}
static void count_deep(void)
{
    nodes = 0;
    code = filbozseg_count(deep, plate, 64, YEAR, chart, FILBOZSEG_CELLS, &nodes);
    if (code == 1 && nodes != 1)
        code = ~0u;
}
static void count_wide(void) { code = filbozseg_count(wide, plate, 64, YEAR, chart, FILBOZSEG_CELLS, &nodes); }

/* The expected answers, and the bytes allowed. The first is no call of the library: it shows that the measurement works. */
static const struct {
    const char *name;
    void (*call)(void);
    uint32_t answer;
    size_t limit;
} calls[] = {
    {"known", known, 1, KNOWN + KIB},
    {"load", load, 1, FILBOZSEG_LOAD_STACK},
    {"name", name_last, 1, FILBOZSEG_NAME_STACK},
    {"open", open_full, 0, FILBOZSEG_OPEN_STACK},
    {"take", take_full, 0, FILBOZSEG_TAKE_STACK},
    {"set point", set_full, 0, FILBOZSEG_SET_POINT_STACK},
    {"return to", return_full, 0, FILBOZSEG_RETURN_TO_STACK},
    {"learn", learn_full, 0, FILBOZSEG_LEARN_STACK},
    {"learn cut", learn_cut, 256 + FILBOZSEG_REFUSAL_UNEXPECTED_END, FILBOZSEG_LEARN_STACK},
    {"check deep", check_deep, 1, FILBOZSEG_CHECK_STACK},
    {"check full", check_full, 0, FILBOZSEG_CHECK_STACK},
    {"length", length_deep, 1, FILBOZSEG_LENGTH_STACK},
    {"words", words_deep, 1, FILBOZSEG_WORDS_STACK},
    {"same build", build_deep, 1, FILBOZSEG_SAME_BUILD_STACK},
    {"first deep", first_deep, 1, FILBOZSEG_FIRST_STACK},
    {"first full", first_wide, 1, FILBOZSEG_FIRST_STACK},
    {"next deep", next_deep, 0, FILBOZSEG_NEXT_STACK},
    {"next turn", next_turn, 1, FILBOZSEG_NEXT_STACK},
    {"next full", next_wide, 1, FILBOZSEG_NEXT_STACK},
    {"count deep", count_deep, 1, FILBOZSEG_COUNT_STACK},
    {"count full", count_wide, 1, FILBOZSEG_COUNT_STACK},
};
enum { CALLS = sizeof calls / sizeof calls[0] };

/* Runs the call on a stack of this many bytes, with a protected page below it. Returns how many bytes it used. */
static size_t used(void (*call)(void), size_t room)
{
    uint8_t *low = mmap(NULL, room + PAGE, PROT_READ | PROT_WRITE, MAP_PRIVATE | MAP_ANONYMOUS, -1, 0);
    size_t at = 0;
    if (low == MAP_FAILED || mprotect(low, PAGE, PROT_NONE) != 0)
        exit(2);
    memset(low + PAGE, PAINT, room);
    code = ~0u;
    getcontext(&away);
    away.uc_stack.ss_sp = low + PAGE;
    away.uc_stack.ss_size = room;
    away.uc_link = &home;
    makecontext(&away, call, 0);
    swapcontext(&home, &away);
    while (at < room && low[PAGE + at] == PAINT)
        at++;
    munmap(low, room + PAGE);
    return room - at;
}

/* Whether the call gives the expected answer within its bytes, on a large stack and on one of exactly these bytes. */
static int within(int n)
{
    size_t need = used(calls[n].call, LARGE), limit = calls[n].limit;
    int right = code == calls[n].answer;
    printf("%-10s %7zu bytes of %7zu (%4zu KiB), code %u\n", calls[n].name, need, limit, (need + KIB - 1) / KIB, code);
    fflush(stdout);
    if (!right || need > limit) {
        printf("%s: %s\n", calls[n].name, right ? "MORE THAN THE HEADER SAYS" : "A WRONG ANSWER");
        return 0;
    }
    used(calls[n].call, limit);
    return code == calls[n].answer && (calls[n].call != known || need >= KNOWN);
}

static void put(const uint8_t *command, size_t n)
{
    memcpy(book + size, command, n);
    size += n;
}

/* Names the open rule k. */
static void put_name(size_t k)
{
    put((uint8_t[]){0x60, 'R', 'U', 'L', 'E', '0', '0' + k / 100, '0' + k / 10 % 10, '0' + k % 10}, 9);
}

/* k -> k+1 for k = 0..30, 31 -> A A A A 0, 31 -> A A A A: no derivation has more nodes and bytes before its last place. All are named. */
static int load_deep(void)
{
    size_t k;
    size = 0;
    put((uint8_t[]){0x10, 0}, 2);
    for (k = 0; k < 31; k++) {
        put((uint8_t[]){0x20, k, 1, 0, 0x30, k + 1}, 6);
        put_name(k);
    }
    for (k = 0; k < 2; k++) {
        put((uint8_t[]){0x20, 31, 1, 0, 0x40, 'A', 0x40, 'A', 0x40, 'A', 0x40, 'A'}, 12);
        put_name(31 + k);
        put(k == 0 ? (uint8_t[]){0x30, 0} : (uint8_t[]){0x50, 0}, k == 0 ? 2 : 1);
    }
    for (k = 0; k < 512; k++) {
        nested[2 * k] = 64 - 4 * (k / 32);
        nested[2 * k + 1] = k == 511 ? 32 : k % 32;
    }
    return filbozseg_load(book, size, deep, &offset) == 1;
}

/* Adds another rule 0 -> 1 at the end of the deep book, which is in `book`. */
static int load_twin(void)
{
    size--;
    put((uint8_t[]){0x20, 0, 1, 0, 0x30, 1, 0x50}, 7);
    return filbozseg_load(book, size, twin, &offset) == 1;
}

/* 128 rules of 8 places with their years and names, and a range in every second place. Also the bytes of the last rule, and the book
   without it. */
static int load_full(void)
{
    size_t k, q, front = 0;
    size = 0;
    put((uint8_t[]){0x10, 0}, 2);
    for (k = 0; k < 128; k++) {
        front = size;
        put((uint8_t[]){0x21, k % 32, 1, 0, k, 0, 0xFF, 0xFF}, 8);
        put_name(k);
        for (q = 0; q < 8; q++)
            put(q % 2 ? (uint8_t[]){0x41, 'A', 'B'} : (uint8_t[]){0x30, (k + q) % 32}, q % 2 ? 3 : 2);
    }
    last_size = size - front;
    memcpy(last, book + front, last_size);
    book[front] = 0x50;
    if (filbozseg_load(book, front + 1, fewer, &offset) != 1)
        return 0;
    book[front] = last[0];
    put((uint8_t[]){0x50}, 1);
    return filbozseg_load(book, size, full, &offset) == 1;
}

/* 128 rules of 8 places with their years and names: in a quarter of them every place holds a range, in the others every second one. 64
   bytes have derivations. */
static int load_wide(void)
{
    size_t k, q;
    size = 0;
    put((uint8_t[]){0x10, 0}, 2);
    for (k = 0; k < 128; k++) {
        put((uint8_t[]){0x21, k % 32, 1, 0, k, 0, 0xFF, 0xFF}, 8);
        put_name(k);
        for (q = 0; q < 8; q++)
            put(q % 2 || k / 32 == 3 ? (uint8_t[]){0x41, 0, 255} : (uint8_t[]){0x30, (k + 5 * q) % 32}, q % 2 || k / 32 == 3 ? 3 : 2);
    }
    put((uint8_t[]){0x50}, 1);
    return filbozseg_load(book, size, wide, &offset) == 1;
}

int main(void)
{
    int n, good = 0;
    memset(plate, 'A', sizeof plate);
    if (!load_deep() || !load_twin() || !load_full() || !load_wide()) {
        puts("a book is not loaded");
        return 1;
    }
    for (n = 0; n < CALLS; n++)
        good += within(n);
    /* 512 nodes of one hundredth each */
    if (tenths != 51)
        puts("length: A WRONG LENGTH");
    printf("%d of %d within the bytes that the header says\n", good, CALLS);
    return good == CALLS && tenths == 51 ? 0 : 1;
}
