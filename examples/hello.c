/* Book T of document 01: 0 -> 1 1 (4,600), 1 -> nothing (0), 1 -> A (25). */
#include <stdio.h>
#include <string.h>
#include "filbozseg.h"

static const uint8_t book[] = {0x10, 0x00, 0x20, 0x00, 0xF8, 0x11, 0x30, 0x01, 0x30, 0x01, 0x20,
                               0x01, 0x00, 0x00, 0x20, 0x01, 0x19, 0x00, 0x40, 0x41, 0x50};
static const uint8_t plate[] = {'A'}, long_plate[FILBOZSEG_BYTES + 1];
enum { YEAR = 2008 }; /* any, since the book holds in all years */
static uint16_t grammar[FILBOZSEG_ROW];
static uint32_t chart[FILBOZSEG_CELLS];
static uint16_t reading[FILBOZSEG_OUTPUT], offered[FILBOZSEG_OUTPUT];

static void print(size_t nodes)
{
    size_t at;
    for (at = 0; at < nodes; at++)
        printf(" %u.%u", reading[2 * at], reading[2 * at + 1]);
    printf("\n");
}

/* Loads the first bytes of the book, and prints the result. */
static void load(size_t bytes)
{
    size_t offset = 0; /* written only if the book is refused */
    switch (FILBOZSEG_REFUSED(filbozseg_load(book, bytes, grammar, &offset))) {
    case 0:
        printf("%zu bytes: loaded\n", bytes);
        break;
    case FILBOZSEG_REFUSAL_UNEXPECTED_END:
        printf("%zu bytes: refusal %d at offset %zu, the book ends too early\n", bytes, FILBOZSEG_REFUSAL_UNEXPECTED_END, offset);
        break;
    default:
        printf("%zu bytes: another refusal at offset %zu\n", bytes, offset);
    }
}

int main(void)
{
    uint16_t hand[FILBOZSEG_HAND];
    size_t nodes = 0;     /* written only with a reading */
    size_t count = 0;     /* written only with a count */
    int32_t tenths = 0;   /* written only with a length */
    uint32_t code;
    printf("version %d.%d.%d\n", FILBOZSEG_VERSION_MAJOR, FILBOZSEG_VERSION_MINOR, FILBOZSEG_VERSION_PATCH);
    load(9);
    load(sizeof book);
    printf("nothing complete: %u\n", filbozseg_open(grammar, YEAR, hand, chart, FILBOZSEG_CELLS));
    printf("A complete: %u\n", filbozseg_take(grammar, hand, 'A', chart, FILBOZSEG_CELLS));
    printf("in hand: %u mark, %c, year %u\n", hand[FILBOZSEG_BYTES], hand[0], hand[FILBOZSEG_BYTES + 1]);
    printf("first: %u,", filbozseg_first(grammar, plate, 1, YEAR, chart, FILBOZSEG_CELLS, reading, FILBOZSEG_OUTPUT, &nodes));
    print(nodes);
    printf("reading: %u\n", filbozseg_check(grammar, plate, 1, YEAR, reading, 2 * nodes, chart, FILBOZSEG_CELLS));
    printf("measured: %u\n", filbozseg_length(grammar, plate, 1, YEAR, reading, 2 * nodes, chart, FILBOZSEG_CELLS, &tenths));
    printf("tenths: %d\n", (int)tenths);
    memcpy(offered, reading, 2 * nodes * sizeof offered[0]); /* an offered reading must not overlap the output */
    printf("next: %u,", filbozseg_next(grammar, plate, 1, YEAR, offered, 2 * nodes, chart, FILBOZSEG_CELLS,
                                       reading, FILBOZSEG_OUTPUT, &nodes));
    print(nodes);
    printf("counted: %u,", filbozseg_count(grammar, plate, 1, YEAR, chart, FILBOZSEG_CELLS, &count));
    printf(" %zu\n", count);
    /* the length is 0, the pointer is not NULL */
    printf("a plate without marks: %u,", filbozseg_first(grammar, plate, 0, YEAR, chart, FILBOZSEG_CELLS,
                                                         reading, FILBOZSEG_OUTPUT, &nodes));
    print(nodes);
    code = filbozseg_count(grammar, long_plate, sizeof long_plate, YEAR, chart, FILBOZSEG_CELLS, &count);
    printf("a plate of %zu marks: refusal %u\n", sizeof long_plate, FILBOZSEG_REFUSED(code));
    return FILBOZSEG_REFUSED(code) == FILBOZSEG_REFUSAL_INPUT_LENGTH ? 0 : 1;
}
