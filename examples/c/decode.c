/* Decodes a hex dump: decode TABLE.json|ascii87|bcd87 < DUMP. Writes the lines of the message, then what the other calls
 * make of it, and ends with status 0 where they agree. */
#include "rumpadol.h"

#include <ctype.h>
#include <stdio.h>
#include <stdlib.h>
#include <string.h>

#define ROOM 1048576

/* Tells why a call answered -1. */
static int tell(const char *call, const rumpadol_fault *fault)
{
    uint8_t name[20];
    rumpadol_fault none;
    int64_t n = rumpadol_fault_name(fault->number, name, sizeof name, &none);
    fprintf(stderr, "%s: %.*s (%u) element %u at %zu\n", call, n > 0 ? (int)n : 0, (const char *)name,
            (unsigned)fault->number, (unsigned)fault->element, fault->offset);
    return 1;
}

/* Opens a slot and puts the table into it. */
static int64_t load(rumpadol_slot *slot, const char *table, uint8_t *room, rumpadol_fault *fault)
{
    rumpadol_slot_open(slot);
    if (strcmp(table, "ascii87") == 0)
        return rumpadol_slot_built_in(RUMPADOL_ASCII87, slot, fault);
    if (strcmp(table, "bcd87") == 0)
        return rumpadol_slot_built_in(RUMPADOL_BCD87, slot, fault);
    FILE *file = fopen(table, "rb");
    if (!file) {
        perror(table);
        exit(3);
    }
    size_t n = fread(room, 1, ROOM, file);
    fclose(file);
    return rumpadol_slot_from_json(room, n, slot, fault);
}

/* The bytes that pairs of hexadecimal digits on standard input stand for; spaces are passed over. */
static size_t read_dump(uint8_t *to)
{
    size_t digits = 0;
    int c, value = 0;
    while ((c = getchar()) != EOF && digits < 2 * ROOM) {
        if (!isxdigit(c))
            continue;
        value = value * 16 + (isdigit(c) ? c - '0' : toupper(c) - 'A' + 10);
        if (++digits % 2 == 0) {
            to[digits / 2 - 1] = (uint8_t)value;
            value = 0;
        }
    }
    return digits / 2;
}

/* Reads the message, writes it again, and looks at its first element where it lies. */
static int again(rumpadol_slot *slot, const uint8_t *bytes, size_t n, rumpadol_fault *fault)
{
    rumpadol_message message;
    rumpadol_part parts[RUMPADOL_MOST_PARTS], body;
    uint8_t *values = malloc(2 * n + 1), *out = malloc(2 * n + 64);
    int status = 1;
    if (values && out) {
        int64_t used = rumpadol_unpack(slot, bytes, n, &message, parts, RUMPADOL_MOST_PARTS, values, 2 * n + 1, fault);
        int64_t size = used < 0 ? used
                                : rumpadol_pack(slot, message.mti, parts, message.parts, values, message.values, out,
                                                2 * n + 64, fault);
        if (size < 0) {
            status = tell("again", fault);
        } else {
            printf("%zu elements in %zu bytes of values; written again in %lld bytes\n", message.parts, message.values,
                   (long long)size);
            status = !(size == used && memcmp(out, bytes, (size_t)used) == 0);
        }
        if (size >= 0 && message.parts > 0) {
            int64_t length = rumpadol_view(slot, bytes, n, parts[0].element, &body, fault);
            status |= length < 0 || (size_t)length != body.length;
            printf("element %u lies at %zu, %zu bytes\n", (unsigned)body.element, body.start, body.length);
        }
    }
    free(values);
    free(out);
    return status;
}

/* Converts the message to the other built-in table and back, and puts it into a frame and takes it out. */
static int there_and_back(rumpadol_slot *slot, const uint8_t *bytes, size_t n, rumpadol_fault *fault)
{
    rumpadol_slot other;
    rumpadol_part body;
    uint8_t *there = malloc(2 * n + 64), *back = malloc(2 * n + 64);
    int status = 1;
    rumpadol_slot_open(&other);
    if (there && back && rumpadol_slot_built_in(RUMPADOL_BCD87, &other, fault) == 0) {
        int64_t size = rumpadol_convert(slot, &other, bytes, n, there, 2 * n + 64, fault);
        int64_t same = size < 0 ? size : rumpadol_convert(&other, slot, there, (size_t)size, back, 2 * n + 64, fault);
        if (same < 0) {
            status = tell("convert", fault);
        } else {
            printf("%lld bytes under bcd87, and %lld back\n", (long long)size, (long long)same);
            status = !((size_t)same == n && memcmp(back, bytes, n) == 0);
            int64_t framed = rumpadol_frame(RUMPADOL_ASCII4, bytes, n, back, 2 * n + 64, fault);
            int64_t taken = framed < 0 ? framed : rumpadol_unframe(RUMPADOL_ASCII4, back, (size_t)framed, &body, fault);
            status |= taken < 0 || taken != framed || body.start != 4 || body.length != n;
            printf("a frame of %lld bytes, its body at %zu\n", (long long)framed, body.start);
        }
    }
    rumpadol_slot_clear(&other);
    free(there);
    free(back);
    return status;
}

int main(int argc, char **argv)
{
    static uint8_t bytes[ROOM], room[ROOM];
    rumpadol_slot slot;
    rumpadol_fault fault = {0, 0, 0};
    if (argc != 2 || rumpadol_slot_size() > RUMPADOL_SLOT_BYTES)
        return 2;
    int64_t size = load(&slot, argv[1], room, &fault);
    int status = 0;
    if (size < 0) {
        status = tell("table", &fault);
    } else {
        size_t n = read_dump(bytes);
        size = rumpadol_describe(&slot, bytes, n, room, 3, &fault);
        if (size < 0 && fault.number == RUMPADOL_SHORT_ROOM)
            printf("%zu bytes are wanted for the lines\n", fault.offset);
        size = rumpadol_describe(&slot, bytes, n, room, sizeof room, &fault);
        if (size < 0) {
            status = tell("describe", &fault);
        } else {
            fwrite(room, 1, (size_t)size, stdout);
            status = again(&slot, bytes, n, &fault) | there_and_back(&slot, bytes, n, &fault);
        }
    }
    rumpadol_slot_clear(&slot);
    return status;
}
