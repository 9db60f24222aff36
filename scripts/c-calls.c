/* Makes each call of the library for C on an echo test, and the calls without a table on rows; all that they give was counted by
 * hand. Writes a line for each call that gave it, and ends with status 0 where all did. */
#include "rumpadol.h"

#include <stdbool.h>
#include <stdio.h>
#include <string.h>

#define ROOM 512

/* Bytes that a text spells, without the zero byte behind it. */
#define BYTES(text) (const uint8_t *)(text), sizeof(text) - 1

static const uint8_t echo[] = "0800822000000000000004000000000000000102030405000001301";
#define ECHO_SIZE (sizeof echo - 1)

/* The echo test under BCD. */
static const uint8_t echo_bcd[] = "\x08\x00\x82\x20\0\0\0\0\0\0\x04\0\0\0\0\0\0\0\x01\x02\x03\x04\x05\0\0\x01\x03\x01";
#define ECHO_BCD_SIZE (sizeof echo_bcd - 1)

/* The echo test's values, end to end, and the parts that tell where they lie. */
static const uint8_t values[] = "0102030405000001301";
#define VALUES_SIZE (sizeof values - 1)
static const rumpadol_part parts[] = {{7, 0, 10}, {11, 10, 6}, {70, 16, 3}};
#define PARTS (sizeof parts / sizeof *parts)

static const char lines[] = "MTI=0800 1987 NetworkManagement Request Acquirer\n"
                            "DE007=0102030405\nDE011=000001\nDE070=301\nUSED=55/55\n";

/* The slots hold the built-in tables, in ASCII and in BCD. */
static rumpadol_slot ascii87, bcd87;
static rumpadol_fault fault;
static uint8_t out[ROOM];

/* Whether a call answered that size, and wrote those bytes. */
static bool gave(int64_t answer, const void *wanted, size_t size)
{
    return answer == (int64_t)size && memcmp(out, wanted, size) == 0;
}

static bool unpacks(void)
{
    rumpadol_message message;
    rumpadol_part found[RUMPADOL_MOST_PARTS];
    bool is_so = rumpadol_unpack(&ascii87, echo, ECHO_SIZE, &message, found, RUMPADOL_MOST_PARTS, out, ROOM, &fault) == 55;
    is_so = is_so && message.mti == 800 && message.parts == PARTS && gave((int64_t)message.values, values, VALUES_SIZE);
    for (size_t i = 0; is_so && i < PARTS; i++)
        is_so = found[i].element == parts[i].element && found[i].start == parts[i].start && found[i].length == parts[i].length;
    return is_so;
}

static bool packs(void)
{
    return gave(rumpadol_pack(&ascii87, 800, parts, PARTS, values, VALUES_SIZE, out, ROOM, &fault), echo, ECHO_SIZE);
}

static bool views(void)
{
    rumpadol_part body;
    return rumpadol_view(&ascii87, echo, ECHO_SIZE, 70, &body, &fault) == 3 && body.element == 70 && body.start == 52 &&
           body.length == 3;
}

static bool converts(void)
{
    return gave(rumpadol_convert(&ascii87, &bcd87, echo, ECHO_SIZE, out, ROOM, &fault), echo_bcd, ECHO_BCD_SIZE);
}

static bool describes(void)
{
    return gave(rumpadol_describe(&ascii87, echo, ECHO_SIZE, out, ROOM, &fault), lines, sizeof lines - 1);
}

/* A header, and the frame of the body 0800. */
static const struct {
    uint32_t header;
    const uint8_t *frame;
    size_t size;
} frames[] = {
    {RUMPADOL_BINARY2, BYTES("\0\x04" "0800")},
    {RUMPADOL_ASCII4, BYTES("0004" "0800")},
    {RUMPADOL_BCD2, BYTES("\0\x04" "0800")},
};
#define FRAMES (sizeof frames / sizeof *frames)

static bool is_framed(size_t i)
{
    return gave(rumpadol_frame(frames[i].header, BYTES("0800"), out, ROOM, &fault), frames[i].frame, frames[i].size);
}

static bool is_unframed(size_t i)
{
    rumpadol_part body;
    return rumpadol_unframe(frames[i].header, frames[i].frame, frames[i].size, &body, &fault) == (int64_t)frames[i].size &&
           body.element == 0 && body.start == frames[i].size - 4 && body.length == 4;
}

/* Faults of each library, and their names. */
static const struct {
    uint32_t number;
    const char *name;
} names[] = {
    {0, ""},            {RUMPADOL_MEMORY, "Memory"}, {101, "Short"},     {207, "BadHex"},
    {305, "PadEnd"},    {409, "Profile"},            {502, "BadDigits"}, {601, "BadNumber"},
};
#define NAMES (sizeof names / sizeof *names)

static bool is_named(size_t i)
{
    return gave(rumpadol_fault_name(names[i].number, out, ROOM, &fault), names[i].name, strlen(names[i].name));
}

/* Whether the call gave what each row says. */
static bool each(bool (*gives)(size_t), size_t count)
{
    bool is_so = true;
    for (size_t i = 0; i < count; i++)
        if (!gives(i)) {
            printf("row %zu isn't so\n", i);
            is_so = false;
        }
    return is_so;
}

/* Tells of a call whether it gave what it should. */
static bool tell(const char *name, bool is_so)
{
    printf("%s %s\n", name, is_so ? "passed" : "FAILED");
    return is_so;
}

int main(void)
{
    rumpadol_slot_open(&ascii87);
    rumpadol_slot_open(&bcd87);
    bool is_so = tell("slot_built_in", rumpadol_slot_built_in(RUMPADOL_ASCII87, &ascii87, &fault) == 0 &&
                                           rumpadol_slot_built_in(RUMPADOL_BCD87, &bcd87, &fault) == 0);
    is_so &= tell("unpack", unpacks());
    is_so &= tell("pack", packs());
    is_so &= tell("view", views());
    is_so &= tell("convert", converts());
    is_so &= tell("describe", describes());
    is_so &= tell("frame", each(is_framed, FRAMES));
    is_so &= tell("unframe", each(is_unframed, FRAMES));
    is_so &= tell("fault_name", each(is_named, NAMES));
    rumpadol_slot_clear(&ascii87);
    rumpadol_slot_clear(&bcd87);
    return !is_so;
}
