/* Hands each call of the library for C random and changed bytes, documents, parts and numbers, by a fixed seed, and rooms that
 * are ample, just enough, too short by one and of 0. Each answer is a length within its room, or -1 and a fault that has a name;
 * a room that is too short is told how much is wanted; nothing is written behind a room, nor to one that is too short, and the
 * fault is written only with -1. The header allows no null pointer, so none is handed over. Writes a line of counts, a line to
 * standard error for each answer that isn't so, and ends with status 0 where all were so. */
#include "rumpadol.h"

#include <stdbool.h>
#include <stdio.h>
#include <stdlib.h>
#include <string.h>

#define ROUNDS 300
#define ROOM 4096
#define BEHIND 64
#define MOST_BYTES 300
#define PLACES (RUMPADOL_MOST_PARTS + 2)
#define UNTOUCHED 0xEE
#define LONGEST_NAME 20

/* ---- chance */

static uint64_t state = 0x9E3779B97F4A7C15;

/* A number below the end, which is above 0. */
static size_t below(size_t end)
{
    state ^= state << 13;
    state ^= state >> 7;
    state ^= state << 17;
    return (size_t)((state >> 16) % end);
}

/* A number that is often a likely one, and sometimes any. */
static uint32_t number_below(uint32_t likely)
{
    return below(8) ? (uint32_t)below(likely) : (uint32_t)(below(65536) << 16 | below(65536));
}

/* ---- what is handed over */

/* Bytes before they are changed. */
typedef struct {
    const uint8_t *bytes;
    size_t size;
} text;

/* The bytes that a text spells, without the zero byte behind it. */
#define BYTES(text) (const uint8_t *)(text), sizeof(text) - 1

/* Messages, and the slot whose table reads each. */
static const struct {
    text text;
    size_t slot;
} messages[] = {
    {{BYTES("0800822000000000000004000000000000000102030405000001301")}, 0},
    {{BYTES("\x08\x00\x82\x20\0\0\0\0\0\0\x04\0\0\0\0\0\0\0\x01\x02\x03\x04\x05\0\0\x01\x03\x01")}, 1},
    {{BYTES("0200722000010000800016411111111111111100000000000000100001020304050000070512345840")}, 0},
    {{BYTES("020000000000000010010123456789abcdefFEDCBA9876543210")}, 0},
    {{BYTES("0210200000100A100001000000D00000150AB 456-78901Z9000123456789ABCDEF")}, 0},
    {{BYTES("08004000000000800000164111111111111111TERM1   ")}, 2},
    {{BYTES("\x08\x00\0\x20\0\0\0\x01\0\0\0\0\x01\0\x03" "01020A")}, 2},
};
static const text frames[] = {{BYTES("\0\x04" "0800")}, {BYTES("0004" "0800")}, {BYTES("\0\x04" "0800" "\0\x02" "08")}};
static const text documents[] = {
    {BYTES("{\"profile\":2,\"version\":0,\"mti\":\"ascii\",\"bitmap\":\"hex\",\"rows\":[{\"number\":2,\"class\":\"N\","
           "\"coding\":\"ascii\",\"length\":\"LL\",\"prefix\":\"ascii\",\"max\":19,\"pad\":\"none\"},{\"number\":41,"
           "\"class\":\"ANS\",\"coding\":\"ascii\",\"length\":\"fixed\",\"max\":8,\"pad\":\"right:20\"}]}")},
    {BYTES("{\"profile\":2,\"version\":0,\"mti\":\"bcd\",\"bitmap\":\"raw\",\"rows\":[{\"number\":11,\"class\":\"N\","
           "\"coding\":\"bcd\",\"length\":\"fixed\",\"max\":6,\"pad\":\"none\"},{\"number\":48,\"class\":\"B\","
           "\"coding\":\"hex\",\"length\":\"LLLL\",\"prefix\":\"bcd\",\"max\":9999,\"pad\":\"none\"}]}")},
};
#define ANY(texts) (texts)[below(sizeof(texts) / sizeof *(texts))]

/* A block of just the bytes, so that valgrind sees a read behind them; nothing is read of the one byte that stands for none. */
static uint8_t *block_of(size_t size)
{
    uint8_t *block = malloc(size ? size : 1);
    if (!block)
        exit(2);
    return block;
}

/* A text as it is, or with some bytes changed, and sometimes cut; or random bytes. The caller frees it. */
static uint8_t *changed(text from, size_t *size)
{
    static const uint8_t likely[] = {0, 0x30, 0x39, 0x46, 0xFF};
    bool is_random = below(6) == 0;
    *size = is_random ? below(MOST_BYTES) : below(6) ? from.size : below(from.size + 1);
    uint8_t *block = block_of(*size);
    for (size_t i = 0; i < *size; i++)
        block[i] = is_random ? (uint8_t)below(256) : from.bytes[i];
    for (size_t left = is_random || below(2) ? 0 : below(4); *size && left > 0; left--)
        block[below(*size)] = below(2) ? likely[below(sizeof likely)] : (uint8_t)below(256);
    return block;
}

/* ---- what is lent to a call */

/* The slots: of both built-in tables and of a document; one of them may be empty. */
#define SLOTS 3
static rumpadol_slot slots[SLOTS];

/* The words of a call. */
static struct {
    uint8_t *bytes, *values;
    size_t size, values_size, count;
    uint32_t number;
    rumpadol_slot *from, *to;
    rumpadol_part *told;
} lent;

/* What calls write to. */
static rumpadol_message message;
static rumpadol_part parts[PLACES], body;
static uint8_t out[ROOM + BEHIND];
static rumpadol_fault fault;

/* ---- what has to hold */

static unsigned long calls, bad;

/* Counts what isn't so. */
static bool holds(const char *name, bool is_so, const char *what)
{
    if (!is_so) {
        bad++;
        fprintf(stderr, "%s, call %lu: %s\n", name, calls, what);
    }
    return is_so;
}

static bool is_untouched(const void *at, size_t size)
{
    static uint8_t untouched[ROOM + BEHIND + sizeof parts];
    if (!untouched[0])
        memset(untouched, UNTOUCHED, sizeof untouched);
    return memcmp(at, untouched, size) == 0;
}

/* Leaves no trace of an earlier call. */
static void clean(void)
{
    memset(out, UNTOUCHED, sizeof out);
    memset(parts, UNTOUCHED, sizeof parts);
    memset(&body, UNTOUCHED, sizeof body);
    memset(&message, UNTOUCHED, sizeof message);
    memset(&fault, UNTOUCHED, sizeof fault);
}

/* Whether a fault's number has a name. */
static bool has_name(uint32_t number)
{
    uint8_t name[LONGEST_NAME];
    rumpadol_fault none;
    calls++;
    int64_t size = rumpadol_fault_name(number, name, sizeof name, &none);
    return size > 0 && size <= LONGEST_NAME;
}

/* Looks at an answer: a length up to the most, or -1 and a fault with a name. */
static bool is_answer(const char *name, int64_t answer, size_t most)
{
    if (answer == -1)
        return holds(name, has_name(fault.number), "the fault has no name");
    return holds(name, answer >= 0 && (uint64_t)answer <= most, "the answer is beyond the room") &&
           holds(name, is_untouched(&fault, sizeof fault), "the fault is written without -1");
}

/* A call that writes to a room of so many bytes, and to so many places where it has parts. */
typedef int64_t (*writing)(size_t room, size_t places);

/* Makes the call, and looks at what it left behind its rooms. `most` is what it may answer. */
static int64_t make(const char *name, writing call, size_t room, size_t places, size_t most)
{
    clean();
    calls++;
    int64_t answer = call(room, places);
    is_answer(name, answer, most);
    holds(name, is_untouched(out + room, sizeof out - room), "bytes behind the room are written");
    holds(name, is_untouched(parts + places, (PLACES - places) * sizeof *parts), "parts behind the room are written");
    return answer;
}

/* Makes the call with rooms that are too short, where so much is wanted: the fault says so, and nothing is written. */
static void refuse(const char *name, writing call, size_t room, size_t places, uint32_t number, size_t wanted)
{
    int64_t answer = make(name, call, room, places, 0);
    holds(name, answer == -1 && fault.number == number && fault.offset == wanted, "what is wanted isn't told");
    holds(name, is_untouched(out, sizeof out) && is_untouched(parts, sizeof parts) && is_untouched(&message, sizeof message),
          "something is written to a room that is too short");
}

/* A call that answers how many bytes it wrote: with an ample room, and then with just enough, one less, and none. */
static void try_room(const char *name, writing call)
{
    int64_t first = make(name, call, ROOM, PLACES, ROOM);
    if (first < 0) {
        uint32_t number = fault.number;
        holds(name, make(name, call, 0, PLACES, 0) == -1 && fault.number == number, "the fault isn't that of an ample room");
        return;
    }
    size_t wanted = (size_t)first;
    holds(name, make(name, call, wanted, PLACES, wanted) == first, "just enough room isn't enough");
    if (wanted == 0)
        return;
    refuse(name, call, wanted - 1, PLACES, RUMPADOL_SHORT_ROOM, wanted);
    refuse(name, call, 0, PLACES, RUMPADOL_SHORT_ROOM, wanted);
}

/* Whether a part lies within so many bytes. */
static bool lies_in(rumpadol_part part, size_t size)
{
    return part.start <= size && part.length <= size - part.start;
}

/* ---- the calls */

static int64_t fault_name(size_t room, size_t places)
{
    (void)places;
    return rumpadol_fault_name(lent.number, out, room, &fault);
}

static int64_t unpack(size_t room, size_t places)
{
    return rumpadol_unpack(lent.from, lent.bytes, lent.size, &message, parts, places, out, room, &fault);
}

static int64_t pack(size_t room, size_t places)
{
    (void)places;
    return rumpadol_pack(lent.from, lent.number, lent.told, lent.count, lent.values, lent.values_size, out, room, &fault);
}

static int64_t convert(size_t room, size_t places)
{
    (void)places;
    return rumpadol_convert(lent.from, lent.to, lent.bytes, lent.size, out, room, &fault);
}

static int64_t describe(size_t room, size_t places)
{
    (void)places;
    return rumpadol_describe(lent.from, lent.bytes, lent.size, out, room, &fault);
}

static int64_t frame(size_t room, size_t places)
{
    (void)places;
    return rumpadol_frame(lent.number, lent.bytes, lent.size, out, room, &fault);
}

/* Unpacks: each part lies in the values, and a room of either kind that is too short is told. */
static void try_unpack(void)
{
    int64_t used = make("unpack", unpack, ROOM, PLACES, lent.size);
    if (used < 0)
        return;
    size_t values = message.values, count = message.parts;
    bool is_in = values <= ROOM && count <= RUMPADOL_MOST_PARTS && message.mti < 10000;
    if (!holds("unpack", is_in, "the message is beyond its rooms"))
        return;
    for (size_t i = 0; i < count; i++)
        holds("unpack", lies_in(parts[i], values) && (i == 0 || parts[i - 1].element < parts[i].element), "a part is amiss");
    holds("unpack", make("unpack", unpack, values, count, lent.size) == used, "just enough room isn't enough");
    if (values > 0) {
        refuse("unpack", unpack, values - 1, count, RUMPADOL_SHORT_ROOM, values);
        refuse("unpack", unpack, 0, count, RUMPADOL_SHORT_ROOM, values);
    }
    if (count > 0) {
        refuse("unpack", unpack, values, count - 1, RUMPADOL_SHORT_PARTS, count);
        refuse("unpack", unpack, values, 0, RUMPADOL_SHORT_PARTS, count);
    }
}

/* Packs what was just unpacked, with some of its parts changed, or parts by chance. */
static void try_pack(void)
{
    bool is_read = make("unpack", unpack, ROOM, PLACES, lent.size) >= 0;
    lent.values_size = is_read ? message.values : below(MOST_BYTES);
    lent.values = block_of(lent.values_size);
    lent.count = is_read ? message.parts : below(12);
    lent.told = (rumpadol_part *)block_of(lent.count * sizeof *lent.told);
    lent.number = is_read && below(8) ? message.mti : number_below(10000);
    for (size_t i = 0; i < lent.values_size; i++)
        lent.values[i] = is_read ? out[i] : (uint8_t)('0' + below(10));
    for (size_t i = 0; i < lent.count; i++) {
        rumpadol_part part = {number_below(129), below(lent.values_size + 1), below(20)};
        if (below(64) == 0)
            part.length = SIZE_MAX - below(4);
        lent.told[i] = is_read && below(16) ? parts[i] : part;
    }
    try_room("pack", pack);
    free(lent.values);
    free(lent.told);
}

/* Views: the body lies in the bytes. */
static void try_view(void)
{
    static const uint32_t likely[] = {2, 7, 11, 41, 48, 52};
    uint32_t element = below(2) ? ANY(likely) : number_below(129);
    clean();
    calls++;
    int64_t answer = rumpadol_view(lent.from, lent.bytes, lent.size, element, &body, &fault);
    if (is_answer("view", answer, lent.size) && answer >= 0)
        holds("view", body.element == element && (uint64_t)answer == body.length && lies_in(body, lent.size),
              "the body is amiss");
}

/* Takes a frame: its body lies in the input. */
static void try_unframe(void)
{
    clean();
    calls++;
    int64_t taken = rumpadol_unframe(lent.number, lent.bytes, lent.size, &body, &fault);
    if (is_answer("unframe", taken, lent.size) && taken > 0)
        holds("unframe", lies_in(body, (size_t)taken), "the body is amiss");
}

/* Puts a built-in table, or one of a document, into the slot; after a fault it is empty. */
static void try_slot(rumpadol_slot *slot, bool is_built_in)
{
    lent.bytes = changed(ANY(documents), &lent.size);
    clean();
    calls++;
    int64_t answer = is_built_in ? rumpadol_slot_built_in(number_below(3), slot, &fault)
                                 : rumpadol_slot_from_json(lent.bytes, lent.size, slot, &fault);
    is_answer("slot", answer, 0);
    free(lent.bytes);
    if (answer == 0)
        return;
    clean();
    calls++;
    answer = rumpadol_view(slot, messages[0].text.bytes, messages[0].text.size, 11, &body, &fault);
    holds("slot", answer == -1 && fault.number == RUMPADOL_EMPTY_SLOT, "the slot isn't empty behind a fault");
}

/* Puts the built-in tables and that of a good document into the slots, and sometimes something else into one. */
static void fill_slots(void)
{
    calls += SLOTS;
    const text *document = &ANY(documents);
    bool are_good = rumpadol_slot_built_in(RUMPADOL_ASCII87, &slots[0], &fault) == 0 &&
                    rumpadol_slot_built_in(RUMPADOL_BCD87, &slots[1], &fault) == 0 &&
                    rumpadol_slot_from_json(document->bytes, document->size, &slots[2], &fault) == 0;
    holds("slot", are_good, "a good table is refused");
    rumpadol_slot *other = &slots[below(SLOTS)];
    switch (below(8)) {
    case 0:
        calls++;
        rumpadol_slot_clear(other);
        break;
    case 1:
        try_slot(other, true);
        break;
    case 2:
    case 3:
        try_slot(&slots[2], false);
        break;
    default:
        break;
    }
}

/* Each call on messages, frames and names, with its rooms. */
static void try_each(void)
{
    size_t chosen = below(sizeof messages / sizeof *messages);
    size_t from = below(4) ? messages[chosen].slot : below(SLOTS);
    lent.from = &slots[from];
    lent.to = &slots[(from + 1 + below(SLOTS - 1)) % SLOTS];
    lent.bytes = changed(messages[chosen].text, &lent.size);
    try_unpack();
    try_pack();
    try_view();
    try_room("convert", convert);
    try_room("describe", describe);
    lent.number = number_below(4);
    try_room("frame", frame);
    free(lent.bytes);
    lent.bytes = changed(ANY(frames), &lent.size);
    lent.number = number_below(4);
    try_unframe();
    free(lent.bytes);
    lent.number = number_below(700);
    try_room("fault_name", fault_name);
}

int main(void)
{
    calls = 1;
    holds("slot_size", rumpadol_slot_size() <= RUMPADOL_SLOT_BYTES, "a table is larger than a slot");
    for (size_t i = 0; i < SLOTS; i++) {
        calls++;
        rumpadol_slot_open(&slots[i]);
    }
    for (size_t round = 0; round < ROUNDS; round++) {
        fill_slots();
        try_each();
    }
    for (size_t i = 0; i < SLOTS; i++) {
        calls++;
        rumpadol_slot_clear(&slots[i]);
    }
    printf("c-random: %lu calls, %lu bad\n", calls, bad);
    return bad != 0;
}
