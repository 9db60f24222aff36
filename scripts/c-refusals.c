/* Refuses each growth of each call of the library for C in turn: c-refusals TABLE.json. A refused call answers -1 and
 * RUMPADOL_MEMORY, writes nothing and leaves its slots as they were (a table's call leaves its slot empty); the call that no
 * growth was refused to answers as the first one did, with ample memory. Writes a line for each call, and ends with status 0
 * where all of it held. The linker has to hand malloc and realloc to it: -Wl,--wrap=malloc,--wrap=realloc. */
#include "rumpadol.h"

#include <stdbool.h>
#include <stdio.h>
#include <stdlib.h>
#include <string.h>

#define ROOM 4096
#define MANY 100000

static const uint8_t payment[] = "0200722000010000800016411111111111111100000000000000100001020304050000070512345840";
#define PAYMENT_SIZE (sizeof payment - 1)

/* ---- memory that is refused */

static size_t asked, refused_at;

void *__real_malloc(size_t size);
void *__real_realloc(void *old, size_t size);
void *__wrap_malloc(size_t size);
void *__wrap_realloc(void *old, size_t size);

void *__wrap_malloc(size_t size)
{
    return ++asked == refused_at ? NULL : __real_malloc(size);
}

void *__wrap_realloc(void *old, size_t size)
{
    return ++asked == refused_at ? NULL : __real_realloc(old, size);
}

/* ---- the calls */

/* What a call is lent, and what it answered. */
typedef struct {
    rumpadol_slot slot, other;
    const uint8_t *json;
    size_t json_size;
    rumpadol_message message;
    rumpadol_part parts[RUMPADOL_MOST_PARTS];
    uint8_t values[ROOM], out[ROOM];
    int64_t answer;
    rumpadol_fault fault;
} desk;

static void built_in(desk *d)
{
    d->answer = rumpadol_slot_built_in(RUMPADOL_ASCII87, &d->slot, &d->fault);
}

static void from_json(desk *d)
{
    d->answer = rumpadol_slot_from_json(d->json, d->json_size, &d->slot, &d->fault);
}

static void unpack(desk *d)
{
    d->answer = rumpadol_unpack(&d->slot, payment, PAYMENT_SIZE, &d->message, d->parts, RUMPADOL_MOST_PARTS, d->values, ROOM,
                                &d->fault);
}

static void pack(desk *d)
{
    static const rumpadol_part parts[] = {{11, 0, 6}, {70, 6, 3}, {7, 9, 10}};
    static const uint8_t values[] = "0000013010102030405";
    d->answer = rumpadol_pack(&d->slot, 800, parts, 3, values, sizeof values - 1, d->out, ROOM, &d->fault);
}

static void view(desk *d)
{
    d->answer = rumpadol_view(&d->slot, payment, PAYMENT_SIZE, 11, d->parts, &d->fault);
}

static void convert(desk *d)
{
    d->answer = rumpadol_convert(&d->slot, &d->other, payment, PAYMENT_SIZE, d->out, ROOM, &d->fault);
}

static void describe(desk *d)
{
    d->answer = rumpadol_describe(&d->slot, payment, PAYMENT_SIZE, d->out, ROOM, &d->fault);
}

static void frame(desk *d)
{
    d->answer = rumpadol_frame(RUMPADOL_ASCII4, payment, PAYMENT_SIZE, d->out, ROOM, &d->fault);
}

static void unframe(desk *d)
{
    static const uint8_t framed[] = "0004echo";
    d->answer = rumpadol_unframe(RUMPADOL_ASCII4, framed, sizeof framed - 1, d->parts, &d->fault);
}

static void fault_name(desk *d)
{
    d->answer = rumpadol_fault_name(RUMPADOL_EMPTY_SLOT, d->out, ROOM, &d->fault);
}

/* A call; whether it fills its slot; and whether it wants memory at all. */
static const struct {
    const char *name;
    void (*make)(desk *);
    bool fills, grows;
} calls[] = {
    {"rumpadol_slot_built_in", built_in, true, true}, {"rumpadol_slot_from_json", from_json, true, true},
    {"rumpadol_unpack", unpack, false, true},         {"rumpadol_pack", pack, false, true},
    {"rumpadol_view", view, false, false},            {"rumpadol_convert", convert, false, true},
    {"rumpadol_describe", describe, false, true},     {"rumpadol_frame", frame, false, true},
    {"rumpadol_unframe", unframe, false, false},      {"rumpadol_fault_name", fault_name, false, false},
};

/* ---- what has to hold */

/* Puts the tables back into both slots, and nothing into the rooms. */
static bool clean(desk *d)
{
    memset(d->parts, 0, sizeof d->parts);
    memset(d->values, 0xEE, sizeof d->values);
    memset(d->out, 0xEE, sizeof d->out);
    memset(&d->message, 0, sizeof d->message);
    memset(&d->fault, 0, sizeof d->fault);
    return rumpadol_slot_from_json(d->json, d->json_size, &d->slot, &d->fault) == 0
           && rumpadol_slot_built_in(RUMPADOL_BCD87, &d->other, &d->fault) == 0;
}

static bool same_rooms(const desk *a, const desk *b)
{
    return memcmp(a->parts, b->parts, sizeof a->parts) == 0 && memcmp(a->values, b->values, ROOM) == 0
           && memcmp(a->out, b->out, ROOM) == 0 && a->message.mti == b->message.mti
           && a->message.parts == b->message.parts && a->message.values == b->message.values;
}

/* Whether the slot has a table: then element 11 is found. */
static bool has_table(rumpadol_slot *slot)
{
    rumpadol_part body;
    rumpadol_fault fault = {0, 0, 0};
    if (rumpadol_view(slot, payment, PAYMENT_SIZE, 11, &body, &fault) == 6)
        return true;
    return fault.number != RUMPADOL_EMPTY_SLOT;
}

/* Makes the call with its growth number n refused, and says whether a growth was refused. */
static bool make(size_t call, desk *d, size_t n)
{
    asked = 0;
    refused_at = n;
    calls[call].make(d);
    refused_at = 0;
    return n != 0 && asked >= n;
}

/* Whether all holds of the call; `first` has its answer with ample memory, `empty` untouched rooms. */
static bool holds(size_t call, const desk *first, const desk *empty, desk *d)
{
    for (size_t n = 1; n <= MANY; n++) {
        if (!clean(d))
            return false;
        if (!make(call, d, n))
            return (n > 1) == calls[call].grows && d->answer == first->answer && same_rooms(d, first) && has_table(&d->slot);
        if (d->answer != -1 || d->fault.number != RUMPADOL_MEMORY || !same_rooms(d, empty))
            return false;
        if (has_table(&d->slot) == calls[call].fills)
            return false;
    }
    return false;
}

int main(int argc, char **argv)
{
    static uint8_t json[1048576];
    static desk first, empty, d;
    FILE *file = argc == 2 ? fopen(argv[1], "rb") : NULL;
    if (!file)
        return 2;
    size_t size = fread(json, 1, sizeof json, file);
    fclose(file);
    desk *all[] = {&first, &empty, &d};
    for (size_t i = 0; i < 3; i++) {
        all[i]->json = json;
        all[i]->json_size = size;
        rumpadol_slot_open(&all[i]->slot);
        rumpadol_slot_open(&all[i]->other);
    }
    int status = clean(&empty) ? 0 : 1;
    for (size_t call = 0; call < sizeof calls / sizeof *calls; call++) {
        bool good = clean(&first) && !make(call, &first, 0) && first.answer >= 0 && holds(call, &first, &empty, &d);
        printf("%s: %s\n", calls[call].name, good ? "good" : "bad");
        status |= !good;
    }
    for (size_t i = 0; i < 3; i++) {
        rumpadol_slot_clear(&all[i]->slot);
        rumpadol_slot_clear(&all[i]->other);
    }
    return status;
}
