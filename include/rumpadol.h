/* Rumpadol from C: ISO 8583:1987 messages, read, written, converted and described under tables.
 *
 * A call that takes a rumpadol_fault answers a length or 0, or -1 and a fault; the fault is written only then. No other
 * call fails. A call keeps none of its arguments.
 *
 * What a caller owes to every call, besides what stands at the call:
 * - Each pointer has room for what it points to, for as long as the call runs; an address with a length n has room for n
 *   of them. It isn't null, even where n is 0. n is at most PTRDIFF_MAX.
 * - Memory behind a pointer without `const` overlaps no other argument, and no other thread touches it meanwhile. Memory
 *   behind `const` isn't written meanwhile.
 * - malloc, realloc and free belong together, and align a block as C asks.
 * - No call is made from a signal handler.
 */
#ifndef RUMPADOL_H
#define RUMPADOL_H

#include <stddef.h>
#include <stdint.h>

#ifdef __cplusplus
extern "C" {
#endif

/* ---- faults */

/* Why a call answered -1: docs/C.md lists the numbers. `element` is the element, else 0. `offset` is where the bytes are
 * wrong; where a room is short, how much is wanted; else 0. */
typedef struct {
    uint32_t number;
    uint32_t element;
    size_t offset;
} rumpadol_fault;

/* The faults of this library alone. */
enum {
    RUMPADOL_MEMORY = 1,
    RUMPADOL_EMPTY_SLOT = 2,
    RUMPADOL_NO_SUCH_TABLE = 3,
    RUMPADOL_SHORT_ROOM = 4,
    RUMPADOL_TRAILING_BYTES = 5,
    RUMPADOL_NO_ELEMENT = 6,
    RUMPADOL_BAD_PART = 7,
    RUMPADOL_BAD_TYPE = 8,
    RUMPADOL_NO_SUCH_HEADER = 9,
    RUMPADOL_SHORT_PARTS = 10
};

/* Writes the name of the fault with the number, without a zero byte behind it: how many bytes it has, and 0 where no fault
 * has the number. 20 bytes are enough for each. */
int64_t rumpadol_fault_name(uint32_t number, uint8_t *out, size_t room, rumpadol_fault *fault);

/* ---- tables */

/* How many bytes a table takes at most; a multiple of 8. */
#define RUMPADOL_SLOT_BYTES 64

/* A table, or none, in memory of the caller's. Between rumpadol_slot_open and its end a slot isn't copied, moved or looked
 * into, and one call at a time uses it: not two threads, and not one call twice, as `from` and `to`. It is cleared before
 * its memory goes away, else the table's memory is lost. */
typedef struct {
    void *at;
    uint64_t memory[RUMPADOL_SLOT_BYTES / 8];
} rumpadol_slot;

/* How many bytes a table takes: at most RUMPADOL_SLOT_BYTES. */
size_t rumpadol_slot_size(void);

/* Makes an empty slot of memory of RUMPADOL_SLOT_BYTES, aligned to 8, that isn't one. rumpadol_slot_open calls it. */
void rumpadol_slot_init(void *at);

/* Makes an empty slot. It is called once for each slot, before any other call with it. */
static inline void rumpadol_slot_open(rumpadol_slot *slot)
{
    slot->at = slot->memory;
    rumpadol_slot_init(slot->at);
}

/* The 1987 tables, in ASCII and in BCD. */
enum { RUMPADOL_ASCII87 = 0, RUMPADOL_BCD87 = 1 };

/* Puts a built-in table into the slot, in place of what was there: 0, or -1 and an empty slot. */
int64_t rumpadol_slot_built_in(uint32_t name, rumpadol_slot *slot, rumpadol_fault *fault);

/* Checks a JSON document, and puts its table into the slot, in place of what was there: 0, or -1 and an empty slot. The
 * fault is the first one of the document. */
int64_t rumpadol_slot_from_json(const uint8_t *json, size_t n, rumpadol_slot *slot, rumpadol_fault *fault);

/* Empties the slot, and frees its table. It can be used again. */
void rumpadol_slot_clear(rumpadol_slot *slot);

/* ---- messages */

/* Where the value of an element lies in some bytes. */
typedef struct {
    uint32_t element;
    size_t start;
    size_t length;
} rumpadol_part;

/* A message's type, and how many parts and bytes of values it has. */
typedef struct {
    uint32_t mti;
    size_t parts;
    size_t values;
} rumpadol_message;

/* The most parts that a message has. */
#define RUMPADOL_MOST_PARTS 126

/* Reads the message that the bytes begin with: its values end to end into `values`, and where each lies into `parts`, by
 * ascending element. Answers how many bytes the message takes. Where a room is short nothing is written, and the fault's
 * `offset` tells how much is wanted: parts with RUMPADOL_SHORT_PARTS, bytes with RUMPADOL_SHORT_ROOM. */
int64_t rumpadol_unpack(rumpadol_slot *table, const uint8_t *bytes, size_t n, rumpadol_message *message,
                        rumpadol_part *parts, size_t places, uint8_t *values, size_t room, rumpadol_fault *fault);

/* Writes the message of the type `mti` with the values that the parts tell of. The parts may come in any order, and of two
 * of one element the later one counts. Answers how many bytes were written. */
int64_t rumpadol_pack(rumpadol_slot *table, uint32_t mti, const rumpadol_part *parts, size_t count,
                      const uint8_t *values, size_t size, uint8_t *out, size_t room, rumpadol_fault *fault);

/* Finds the body of an element of the message that the bytes begin with, as it lies there: behind its length, and with its
 * padding. Copies nothing; `body` tells where it lies in `bytes`. Answers how many bytes it has. */
int64_t rumpadol_view(rumpadol_slot *table, const uint8_t *bytes, size_t n, uint32_t element, rumpadol_part *body,
                      rumpadol_fault *fault);

/* Writes the message that all the bytes spell under one table under the other. Answers how many bytes were written. */
int64_t rumpadol_convert(rumpadol_slot *from, rumpadol_slot *to, const uint8_t *bytes, size_t n, uint8_t *out,
                         size_t room, rumpadol_fault *fault);

/* Writes the lines of the message that the bytes begin with, as the command's `show` does: account numbers, tracks, PIN and
 * chip data are hidden by stars. Answers how many bytes were written. */
int64_t rumpadol_describe(rumpadol_slot *table, const uint8_t *bytes, size_t n, uint8_t *out, size_t room,
                          rumpadol_fault *fault);

/* ---- frames */

/* How a frame counts its body: two bytes, four ASCII digits, four BCD digits. */
enum { RUMPADOL_BINARY2 = 0, RUMPADOL_ASCII4 = 1, RUMPADOL_BCD2 = 2 };

/* Writes the frame of a body. Answers how many bytes it has. */
int64_t rumpadol_frame(uint32_t header, const uint8_t *body, size_t n, uint8_t *out, size_t room,
                       rumpadol_fault *fault);

/* Finds the frame that the input begins with; `body` tells where its body lies in `input`. Answers how many bytes the frame
 * takes, and 0 where the input ends inside it. */
int64_t rumpadol_unframe(uint32_t header, const uint8_t *input, size_t n, rumpadol_part *body, rumpadol_fault *fault);

#ifdef __cplusplus
}
#endif

#endif
