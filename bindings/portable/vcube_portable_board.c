/* The calls of vcube.h that a board makes on its own line, in portable C, and no others: vcube_board_fresh, _next, _row, _replied, _not_replied,
 * _told, _exchanged and _round_closed. This is the one file to compile. It holds no table: vcube_module.c here is what wasm2c made of just what
 * these calls reach. Do not link it beside vcube_portable.c, which has them too.
 *
 * As there, a call copies what it is handed into a memory of its own, a static array, and copies back what was written. One call at a time: two
 * calls at once, in two threads or in an interrupt, need two memories (VCUBE_PORTABLE_LOCAL).
 *
 * What may be defined when this is compiled:
 *
 *   VCUBE_PORTABLE_STATIONS  the most stations of a plant, 2 to 64 (64). A plant of more gets refusal 1, as one of more than 64.
 *   VCUBE_PORTABLE_LOCAL     what stands before the memory, _Thread_local for one in each thread (nothing).
 *   VCUBE_PORTABLE_TRAP      what is done in place of a return if the module leaves its memory, which the proofs rule out: a statement that
 *                            does not end (the compiler's trap, or an endless loop, which a watchdog of the hardware sees).
 */
#define MODULE_STACK 128
#define HAS_CONSTANTS 0

/* One number, and what two lengths are rounded up by. */
#define NUMBERS_ROOM 24

/* A line and a packed row, each one byte longer where it is refused by its length. */
#define CALL_ROOM (VCUBE_LINE_LENGTH(MOST_STATIONS) + 1 + VCUBE_PACKED_LENGTH(MOST_STATIONS) + 1)

#include "vcube_portable_module.h"
#include "vcube_portable_board.h"
