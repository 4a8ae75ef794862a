/* What vcube_portable.c and vcube_portable_board.c both hold: the module that wasm2c made (vcube_module.c), its memory, and all that it needs of a
 * runtime. Each is the one file to compile; both say what may be defined for it. This one is told beforehand:
 *
 *   MODULE_STACK  how many bytes of its stack the module takes. If it took more, it would leave its memory (VCUBE_PORTABLE_TRAP).
 *   CALL_ROOM     how many bytes the buffers of a call take.
 *   NUMBERS_ROOM  how many its numbers take, eight each, and what lengths are rounded up by.
 *   HAS_CONSTANTS whether the module reads constants: 1 or 0.
 */
#include "vcube.h"

#include <limits.h>
#include <string.h>

#if CHAR_BIT != 8
#error "vcube: bytes have 8 bits here"
#endif

#ifndef VCUBE_PORTABLE_STATIONS
#define VCUBE_PORTABLE_STATIONS 64
#endif
#if VCUBE_PORTABLE_STATIONS < 2 || VCUBE_PORTABLE_STATIONS > 64
#error "vcube: VCUBE_PORTABLE_STATIONS is 2 to 64"
#endif
#ifndef VCUBE_PORTABLE_LOCAL
#define VCUBE_PORTABLE_LOCAL
#endif
#ifndef VCUBE_PORTABLE_TRAP
#if defined(__GNUC__)
#define VCUBE_PORTABLE_TRAP __builtin_trap();
#else
#define VCUBE_PORTABLE_TRAP for (;;) {}
#endif
#endif

/* Whether a number of the processor has its low byte first, as the module's have. Where that is not known, numbers go byte by byte. */
#if defined(__BYTE_ORDER__) && defined(__ORDER_LITTLE_ENDIAN__)
#define IS_LOW_BYTE_FIRST (__BYTE_ORDER__ == __ORDER_LITTLE_ENDIAN__)
#else
#define IS_LOW_BYTE_FIRST 0
#endif

/* What wasm2c's C goes by. */
#define WABT_BIG_ENDIAN 0
#define WASM_RT_MEMCHECK_SIGNAL_HANDLER 0
#define WASM_RT_USE_STACK_DEPTH_COUNT 0
#ifndef NDEBUG
#define NDEBUG
#endif

/* The parts of the runtime stand below, under names of their own, so that another module's runtime may be linked beside them. */
#define wasm_rt_trap vcube_rt_trap
#define wasm_rt_register_func_type vcube_rt_register_func_type
#define wasm_rt_allocate_memory vcube_rt_allocate_memory
#define wasm_rt_free_memory vcube_rt_free_memory

/* Where the stack that the module was linked with ends, and its constants begin. */
#define LINKED_STACK 65536

/* How many bytes stand unused at the end of the memory: see what reaches it, below. */
#define MARGIN 8

#define MOST_STATIONS ((size_t)VCUBE_PORTABLE_STATIONS)
#define MEMORY_SIZE ((MODULE_STACK + NUMBERS_ROOM + CALL_ROOM + 7) / 8 * 8 + MARGIN)

/* The module's memory: its stack, which goes down to 0, and behind it the buffers of a call. Its constants do not stand here but among those of
 * the program, and are read there. */
static VCUBE_PORTABLE_LOCAL uint8_t memory[MEMORY_SIZE];

/* For what each access of the module goes through: a call for each would cost more, in bytes too. */
#if defined(__GNUC__)
#define INLINE static inline __attribute__((always_inline))
#else
#define INLINE static inline
#endif

/* By memcpy, of what is filled already. */
static inline void fill(uint8_t *bytes, uint8_t value, size_t length)
{
    size_t done = 1;

    if (length == 0)
        return;
    bytes[0] = value;
    for (; done < length - done; done += done)
        memcpy(bytes + done, bytes, done);
    memcpy(bytes + done, bytes, length - done);
}

/* The two parts may overlap: a piece is read whole before it is written, and the pieces go from the end that is not overwritten. */
static inline void move(uint8_t *to, const uint8_t *from, size_t length)
{
    uint8_t piece[32];
    size_t done = 0;

    while (done < length) {
        size_t part = length - done < sizeof piece ? length - done : sizeof piece;
        size_t at = to <= from ? done : length - done - part;
        memcpy(piece, from + at, part);
        memcpy(to + at, piece, part);
        done += part;
    }
}

/* A number from the module's bytes, or to them. */
INLINE void copy_number(void *to, const void *from, size_t width)
{
#if IS_LOW_BYTE_FIRST
    memcpy(to, from, width);
#else
    const union {
        uint16_t number;
        uint8_t bytes[2];
    } one = {1};

    for (size_t k = 0; k < width; k++)
        ((uint8_t *)to)[one.bytes[0] == 1 ? k : width - 1 - k] = ((const uint8_t *)from)[k];
#endif
}

/* What the module takes of wasm2c's runtime. */

#include "wasm-rt.h"

void vcube_rt_trap(wasm_rt_trap_t why)
{
    (void)why;
    VCUBE_PORTABLE_TRAP
}

/* For calls of functions by their number; the module has none. */
uint32_t vcube_rt_register_func_type(uint32_t parameters, uint32_t results, ...)
{
    (void)parameters;
    (void)results;
    return 0;
}

/* The memory stands above, and what reaches it does not go by this. */
void vcube_rt_allocate_memory(wasm_rt_memory_t *made, uint32_t pages, uint32_t most_pages)
{
    made->data = memory;
    made->size = (uint32_t)sizeof memory;
    made->pages = pages;
    made->max_pages = most_pages;
}

void vcube_rt_free_memory(wasm_rt_memory_t *made)
{
    (void)made;
}

/* How the module reaches its memory, in place of wasm2c's own macros and functions of these names, to which make gives other names.
 *
 * An address is the sum of two numbers of 32 bits: base, which the module works out, and offset, which stands in its code. make hands them over
 * apart, and each is compared before they are added. So the check is the same for a size_t of 32 bits and of 64, and no sum is cut: whatever is
 * not wholly in the memory traps.
 *
 * Accesses within MARGIN bytes of one base have the same check, which the compiler then makes once. By it the last MARGIN bytes of the memory
 * are outside as a base; no buffer has any of them. */

/* Of a length of 1 to MARGIN. */
INLINE uint8_t *to_write(uint32_t base, uint32_t offset, size_t length)
{
    if (UNLIKELY(offset <= MARGIN - length ? base > sizeof memory - MARGIN
                                           : offset > sizeof memory - length || base > sizeof memory - length - offset))
        vcube_rt_trap(WASM_RT_TRAP_OOB);
    return memory + base + offset;
}

/* Part of the memory, of any length. */
static inline uint8_t *part_to_write(uint32_t at, size_t length)
{
    if (UNLIKELY(length > sizeof memory || at > sizeof memory - length))
        vcube_rt_trap(WASM_RT_TRAP_OOB);
    return memory + at;
}

/* Constants begin at LINKED_STACK. They are read by an offset from there on, by a copy, and in functions that have the address of one as a number
 * or are called by these: make gives loads there names that end with _anywhere. */
#if HAS_CONSTANTS
static const uint8_t *among_constants(uint64_t at, size_t length);

INLINE const uint8_t *to_read(uint32_t base, uint32_t offset, size_t length)
{
    return offset < LINKED_STACK ? to_write(base, offset, length) : among_constants((uint64_t)base + offset, length);
}

INLINE const uint8_t *to_read_anywhere(uint32_t base, uint32_t offset, size_t length)
{
    const uint64_t at = (uint64_t)base + offset;

    return at < LINKED_STACK ? to_write(base, offset, length) : among_constants(at, length);
}

static inline const uint8_t *part_to_read(uint32_t at, size_t length)
{
    return at < LINKED_STACK ? part_to_write(at, length) : among_constants(at, length);
}
#else
#define to_read to_write
#define to_read_anywhere to_write
#define part_to_read part_to_write
#endif

#define DEFINE_LOAD(name, stored, read, given)         \
    DEFINE_LOAD_BY(to_read, name, stored, read, given) \
    DEFINE_LOAD_BY(to_read_anywhere, name##_anywhere, stored, read, given)
#define DEFINE_LOAD_BY(reach, name, stored, read, given)                         \
    INLINE given name(u32 base, u32 offset)                                      \
    {                                                                            \
        stored number;                                                           \
        copy_number(&number, reach(base, offset, sizeof number), sizeof number); \
        return (given)(read)number;                                              \
    }
#define DEFINE_STORE(name, stored, taken)                                           \
    static inline void name(u32 base, u32 offset, taken value)                      \
    {                                                                               \
        const stored number = (stored)value;                                        \
        copy_number(to_write(base, offset, sizeof number), &number, sizeof number); \
    }
#define memory_fill(unused, at, value, length) fill(part_to_write(at, length), (uint8_t)(value), length)
#define memory_copy(unused, as_well, to, from, length) move(part_to_write(to, length), part_to_read(from, length), length)
/* The constants, where there are any, are all the data: else this does not compile. */
#define LOAD_DATA(unused, at, bytes, length) (void)sizeof(char[((at) == LINKED_STACK) == HAS_CONSTANTS ? 1 : -1])

#if defined(__GNUC__)
#pragma GCC diagnostic push
#pragma GCC diagnostic ignored "-Wpedantic"
#pragma GCC diagnostic ignored "-Wunused-function"
#pragma GCC diagnostic ignored "-Wunused-parameter"
#pragma GCC diagnostic ignored "-Wunused-variable"
#pragma GCC diagnostic ignored "-Wunused-but-set-variable"
#pragma GCC diagnostic ignored "-Wunused-label"
#pragma GCC diagnostic ignored "-Wunused-value"
#pragma GCC diagnostic ignored "-Wsign-compare"
#pragma GCC diagnostic ignored "-Wconversion"
#pragma GCC diagnostic ignored "-Wsign-conversion"
#endif
#include "vcube_module.c"
#if defined(__GNUC__)
#pragma GCC diagnostic pop
#endif

#if HAS_CONSTANTS
static const uint8_t *among_constants(uint64_t at, size_t length)
{
    if (length > sizeof vcube_constants || at < LINKED_STACK || at - LINKED_STACK > sizeof vcube_constants - length)
        vcube_rt_trap(WASM_RT_TRAP_OOB);
    return vcube_constants + (size_t)(at - LINKED_STACK);
}
#endif

static VCUBE_PORTABLE_LOCAL Z_vcube_module_instance_t module;
static VCUBE_PORTABLE_LOCAL int is_begun;

/* Where the next buffer of a call goes. */
static VCUBE_PORTABLE_LOCAL uint32_t next;

/* The memory, byte for byte. A pointer to no byte may be NULL. */

static void put_bytes(uint32_t at, const void *from, size_t length)
{
    if (length > 0)
        memcpy(memory + at, from, length);
}

static void get_bytes(uint32_t at, void *to, size_t length)
{
    if (length > 0)
        memcpy(to, memory + at, length);
}

/* Numbers stand in the module with the low byte first. */

static uint64_t get_u64(uint32_t at)
{
    uint64_t number;

    copy_number(&number, memory + at, sizeof number);
    return number;
}

static size_t get_size(uint32_t at)
{
    return (size_t)get_u64(at);
}

/* A call: its buffers, one behind the other. */

/* The module was linked with more of a stack than it takes. Of that it gets the lowest part, and the buffers stand behind. */
static void begin_call(void)
{
    if (!is_begun) {
        Z_vcube_module_instantiate(&module);
        if (module.w2c_g0 != LINKED_STACK)
            vcube_rt_trap(WASM_RT_TRAP_EXHAUSTION);
        module.w2c_g0 = MODULE_STACK;
        is_begun = 1;
    }
    next = MODULE_STACK;
}

#define CALL(function, ...) (uint8_t)Z_vcube_moduleZ_##function(&module, __VA_ARGS__)

/* Room for a buffer of this length, which the call fills. */
static uint32_t room(size_t length)
{
    uint32_t at = next;

    next += ((uint32_t)length + 7) / 8 * 8;
    return at;
}

/* Room for a number that the call gives. */
static uint32_t room_for_number(void)
{
    return room(8);
}

static uint32_t bytes_in(const void *from, size_t length)
{
    uint32_t at = room(length);

    put_bytes(at, from, length);
    return at;
}

/* A buffer longer than the longest that is taken is handed over as one byte longer than that, and so refused by its length. */
static size_t cut(size_t length, size_t longest)
{
    return length > longest ? longest + 1 : length;
}

/* A size that there is no room for is handed over as 0, and so refused as a size. */
static size_t size_in(size_t n)
{
    return n > MOST_STATIONS ? 0 : n;
}

/* What is handed over: where it stands, and its length. */
struct lent {
    uint32_t at;
    size_t length;
};

/* Ends a call that leaves something in what was handed over; a refused one does not. */
static uint8_t give_back(uint8_t number, struct lent lent, uint8_t *to)
{
    if (number == VCUBE_ACCEPTED)
        get_bytes(lent.at, to, lent.length);
    return number;
}
