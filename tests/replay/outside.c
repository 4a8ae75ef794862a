/* Whether the portable C keeps the module in its memory: a load or store that is wholly inside, or a load that is wholly among the constants, is
 * made; any other traps. Addresses are tried around each end, with sums past 2^32 among them. Behind what calls use, as far as the memory goes,
 * either is right. */
#include <setjmp.h>

static jmp_buf trapped;
#define VCUBE_PORTABLE_TRAP longjmp(trapped, 1);
#include "vcube_portable.c"

#include <stdio.h>

enum reach { STORE, LOAD, LOAD_ANYWHERE };
static const uint32_t widths[] = {1, 2, 4, 8};

/* One access; whether it was made. */
static int is_made(enum reach reach, uint32_t width, uint32_t base, uint32_t offset, uint64_t *number)
{
    if (setjmp(trapped) != 0)
        return 0;
    switch ((int)width * 4 + (int)reach) {
    case 4 + STORE: i64_store8(base, offset, *number); break;
    case 8 + STORE: i64_store16(base, offset, *number); break;
    case 16 + STORE: i64_store32(base, offset, *number); break;
    case 32 + STORE: i64_store(base, offset, *number); break;
    case 4 + LOAD: *number = i64_load8_u(base, offset); break;
    case 8 + LOAD: *number = i64_load16_u(base, offset); break;
    case 16 + LOAD: *number = i64_load32_u(base, offset); break;
    case 32 + LOAD: *number = i64_load(base, offset); break;
    case 4 + LOAD_ANYWHERE: *number = i64_load8_u_anywhere(base, offset); break;
    case 8 + LOAD_ANYWHERE: *number = i64_load16_u_anywhere(base, offset); break;
    case 16 + LOAD_ANYWHERE: *number = i64_load32_u_anywhere(base, offset); break;
    default: *number = i64_load_anywhere(base, offset);
    }
    return 1;
}

/* A part of the memory, or of the constants if it is to be read; whether it is handed out. */
static int is_part(enum reach reach, uint32_t at, size_t length)
{
    if (setjmp(trapped) != 0)
        return 0;
    if (reach == STORE)
        part_to_write(at, length);
    else
        part_to_read(at, length);
    return 1;
}

/* What must be so of the bytes from an address on: that they are reached, that they are not, or either. */
static int must_be_made(int may_be_constants, uint64_t at, uint64_t length, int is_made_here)
{
    if (at + length <= sizeof memory - MARGIN)
        return 1;
    if (at + length <= sizeof memory)
        return is_made_here;
    return may_be_constants && at >= LINKED_STACK && at + length <= LINKED_STACK + sizeof vcube_constants;
}

/* The number that so many bytes make, the low one first. */
static uint64_t number_at(uint64_t at, uint32_t width)
{
    const uint8_t *bytes = at < LINKED_STACK ? memory + at : vcube_constants + (at - LINKED_STACK);
    uint64_t number = 0;

    while (width-- > 0)
        number = number << 8 | bytes[width];
    return number;
}

static int fails(const char *what, enum reach reach, uint32_t width, uint32_t base, uint32_t offset)
{
    static const char *const names[] = {"a store", "a load", "a load from anywhere"};

    fprintf(stderr, "outside: %s of %u bytes at %lu + %lu %s\n", names[reach], (unsigned)width, (unsigned long)base, (unsigned long)offset,
            what);
    return 1;
}

static int try_access(enum reach reach, uint32_t width, uint32_t base, uint32_t offset)
{
    const uint64_t at = (uint64_t)base + offset, stored = 0x0123456789abcdefu;
    const int may_be_constants = reach == LOAD_ANYWHERE || (reach == LOAD && offset >= LINKED_STACK);
    uint64_t number = stored;
    const int is_made_here = is_made(reach, width, base, offset, &number);

    if (is_made_here != must_be_made(may_be_constants, at, width, is_made_here))
        return fails(is_made_here ? "does not trap" : "traps", reach, width, base, offset);
    if (is_made_here && number_at(at, width) != (reach == STORE && width < 8 ? stored & (((uint64_t)1 << 8 * width) - 1) : number))
        return fails("is of other bytes", reach, width, base, offset);
    return 0;
}

int main(void)
{
    const uint64_t ends[] = {0, sizeof memory, LINKED_STACK, LINKED_STACK + sizeof vcube_constants, (uint64_t)1 << 32};
    const uint64_t count = sizeof ends / sizeof *ends;
    uint64_t tried = 0;
    int failed = 0;

    for (size_t k = 0; k < sizeof memory; k++)
        memory[k] = (uint8_t)(k * 7 + k / 256);
    for (uint64_t k = 0; k < count * count * 40 * 40; k++) {
        const uint64_t base = ends[k / 1600 / count] + k / 40 % 40 - 20, offset = ends[k / 1600 % count] + k % 40 - 20;
        if (base >> 32 != 0 || offset >> 32 != 0)
            continue;
        for (int reach = STORE; reach <= LOAD_ANYWHERE; reach++)
            for (int width = 0; width < 4; width++, tried++)
                failed |= try_access((enum reach)reach, widths[width], (uint32_t)base, (uint32_t)offset);
        for (int reach = STORE; reach <= LOAD; reach++, tried++)
            if (is_part((enum reach)reach, (uint32_t)base, (uint32_t)offset) !=
                (base + offset <= sizeof memory ||
                 (reach == LOAD && base >= LINKED_STACK && base + offset <= LINKED_STACK + sizeof vcube_constants)))
                failed |= fails("is right or wrong as a part of that length", (enum reach)reach, 0, (uint32_t)base, (uint32_t)offset);
        if (failed)
            return 1;
    }
    printf("%lu accesses inside, outside and across each end\n", (unsigned long)tried);
    return 0;
}
