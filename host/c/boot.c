/*
 * The library as a boot loader has it: freestanding, with no C library, on a stack of its own that is as large as the header says, on x86-64, AArch64,
 * ARMv7-A and RISC-V. Writes a page of two blocks (case E of document 01), damages it, looks at it and takes it, then ruins it, takes a message in
 * pieces, reads an erased page, writes and reads one around a factory's mark, and one of edition 2 with 62 flips. The exit status is 0 where every byte
 * is as it should be, and else the number of the first step that was not.
 */
#include "rudderfig.h"

/* What the archive needs from its surroundings. The empty statements keep the compiler from making calls of memcpy and memset out of these loops. */

void *memcpy(void *restrict to, const void *restrict from, size_t n)
{
    uint8_t *out = to;
    const uint8_t *in = from;
    for (; n > 0; n--) {
        *out++ = *in++;
        __asm__ volatile("" : : : "memory");
    }
    return to;
}

void *memset(void *to, int value, size_t n)
{
    uint8_t *out = to;
    for (; n > 0; n--) {
        *out++ = (uint8_t)value;
        __asm__ volatile("" : : : "memory");
    }
    return to;
}

#if defined(__arm__)
/* Where a processor has no instruction to divide, the compiler's own function does it, and would call this for a divisor of 0; the library has none. */
int raise(int signal)
{
    return signal;
}
#endif

static int same(const uint8_t *found, const uint8_t *wanted, size_t n)
{
    size_t i = 0;
    while (i < n && found[i] == wanted[i])
        i++;
    return i == n;
}

enum { EDITION = 1, STRONG_EDITION = 2 };

static const uint8_t record[8] = {0x01, 0x00, 0x08, 0x01, 0x00, 0x0F, 0x08, 0x01};
static const uint8_t payload[8] = {0x01, 0x23, 0x45, 0x67, 0x89, 0xAB, 0xCD, 0xEF};
static const uint8_t written[15] = {0x01, 0x23, 0x45, 0x67, 0x32, 0x8F, 0xB5, 0x62, 0x6A, 0xF3, 0x7B, 0xC5, 0xFC, 0x52, 0x9F};

static uint64_t look(const uint8_t *page, uint8_t *counts)
{
    return rudderfig_look_page(EDITION, record, sizeof record, page, sizeof written, counts, 2);
}

static uint64_t take(const uint8_t *page, uint8_t *data)
{
    return rudderfig_take_page(EDITION, record, sizeof record, page, sizeof written, NULL, 0, data, sizeof payload);
}

/* Looks at a page and then takes it: whether both are done. */
static int read_into(const uint8_t *page, uint8_t *data, uint8_t *counts)
{
    return look(page, counts) == RUDDERFIG_DONE && take(page, data) == RUDDERFIG_DONE;
}

/* Whether both calls refuse a page for a block: the counts are these two, and the data keeps what it held. */
static int refused(const uint8_t *page, unsigned block, uint8_t count_0, uint8_t count_1)
{
    static const uint8_t held[8] = {0x5A, 0x5A, 0x5A, 0x5A, 0x5A, 0x5A, 0x5A, 0x5A};
    uint8_t data[8], counts[2] = {0x5A, 0x5A};
    uint64_t looked = look(page, counts), taken;

    memset(data, 0x5A, sizeof data);
    taken = take(page, data);
    if (rudderfig_reply(looked) != RUDDERFIG_UNCORRECTABLE || rudderfig_block(looked) != block || rudderfig_value(looked) != 0 || taken != looked)
        return 0;
    return counts[0] == count_0 && counts[1] == count_1 && same(data, held, sizeof data);
}

/* The page of all zeros has only the tail bits set; with bit 57 of block 0 turned over it reads as zeros again, with counts 1 and 0. */
static int zeros_read_back(void)
{
    static const uint8_t zeros[15] = {[14] = 0x0F};
    static const uint16_t right[1] = {57}, twice[2] = {57, 57};
    uint8_t page[15], data[8] = {0}, counts[2] = {9, 9};
    if (rudderfig_write_page(EDITION, record, sizeof record, NULL, 0, data, sizeof data, page, sizeof page) != RUDDERFIG_DONE)
        return 0;
    if (!same(page, zeros, sizeof page))
        return 0;
    page[0] = 0x80;
    data[3] = 0xFF;
    if (!read_into(page, data, counts) || !same(data, zeros, sizeof data) || counts[0] != 1 || counts[1] != 0)
        return 0;
    return rudderfig_check_claim(EDITION, record, sizeof record, page, sizeof page, 0, right, 1) == RUDDERFIG_DONE
        && rudderfig_check_claim(EDITION, record, sizeof record, page, sizeof page, 0, twice, 2) == RUDDERFIG_CLAIM_WRONG;
}

/* The message of block 0 in two pieces, with a refused piece and an early finish between them: the 26 bits that the page has after it, right-aligned. */
static int pieces_finish(void)
{
    static const uint8_t stored[4] = {0x00, 0xCA, 0x3E, 0xD5};
    struct rudderfig_parity state;
    uint8_t parity[4] = {0};

    memset(&state, 0xA5, sizeof state);
    if (rudderfig_parity_feed(&state, payload, 1) != RUDDERFIG_OUT_OF_RANGE || rudderfig_parity_start(&state, EDITION, 1, 0, 4) != RUDDERFIG_DONE)
        return 0;
    if (rudderfig_parity_feed(&state, payload, 3) != RUDDERFIG_DONE || rudderfig_parity_feed(&state, payload, 2) != RUDDERFIG_BUFFER_LENGTH)
        return 0;
    if (rudderfig_parity_finish(&state, parity, sizeof parity) != RUDDERFIG_BUFFER_LENGTH)
        return 0;
    if (rudderfig_parity_feed(&state, payload + 3, 1) != RUDDERFIG_DONE)
        return 0;
    return rudderfig_parity_finish(&state, parity, sizeof parity) == RUDDERFIG_DONE && same(parity, stored, sizeof stored);
}

/* A page that was never written is told from a ruined one: each block is erased, and with three zeros, more than t = 2, block 1 is ruined. */
static int erased_is_not_ruined(void)
{
    uint8_t page[15], data[8], counts[2];

    memset(page, 0xFF, sizeof page);
    page[12] = 0xFE;
    if (!read_into(page, data, counts) || !rudderfig_is_erased(counts[0]) || !rudderfig_is_erased(counts[1]))
        return 0;
    if (rudderfig_zeros(counts[0]) != 0 || rudderfig_zeros(counts[1]) != 1 || data[0] != 0xFF || data[7] != 0xFF)
        return 0;
    page[8] = 0xFC;
    return refused(page, 1, 128, RUDDERFIG_RUINED);
}

/* The page with a mark of two bytes where block 0 ends and block 1 starts: the writer leaves it alone, and the reader does not mind what it holds. */
static int mark_is_left_alone(void)
{
    static const uint8_t marked[12] = {0x01, 0x00, 0x08, 0x01, 0x00, 0x11, 0x08, 0x01, 0x00, 0x07, 0x02, 0x00};
    uint8_t page[17], data[8], counts[2];

    memset(page, 0x3C, sizeof page);
    if (rudderfig_write_page(EDITION, marked, sizeof marked, NULL, 0, payload, sizeof payload, page, sizeof page) != RUDDERFIG_DONE)
        return 0;
    if (!same(page, written, 7) || page[7] != 0x3C || page[8] != 0x3C || !same(page + 9, written + 7, 8))
        return 0;
    if (!rudderfig_in_mark(rudderfig_locate_bit(EDITION, marked, sizeof marked, 71)) || rudderfig_in_mark(rudderfig_locate_bit(EDITION, marked, sizeof marked, 72)))
        return 0;
    page[7] = 0x00;
    page[9] ^= 0x10;
    if (rudderfig_look_page(EDITION, marked, sizeof marked, page, sizeof page, counts, 2) != RUDDERFIG_DONE || counts[0] != 0 || counts[1] != 1)
        return 0;
    if (rudderfig_take_page(EDITION, marked, sizeof marked, page, sizeof page, NULL, 0, data, sizeof data) != RUDDERFIG_DONE)
        return 0;
    return same(data, payload, sizeof data);
}

/* One block of 4 bytes with m = 14 and t = 62, which edition 1 does not have: 62 flips are repaired. */
static int strong_level_reads_back(void)
{
    static const uint8_t strong[8] = {0x00, 0x00, 0xFC, 0x01, 0x00, 0x71, 0x00, 0x00};
    uint8_t page[113], data[4], count;

    if (rudderfig_check_layout(EDITION, strong, sizeof strong) != RUDDERFIG_LEVEL_TOO_HIGH)
        return 0;
    if (rudderfig_write_page(STRONG_EDITION, strong, sizeof strong, NULL, 0, payload, sizeof data, page, sizeof page) != RUDDERFIG_DONE)
        return 0;
    for (size_t i = 0; i < 7; i++)
        page[i] ^= 0xFF;
    page[112] ^= 0xF0;
    page[111] ^= 0x03;
    if (rudderfig_look_page(STRONG_EDITION, strong, sizeof strong, page, sizeof page, &count, 1) != RUDDERFIG_DONE || count != 62)
        return 0;
    if (rudderfig_take_page(STRONG_EDITION, strong, sizeof strong, page, sizeof page, NULL, 0, data, sizeof data) != RUDDERFIG_DONE)
        return 0;
    return same(data, payload, sizeof data);
}

static int boot(void)
{
    uint8_t page[15], data[8], counts[2];
    uint64_t answer;

    if (rudderfig_check_layout(EDITION, record, sizeof record) != RUDDERFIG_DONE || rudderfig_check_layout(EDITION, NULL, 0) != RUDDERFIG_BUFFER_LENGTH)
        return 1;
    answer = rudderfig_locate_bit(EDITION, record, sizeof record, 59);
    if (rudderfig_in_tail(answer) || rudderfig_located_block(answer) != 1 || rudderfig_located_exponent(answer) != 56)
        return 2;
    if (rudderfig_value(rudderfig_bit_position(EDITION, record, sizeof record, 1, 56)) != 59)
        return 3;
    if (!rudderfig_in_tail(rudderfig_locate_bit(EDITION, record, sizeof record, 116)))
        return 4;

    answer = rudderfig_write_page(EDITION, record, sizeof record, NULL, 0, payload, sizeof payload, page, sizeof page);
    if (answer != RUDDERFIG_DONE || !same(page, written, sizeof page))
        return 5;

    /* Two flips in block 0, one in block 1, and all tail bits. */
    page[0] ^= 0x81;
    page[7] ^= 0x10;
    page[14] ^= 0x0F;
    if (rudderfig_value(rudderfig_judge_block(EDITION, record, sizeof record, page, sizeof page, 0)) != 2)
        return 6;
    if (!read_into(page, data, counts) || !same(data, payload, sizeof data) || counts[0] != 2 || counts[1] != 1)
        return 7;

    /* A third flip in block 0 leaves no codeword near: the page is refused, though a look counts both blocks. */
    page[1] ^= 0x80;
    if (!refused(page, 0, RUDDERFIG_RUINED, 1))
        return 8;

    if (!zeros_read_back())
        return 9;
    if (!pieces_finish())
        return 10;
    if (!erased_is_not_ruined())
        return 11;
    if (!mark_is_left_alone())
        return 12;
    return strong_level_reads_back() ? 0 : 13;
}

/* A stack of the size that the header names and what this program itself uses, between two filled areas that the calls must leave alone. */

enum { OWN = 1024, AROUND = 4096 };

static _Alignas(16) uint8_t stack[AROUND + RUDDERFIG_STACK + OWN + AROUND];

static int untouched(const uint8_t *area)
{
    size_t i = 0;
    while (i < AROUND && area[i] == 0xA5)
        i++;
    return i == AROUND;
}

/* boot_on_own_stack calls run_boot with the stack pointer at top; the program starts at _start and ends with start's answer as its status. */

int boot_on_own_stack(uint8_t *top);

#if defined(__x86_64__)
__asm__(
    ".globl boot_on_own_stack\n"
    "boot_on_own_stack:\n"
    "    push %rbx\n"
    "    mov %rsp, %rbx\n"
    "    mov %rdi, %rsp\n"
    "    call run_boot\n"
    "    mov %rbx, %rsp\n"
    "    pop %rbx\n"
    "    ret\n"
    ".globl _start\n"
    "_start:\n"
    "    call start\n"
    "    mov %eax, %edi\n"
    "    mov $60, %eax\n"
    "    syscall\n");
#elif defined(__aarch64__)
__asm__(
    ".globl boot_on_own_stack\n"
    "boot_on_own_stack:\n"
    "    stp x29, x30, [sp, #-16]!\n"
    "    mov x29, sp\n"
    "    mov sp, x0\n"
    "    bl run_boot\n"
    "    mov sp, x29\n"
    "    ldp x29, x30, [sp], #16\n"
    "    ret\n"
    ".globl _start\n"
    "_start:\n"
    "    bl start\n"
    "    mov x8, #93\n"
    "    svc #0\n");
#elif defined(__arm__)
__asm__(
    ".syntax unified\n"
    ".arm\n"
    ".globl boot_on_own_stack\n"
    ".type boot_on_own_stack, %function\n"
    "boot_on_own_stack:\n"
    "    push {r4, lr}\n"
    "    mov r4, sp\n"
    "    mov sp, r0\n"
    "    bl run_boot\n"
    "    mov sp, r4\n"
    "    pop {r4, pc}\n"
    ".globl _start\n"
    ".type _start, %function\n"
    "_start:\n"
    "    bl start\n"
    "    mov r7, #1\n"
    "    svc #0\n");
#elif defined(__riscv) && __riscv_xlen == 64
__asm__(
    ".globl boot_on_own_stack\n"
    "boot_on_own_stack:\n"
    "    addi sp, sp, -16\n"
    "    sd ra, 8(sp)\n"
    "    sd s0, 0(sp)\n"
    "    mv s0, sp\n"
    "    mv sp, a0\n"
    "    call run_boot\n"
    "    mv sp, s0\n"
    "    ld ra, 8(sp)\n"
    "    ld s0, 0(sp)\n"
    "    addi sp, sp, 16\n"
    "    ret\n"
    ".globl _start\n"
    "_start:\n"
    ".option push\n"
    ".option norelax\n"
    "    la gp, __global_pointer$\n"
    ".option pop\n"
    "    call start\n"
    "    li a7, 93\n"
    "    ecall\n");
#endif

int run_boot(void)
{
    return boot();
}

int start(void)
{
    int step;
    memset(stack, 0xA5, sizeof stack);
    step = boot_on_own_stack(stack + sizeof stack - AROUND);
    if (step != 0)
        return step;
    return untouched(stack) && untouched(stack + sizeof stack - AROUND) ? 0 : 14;
}
