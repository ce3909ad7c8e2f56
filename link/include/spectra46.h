/* The Spectra 70/46 engine, as linked from libouter.a: a single step, a run, a bench sheet's answer, and a listing of code.
 *
 * Each list is a pointer and its number of elements. No pointer may be null, not even of an empty list; each must be aligned for
 * its type; no list that a function may write to may overlap another list of the same call. The engine keeps nothing between two
 * calls and never reads or writes beyond the lists, so calls with lists of their own may run at the same time.
 *
 * The machine that step and run are lent:
 *
 *   mem    real memory: 4,096 to 262,144 bytes, a multiple of 4,096
 *   map    translation memory: 512 page words. From the leftmost bit: W written, G accessed, U usable, S nonprivileged, E not to
 *          be written, M a 2,048-byte page, H its upper half, three X bits (zero), six bits of frame (a frame is 4,096 bytes)
 *   regs   the 16 general registers
 *   reply  six numbers:
 *            reply[0]  out: the number (below)
 *            reply[1]  out: the place, a 24-bit virtual address, or 0
 *            reply[2]  out: the count, how many steps completed
 *            reply[3]  in and out: the program counter, 0 to 16,777,215
 *            reply[4]  in and out: the condition code, 0 to 3
 *            reply[5]  in and out: the program mask, 0 to 15
 *          What reply[0] to reply[2] hold before the call does not matter.
 *
 * Byte order: mem is bytes as the 70/46 has them, so a word or halfword lies in it with its highest byte first. map, regs and reply
 * are numbers of the host, in the host's byte order: a page word 3003 is the number 0x3003, and its leftmost bit is 0x8000.
 *
 * The numbers, which a function also returns:
 *
 *   0  completed: a single step, with place 0 and count 1; or a listing
 *   1  addressing: an address of 2,097,152 or more, or a real address beyond memory. Place: the first failing byte
 *   2  specification: an odd program counter, an odd R1 where the instruction needs a pair of registers, or an operand off its
 *      boundary. Place: the counter, or the operand's address
 *   3  paging queue: the page is not usable (U reset). Place: the first failing byte
 *   4  paging error: an X bit set, past the end of a 2,048-byte page, S reset, or a store where E is set. Place: the first failing
 *      byte
 *   5  the operation is not in the set. Place: the program counter
 *   6  a list of the wrong length, or counter, code, mask, budget or a listing's start out of range. Place 0, count 0
 *   7  the budget is spent: a run only. Place 0, count is the budget
 *   8  divide error: the divisor is zero, or the quotient does not fit a register. Place: the program counter
 *
 * Number 6 alters nothing at all. Numbers 1 to 5 and 8 leave memory, registers, counter, code and mask as they were after the steps that
 * count tells, and the map too, but for one mark: G (0x4000) is set on each page from which a halfword of the refused instruction was
 * fetched. At an odd counter nothing is fetched; of an operation that is not in the set only the first halfword is; a page that was only
 * looked up for an operand gets no mark. So the cause can be mended and the same lists lent again: the same instruction is tried anew.
 *
 * Versions. A caller compares the library that it is linked with to the header that it was compiled with, before any other call:
 *
 *     if (spectra46_version() / 256 != SPECTRA46_VERSION / 256) ... another library: use nothing of it
 *
 * While the first two numbers of the version stay, so do the functions here, their parameters and the order of these, the lengths of
 * the lists, the reply's six numbers and their order, the form of a listing's lines and what is told of it, and what the numbers 0 to 8
 * mean. The third number moves for what no caller has to know. When the second moves, any of this may have changed, and CHANGELOG.md
 * says what.
 *
 * Numbers beyond 8 may be added in any version. A caller must take every number that it does not know as a refusal: the step was
 * not done, nothing was listed. So ask whether the number is SPECTRA46_COMPLETED after a step or a listing and SPECTRA46_BUDGET_SPENT
 * after a run, never whether it is one of the refusals. */
#ifndef SPECTRA46_H
#define SPECTRA46_H

#include <stddef.h>
#include <stdint.h>

#ifdef __cplusplus
extern "C" {
#endif

/* This header's version, 0.6.0, as one number: major * 65,536 + minor * 256 + patch. */
#define SPECTRA46_VERSION 1536

enum {
    SPECTRA46_COMPLETED = 0,
    SPECTRA46_ADDRESSING = 1,
    SPECTRA46_SPECIFICATION = 2,
    SPECTRA46_PAGING_QUEUE = 3,
    SPECTRA46_PAGING_ERROR = 4,
    SPECTRA46_OPERATION = 5,
    SPECTRA46_OUT_OF_RANGE = 6,
    SPECTRA46_BUDGET_SPENT = 7,
    SPECTRA46_DIVIDE_ERROR = 8
};

#define SPECTRA46_PAGES 512
#define SPECTRA46_REGISTERS 16
#define SPECTRA46_REPLY 6
#define SPECTRA46_ROOM 8192
#define SPECTRA46_TOLD 3
#define SPECTRA46_LINE_LONGEST 33

/* The version of the library that is linked, in the form of SPECTRA46_VERSION. */
uint32_t spectra46_version(void);

/* One instruction. Returns 0 to 6, or 8.
 * Where reply_len is not 6, returns 6 and writes nothing at all; any other 6 writes 6, 0, 0 to reply[0] to reply[2] and no more. */
uint32_t spectra46_step(uint8_t *mem, size_t mem_len,
                        uint16_t *map, size_t map_len,
                        uint32_t *regs, size_t regs_len,
                        uint32_t *reply, size_t reply_len);

/* At most budget instructions, 0 to 65,535, up to the first refusal. Returns 1 to 8, and 7 with count 0 for budget 0.
 * A reply_len that is not 6, and any other 6, are as for a step. */
uint32_t spectra46_run(uint8_t *mem, size_t mem_len,
                       uint16_t *map, size_t map_len,
                       uint32_t *regs, size_t regs_len,
                       uint32_t *reply, size_t reply_len,
                       uint32_t budget);

/* The answer to a bench sheet of any length, a BAD line where it is misformed, written to room with zeros after it.
 * Returns the answer's length, 1 to 8,192. room_len must be 8,192: with any other, returns 0 and writes nothing. */
size_t spectra46_sheet(const uint8_t *sheet, size_t sheet_len, uint8_t *room, size_t room_len);

/* A listing of code, of any length, whose first byte lies at the address start: one instruction a line, as many lines as fit out whole.
 * The code is only read, and never run. As everywhere, code, out and told may not overlap.
 *
 * A line is address, operation name and operands, parted by tabs, and LF; there is no zero behind it. The address is six hex digits.
 * The name is the manual's, and the operands are every field of the instruction's format: docs/RULES.md, section 12, has their form.
 * Bytes that are no instruction of the set, or that belong to one which the code's end cuts off, have a line with the name DC and the
 * raw bytes as X'..': two of them, or the one that is left. The next line is that of the byte behind them. No byte is listed twice or
 * left out. Addresses wrap at 2^24.
 *
 * told is three numbers, all out:
 *   told[0]  how many lines were written
 *   told[1]  the code byte to go on from: all before it is listed. It is code_len when all is
 *   told[2]  how many bytes of out the lines take, from out[0] on. The rest of out is as it was
 * The first line that does not fit ends it; a shorter one after it is not tried.
 *
 * To go on, call again with code + told[1], code_len - told[1] and (start + told[1]) % 16,777,216.
 *
 * SPECTRA46_LINE_LONGEST is the longest line, its LF included: with so much room a call always gets on, where there is code left. Later
 * versions may have longer lines. Who wants to be safe with those as well gives more room, 4,096 bytes say, and takes it as an error if
 * told[0] is 0 while code is left.
 *
 * Returns 0; or 6 where start is 16,777,216 or more: then told is 0, 0, 0 and out is as it was. Where told_len is not 3, returns 6 and
 * writes nothing at all. With a number that the caller does not know, out and told say nothing. */
uint32_t spectra46_list(const uint8_t *code, size_t code_len, uint32_t start,
                        uint8_t *out, size_t out_len,
                        size_t *told, size_t told_len);

#ifdef __cplusplus
}
#endif

#endif
