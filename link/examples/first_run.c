/* Lists a program, loads and runs it, explains why it stopped, and lets it go on. */
#include <inttypes.h>
#include <stdio.h>
#include <string.h>

#include "spectra46.h"

static uint8_t memory[65536];
static uint16_t pages[SPECTRA46_PAGES];
static uint32_t registers[SPECTRA46_REGISTERS];

/* LA 1,5; ALR 1,1; ST 1,0(0,2): twice five, stored where register 2 points. */
static const uint8_t program[] = {0x41, 0x10, 0x00, 0x05, 0x1E, 0x11, 0x50, 0x10, 0x20, 0x00};

/* Shows code that lies at the address start, an instruction a line. Returns whether all of it was listed. */
static int list(const uint8_t *code, size_t size, uint32_t start)
{
    uint8_t text[4096];
    size_t told[SPECTRA46_TOLD]; /* lines, the code byte to go on from, bytes of text */

    while (size > 0) {
        uint32_t number = spectra46_list(code, size, start, text, sizeof text, told, SPECTRA46_TOLD);
        if (number != SPECTRA46_COMPLETED || told[0] == 0)
            return 0;
        fwrite(text, 1, told[2], stdout);
        code += told[1];
        size -= told[1];
        start = (uint32_t)((start + told[1]) % 16777216);
    }
    return 1;
}

/* Why a step was not done. */
static void explain(uint32_t number, uint32_t place)
{
    static const struct {
        const char *before, *after;
    } words[] = {
        [SPECTRA46_ADDRESSING] = {"addressing: no memory at ", ""},
        [SPECTRA46_SPECIFICATION] = {"specification: ", " is off its boundary, or has an odd R1 for a pair"},
        [SPECTRA46_PAGING_QUEUE] = {"paging queue: the page of ", " is not usable"},
        [SPECTRA46_PAGING_ERROR] = {"paging error: the page of ", " does not allow this access"},
        [SPECTRA46_OPERATION] = {"operation: that at ", " is not in the set"},
        [SPECTRA46_OUT_OF_RANGE] = {"out of range: a list's length, counter, code, mask or budget; place ", ""},
        [SPECTRA46_DIVIDE_ERROR] = {"divide error: that at ", " has no quotient that fits"},
    };
    if (number < sizeof words / sizeof words[0] && words[number].before)
        printf("%" PRIu32 ", %s%06" PRIX32 "%s\n", number, words[number].before, place, words[number].after);
    else
        printf("%" PRIu32 ", a number of a later library, at %06" PRIX32 "\n", number, place);
}

int main(void)
{
    /* number, place and count; then counter, code and mask: the start of page 10 */
    uint32_t reply[SPECTRA46_REPLY] = {0, 0, 0, 0x00A000, 0, 0};

    if (spectra46_version() / 256 != SPECTRA46_VERSION / 256) {
        fprintf(stderr, "another library than this program was compiled for\n");
        return 2;
    }
    if (!list(program, sizeof program, 0x00A000)) {
        fprintf(stderr, "the program cannot be listed\n");
        return 1;
    }
    pages[10] = 0x3003; /* page 10 is usable and nonprivileged, on frame 3 */
    memcpy(memory + 3 * 4096, program, sizeof program);
    registers[2] = 0x00B000; /* in page 11, which is not there yet */

    uint32_t number = spectra46_run(memory, sizeof memory, pages, SPECTRA46_PAGES, registers, SPECTRA46_REGISTERS, reply,
                                    SPECTRA46_REPLY, 100);
    printf("%" PRIu32 " steps, ", reply[2]);
    if (number == SPECTRA46_BUDGET_SPENT) {
        printf("budget spent\n");
    } else {
        printf("then ");
        explain(number, reply[1]);
    }

    pages[11] = 0x3004; /* page 11 on frame 4 */
    number = spectra46_step(memory, sizeof memory, pages, SPECTRA46_PAGES, registers, SPECTRA46_REGISTERS, reply, SPECTRA46_REPLY);
    if (number != SPECTRA46_COMPLETED) {
        explain(number, reply[1]);
        return 1;
    }
    printf("stored %d\n", memory[4 * 4096 + 3]);
    return 0;
}
