/* The worked cases of document 01 that are run and not proved: moves from the first of the 0x20000001 cuts, by the list
   runner, and the no-op at the end of the address space, by the machine; a pass of the sweeper (document 02, 10);
   and a run with a watch record (document 02, 14). One line for each check. */
#include <stdio.h>
#include <string.h>

#include "oddersnow.h"

static int failed;

static void check(const char *name, int good)
{
    printf("%s %s\n", good ? "ok" : "FAIL", name);
    if (!good)
        failed = 1;
}

/* The tag after a move from the cut of 511 bytes at 0x20000001; 2 where something else went wrong. */
static uint32_t tag_after_move(uint32_t to)
{
    uint32_t kinds[3] = {2, 0, 2}, values[3] = {0x20000001, 511, to}, out[9];
    uint32_t number = oddersnow_calls(0, 0x7E3E0000, 1, kinds, 3, values, 3, out, 9);
    if (number != 0 || out[2] != 1 || out[5] != 1 || out[6] != to || out[7] != out[4])
        return 2;
    return out[8];
}

/* A no-op in the last word of the address space, by a PCC of its last 4,096 bytes. */
static void last_instruction(void)
{
    uint32_t kinds[3] = {2, 1, 2}, values[3] = {0xFFFFF000, 0x1000, 0xFFFFFFFC}, out[9];
    uint32_t regs[72] = {0}, before[72];
    uint8_t mem[64] = {0}, tags[1] = {0}, revoked[1] = {0};
    check("the PCC of the last page", oddersnow_calls(0, 0x5E3E0000, 1, kinds, 3, values, 3, out, 9) == 0 && out[8] == 1);
    check("its low bound", oddersnow_bounds_low(out[6], out[7]) == 0xFFFFF000);
    check("its high bound", oddersnow_bounds_high(out[6], out[7]) == 0x100000000);
    memcpy(&regs[48], &out[6], 12);
    mem[60] = 0x13; /* ADDI x0, x0, 0 */
    memcpy(before, regs, sizeof regs);
    check("a no-op at 0xFFFFFFFC retires", oddersnow_step(regs, 72, 0xFFFFFFC0, mem, 64, tags, 1, 0, 64, revoked, 1, 0) == 1);
    check("the next PCC is untagged at 0", regs[48] == 0 && regs[49] == before[49] && regs[50] == 0);
    memcpy(&regs[48], &before[48], 12);
    check("time is one more", regs[68] == 1);
    regs[68] = 0;
    check("and nothing else changed", memcmp(regs, before, sizeof regs) == 0);
}

/* A pass over 64 bytes: granule 1 holds [0x20000010, 0x20000020), granule 7 the same, and the granule of that low bound is revoked. */
static void pass(void)
{
    uint32_t held[2] = {0x20000018, 0x7E004010}, granule = 0;
    uint8_t mem[64] = {0}, before[64], tags[1] = {0x83}, revoked[1] = {1 << 2};
    uint64_t answer = 0;
    int visits = 0;
    memcpy(&mem[8], held, 8);
    memcpy(&mem[56], held, 8);
    memcpy(before, mem, sizeof mem);
    do {
        answer = oddersnow_sweep(0x20000000, mem, 64, tags, 1, 0, 64, revoked, 1, granule);
        granule = oddersnow_next(answer);
        visits++;
    } while (oddersnow_number(answer) == 0 && !oddersnow_last(answer) && visits < 9);
    check("a pass visits eight granules, and the last one says so", visits == 8 && answer == 0x100000000);
    check("it takes the tags of what is revoked, and no other", tags[0] == 1);
    check("and no byte", memcmp(mem, before, sizeof mem) == 0 && revoked[0] == 1 << 2);
    answer = oddersnow_sweep(0x20000000, mem, 64, tags, 1, 0, 64, revoked, 1, 8);
    check("a number with no granule is refusal 9", answer == (uint64_t)9 << 48);
}

/* SW x0, 60(x1) and a jump back to it, 60 bytes from the end of the address space, by either engine: ranges at the ends of the store, and past
 * 2^32. */
static void watched(__typeof__(oddersnow_run_watched) *run)
{
    uint32_t regs[72] = {0}, code[2] = {0x0200AE23, 0xFFDFF06F}, first = 0, second = 0xFFFFFFFE;
    uint32_t at = 0xFFFFFFC0, bytes = 0xFFFFFFFC;
    uint8_t mem[64] = {0}, tags[1] = {0}, revoked[1] = {0};
    uint64_t answer;
    memcpy(mem, code, sizeof code);
    regs[3] = at, regs[4] = 0x7E3E0000, regs[5] = 1;
    regs[48] = at, regs[49] = 0x5E3E0000, regs[50] = 1;
    answer = run(regs, 72, at, mem, 64, tags, 1, 0, 64, revoked, 1, 0, 300, bytes - 4, 5, &first, bytes + 3, 0xFFFFFFFF, &second);
    check("a run with a watch record answers as a run", answer == 300);
    check("each store counts for a range that ends at its first byte", first == 150);
    check("and for one that runs from its last byte past 2^32, up to the last count", second == 0xFFFFFFFF);
    answer = run(regs, 72, at, mem, 64, tags, 1, 0, 64, revoked, 1, 0, 300, bytes, 0, &first, bytes - 4, 4, &second);
    check("an empty range and one that ends before it stay", answer == 300 && first == 150 && second == 0xFFFFFFFF);
    answer = run(regs, 72, at, mem, 64, tags, 1, 0, 64, revoked, 1, 2, 300, bytes, 4, &first, bytes, 4, &second);
    check("a refused run leaves the counts", oddersnow_number(answer) == 7 && first == 150 && second == 0xFFFFFFFF);
}

int main(void)
{
    check("a move to 0x20000200 keeps the tag", tag_after_move(0x20000200) == 1);
    check("a move to 0x20000201 clears it", tag_after_move(0x20000201) == 0);
    check("a move to 0x20000000 clears it", tag_after_move(0x20000000) == 0);
    last_instruction();
    pass();
    watched(oddersnow_run_watched);
    watched(oddersnow_run_quick);
    return failed;
}
