/* Oddersnow: the CHERIoT bench machine, its cutter and lists of its calls, map sheets and images, for C.
 *
 * Numbers and slices only. A slice is a pointer and a count of elements. Every function takes any
 * numbers and any slices, answers by a number, and keeps nothing between calls; a slice may be empty, and
 * one that is written overlaps no other of the same call. What each function answers is proved; "number"
 * below is document 01's number of an answer, 0 where nothing is refused.
 *
 *   libraries: `packaging/proved label` has the first six functions (target/staticlib/liblabel.a),
 *   `packaging/proved call_lists` oddersnow_calls (target/staticlib/libcall_lists.a), `packaging/proved bench_api`
 *   oddersnow_step, oddersnow_run, oddersnow_run_watched, oddersnow_run_quick and oddersnow_sweep (target/staticlib/libbench_api.a),
 *   `packaging/proved sheet_api` the functions about sheets (target/staticlib/libsheet_api.a), `packaging/proved listing_api`
 *   oddersnow_list and oddersnow_assemble (target/staticlib/liblisting_api.a), `packaging/proved reach` oddersnow_reach and
 *   oddersnow_reach_outside (target/staticlib/libreach.a). A program may link all of them.
 */
#ifndef ODDERSNOW_H
#define ODDERSNOW_H

#include <stddef.h>
#include <stdint.h>

#ifdef __cplusplus
extern "C" {
#endif

/* The cut of the request [base, base + length): the least region that a capability can have and that
 * contains the request. Refused, with number 6, exactly where base + length > 2^32: there is no region then,
 * and the other three answer 0.
 *
 * low and high are the region's bounds, high up to 2^32. exact is 1 if the region is the request, else 0.
 */
uint32_t oddersnow_cut_number(uint32_t base, uint32_t length);
uint32_t oddersnow_cut_low(uint32_t base, uint32_t length);
uint64_t oddersnow_cut_high(uint32_t base, uint32_t length);
uint32_t oddersnow_cut_exact(uint32_t base, uint32_t length);

/* The bounds that a metadata word gives at an address; low is below 2^32 and high below 2^33. */
uint32_t oddersnow_bounds_low(uint32_t address, uint32_t metadata);
uint64_t oddersnow_bounds_high(uint32_t address, uint32_t metadata);

/* A list of calls, all on one capability: the first call gets the address, metadata and tag given here, each
 * later one what the call before it returned. Call i is kinds[i] with values[i]:
 *
 *   0  a cut to a length (CSetBounds)       2  a move to an address
 *   1  an exact cut to a length             3  a narrowing of the rights by a mask
 *
 * out takes the address, metadata and tag that call i returned, from out[3 * i] on. A call that clears the tag is
 * no refusal: the list goes on. From a tagged and unsealed capability with low <= high <= 2^32, the last tag is set
 * exactly if every call kept it, and then the last capability lies inside the first and has no right that the
 * first lacked.
 *
 * The answer is 0, or one of these numbers with nothing changed; the lowest wins:
 *
 *   4   tag is not 0 or 1 (document 01's number for such a word)
 *   11  values_len is not kinds_len, or out_len is not 3 * kinds_len
 *   12  a kind is not 0 to 3
 */
uint32_t oddersnow_calls(uint32_t address, uint32_t metadata, uint32_t tag,
                         const uint32_t *kinds, size_t kinds_len,
                         const uint32_t *values, size_t values_len, uint32_t *out, size_t out_len);

/* One step of the machine, and a run of `steps` steps. What is lent:
 *
 *   regs     72 words: the capabilities c0 to c15, PCC, MTCC, MTDC, MScratchC and MEPCC, each as address,
 *            metadata and tag (0 or 1), then mstatus, mcause, mtval, mshwm and mshwmb (the stack's high-water
 *            mark and its base), then time and compare, each as its low word and its high word
 *   start    the address of mem[0], a multiple of 8
 *   mem      64 to 1,048,576 bytes, a multiple of 64, ending at 2^32 at the most
 *   tags     mem_len / 64 bytes: bit i % 8 of byte i / 8 is the tag of the 8 bytes from mem[8 * i] on
 *   window   the part of mem that has revocation bits: window_size bytes from mem[window_start] on, both
 *            multiples of 64, inside mem; it may be empty, also at mem's end
 *   revoked  window_size / 64 bytes, ordered as the tags: the window's revocation bits, which nothing changes
 *   edition  of the architecture: 0 the CHERIoT report, 1 the later one, which has return sentries
 *
 * The answer is number * 2^48 + trapped * 2^24 + retired, with the counts of the steps that trapped and of
 * those that retired; oddersnow_number and the two below take it apart. The number is
 *
 *   1  regs_len is not 72                   4  a tag word is above 1, or c0 is not all zero
 *   2  start, mem_len or the window breaks  5  a run asks for more than 1,000,000 steps
 *      its limits
 *   3  tags_len is not mem_len / 64, or revoked_len is not window_size / 64
 *   7  edition is not 0 or 1
 *   8  a capability of regs with its tag set, sealed or not, has low above high, or high above 2^32
 *
 * and the lowest wins. Where it is not 0, nothing is changed and both counts are 0. Memory is not searched for 8, and a
 * run goes on where a step loads such a value; a call that starts with it in a register is refused.
 *
 * Time is one more after each step, whatever the step did, and 0 after 2^64 - 1. Where at the start of a step MIE is 1
 * and compare not above time, the step is the timer interrupt and nothing else: it traps with mcause 0x80000007, mtval 0.
 */
uint64_t oddersnow_step(uint32_t *regs, size_t regs_len, uint32_t start,
                        uint8_t *mem, size_t mem_len, uint8_t *tags, size_t tags_len,
                        uint32_t window_start, uint32_t window_size, const uint8_t *revoked, size_t revoked_len,
                        uint32_t edition);
uint64_t oddersnow_run(uint32_t *regs, size_t regs_len, uint32_t start,
                       uint8_t *mem, size_t mem_len, uint8_t *tags, size_t tags_len,
                       uint32_t window_start, uint32_t window_size, const uint8_t *revoked, size_t revoked_len,
                       uint32_t edition, uint32_t steps);

/* A run with a watch record: two ranges of addresses, and for each how many stores touched it. It answers as oddersnow_run does and
 * leaves the same registers, memory and tags. A range is length bytes from a start address on, its end a whole number, up to 2^32 or past
 * it; one of length 0 is never touched. For each range that a retired store has a byte in common with, its count rises by 1; a
 * count stops at 2^32 - 1. A store that traps touches nothing. Where the number of the answer is not 0, both counts stay. The two counts are two
 * words, neither of them part of a slice.
 */
uint64_t oddersnow_run_watched(uint32_t *regs, size_t regs_len, uint32_t start,
                               uint8_t *mem, size_t mem_len, uint8_t *tags, size_t tags_len,
                               uint32_t window_start, uint32_t window_size, const uint8_t *revoked, size_t revoked_len,
                               uint32_t edition, uint32_t steps,
                               uint32_t start1, uint32_t length1, uint32_t *count1,
                               uint32_t start2, uint32_t length2, uint32_t *count2);

/* The same run by the second engine, which decodes straight code once and keeps it while it can: for every start and every
 * number of steps it answers as oddersnow_run_watched does and leaves the same registers, memory, tags and counts, also where code changes
 * itself. Long runs take less time; nothing is kept from one call to the next. It needs less than 64 KiB of stack.
 */
uint64_t oddersnow_run_quick(uint32_t *regs, size_t regs_len, uint32_t start,
                             uint8_t *mem, size_t mem_len, uint8_t *tags, size_t tags_len,
                             uint32_t window_start, uint32_t window_size, const uint8_t *revoked, size_t revoked_len,
                             uint32_t edition, uint32_t steps,
                             uint32_t start1, uint32_t length1, uint32_t *count1,
                             uint32_t start2, uint32_t length2, uint32_t *count2);

/* The sweeper: one granule of 8 bytes a call, by its number from 0. Lent are memory, tags, window and revocation bits as for a
 * step; memory is only read, and no registers are lent: they are not swept. The granule's tag is cleared where the load filter
 * would take the tag of the capability that the granule holds because it is revoked. The answer is number * 2^48 + last * 2^32 +
 * next: next is the number of the granule to visit after this one, and after the last granule last is 1 and next 0. The
 * number is 2 or 3 as for a step, or
 *
 *   9  mem has no granule of that number
 *
 * and the lowest wins. Where it is not 0, nothing is changed and the rest is 0. After all calls from granule 0 to the last, with
 * the same buffers and window and nothing else writing them between, mem holds no tagged capability that is revoked so, and no
 * byte and no other tag has changed.
 */
uint64_t oddersnow_sweep(uint32_t start, const uint8_t *mem, size_t mem_len, uint8_t *tags, size_t tags_len,
                         uint32_t window_start, uint32_t window_size, const uint8_t *revoked, size_t revoked_len,
                         uint32_t granule);

/* What could ever be reached: the first place, from place `from` on, whose capability reaches into a range. Places 0 to 20 are the
 * capabilities of regs in their order; place 21 + g is granule g of mem, the 8 bytes from mem[8 * g] on. A capability counts where its
 * tag is set, sealed or not, where it has all the rights of the mask `rights` (bit k is right k: GL, LG, SD, LM, SL, LD, MC, SR, EX, US,
 * SE, U0 from bit 0), and where it has a byte in common with [low, low + length), as whole numbers. One with its tag set that has low
 * above high, or high above 2^32, counts for every range that is not empty, whatever its rights. A length of 0 is an empty range, into
 * which nothing reaches. Lent are regs, start, mem and tags as for a step; all of them are only read.
 *
 * The answer is number * 2^48 + place + 1, or + 0 where there is no such place; oddersnow_number and oddersnow_rest take it apart.
 * The number is 1, 2, 3 or 4 as for a step, where 2 is of start and mem_len and 3 of tags_len alone, or
 *
 *   20  rights has a bit above the twelve rights
 *   21  from is no place: 21 + mem_len / 8 or more
 *
 * and the lowest wins; the rest is 0 then. Where the answer for rights 4, the right to store (SD), from place 0 on is 0, no step, run
 * or sweep from there, and no number of them one after another, with mem at that start and nothing else written, ever changes a byte of the range.
 */
uint64_t oddersnow_reach(const uint32_t *regs, size_t regs_len, uint32_t start,
                         const uint8_t *mem, size_t mem_len, const uint8_t *tags, size_t tags_len,
                         uint32_t low, uint32_t length, uint32_t rights, uint32_t from);

/* The same search outside the range: the granules of mem that lie in [low, low + length) are passed over, whatever they hold; registers
 * and all other granules count as above. The number is one of oddersnow_reach, or
 *
 *   22  low or low + length is no multiple of 8, so that the range cuts a granule
 *
 * and the lowest wins. Where the answer for rights 32, the right to load (LD), from place 0 on is 0, what stands in those granules makes
 * no difference outside them: with other bytes and tags there, calls of steps, runs and sweeps one after another, with mem at that start and
 * nothing else written, give the same answers and counts and leave the same registers, and the same bytes and tags outside. Where
 * it is 0 for rights 4 (SD) too, no such call ever changes a byte there or sets a tag there that was clear; a sweep may clear one.
 */
uint64_t oddersnow_reach_outside(const uint32_t *regs, size_t regs_len, uint32_t start,
                                 const uint8_t *mem, size_t mem_len, const uint8_t *tags, size_t tags_len,
                                 uint32_t low, uint32_t length, uint32_t rights, uint32_t from);

/* Map sheets. A sheet is text, a line a region:
 *
 *   region<TAB>name<TAB>start<TAB>length<TAB>rights
 *
 * with 1 to 16 lower-case letters, twice eight lower-case hexadecimal digits, and one or more of r, w, x in that
 * order; 1 to 64 lines, each ended by a newline. A line is bad if it is of another form, if its region has length
 * 0 or an end past 2^32, if it has the name of an earlier one or a byte in common with it, or if it is the 65th; an
 * empty sheet is bad at line 1.
 *
 * For C a region is a record of seven words: the name's 16 bytes in four words, the lowest byte first, bytes after
 * the name 0; start; length; rights (r 1, w 2, x 4).
 *
 * Each answer is number * 2^48 + rest; oddersnow_number and oddersnow_rest take it apart. Where the number is not
 * 0, nothing is written; where it is, what lies past the answer stays. Too little room, number 10, is tested last.
 *
 * oddersnow_sheet_read reads a sheet into records: 0 and how many, or 13 and the first bad line, or 10.
 * oddersnow_sheet_write writes the sheet of records: 0 and how many bytes, or 13 and the first bad line (record n is
 * line n; words that make no whole record are a bad one; no words at all are bad at line 1), or 10. What was read
 * is written as the same bytes, and what was written is read as the same words.
 * oddersnow_sheet_compare lists the names that one sheet has and the other has not, or has with another start, length
 * or rights, sorted, each once and with a newline: 0 and how many bytes (0 where both have the same regions), or 13 and the first bad line
 * of the first sheet, or 14 and that of the second, or 10.
 */
uint64_t oddersnow_sheet_read(const uint8_t *sheet, size_t sheet_len, uint32_t *records, size_t records_len);
uint64_t oddersnow_sheet_write(const uint32_t *records, size_t records_len, uint8_t *out, size_t out_len);
uint64_t oddersnow_sheet_compare(const uint8_t *first, size_t first_len, const uint8_t *second, size_t second_len,
                                 uint8_t *out, size_t out_len);

/* Two images and one board. An image is a map sheet, then an empty line, then a payload, which may be empty; where the
 * empty line is missing, the sheet is bad at the line after its last. An image fits the board if for each of its regions
 * the board has one that contains it and has all its rights. The answer is
 *
 *   0: image * 2^40 + place   the image, 1 or 2, that fits (the first, if both do); its payload runs from place to its end
 *   16 * 2^48                 neither fits
 *   17 * 2^48 + line          the board's sheet is bad; 18: the first image's; 19: the second image's; judged in that order
 */
uint64_t oddersnow_fit(const uint8_t *board, size_t board_len, const uint8_t *first, size_t first_len,
                       const uint8_t *second, size_t second_len);

static inline uint64_t oddersnow_rest(uint64_t answer) { return answer & 0xffffffffffff; }
static inline uint32_t oddersnow_number(uint64_t answer) { return (uint32_t)(answer >> 48); }
static inline uint32_t oddersnow_trapped(uint64_t answer) { return (uint32_t)(answer >> 24) & 0xffffff; }
static inline uint32_t oddersnow_retired(uint64_t answer) { return (uint32_t)answer & 0xffffff; }
static inline uint32_t oddersnow_last(uint64_t answer) { return (uint32_t)(answer >> 32) & 1; }
static inline uint32_t oddersnow_next(uint64_t answer) { return (uint32_t)answer; }

/* The listing of code: a line a word, as docs/LISTING.md has it; and the assembly of such lines. out takes the text, or the
 * code, from its start on; bytes past it stay as they are. The answer is number * 2^48 + rest:
 *
 *   0   rest is how many bytes were written
 *   10  out is too short; tested last, rest 0
 *   13  (assemble) a line is no word's listing: rest is the number of the first one, from 1. A last line without newline is one
 *   15  (list) the code ends inside a word: rest is that word's byte offset
 *
 * In every case but 0 nothing is written. The listing of whole words assembles to the same bytes, but for FENCE, where fm, rd and
 * rs1 are 0 then, and FENCE.TSO, where rd and rs1 are; text that assembles lists as the same text.
 */
uint64_t oddersnow_list(const uint8_t *code, size_t code_len, uint8_t *out, size_t out_len);
uint64_t oddersnow_assemble(const uint8_t *text, size_t text_len, uint8_t *out, size_t out_len);

#ifdef __cplusplus
}
#endif

#endif
