/* Reedgosling for C and C++: every public call of the proved library. Building and linking: docs/C.md.

   A slice is handed over as a pointer and the number of its entries (not of its bytes). Any content and any number may be handed over, right
   or wrong: the call ends, touches nothing outside what it was lent, and answers as told below.

   What a caller must keep to, since the proofs take it for granted of every call:
   - A pointer points to as many entries as the length after it says, or to one number where no length follows. The caller may write what
     the call writes. Every entry has been written before, with any content, also where the call is to write it (calloc, or = {0}).
   - A pointer is aligned for its type and is not null, also where the length is 0 (then nothing is read or written through it).
   - What a call writes overlaps with nothing else that is handed to the same call. What is only read may overlap.
   - No other thread writes what is lent while the call runs, nor reads what is written. The library holds nothing between calls, so calls
     that are lent different memory may run at the same time.
   - There is stack enough: 384 kilobytes are (tools/check-c), of which reedgosling_mend_job takes the most, for its own work table. */
#ifndef REEDGOSLING_H
#define REEDGOSLING_H

#include <stddef.h>
#include <stdint.h>

#ifdef __cplusplus
extern "C" {
#endif

/* The sizes: places n, states Q and values V count from 1 to these, arc costs from 0. */
#define REEDGOSLING_MOST_PLACES 366
#define REEDGOSLING_MOST_STATES 64
#define REEDGOSLING_MOST_VALUES 16
#define REEDGOSLING_MOST_COST 1000

/* A limit above this counts as this, which no roster can pass. */
#define REEDGOSLING_MOST_LIMIT 366000

/* The entries of each rule table. The arc of state q on value v is at q * V + v; what stands from Q * V on plays no part. */
#define REEDGOSLING_TABLE_SIZE 1024

/* The target that means: no arc. Its cost is 0. */
#define REEDGOSLING_NO_TARGET 255

/* The numbers of a work table for n places. */
#define REEDGOSLING_WORK_LENGTH(n) (((n) + 1) * 64)

/* The most changes that a planner can be asked for, and the numbers of the work table that it is lent for n places. */
#define REEDGOSLING_MOST_CHANGES 7
#define REEDGOSLING_PLAN_LENGTH(n) (8 * ((n) + 1) * 64)

/* A session: the numbers of its memory for n places, and what may stand in it. */
#define REEDGOSLING_SESSION_LENGTH(n) (3 * (n) + 1792)
#define REEDGOSLING_MOST_DECISIONS 512
#define REEDGOSLING_MOST_MARKS 64

/* Where a session's memory shows the result (0 or 11), the least cost, and the kept mask of place 0; the masks of the other places follow.
   A caller may read them after a call that answers 0 or 11; the rest is the session's own (docs/SESSION-MEMORY.md). */
#define REEDGOSLING_SESSION_RESULT 0
#define REEDGOSLING_SESSION_LEAST 1
#define REEDGOSLING_SESSION_KEPT 2

/* The bytes of the longest right sheet, of the longest input of a job, and of a buffer that has room for all that a job prints (what a pattern
   job prints is a sheet). */
#define REEDGOSLING_LONGEST_SHEET 18212
#define REEDGOSLING_LONGEST_INPUT 32768
#define REEDGOSLING_LONGEST_OUTPUT 2048

/* The answers. A call makes its checks in the order 1, 2, 3, 4, 5, 13, 15, 14, 12, 7, 8, 9, 10, 6, 11 and skips those that do not concern it;
   the first that fails is the answer (13 stands with 5: no sheet gets both). All but 0 and 11 are refusals.
   What an answer leaves unchanged are slices: under 1 and 2 every slice, under the other refusals those named below. The work table is a
   slice too, but no output: it is all zeros after every answer but 1 and 2.
   A single number that a call gives back through a pointer without a length (least, report, changes, says, line, states, values, start,
   accepting, length) is written under every answer: under a refusal or 11 it is 0, save the line under 5 and 13. */
enum reedgosling_answer {
    REEDGOSLING_DONE = 0,            /* done */
    REEDGOSLING_WRONG_SIZE = 1,      /* n, Q or V outside its range, or start not below Q: no slice changed */
    REEDGOSLING_WRONG_LENGTH = 2,    /* a lent slice has another length than stated: no slice changed */
    REEDGOSLING_WRONG_TABLES = 3,    /* a target neither 255 nor below Q, a cost over 1,000, a cost at a missing arc, or an accepting bit at
                                        or above Q: outputs unchanged */
    REEDGOSLING_WRONG_MASK = 4,      /* a choice mask has a bit at or above V: outputs unchanged */
    REEDGOSLING_WRONG_SHEET = 5,     /* the sheet is wrong by its form, its order or a missing line feed; its first wrong line is told,
                                        from 1: tables unchanged */
    REEDGOSLING_SHORT_BUFFER = 6,    /* the sheet to be written is longer than the buffer: buffer unchanged */
    REEDGOSLING_OUT_OF_RANGE = 7,    /* a place, value or decision mask out of range, a roster value not below V, or more than
                                        REEDGOSLING_MOST_CHANGES changes asked for: outputs and session unchanged */
    REEDGOSLING_DECISIONS_FULL = 8,  /* a decision when 512 stand: session unchanged */
    REEDGOSLING_MARKS_FULL = 9,      /* a mark when 64 are open: session unchanged */
    REEDGOSLING_NO_MARK = 10,        /* back with no mark open: session unchanged */
    REEDGOSLING_NO_ROSTER = 11,      /* no roster is allowed (for the first roster: none with that value at that place; for the prefix
                                        report: none of length n is accepted; for the planner: none with so few changes). A result and no
                                        refusal: each call says what it leaves behind */
    REEDGOSLING_WRONG_MEMORY = 12,   /* the session memory is not well-formed: session unchanged */
    REEDGOSLING_NUMBER_OUTSIDE = 13, /* the sheet is wrong by a number out of range (the first fault of its first wrong line); that line is
                                        told, from 1: tables unchanged */
    REEDGOSLING_MANY_STATES = 14,    /* the pattern has more than 64 states: tables unchanged */
    REEDGOSLING_WRONG_PATTERN = 15   /* the line is no pattern, or has a letter at or above V: tables unchanged */
};

/* Every call with a rule set is handed it in the same way: n places (not for a sheet), Q states, V values, the start state, both rule tables
   with exactly REEDGOSLING_TABLE_SIZE entries each, and the accepting states as a mask, state q being bit q.
   A choice mask holds a place's allowed values, value v being bit v; a limit bounds the running cost up to and including its place. */

/* Keeps, of each place's mask, the values that some allowed roster has there.
   Lent: masks, limits and kept with n entries each, work with REEDGOSLING_WORK_LENGTH(n).
   Returns 0, 1, 2, 3, 4 or 11. Under 0 kept has the kept masks and least the least cost of an allowed roster; under 11 kept is all zeros. */
uint32_t reedgosling_filter(
    size_t places, size_t states, size_t values, uint8_t start,
    const uint8_t *targets, size_t targets_length, const uint16_t *costs, size_t costs_length, uint64_t accepting,
    const uint16_t *masks, size_t masks_length, const uint32_t *limits, size_t limits_length,
    uint16_t *kept, size_t kept_length, uint32_t *work, size_t work_length, uint32_t *least);

/* Gives the first allowed roster that has a value at a place: the one that comes first when compared place by place, smaller value first.
   Lent: masks, limits and roster with n entries each, work with REEDGOSLING_WORK_LENGTH(n).
   Returns 0, 1, 2, 3, 4, 7 (place not below n, or value not below V) or 11. Under 0 roster has it; else roster is unchanged. */
uint32_t reedgosling_first_roster(
    size_t places, size_t states, size_t values, uint8_t start,
    const uint8_t *targets, size_t targets_length, const uint16_t *costs, size_t costs_length, uint64_t accepting,
    const uint16_t *masks, size_t masks_length, const uint32_t *limits, size_t limits_length, size_t place, uint8_t value,
    uint8_t *roster, size_t roster_length, uint32_t *work, size_t work_length);

/* Tells how much of a drawn roster has to be drawn anew: n less the length of its longest prefix that some accepted roster of length n
   begins with. So 0 exactly if the roster itself is accepted, otherwise 1 to n. Masks, costs and limits play no part.
   Lent: roster with n entries.
   Returns 0, 1, 2, 3, 7 (a roster value not below V, anywhere in the roster) or 11 (no roster of length n is accepted, whatever was
   drawn). Under 0 report has that number, else 0. */
uint32_t reedgosling_prefix_report(
    size_t places, size_t states, size_t values, uint8_t start,
    const uint8_t *targets, size_t targets_length, const uint16_t *costs, size_t costs_length, uint64_t accepting,
    const uint8_t *roster, size_t roster_length, size_t *report);

/* Mends a drawn roster: gives the allowed roster that differs from it in the fewest places, at most so many; of several the one that comes
   first when compared place by place, smaller value first. The drawn roster itself need not be allowed.
   Lent: masks, limits, drawn and roster with n entries each, work with REEDGOSLING_PLAN_LENGTH(n).
   Returns 0, 1, 2, 3, 4, 7 (most above REEDGOSLING_MOST_CHANGES, or a drawn value not below V) or 11 (no allowed roster has so few
   changes). Under 0 roster has it and changes the number of places where it differs from drawn; else roster is unchanged and changes 0. */
uint32_t reedgosling_mend(
    size_t places, size_t states, size_t values, uint8_t start,
    const uint8_t *targets, size_t targets_length, const uint16_t *costs, size_t costs_length, uint64_t accepting,
    const uint16_t *masks, size_t masks_length, const uint32_t *limits, size_t limits_length,
    const uint8_t *drawn, size_t drawn_length, uint32_t most,
    uint8_t *roster, size_t roster_length, uint32_t *work, size_t work_length, uint32_t *changes);

/* Checks a proposal, whoever made it: whether the roster is allowed and differs from the drawn one in just so many places as claimed.
   Lent: masks, limits, drawn and roster with n entries each. No work table.
   Returns 0, 1, 2, 3, 4 or 7 (a value not below V in either roster). Any number may be claimed. Under 0 says has 1 for yes and 0 for no;
   else 0. */
uint32_t reedgosling_check(
    size_t places, size_t states, size_t values, uint8_t start,
    const uint8_t *targets, size_t targets_length, const uint16_t *costs, size_t costs_length, uint64_t accepting,
    const uint16_t *masks, size_t masks_length, const uint32_t *limits, size_t limits_length,
    const uint8_t *drawn, size_t drawn_length, const uint8_t *roster, size_t roster_length, uint32_t claimed, uint8_t *says);

/* Reads a sheet from its text.
   Lent: text of any length, targets and costs with REEDGOSLING_TABLE_SIZE entries each.
   Returns 0, 2, 5 or 13. Under 0 the first Q * V entries of both tables are written and the others unchanged, and states, values, start and
   accepting have Q, V, the start state and the accepting mask; under 5 and 13 line has the first wrong line, from 1. Of several faults of a
   line the first counts: those of its fields from left to right, then its order, then a missing line feed. */
uint32_t reedgosling_read_sheet(
    const uint8_t *text, size_t text_length, uint8_t *targets, size_t targets_length, uint16_t *costs, size_t costs_length,
    size_t *line, size_t *states, size_t *values, uint8_t *start, uint64_t *accepting);

/* Fills the tables from a pattern on one line: letters a to p for values 0 to 15, sequence, |, groups (to depth 8), and *, + or ? after a
   letter or a group. At most 256 bytes and 32 letters, no branch empty, no line feed. Every cost is 0.
   Lent: line of any length, targets and costs with REEDGOSLING_TABLE_SIZE entries each; count is V.
   Returns 0, 1 (V), 2, 15 or 14. Under 0 the first Q * V entries of both tables are written and the others unchanged, and states, values,
   start and accepting have Q, V, the start state (0) and the accepting mask. */
uint32_t reedgosling_read_pattern(
    const uint8_t *line, size_t line_length, size_t count,
    uint8_t *targets, size_t targets_length, uint16_t *costs, size_t costs_length,
    size_t *states, size_t *values, uint8_t *start, uint64_t *accepting);

/* Writes the sheet of a rule set.
   Lent: buffer of any length; REEDGOSLING_LONGEST_SHEET has room for every sheet.
   Returns 0, 1, 2, 3 or 6. Under 0 the text stands at the beginning of buffer, length has its length, and the bytes past it are unchanged. */
uint32_t reedgosling_write_sheet(
    size_t states, size_t values, uint8_t start,
    const uint8_t *targets, size_t targets_length, const uint16_t *costs, size_t costs_length, uint64_t accepting,
    uint8_t *buffer, size_t buffer_length, size_t *length);

/* Opens a session with masks and limits. The memory may have any content; what stood in it is gone.
   Lent: masks and limits with n entries each, memory with REEDGOSLING_SESSION_LENGTH(n), work with REEDGOSLING_WORK_LENGTH(n).
   Returns 0, 1, 2, 3, 4 or 11. Under 0 and 11 the session is open; else memory is unchanged. */
uint32_t reedgosling_open(
    size_t places, size_t states, size_t values, uint8_t start,
    const uint8_t *targets, size_t targets_length, const uint16_t *costs, size_t costs_length, uint64_t accepting,
    const uint16_t *masks, size_t masks_length, const uint32_t *limits, size_t limits_length,
    uint32_t *memory, size_t memory_length, uint32_t *work, size_t work_length);

/* The four calls upon a session are lent memory with REEDGOSLING_SESSION_LENGTH(n) numbers, as the last call left it, work with
   REEDGOSLING_WORK_LENGTH(n), and the rule set anew. Under 0 and 11 the call took effect, and memory shows the result, the least cost and
   the kept masks that follow from it (under 11 the least cost and all masks are 0); else memory is unchanged.
   A session with no allowed roster still takes calls. */

/* Narrows one place to a mask: the meet of both.
   Returns 0, 1, 2, 3, 12, 7 (place not below n, or a mask bit at or above V), 8 or 11. */
uint32_t reedgosling_keep(
    size_t places, size_t states, size_t values, uint8_t start,
    const uint8_t *targets, size_t targets_length, const uint16_t *costs, size_t costs_length, uint64_t accepting,
    uint32_t *memory, size_t memory_length, uint32_t *work, size_t work_length, size_t place, uint16_t mask);

/* Sets one place's limit to the smaller of the old and the given.
   Returns 0, 1, 2, 3, 12, 7 (place not below n), 8 or 11. */
uint32_t reedgosling_limit(
    size_t places, size_t states, size_t values, uint8_t start,
    const uint8_t *targets, size_t targets_length, const uint16_t *costs, size_t costs_length, uint64_t accepting,
    uint32_t *memory, size_t memory_length, uint32_t *work, size_t work_length, size_t place, uint32_t cost);

/* Opens a mark.
   Returns 1, 2, 3, 12 or 9; else 0 or 11, the result then on hand. */
uint32_t reedgosling_mark(
    size_t places, size_t states, size_t values, uint8_t start,
    const uint8_t *targets, size_t targets_length, const uint16_t *costs, size_t costs_length, uint64_t accepting,
    uint32_t *memory, size_t memory_length, uint32_t *work, size_t work_length);

/* Removes the newest open mark and every decision after it.
   Returns 1, 2, 3, 12 or 10; else 0 or 11, the result then on hand. */
uint32_t reedgosling_back(
    size_t places, size_t states, size_t values, uint8_t start,
    const uint8_t *targets, size_t targets_length, const uint16_t *costs, size_t costs_length, uint64_t accepting,
    uint32_t *memory, size_t memory_length, uint32_t *work, size_t work_length);

/* The program's work: the text that it prints for an input (a sheet, an empty line and a job; README.md, "Input and output").
   Lent: input and output of any length. Has no answer number: what is wrong in the input is told in the text.
   Returns the length of the whole text. As much of it as there is room for stands at the beginning of output, and the bytes past it are
   unchanged; REEDGOSLING_LONGEST_OUTPUT has room for every text. */
size_t reedgosling_job(const uint8_t *input, size_t input_length, uint8_t *output, size_t output_length);

/* The mending program's work: likewise, for an input whose job ends with the lines `drawn` and `most`. */
size_t reedgosling_mend_job(const uint8_t *input, size_t input_length, uint8_t *output, size_t output_length);

/* The pattern program's work: likewise, for an input of one line, V, a tab and a pattern. The text is a sheet, or one of the lines `values`,
   `pattern` and `states`; REEDGOSLING_LONGEST_SHEET has room for every text. */
size_t reedgosling_pattern_job(const uint8_t *input, size_t input_length, uint8_t *output, size_t output_length);

#ifdef __cplusplus
}
#endif

#endif
