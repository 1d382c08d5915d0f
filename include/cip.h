/* cip.h: the labels of a record, for programs in C and C++.
 *
 * A labeller is made once, labels as many records as are wanted, one after the other, and is given back:
 *
 *     cip_labeller labeller;
 *     if (cip_make(&labeller, CIP_NODES, CIP_WORDING) != 0) ..
 *     int64_t length = cip_annotate(&labeller, record, record_length, text, room);
 *     cip_release(&labeller);
 *
 * A record is one molfile, or one record of an SDfile with its line `$$$$` or without. Of a text of several records the
 * first one alone is labelled, and the others are handed back as they are: cut a file behind each line that holds `$$$$`
 * and spaces at most.
 *
 * The calls that write a text answer how many bytes the whole text has, and write it, or its first `room` bytes where it
 * has more: whoever gets a count above `room` calls again with as much room. A text isn't ended by a zero byte. A
 * negative answer says why nothing is written; then the memory at `text` is as it was.
 *
 * What is tested, and answered by a negative number: pointers that are null (also where the length is 0), the bound,
 * the wording, the length of the record, and a labeller that was given back or couldn't be made.
 * What a caller has to see to, since no call can test it:
 *   - `labeller` points to a cip_labeller that cip_make was called with, whose bytes nobody else writes or copies;
 *   - behind `record` there are `length` bytes, and behind `text` there is room for `room`, all of which was written
 *     before (by calloc or memset, say, where nothing else was); these and the labeller don't overlap, and nobody else
 *     writes them during the call. The record isn't changed, but what is proved supposes memory that could be;
 *   - one call at a time for a labeller. It may go from thread to thread, if the program orders the calls (by a lock,
 *     or by a thread's start and end), and each thread may have a labeller of its own;
 *   - no call in a signal handler, nor in the forked child of a process that has threads;
 *   - malloc, realloc and free are of one allocator, and align as the C library's do.
 *
 * The labels are those of the program `cip`: the same bytes, as tests show. Link with -lcip (pkg-config cip tells the flags).
 */
#ifndef CIP_H
#define CIP_H

#include <stddef.h>
#include <stdint.h>

#ifdef __cplusplus
extern "C" {
#endif

/* The version of the program, the header and the library; cip_version tells that of the library. */
#define CIP_VERSION 15

/* A place for a labeller, in the caller's memory. What stands in it is the library's own. */
typedef struct cip_labeller {
    uint64_t held[2];
} cip_labeller;

/* The settings of the program where it is given none. */
#define CIP_NODES 100000u
#define CIP_WORDING 2018u

/* Why a call did nothing. */
#define CIP_NO_MEMORY (-1)       /* memory was refused; a later call may succeed */
#define CIP_NULL_POINTER (-2)    /* a pointer is null */
#define CIP_NOT_MADE (-3)        /* the labeller was given back, or couldn't be made */
#define CIP_BOUND_OUTSIDE (-4)   /* `nodes` isn't 1 to 1,000,000 */
#define CIP_WORDING_UNKNOWN (-5) /* `year` is neither 2013 nor 2018 */
#define CIP_RECORD_TOO_LONG (-6) /* the record has 2^31 bytes or more */

/* The version of the library. It takes nothing, and a program that was compiled with an older header may ask too. */
uint32_t cip_version(void);

/* How many bytes a cip_labeller has to have: sizeof (cip_labeller). */
size_t cip_labeller_size(void);

/* Makes a labeller, and takes the memory that it needs. No digraph may have more than `nodes` nodes (1 to 1,000,000): a
 * unit that needs more is `over`. `year` is that of the wording of Rule 1b: 2013 as printed, 2018 as corrected.
 * The answer is 0, or why there is none; cip_release may be called in either case. A labeller that stands there already
 * has to be given back first, or its memory is lost. */
int64_t cip_make(cip_labeller *labeller, uint32_t nodes, uint32_t year);

/* Gives back what a labeller took. The answer is 0. A second call does nothing. */
int64_t cip_release(cip_labeller *labeller);

/* Writes the record with its data item CIP_LABELS, which takes the place of items of that name. */
int64_t cip_annotate(cip_labeller *labeller, const uint8_t *record, size_t length, uint8_t *text, size_t room);

/* Writes the value lines of that item alone, each ended by a line feed: first the settings, then a line for each unit
 * that has a label or is `over`, or `none`, or `refused LINE CAUSE`. */
int64_t cip_values(cip_labeller *labeller, const uint8_t *record, size_t length, uint8_t *text, size_t room);

/* Writes what `cip explain` does of the record of this number: a line `record NUMBER`, then a line for every unit. */
int64_t cip_explain(cip_labeller *labeller, uint64_t number, const uint8_t *record, size_t length, uint8_t *text,
                    size_t room);

/* Writes the undefined units alone, of which the drawing shows no sense, for want of a mark or by one that says either: a
 * line `UNIT open RULE SPHERE order LIGANDS` where the ligands all differ, so that it has a label once its sense is
 * drawn; else `UNIT dependent`, where two ligands tie that other undefined units might tell apart, `UNIT tie`, or `UNIT
 * over`. There is no byte where there is no such unit. A record that isn't read is `refused LINE CAUSE`. */
int64_t cip_undefined(cip_labeller *labeller, const uint8_t *record, size_t length, uint8_t *text, size_t room);

#ifdef __cplusplus
}
#endif

#endif
