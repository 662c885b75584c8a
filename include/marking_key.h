/*
 * The marking key as a library: link target/staticlib/libexports.a, for bundles target/staticlib/libbundles.a, and for the scripts of
 * wanted layouts target/staticlib/libplanning.a, which ./library builds; each does without the others. x86-64 Linux.
 *
 * Every function runs a script from empty tables of its own and keeps nothing: calls depend on nothing but their arguments, and may
 * be made from several threads at once. Scripts are bytes of the form that README.md describes; any bytes at all may be handed over, and
 * no call fails but by its answer.
 *
 * A slice is a pointer and a length, counted in elements. Pointers are not null, even where the length is 0; what a script or a bundle lies
 * in and what is written to are apart. Nothing is written past what the answer counts: the rest of `out` stays as it was.
 *
 * A thread that calls these functions wants 2 MB of stack; the most that a call was seen to use is 0.8 MB.
 */
#ifndef MARKING_KEY_H
#define MARKING_KEY_H

#include <stddef.h>
#include <stdint.h>

#ifdef __cplusplus
extern "C" {
#endif

/* How many bytes the longest output line has, its last byte 10 included. The heading and an answer have 25. */
#define MARKING_KEY_LONGEST_LINE 106

/* How many numbers a group has. */
#define MARKING_KEY_MAPPING 5    /* hpa, gpa, size, repeat, rights */
#define MARKING_KEY_PERMISSION 3 /* start, end, rights */
#define MARKING_KEY_REGION 9     /* start, end, holders, counts of read, write, exec, super, uncacheable, device */
#define MARKING_KEY_SEGMENT 4    /* hpa, gpa, size, repeat */
#define MARKING_KEY_BUNDLED 4    /* of a bundle: 0 for an add or 1 for a remove, start, end, rights */

/* How many groups a bundle may have. */
#define MARKING_KEY_BUNDLE_MOST 32

/* How many bytes the longest script for a wish has: one for 1,024 ranges. */
#define MARKING_KEY_LONGEST_SCRIPT 103112

/*
 * Runs a script and writes its output from the heading on: as many whole lines as `out` takes.
 * Answers how many lines, the heading among them: 0 where not even that fits. A script's refused lines are part of its output and no
 * refusal of this call, which has none. All of the output is there if MARKING_KEY_LONGEST_LINE bytes were left behind the last line.
 */
size_t run_script(const uint8_t *script, size_t script_len, uint8_t *out, size_t out_len);

/*
 * A page of a list of one compartment after a script: from group `from` on, counted from 0, as many whole groups as `out` takes.
 * Answers how many groups; fewer than fit means that the list is at its end, and 0 with `from` at the end or past it.
 * Refused with 1 where the compartment is 8 or above; `out` is then as it was. Lines of the script that are refused change nothing.
 *
 * The lists: the mapping stream, in its order; the permissions, by rising address; the stored regions, by rising address; the stored
 * segments, in the order of their list.
 */
uint64_t stream_page(const uint8_t *script, size_t script_len, uint64_t compartment, size_t from, uint64_t *out,
                     size_t out_len);
uint64_t permissions_page(const uint8_t *script, size_t script_len, uint64_t compartment, size_t from, uint64_t *out,
                          size_t out_len);
uint64_t regions_page(const uint8_t *script, size_t script_len, uint64_t compartment, size_t from, uint64_t *out,
                      size_t out_len);
uint64_t segments_page(const uint8_t *script, size_t script_len, uint64_t compartment, size_t from, uint64_t *out,
                       size_t out_len);

/*
 * Does a range of `size` guest addresses from `start` on share an address with the guest span of a stored segment, in a compartment after
 * a script? 1 or 0. An empty range shares none. No map of a range for which this answers 1 is accepted.
 * Refused with 1 where the compartment is 8 or above, with 10 where start + size does not fit 64 bits.
 */
uint64_t overlaps_after(const uint8_t *script, size_t script_len, uint64_t compartment, uint64_t start, uint64_t size);

/*
 * In libbundles.a: a bundle of adds and removes for one compartment, done whole or not at all, on what a script left. Each group is judged on what the ones before
 * it left. Answers 1 where one of them was a change and 0 where none was. Refused with 1 where the compartment is 8 or above, with 24 where there
 * are more than MARKING_KEY_BUNDLE_MOST groups, and else as the first refused group is; a group of another kind than 0 and 1, and a last one that
 * lacks numbers, is refused with 17. A bundle of no group is accepted. An accepted bundle leaves what its calls leave one by one: to go on from there,
 * put them behind the script as A and D lines.
 */
uint64_t bundle_after(const uint8_t *script, size_t script_len, uint64_t compartment, const uint64_t *groups, size_t groups_len);

/*
 * Pages, as above, of the bundle's compartment after a script and then a bundle; a refused bundle has altered nothing. The answer is that of the
 * read: whether the bundle was accepted is what bundle_after says.
 */
uint64_t stream_after_bundle(const uint8_t *script, size_t script_len, uint64_t compartment, const uint64_t *groups,
                             size_t groups_len, size_t from, uint64_t *out, size_t out_len);
uint64_t regions_after_bundle(const uint8_t *script, size_t script_len, uint64_t compartment, const uint64_t *groups,
                              size_t groups_len, size_t from, uint64_t *out, size_t out_len);

/*
 * In libplanning.a: the adds that give a permission list to a compartment that is empty, with the allowance that it has after a script; what it
 * holds is not asked. `wanted` is the list as groups of start, end and rights, in order; rights may be 0. Each range is added once, but twice where it
 * touches the one before with equal rights and that was added once, so that the two stay apart. A page, as above, of groups of start, end and
 * rights, one for each add. Refused with 1 where the compartment is 8 or above, and with 25 where no adds and removes, all accepted under that allowance,
 * could give the list: a range is empty, or not behind the one before, or its rights are 64 or above, or the last one lacks numbers, or
 * there are more ranges than records allowed.
 */
uint64_t plan_page(const uint8_t *script, size_t script_len, uint64_t compartment, const uint64_t *wanted, size_t wanted_len,
                   size_t from, uint64_t *out, size_t out_len);

/*
 * In libplanning.a: the script for a wish that is a text, a line of three columns of 21 for each range; run from empty tables, it gives the compartment
 * that allowance and that permission list. Writes as many whole lines as `out` takes, and answers how many bytes; all of them are there if `out` has
 * MARKING_KEY_LONGEST_SCRIPT. A refusal is written instead of the script, as an answer's line of 25 bytes that begins with a space: 1 where the compartment
 * is 8 or above, 18 where the allowance is above 1,024, 17 and the number, from 1, of the first line that is not of the form, or 25 as above.
 */
size_t plan_script(uint64_t compartment, uint64_t allowance, const uint8_t *text, size_t text_len, uint8_t *out, size_t out_len);

/* The number of the refusal that an answer of the functions above but run_script and plan_script is, or 0 where the call was accepted. A refusal comes as 2^64 less
 * its number; no list has so many groups. */
static inline unsigned marking_key_refusal(uint64_t answer)
{
    return answer > UINT64_MAX - 255 ? (unsigned)(UINT64_MAX - answer) + 1 : 0;
}

#ifdef __cplusplus
}
#endif

#endif
