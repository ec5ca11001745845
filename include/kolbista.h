/* kolbista.h: scripts over regions and dictionaries, run in memory, and images of regions. See kolbista(3). */
#ifndef KOLBISTA_H
#define KOLBISTA_H

#include <stddef.h>
#include <stdint.h>

#ifdef __cplusplus
extern "C" {
#endif

/* The tools. */
enum { KB_VMREPLAY = 0, KB_DTRUN = 1 };

/* Flags, or 0. */
enum { KB_QUIET = 1, KB_STAT = 2 };

/* What a call ends with. */
enum {
    KB_OK = 0,
    KB_SCRIPT = 1,  /* a line of the script is wrong */
    KB_UNSOUND = 1, /* a part of the image isn't sound */
    KB_USAGE = 2,   /* there is no such tool or flag: nothing was run */
    KB_FULL = 4,    /* what is written doesn't fit into out, the image that is made into made, or the line of what is wrong
                       into err */
    KB_MEMORY = 5,  /* want of memory */
    KB_NOT_LENT = 6, /* the image is sound, and isn't loaded: nothing was run */
    KB_LINE = 7,     /* a line of a script that is to leave an image is wrong */
    KB_NO_IMAGE = 8  /* such a script leaves no region open, or the first one isn't of the method best */
};

/*
 * Runs a script as the tool's program does, over disciplines of its own, which have nothing out at the end. The replies are
 * put at the front of out, and the line of what is wrong at the front of err, which 128 bytes hold; *out_used and *err_used
 * tell how many bytes of each. The other bytes of both stay. A pointer may be any but NULL where its size is 0. No two of
 * the memories overlap.
 */
uint32_t kb_run(uint32_t tool, uint32_t flags, const uint8_t *script, size_t script_size, uint8_t *out, size_t out_size,
                size_t *out_used, uint8_t *err, size_t err_size, size_t *err_used);

/*
 * Judges the image of a region in memory, as 'vmimage check' does: KB_OK where it is sound, KB_UNSOUND where a part of it
 * isn't, which the line at the front of err names; 128 bytes hold it.
 */
uint32_t kb_check(const uint8_t *image, size_t image_size, uint8_t *err, size_t err_size, size_t *err_used);

/*
 * Puts what a sound image holds at the front of out, as 'vmimage show' prints it: what stat, segments and blocks tell of the
 * region, and a walk of each dictionary, a line each. With KB_UNSOUND nothing is put there, and err gets a line.
 */
uint32_t kb_show(const uint8_t *image, size_t image_size, uint8_t *out, size_t out_size, size_t *out_used, uint8_t *err,
                 size_t err_size, size_t *err_used);

/*
 * Runs a script as 'vmimage save' does, and puts the image of the first region that it leaves open, with the dictionaries that
 * lie in it, at the front of made; *made_used tells how many bytes. The replies and the line of what is wrong go into out and
 * err as with kb_run. With KB_OK the image is sound. Where one of the three doesn't fit, the answer is KB_FULL; with any other
 * answer nothing is put into made: KB_LINE, KB_NO_IMAGE, KB_MEMORY, or KB_UNSOUND where the image wouldn't be sound.
 */
uint32_t kb_save(const uint8_t *script, size_t script_size, uint8_t *made, size_t made_size, size_t *made_used, uint8_t *out,
                 size_t out_size, size_t *out_used, uint8_t *err, size_t err_size, size_t *err_used);

/*
 * The same with the region of an image open and its dictionaries, as 'vmimage run' does: the region is r, the dictionaries are
 * d1, d2 and so on, and a block with a label has the name of b and its tag. So a state lasts from one call to the next. The
 * image that is read isn't changed. Besides there is KB_NOT_LENT, and KB_UNSOUND also tells that the image that is read isn't
 * sound: with both nothing is run.
 */
uint32_t kb_run_over(const uint8_t *image, size_t image_size, const uint8_t *script, size_t script_size, uint8_t *made,
                     size_t made_size, size_t *made_used, uint8_t *out, size_t out_size, size_t *out_used, uint8_t *err,
                     size_t err_size, size_t *err_used);

#ifdef __cplusplus
}
#endif

#endif
