/* Runs scripts of OAuth 2.0 requests: a script in, the result of its run out, as lines or as JSON.
 * docs/SCRIPT.md says what a script and a result are, and docs/C.md how this library is used. */
#ifndef LIFECRIB_H
#define LIFECRIB_H

#include <stddef.h>
#include <stdint.h>

#define LIFECRIB_VERSION "0.1.0"

#ifdef __cplusplus
extern "C" {
#endif

/* How a run ended. */
enum lifecrib_status {
    LIFECRIB_ANSWERED = 0,   /* with an answer */
    LIFECRIB_FAULT = 1,      /* with a fault or a wait, which the end of the result tells */
    LIFECRIB_BAD_SCRIPT = 2, /* the script is none, as the result says */
    LIFECRIB_NO_MEMORY = 3   /* memory ran out, and there is no result */
};

/* Runs a script, which is JSON in UTF-8 and needs no NUL at its end. Returns a lifecrib_status.
 *
 * The result is one JSON object and a newline, if the script has "result": "json", and else lines. It is
 * UTF-8.
 *
 * *length becomes the number of bytes of the result. If it fits into the output, that begins with it,
 * without a NUL behind it, and is else as it was. If it does not fit, all of the output is as it was, and a
 * call with so much room gives the result. With LIFECRIB_NO_MEMORY *length is 0, and the output as it was.
 *
 * What the caller owes:
 * - No pointer is null, also where a length is 0. The bytes of the output are initialised.
 * - The script, the output and *length are apart from each other. During the call no other thread writes
 *   the script, or touches the other two.
 * - malloc, realloc and free are one allocator.
 * - No call is made from a signal handler, or in the forked child of a process with threads.
 * - The thread has 192 KiB of stack. (That is measured, and not proved.)
 *
 * Nothing is kept between calls: all memory that a call takes is given back before it returns, and threads
 * need no lock. */
int32_t lifecrib_run(const uint8_t *script, size_t script_length, uint8_t *output, size_t output_length,
                     size_t *length);

/* Gives the version of the library that is linked, as LIFECRIB_VERSION is that of this header; and the kinds
 * of faults, each with a newline behind it, in the words of docs/SCRIPT.md. The text goes into the output, and
 * its length into *length, as in lifecrib_run. Neither call takes memory. */
void lifecrib_version(uint8_t *output, size_t output_length, size_t *length);
void lifecrib_kinds(uint8_t *output, size_t output_length, size_t *length);

#ifdef __cplusplus
}
#endif

#endif
