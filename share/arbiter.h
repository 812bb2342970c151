/* arbiter.h: the engine of arbiter as a library. It pairs chess tournaments by the FIDE (Dutch) System, Handbook C.04.3 of 2017.
 *
 * One call does what one run of the program `arbiter` does: it gets the words of a command line and the bytes of a report, and
 * gives an exit status, and what the program would write to its two outputs. docs/REFERENCE.md has every word and every text.
 *
 * Link with -larbiter (libarbiter.a or libarbiter.so). The library needs the C library alone.
 *
 * Threads. Nothing is kept between calls, and nothing is shared by them: any number of threads may call at the same time. Do not
 * call from a signal handler, or in a forked child of a process with threads before it calls exec.
 *
 * Stack. A call needs ARBITER_STACK bytes of stack, whatever the words and the report. With less the process may end with a
 * signal (SIGSEGV). A first thread has 8 MiB on most systems, but a thread that you start may have less: see
 * pthread_attr_setstacksize.
 *
 * Memory. A call takes memory by malloc and realloc, as much as the program does and the two texts once more (docs/EMBEDDING.md has
 * numbers), and has given back all of it by free when it returns. Where memory is refused the status is ARBITER_TROUBLE and the
 * message is "memory: refused"; where it would only have saved steps the call goes on without it, and may be undecided.
 *
 * Time. Limit the search by the option --steps. A call cannot be interrupted.
 */
#ifndef ARBITER_H
#define ARBITER_H

#include <stddef.h>
#include <stdint.h>

#ifdef __cplusplus
extern "C" {
#endif

/* The stack that a call needs, in bytes. */
#define ARBITER_STACK (512 * 1024)

/* What a call answers. With ARBITER_DONE, ARBITER_NO_PAIRING and ARBITER_UNDECIDED the output has the text, and else the message. */
enum arbiter_status {
    ARBITER_DONE = 0,       /* the words were carried out */
    ARBITER_REFUSED = 1,    /* the report is refused */
    ARBITER_BAD_WORDS = 2,  /* the words are refused */
    ARBITER_NO_PAIRING = 3, /* no pairing meets the absolute criteria */
    ARBITER_UNDECIDED = 4,  /* a limit of steps was reached first */
    ARBITER_TROUBLE = 5     /* memory was refused */
};

/* How long the two texts of a call are, in bytes, whatever room they had. */
typedef struct arbiter_lengths {
    size_t output;
    size_t message;
} arbiter_lengths;

/* Runs the words over the report. Answers the exit status, 0 to 5: see enum arbiter_status.
 *
 * words, words_length    the words of the command line, without the program's name, one on each line, in UTF-8, as
 *                        "pair\n--steps\n1000000\n". A line ends with a line feed, a carriage return, or both; the last one may
 *                        lack its end. No word has a line end in it.
 * report, report_length  the report. It is bytes: UTF-8, or any encoding with one byte for each character. Nothing needs to stand
 *                        behind the last byte.
 * output, output_room    here stands what the program would write to standard output, as far as there is room. It is bytes, and no
 *                        byte 0 is put behind it. Behind the text the room is as it was.
 * message, message_room  the same of what the program would write to standard error.
 * lengths                here stands how long both texts are. Where a length is more than its room, the text was cut at the end of
 *                        the room: call again with more room. The same call gives the same answer.
 *
 * No pointer is null: where a length or a room is 0, any other address serves. The words and the report may be read only, and
 * may overlap each other; the two rooms and lengths overlap nothing. Nothing is kept of what the pointers lead to. */
uint8_t arbiter_run(const uint8_t *words, size_t words_length, const uint8_t *report, size_t report_length,
                    uint8_t *output, size_t output_room, uint8_t *message, size_t message_room, arbiter_lengths *lengths);

#ifdef __cplusplus
}
#endif

#endif
