/* Vindaesk as a library of C: a call is carried out in the process of the caller, over bytes in its memory.
 *
 * Nothing is read from files and nothing is written anywhere else than through the pointers of the call. A call keeps
 * nothing for the next one, but for those of a session, and several threads may call at once. The bytes of an answer are
 * those that the program `vindaesk` writes for the same script and the same files.
 *
 * WHAT IS PROVED. For every script and all files, by the status that a call returns:
 *
 *   VINDAESK_ACCEPTED, VINDAESK_REFUSED    the first *size bytes of the answer are the whole page, and the bytes of the
 *                                          buffer after them are as they were
 *   VINDAESK_SMALL                         the page has more bytes than the buffer; *size is the size of the page, and the
 *                                          buffer is as it was
 *   any other                              *size is 0, and the buffer is as it was
 *
 * The functions below say which page it is. There is no other status than those that are listed with each function, and a
 * call that is not out of memory ends with one of the first three where its arguments have their form.
 *
 * WHAT A CALLER OWES, and no proof covers:
 *
 *   - a pointer is to as many bytes as the length after it says, and is not null, not even where that length is 0;
 *   - the bytes of `answer` and `*size` are not among those of another argument, and no other thread uses them, or
 *     changes the others, until the call returns;
 *   - malloc, realloc and free are the C library's, or others that align as these do;
 *   - a call is not made from a signal handler, nor in the forked child of a process with threads;
 *   - there are VINDAESK_STACK bytes of stack;
 *   - a session is VINDAESK_CLOSED before it is opened; its thread alone calls with it, one call at a time, and nothing
 *     else reads, writes or copies it.
 *
 * FILES. All files that a call may read are in one buffer, one after the other, without anything before, between or after
 * them. Of each come:
 *
 *   - how many bytes its name has, as a number of 8 bytes of which the first is the lowest,
 *   - how many bytes it has itself, in the same way,
 *   - the bytes of its name, and
 *   - its bytes.
 *
 * No files are a buffer of length 0. Of files with equal names the first counts. vindaesk_file_size and vindaesk_put_file
 * below make such a buffer.
 */
#ifndef VINDAESK_H
#define VINDAESK_H

#include <stddef.h>
#include <stdint.h>
#include <string.h>

#ifdef __cplusplus
extern "C" {
#endif

/* What a call returns. The numbers up to 7 are those of the program. */
enum vindaesk_status {
    VINDAESK_ACCEPTED = 0,  /* all was carried out, and nothing was refused */
    VINDAESK_REFUSED = 1,   /* all was carried out, and a line, or the file, was refused: the page says which and why */
    VINDAESK_USAGE = 2,     /* no file, side or view can have this name, there are no ids or too many, or a line has a line
                               feed in it */
    VINDAESK_NO_MEMORY = 5, /* there is no memory */
    VINDAESK_LONG = 7,      /* the script has more than VINDAESK_MAX_SCRIPT bytes, or the session VINDAESK_MAX_LINES lines */
    VINDAESK_SMALL = 8,     /* the buffer for the answer is too small */
    VINDAESK_FILES = 9,     /* the buffer of files does not have its form */
    VINDAESK_STATE = 10     /* the session is closed, or open where it should not be */
};

/* The most bytes that a script may have. */
#define VINDAESK_MAX_SCRIPT 16777216

/* The most lines that a session takes. */
#define VINDAESK_MAX_LINES 4294967296

/* The most resources that are looked up at a time. */
#define VINDAESK_MAX_IDS 64

/* How much stack a call may use, in bytes. */
#define VINDAESK_STACK 262144

/* Carries out a script. The page is its transcript: the texts that its lines write, one after the other.
 *
 * It returns ACCEPTED where no line was refused, and REFUSED otherwise; LONG exactly where the script is too long, before
 * anything else; FILES only where no files make up `files`; NO_MEMORY; or SMALL. */
uint8_t vindaesk_run(const uint8_t *script, size_t script_size, const uint8_t *files, size_t files_size,
                     uint8_t *answer, size_t answer_size, size_t *size);

/* Carries out a script for a stack of windows. The page is the texts of its lines. It returns what vindaesk_run does. */
uint8_t vindaesk_stack(const uint8_t *script, size_t script_size, const uint8_t *files, size_t files_size,
                       uint8_t *answer, size_t answer_size, size_t *size);

/* Carries out a script, and then says which view gets the focus next, from a view to a side of it. The page is the script's
 * transcript and then one line: `focus vN`, `focus none`, or why the question is refused.
 *
 * The side is `left`, `right`, `up` or `down`, and the view is named as in a line of a script: `v` and its number, or `@` and
 * its id. It returns ACCEPTED where neither a line nor the question was refused, and REFUSED otherwise; USAGE exactly where
 * the words name no side or no view, before anything else; and then what vindaesk_run does. */
uint8_t vindaesk_focus(const uint8_t *script, size_t script_size, const uint8_t *side, size_t side_size,
                       const uint8_t *view, size_t view_size, const uint8_t *files, size_t files_size,
                       uint8_t *answer, size_t answer_size, size_t *size);

/* Prints a compiled layout file, the one of this name among `files`. The page is the text of its document, or why it is
 * refused.
 *
 * It returns ACCEPTED where the file was printed, and REFUSED where it was refused or is missing; USAGE exactly where no
 * file can have this name, before anything else; FILES only where no files make up `files`; NO_MEMORY; or SMALL. A name has
 * 1 to 64 ASCII letters, digits, `_`, `-` and `.`, and does not begin with a `.`. */
uint8_t vindaesk_dump(const uint8_t *name, size_t name_size, const uint8_t *files, size_t files_size,
                      uint8_t *answer, size_t answer_size, size_t *size);

/* Prints what resources hold in a compiled table of resources, the one of this name among `files`. The page has one line for
 * each id, in their order, or says why the file is refused.
 *
 * It returns what vindaesk_dump does, and USAGE also where there are no ids or more than VINDAESK_MAX_IDS. */
uint8_t vindaesk_lookup(const uint8_t *name, size_t name_size, const uint32_t *ids, size_t id_count,
                        const uint8_t *files, size_t files_size, uint8_t *answer, size_t answer_size, size_t *size);

/* SESSIONS. A session is a script whose lines come one at a time, and the answer to each is there before the next line is
 * given:
 *
 *     vindaesk_session session = VINDAESK_CLOSED;
 *     vindaesk_open(files, files_size, &session);
 *     vindaesk_line(&session, line, line_size, answer, answer_size, &size);      for each line
 *     vindaesk_close(&session);
 *
 * What is proved: with the files that it was opened with, the answers so far, one after the other, are the transcript of the
 * lines so far, each with a line feed after it. So they are what vindaesk_run puts for these lines, and `line 3: refused ..`
 * counts the lines of the session. */
typedef struct {
    void *open; /* null where the session is closed */
} vindaesk_session;

#define VINDAESK_CLOSED {0}

/* Opens a session. The files are copied.
 *
 * It returns ACCEPTED; STATE exactly where the session is open, before anything else; FILES only where no files make up
 * `files`; or NO_MEMORY. Unless it returns ACCEPTED the session is as it was. */
uint8_t vindaesk_open(const uint8_t *files, size_t files_size, vindaesk_session *session);

/* Carries out one more line, which is given without its line feed. The page is the text of this line, and may be empty.
 *
 * It returns ACCEPTED where the line was carried out, and REFUSED where it was refused; SMALL where one of these was so and the
 * text has more bytes than the buffer: vindaesk_answer puts it into a larger one. After these the line belongs to the script of
 * the session. It returns STATE exactly where the session is closed, before anything else, USAGE exactly where it is open and
 * there is a line feed in the line, and LONG only where the session has taken VINDAESK_MAX_LINES lines; the session is then as
 * it was. NO_MEMORY closes it. */
uint8_t vindaesk_line(vindaesk_session *session, const uint8_t *line, size_t line_size, uint8_t *answer,
                      size_t answer_size, size_t *size);

/* Puts the text of the last line once more; before the first line it is empty.
 *
 * It returns ACCEPTED; SMALL where the text has more bytes than the buffer; or STATE exactly where the session is closed. The
 * session is as it was. */
uint8_t vindaesk_answer(vindaesk_session *session, uint8_t *answer, size_t answer_size, size_t *size);

/* Closes a session, and frees all that it has.
 *
 * It returns ACCEPTED; or STATE exactly where the session was closed already. */
uint8_t vindaesk_close(vindaesk_session *session);

/* How many bytes a file takes in a buffer of files. */
static inline size_t vindaesk_file_size(size_t name_size, size_t contents_size)
{
    return 16 + name_size + contents_size;
}

/* Puts a file into a buffer of files, which has room for it, and returns where the next one goes. */
static inline uint8_t *vindaesk_put_file(uint8_t *at, const void *name, size_t name_size, const void *contents,
                                         size_t contents_size)
{
    for (int i = 0; i < 8; i++) {
        at[i] = (uint8_t)((uint64_t)name_size >> 8 * i);
        at[8 + i] = (uint8_t)((uint64_t)contents_size >> 8 * i);
    }
    memcpy(at + 16, name, name_size);
    memcpy(at + 16 + name_size, contents, contents_size);
    return at + 16 + name_size + contents_size;
}

#ifdef __cplusplus
}
#endif

#endif
