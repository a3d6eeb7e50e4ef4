/* The clearing house inside a program: a house that answers lines, one at a time. See docs/EMBEDDING.md.
   It takes the lines of `clear stream` (docs/FORMATS.md): those of a script, the line `configure`, by which a hub changes the
   configuration, and lines with a `request_id`. A line with a request id that comes again gets the same bytes, and is not done again;
   the house remembers such lines and their answers until it is closed.
   Link libclear_embedded.a and, of the kit, liblibc_c.a. They take memory by the program's malloc, realloc and free, and read and
   write nothing but what they are handed. */
#ifndef CLEAR_H
#define CLEAR_H

#include <stdbool.h>
#include <stddef.h>
#include <stdint.h>

#ifdef __cplusplus
extern "C" {
#endif

/* A house, or none: `struct clear_house house = {0};` has none. The struct is the caller's, and what it points to is the
   library's, from clear_open to clear_close. The caller changes neither, and uses no copy beside the one that it goes on with.
   A house is called by the thread that opened it; other houses may be called by other threads meanwhile.
   A call needs a stack of 512 KB, and is made from no signal handler. */
struct clear_house {
    void *at;
    bool is_open;
};

/* The result of a call. At every other code than CLEAR_DONE, CLEAR_TOO_SMALL and CLEAR_NOT_WRITTEN the house is as it was. */
enum clear_code {
    CLEAR_DONE = 0,
    CLEAR_NO_MEMORY = 1,     /* an allocation failed; the same call may be made again */
    CLEAR_NULL = 2,          /* a pointer is NULL that may not be */
    CLEAR_CLOSED = 3,        /* no house is open */
    CLEAR_OPEN = 4,          /* clear_open: a house is open already, and stays */
    CLEAR_NO_JSON = 5,       /* clear_open: no JSON, or longer than 1,048,576 bytes */
    CLEAR_MEMBER = 6,        /* clear_open: a member is at fault; `check_config` prints which */
    CLEAR_NO_LINE = 7,       /* clear_answer: longer than 1,048,576 bytes, or with a newline in it */
    CLEAR_KEPT = 8,          /* clear_answer: an answer is kept, which clear_again writes first */
    CLEAR_TOO_SMALL = 9,     /* the line is answered; its answer is longer than the buffer, and kept. clear_cause: the cause is longer */
    CLEAR_NOT_WRITTEN = 10,  /* the line is answered; an allocation for the answer's text failed, and the answer is kept */
    CLEAR_NOTHING_KEPT = 11, /* clear_again: no answer is kept */
    CLEAR_NOT_REFUSED = 12   /* clear_cause: the last line was not refused, or no line was answered */
};

/* The functions of the library, for other languages too. No pointer may be NULL, not even if its length is 0; what is read
   and what is written must not overlap. The functions after them are for C, and test for NULL. */
uint32_t clear_embedded_open(struct clear_house *house, const unsigned char *config, size_t config_length);
uint32_t clear_embedded_answer(struct clear_house *house, const unsigned char *line, size_t line_length,
                               unsigned char *buffer, size_t capacity, size_t *length);
uint32_t clear_embedded_again(struct clear_house *house, unsigned char *buffer, size_t capacity, size_t *length);
uint32_t clear_embedded_cause(struct clear_house *house, unsigned char *buffer, size_t capacity, size_t *length);
void clear_embedded_close(struct clear_house *house);

/* Opens an empty house under the configuration that these bytes are. The bytes are not used after the call. A line `configure` may
   change the configuration later. */
static inline enum clear_code clear_open(struct clear_house *house, const unsigned char *config, size_t config_length)
{
    if (house == NULL || config == NULL)
        return CLEAR_NULL;
    return (enum clear_code)clear_embedded_open(house, config, config_length);
}

/* Answers a line, which stands without its newline; one of length 0 is answered too. At CLEAR_DONE the answer stands at the
   buffer's beginning, with its newline. At CLEAR_TOO_SMALL and CLEAR_NOT_WRITTEN the line is done, and a change of the configuration
   is in force: do not send the line again, but take its answer by clear_again. *length is the length of the answer at CLEAR_DONE and
   at CLEAR_TOO_SMALL, as it was at CLEAR_NULL, and else 0. A buffer of capacity 0 may be NULL. */
static inline enum clear_code clear_answer(struct clear_house *house, const unsigned char *line, size_t line_length,
                                           unsigned char *buffer, size_t capacity, size_t *length)
{
    unsigned char none;

    if (house == NULL || line == NULL || length == NULL || (buffer == NULL && capacity > 0))
        return CLEAR_NULL;
    return (enum clear_code)clear_embedded_answer(house, line, line_length, buffer == NULL ? &none : buffer, capacity, length);
}

/* Writes the answer that is kept, which is kept no longer at CLEAR_DONE. Codes, buffer and length as with clear_answer. */
static inline enum clear_code clear_again(struct clear_house *house, unsigned char *buffer, size_t capacity, size_t *length)
{
    unsigned char none;

    if (house == NULL || length == NULL || (buffer == NULL && capacity > 0))
        return CLEAR_NULL;
    return (enum clear_code)clear_embedded_again(house, buffer == NULL ? &none : buffer, capacity, length);
}

/* Writes why the last line that was answered was refused, or answered BLOCKED or NO_CREDIT: a JSON object (docs/FORMATS.md, section 7)
   at the buffer's beginning, without a newline. The house stays as it is, and the call may be made again. It looks through all events
   of the house. *length is the length of the object at CLEAR_DONE and at CLEAR_TOO_SMALL, as it was at CLEAR_NULL, and else 0; no cause
   is longer than 1,024 bytes. A buffer of capacity 0 may be NULL. */
static inline enum clear_code clear_cause(struct clear_house *house, unsigned char *buffer, size_t capacity, size_t *length)
{
    unsigned char none;

    if (house == NULL || length == NULL || (buffer == NULL && capacity > 0))
        return CLEAR_NULL;
    return (enum clear_code)clear_embedded_cause(house, buffer == NULL ? &none : buffer, capacity, length);
}

/* Ends the house, if there is one, with all that it has and keeps, and frees its memory. The struct may be opened again. */
static inline void clear_close(struct clear_house *house)
{
    if (house != NULL)
        clear_embedded_close(house);
}

#ifdef __cplusplus
}
#endif

#endif
