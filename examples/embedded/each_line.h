/* What answer_lines.c and causes.c share: a house inside this process that takes the lines of standard input. It is included first. */
#ifndef EACH_LINE_H
#define EACH_LINE_H

#define _POSIX_C_SOURCE 200809L
#include "clear.h"

#include <fcntl.h>
#include <stdio.h>
#include <stdlib.h>
#include <unistd.h>

static unsigned char config[1048577]; /* one byte more than a configuration may have */
static unsigned char *buffer;
static size_t capacity;

/* Answers a line into the buffer, which grows if the answer is longer. */
static enum clear_code answer(struct clear_house *house, const char *line, size_t size, size_t *length)
{
    enum clear_code code = clear_answer(house, (const unsigned char *)line, size, buffer, capacity, length);
    unsigned char *larger;

    if (code != CLEAR_TOO_SMALL)
        return code;
    larger = realloc(buffer, *length);
    if (larger == NULL)
        return CLEAR_NO_MEMORY;
    buffer = larger;
    capacity = *length;
    return clear_again(house, buffer, capacity, length);
}

/* Opens a house under the configuration in the file at `path`, and calls `done` for each line of standard input, without its newline,
   until `done` returns another code than CLEAR_DONE. Prints such a code to standard error. Returns the status of the program. */
static int each_line(const char *program, const char *path,
                     enum clear_code (*done)(struct clear_house *, const char *line, size_t size))
{
    struct clear_house house = {0};
    int file = open(path, O_RDONLY);
    ssize_t count = read(file, config, sizeof config);
    enum clear_code code = clear_open(&house, config, count < 0 ? 0 : (size_t)count);
    char *line = NULL;
    size_t room = 0;

    while (code == CLEAR_DONE && (count = getline(&line, &room, stdin)) > 0)
        code = done(&house, line, (size_t)count - (line[count - 1] == '\n'));
    if (code == CLEAR_DONE && !feof(stdin)) /* getline found no memory */
        code = CLEAR_NO_MEMORY;
    if (code == CLEAR_NO_MEMORY || code == CLEAR_NOT_WRITTEN)
        fprintf(stderr, "%s: no memory\n", program);
    else if (code != CLEAR_DONE)
        fprintf(stderr, "%s: code %d\n", program, (int)code);
    clear_close(&house);
    free(line);
    free(buffer);
    return code != CLEAR_DONE || fflush(stdout) != 0;
}

#endif
