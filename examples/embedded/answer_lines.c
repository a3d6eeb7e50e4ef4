/* answer_lines CONFIG: answers the lines of standard input by a house of this configuration, inside this process. */
#include "each_line.h"

/* Answers a line, and prints the answer. */
static enum clear_code print_answer(struct clear_house *house, const char *line, size_t size)
{
    size_t length;
    enum clear_code code = answer(house, line, size, &length);

    if (code == CLEAR_DONE)
        fwrite(buffer, 1, length, stdout);
    return code;
}

int main(int argc, char **argv)
{
    return each_line("answer_lines", argv[argc - 1], print_answer);
}
