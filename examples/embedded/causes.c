/* causes CONFIG: answers the lines of standard input by a house of this configuration, inside this process, and prints the cause of
   each refusal, of BLOCKED and of NO_CREDIT. */
#include "each_line.h"

/* Answers a line, and prints why it is refused if it is. */
static enum clear_code print_cause(struct clear_house *house, const char *line, size_t size)
{
    static unsigned char cause[1024]; /* as long as a cause may be */
    size_t length;
    enum clear_code code = answer(house, line, size, &length);

    if (code != CLEAR_DONE)
        return code;
    code = clear_cause(house, cause, sizeof cause, &length);
    if (code == CLEAR_NOT_REFUSED)
        return CLEAR_DONE;
    if (code == CLEAR_DONE)
        printf("%.*s\n", (int)length, (const char *)cause);
    return code;
}

int main(int argc, char **argv)
{
    return each_line("causes", argv[argc - 1], print_cause);
}
