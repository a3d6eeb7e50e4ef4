/* Calls of the library for C that examples/embedded/answer_lines.c does not make. It takes no memory of its own.

   embedded_calls codes CONFIG      makes calls that return each code except CLEAR_NO_MEMORY and CLEAR_NOT_WRITTEN, prints those that
                                    return another code than is meant, and ends with status 0 if none does
   embedded_calls WORD CONFIG       with another word: answers the lines of standard input into a buffer of 40 bytes, asks again for
                                    each answer that is kept, and asks for the cause of each line; a call in which an allocation
                                    fails is made once more */
#include "clear.h"

#include <fcntl.h>
#include <string.h>
#include <unistd.h>

#define MOST_LINE 1048576

static unsigned char config[MOST_LINE + 1], input[1 << 24], buffer[1 << 24], small[40], longest[MOST_LINE + 1];
static const char exposure_line[] = "{\"platform\":\"emp\",\"do\":\"exposure\",\"provider\":\"NL/MSA\",\"currency\":\"EUR\"}";
static const char exposure[] =
    "{\"status_code\":1000,\"answer\":\"Exposure\",\"at\":0,\"holds\":\"0.0000\",\"debts\":\"0.0000\",\"limit\":\"100.0000\"}\n";

#define ZONE "\"zone\":\"CET-1CEST,M3.5.0,M10.5.0/3\""
/* A line of the hub that changes the provider and its limit in the configuration examples/config.json. */
#define CONFIGURE(members, provider, limit) \
    "{\"platform\":\"hub\"," members "\"do\":\"configure\",\"configuration\":{\"version\":2,\"tolerance\":100,\"currencies\":[\"EUR\"]," \
    "\"operators\":[{\"party\":\"NL/CPA\"," ZONE "},{\"party\":\"NL/CPB\"," ZONE "}],\"providers\":[{\"party\":\"" provider "\"," \
    "\"limits\":[{\"currency\":\"EUR\",\"limit\":" limit ",\"hold\":200000}]}],\"platforms\":[" \
    "{\"name\":\"cpo\",\"parties\":[\"NL/CPA\",\"NL/CPB\"]},{\"name\":\"emp\",\"parties\":[\"" provider "\"]}," \
    "{\"name\":\"hub\",\"parties\":[],\"hub\":true}]}}"
#define AUTHORIZE(id) \
    "{\"platform\":\"cpo\",\"request_id\":\"" id "\",\"do\":\"authorize\",\"operator\":\"NL/CPA\",\"provider\":\"NL/MSA\"," \
    "\"uid\":\"U1\",\"currency\":\"EUR\"}"
#define EXPOSURE(at, holds, limit) \
    "{\"status_code\":1000,\"answer\":\"Exposure\",\"at\":" at ",\"holds\":\"" holds "\",\"debts\":\"0.0000\",\"limit\":\"" limit "\"}\n"
static const char stored_token[] =
    "{\"platform\":\"emp\",\"request_id\":\"t\",\"do\":\"put_token\",\"token\":{\"country_code\":\"NL\",\"party_id\":\"MSA\","
    "\"uid\":\"U1\",\"type\":\"RFID\",\"contract_id\":\"C1\",\"valid\":true,\"whitelist\":\"NEVER\","
    "\"last_updated\":\"2024-06-01T00:00:00Z\"}}";
static const char stored[] = "{\"status_code\":1000,\"answer\":\"Stored\",\"at\":0}\n";
static const char raised[] = CONFIGURE("\"request_id\":\"c\",", "NL/MSA", "2000000");
static const char lowered[] = CONFIGURE("\"request_id\":\"c\",", "NL/MSA", "300000");
static const char lowered_later[] = CONFIGURE("\"request_id\":\"d\",", "NL/MSA", "300000");
static const char without_provider[] = CONFIGURE("", "NL/MSB", "2000000");
static const char with_newline[] = CONFIGURE("\n", "NL/MSA", "300000");
static const char configured[] = "{\"status_code\":1000,\"answer\":\"Configured\",\"at\":1}\n";
static const char configured_later[] = "{\"status_code\":1000,\"answer\":\"Configured\",\"at\":2}\n";
static const char otherwise[] =
    "{\"status_code\":2000,\"refusal\":\"ComesOutOtherwise\",\"number\":29,\"at\":1,\"event\":0,\"kind\":\"Token\"}\n";
static const char id_used[] = "{\"status_code\":2000,\"refusal\":\"RequestIdUsed\",\"number\":30}\n";
static const char allowed[] = "{\"status_code\":1000,\"answer\":\"ALLOWED\",\"at\":1,\"authorization_reference\":\"NLMSA-1\"}\n";
static const char no_credit[] = "{\"status_code\":1000,\"answer\":\"NO_CREDIT\",\"at\":2}\n";
static const char no_json[] = "{\"status_code\":2001,\"refusal\":\"Syntax\",\"number\":1}\n";
static const char unknown_token[] =
    "{\"platform\":\"cpo\",\"do\":\"authorize\",\"operator\":\"NL/CPA\",\"provider\":\"NL/MSA\",\"uid\":\"U\\\"\",\"currency\":\"EUR\"}";
static const char token_not_put[] = "{\"place\":\"uid\",\"cause\":\"token that is not put\",\"found\":\"U\\\"\"}";
static const char cause_no_json[] = "{\"place\":\"column 1\",\"cause\":\"no JSON\"}";
static const char cause_otherwise[] =
    "{\"place\":\"configuration\",\"cause\":\"an event would come out otherwise\",\"found\":\"Token\",\"event\":0}";
static const char cause_id_used[] = "{\"place\":\"request_id\",\"cause\":\"given to another line\",\"found\":\"c\"}";
static const char cause_no_credit[] =
    "{\"place\":\"provider\",\"cause\":\"above the provider's limit\",\"found\":\"40.0000\",\"against\":\"30.0000\"}";
static int failed;

static void is(int holds, const char *what)
{
    if (holds)
        return;
    failed++;
    if (write(1, what, strlen(what)) < 0 || write(1, "\n", 1) < 0)
        failed++;
}

#define IS(what) is(what, #what)

/* The bytes of an open file, but no more than the room. */
static size_t all_of(int file, unsigned char *bytes, size_t room)
{
    size_t size = 0;
    ssize_t count;

    while (size < room && (count = read(file, bytes + size, room - size)) > 0)
        size += (size_t)count;
    return size;
}

static const unsigned char *bytes_of(const char *text)
{
    return (const unsigned char *)text;
}

static void open_codes(struct clear_house *house, size_t size)
{
    IS(clear_open(NULL, config, size) == CLEAR_NULL);
    IS(clear_open(house, NULL, 0) == CLEAR_NULL);
    IS(clear_open(house, config, 0) == CLEAR_NO_JSON);
    IS(clear_open(house, config, size - 2) == CLEAR_NO_JSON);
    IS(clear_open(house, config, sizeof config) == CLEAR_NO_JSON);
    IS(clear_open(house, bytes_of("{}"), 2) == CLEAR_MEMBER);
    IS(!house->is_open);
    IS(clear_open(house, config, size) == CLEAR_DONE);
    IS(house->is_open);
    IS(clear_open(house, config, size) == CLEAR_OPEN);
    IS(clear_open(house, bytes_of("{}"), 2) == CLEAR_OPEN);
}

static void null_codes(struct clear_house *house)
{
    size_t length = 7;

    IS(clear_answer(NULL, bytes_of(exposure_line), strlen(exposure_line), buffer, sizeof buffer, &length) == CLEAR_NULL);
    IS(clear_answer(house, NULL, 0, buffer, sizeof buffer, &length) == CLEAR_NULL);
    IS(clear_answer(house, bytes_of(exposure_line), strlen(exposure_line), NULL, 1, &length) == CLEAR_NULL);
    IS(clear_answer(house, bytes_of(exposure_line), strlen(exposure_line), buffer, sizeof buffer, NULL) == CLEAR_NULL);
    IS(clear_again(NULL, buffer, sizeof buffer, &length) == CLEAR_NULL);
    IS(clear_again(house, NULL, 1, &length) == CLEAR_NULL);
    IS(clear_again(house, buffer, sizeof buffer, NULL) == CLEAR_NULL);
    IS(clear_cause(NULL, buffer, sizeof buffer, &length) == CLEAR_NULL);
    IS(clear_cause(house, NULL, 1, &length) == CLEAR_NULL);
    IS(clear_cause(house, buffer, sizeof buffer, NULL) == CLEAR_NULL);
    IS(length == 7);
    clear_close(NULL);
}

/* Whether the buffer has this text after a call. */
static int has(const char *text, size_t length)
{
    return length == strlen(text) && memcmp(buffer, text, length) == 0;
}

/* Whether the last line was refused for this cause, which a buffer that is too small does not change. */
static int is_refused_for(struct clear_house *house, const char *cause)
{
    size_t length = 7, size = strlen(cause);

    memset(buffer, '.', size + 1);
    if (clear_cause(house, NULL, 0, &length) != CLEAR_TOO_SMALL || length != size)
        return 0;
    if (clear_cause(house, buffer, size - 1, &length) != CLEAR_TOO_SMALL || length != size || buffer[0] != '.')
        return 0;
    if (clear_cause(house, buffer, size, &length) != CLEAR_DONE || !has(cause, length) || buffer[size] != '.')
        return 0;
    return clear_cause(house, buffer, sizeof buffer, &length) == CLEAR_DONE && has(cause, length);
}

/* Whether the last line was not refused, or no line was answered. */
static int is_not_refused(struct clear_house *house)
{
    size_t length = 7;

    return clear_cause(house, buffer, sizeof buffer, &length) == CLEAR_NOT_REFUSED && length == 0;
}

static void line_codes(struct clear_house *house)
{
    size_t length = 7;

    memset(longest, 'x', sizeof longest);
    IS(is_not_refused(house));
    IS(clear_answer(house, bytes_of("[\n]"), 3, buffer, sizeof buffer, &length) == CLEAR_NO_LINE && length == 0);
    IS(is_not_refused(house));
    IS(clear_answer(house, longest, MOST_LINE + 1, buffer, sizeof buffer, &length) == CLEAR_NO_LINE && length == 0);
    IS(clear_answer(house, longest, MOST_LINE, buffer, sizeof buffer, &length) == CLEAR_DONE);
    IS(length == strlen(no_json) && memcmp(buffer, no_json, length) == 0);
    IS(clear_answer(house, bytes_of(""), 0, buffer, sizeof buffer, &length) == CLEAR_DONE);
    IS(length == strlen(no_json) && memcmp(buffer, no_json, length) == 0);
    IS(is_refused_for(house, cause_no_json));
    IS(clear_answer(house, bytes_of("[\n]"), 3, buffer, sizeof buffer, &length) == CLEAR_NO_LINE && length == 0);
    IS(is_refused_for(house, cause_no_json));
    IS(clear_answer(house, bytes_of(unknown_token), strlen(unknown_token), NULL, 0, &length) == CLEAR_TOO_SMALL);
    IS(is_refused_for(house, token_not_put)); /* while the answer is kept */
    IS(clear_again(house, buffer, sizeof buffer, &length) == CLEAR_DONE);
    IS(is_refused_for(house, token_not_put));
}

static void kept_codes(struct clear_house *house)
{
    size_t length = 7, size = strlen(exposure);

    IS(clear_again(house, buffer, sizeof buffer, &length) == CLEAR_NOTHING_KEPT && length == 0);
    memset(buffer, '.', size + 2);
    IS(clear_answer(house, bytes_of(exposure_line), strlen(exposure_line), NULL, 0, &length) == CLEAR_TOO_SMALL && length == size);
    IS(clear_answer(house, bytes_of(exposure_line), strlen(exposure_line), buffer, size, &length) == CLEAR_KEPT && length == 0);
    IS(clear_answer(house, bytes_of("[\n]"), 3, buffer, size, &length) == CLEAR_KEPT && length == 0);
    IS(clear_again(house, buffer, size - 1, &length) == CLEAR_TOO_SMALL && length == size);
    IS(buffer[0] == '.' && buffer[size - 1] == '.');
    IS(clear_again(house, buffer, size, &length) == CLEAR_DONE && length == size);
    IS(memcmp(buffer, exposure, size) == 0 && buffer[size] == '.' && buffer[size + 1] == '.');
    IS(clear_again(house, buffer, size, &length) == CLEAR_NOTHING_KEPT && length == 0);
    IS(clear_answer(house, bytes_of(exposure_line), strlen(exposure_line), buffer, size, &length) == CLEAR_DONE && length == size);
}

static void closed_codes(struct clear_house *house)
{
    size_t length = 7;

    IS(clear_answer(house, bytes_of(exposure_line), strlen(exposure_line), buffer, sizeof buffer, &length) == CLEAR_CLOSED && length == 0);
    length = 7;
    IS(clear_again(house, buffer, sizeof buffer, &length) == CLEAR_CLOSED && length == 0);
    length = 7;
    IS(clear_cause(house, buffer, sizeof buffer, &length) == CLEAR_CLOSED && length == 0);
    clear_close(house);
    IS(!house->is_open);
}

/* Whether a line gets this answer in one call. */
static int gets_at_once(struct clear_house *house, const char *line, const char *answer)
{
    size_t length = 7;

    memset(buffer, '.', strlen(answer));
    return clear_answer(house, bytes_of(line), strlen(line), buffer, sizeof buffer, &length) == CLEAR_DONE && has(answer, length);
}

/* Whether a line gets this answer in two calls: the first has a buffer that is a byte too small, and no line is answered between them. */
static int gets_later(struct clear_house *house, const char *line, const char *answer)
{
    size_t length = 7, size = strlen(answer);

    if (clear_answer(house, bytes_of(line), strlen(line), buffer, size - 1, &length) != CLEAR_TOO_SMALL || length != size)
        return 0;
    if (clear_answer(house, bytes_of(lowered), strlen(lowered), buffer, sizeof buffer, &length) != CLEAR_KEPT || length != 0)
        return 0;
    return clear_again(house, buffer, size, &length) == CLEAR_DONE && has(answer, length);
}

/* Changes of the configuration of a house that has one token: taken, refused, repeated, and under an id that is used. */
static void changes(struct clear_house *house)
{
    size_t length = 7;

    IS(gets_at_once(house, exposure_line, EXPOSURE("1", "0.0000", "100.0000")));
    IS(clear_answer(house, bytes_of(with_newline), strlen(with_newline), buffer, sizeof buffer, &length) == CLEAR_NO_LINE && length == 0);
    IS(gets_at_once(house, exposure_line, EXPOSURE("1", "0.0000", "100.0000")));
    IS(gets_at_once(house, raised, configured));
    IS(gets_at_once(house, exposure_line, EXPOSURE("1", "0.0000", "200.0000")));
    IS(gets_at_once(house, without_provider, otherwise));
    IS(gets_later(house, without_provider, otherwise));
    IS(is_refused_for(house, cause_otherwise));
    IS(gets_at_once(house, exposure_line, EXPOSURE("1", "0.0000", "200.0000")));
    IS(gets_at_once(house, raised, configured));
    IS(is_not_refused(house));
    IS(gets_at_once(house, lowered, id_used));
    IS(is_refused_for(house, cause_id_used));
    IS(gets_later(house, lowered, id_used));
    IS(is_refused_for(house, cause_id_used));
    IS(gets_at_once(house, exposure_line, EXPOSURE("1", "0.0000", "200.0000")));
}

/* Lines with request ids that come again, also after a change of the configuration: each has its first answer, and is done once. */
static void retries(struct clear_house *house)
{
    IS(gets_later(house, AUTHORIZE("a"), allowed));
    IS(gets_at_once(house, exposure_line, EXPOSURE("2", "20.0000", "200.0000")));
    IS(gets_at_once(house, AUTHORIZE("a"), allowed));
    IS(gets_later(house, AUTHORIZE("a"), allowed));
    IS(gets_at_once(house, exposure_line, EXPOSURE("2", "20.0000", "200.0000")));
    IS(gets_later(house, lowered_later, configured_later));
    IS(gets_at_once(house, exposure_line, EXPOSURE("2", "20.0000", "30.0000")));
    IS(gets_at_once(house, AUTHORIZE("b"), no_credit));
    IS(is_refused_for(house, cause_no_credit));
    IS(gets_at_once(house, AUTHORIZE("b"), no_credit)); /* repeated, and not refused again */
    IS(is_not_refused(house));
    IS(gets_at_once(house, AUTHORIZE("a"), allowed));
    IS(gets_later(house, raised, configured));
    IS(gets_later(house, stored_token, stored));
    IS(gets_at_once(house, exposure_line, EXPOSURE("2", "20.0000", "30.0000")));
}

static int codes(struct clear_house *house, size_t size)
{
    size_t length;

    closed_codes(house);
    open_codes(house, size);
    null_codes(house);
    line_codes(house);
    kept_codes(house);
    IS(clear_answer(house, bytes_of(exposure_line), strlen(exposure_line), small, sizeof small, &length) == CLEAR_TOO_SMALL);
    clear_close(house); /* with an answer that is kept */
    closed_codes(house);
    IS(clear_open(house, config, size) == CLEAR_DONE);
    kept_codes(house);
    IS(gets_at_once(house, stored_token, stored));
    changes(house);
    retries(house);
    clear_close(house);
    IS(clear_open(house, config, size) == CLEAR_DONE); /* a house that is opened again remembers no line */
    IS(is_not_refused(house));
    IS(gets_at_once(house, stored_token, stored));
    IS(gets_at_once(house, exposure_line, EXPOSURE("1", "0.0000", "100.0000")));
    clear_close(house);
    return failed > 0;
}

/* Answers a line, and gives the number of bytes of its answer, or 0 at a code that is not meant. */
static size_t answered(struct clear_house *house, const unsigned char *line, size_t size)
{
    size_t length;
    enum clear_code code = clear_answer(house, line, size, small, sizeof small, &length);

    if (code == CLEAR_NO_MEMORY)
        code = clear_answer(house, line, size, small, sizeof small, &length);
    if (code == CLEAR_TOO_SMALL || code == CLEAR_NOT_WRITTEN)
        code = clear_again(house, buffer, sizeof buffer, &length);
    else if (code == CLEAR_DONE)
        memcpy(buffer, small, length);
    if (code == CLEAR_NOT_WRITTEN)
        code = clear_again(house, buffer, sizeof buffer, &length);
    return code == CLEAR_DONE ? length : 0;
}

/* Whether the last line has a cause, or was not refused. */
static int is_explained(struct clear_house *house)
{
    size_t length;
    enum clear_code code = clear_cause(house, small, sizeof small, &length);

    if (code == CLEAR_NO_MEMORY)
        code = clear_cause(house, small, sizeof small, &length);
    return code == CLEAR_DONE || code == CLEAR_TOO_SMALL || code == CLEAR_NOT_REFUSED;
}

static int again(struct clear_house *house, size_t size)
{
    size_t at, end, count = all_of(0, input, sizeof input);
    enum clear_code code = clear_open(house, config, size);

    if (code == CLEAR_NO_MEMORY)
        code = clear_open(house, config, size);
    if (code != CLEAR_DONE)
        return 1;
    for (at = 0; at < count; at = end + 1) {
        for (end = at; end < count && input[end] != '\n'; end++)
            continue;
        size = answered(house, input + at, end - at);
        if (size == 0 || !is_explained(house) || write(1, buffer, size) != (ssize_t)size)
            return 1;
    }
    clear_close(house);
    return 0;
}

int main(int argc, char **argv)
{
    struct clear_house house = {0};
    int file = argc == 3 ? open(argv[2], O_RDONLY) : -1;
    size_t size = file < 0 ? 0 : all_of(file, config, sizeof config);

    if (size == 0)
        return 2;
    return strcmp(argv[1], "codes") == 0 ? codes(&house, size) : again(&house, size);
}
