/* retries: a house inside this process does a line with a request id once, and its hub changes the configuration. */
#include "clear.h"

#include <stdio.h>
#include <string.h>

/* A configuration under which an authorisation holds 20.0000 EUR of the provider's limit, which is in ten-thousandths. */
#define CONFIG(limit) \
    "{\"version\":1,\"tolerance\":100,\"currencies\":[\"EUR\"]," \
    "\"operators\":[{\"party\":\"NL/CPA\",\"zone\":\"CET-1CEST,M3.5.0,M10.5.0/3\"}]," \
    "\"providers\":[{\"party\":\"NL/MSA\",\"limits\":[{\"currency\":\"EUR\",\"limit\":" #limit ",\"hold\":200000}]}]," \
    "\"platforms\":[{\"name\":\"cpo\",\"parties\":[\"NL/CPA\"]},{\"name\":\"emp\",\"parties\":[\"NL/MSA\"]}," \
    "{\"name\":\"hub\",\"parties\":[],\"hub\":true}]}"
#define CONFIGURE(id, limit) \
    "{\"platform\":\"hub\",\"request_id\":\"" id "\",\"do\":\"configure\",\"configuration\":" CONFIG(limit) "}"
#define TOKEN(id) \
    "{\"platform\":\"emp\",\"request_id\":\"" id "\",\"do\":\"put_token\",\"token\":{\"country_code\":\"NL\",\"party_id\":\"MSA\"," \
    "\"uid\":\"U1\",\"type\":\"RFID\",\"contract_id\":\"NL-MSA-C1\",\"valid\":true,\"whitelist\":\"NEVER\"," \
    "\"last_updated\":\"2024-07-01T00:00:00Z\"}}"
#define AUTHORIZE(id) \
    "{\"platform\":\"cpo\",\"request_id\":\"" id "\",\"do\":\"authorize\",\"operator\":\"NL/CPA\",\"provider\":\"NL/MSA\"," \
    "\"uid\":\"U1\",\"currency\":\"EUR\"}"

static const char first_config[] = CONFIG(1000000);
static const char *const lines[] = {
    TOKEN("t1"),
    AUTHORIZE("a1"),
    AUTHORIZE("a1"),          /* again, since its answer was lost: the same answer, and no second hold */
    CONFIGURE("c1", 300000),  /* the limit is 30.0000 EUR */
    AUTHORIZE("a2"),          /* there is no credit for a second hold */
    CONFIGURE("c2", 1000000), /* the limit is 100.0000 EUR again */
    AUTHORIZE("a2"),          /* again: the answer that it had */
    AUTHORIZE("a3"),          /* a new request gets a second hold */
    CONFIGURE("c2", 300000),  /* another line under an id that is used is refused */
    "{\"platform\":\"emp\",\"do\":\"exposure\",\"provider\":\"NL/MSA\",\"currency\":\"EUR\"}",
};

int main(void)
{
    struct clear_house house = {0};
    unsigned char answer[256];
    size_t number, length;
    enum clear_code code = clear_open(&house, (const unsigned char *)first_config, strlen(first_config));

    for (number = 0; code == CLEAR_DONE && number < sizeof lines / sizeof lines[0]; number++) {
        code = clear_answer(&house, (const unsigned char *)lines[number], strlen(lines[number]), answer, sizeof answer, &length);
        if (code == CLEAR_DONE)
            fwrite(answer, 1, length, stdout);
    }
    clear_close(&house);
    if (code != CLEAR_DONE)
        fprintf(stderr, "retries: code %d\n", (int)code);
    return code != CLEAR_DONE || fflush(stdout) != 0;
}
