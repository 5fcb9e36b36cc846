/*
 * Identities as C programs have them: variables of several types, some of them negative, each passed to the two access calls as
 * it is. All but 7 must be refused with 3 and leave the output buffer, though some of them are 7 in their lowest bits.
 */
#include <stdbool.h>
#include <stdio.h>
#include <stdlib.h>
#include <string.h>

#include "desk.h"

enum { BEFORE = 0xa5 }; /* what each byte of an output buffer is before a call */

static const uint8_t asked[DESK_ACCESS_BITS] = {0, 1, 1, 0, 1, 0, 0, 1};
static uint8_t burst[DESK_ACCESS_CODED_BITS]; /* what is sent for it to the base station 7 */

/* The output buffers of the two calls. */
static uint8_t sent[DESK_ACCESS_CODED_BITS];
static uint8_t received[DESK_ACCESS_BITS];

static unsigned refused; /* how many identities */

/* Both calls with a variable as it is; what C makes of it on the way is what is tried here. */
#define SEND(identity) desk_send_access(identity, asked, sizeof asked, sent, sizeof sent)
#define RECEIVE(identity) desk_receive_access(identity, burst, sizeof burst, received, sizeof received)
#define REFUSE(type, identity) refuse(type, (long long)(identity), SEND(identity), RECEIVE(identity))

/* Whether a buffer is as it was before. */
static bool is_left(const uint8_t *bytes, size_t length)
{
    for (size_t k = 0; k < length; k++) {
        if (bytes[k] != BEFORE) {
            return false;
        }
    }
    return true;
}

/* Tells which identity failed, and ends the program. */
static void fail(const char *type, long long identity, const char *what)
{
    printf("%s %lld: %s\n", type, identity, what);
    exit(EXIT_FAILURE);
}

/* Counts an identity, which both calls must have refused. */
static void refuse(const char *type, long long identity, uint32_t send_answer, uint32_t receive_answer)
{
    if (desk_number(send_answer) != DESK_WRONG_IDENTITY || desk_number(receive_answer) != DESK_WRONG_IDENTITY) {
        fail(type, identity, "not refused with 3");
    }
    if (!is_left(sent, sizeof sent) || !is_left(received, sizeof received)) {
        fail(type, identity, "the output buffer has changed");
    }
    refused++;
}

/* The identity 7 is taken in both calls, and what was asked comes back. */
static void accept_seven(void)
{
    int identity = 7;

    if (SEND(identity) != DESK_NO_REFUSAL) {
        fail("int", identity, "not sent");
    }
    memcpy(burst, sent, sizeof burst);
    if (RECEIVE(identity) != DESK_NO_REFUSAL || memcmp(received, asked, sizeof asked) != 0) {
        fail("int", identity, "not received");
    }
}

/* Each of the others is refused. */
static void refuse_others(void)
{
    const int ints[] = {255, 256, 263, -1, -7, 7 - 64, 7 - 256};
    unsigned char byte = 255;
    long long wide = 4294967296 + 7;
    unsigned long long wide_unsigned = 4294967296 + 7;

    for (size_t k = 0; k < sizeof ints / sizeof ints[0]; k++) {
        REFUSE("int", ints[k]);
    }
    REFUSE("unsigned char", byte);
    REFUSE("long long", wide);
    REFUSE("unsigned long long", wide_unsigned);
}

int main(void)
{
    accept_seven();
    memset(sent, BEFORE, sizeof sent);
    memset(received, BEFORE, sizeof received);
    refuse_others();
    printf("%u identities of C refused, 7 accepted\n", refused);
    return fflush(stdout) != 0 || ferror(stdout);
}
