/*
 * The entries of libosmocoding that host/speed/speed counts: NAME CALLS calls one of them so many times. What is decoded must be
 * what was encoded.
 */
#include <stdbool.h>
#include <stdint.h>
#include <stdio.h>
#include <stdlib.h>
#include <string.h>

#include <osmocom/coding/gsm0503_coding.h>
#include <osmocom/core/bits.h>

enum {
    BURST = 116,
    SPEECH_BYTES = 33,
    ENHANCED_BYTES = 31,  /* the length tells the encoding of enhanced full rate from that of full rate */
    SIGNATURE = 0xd,      /* what speech begins with; the others do not mind it */
    ENHANCED_SIGNATURE = 0xc,
    IDENTITY = 7,         /* of the base station, for access */
    NET_ORDER = 1,        /* the order of speech in a packet */
    FULL_RATE = 0,
    ENHANCED_FULL_RATE = 1
};

static uint8_t data[SPEECH_BYTES];
static uint8_t decoded[SPEECH_BYTES];
static ubit_t sent[8 * BURST];
static sbit_t received[8 * BURST];

/* What a decoding counts besides. */
static int disagreements;
static int protected_bits;

static void encode_speech(void)
{
    gsm0503_tch_fr_encode(sent, data, SPEECH_BYTES, NET_ORDER);
}

static void decode_speech(void)
{
    gsm0503_tch_fr_decode(decoded, received, NET_ORDER, FULL_RATE, &disagreements, &protected_bits);
}

static void encode_enhanced(void)
{
    gsm0503_tch_fr_encode(sent, data, ENHANCED_BYTES, NET_ORDER);
}

static void decode_enhanced(void)
{
    gsm0503_tch_fr_decode(decoded, received, NET_ORDER, ENHANCED_FULL_RATE, &disagreements, &protected_bits);
}

static void encode_control(void)
{
    gsm0503_xcch_encode(sent, data);
}

static void decode_control(void)
{
    gsm0503_xcch_decode(decoded, received, &disagreements, &protected_bits);
}

static void encode_access(void)
{
    gsm0503_rach_ext_encode(sent, data[0], IDENTITY, false);
}

static void decode_access(void)
{
    gsm0503_rach_decode_ber(decoded, received, IDENTITY, &disagreements, &protected_bits);
}

static void encode_sch(void)
{
    gsm0503_sch_encode(sent, data);
}

static void decode_sch(void)
{
    gsm0503_sch_decode(decoded, received);
}

/* A way of coding: the names of its two directions, how many bits it reads and writes, what they begin with, and its two calls. */
struct coding {
    const char *encode_name;
    const char *decode_name;
    unsigned reads;
    unsigned writes;
    unsigned signature;
    void (*encode)(void);
    void (*decode)(void);
};

static const struct coding codings[] = {
    {"speech-encode", "speech-decode", 8 * SPEECH_BYTES, 8 * BURST, SIGNATURE, encode_speech, decode_speech},
    {"control-encode", "control-decode", 184, 4 * BURST, SIGNATURE, encode_control, decode_control},
    {"sacch-encode", "sacch-decode", 184, 4 * BURST, SIGNATURE, encode_control, decode_control},
    {"access-encode", "access-decode", 8, 36, SIGNATURE, encode_access, decode_access},
    {"sch-encode", "sch-decode", 25, 78, SIGNATURE, encode_sch, decode_sch},
    {"efr-encode", "efr-decode", 8 * ENHANCED_BYTES, 8 * BURST, ENHANCED_SIGNATURE, encode_enhanced, decode_enhanced},
};

/* Bits in no order that the coding knows. */
static void fill(unsigned bits, unsigned signature)
{
    uint32_t x = 1;

    for (unsigned k = 0; k < bits; k++) {
        x = x * 75 % 65537;
        data[k / 8] |= (uint8_t)(x % 2 << k % 8);
    }
    data[0] = (uint8_t)(signature << 4 | (data[0] & 0xf));
}

static void repeat(void (*call)(void), unsigned long calls)
{
    for (unsigned long k = 0; k < calls; k++) {
        call();
    }
}

/* Whether the data comes back. */
static bool comes_back(const struct coding *coding, unsigned long encodes, unsigned long decodes)
{
    fill(coding->reads, coding->signature);
    repeat(coding->encode, encodes);
    osmo_ubit2sbit(received, sent, coding->writes); /* 0 as +127, 1 as -127 */
    repeat(coding->decode, decodes);
    return memcmp(decoded, data, sizeof data) == 0;
}

/* Whether there is an entry of this name, and the data comes back. */
static bool run(const char *name, unsigned long calls)
{
    for (size_t k = 0; k < sizeof codings / sizeof codings[0]; k++) {
        if (strcmp(name, codings[k].encode_name) == 0) {
            return comes_back(&codings[k], calls, 1);
        }
        if (strcmp(name, codings[k].decode_name) == 0) {
            return comes_back(&codings[k], 1, calls);
        }
    }
    return false;
}

int main(int argc, char **argv)
{
    if (argc == 3 && run(argv[1], strtoul(argv[2], NULL, 10))) {
        return EXIT_SUCCESS;
    }
    fputs("no such entry, or what is decoded is not what was encoded\n", stderr);
    return EXIT_FAILURE;
}
