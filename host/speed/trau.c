/*
 * The calls of libosmotrau that host/speed/speed counts, where it is installed: NAME CALLS calls one of them so many times, with libosmocore's packing or
 * unpacking of the octets. D1 to D260 go in and come out as they stand in the frame: table 2 is not in these calls. What is read must be what was written.
 */
#include <stdint.h>
#include <stdio.h>
#include <stdlib.h>
#include <string.h>

#include <osmocom/core/bits.h>
#include <osmocom/trau/trau_frame.h>

enum {
    CONTROL = 21,
    DATA = 260,
    ALIGNMENT = 4,
    OCTETS = 40,
    BITS = 8 * OCTETS,
    ROOM = 2 * BITS /* libosmotrau asks for more than it writes */
};

static struct osmo_trau_frame written, got;
static ubit_t bits[ROOM];
static pbit_t octets[OCTETS];

static int write_frame(void)
{
    int n = osmo_trau_frame_encode(bits, sizeof bits, &written);

    osmo_ubit2pbit(octets, bits, BITS);
    return n == BITS;
}

static int read_frame(void)
{
    osmo_pbit2ubit(bits, octets, BITS);
    return osmo_trau_frame_decode_16k(&got, bits, OSMO_TRAU_DIR_UL) == 0;
}

static int same_frame(void)
{
    return memcmp(got.c_bits, written.c_bits, CONTROL) == 0 && memcmp(got.d_bits, written.d_bits, DATA) == 0;
}

int main(int argc, char **argv)
{
    int calls = argc == 3 ? atoi(argv[2]) : 0;
    int writes = argc == 3 && strcmp(argv[1], "frame-write") == 0;
    int good = calls > 0 && (writes || (argc == 3 && strcmp(argv[1], "frame-read") == 0));

    written.type = OSMO_TRAU16_FT_FR;
    written.dir = OSMO_TRAU_DIR_UL;
    written.c_bits[3] = 1; /* 00010 */
    for (int k = 0; k < DATA; k++) {
        written.d_bits[k] = k * k % 3 == 1;
    }
    memset(written.t_bits, 1, ALIGNMENT);
    good = good && write_frame() && read_frame() && same_frame();
    for (int k = 0; k < calls; k++) {
        good = good && (writes ? write_frame() : read_frame());
    }
    if (!good || !same_frame()) {
        fprintf(stderr, "no such entry, or what is read is not what was written\n");
        return EXIT_FAILURE;
    }
    return EXIT_SUCCESS;
}
