/*
 * The desk: access and control blocks of GSM 05.03, sent and received by the proved library desk, which also says whose an access burst was.
 *
 * The library is libdesk.a, for Linux on x86-64: an archive of ELF objects that are called by the System V convention. A
 * program that links it is an x86-64 program; README.md has the lines that build and run one, there and on Arm.
 *
 * A bit is one byte, 0 or 1; in what is received, DESK_MISSING stands in the place of a bit that never came. Each call reads one
 * buffer of bits and writes another, but desk_whose_access writes none; each buffer is passed as its address and its length in bytes.
 * No address may be null, not even for length 0, and two buffers of a call must not overlap. Nothing else is asked of the caller: every
 * length, every byte and every identity has its answer. A call keeps nothing for the next one, takes no memory of its own but the stack,
 * and never changes the buffer that it reads.
 *
 * An identity is passed in 64 bits, so that the number that you have arrives as it is: 263 is not cut to 7, and a negative int
 * is far over 63. Every identity over 63 is refused with 3.
 *
 * Each call answers one number: 16777216 times an identity, which desk_whose_access alone gives, then 65536 times the refusal and then
 * the count; desk_identity, desk_number and desk_count take it apart. Where the number is 0, a call that has an output buffer has
 * written every byte of it. Where it is a refusal, every byte of the output buffer is what it was before. What stands in the output
 * buffer before the call is never looked at.
 *
 * A call has no state. Any number of threads may call at the same time, as long as none of them writes a buffer that another
 * one uses. A call may be interrupted by another one, and a signal handler may make it: of the C library it calls memcpy and
 * memset alone, both of which POSIX lets a handler call. It needs at most DESK_STACK_BYTES of stack.
 */
#ifndef DESK_H
#define DESK_H

#include <stddef.h>
#include <stdint.h>

#ifdef __cplusplus
extern "C" {
#endif

/*
 * The version of these calls. It grows when a call, a number or a length changes, and a program can ask for the one it needs:
 *
 *     #if DESK_VERSION < 3
 *     #error "this program needs version 3 of the desk"
 *     #endif
 *
 * It is 3 since there is desk_whose_access, which answers an identity above the number. It was 2 since the two calls that receive take
 * DESK_MISSING, which version 1 refused.
 */
#define DESK_VERSION 3

/*
 * In what is received, the byte in the place of a bit that is missing. It disagrees with nothing and is not counted. Nothing is missing of
 * what is sent, and no call writes it.
 */
#define DESK_MISSING 2

/* The length of each buffer. */
enum {
    DESK_ACCESS_BITS = 8,          /* what an access burst carries */
    DESK_ACCESS_CODED_BITS = 36,   /* an access burst as it is sent */
    DESK_CONTROL_BITS = 184,       /* what a control block carries */
    DESK_CONTROL_CODED_BITS = 456, /* a control block as it is sent */
    DESK_HIGHEST_IDENTITY = 63     /* of a base station */
};

/*
 * Bytes of stack that are enough for any of the calls. It is measured and not proved: host/desk/stack.c saw at most 1,208 in a call, with the
 * library as the toolchain in toolchain.txt builds it, and 4,680 in the first call of a program on shared libraries, where memcpy and
 * memset are looked for and the processor's registers are kept on the stack meanwhile; both on an emulated processor. That part differs
 * with the processor and with the C library, so 3,500 more are left for it; it falls away in a program that is linked with -static or with
 * -Wl,-z,now.
 */
enum { DESK_STACK_BYTES = 8192 };

/* The number in an answer. Where several of the first three apply, the lowest is given. */
enum desk_refusal {
    DESK_NO_REFUSAL = 0,     /* done, and a block that is received is good */
    DESK_WRONG_LENGTH = 1,   /* a buffer is longer or shorter than it has to be */
    DESK_NOT_A_BIT = 2,      /* a byte that is read is over 1 and, in what is received, not DESK_MISSING */
    DESK_WRONG_IDENTITY = 3, /* the identity is over 63 */
    DESK_BAD_PARITY = 8      /* of the two calls that receive only: the nearest block has wrong parity bits */
};

/* The identity in an answer of desk_whose_access; 0 after every other call, and where the number is not 0. */
static inline uint32_t desk_identity(uint32_t answer)
{
    return answer / 16777216;
}

/* The number in an answer, one of enum desk_refusal. */
static inline uint32_t desk_number(uint32_t answer)
{
    return answer / 65536 % 256;
}

/* In how many of the received bits the nearest block disagrees, missing ones left out; 0 after a send and after refusals 1, 2 and 3. */
static inline uint32_t desk_count(uint32_t answer)
{
    return answer % 65536;
}

/*
 * The reason of a number in words, those of the table of refusals in README.md; never null. It knows the numbers of the streams too,
 * 4 to 7 and 9, 10, of enhanced full rate, and those of the hub, 14 to 17, which the calls below never give and the kit does.
 */
static inline const char *desk_reason(uint32_t number)
{
    switch (number) {
    case DESK_NO_REFUSAL:
        return "done";
    case DESK_WRONG_LENGTH:
        return "a buffer has the wrong length";
    case DESK_NOT_A_BIT:
        return "a bit is neither 0 nor 1, nor 2 for missing on reception";
    case DESK_WRONG_IDENTITY:
        return "the identity is over 63";
    case 4:
        return "the burst is not the next one";
    case 5:
        return "the stream is full: 16383 blocks are sent, or burst 65535 is taken";
    case 6:
        return "nothing was sent before the end";
    case 7:
        return "the stream has ended";
    case DESK_BAD_PARITY:
        return "the parity is bad";
    case 9:
        return "as many flags are 1 as are 0, and the parity is bad as FACCH and as speech";
    case 10:
        return "the parity of enhanced full rate is good and its CRC is bad";
    case 14:
        return "the identity stands at a place of the hub already";
    case 15:
        return "all 30 places of the hub are in use";
    case 16:
        return "the place is empty, or over 29";
    case 17:
        return "no identity at the hub accepts the burst";
    default:
        return "no refusal has this number";
    }
}

/*
 * Sends an access burst to the base station of this identity.
 * Reads 8 bits from d and, if the number is 0, writes the 36 coded bits to e.
 * The number is 0, 1, 2 or 3. The count is 0.
 */
uint32_t desk_send_access(uint64_t identity, const uint8_t *d, size_t d_len, uint8_t *e, size_t e_len);

/*
 * Receives an access burst as the base station of this identity.
 * Reads 36 bits from e, some of them perhaps altered on the way or missing, and finds the nearest block that could have been sent.
 * If its parity is good under this identity, the number is 0 and its 8 bits are written to d; else the number is 8.
 * The count is given in both cases. The number may also be 1, 2 or 3.
 * Up to three altered bits are always repaired, and so are t altered and m missing ones where 2t + m is at most 6: then the count is how
 * many were altered, and only the identity that the burst was sent to takes it.
 */
uint32_t desk_receive_access(uint64_t identity, const uint8_t *e, size_t e_len, uint8_t *d, size_t d_len);

/*
 * Says which base station an access burst is for.
 * Reads 36 bits from e, some of them perhaps altered on the way or missing, and finds the nearest block that could have been sent.
 * The identity is the one under which desk_receive_access takes these bits, and the count the one that it then gives; under each other
 * identity that call gives 8, with the same count. Nothing is written.
 * The number is 0, 1 or 2.
 * For up to three altered bits, and for t altered and m missing ones where 2t + m is at most 6, the identity is the one that the burst was
 * sent to, and the count is how many were altered.
 */
uint32_t desk_whose_access(const uint8_t *e, size_t e_len);

/*
 * Sends a control block.
 * Reads 184 bits from d and, if the number is 0, writes the 456 coded bits to c.
 * The number is 0, 1 or 2. The count is 0.
 */
uint32_t desk_send_control(const uint8_t *d, size_t d_len, uint8_t *c, size_t c_len);

/*
 * Receives a control block.
 * Reads 456 bits from c, some of them perhaps altered on the way or missing, and finds the nearest block that could have been sent.
 * If its parity is good, the number is 0 and its 184 bits are written to d; else the number is 8.
 * The count is given in both cases. The number may also be 1 or 2.
 * Up to three altered bits are always repaired, and so are t altered and m missing ones where 2t + m is at most 6: then the number is 0
 * and the count is how many were altered.
 */
uint32_t desk_receive_control(const uint8_t *c, size_t c_len, uint8_t *d, size_t d_len);

#ifdef __cplusplus
}
#endif

#endif
