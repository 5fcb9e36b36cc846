/*
 * How much stack the five calls need. Each is made on a stack of its own that was painted beforehand, and everything counts
 * from the top of it to the deepest byte that is painted no longer. Good blocks, altered ones, ones with missing bits and refused
 * ones are tried; a call that needs more than desk.h says is a failure.
 *
 * Each call has a process of its own and is the first one there: on shared libraries the first call needs more than those
 * after it, since memcpy and memset are looked for when the library first calls them.
 */
#define _XOPEN_SOURCE 700 /* for processes, and for stacks of our own */

#include <stdbool.h>
#include <stdio.h>
#include <stdlib.h>
#include <sys/wait.h>
#include <ucontext.h>
#include <unistd.h>

#include "desk.h"

enum {
    STACK = 32768,                         /* bytes of the painted stack, far more than are needed */
    LONGEST = DESK_CONTROL_CODED_BITS + 1, /* of the buffers that are tried */
    NUMBERS = 9,                           /* of answers, 0 to 8 */
    BLOCKS = 64,                           /* for each call; in the first no bit is altered, in the next one, and so on */
    IDENTITY = 7                           /* to which they are sent */
};

/* One of the five calls: access has the identity before its buffers, and the others have none; whose writes nothing. */
struct call {
    const char *name;
    uint32_t (*access)(uint64_t, const uint8_t *, size_t, uint8_t *, size_t);
    uint32_t (*control)(const uint8_t *, size_t, uint8_t *, size_t);
    uint32_t (*whose)(const uint8_t *, size_t);
    size_t reads;
    size_t writes;
    const struct call *sender; /* whose blocks it receives; a sender has none */
    const char *numbers;       /* that it can answer, and each must have been seen */
};

static const struct call calls[] = {
    {"desk_send_access", desk_send_access, NULL, NULL, DESK_ACCESS_BITS, DESK_ACCESS_CODED_BITS, NULL, "0123"},
    {"desk_receive_access", desk_receive_access, NULL, NULL, DESK_ACCESS_CODED_BITS, DESK_ACCESS_BITS, &calls[0], "01238"},
    {"desk_send_control", NULL, desk_send_control, NULL, DESK_CONTROL_BITS, DESK_CONTROL_CODED_BITS, NULL, "012"},
    {"desk_receive_control", NULL, desk_receive_control, NULL, DESK_CONTROL_CODED_BITS, DESK_CONTROL_BITS, &calls[2], "0128"},
    {"desk_whose_access", NULL, NULL, desk_whose_access, DESK_ACCESS_CODED_BITS, 0, &calls[0], "012"},
};

/* What is done on the painted stack: a call, all that it is given, and its answer. */
static struct {
    const struct call *call;
    uint64_t identity;
    size_t reads;
    size_t writes;
    uint8_t in[LONGEST];
    uint8_t out[LONGEST];
    uint32_t answer;
} task;

static bool seen[NUMBERS]; /* which numbers were answered */
static size_t most;        /* bytes of stack that were used */

static volatile unsigned char stack[STACK]; /* volatile, so that no memset paints it before the library has called one */
static ucontext_t outside;
static ucontext_t inside;

/* Tells what failed, and ends the process. */
static void fail(const char *what)
{
    printf("%s: %s\n", task.call->name, what);
    exit(EXIT_FAILURE);
}

/* The answer of a call. */
static uint32_t answer_of(const struct call *call, uint64_t identity, const uint8_t *in, size_t reads, uint8_t *out,
                          size_t writes)
{
    if (call->whose) {
        return call->whose(in, reads);
    }
    return call->access ? call->access(identity, in, reads, out, writes) : call->control(in, reads, out, writes);
}

/* Does the task; this is run on the painted stack. */
static void do_task(void)
{
    task.answer = answer_of(task.call, task.identity, task.in, task.reads, task.out, task.writes);
}

/* Goes over to the painted stack, does the task there and comes back. */
static void do_task_inside(void)
{
    if (getcontext(&inside) != 0) {
        fail("no stack of its own");
    }
    inside.uc_stack.ss_sp = (void *)stack;
    inside.uc_stack.ss_size = sizeof stack;
    inside.uc_link = &outside;
    makecontext(&inside, do_task, 0);
    if (swapcontext(&outside, &inside) != 0) {
        fail("no stack of its own");
    }
}

/* Paints the whole stack. */
static void paint_stack(unsigned char paint)
{
    for (size_t k = 0; k < sizeof stack; k++) {
        stack[k] = paint;
    }
}

/* How many bytes there are from the top of the stack to the deepest one that is not of this paint. */
static size_t bytes_used(unsigned char paint)
{
    size_t left = 0;

    while (left < sizeof stack && stack[left] == paint) {
        left++;
    }
    return sizeof stack - left;
}

/* Does the task on a stack of this paint, and keeps what is seen. */
static void watch_task(unsigned char paint)
{
    size_t used;

    paint_stack(paint);
    do_task_inside();
    used = bytes_used(paint);
    most = used > most ? used : most;
    if (desk_number(task.answer) < NUMBERS) {
        seen[desk_number(task.answer)] = true;
    }
}

/* Tries the call with two paints: what it writes may happen to look like one of them, but not like both. */
static void try_call(uint64_t identity, size_t reads, size_t writes)
{
    task.identity = identity;
    task.reads = reads;
    task.writes = writes;
    watch_task(0xA5);
    watch_task(0x5A);
}

/*
 * Tries zeros, which are good to send, are received with bad parity and name an identity, and then what is refused before it is looked at;
 * whose has no identity and no output buffer that could be wrong.
 */
static void try_zeros(void)
{
    const struct call *call = task.call;

    try_call(IDENTITY, call->reads, call->writes);
    try_call(DESK_HIGHEST_IDENTITY + 1, call->reads, call->writes);
    try_call(IDENTITY, call->reads + 1, call->writes);
    try_call(IDENTITY, call->reads, call->writes + 1);
    task.in[call->reads - 1] = DESK_MISSING + 1;
    try_call(IDENTITY, call->reads, call->writes);
    task.in[call->reads - 1] = 0;
}

/* Alters bits that are chosen by chance; one that is chosen again is as it was. */
static void alter(uint8_t *bits, size_t length, size_t times)
{
    for (size_t k = 0; k < times; k++) {
        bits[(size_t)rand() % length] ^= 1;
    }
}

/* Loses bits that are chosen by chance. */
static void lose(uint8_t *bits, size_t length, size_t times)
{
    for (size_t k = 0; k < times; k++) {
        bits[(size_t)rand() % length] = DESK_MISSING;
    }
}

/* Tries a block of any bits; where the call receives, the block as it is sent, with some of its bits altered, and then with some missing. */
static void try_block(size_t altered)
{
    const struct call *call = task.call;
    const struct call *sender = call->sender;
    uint8_t bits[LONGEST] = {0};

    if (sender == NULL) {
        alter(task.in, call->reads, call->reads);
        try_call(IDENTITY, call->reads, call->writes);
        return;
    }
    alter(bits, sender->reads, sender->reads);
    answer_of(sender, IDENTITY, bits, sender->reads, task.in, sender->writes);
    alter(task.in, call->reads, altered);
    try_call(IDENTITY, call->reads, call->writes);
    lose(task.in, call->reads, altered);
    try_call(IDENTITY, call->reads, call->writes);
}

/* Tells how much stack the call used, which must be no more than desk.h says, over every number that it can answer. */
static void tell(void)
{
    for (const char *number = task.call->numbers; *number != '\0'; number++) {
        if (!seen[*number - '0']) {
            fail("not every number that it answers was tried");
        }
    }
    printf("%s: %u bytes of stack\n", task.call->name, (unsigned)most);
    if (most > DESK_STACK_BYTES) {
        fail("more than DESK_STACK_BYTES");
    }
}

/* Tries everything with one call, and ends the process. */
static void try_all(const struct call *call)
{
    task.call = call;
    try_zeros();
    for (size_t altered = 0; altered < BLOCKS; altered++) {
        try_block(altered);
    }
    tell();
    exit(fflush(stdout) != 0 || ferror(stdout));
}

/* Tries everything with one call in a process of its own; says whether it went well. */
static bool goes_well(const struct call *call)
{
    int status = 0;
    pid_t child = fork();

    if (child == 0) {
        try_all(call);
    }
    return child > 0 && waitpid(child, &status, 0) == child && WIFEXITED(status) && WEXITSTATUS(status) == EXIT_SUCCESS;
}

int main(void)
{
    bool well = true;

    for (size_t k = 0; k < sizeof calls / sizeof calls[0]; k++) {
        well = goes_well(&calls[k]) && well;
    }
    return well ? EXIT_SUCCESS : EXIT_FAILURE;
}
