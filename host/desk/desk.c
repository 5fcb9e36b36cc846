/*
 * The desk program: each line of standard input asks for one call of the proved library, and each gets one line back.
 *
 *   access ID BITS     sends 8 bits to the base station of identity ID:  the 36 coded bits
 *   access? ID BITS    receives 36 bits there:                           good, COUNT in disagreement: the 8 bits
 *   control BITS       sends 184 bits:                                   the 456 coded bits
 *   control? BITS      receives 456 bits:                                good, COUNT in disagreement: the 184 bits
 *   whose BITS         names the identity that 36 received bits are for: identity ID, COUNT in disagreement
 *
 * COUNT is in how many of the received bits the nearest block disagrees; 2 stands for a bit that is missing, and is not counted. A refusal
 * is 'refused', its number and the reason; where access? finds the parity bad, it is also said for which identity the burst was.
 *
 * One carriage return before a newline is passed over, and so is a byte order mark before the first line: a text file from
 * Windows is read like any other. Where an answer cannot be written or the input cannot be read, the program says why and ends
 * with status 1.
 */
#include <errno.h>
#include <stdbool.h>
#include <stdio.h>
#include <stdlib.h>
#include <string.h>

#include "desk.h"

enum {
    FIELDS = 3,    /* the most that a line is made of */
    ROOM = 1024,   /* how much of a field is kept; a longer one is too long for every call, and stays so when it is cut */
    NO_DIGIT = 255 /* stands for a character that is no digit, and the library refuses it */
};

static const unsigned char mark[] = {0xEF, 0xBB, 0xBF}; /* the byte order mark */
static const char usage[] = "? write one of: access ID BITS, access? ID BITS, control BITS, control? BITS, whose BITS";

/* What stands between two spaces: its characters, and the decimal number that they make. */
struct field {
    size_t length; /* of what is kept */
    unsigned char bytes[ROOM];
    bool is_number; /* digits alone, at least one */
    uint64_t value; /* of the number; the highest stands for every larger one too */
};

struct line {
    size_t fields; /* FIELDS + 1 stands for every larger number too */
    struct field field[FIELDS];
};

/* A word and the call that it asks for: access has the identity before its bits, and the others have none; whose writes nothing. */
struct verb {
    const char *word;
    uint32_t (*access)(uint64_t, const uint8_t *, size_t, uint8_t *, size_t);
    uint32_t (*control)(const uint8_t *, size_t, uint8_t *, size_t);
    uint32_t (*whose)(const uint8_t *, size_t);
    size_t reads;
    size_t writes;
    bool receives;
};

static const struct verb verbs[] = {
    {"access", desk_send_access, NULL, NULL, DESK_ACCESS_BITS, DESK_ACCESS_CODED_BITS, false},
    {"access?", desk_receive_access, NULL, NULL, DESK_ACCESS_CODED_BITS, DESK_ACCESS_BITS, true},
    {"control", NULL, desk_send_control, NULL, DESK_CONTROL_BITS, DESK_CONTROL_CODED_BITS, false},
    {"control?", NULL, desk_receive_control, NULL, DESK_CONTROL_CODED_BITS, DESK_CONTROL_BITS, true},
    {"whose", NULL, NULL, desk_whose_access, DESK_ACCESS_CODED_BITS, 0, true},
};

/* A number with one more digit; where there is no room for it, the highest. */
static uint64_t with_digit(uint64_t value, unsigned digit)
{
    return value <= (UINT64_MAX - digit) / 10 ? 10 * value + digit : UINT64_MAX;
}

/* Whether a byte is a decimal digit. */
static bool is_digit(int byte)
{
    return byte >= '0' && byte <= '9';
}

/* Adds a byte to the number of a field, which it stays as long as there are digits alone. */
static void add_digit(struct field *field, int byte)
{
    field->is_number = is_digit(byte) && (field->length == 0 || field->is_number);
    if (field->is_number) {
        field->value = with_digit(field->value, (unsigned)(byte - '0'));
    }
}

/* Adds a byte to a field; what there is no room for is left out. */
static void add_character(struct field *field, int byte)
{
    if (field->length < ROOM) {
        field->bytes[field->length++] = (unsigned char)byte;
    }
}

/* Adds a byte to the line; a space begins the next field. */
static void add_byte(struct line *line, int byte)
{
    if (line->fields > FIELDS) {
        return;
    }
    if (byte == ' ') {
        line->fields++;
        return;
    }
    add_digit(&line->field[line->fields - 1], byte);
    add_character(&line->field[line->fields - 1], byte);
}

/* One field, and all are empty. */
static void clear(struct line *line)
{
    line->fields = 1;
    for (size_t k = 0; k < FIELDS; k++) {
        line->field[k].length = 0;
        line->field[k].is_number = false;
        line->field[k].value = 0;
    }
}

/* Whether nothing was added to the line. */
static bool is_empty(const struct line *line)
{
    return line->fields == 1 && line->field[0].length == 0;
}

/* Passes over the next byte of the input if it is this one; says whether it was. */
static bool pass_over(int wanted)
{
    int byte = getchar();

    if (byte == wanted) {
        return true;
    }
    ungetc(byte, stdin); /* at the end of the input it puts nothing back */
    return false;
}

/* Passes over a byte order mark; of one that is not whole, what was read belongs to the line. */
static void pass_over_mark(struct line *line)
{
    size_t found = 0;

    while (found < sizeof mark && pass_over(mark[found])) {
        found++;
    }
    if (found == sizeof mark) {
        return;
    }
    for (size_t k = 0; k < found; k++) {
        add_byte(line, mark[k]);
    }
}

/* Whether a byte that was read ends its line: a newline, or a carriage return right before one. */
static bool ends_line(int byte)
{
    return byte == '\n' || (byte == '\r' && pass_over('\n'));
}

/* Reads what is left of the next line; false at the end. A last line without its newline counts if it is not empty. */
static bool read_line(struct line *line)
{
    int byte = getchar();

    for (; byte != EOF && !ends_line(byte); byte = getchar()) {
        add_byte(line, byte);
    }
    return byte != EOF || !is_empty(line);
}

/* The verb that the line begins with, if it has as many fields as the verb asks for; else NULL. */
static const struct verb *find_verb(const struct line *line)
{
    const struct field *word = &line->field[0];

    for (size_t k = 0; k < sizeof verbs / sizeof verbs[0]; k++) {
        size_t fields = verbs[k].access ? 3 : 2;

        if (line->fields == fields && word->length == strlen(verbs[k].word)
            && memcmp(word->bytes, verbs[k].word, word->length) == 0) {
            return &verbs[k];
        }
    }
    return NULL;
}

/* The bytes that the characters of a field stand for: digits are 0 to 9, of which the library refuses those that are no bits. */
static void read_bits(const struct field *field, uint8_t bits[ROOM])
{
    for (size_t k = 0; k < field->length; k++) {
        bits[k] = is_digit(field->bytes[k]) ? (uint8_t)(field->bytes[k] - '0') : NO_DIGIT;
    }
}

/* Ends the program where a call that writes has failed, and says why; a pipe that nobody reads any more needs no words. */
static void must_be_written(int returned)
{
    if (returned >= 0) {
        return;
    }
    if (errno != EPIPE) {
        fprintf(stderr, "desk: an answer could not be written: %s\n", strerror(errno));
    }
    exit(EXIT_FAILURE);
}

/* Prints bits and ends the line. */
static void print_bits(const uint8_t *bits, size_t length)
{
    for (size_t k = 0; k < length; k++) {
        must_be_written(putchar('0' + bits[k]));
    }
    must_be_written(putchar('\n'));
}

/* Prints a refusal, its reason and what else is to be said of it. */
static void print_refusal(const struct verb *verb, uint32_t answer, const uint8_t *in, size_t length)
{
    uint32_t number = desk_number(answer);

    must_be_written(printf("refused %u: %s", (unsigned)number, desk_reason(number)));
    if (number == DESK_WRONG_LENGTH) {
        must_be_written(printf(", %s reads %u bits", verb->word, (unsigned)verb->reads));
    }
    if (number == DESK_BAD_PARITY) {
        must_be_written(printf(", %u in disagreement", (unsigned)desk_count(answer)));
    }
    if (number == DESK_BAD_PARITY && verb->access) {
        uint32_t named = desk_identity(desk_whose_access(in, length));

        must_be_written(printf(", the nearest burst is for identity %u", (unsigned)named));
    }
    must_be_written(putchar('\n'));
}

/* Prints what came of a call that was done. */
static void print_done(const struct verb *verb, uint32_t answer, const uint8_t *out)
{
    unsigned count = (unsigned)desk_count(answer);

    if (verb->whose) {
        must_be_written(printf("identity %u, %u in disagreement\n", (unsigned)desk_identity(answer), count));
        return;
    }
    if (verb->receives) {
        must_be_written(printf("good, %u in disagreement: ", count));
    }
    print_bits(out, verb->writes);
}

/* The answer of the call that the verb asks for. */
static uint32_t answer_of(const struct verb *verb, uint64_t identity, const uint8_t *in, size_t length, uint8_t *out)
{
    if (verb->whose) {
        return verb->whose(in, length);
    }
    return verb->access ? verb->access(identity, in, length, out, verb->writes) : verb->control(in, length, out, verb->writes);
}

/* Makes the call that the verb asks for, and prints its answer. */
static void call(const struct verb *verb, uint64_t identity, const struct field *field)
{
    uint8_t in[ROOM] = {0};
    uint8_t out[DESK_CONTROL_CODED_BITS];
    uint32_t answer;

    read_bits(field, in);
    answer = answer_of(verb, identity, in, field->length, out);
    if (desk_number(answer) != DESK_NO_REFUSAL) {
        print_refusal(verb, answer, in, field->length);
    } else {
        print_done(verb, answer, out);
    }
}

/* Prints the answer to a line. */
static void answer_line(const struct line *line)
{
    const struct verb *verb = find_verb(line);

    if (verb == NULL || (verb->access && !line->field[1].is_number)) {
        must_be_written(puts(usage));
        return;
    }
    /* The others have their bits where access has its identity, and look at no identity. */
    call(verb, line->field[1].value, &line->field[line->fields - 1]);
}

/* Says so where the input did not end but could not be read. */
static int status_of_input(void)
{
    if (!ferror(stdin)) {
        return EXIT_SUCCESS;
    }
    fprintf(stderr, "desk: the input could not be read: %s\n", strerror(errno));
    return EXIT_FAILURE;
}

int main(void)
{
    struct line line;
    int status;

    clear(&line);
    pass_over_mark(&line);
    while (read_line(&line)) {
        answer_line(&line);
        clear(&line);
    }
    status = status_of_input();
    must_be_written(fflush(stdout));
    return status;
}
