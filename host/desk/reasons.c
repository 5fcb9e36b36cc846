/* Every refusal with its reason in words, as desk.h has them: a line for each number that has one, in the form of the desk program. */
#include <stdio.h>
#include <string.h>

#include "desk.h"

enum { LAST = 1000 }; /* far beyond the refusals */

int main(void)
{
    const char *none = desk_reason(UINT32_MAX);
    for (uint32_t number = 1; number <= LAST; number++) {
        const char *reason = desk_reason(number);
        if (strcmp(reason, none) != 0) {
            printf("refused %u: %s\n", (unsigned)number, reason);
        }
    }
    return 0;
}
