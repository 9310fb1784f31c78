/* words: prints what spwd_words.h has for every number, as rows of the card: number, what it means, what to do; verdicts, refusals, records.
 * rust/check holds them against docs/CARD.md. The status is 1 if a number far from all of these has words, or no words at all. */
#include "spwd.h"

#include <stdio.h>
#include <string.h>

static const char unknown[] = "not on the card";

static void row(uint32_t number, const char *means, const char *to_do)
{
    if (strcmp(means, unknown) != 0) {
        printf("| %lu | %s | %s |\n", (unsigned long)number, means, to_do);
    }
}

/* Whether neither a verdict, a refusal nor a record of this number is on the card. */
static int is_unknown(uint32_t number)
{
    static const char ask[] = "ask for a newer card";
    return strcmp(spwd_words(number), unknown) == 0 && strcmp(spwd_to_do(number), ask) == 0 &&
           strcmp(spwd_record_words(number), unknown) == 0 && strcmp(spwd_record_to_do(number), ask) == 0;
}

int main(void)
{
    static const uint32_t far[] = {16, 19, 31, 32, 34, 255, 256, 256 + 20, 65536 + 20, UINT32_MAX};
    size_t place;
    uint32_t number;
    for (number = 0; number < 1000; number++) {
        row(number, spwd_words(number), spwd_to_do(number));
    }
    for (number = 0; number < 1000; number++) {
        row(number, spwd_record_words(number), spwd_record_to_do(number));
    }
    for (place = 0; place < sizeof far / sizeof far[0]; place++) {
        if (!is_unknown(far[place])) {
            printf("%lu has words\n", (unsigned long)far[place]);
            return 1;
        }
    }
    return 0;
}
