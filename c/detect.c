/* Reads a recording from standard input and prints what the program `detect` prints. */
#include <inttypes.h>
#include <stdio.h>

#include "judaybok.h"

static void print_answer(const judaybok_answer *answer, const uint8_t *letters)
{
    printf("samples %" PRIu64 "\n", answer->samples);
    printf("paths %" PRIu64 "\n", answer->paths);
    printf("cost %" PRIu64 "\n", answer->cost);
    printf("ties %" PRIu64 "\n", answer->ties);
    if (answer->has_second)
        printf("second %" PRIu64 "\n", answer->second);
    else
        printf("second none\n");
    printf("start %" PRIu64 "\n", answer->start);
    printf("end %" PRIu64 "\n", answer->end);
    printf("letters");
    for (uint64_t i = 0; i < answer->samples; i++)
        printf(i == 0 ? " %d" : "%d", letters[i]);
    printf("\n");
}

int main(void)
{
    /* one byte more than the largest recording is enough to tell that one is too large */
    static uint8_t recording[JUDAYBOK_MOST_BYTES + 1];
    uint8_t letters[JUDAYBOK_MOST_LETTERS];
    judaybok_answer answer;
    size_t length = fread(recording, 1, sizeof recording, stdin);

    if (judaybok_detect(recording, length, letters, sizeof letters, 0, &answer) == 0) {
        print_answer(&answer, letters);
        return 0;
    }
    printf("refused %" PRIu32 " layer %" PRIu32 " place %" PRIu64 "\n", answer.number, answer.layer, answer.place);
    return 1;
}
