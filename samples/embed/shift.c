/* Settles the shift that is named, and prints each round's answer, then what each seat is owed over the shift: what a back office in C does with the library.
 *
 * It holds the file and the two lists, and nothing else that grows with the shift. Status: 0 settled, whatever its rounds are, 1 refused, 2 a fault of the call, of
 * reading or of writing, or where there is no memory for it.
 */
#include "ripplehatch.h"
#include <stdio.h>
#include <stdlib.h>

enum { SEATS = 7 };

/* The whole file, in memory of its own, or NULL. */
static uint8_t *read_file(const char *name, size_t *bytes)
{
    FILE *in = fopen(name, "rb");
    long end = in != NULL && fseek(in, 0, SEEK_END) == 0 ? ftell(in) : -1;
    uint8_t *file = end >= 0 && fseek(in, 0, SEEK_SET) == 0 ? malloc((size_t)end + 1) : NULL;
    if (file != NULL)
        *bytes = fread(file, 1, (size_t)end, in);
    if (file != NULL && (*bytes != (size_t)end || ferror(in))) {
        free(file);
        file = NULL;
    }
    if (in != NULL)
        fclose(in);
    return file;
}

static void print_rounds(const uint64_t *answers, size_t rounds)
{
    for (size_t k = 0; k < rounds; k++) {
        const uint64_t *answer = answers + RIPPLEHATCH_ANSWER * k;
        if (answer[0] == RIPPLEHATCH_SETTLED)
            printf("round %zu paid\n", k);
        else
            printf("round %zu refused %llu at %llu\n", k, (unsigned long long)answer[0], (unsigned long long)answer[1]);
    }
}

static void print_seats(const uint64_t *amounts, size_t rounds)
{
    uint64_t owed[SEATS] = {0};
    for (size_t i = 0; i < RIPPLEHATCH_RESULTS * rounds; i++)
        owed[i % RIPPLEHATCH_RESULTS / RIPPLEHATCH_SEAT_WAGERS] += amounts[i];
    for (int seat = 0; seat < SEATS; seat++)
        printf("seat %d %llu\n", seat + 1, (unsigned long long)owed[seat]);
}

int main(int words, char **word)
{
    if (words != 2) {
        fprintf(stderr, "usage: shift FILE, a shift\n");
        return 2;
    }
    size_t bytes = 0, place = 0;
    uint8_t *file = read_file(word[1], &bytes);
    if (file == NULL) {
        fprintf(stderr, "shift: cannot read %s\n", word[1]);
        return 2;
    }
    size_t rounds = ripplehatch_count_rounds(file, bytes);
    size_t paid = RIPPLEHATCH_RESULTS * rounds, told = RIPPLEHATCH_ANSWER * rounds;
    uint64_t *amounts = calloc(paid + 1, sizeof *amounts), *answers = calloc(told + 1, sizeof *answers);
    if (amounts == NULL || answers == NULL) {
        fprintf(stderr, "shift: no memory for the lists of %zu rounds\n", rounds);
        return 2;
    }
    unsigned number = ripplehatch_settle_shift(file, bytes, amounts, paid, answers, told, &rounds, &place);
    if (number == RIPPLEHATCH_SETTLED) {
        print_rounds(answers, rounds);
        print_seats(amounts, rounds);
    } else {
        printf("refused %u at %zu\n", number, place);
    }
    free(file);
    free(amounts);
    free(answers);
    if (fflush(stdout) != 0) {
        fprintf(stderr, "shift: cannot write to standard output\n");
        return 2;
    }
    return number == RIPPLEHATCH_SETTLED ? 0 : 1;
}
