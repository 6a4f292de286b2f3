/* Settles the round file that is named, and prints what the program settle prints: what a pad in C does with the library.
 *
 * The refused record, which is what a dealer is shown, goes to standard error as bytes. Status: 0 paid, 1 refused, 2 a fault of the call, of reading or of writing.
 */
#include "ripplehatch.h"
#include <stdio.h>

enum { MOST = 65536, RECORD = 16, SEAT = 2 };

static void print_seats(const uint8_t *file, size_t bytes, const uint64_t *results)
{
    for (size_t at = 0; at + RECORD <= bytes; at += RECORD) {
        if (file[at] != SEAT)
            continue;
        unsigned seat = file[at + 1];
        const uint64_t *amounts = results + RIPPLEHATCH_SEAT_WAGERS * (seat - 1);
        printf("%u", seat);
        for (int i = 0; i < RIPPLEHATCH_SEAT_WAGERS; i++)
            printf(" %llu", (unsigned long long)amounts[i]);
        printf("\n");
    }
}

static void print_part(const uint8_t *file, size_t bytes)
{
    size_t length = 0;
    size_t begins = ripplehatch_refused_part(file, bytes, &length);
    fprintf(stderr, "refused record:");
    for (size_t i = begins; i < begins + length; i++)
        fprintf(stderr, " %02x", file[i]);
    fprintf(stderr, "\n");
}

int main(int words, char **word)
{
    static uint8_t file[MOST];
    FILE *in = words == 2 ? fopen(word[1], "rb") : NULL;
    if (in == NULL) {
        fprintf(stderr, "usage: settle FILE, a round file\n");
        return 2;
    }
    size_t bytes = fread(file, 1, MOST, in);
    int more = fgetc(in) != EOF;
    int unread = ferror(in);
    fclose(in);
    if (unread) {
        fprintf(stderr, "settle: cannot read %s\n", word[1]);
        return 2;
    }
    if (more) {
        fprintf(stderr, "settle: a file of more than %d bytes\n", MOST);
        return 2;
    }

    uint64_t results[RIPPLEHATCH_RESULTS] = {0}, full = 0, paid = 0;
    size_t place = 0;
    unsigned number = ripplehatch_settle_file(file, bytes, results, RIPPLEHATCH_RESULTS, &full, &paid, &place);
    if (number == RIPPLEHATCH_SETTLED) {
        print_seats(file, bytes, results);
        printf("pool %llu %llu\n", (unsigned long long)full, (unsigned long long)paid);
    } else {
        printf("refused %u at %zu\n", number, place);
        print_part(file, bytes);
    }
    if (fflush(stdout) != 0) {
        fprintf(stderr, "settle: cannot write to standard output\n");
        return 2;
    }
    return number == RIPPLEHATCH_SETTLED ? 0 : 1;
}
