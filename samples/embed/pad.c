/* Hands the records of the round file that is named one at a time to a round that is held as the file of it, then writes that file and settles it: what a pad in C
 * does with a round that comes record by record.
 *
 * Each record is printed with its answer, and a refused one is left out. The first choice that is accepted is handed over a second time to show a refusal; that one
 * is never put behind. Status: 0 finished and settled, 1 not finished, 2 a fault of the call, of reading or of writing.
 */
#include "ripplehatch.h"
#include <stdio.h>
#include <string.h>

enum { SEAT = 2, CHOICE = 4 };

/* A round as the file of it, and what its last accepted record told. */
struct pad {
    uint8_t held[RIPPLEHATCH_LARGEST_FILE];
    size_t bytes;
    uint8_t finished;
};

static void print_answer(size_t place, const char *again, unsigned number, uint8_t finished)
{
    printf("record %zu%s: ", place, again);
    if (number != 0)
        printf("refused %u\n", number);
    else
        printf("%s\n", finished ? "finished" : "next");
}

/* Answers whether there was room for every accepted record: there is, as no round takes more than 33. */
static int feed(struct pad *pad, FILE *in)
{
    uint8_t record[RIPPLEHATCH_RECORD];
    size_t bytes;
    int shown = 0;
    for (size_t place = 0; (bytes = fread(record, 1, sizeof record, in)) > 0; place++) {
        unsigned number = ripplehatch_take(pad->held, pad->bytes, record, bytes, &pad->finished);
        print_answer(place, "", number, pad->finished);
        if (number != 0)
            continue;
        if (sizeof pad->held - pad->bytes < sizeof record)
            return 0;
        memcpy(pad->held + pad->bytes, record, sizeof record);
        pad->bytes += sizeof record;
        if (record[0] == CHOICE && !shown) {
            uint8_t finished = 0;
            number = ripplehatch_take(pad->held, pad->bytes, record, sizeof record, &finished);
            print_answer(place, " again", number, finished);
            shown = 1;
        }
    }
    return 1;
}

static void print_seats(const uint8_t *file, size_t bytes, const uint64_t *results)
{
    for (size_t at = 0; at + RIPPLEHATCH_RECORD <= bytes; at += RIPPLEHATCH_RECORD) {
        if (file[at] != SEAT)
            continue;
        unsigned seat = file[at + 1];
        const uint64_t *amounts = results + RIPPLEHATCH_SEAT_WAGERS * (seat - 1);
        printf("%u", seat);
        for (int i = 0; i < RIPPLEHATCH_SEAT_WAGERS; i++)
            printf(" %llu", (unsigned long long)amounts[i]);
        printf("\n");
    }
}

/* Answers 0, or the number of a refusal, which no finished round is given. */
static unsigned settle(const struct pad *pad)
{
    uint8_t file[RIPPLEHATCH_LARGEST_FILE];
    unsigned number = ripplehatch_write(pad->held, pad->bytes, file, pad->bytes);
    if (number != 0)
        return number;
    uint64_t results[RIPPLEHATCH_RESULTS] = {0}, full = 0, paid = 0;
    size_t place = 0;
    number = ripplehatch_settle_file(file, pad->bytes, results, RIPPLEHATCH_RESULTS, &full, &paid, &place);
    if (number != 0)
        return number;
    print_seats(file, pad->bytes, results);
    printf("pool %llu %llu\n", (unsigned long long)full, (unsigned long long)paid);
    return 0;
}

static int fault(const char *what)
{
    fprintf(stderr, "pad: %s\n", what);
    return 2;
}

int main(int words, char **word)
{
    if (words != 2)
        return fault("no file is named, or more than one");
    FILE *in = fopen(word[1], "rb");
    if (in == NULL)
        return fault("cannot open the file");
    struct pad pad = {.bytes = 0, .finished = 0};
    int fits = feed(&pad, in);
    int unread = ferror(in);
    fclose(in);
    if (unread)
        return fault("cannot read the file");
    if (!fits)
        return fault("no room for an accepted record");
    if (!pad.finished)
        printf("not finished: %zu records held\n", pad.bytes / RIPPLEHATCH_RECORD);
    else if (settle(&pad) != 0)
        return fault("a finished round is refused");
    if (fflush(stdout) != 0 || ferror(stdout))
        return fault("cannot write to standard output");
    return pad.finished ? 0 : 1;
}
