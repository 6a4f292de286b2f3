/* Ripplehatch: takes a round of Cajun Stud record by record, and settles it, or a shift of rounds at once. Link with libripplehatch.a (bench/library), on x86-64.
 *
 * Every function answers every input: there is nothing that a caller has to check first. Three things are C's own to keep. No pointer may be null, neither one to
 * a list nor one to a number; of a list of 0 numbers any other pointer will do. A pointer and the number after it are a list that is really there. Nothing that is
 * lent to be written overlaps anything else that is lent to the same call. The functions keep nothing between calls, use no heap and print nothing.
 *
 * What each answers is proved: crates/ripplehatch/src/lib.rt has the contracts, docs/READING.md leads to what they mean.
 */
#ifndef RIPPLEHATCH_H
#define RIPPLEHATCH_H

#include <stddef.h>
#include <stdint.h>

#ifdef __cplusplus
extern "C" {
#endif

/* How long a results list is: seats 1 to 7, five amounts each, in cents, in the order base, Board, Pocket, Lo Ball, All-Six. */
#define RIPPLEHATCH_RESULTS 35

/* How many amounts a seat has. */
#define RIPPLEHATCH_SEAT_WAGERS 5

/* How many numbers a round of a shift has in the list of answers: its refusal's number and place. */
#define RIPPLEHATCH_ANSWER 2

/* How long a record is, in bytes. */
#define RIPPLEHATCH_RECORD 16

/* How long the longest file of accepted records is, in bytes: no round takes more than 33 records. */
#define RIPPLEHATCH_LARGEST_FILE 528

/* What Lo Ball calls cards that have no high rank: two of a rank, a straight or a flush. */
#define RIPPLEHATCH_LO_NOTHING 13

/* What a function answers: 0, or the refusal's number. Where several apply, a file that is settled is checked for 1, then 2, then record by record, and within a
 * record the lowest number applies; a shift for 2, then 1; of a held file 17 comes before all others, and 16 before 1; of cards 18 comes before 11, of a pool 19
 * before 20. */
enum {
    RIPPLEHATCH_SETTLED = 0,       /* no refusal */
    RIPPLEHATCH_LIST_LENGTH = 1,   /* the results list isn't 35 long, a list isn't as long as the shift's rounds need, or the room to write into isn't as long as the held file */
    RIPPLEHATCH_ODD_BYTES = 2,     /* the file's length isn't a multiple of 16, or the record that is handed over isn't 16 bytes */
    RIPPLEHATCH_KIND = 3,          /* a record of this kind can't come here */
    RIPPLEHATCH_NOT_ZERO = 4,      /* a byte that must be zero isn't */
    RIPPLEHATCH_ANTE_LIMIT = 5,    /* an ante limit is out of range */
    RIPPLEHATCH_PAY_TABLE = 6,     /* there is no such pay table */
    RIPPLEHATCH_SEAT = 7,          /* the seat is outside 1 to 7, or, in a seat record, not above the one before */
    RIPPLEHATCH_ANTE = 8,          /* the ante is outside the limits */
    RIPPLEHATCH_SIDE_WAGER = 9,    /* a side wager is above the largest ante, or on All-Six where it isn't offered */
    RIPPLEHATCH_DECK_PART = 10,    /* the deck part isn't the next one */
    RIPPLEHATCH_CARD = 11,         /* a card is above 51, or a repeat */
    RIPPLEHATCH_CHOICE = 12,       /* the choice is above 3 */
    RIPPLEHATCH_ABSENT = 13,       /* the seat isn't in the round */
    RIPPLEHATCH_FOLDED = 14,       /* the seat has folded */
    RIPPLEHATCH_CHOSEN = 15,       /* the seat has already chosen on this street */
    RIPPLEHATCH_UNFINISHED = 16,   /* the round isn't finished; of ripplehatch_write, the held file is empty */
    RIPPLEHATCH_NOT_HELD = 17,     /* the held bytes are no file of accepted records; only ripplehatch_take and ripplehatch_write answer so */
    RIPPLEHATCH_HAND = 18,         /* the hand isn't five cards, or for All-Six six */
    RIPPLEHATCH_SHARE_LISTS = 19,  /* the lists of wins and shares differ in length, or exceed 7 */
    RIPPLEHATCH_SHARE_LIMIT = 20   /* a win is above 500,000, or the maximum above 75,000 */
};

/* Settles a round file. Answers 0 where it is settled: results then holds what each seat is owed, *full and *paid the pool in dollars, full and as paid.
 * Else answers the refusal's number, and *place is the place of the refused record, from 0. What is not told is left as it was. */
uint8_t ripplehatch_settle_file(
    const uint8_t *file, size_t bytes, uint64_t *results, size_t room, uint64_t *full, uint64_t *paid, size_t *place);

/* The refused record as a part of the file: answers the byte at which it begins, and *length is how many bytes it has. These are 16 bytes; for refusal
 * 2 the odd bytes at the end; for 16, or no refusal, none, at the end. */
size_t ripplehatch_refused_part(const uint8_t *file, size_t bytes, size_t *length);

/* How many rounds a shift has: rounds joined end to end, where record 0 starts a round, and so does every later record of kind 1. Odd bytes at the end are in none. */
size_t ripplehatch_count_rounds(const uint8_t *file, size_t bytes);

/* Settles a shift, each round as ripplehatch_settle_file would settle it alone. amounts has 35 numbers for each round, answers two. Answers 0 where the shift is settled, whatever its
 * rounds are: *rounds is how many it has, amounts holds what each seat is owed, round after round, and answers for each round 0 and 0, or its refusal's number and the place of the
 * refused record within the round; such a round's amounts are zeros, and it spoils no other. Else answers 2 or 1, *place is its place, the count of whole records or 0, and
 * neither list is written. What is not told is left as it was. */
uint8_t ripplehatch_settle_shift(
    const uint8_t *file, size_t bytes, uint64_t *amounts, size_t amounts_room, uint64_t *answers, size_t answers_room, size_t *rounds, size_t *place);

/* Answers one record to a round that is held as the file of it: the accepted records, one after the other. The empty file is the fresh round.
 * Answers 0 where the record is accepted: *finished is then 1 where the round is finished, 0 where the next record is awaited, and the caller puts the 16 bytes
 * behind the held ones. Else answers the refusal's number, 17, 2, or 3 to 15, and *finished is left as it was: nothing is put behind, and after any but 17 the
 * round goes on. */
uint8_t ripplehatch_take(const uint8_t *held, size_t held_bytes, const uint8_t *record, size_t record_bytes, uint8_t *finished);

/* Writes a held file, of a finished round or not, in the writer's order: the table, the seats, the deck parts, the choices by street and by rising seat. The room is
 * apart from the held file, and exactly as long. Answers 0, and room holds the file; else answers 17, 16 or 1, and room is left as it was. */
uint8_t ripplehatch_write(const uint8_t *held, size_t held_bytes, uint8_t *room, size_t room_bytes);

/* Names five cards. Answers 0, and *name is the place of the name in the list of names, from 0, a royal flush, to 10, other. Else answers 18 or 11. */
uint8_t ripplehatch_name_five(const uint8_t *cards, size_t count, size_t *name);

/* Names five cards for Lo Ball. Answers 0, and *high is the highest rank, from 0, a two, to 12, an ace, or RIPPLEHATCH_LO_NOTHING. Else answers 18 or 11. */
uint8_t ripplehatch_name_lo(const uint8_t *cards, size_t count, size_t *high);

/* Names six cards for All-Six. Answers 0, and *name is the place of the name: 0, nine to ace of diamonds; 1, nine to ace of another suit; from 2, a royal flush, to 12,
 * other, what the best five of the six are called. Else answers 18 or 11. */
uint8_t ripplehatch_name_six(const uint8_t *cards, size_t count, size_t *name);

/* Shares a maximum among up to seven wins, in dollars. Answers 0, and shares holds the share of each win: all in full where they are within the maximum, and
   otherwise what comes to exactly the maximum. A refusal, 19 or 20, leaves it as it was. */
uint8_t ripplehatch_share(const uint64_t *wins, size_t count, uint64_t maximum, uint64_t *shares, size_t room);

#ifdef __cplusplus
}
#endif

#endif
