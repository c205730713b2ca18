/* The midnight that went wrong last year, and how it goes now: the same story as ../midnight.rs, from C.
 *
 * A book of contact minutes is cut for four stations. A slip is taken once, however often it is sent. A lost share is
 * rebuilt from three small answers, takes the later slip again, and the corrected book comes back from two shares. */
#include "corkpaddle.h"

#include <stdio.h>
#include <stdlib.h>
#include <string.h>

enum { N = 4, K = 2, D = 3, ALPHA = D, B = 5, STRIPES = 3, HELP = 10, SLIP = 10, DATA = 34, HEAD = 45 };
enum { BOOK = STRIPES * B, FILE_BYTES = HEAD + STRIPES * DATA, ANSWER = STRIPES * HELP };

/* Kind 1 (MBR), n, k, d, and the points 1, 2, 3, 4. The unused points are zero. */
static const uint8_t code[36] = {1, N, K, D, 1, 2, 3, 4};

/* What the stations hold; station i stands at i - 1. */
static uint8_t files[N][FILE_BYTES];

/* Ends the program where a call is refused that should be done. */
static corkpaddle_answer done(corkpaddle_answer answer) {
    if (answer.number != 0) {
        printf("refused with %u\n", (unsigned)answer.number);
        exit(1);
    }
    return answer;
}

static void cut_all(const uint8_t *book) {
    for (int node = 1; node <= N; node++) {
        uint8_t *file = files[node - 1];
        done(corkpaddle_cut(code, sizeof code, (uint8_t)node, STRIPES, book, BOOK, file, FILE_BYTES));
        unsigned count = done(corkpaddle_judge_file(file, FILE_BYTES)).count;
        printf("station %d: a fresh share of %d bytes, count %u\n", node, FILE_BYTES, count);
    }
}

/* Writes the slip that corrects one entry of the book, and corrects the book. */
static void correct(uint8_t *book, uint8_t number, int place, uint8_t minutes, uint8_t *slip) {
    const uint8_t record[SLIP] = {'P', 0, 0, 0, number, 0, (uint8_t)(place / B), 0, (uint8_t)(place % B),
                                  (uint8_t)(book[place] ^ minutes)};
    memcpy(slip, record, SLIP);
    printf("slip %d: entry %d of the book, %d minutes, becomes %d\n", number, place, book[place], minutes);
    book[place] = minutes;
}

static void send_slip(int node, const uint8_t *slip) {
    corkpaddle_answer answer = corkpaddle_take_slip(files[node - 1], FILE_BYTES, slip, SLIP);
    if (answer.number == 0)
        printf("station %d: slip %d taken, count %u\n", node, slip[4], (unsigned)answer.count);
    else
        printf("station %d: slip %d refused with %u\n", node, slip[4], (unsigned)answer.number);
}

static void lose(int node) {
    memset(files[node - 1], 0, FILE_BYTES);
    printf("station %d: its share is lost\n", node);
}

/* Asks d helpers, and puts their answers into batches, a batch for each stripe. */
static void rebuild(int node, const int *helpers) {
    uint8_t answer[ANSWER], batches[STRIPES * D * HELP];
    for (int i = 0; i < D; i++) {
        const uint8_t *file = files[helpers[i] - 1];
        done(corkpaddle_answer_for(file, FILE_BYTES, (uint8_t)node, answer, ANSWER));
        printf("station %d: answers station %d with %d records\n", helpers[i], node, STRIPES);
        for (int stripe = 0; stripe < STRIPES; stripe++)
            memcpy(batches + (stripe * D + i) * HELP, answer + stripe * HELP, HELP);
    }
    uint8_t *file = files[node - 1];
    unsigned count = done(corkpaddle_rebuild_file(code, sizeof code, (uint8_t)node, STRIPES, batches, sizeof batches,
                                                  file, FILE_BYTES)).count;
    printf("station %d: rebuilt, %d bytes, count %u\n", node, FILE_BYTES, count);
}

/* The book from k stations, stripe by stripe. A D record's body has two bytes of stripe, then the share. */
static void collect(const uint8_t *nodes, uint8_t *book) {
    uint32_t counts[K];
    for (int i = 0; i < K; i++)
        counts[i] = done(corkpaddle_judge_file(files[nodes[i] - 1], FILE_BYTES)).count;
    for (int stripe = 0; stripe < STRIPES; stripe++) {
        uint8_t shares[K * ALPHA];
        for (int i = 0; i < K; i++) {
            const uint8_t *file = files[nodes[i] - 1];
            corkpaddle_record record = corkpaddle_read(file, FILE_BYTES, (uint64_t)(HEAD + stripe * DATA));
            if (record.number != 0)
                exit(1);
            memcpy(shares + i * ALPHA, file + record.start + 2, ALPHA);
        }
        done(corkpaddle_collect(code, sizeof code, nodes, K, counts, K, shares, sizeof shares, book + stripe * B, B));
    }
}

int main(void) {
    uint8_t book[BOOK] = {9, 12, 11, 8, 10, 14, 7, 9, 13, 12, 6, 10, 11, 15, 8};
    uint8_t first[SLIP], second[SLIP], collected[BOOK];
    const int helpers[D] = {1, 2, 4};
    const uint8_t nodes[K] = {3, 4};

    printf("book: %d entries in %d stripes\n", BOOK, STRIPES);
    cut_all(book);

    correct(book, 1, 11, 5, first);
    for (int node = 1; node <= N; node++)
        send_slip(node, first);
    send_slip(2, first);

    correct(book, 2, 3, 16, second);
    send_slip(3, second);
    lose(3);
    rebuild(3, helpers);
    send_slip(3, second);
    send_slip(4, second);

    collect(nodes, collected);
    const char *verdict = memcmp(collected, book, BOOK) == 0 ? "the corrected book" : "ANOTHER BOOK";
    printf("stations 3 and 4: %d entries collected, %s\n", BOOK, verdict);
    return 0;
}
