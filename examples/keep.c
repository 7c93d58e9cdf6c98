/*
 * Which arguments must a wrapper hold on to? Reads a method sheet from standard input, writes its listing to standard
 * output, and says on standard error which parameters have to be kept and for what.
 */
#include <stdio.h>
#include <stdlib.h>
#include "borrows.h"

static uint8_t sheet[BORROWS_SHEET_BYTES + 1]; /* a byte more than any sheet has, to notice one that is too long */
static uint8_t listing[BORROWS_LISTING_BYTES];
static size_t used[BORROWS_USED], answers[BORROWS_ANSWERS], edges[BORROWS_EDGE_WORDS], counts[BORROWS_COUNTS];

static int unwritten(void)
{
    fprintf(stderr, "standard output could not be written\n");
    return 1;
}

int main(void)
{
    size_t length = fread(sheet, 1, sizeof sheet, stdin);
    if (ferror(stdin)) {
        fprintf(stderr, "standard input could not be read\n");
        return 1;
    }

    size_t written = 0;
    borrows_status status =
        borrows_listing(sheet, length, listing, sizeof listing, &written, BORROWS_LISTING_WORDS);
    if (status != BORROWS_OK) { /* a refusal, also where its number is not in the header */
        printf("refusal\n%zu\n", status);
        return fflush(stdout) ? unwritten() : 0;
    }
    if (fwrite(listing, 1, written, stdout) != written || fflush(stdout))
        return unwritten();

    /* Memory that is too short is refused, and left alone. */
    uint8_t one = 'x';
    size_t nothing = 77;
    status = borrows_listing(sheet, length, &one, 1, &nothing, BORROWS_LISTING_WORDS);
    if (status != BORROWS_NO_ROOM || one != 'x' || nothing != 77) {
        fprintf(stderr, "a refusal wrote something\n");
        return 1;
    }
    status = borrows_listing(sheet, length, listing, sizeof listing, &nothing, 0);
    if (status != BORROWS_NO_ROOM || nothing != 77) {
        fprintf(stderr, "a refusal wrote something\n");
        return 1;
    }

    status = borrows_sheet(sheet, length, used, BORROWS_USED, answers, BORROWS_ANSWERS, edges, BORROWS_EDGE_WORDS,
                           counts, BORROWS_COUNTS);
    if (status != BORROWS_OK) {
        fprintf(stderr, "refused: %zu\n", status);
        return 1;
    }
    for (size_t param = 0; param < counts[1]; param++) {
        fprintf(stderr, "parameter %zu: ", param);
        if (answers[param] < 2) {
            fprintf(stderr, "need not be kept\n");
            continue;
        }
        fprintf(stderr, "kept for");
        size_t last = SIZE_MAX;
        for (size_t e = 0; e < counts[2]; e++) {
            const size_t *edge = edges + BORROWS_WORDS_PER_EDGE * e;
            if (edge[BORROWS_EDGE_PARAM] == param && edge[BORROWS_EDGE_USED] != last) {
                last = edge[BORROWS_EDGE_USED];
                fprintf(stderr, " '%zu", last);
            }
        }
        fprintf(stderr, "\n");
    }
    return 0;
}
