/*
 * Makes the file of a sheet from its records: that of the method `replay` of docs/SHEET.md, which says what each word
 * means. The argument is the path of the file.
 */
#include <stdio.h>
#include "borrows.h"

struct record {
    const size_t *words;
    size_t count;
};

/* A record that has these words. */
#define WORDS(...) {(const size_t[]){__VA_ARGS__}, sizeof((const size_t[]){__VA_ARGS__}) / sizeof(size_t)}

static const struct record records[BORROWS_RECORDS] = {
    [BORROWS_RECORD_NAMES] = WORDS(1, 2, 3, 4), /* 'disk, 'seg, 'tail; the first is the impl's */
    [BORROWS_RECORD_BOUNDS] = WORDS(0, 3, 2),   /* 'seg above 'disk */
    [BORROWS_RECORD_TYPES] = WORDS(2, 1, 1, 1, 2, 1, 2, 3, 4, 3, 1, 1, 3, 2, 2, 1, 1, 4, 0, 0),
    [BORROWS_RECORD_SELF] = WORDS(1),
    [BORROWS_RECORD_STEPS] = WORDS(2, 1, 2, 1, 2, 2, 3, 4, 1, 1, 1, 3, 0, 2, 1, 1, 1, 4, 0, 1),
    [BORROWS_RECORD_RETURNS] = WORDS(1, 2, 2, 1, 2),
    [BORROWS_RECORD_STRUCTS] = WORDS(2, 2, 3, 1, 1, 3, 1, 2, 1, 2, 3, 1, 1, 0),
    [BORROWS_RECORD_PARAMS] = WORDS(1, 0, 1, 1, 1, 4, 2, 0, 2, 2, 3, 4, 2, 1, 1, 2, 1, 0, 1, 3, 1, 1, 3, 1, 5),
    [BORROWS_RECORD_OUTPUT] = WORDS(1, 0, 2, 4, 1, 0),
    [BORROWS_RECORD_FORCE] = WORDS(0),
};

/* The records one after another, and where each ends. A record that may be written has at most 1,024 words. */
static size_t words[BORROWS_RECORDS * 1024], ends[BORROWS_RECORDS];
static uint8_t text[BORROWS_WRITTEN_BYTES];

int main(int argc, char **argv)
{
    if (argc != 2) {
        fprintf(stderr, "write FILE\n");
        return 2;
    }

    size_t count = 0;
    for (size_t k = 0; k < BORROWS_RECORDS; k++) {
        for (size_t w = 0; w < records[k].count; w++)
            words[count++] = records[k].words[w];
        ends[k] = count;
    }

    size_t length = 0;
    borrows_status status = borrows_write_sheet(words, count, ends, BORROWS_RECORDS, text, sizeof text, &length,
                                                BORROWS_WRITTEN_WORDS);
    if (status != BORROWS_OK) {
        fprintf(stderr, "refused: %zu\n", status);
        return 1;
    }

    FILE *file = fopen(argv[1], "wb");
    int whole = file && fwrite(text, 1, length, file) == length;
    if (!file || fclose(file) || !whole) {
        fprintf(stderr, "%s could not be written\n", argv[1]);
        return 1;
    }
    return 0;
}
