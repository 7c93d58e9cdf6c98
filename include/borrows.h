/*
 * borrows.h: which arguments a method's result has to keep alive, from a method sheet; and the sheet's text, from its
 * records.
 *
 * Link target/staticlib/libexports.a, which tools/staticlib writes (x86-64, System V calling convention; besides itself
 * it needs memcpy and memset). Every function in it is proved to meet its contract: crates/exports/src says what each
 * call answers and what each slice holds afterwards, crates/exports/specs what that means.
 *
 * What the caller owes, and nothing checks:
 *   - each pointer is valid for its length: those that are const (a sheet; the words and ends of its records) for
 *     reading, all others for reading and writing; aligned as its type wants; and not NULL, also where the length is 0;
 *   - of the pieces of memory of one call those that are not const overlap no other, and nobody else writes to any of
 *     them meanwhile;
 *   - BORROWS_STACK bytes of stack are left. How many a call takes depends on the sheet: borrows_listing was seen to
 *     take 16 kilobytes (a sheet of at most 256 bytes with few lifetimes and edges) to 499, borrows_sheet 90 to 170,
 *     borrows_write_sheet less than 3; the rest is to spare.
 * Apart from that no argument is wrong: any bytes, any lengths.
 *
 * Every call answers BORROWS_OK or the number of a refusal. The refusals that there are today stand below; a later
 * version may have further numbers. So every status but BORROWS_OK is to be treated as a refusal, also one that the
 * caller does not know. After a refusal, whatever its number, every byte and word that was lent is as it was before.
 * After BORROWS_OK only the words and bytes named below are written; what lies behind them is as it was. No call
 * allocates, keeps anything, or reads or writes anything but its arguments, so calls may run side by side.
 */
#ifndef BORROWS_H
#define BORROWS_H

#include <stddef.h>
#include <stdint.h>

/*
 * The version of what is declared here. It grows by one with each change after which a program that was written for
 * the version before may be wrong: other parameters of a call, other words in a slice or more of them for an edge, a
 * larger constant, another answer to the same arguments (a sheet refused that was accepted, for instance). It stays
 * where only a call, a constant, or the name of a refusal is added. The library does not tell its version to a running
 * program: take header and library from one tree, and compile anew what was compiled with an older header. A program
 * that counts on one version can say so:
 *
 *     #if BORROWS_VERSION != 2
 *     #error "written for version 2 of borrows.h"
 *     #endif
 *
 * Version 2: a sheet with 1 in `force` is refused (13); less memory is enough for used lifetimes and edges.
 */
#define BORROWS_VERSION 2

#ifdef __cplusplus
extern "C" {
#endif

/* A status: 0, or the number of a refusal. Words have the width of a pointer: 64 bits. */
typedef size_t borrows_status;

enum {
    BORROWS_OK = 0,
    BORROWS_MALFORMED = 1,    /* a record that is not in its shape; ends that are not those of ten records */
    BORROWS_DUPLICATE = 2,    /* a name declared again */
    BORROWS_UNDECLARED = 3,   /* an undeclared name where one is looked up */
    BORROWS_FULL = 4,         /* a 33rd name, 65th lifetime, 257th bound, 33rd row or 17th parameter */
    BORROWS_NO_SOURCE = 5,    /* an elided lifetime in the output, and no input to take it from */
    BORROWS_AMBIGUOUS = 6,    /* the same, and several inputs */
    BORROWS_MISMATCH = 7,     /* not as many lifetimes as the struct has */
    BORROWS_OUT_OF_RANGE = 8, /* a lifetime past those that there are */
    BORROWS_NO_ROOM = 9,      /* lent memory too short, or, for a listing, more than 4,096 edges */
    BORROWS_UNREADABLE = 10,  /* bytes that are not the text of a sheet; a word above 65535, which no text can have */
    BORROWS_RETIRED = 13      /* 1 in `force`, which is no longer taken */
};

/* The records of a sheet: the number of each, which is its place among them, and how many there are. */
enum {
    BORROWS_RECORD_NAMES = 0,
    BORROWS_RECORD_BOUNDS = 1,
    BORROWS_RECORD_TYPES = 2,
    BORROWS_RECORD_SELF = 3,
    BORROWS_RECORD_STEPS = 4,
    BORROWS_RECORD_RETURNS = 5,
    BORROWS_RECORD_STRUCTS = 6,
    BORROWS_RECORD_PARAMS = 7,
    BORROWS_RECORD_OUTPUT = 8,
    BORROWS_RECORD_FORCE = 9,
    BORROWS_RECORDS = 10
};

/* An edge's words: the place of each, and how many there are. Edge e begins at word e * BORROWS_WORDS_PER_EDGE. */
enum {
    BORROWS_EDGE_USED = 0,   /* the used lifetime */
    BORROWS_EDGE_PARAM = 1,  /* the parameter */
    BORROWS_EDGE_KIND = 2,   /* 1 opaque, 2 slice, 3 struct */
    BORROWS_EDGE_DEF = 3,    /* the struct's own lifetime; 0 but for kind 3 */
    BORROWS_EDGE_OPTION = 4, /* 1 where the struct may be absent; 0 but for kind 3 */
    BORROWS_WORDS_PER_EDGE = 5
};

enum {
    /* A sheet with more bytes is refused (10). */
    BORROWS_SHEET_BYTES = 65536,

    /*
     * So much takes every answer, whatever the sheet (proved: BytesEnough and WordsEnough of
     * crates/exports/specs/Theorems.antt).
     */
    BORROWS_LISTING_BYTES = 131072,
    BORROWS_LISTING_WORDS = 1,
    BORROWS_USED = 34,
    BORROWS_ANSWERS = 16,
    BORROWS_EDGES = 8704,
    BORROWS_EDGE_WORDS = BORROWS_EDGES * BORROWS_WORDS_PER_EDGE, /* 43,520 */
    BORROWS_COUNTS = 3,

    /*
     * And so much takes the text of every sheet that is written (WrittenEnough there): the first line, 66 bytes, and
     * ten records of at most 1,024 words, each word at most five digits and a byte behind them.
     */
    BORROWS_WRITTEN_BYTES = 61506,
    BORROWS_WRITTEN_WORDS = 1,

    /* Stack for a call, in bytes: measured, not proved, with room to spare. */
    BORROWS_STACK = 655360
};

/*
 * The listing of a sheet.
 *
 * sheet, sheet_len      the sheet's bytes
 * out, out_len          takes the listing's bytes, from the front
 * written, written_len  written[0] takes how many they are
 *
 * BORROWS_NO_ROOM, after all refusals of the sheet itself, if there are more than 4,096 edges, out is too short, or
 * written has no word. With less than BORROWS_LISTING_BYTES in out the listing is measured before it is written, which
 * doubles the time.
 */
borrows_status borrows_listing(const uint8_t *sheet, size_t sheet_len,
                               uint8_t *out, size_t out_len,
                               size_t *written, size_t written_len);

/*
 * What the wrapper of a sheet's method has to hold on to.
 *
 * sheet, sheet_len      the sheet's bytes
 * used, used_len        takes the lifetimes that the output uses, ascending
 * answers, answers_len  takes one word for each parameter: 0 not borrowed, 1 a slice that need not be kept, 2 a
 *                       borrowed slice, 3 a struct, 4 a borrowed opaque
 * edges, edges_len      takes BORROWS_WORDS_PER_EDGE words for each edge, by used lifetime, then parameter, then def;
 *                       the words themselves are named above. The lengths are in words, not edges.
 * counts, counts_len    takes three words: how many lifetimes are used, how many parameters there are, how many edges
 *
 * BORROWS_NO_ROOM, after all refusals of the sheet itself, if one of the four is too short.
 */
borrows_status borrows_sheet(const uint8_t *sheet, size_t sheet_len,
                             size_t *used, size_t used_len,
                             size_t *answers, size_t answers_len,
                             size_t *edges, size_t edges_len,
                             size_t *counts, size_t counts_len);

/*
 * The text of a sheet, from its records: for an editor that holds the records and wants the file.
 *
 * words, words_len      the words of the ten records, one record after another, in the order of their numbers
 * ends, ends_len        where each record ends: ends[i] is the place behind the last word of record i, and record i + 1
 *                       begins there; record 0 begins at 0. An empty record ends where it begins.
 * out, out_len          takes the text's bytes, from the front
 * written, written_len  written[0] takes how many they are
 *
 * Refused by the first of these that is so:
 *   BORROWS_MALFORMED   the ends are not exactly BORROWS_RECORDS many, one is below the one before, or one is past
 *                       words_len: there are no records to look at then
 *   BORROWS_UNREADABLE  a word of some record is above 65535, however long the record is
 *   BORROWS_MALFORMED   some record has more than 1,024 words or is not in its shape
 *   BORROWS_RETIRED     `force` is 1
 *   BORROWS_NO_ROOM     out is too short for the text, or written has no word
 * Words behind the last end are not looked at. What a sheet is refused by later, when its listing is asked, does not
 * prevent writing: a name declared again, for instance. The text read again is the same records, and the records of a
 * sheet that was not refused by 10, 1 or 13 are written as that very sheet, byte for byte. With less than
 * BORROWS_WRITTEN_BYTES in out the text is measured before it is written.
 */
borrows_status borrows_write_sheet(const size_t *words, size_t words_len,
                                   const size_t *ends, size_t ends_len,
                                   uint8_t *out, size_t out_len,
                                   size_t *written, size_t written_len);

#ifdef __cplusplus
}
#endif

#endif
