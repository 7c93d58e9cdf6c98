/*
 * Damaged sheets against the static library. compare/fuzz builds and runs it:
 *
 *     fuzz SEEDS SECONDS SEED REPORT
 *
 * SEEDS is a file of sheets, each behind a line with its length. A sheet is drawn, changed (bytes, words, records, splices) and given to the calls of include/borrows.h. Each piece of memory that is lent
 * lies between two guarded regions and touches one of them, with its end or with its start as chance has it, so that a byte read or written on that side is a fault. A call has a little less than
 * BORROWS_STACK bytes of stack, with a guard below.
 *
 * Held of each sheet:
 *   - no fault, no call of a second or more, a status that has a name, the same each time; the sheet's bytes stay as they are;
 *   - the tenth line of an accepted sheet is 0, that of one refused by 13 is 1;
 *   - refused: nothing is written, and the same refusal comes with any room;
 *   - accepted: the first n bytes are written and no others; with room for exactly n the same bytes; with a byte less, or no word for n, 9 and nothing written;
 *   - borrows_sheet (every fourth sheet): refused as the listing is, but for a listing's 9, which only edges can be; what it gives is what the listing ends with; exact room does, a word less anywhere is 9.
 *
 * Held of its records, of each sheet to begin with and of every fourth behind them. A text that is lines of decimal
 * numbers is taken apart here, words of any size too; the records are now and then changed (a word that is too large,
 * `force`, a record above 1,024 words, ends that are those of no ten records, words behind the last end):
 *   - no fault and so on, as above; words and ends stay as they are; a status of 0, 1, 9, 10 or 13;
 *   - 1 for ends that are not ten, descend, or lie past the words; else 10 where a word of a record is above 65535;
 *     else 1 where a record has more than 1,024 words; else 1 or 13 where the listing of their text, put together here,
 *     is refused so (it is never refused by 10), and otherwise they are written as that very text. So what was written
 *     reads again, and records that were not changed are written as the bytes that they came from, of which the listing
 *     says the same as before;
 *   - refused: nothing is written, and the same refusal comes with any room;
 *   - written: the first n bytes and no others; the same with room for exactly n, and with some to spare; with a byte
 *     less, or no word for n, 9 and nothing written.
 *
 * What is lent is filled with a byte that no answer holds (FILL), so that what is written shows.
 * The first fault or difference ends the run with status 1; the sheet is then in the file REPORT, and behind it the ends
 * and words if it came while records were written. Otherwise the figures are printed.
 */
#define _GNU_SOURCE
#include <pthread.h>
#include <signal.h>
#include <stdio.h>
#include <stdlib.h>
#include <string.h>
#include <sys/mman.h>
#include <sys/time.h>
#include <time.h>
#include <unistd.h>
#include "borrows.h"

enum {
    FILL = 0xa5,
    PAGE = 4096,
    GUARD = 1 << 20,  /* wider than any frame, so that no call steps over it */
    OWN_STACK = 4096, /* the thread's own data and the frames here take more, so that a call has less than BORROWS_STACK */
    LONGEST = 70000,  /* more than a sheet may have */
    KEPT = 30000,     /* sheets to draw from, at most */
    KEPT_BYTES = 6000,
    RECORDS = 10,
    HEADING = 66,        /* bytes of the first line */
    RECORD_WORDS = 1024, /* the most that a record may have */
    LARGEST_WORD = 65535,
    FEW = 2048,          /* words for which there is a small room, which is looked through sooner */
    MANY = LONGEST / 2 + 70000, /* words of any text, and as many more as are added at most */
    ENDS = RECORDS + 2
};

/* ---- random numbers: splitmix64 */

static uint64_t state;

static uint64_t draw(void)
{
    uint64_t z = state += 0x9e3779b97f4a7c15;
    z = (z ^ z >> 30) * 0xbf58476d1ce4e5b9;
    z = (z ^ z >> 27) * 0x94d049bb133111eb;
    return z ^ z >> 31;
}

static size_t below(size_t n) { return n ? draw() % n : 0; }

/* ---- what is known of the run; the handlers read it too */

static uint8_t input[LONGEST];
static size_t length;
static const char *report;
static volatile uint64_t runs, calls;
static volatile sig_atomic_t stopped;

/* The records that are written: their words, one record after another, and what is lent as their ends. */
static struct {
    size_t words[MANY], words_len, ends[ENDS], ends_len;
} records;
static volatile sig_atomic_t writing;

static uint64_t by_status[BORROWS_RETIRED + 1], accepted_inputs, accepted_listings, listed_bytes, sheet_calls, many_edges, longest_ns;
static size_t stack_left, largest_listing, most_edges;
static uint64_t records_by_status[BORROWS_RETIRED + 1], records_held, records_changed, bad_ends, write_calls;
static size_t largest_text;

static int named(size_t status) { return status <= BORROWS_UNREADABLE || status == BORROWS_RETIRED; }

/* Say what went wrong, leave the sheet in a file, and end. Only calls that a handler may use. */
static void fail(const char *what)
{
    char line[200];
    int n = snprintf(line, sizeof line, "FAILED: %s; sheet number %llu, %zu bytes, call %llu\n", what, (unsigned long long)runs, length, (unsigned long long)calls);
    if (write(2, line, n) < 0)
        _exit(3);
    FILE *file = fopen(report, "w");
    if (file) {
        fwrite(input, 1, length, file);
        if (writing) {
            fprintf(file, "ends:");
            for (size_t k = 0; k < records.ends_len; k++)
                fprintf(file, " %zu", records.ends[k]);
            fprintf(file, "\nwords:");
            for (size_t k = 0; k < records.words_len; k++)
                fprintf(file, " %zu", records.words[k]);
            fprintf(file, "\n");
        }
        fclose(file);
    }
    _exit(1);
}

static void on_fault(int number)
{
    fail(number == SIGSEGV ? "a fault (SIGSEGV)" : number == SIGBUS ? "a fault (SIGBUS)" : number == SIGILL ? "SIGILL" : number == SIGFPE ? "SIGFPE" : "SIGABRT");
}

/* Once a second: two ticks without a call in between are a call that does not end. */
static void on_tick(int number)
{
    static uint64_t last[2] = {-1, -2};
    (void)number;
    if (calls == last[0] && calls == last[1] && !stopped)
        fail("a call does not end");
    last[1] = last[0];
    last[0] = calls;
}

static void on_stop(int number)
{
    (void)number;
    stopped = 1;
}

static uint64_t now(void)
{
    struct timespec t;
    clock_gettime(CLOCK_MONOTONIC, &t);
    return (uint64_t)t.tv_sec * 1000000000 + t.tv_nsec;
}

static void called(uint64_t start)
{
    uint64_t took = now() - start;
    calls++;
    if (took > longest_ns)
        longest_ns = took;
    if (took >= 1000000000)
        fail("a call took a second");
}

/* ---- memory between guards */

struct room {
    uint8_t *base;
    size_t size;
};

static struct room sheets, outs, writtens, useds, answerss, edgess, countss, few_words, many_words, endss;

static struct room room_of(size_t bytes)
{
    size_t size = (bytes + PAGE - 1) / PAGE * PAGE;
    uint8_t *all = mmap(NULL, size + 2 * (size_t)GUARD, PROT_NONE, MAP_PRIVATE | MAP_ANONYMOUS, -1, 0);
    if (all == MAP_FAILED || mprotect(all + GUARD, size, PROT_READ | PROT_WRITE)) {
        perror("memory");
        exit(2);
    }
    memset(all + GUARD, FILL, size);
    return (struct room){all + GUARD, size};
}

/* A piece that ends where the guard behind begins, or that begins where the guard in front ends. */
static void *piece(const struct room *room, size_t bytes, unsigned at_end)
{
    return at_end & 1 ? room->base + room->size - bytes : room->base;
}

static int filled(const uint8_t *at, size_t bytes)
{
    return bytes == 0 || (at[0] == FILL && memcmp(at, at + 1, bytes - 1) == 0);
}

/* All of a room is as it was but for so many bytes from a place on; these are then made as they were. */
static void only_written(const struct room *room, void *from, size_t bytes)
{
    size_t before = (uint8_t *)from - room->base;
    if (!filled(room->base, before) || !filled((uint8_t *)from + bytes, room->size - before - bytes))
        fail("something else was written");
    memset(from, FILL, bytes);
}

/* ---- the three calls, with all that is held of a single one */

static uint8_t listing[BORROWS_LISTING_BYTES], again[BORROWS_LISTING_BYTES];

static void *put_sheet(unsigned places)
{
    void *sheet = piece(&sheets, length, places);
    memcpy(sheet, input, length);
    return sheet;
}

/* Whether the sheet's last line is a word of one digit. */
static int last_line(char word)
{
    return length > 2 && input[length - 3] == '\n' && input[length - 2] == word && input[length - 1] == '\n';
}

static void told(size_t status)
{
    if (!named(status))
        fail("a status that has no name");
    if (status == BORROWS_OK && !last_line('0'))
        fail("accepted, and `force` is not 0");
    if (status == BORROWS_RETIRED && !last_line('1'))
        fail("refused by 13, and `force` is not 1");
}

/* What a call left of a text of at most so many bytes, into `to`; how many there are into `count`. */
static void take_text(size_t status, uint8_t *out, size_t bytes, size_t *written, size_t words, uint8_t *to,
                      size_t *count)
{
    if (status == 0 && words == 0)
        fail("accepted without a word for the length");
    *count = status ? 0 : written[0];
    if (*count > bytes)
        fail("more bytes than there is room");
    if (memchr(out, FILL, *count))
        fail("a byte of the text is not written");
    memcpy(to, out, *count);
    only_written(&outs, out, *count);
    only_written(&writtens, written, status ? 0 : sizeof *written);
}

/* The listing into `to`, with so much room; how many bytes it has into `count`. */
static size_t ask_listing(size_t bytes, size_t words, uint8_t *to, size_t *count)
{
    unsigned places = draw() >> 40;
    uint8_t *sheet = put_sheet(places), *out = piece(&outs, bytes, places >> 1);
    size_t *written = piece(&writtens, words * sizeof *written, places >> 2);
    uint64_t start = now();
    size_t status = borrows_listing(sheet, length, out, bytes, written, words);
    called(start);
    if (memcmp(sheet, input, length))
        fail("the sheet was written");
    told(status);
    take_text(status, out, bytes, written, words, to, count);
    return status;
}

struct answer {
    size_t counts[3]; /* used lifetimes, params, edges */
    size_t used[BORROWS_USED], answers[BORROWS_ANSWERS], edges[BORROWS_EDGE_WORDS];
};

static struct answer whole, exact;

static void take(const struct room *room, size_t *from, size_t *to, size_t words)
{
    for (size_t k = 0; k < words; k++)
        if (from[k] == SIZE_MAX / 0xff * FILL)
            fail("a word of the answer is not written");
    memcpy(to, from, words * sizeof *from);
    only_written(room, from, words * sizeof *from);
}

static size_t ask_sheet(size_t used_len, size_t answers_len, size_t edges_len, size_t counts_len, struct answer *to)
{
    unsigned places = draw() >> 40;
    uint8_t *sheet = put_sheet(places);
    size_t *used = piece(&useds, used_len * sizeof *used, places >> 1), *answers = piece(&answerss, answers_len * sizeof *answers, places >> 2);
    size_t *edges = piece(&edgess, edges_len * sizeof *edges, places >> 3), *counts = piece(&countss, counts_len * sizeof *counts, places >> 4);
    uint64_t start = now();
    size_t status = borrows_sheet(sheet, length, used, used_len, answers, answers_len, edges, edges_len, counts, counts_len);
    called(start);
    sheet_calls++;
    if (memcmp(sheet, input, length))
        fail("the sheet was written");
    told(status);
    if (status == 0
        && (counts_len < 3 || counts[0] > used_len || counts[1] > answers_len
            || counts[2] > edges_len / BORROWS_WORDS_PER_EDGE))
        fail("more words than there is room");
    memset(to->counts, 0, sizeof to->counts);
    take(&countss, counts, to->counts, status ? 0 : 3);
    take(&useds, used, to->used, to->counts[0]);
    take(&answerss, answers, to->answers, to->counts[1]);
    take(&edgess, edges, to->edges, BORROWS_WORDS_PER_EDGE * to->counts[2]);
    return status;
}

/* The text of the records into `to`, with so much room; how many bytes it has into `count`. */
static size_t ask_write(size_t bytes, size_t counted, uint8_t *to, size_t *count)
{
    unsigned places = draw() >> 40;
    const struct room *room = records.words_len <= FEW ? &few_words : &many_words;
    size_t words_bytes = records.words_len * sizeof(size_t), ends_bytes = records.ends_len * sizeof(size_t);
    size_t *words = piece(room, words_bytes, places), *ends = piece(&endss, ends_bytes, places >> 1);
    uint8_t *out = piece(&outs, bytes, places >> 2);
    size_t *written = piece(&writtens, counted * sizeof *written, places >> 3);
    memcpy(words, records.words, words_bytes);
    memcpy(ends, records.ends, ends_bytes);
    uint64_t start = now();
    size_t status =
        borrows_write_sheet(words, records.words_len, ends, records.ends_len, out, bytes, written, counted);
    called(start);
    write_calls++;
    if (memcmp(words, records.words, words_bytes) || memcmp(ends, records.ends, ends_bytes))
        fail("words or ends were written");
    only_written(room, words, words_bytes);
    only_written(&endss, ends, ends_bytes);
    if (status != BORROWS_OK && status != BORROWS_MALFORMED && status != BORROWS_NO_ROOM
        && status != BORROWS_UNREADABLE && status != BORROWS_RETIRED)
        fail("a status that writing does not have");
    take_text(status, out, bytes, written, counted, to, count);
    return status;
}

/* ---- what is held of a sheet */

static uint8_t *put_number(uint8_t *at, size_t number, char behind)
{
    uint8_t digits[20];
    int n = 0;
    do
        digits[n++] = '0' + number % 10;
    while (number /= 10);
    while (n)
        *at++ = digits[--n];
    *at++ = behind;
    return at;
}

/* The last two sections of a listing, of what borrows_sheet gave, are what the listing ends with. */
static void same_ending(const struct answer *answer, size_t n)
{
    static const char *const headings[] = {"param answer\n", "used param kind def option\n"};
    uint8_t *at = again;
    memcpy(at, headings[0], strlen(headings[0]));
    at += strlen(headings[0]);
    for (size_t k = 0; k < answer->counts[1]; k++)
        at = put_number(put_number(at, k, ' '), answer->answers[k], '\n');
    memcpy(at, headings[1], strlen(headings[1]));
    at += strlen(headings[1]);
    for (size_t k = 0; k < BORROWS_WORDS_PER_EDGE * answer->counts[2]; k++)
        at = put_number(at, answer->edges[k], (k + 1) % BORROWS_WORDS_PER_EDGE ? ' ' : '\n');
    size_t ending = at - again, values[4];
    if (ending > n || memcmp(listing + n - ending, again, ending))
        fail("borrows_sheet gives other answers or edges than the listing");
    if (sscanf((char *)listing, "lifetimes used params edges\n%zu %zu %zu %zu\n", values, values + 1, values + 2, values + 3) != 4 || memcmp(values + 1, answer->counts, sizeof answer->counts))
        fail("borrows_sheet gives other numbers than the listing");
    for (size_t k = 0; k < answer->counts[0]; k++)
        if (answer->used[k] >= values[0] || (k && answer->used[k] <= answer->used[k - 1]))
            fail("used lifetimes that are not ascending, or past the count");
}

static void hold_sheet(size_t status, size_t n)
{
    size_t found = ask_sheet(BORROWS_USED, BORROWS_ANSWERS, BORROWS_EDGE_WORDS, BORROWS_COUNTS + below(3), &whole);
    if (found != (status == 9 ? 0 : status))
        fail("borrows_sheet refuses otherwise than borrows_listing");
    if (found) {
        if (ask_sheet(below(4), below(4), below(20), below(5), &exact) != found)
            fail("another refusal with less room");
        return;
    }
    if (whole.counts[2] > most_edges)
        most_edges = whole.counts[2];
    if ((whole.counts[2] > 4096) != (status == 9))
        fail("9 for a listing, and not more than 4,096 edges, or the other way round");
    if (status == 9)
        many_edges++;
    else
        same_ending(&whole, n);
    size_t need[4] = {whole.counts[0], whole.counts[1], BORROWS_WORDS_PER_EDGE * whole.counts[2], 3};
    if (ask_sheet(need[0], need[1], need[2], need[3], &exact) || memcmp(whole.counts, exact.counts, sizeof exact.counts) || memcmp(whole.used, exact.used, need[0] * sizeof(size_t))
        || memcmp(whole.answers, exact.answers, need[1] * sizeof(size_t)) || memcmp(whole.edges, exact.edges, need[2] * sizeof(size_t)))
        fail("with exact room borrows_sheet gives something else");
    size_t shorter = below(4);
    if (need[shorter] == 0)
        shorter = 3;
    need[shorter]--;
    if (ask_sheet(need[0], need[1], need[2], need[3], &exact) != 9)
        fail("a word less, and no 9");
}

/* How many different ones there were, at least: a table of bits by a hash of the bytes. */
enum { TABLE = 1 << 26 };
static uint8_t *inputs_seen, *listings_seen;

static int unseen(uint8_t *table, const uint8_t *bytes, size_t n)
{
    uint64_t hash = 0xcbf29ce484222325;
    for (size_t k = 0; k < n; k++)
        hash = (hash ^ bytes[k]) * 0x100000001b3;
    hash ^= hash >> 32;
    uint8_t *at = table + (hash >> 3) % TABLE, bit = 1 << (hash & 7);
    int new = !(*at & bit);
    *at |= bit;
    return new;
}

/* How the listing of the sheet was refused, or 0. */
static size_t sheet_status;

/* What has to hold of the sheet. Answers 0 for a refused one, 1 for an accepted one, 2 for an accepted one with numbers in its listing's second line that none had before. */
static int hold(void)
{
    static uint8_t numbers_seen[1 << 16];
    size_t n, same;
    size_t status = ask_listing(BORROWS_LISTING_BYTES, 1 + below(2), listing, &n);
    by_status[status]++;
    sheet_status = status;
    if (status) {
        if (ask_listing(below(3) ? below(300) : 0, below(2), again, &same) != status)
            fail("another refusal with less room");
    } else {
        listed_bytes += n;
        if (n > largest_listing)
            largest_listing = n;
        if (ask_listing(n, 1, again, &same) || same != n || memcmp(listing, again, n))
            fail("with exact room the listing is another");
        if (ask_listing(n - 1, 1, again, &same) != 9)
            fail("a byte less, and no 9");
        if (runs % 8 == 0 && ask_listing(BORROWS_LISTING_BYTES, 0, again, &same) != 9)
            fail("no word for the length, and no 9");
        accepted_inputs += unseen(inputs_seen, input, length);
        accepted_listings += unseen(listings_seen, listing, n);
    }
    if (runs % 4 == 0)
        hold_sheet(status, n);
    if (status)
        return 0;
    size_t v[4] = {0};
    sscanf((char *)listing, "lifetimes used params edges\n%zu %zu %zu %zu\n", v, v + 1, v + 2, v + 3);
    size_t scale = 0;
    while (v[3] >> scale)
        scale++;
    uint8_t *seen = numbers_seen + ((v[0] * 131 + v[1] * 31 + v[2]) * 17 + scale) % sizeof numbers_seen;
    int new = !*seen;
    *seen = 1;
    return 1 + new;
}

/* ---- sheets to draw from */

static struct {
    uint8_t *bytes;
    size_t length;
} kept[KEPT];
static size_t kept_count, seed_count, accepted_ones[KEPT], accepted_count;

static void keep(const uint8_t *bytes, size_t n)
{
    uint8_t *copy = kept_count < KEPT ? malloc(n + 1) : NULL;
    if (!copy) {
        fprintf(stderr, "no memory for more sheets\n");
        exit(2);
    }
    memcpy(copy, bytes, n);
    kept[kept_count].bytes = copy;
    kept[kept_count++].length = n;
}

static void read_seeds(const char *path)
{
    static uint8_t bytes[1 << 17];
    size_t n;
    FILE *file = fopen(path, "r");
    if (!file) {
        perror(path);
        exit(2);
    }
    while (fscanf(file, "%zu", &n) == 1 && fgetc(file) == '\n' && n <= sizeof bytes && fread(bytes, 1, n, file) == n)
        keep(bytes, n < LONGEST ? n : LONGEST);
    fclose(file);
    seed_count = kept_count;
    if (!seed_count) {
        fprintf(stderr, "%s: no sheets\n", path);
        exit(2);
    }
}

/* ---- changes */

/* Put n bytes in place of `old` bytes at a place, as far as there is room. */
static void replace(size_t at, size_t old, const void *bytes, size_t n)
{
    if (length - old + n > LONGEST)
        return;
    memmove(input + at + n, input + at + old, length - at - old);
    memcpy(input + at, bytes, n);
    length += n - old;
}

static int is_digit(uint8_t byte) { return byte >= '0' && byte <= '9'; }

/* A word near a random place: where it begins; its length is 0 where there is none. Words of the heading are not taken. */
static size_t word(size_t *n)
{
    size_t at = below(length), end;
    while (at < length && !is_digit(input[at]))
        at++;
    while (at > 0 && is_digit(input[at - 1]))
        at--;
    for (end = at; end < length && is_digit(input[end]); end++)
        ;
    *n = end - at;
    return at;
}

/* Where line k begins, and its length without LF. */
static size_t line_of(const uint8_t *bytes, size_t all, size_t k, size_t *n)
{
    size_t at = 0;
    while (k && at < all)
        k -= bytes[at++] == '\n';
    const uint8_t *end = memchr(bytes + at, '\n', all - at);
    *n = end ? (size_t)(end - bytes) - at : all - at;
    return at;
}

static size_t number(void)
{
    static const uint32_t edges[] = {0, 1, 2, 3, 4, 5, 7, 8, 9, 10, 15, 16, 17, 31, 32, 33, 34, 63, 64, 65, 66, 127, 128, 255, 256, 257, 1023, 1024, 1025, 32767, 32768, 65534, 65535, 65536, 99999, 100000};
    switch (below(4)) {
    case 0:
        return edges[below(sizeof edges / sizeof *edges)];
    case 1:
        return below(70000);
    default:
        return below(6);
    }
}

static void change_bytes(void)
{
    static const char likely[] = " \n0123456789 \n\r\t\0-+,abn";
    uint8_t byte = below(3) ? (uint8_t)likely[below(sizeof likely - 1)] : (uint8_t)draw();
    size_t at = below(length + 1), n = 1 + below(below(4) ? 4 : 200);
    if (n > length - at)
        n = length - at;
    switch (below(6)) {
    case 0:
        if (at < length)
            input[at] ^= 1 << below(8);
        break;
    case 1:
        if (at < length)
            input[at] = byte;
        break;
    case 2:
        replace(at, 0, &byte, 1);
        break;
    case 3:
        replace(at, n, "", 0);
        break;
    case 4: { /* a span again, at another place */
        static uint8_t span[256];
        memcpy(span, input + at, n);
        replace(below(length + 1), 0, span, n);
        break;
    }
    case 5: /* cut off */
        length = below(8) ? length - below(length < 6 ? length + 1 : 6) : at;
        break;
    }
}

static void change_word(void)
{
    char text[32];
    size_t n, at = word(&n);
    size_t value = 0;
    for (size_t k = 0; k < n && k < 6; k++)
        value = 10 * value + input[at + k] - '0';
    switch (below(7)) {
    case 0:
        value++;
        break;
    case 1:
        value -= value > 0;
        break;
    case 2: { /* a word of elsewhere */
        size_t m, from = word(&m);
        value = 0;
        for (size_t k = 0; k < m && k < 6; k++)
            value = 10 * value + input[from + k] - '0';
        break;
    }
    case 3: /* left out, with the blank beside it */
        if (at + n < length && input[at + n] == ' ')
            n++;
        else if (at && input[at - 1] == ' ')
            at--, n++;
        replace(at, n, "", 0);
        return;
    case 4: /* one more in front */
        replace(at, 0, text, snprintf(text, sizeof text, "%zu ", number()));
        return;
    default:
        value = number();
    }
    replace(at, n, text, snprintf(text, sizeof text, "%zu", value));
}

/* Some words of a line, many times over: this is how limits are reached. */
static void repeat_words(void)
{
    static uint8_t span[260];
    size_t n, at = word(&n), end = at, words = 1 + below(5);
    while (words-- && end < length && input[end] != '\n' && end - at < 200) {
        while (end < length && is_digit(input[end]))
            end++;
        if (end < length && input[end] == ' ')
            end++;
    }
    n = end - at;
    if (!n || n > 250)
        return;
    memcpy(span, input + at, n);
    if (span[n - 1] != ' ')
        span[n++] = ' ';
    for (size_t times = 1 + below(below(3) ? 6 : below(3) ? 40 : 1100); times; times--)
        replace(at, 0, span, n);
}

static void change_record(void)
{
    size_t other = below(kept_count), k = 1 + below(RECORDS), n, m;
    size_t at = line_of(input, length, k, &n), from = line_of(kept[other].bytes, kept[other].length, k, &m);
    const uint8_t *bytes = kept[other].bytes + from;
    switch (below(6)) {
    case 0:
        replace(at, n, "", 0);
        break;
    case 1: /* the other's words behind */
        if (n && m)
            replace(at + n, 0, " ", 1), n++;
        replace(at + n, 0, bytes, m);
        break;
    case 2: { /* another record's words */
        static uint8_t line[LONGEST];
        size_t l, place = line_of(input, length, 1 + below(RECORDS), &l);
        memcpy(line, input + place, l);
        replace(at, n, line, l);
        break;
    }
    default:
        replace(at, n, bytes, m);
    }
}

/* The front of this sheet and the end of another, cut at the same line or anywhere. */
static void splice(void)
{
    size_t other = below(kept_count), n, k = 1 + below(RECORDS);
    size_t at = below(length + 1), from = below(kept[other].length + 1);
    if (below(4)) {
        at = line_of(input, length, k, &n);
        from = line_of(kept[other].bytes, kept[other].length, k, &n);
    }
    replace(at, length - at, kept[other].bytes + from, kept[other].length - from);
}

/* Near the most bytes that a sheet may have: one record of many words, or anything behind. */
static void grow(void)
{
    size_t want = BORROWS_SHEET_BYTES - 2 + below(5), n, at = line_of(input, length, 1 + below(RECORDS), &n);
    unsigned inside = below(2);
    while (length < want)
        replace(inside ? at : length, 0, inside && want - length > 1 ? "0 " : "0", inside && want - length > 1 ? 2 : 1);
}

static void change(void)
{
    size_t times = 1;
    while (below(3) == 0)
        times++;
    while (times--)
        switch (below(20)) {
        case 0:
            change_bytes();
            break;
        case 1:
            repeat_words();
            break;
        case 2:
        case 3:
        case 4:
        case 5:
        case 6:
            change_record();
            break;
        case 7:
            splice();
            break;
        case 8:
            if (below(100) == 0)
                grow();
            else
                change_bytes();
            break;
        default:
            change_word();
        }
}

/* ---- the records of a sheet, taken apart and changed */

static const char heading[] = "names bounds types self steps returns structs params output force\n";

/* A number without zeros in front, from a place on, which is then behind it. Whether there is one. */
static int read_number(size_t *at, size_t *value)
{
    size_t from = *at;
    for (*value = 0; *at < length && is_digit(input[*at]); ++*at) {
        size_t digit = input[*at] - '0';
        if (*value > (SIZE_MAX - digit) / 10)
            return 0;
        *value = 10 * *value + digit;
    }
    return *at == from + 1 || (*at > from && input[from] != '0');
}

/* The words of a line, behind those that are there already. Whether they are numbers with a blank between. */
static int read_line(size_t *at)
{
    if (*at < length && input[*at] == '\n') {
        ++*at;
        return 1;
    }
    uint8_t behind;
    do {
        if (!read_number(at, records.words + records.words_len) || *at == length)
            return 0;
        records.words_len++;
        behind = input[(*at)++];
    } while (behind == ' ');
    return behind == '\n';
}

/* The records of the sheet. Whether it is the first line and then ten lines of numbers, whatever these are. */
static int take_apart(void)
{
    size_t at = HEADING;
    if (length < at || memcmp(input, heading, at))
        return 0;
    records.words_len = 0;
    for (records.ends_len = 0; records.ends_len < RECORDS; records.ends[records.ends_len++] = records.words_len)
        if (!read_line(&at))
            return 0;
    return at == length;
}

/* The records' text in place of the sheet. They have at most 1,024 words of at most five digits each. */
static void spell(void)
{
    uint8_t *at = input + HEADING;
    memcpy(input, heading, HEADING);
    for (size_t k = 0, w = 0; k < RECORDS; k++) {
        if (w == records.ends[k])
            *at++ = '\n';
        for (; w < records.ends[k]; w++)
            at = put_number(at, records.words[w], w + 1 < records.ends[k] ? ' ' : '\n');
    }
    length = at - input;
}

/* So many times a word into a record, at a place among all words; the ends from there on move along. */
static void add_words(size_t record, size_t at, size_t word, size_t times)
{
    size_t *place = records.words + at;
    if (times > MANY - records.words_len)
        return;
    memmove(place + times, place, (records.words_len - at) * sizeof *place);
    for (size_t k = 0; k < times; k++)
        place[k] = word;
    records.words_len += times;
    for (; record < RECORDS; record++)
        records.ends[record] += times;
}

/* A word that no record may have: one that would be small in 16 or 32 bits, or the largest that there are. */
static size_t large_word(void)
{
    return below(3) ? ((size_t)1 << (16 + below(48))) + below(10) : SIZE_MAX - below(3);
}

static void change_a_record(void)
{
    size_t record = below(RECORDS), from = record ? records.ends[record - 1] : 0, to = records.ends[record];
    size_t at = from + below(to - from + 1), many;
    switch (below(8)) {
    case 0: /* a word that is too large, for another or beside it */
        if (at < to && below(2))
            records.words[at] = large_word();
        else
            add_words(record, at, large_word(), 1);
        break;
    case 1: /* `force`, where it is there */
        if (records.ends[RECORDS - 2] < records.ends[RECORDS - 1])
            records.words[records.ends[RECORDS - 2]] = below(3);
        break;
    case 2: /* about as many words as a record may have, or so many that no sheet could have them */
        many = below(8) ? RECORD_WORDS - 1 + below(4) : BORROWS_SHEET_BYTES / 2 + below(3);
        if (to - from < many)
            add_words(record, at, at < to ? records.words[at] : 0, many - (to - from));
        if (below(4) == 0 && from < records.ends[record]) /* the last of them too large */
            records.words[records.ends[record] - 1] = large_word();
        break;
    case 3: /* a word left out */
        if (at < to) {
            memmove(records.words + at, records.words + at + 1, (records.words_len - at - 1) * sizeof(size_t));
            records.words_len--;
            for (; record < RECORDS; record++)
                records.ends[record]--;
        }
        break;
    case 4:
        add_words(record, at, number(), 1);
        break;
    default:
        if (at < to)
            records.words[at] = number();
    }
}

/* Ends that are too few or too many, or one of them another: often those of no ten records, else of other ones. */
static void change_ends(void)
{
    size_t k = below(RECORDS), n = records.words_len;
    size_t anything[] = {0, n, n + 1, below(n + 1), SIZE_MAX, SIZE_MAX - n, (size_t)1 << 32};
    switch (below(5)) {
    case 0:
        records.ends_len = below(RECORDS);
        break;
    case 1:
        while (records.ends_len < ENDS && (records.ends_len == RECORDS || below(2)))
            records.ends[records.ends_len++] = n;
        break;
    case 2:
        records.ends[k] = anything[below(sizeof anything / sizeof *anything)];
        break;
    case 3:
        records.ends[k]++;
        break;
    case 4:
        records.ends[k]--;
        break;
    }
}

static void change_records(void)
{
    do
        change_a_record();
    while (below(3) == 0);
    if (below(4) == 0)
        for (size_t times = 1 + below(4); times && records.words_len < MANY; times--) /* behind the last end */
            records.words[records.words_len++] = below(2) ? large_word() : number();
    if (below(4) == 0)
        change_ends();
}

/* ---- what is held of records */

static int good_ends(void)
{
    size_t before = 0;
    for (size_t k = 0; k < records.ends_len; k++) {
        if (records.ends[k] < before)
            return 0;
        before = records.ends[k];
    }
    return records.ends_len == RECORDS && before <= records.words_len;
}

/* How the records are to be refused whatever the room, or 0. Where they have a text, that is then in place of the
   sheet, and how its listing is refused, or 0, goes to `read`, which is otherwise left alone. */
static size_t refusal_due(size_t *read)
{
    size_t n;
    if (!good_ends()) {
        bad_ends++;
        return BORROWS_MALFORMED;
    }
    for (size_t w = 0; w < records.ends[RECORDS - 1]; w++)
        if (records.words[w] > LARGEST_WORD)
            return BORROWS_UNREADABLE;
    for (size_t k = 0; k < RECORDS; k++)
        if (records.ends[k] - (k ? records.ends[k - 1] : 0) > RECORD_WORDS)
            return BORROWS_MALFORMED;
    spell();
    *read = ask_listing(BORROWS_LISTING_BYTES, 1, again, &n);
    if (*read == BORROWS_UNREADABLE)
        fail("a sheet of words up to 65535 in records up to 1,024 words is refused by 10");
    return *read == BORROWS_MALFORMED || *read == BORROWS_RETIRED ? *read : BORROWS_OK;
}

static void written_as_spelt(size_t room, size_t counted)
{
    size_t n;
    if (ask_write(room, counted, again, &n) || n != length || memcmp(again, input, n))
        fail("records are not written as their text");
}

/* What has to hold of the sheet's records, or of changed ones. The sheet is another afterwards. */
static void hold_records(void)
{
    static uint8_t before[LONGEST];
    size_t n = length, unread = SIZE_MAX, read = unread, none;
    if (!take_apart())
        return;
    memcpy(before, input, n);
    int changed = below(2);
    if (changed)
        change_records();
    writing = 1;
    records_held++;
    records_changed += changed;
    size_t status = refusal_due(&read);
    if (!changed && read != unread && (read != sheet_status || length != n || memcmp(before, input, n)))
        fail("the text of a sheet's records is another than the sheet, or its listing is");
    records_by_status[status]++;
    if (status) {
        if (ask_write(BORROWS_WRITTEN_BYTES, 1, again, &none) != status)
            fail("records are refused otherwise than they are to be");
        if (ask_write(below(3) ? below(300) : 0, below(2), again, &none) != status)
            fail("another refusal of records with less room");
    } else {
        if (length > largest_text)
            largest_text = length;
        written_as_spelt(BORROWS_WRITTEN_BYTES + below(2), 1 + below(2));
        written_as_spelt(length, 1);
        written_as_spelt(length + below(BORROWS_WRITTEN_BYTES - length), 1);
        if (ask_write(length - 1, 1, again, &none) != BORROWS_NO_ROOM)
            fail("a byte less for records, and no 9");
        if (ask_write(below(2) ? BORROWS_WRITTEN_BYTES : length, 0, again, &none) != BORROWS_NO_ROOM)
            fail("no word for the length of a text, and no 9");
    }
    writing = 0;
}

/* ---- the run */

static uint64_t seconds, begun;

static void *run(void *stack)
{
    static uint8_t signals[65536];
    stack_t other = {.ss_sp = signals, .ss_size = sizeof signals};
    sigaltstack(&other, NULL);
    stack_left = (uint8_t *)__builtin_frame_address(0) - (uint8_t *)stack;
    for (; !stopped && (runs % 64 || now() - begun < seconds * 1000000000); runs++) {
        /* Each seed once as it is; then changed ones, most of them from accepted ones. */
        size_t from = runs < seed_count ? runs : accepted_count && below(8) ? accepted_ones[below(accepted_count)] : below(kept_count);
        length = kept[from].length;
        memcpy(input, kept[from].bytes, length);
        if (runs >= seed_count)
            change();
        int found = hold();
        if (runs < seed_count && found)
            accepted_ones[accepted_count++] = from;
        else if (runs >= seed_count && found == 2 && length <= KEPT_BYTES && kept_count < KEPT) {
            accepted_ones[accepted_count++] = kept_count;
            keep(input, length);
        }
        if (runs < seed_count || runs % 4 == 2)
            hold_records();
    }
    return NULL;
}

int main(int argc, char **argv)
{
    if (argc != 5) {
        fprintf(stderr, "fuzz SEEDS SECONDS SEED REPORT\n");
        return 2;
    }
    seconds = strtoull(argv[2], NULL, 10);
    state = strtoull(argv[3], NULL, 10);
    report = argv[4];
    read_seeds(argv[1]);
    sheets = room_of(LONGEST);
    outs = room_of(BORROWS_LISTING_BYTES);
    writtens = room_of(PAGE);
    useds = room_of(BORROWS_USED * sizeof(size_t));
    answerss = room_of(BORROWS_ANSWERS * sizeof(size_t));
    edgess = room_of(BORROWS_EDGE_WORDS * sizeof(size_t));
    countss = room_of(PAGE);
    few_words = room_of(FEW * sizeof(size_t));
    many_words = room_of(MANY * sizeof(size_t));
    endss = room_of(ENDS * sizeof(size_t));
    inputs_seen = calloc(TABLE, 1);
    listings_seen = calloc(TABLE, 1);
    struct room stack = room_of(BORROWS_STACK + OWN_STACK);

    struct sigaction action = {.sa_handler = on_fault, .sa_flags = SA_ONSTACK};
    int faults[] = {SIGSEGV, SIGBUS, SIGILL, SIGFPE, SIGABRT};
    for (size_t k = 0; k < sizeof faults / sizeof *faults; k++)
        sigaction(faults[k], &action, NULL);
    action = (struct sigaction){.sa_handler = on_tick, .sa_flags = SA_RESTART | SA_ONSTACK};
    sigaction(SIGALRM, &action, NULL);
    action.sa_handler = on_stop;
    sigaction(SIGINT, &action, NULL);
    sigaction(SIGTERM, &action, NULL);
    struct itimerval second = {{1, 0}, {1, 0}};
    setitimer(ITIMER_REAL, &second, NULL);

    begun = now();
    pthread_attr_t attributes;
    pthread_t thread;
    pthread_attr_init(&attributes);
    if (pthread_attr_setstack(&attributes, stack.base, stack.size) || pthread_create(&thread, &attributes, run, stack.base)) {
        fprintf(stderr, "no thread\n");
        return 2;
    }
    pthread_join(thread, NULL);
    stopped = 1;

    size_t untouched = 0;
    while (untouched < stack.size && stack.base[untouched] == FILL)
        untouched++;
    printf("%llu seconds, seed %s, %zu sheets to begin with, %zu drawn from at the end\n", (unsigned long long)((now() - begun) / 1000000000), argv[3], seed_count, kept_count);
    printf("%14llu sheets\n%14llu calls, %llu of them of borrows_sheet, %llu of borrows_write_sheet\n",
           (unsigned long long)runs, (unsigned long long)calls, (unsigned long long)sheet_calls,
           (unsigned long long)write_calls);
    printf("%14llu accepted\n", (unsigned long long)by_status[0]);
    for (int k = 1; k <= BORROWS_RETIRED; k++)
        if (named(k))
            printf("%14llu refused by %d\n", (unsigned long long)by_status[k], k);
    printf("%14llu different sheets accepted, at least\n%14llu different listings, at least\n", (unsigned long long)accepted_inputs, (unsigned long long)accepted_listings);
    printf("%14llu bytes listed, %zu in the longest listing\n", (unsigned long long)listed_bytes, largest_listing);
    printf("%14zu edges at most; %llu sheets with more than 4,096 were given by borrows_sheet\n", most_edges, (unsigned long long)many_edges);
    printf("%14llu times ten records, %llu of them changed\n%14llu written, %zu bytes in the longest text\n",
           (unsigned long long)records_held, (unsigned long long)records_changed,
           (unsigned long long)records_by_status[0], largest_text);
    printf("%14llu refused by 1, %llu of them for their ends\n%14llu refused by 10\n%14llu refused by 13\n",
           (unsigned long long)records_by_status[BORROWS_MALFORMED], (unsigned long long)bad_ends,
           (unsigned long long)records_by_status[BORROWS_UNREADABLE],
           (unsigned long long)records_by_status[BORROWS_RETIRED]);
    printf("%14.1f milliseconds for the longest call\n", longest_ns / 1e6);
    printf("%14zu bytes of stack taken at most, of %zu left to the loop\n", stack_left - untouched, stack_left);
    puts("no fault, no difference");
    return 0;
}
