/* A station whose lines bring scraps of seven bytes. Line 0 asks for "mountain lake" while line 1 sends a table of
 * four entries, a RESET and a PATCH; their scraps come by turns. Then line 0 brings a header with a payload of 4,097
 * bytes: that is answered 5, and the line is shut (19) until it is closed and opened; then its ping is answered.
 * samples/scraps.out is what this prints.
 *
 *     ./library
 *     cc -std=c11 -Wall -Wextra -Werror -Iinclude samples/scraps.c target/staticlib/liblunozhar.a -o target/scraps
 *     target/scraps */
#include "lunozhar.h"
#include <stdio.h>
#include <string.h>

#define PING 0x00
#define QUERY 0x80
#define SCRAP 7

static lunozhar_station station;
static lunozhar_tally tally;
static uint8_t route[8 * 1024]; /* room for eight tables of 1,024 entries */
static uint8_t out[LUNOZHAR_OUTPUT];
static uint8_t held[LUNOZHAR_LINES][LUNOZHAR_HELD]; /* what each line has brought of a message that is not whole */

/* Writes a header, and hands back its length. */
static size_t put_header(uint8_t *message, uint8_t type, uint8_t ttl, uint8_t hops, uint32_t len) {
    memset(message, 0xA7, 16); /* the number: bytes 0 to 15 */
    message[16] = type;
    message[17] = ttl;
    message[18] = hops;
    for (unsigned i = 0; i < 4; i++) {
        message[19 + i] = (uint8_t)(len >> (8 * i)); /* the payload's length, little-endian */
    }
    return 23;
}

/* Prints what a call with so many bytes came to. */
static void print_fed(uint32_t line, size_t len, const uint8_t *bytes, lunozhar_fed fed) {
    printf("line %u, %zu bytes: used %zu, ", line, len, fed.told.used);
    if (fed.waits) {
        printf("waits with %u held\n", station.lines[line].pending.count);
        return;
    }
    printf("answer %u", fed.told.answer);
    if (fed.told.search) {
        const uint8_t *message = fed.within ? held[line] : bytes; /* where the message stands */
        printf(", text \"%.*s\"", (int)fed.told.textlen, (const char *)message + fed.told.textat);
    }
    for (unsigned to = 0; to < LUNOZHAR_LINES; to++) {
        if (fed.told.to[to]) {
            printf(", %zu bytes to line %u", fed.told.written, to);
        }
    }
    printf("%s\n", station.lines[line].pending.shut ? ", the line is shut" : "");
}

/* Hands the station what a line has brought, and prints what each call came to. */
static void arrive(uint32_t line, uint32_t clock, const uint8_t *bytes, size_t len) {
    const lunozhar_own own = {.port = 6346, .address = {127, 0, 0, 1}, .calls = true};
    while (len > 0) {
        lunozhar_fed fed = lunozhar_feed(&station, line, clock, own, bytes, len, held[line], sizeof held[line], out,
                                         sizeof out, route, sizeof route);
        lunozhar_count(&tally, fed.told.answer); /* counts nothing where the call only waits */
        print_fed(line, len, bytes, fed); /* a program sends the first fed.told.written bytes of out */
        if (fed.told.used == 0 || fed.told.answer == LUNOZHAR_TOO_LONG) {
            return; /* 5 and 19: the line is to be closed; 1, 2 and 3: the call was made wrongly */
        }
        bytes += fed.told.used;
        len -= fed.told.used;
    }
}

/* The scrap at `at` of a line's bytes, if there is one. */
static void arrive_scrap(uint32_t line, uint32_t clock, const uint8_t *bytes, size_t len, size_t at) {
    if (at < len) {
        arrive(line, clock, bytes + at, len - at < SCRAP ? len - at : SCRAP);
    }
}

int main(void) {
    static const char payload[] = "\0\0mountain lake"; /* speed, text and its zero byte */
    uint8_t query[64], updates[64], header[23];
    size_t query_len = put_header(query, QUERY, 3, 1, sizeof payload);
    memcpy(query + query_len, payload, sizeof payload);
    query_len += sizeof payload;

    const lunozhar_number number = {{0xB8}}; /* and 15 zero bytes */
    const uint8_t none[1] = {0}, entries[4] = {1, 7, 7, 1};
    lunozhar_written table = lunozhar_write_table(number, false, none, 0, 7, entries, sizeof entries, 7, 2, updates,
                                                  sizeof updates);

    printf("made: %u\n", lunozhar_fresh(&station, sizeof route));
    printf("line 0 opens: %u\n", lunozhar_open(&station, 0));
    printf("line 1 opens: %u\n", lunozhar_open(&station, 1));
    printf("a query of %zu bytes by line 0, a RESET and a PATCH of %zu bytes by line 1\n", query_len, table.written);
    for (size_t at = 0; at < query_len || at < table.written; at += SCRAP) {
        arrive_scrap(0, 1000, query, query_len, at);
        arrive_scrap(1, 1000, updates, table.written, at);
    }
    printf("table of line 1: mark %u, %u entries\n", station.lines[1].table.mark, station.lines[1].table.length);

    printf("a header with a payload of 4097 bytes by line 0\n");
    arrive(0, 2000, header, put_header(header, QUERY, 3, 1, 4097));
    arrive(0, 2000, query, query_len);
    printf("line 0 closes: %u\n", lunozhar_close(&station, 0));
    printf("line 0 opens: %u\n", lunozhar_open(&station, 0));
    printf("a ping by line 0\n");
    arrive(0, 3000, header, put_header(header, PING, 1, 0, 0));
    printf("answered 0: %u, 5: %u, 19: %u\n", tally.counts[LUNOZHAR_DONE], tally.counts[LUNOZHAR_TOO_LONG],
           tally.counts[LUNOZHAR_SHUT]);
    return 0;
}
