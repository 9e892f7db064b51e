/* A station with two neighbours. Line 0 asks for "mountain lake"; the query goes on by line 1; the hit comes back by
 * line 1 and goes to line 0. Then line 0 closes and is given to another neighbour: the same hit, coming late, is
 * refused. Then the station asks both for "lake" itself, the hit comes once more, and both queries are looked up.
 * samples/two-lines.out is what this prints.
 *
 *     ./library
 *     cc -std=c11 -Wall -Wextra -Werror -Iinclude samples/two-lines.c target/staticlib/liblunozhar.a \
 *         -o target/two-lines
 *     target/two-lines */
#include "lunozhar.h"
#include <stdio.h>
#include <string.h>

#define QUERY 0x80
#define HIT 0x81

/* Writes a message, always with the same number, and hands back its length. */
static size_t put_message(uint8_t *message, uint8_t type, uint8_t ttl, uint8_t hops, const void *payload,
                          uint8_t len) {
    memset(message, 0xA7, 16); /* the number: bytes 0 to 15 */
    message[16] = type;
    message[17] = ttl;
    message[18] = hops;
    message[19] = len; /* the payload's length, little-endian */
    message[20] = message[21] = message[22] = 0;
    memcpy(message + 23, payload, len);
    return 23 + (size_t)len;
}

static lunozhar_station station;
static uint8_t route[8 * 1024]; /* room for eight tables of 1,024 entries */
static uint8_t out[LUNOZHAR_OUTPUT];

/* Hands the station a message that arrived, and prints what it came to. */
static void arrive(uint32_t line, uint32_t clock, const uint8_t *message, size_t len) {
    const lunozhar_own own = {.port = 6346, .address = {127, 0, 0, 1}, .calls = true};
    lunozhar_told told =
        lunozhar_message(&station, line, clock, own, message, len, out, sizeof out, route, sizeof route);
    printf("message by line %u: answer %u, used %zu, written %zu", line, told.answer, told.used, told.written);
    for (unsigned to = 0; to < LUNOZHAR_LINES; to++) {
        if (told.to[to]) {
            printf(", to line %u", to); /* a program sends the first told.written bytes of out by that line */
        }
    }
    if (told.search) {
        printf(", text \"%.*s\"", (int)told.textlen, (const char *)message + told.textat);
    }
    if (told.age.known) {
        printf(", age %zu", told.age.after); /* how many queries were remembered after the one that was looked up */
    }
    printf("\n");
}

/* Looks a query's number up, and prints who asked it and how many were remembered after it. */
static void look_up(const char *which, lunozhar_number number) {
    const lunozhar_finding found = lunozhar_look_up(&station, number);
    printf("look-up of %s: answer %u, asker %u, after %zu\n", which, found.answer, found.asker, found.after);
}

int main(void) {
    uint8_t query[64], hit[64];
    const uint8_t result[27] = {0}; /* the shortest payload of a hit */
    size_t query_len = put_message(query, QUERY, 3, 1, "\0\0mountain lake", 16); /* speed, text and its zero byte */
    size_t hit_len = put_message(hit, HIT, 4, 0, result, sizeof result);

    printf("made: %u\n", lunozhar_fresh(&station, sizeof route));
    printf("line 0 opens: %u\n", lunozhar_open(&station, 0));
    printf("line 1 opens: %u\n", lunozhar_open(&station, 1));
    arrive(0, 1000, query, query_len);
    arrive(1, 1200, hit, hit_len);
    printf("line 0 closes: %u\n", lunozhar_close(&station, 0));
    arrive(1, 1400, hit, hit_len);
    printf("line 0 opens: %u\n", lunozhar_open(&station, 0));
    arrive(1, 1600, hit, hit_len);

    const lunozhar_number number = {{0xB8}}; /* and 15 zero bytes */
    const uint8_t text[] = {'l', 'a', 'k', 'e'};
    lunozhar_told asked = lunozhar_ask(&station, number, text, sizeof text, out, sizeof out, route, sizeof route);
    printf("own query: answer %u, written %zu", asked.answer, asked.written);
    printf(", to line 0: %d, to line 1: %d\n", asked.to[0], asked.to[1]);
    arrive(1, 1800, hit, hit_len);

    const lunozhar_number other = {{0xC9}};
    lunozhar_number first;
    memcpy(first.bytes, query, sizeof first.bytes); /* a message begins with its number */
    look_up("the query of line 0", first);          /* asked by LUNOZHAR_ASKER_GONE */
    look_up("the own query", number);               /* asked by LUNOZHAR_ASKER_HERE */
    look_up("another number", other);               /* LUNOZHAR_NOT_FOUND, and LUNOZHAR_ASKER_NOBODY */
    printf("in order: %d\n", lunozhar_in_order(&station));
    return 0;
}
