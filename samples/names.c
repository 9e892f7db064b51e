/* A station's own file names. Three are added, one is found, one is removed and a longer one added that takes up its
 * room; then some that the list refuses. The names' table is made, and its updates are written and handed to a
 * neighbour's station: it sends its query for "winter lake", and withholds the one for "river". Then a name is added
 * that has "river", and one more update brings the neighbour's copy to the new table.
 * samples/names.out is what this prints.
 *
 *     ./library
 *     cc -std=c11 -Wall -Wextra -Werror -Iinclude samples/names.c target/staticlib/liblunozhar.a -o target/names
 *     target/names */
#include "lunozhar.h"
#include <stdio.h>
#include <string.h>

#define ENTRIES 1024 /* the table's length */
#define FARTHEST 8   /* its Infinity */
#define DATA 4091    /* bytes of data in a PATCH: the most there can be */

static uint8_t names[LUNOZHAR_NAMES + 54]; /* all zero: an empty list, with room for 54 bytes of names */
static uint8_t sent[ENTRIES], entries[ENTRIES]; /* the table that the neighbour has, and the one of the names now */
static uint8_t updates[29 + 28 + ENTRIES];

/* Adds a name to the list, and prints the answer. */
static void add(const char *name) {
    uint8_t answer = lunozhar_name_add(names, sizeof names, (const uint8_t *)name, strlen(name));
    printf("add \"%s\": %u\n", name, answer);
}

/* Writes the messages that bring a neighbour's copy of the table, if it had one, up to the names as they are now, and
 * hands back their length. */
static size_t write_updates(bool had) {
    const lunozhar_number number = {{0xB8, had}}; /* and 14 zero bytes */
    lunozhar_name_table(names, sizeof names, ENTRIES, FARTHEST, entries, sizeof entries); /* 0 for any list in order */
    lunozhar_written written = lunozhar_write_table(number, had, sent, sizeof sent, FARTHEST, entries, sizeof entries,
                                                    FARTHEST, DATA, updates, sizeof updates);
    memcpy(sent, entries, sizeof sent);
    return written.written;
}

static void remove_name(const char *name) {
    uint8_t answer = lunozhar_name_remove(names, sizeof names, (const uint8_t *)name, strlen(name));
    printf("remove \"%s\": %u\n", name, answer);
}

static void find(const char *name) {
    lunozhar_name_found found = lunozhar_name_find(names, sizeof names, (const uint8_t *)name, strlen(name));
    printf("find \"%s\": %u, place %zu\n", name, found.answer, found.place);
}

/* A number in the area, 4 bytes, little-endian. */
static size_t number_at(size_t at) {
    return names[at] | (size_t)names[at + 1] << 8 | (size_t)names[at + 2] << 16 | (size_t)names[at + 3] << 24;
}

static void print_names(void) {
    for (size_t place = 0; place < number_at(0); place++) {
        size_t offset = number_at(4 + 8 * place), length = number_at(8 + 8 * place);
        printf("  %zu: \"%.*s\"\n", place, (int)length, (const char *)names + offset);
    }
}

static lunozhar_station neighbour;
static uint8_t route[8 * ENTRIES];
static uint8_t out[LUNOZHAR_OUTPUT];

/* Hands the updates to the neighbour by its line 0, and prints what became of its copy. */
static void arrive(size_t len) {
    const lunozhar_own own = {.port = 6346, .address = {127, 0, 0, 1}, .calls = true};
    printf("updates of %zu bytes:", len);
    for (size_t at = 0; at < len;) {
        lunozhar_told told = lunozhar_message(&neighbour, 0, 1000, own, updates + at, len - at, out, sizeof out,
                                              route, sizeof route);
        printf(" %u", told.answer);
        if (told.used == 0) {
            break;
        }
        at += told.used;
    }
    size_t ones = 0;
    for (size_t place = 0; place < ENTRIES; place++) {
        ones += route[place] == 1;
    }
    printf(", the neighbour's copy is %s, %zu entries of it are 1\n",
           memcmp(route, entries, sizeof entries) == 0 ? "the same" : "another", ones);
}

/* The neighbour asks a query, with a number of 16 equal bytes: is it sent to the station of these names? */
static void ask(uint8_t byte, const char *text) {
    lunozhar_number number;
    memset(number.bytes, byte, sizeof number.bytes);
    lunozhar_told told = lunozhar_ask(&neighbour, number, (const uint8_t *)text, strlen(text), out, sizeof out, route,
                                      sizeof route);
    printf("the neighbour asks for \"%s\": %u, sent: %d\n", text, told.answer, told.to[0]);
}

int main(void) {
    add("mountain lake.jpg");
    add("river boat.jpg");
    add("lake in winter.jpg");
    find("lake in winter.jpg");
    remove_name("river boat.jpg");
    find("lake in winter.jpg");
    add("Winter Lake summit"); /* 18 bytes, and 5 are free at the end: the gap of the removed name is closed */
    add("mountain lake.jpg");  /* LUNOZHAR_REPEATED */
    add("");                   /* LUNOZHAR_BAD_PAYLOAD */
    add("a2");                 /* LUNOZHAR_LIST_FULL */
    find("Mountain Lake.jpg"); /* LUNOZHAR_NOT_FOUND: the case of letters counts */
    print_names();

    printf("the neighbour is made: %u\n", lunozhar_fresh(&neighbour, sizeof route));
    printf("its line opens: %u\n", lunozhar_open(&neighbour, 0));
    arrive(write_updates(false));
    ask(1, "winter lake");
    ask(2, "river");

    remove_name("mountain lake.jpg");
    add("river bank.jpg");
    arrive(write_updates(true));
    ask(3, "River");
    ask(4, "lake");
    ask(5, "mountain");
    ask(6, "JPG/bank"); /* every byte but digits and letters parts keywords */
    ask(7, "---");      /* no keyword: no table keeps it back */
    return 0;
}
