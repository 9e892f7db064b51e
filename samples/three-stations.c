/* Three stations in a row: line 0 joins A and B, line 1 joins B and C. Only C has a file. C makes the table of what can
 * be reached through it for B, B makes one for A, and each table is written as updates, which arrive in scraps of seven
 * bytes. So A knows of C's file, two hops away: its query for "winter lake" goes to B, which passes it on to C, and
 * its query for "river" goes nowhere. What C told B of does not come back to C.
 * samples/three-stations.out is what this prints.
 *
 *     ./library
 *     cc -std=c11 -Wall -Wextra -Werror -Iinclude samples/three-stations.c target/staticlib/liblunozhar.a \
 *         -o target/three-stations
 *     target/three-stations */
#include "lunozhar.h"
#include <stdio.h>
#include <string.h>

#define BITS 10
#define ENTRIES (1 << BITS) /* the length of every table */
#define DATA 4091           /* bytes of data in a PATCH: the most there can be */
#define SCRAP 7

/* A station with its file names, its areas, and the station at the other end of each line. */
typedef struct node {
    const char *name;
    lunozhar_station station;
    uint8_t names[LUNOZHAR_NAMES + 100]; /* all zero: an empty list, with room for 100 bytes of names */
    uint8_t route[LUNOZHAR_LINES * ENTRIES];
    uint8_t held[LUNOZHAR_LINES][LUNOZHAR_HELD];
    uint8_t out[LUNOZHAR_OUTPUT];
    struct node *neighbours[LUNOZHAR_LINES];
} node;

static node a = {.name = "A"}, b = {.name = "B"}, c = {.name = "C"};

static void arrive(node *at, uint32_t line, const uint8_t *bytes, size_t len);

/* Makes the table for the neighbour of a line, and sends its updates by that line. */
static void tell(node *from, uint32_t line) {
    static uint8_t entries[ENTRIES], updates[29 + 28 + ENTRIES];
    const lunozhar_number number = {{0xB8}}; /* and 15 zero bytes */
    const uint8_t none[1] = {0};             /* there was no table before */
    lunozhar_made made = lunozhar_table_for(&from->station, line, from->names, sizeof from->names, ENTRIES, entries,
                                            sizeof entries, from->route, sizeof from->route);
    lunozhar_written written = lunozhar_write_table(number, false, none, 0, 0, entries, sizeof entries, made.infinity,
                                                    DATA, updates, sizeof updates);
    node *to = from->neighbours[line];
    printf("%s makes a table for %s: %u, Infinity %u\n", from->name, to->name, made.answer, made.infinity);
    arrive(to, line, updates, written.written);
}

/* Sends what a call has written by the lines that it says. */
static void send_out(node *from, lunozhar_told told) {
    for (uint32_t line = 0; line < LUNOZHAR_LINES; line++) {
        if (told.to[line]) {
            printf("%s sends it to %s\n", from->name, from->neighbours[line]->name);
            arrive(from->neighbours[line], line, from->out, told.written);
        }
    }
}

/* Hands a station what a line has brought, scrap by scrap, and prints what each message came to. */
static void arrive(node *at, uint32_t line, const uint8_t *bytes, size_t len) {
    const lunozhar_own own = {.port = 6346, .address = {127, 0, 0, 1}, .calls = true};
    while (len > 0) {
        size_t scrap = len < SCRAP ? len : SCRAP;
        lunozhar_fed fed = lunozhar_feed(&at->station, line, 1000, own, bytes, scrap, at->held[line],
                                         sizeof at->held[line], at->out, sizeof at->out, at->route, sizeof at->route);
        if (!fed.waits) {
            const uint8_t *message = fed.within ? at->held[line] : bytes; /* where the message stands */
            printf("%s takes a message: %u", at->name, fed.told.answer);
            if (fed.told.search) {
                printf(", to search for \"%.*s\"", (int)fed.told.textlen, (const char *)message + fed.told.textat);
            }
            printf("\n");
            send_out(at, fed.told);
        }
        if (fed.told.used == 0) {
            return;
        }
        bytes += fed.told.used;
        len -= fed.told.used;
    }
}

/* Asks a query, with a number of 16 equal bytes. */
static void ask(node *from, uint8_t byte, const char *text) {
    lunozhar_number number;
    memset(number.bytes, byte, sizeof number.bytes);
    lunozhar_told told = lunozhar_ask(&from->station, number, (const uint8_t *)text, strlen(text), from->out,
                                      sizeof from->out, from->route, sizeof from->route);
    printf("%s asks for \"%s\": %u, written %zu\n", from->name, text, told.answer, told.written);
    send_out(from, told);
}

/* Opens a line between two stations. */
static void join(node *one, node *two, uint32_t line) {
    printf("line %u joins %s and %s: %u %u\n", line, one->name, two->name, lunozhar_open(&one->station, line),
           lunozhar_open(&two->station, line));
    one->neighbours[line] = two;
    two->neighbours[line] = one;
}

/* Prints how far a keyword is by the table that a line has brought. */
static void print_entry(const node *at, uint32_t line, const char *keyword) {
    uint32_t place = lunozhar_place((const uint8_t *)keyword, strlen(keyword), BITS);
    printf("at %s the entry of \"%s\" is %u\n", at->name, keyword, at->route[line * ENTRIES + place]);
}

int main(void) {
    node *const all[] = {&a, &b, &c};
    for (size_t i = 0; i < 3; i++) {
        printf("%s is made: %u\n", all[i]->name, lunozhar_fresh(&all[i]->station, sizeof all[i]->route));
    }
    join(&a, &b, 0);
    join(&b, &c, 1);
    const char *name = "lake in winter.jpg";
    uint8_t added = lunozhar_name_add(c.names, sizeof c.names, (const uint8_t *)name, strlen(name));
    printf("C adds \"%s\": %u\n", name, added);

    tell(&c, 1);
    print_entry(&b, 1, "lake");
    tell(&b, 0);
    print_entry(&a, 0, "lake");
    tell(&b, 1);
    print_entry(&c, 1, "lake");

    ask(&a, 1, "winter lake");
    ask(&a, 2, "river");
    return 0;
}
