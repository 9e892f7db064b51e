/* The proved core of a Gnutella 0.6 station, for C11 and C++11 on x86-64.
 *
 * Link target/staticlib/liblunozhar.a, which `./library` proves and writes. Nothing here allocates,
 * starts a thread, keeps a pointer or has a state of its own: everything is in the structs and areas that the
 * caller lends for the length of a call.
 *
 * Every function takes any values and any bytes, and answers. What it asks of a caller is C's own: a pointer is
 * not null, even where its length is 0, and points to as much as its length or type says; a bool is 0 or 1; what
 * one call is lent to write overlaps nothing else of it.
 *
 * A refusal (an answer other than LUNOZHAR_DONE) sends to no line and changes no struct and no area, but for what is
 * said at lunozhar_fresh, lunozhar_message and lunozhar_feed. */
#ifndef LUNOZHAR_H
#define LUNOZHAR_H

#include <assert.h>
#include <stdbool.h>
#include <stddef.h>
#include <stdint.h>
#include <string.h>

#ifdef __cplusplus
extern "C" {
#endif

/* How many: lines of a station, queries it remembers, hits of one query that are passed back or delivered, pongs it
 * keeps of a line, hosts of an X-Try field, answer numbers. */
#define LUNOZHAR_LINES 8
#define LUNOZHAR_MEMORY 512
#define LUNOZHAR_HITS 200
#define LUNOZHAR_PONGS 10
#define LUNOZHAR_PAIRS 32
#define LUNOZHAR_ANSWERS 22

/* The shortest output area of a message or an own query: a header of 23 bytes and a payload of 4,096. */
#define LUNOZHAR_OUTPUT 4119

/* The shortest held area of lunozhar_feed: the longest message. */
#define LUNOZHAR_HELD 4119

/* The shortest route area. A neighbour's table has room for route_len / 8 entries; the longest that a neighbour
 * can send has 65,536. */
#define LUNOZHAR_ROUTE 32

/* The shortest area of a list of names (lunozhar_name_add): what it has more than that is room for the names' text. */
#define LUNOZHAR_NAMES 4100

/* The answers: done, or the first reason to refuse. */
enum lunozhar_answer {
    LUNOZHAR_DONE = 0,
    LUNOZHAR_NOT_IN_ORDER = 1,        /* the station's state or a list of names is not in order; the held bytes start
                                       * no message */
    LUNOZHAR_BAD_AREA = 2,            /* an area is too short, or the route area gives another room than the state's */
    LUNOZHAR_BAD_LINE = 3,            /* the line is over 7, or not open; for opening: already open */
    LUNOZHAR_NOT_WHOLE = 4,           /* the message or handshake group does not end in the bytes that are there */
    LUNOZHAR_TOO_LONG = 5,            /* the payload is over 4,096 bytes, or an own query's text over 4,093 */
    LUNOZHAR_BAD_PAYLOAD = 6,         /* the payload is wrong for its type; an own query's text, a host or a file name
                                       * is wrong */
    LUNOZHAR_UNKNOWN_TYPE = 7,        /* the message is no ping, pong, query, query hit or route update */
    LUNOZHAR_BAD_TTL_OR_HOPS = 8,     /* TTL or Hops is not allowed */
    LUNOZHAR_REPEATED = 9,            /* the query's number is remembered; the file name is in the list */
    LUNOZHAR_NOT_FOUND = 10,          /* a hit or a look-up for no remembered query; the handshake field or the file
                                       * name is absent */
    LUNOZHAR_ASKER_CLOSED = 11,       /* a hit for a query whose line has closed since */
    LUNOZHAR_HOPS_FULL = 12,          /* a hit whose Hops is 255 and would have to rise */
    LUNOZHAR_PING_TOO_SOON = 13,      /* less than 1,000 ms since the line's last accepted ping */
    LUNOZHAR_BAD_UPDATE = 14,         /* a field of a route update or an argument of the table writer is wrong; no
                                       * table has this length or Infinity */
    LUNOZHAR_OUT_OF_TURN = 15,        /* a PATCH that is not the next of its run, or does not fit the table */
    LUNOZHAR_ENTRY_OUT_OF_RANGE = 16, /* a PATCH leads an entry outside 1 to Infinity */
    LUNOZHAR_BAD_HANDSHAKE = 17,      /* the handshake group is not understood */
    LUNOZHAR_NO_GROUP_END = 18,       /* no handshake group ends in the first 4,096 bytes */
    LUNOZHAR_SHUT = 19,               /* the line brought a payload that was too long, and is to be closed */
    LUNOZHAR_LIST_FULL = 20,          /* the list has 512 names, or its text has no room for the new one */
    LUNOZHAR_ANSWERED_ENOUGH = 21     /* a hit for a query that has had LUNOZHAR_HITS hits */
};

/* What stands where the answer would be while a message is not whole (lunozhar_feed): no answer has this number, and
 * the tally does not count it. */
#define LUNOZHAR_WAITING 255

/* The mark of a route table. Only a settled table withholds queries. */
enum lunozhar_mark {
    LUNOZHAR_MARK_NONE = 0,    /* no RESET since the line opened */
    LUNOZHAR_MARK_WAITING = 1, /* RESET, and no PATCH yet */
    LUNOZHAR_MARK_RUNNING = 2, /* inside a run of PATCHes */
    LUNOZHAR_MARK_SETTLED = 3, /* a run is complete */
    LUNOZHAR_MARK_BROKEN = 4   /* an update was refused; the next RESET mends it */
};

/* The asker of a remembered query: a line, 0 to 7, or one of these. */
enum lunozhar_asker {
    LUNOZHAR_ASKER_HERE = 8,   /* this station itself */
    LUNOZHAR_ASKER_GONE = 9,   /* a line that has closed since, even if it is open again */
    LUNOZHAR_ASKER_NOBODY = 10 /* of a look-up that was refused; never in a station */
};

/* The kind of a handshake group. */
enum lunozhar_kind {
    LUNOZHAR_KIND_NONE = 0,     /* refused */
    LUNOZHAR_KIND_GREETING = 1, /* GNUTELLA CONNECT/0.6 */
    LUNOZHAR_KIND_REPLY = 2     /* GNUTELLA/0.6 200 OK, and the like */
};

/* A neighbour's route table but for its entries, which are in the route area from byte line * room on, one byte
 * each. */
typedef struct lunozhar_table {
    uint8_t mark;     /* enum lunozhar_mark */
    uint32_t length;  /* how many entries */
    uint8_t infinity; /* the entry of a keyword that is not there */
    uint8_t place;    /* the run: the place of its next PATCH, how many it has, the bits of a number, the next entry */
    uint8_t size;
    uint8_t bits;
    uint32_t at;
} lunozhar_table;

/* A stored pong: the first 14 bytes of its payload, its Hops, and the clock of the call that brought it. */
typedef struct lunozhar_pong {
    uint8_t bytes[14];
    uint8_t hops;
    uint32_t clock;
} lunozhar_pong;

/* What a line has brought of a message that is not whole (lunozhar_feed). */
typedef struct lunozhar_pending {
    uint16_t count; /* how many bytes: they stand at the front of the line's held area */
    bool shut;      /* whether nothing more is taken of the line until it is closed and opened */
} lunozhar_pending;

/* One line of a station. */
typedef struct lunozhar_line {
    bool live;         /* whether it is open */
    bool pinged;       /* whether a ping was accepted, and the clock of the last one */
    uint32_t pingtime;
    size_t pongcount;  /* the ring of stored pongs: how many are kept, and where the next goes; they stand before */
    size_t pongnext;
    lunozhar_pong pongs[LUNOZHAR_PONGS];
    lunozhar_table table;
    lunozhar_pending pending;
} lunozhar_line;

/* The eight lines of a station, as they are handed to a call. */
typedef struct lunozhar_lines {
    lunozhar_line at[LUNOZHAR_LINES];
} lunozhar_lines;

/* A station's state. Only the functions below are to write it. It has no pointer, so that it may be copied and
 * moved. */
typedef struct lunozhar_station {
    size_t room; /* entries that there is room for in each neighbour's table: the route area's length / 8 */
    lunozhar_line lines[LUNOZHAR_LINES];
    uint64_t lo[LUNOZHAR_MEMORY];   /* the ring of remembered queries: the number's bytes 0 to 7, little-endian, */
    uint64_t hi[LUNOZHAR_MEMORY];   /* bytes 8 to 15, */
    uint8_t asker[LUNOZHAR_MEMORY]; /* the asker, */
    uint8_t hits[LUNOZHAR_MEMORY];  /* and how many hits were passed back or delivered, at most LUNOZHAR_HITS */
    size_t count;                   /* how many are kept, and where the next goes; they stand before */
    size_t next;
} lunozhar_station;

/* What this station says of itself in a pong. */
typedef struct lunozhar_own {
    uint16_t port;
    uint8_t address[4]; /* IPv4, in network order */
    uint32_t files;
    uint32_t kilobytes;
    bool calls; /* whether it takes connections; if not, only a ping to it alone (TTL 1, Hops 0 or 1) gets its pong */
} lunozhar_own;

/* A message's number: bytes 0 to 15 of its header. */
typedef struct lunozhar_number {
    uint8_t bytes[16];
} lunozhar_number;

/* The age of a remembered query: how many were remembered after it. 0 is the newest's, so whether there is an age is
 * said beside it. */
typedef struct lunozhar_age {
    bool known;   /* a number was looked up, and found */
    size_t after; /* how many were remembered after it, 0 to 511; 0 where none was found */
} lunozhar_age;

/* What a message or an own query came to. */
typedef struct lunozhar_told {
    uint8_t answer;           /* enum lunozhar_answer; of lunozhar_feed also LUNOZHAR_WAITING */
    size_t used;              /* of a message: its header and payload for 0, 6 to 16 and 21, else 0; of an own query
                               * 0; of lunozhar_feed: so many of the bytes of that call */
    size_t written;           /* bytes written to the output area, to be sent to each line whose flag is set */
    bool to[LUNOZHAR_LINES];
    bool search;              /* a query is for the local search: textlen bytes of the message from textat on */
    bool delivered;           /* the message is a hit for a query of this station's own */
    size_t textat;
    size_t textlen;
    lunozhar_age age;         /* of the query that a hit answers, or that a query repeats: for a hit answered 0, 11,
                               * 12 or 21, or 8 with TTL 1; for a query, arriving or own, answered 9; else there is
                               * none */
} lunozhar_told;

/* What bytes of a line came to. */
typedef struct lunozhar_fed {
    lunozhar_told told;
    bool within; /* the message that was taken stands at the front of the held area, else at the front of the bytes */
    bool waits;  /* the message is not whole yet, and told.answer is LUNOZHAR_WAITING */
} lunozhar_fed;

/* What a look-up came to. */
typedef struct lunozhar_finding {
    uint8_t answer; /* 0, 1 or 10 */
    uint8_t asker;  /* a line or enum lunozhar_asker; LUNOZHAR_ASKER_NOBODY where the answer is not 0 */
    size_t after;   /* how many queries were remembered after it; 0 where the answer is not 0 */
} lunozhar_finding;

/* What the functions below hand back of a message, of bytes, of a line opened or closed, and of a station made:
 * the record of the line after the call, or all that is new of the station. */
typedef struct lunozhar_arrival {
    lunozhar_line line;
    lunozhar_told told;
} lunozhar_arrival;

typedef struct lunozhar_feeding {
    lunozhar_line line;
    lunozhar_fed fed;
} lunozhar_feeding;

typedef struct lunozhar_line_change {
    uint8_t answer;
    lunozhar_line line;
} lunozhar_line_change;

typedef struct lunozhar_beginning {
    uint8_t answer;
    size_t room;
    lunozhar_line lines[LUNOZHAR_LINES];
} lunozhar_beginning;

/* How many messages had each answer. Start with all zero. A full count stays. */
typedef struct lunozhar_tally {
    uint32_t counts[LUNOZHAR_ANSWERS];
} lunozhar_tally;

/* What a writer came to: its answer, and the bytes written (0 when refused). */
typedef struct lunozhar_written {
    uint8_t answer;
    size_t written;
} lunozhar_written;

/* What the search for a name came to. */
typedef struct lunozhar_name_found {
    uint8_t answer; /* 0, 2, 1, 6 or 10 */
    size_t place;   /* the name's place in the list, from 0; 0 where the answer is not 0 */
} lunozhar_name_found;

/* What the making of a table for a neighbour came to. */
typedef struct lunozhar_made {
    uint8_t answer;   /* 0, 1, 2, 3 or 14 */
    uint8_t infinity; /* the Infinity to write the table with; 0 where the answer is not 0 */
} lunozhar_made;

/* A handshake group that was read. When refused, all but the answer is 0. */
typedef struct lunozhar_group {
    uint8_t answer;
    size_t used;    /* the group's length */
    uint8_t kind;   /* enum lunozhar_kind */
    uint32_t major; /* the version */
    uint32_t minor;
    uint32_t code;  /* the status code of a reply, 0 for a greeting */
} lunozhar_group;

/* A handshake field that was asked for. */
typedef struct lunozhar_asked {
    uint8_t answer;
    size_t used;    /* the group's length for 0 and 10, else 0 */
    size_t written; /* the value's length for 0, else 0 */
} lunozhar_asked;

/* A host: its IPv4 address in network order, and its port. */
typedef struct lunozhar_pair {
    uint8_t address[4];
    uint16_t port;
} lunozhar_pair;

/* Hosts: the first `count` places. The others are zero when read, and are not looked at when written. */
typedef struct lunozhar_pairs {
    size_t count;
    lunozhar_pair pairs[LUNOZHAR_PAIRS];
} lunozhar_pairs;

/* The hosts of a handshake group. */
typedef struct lunozhar_hosts {
    uint8_t answer;
    size_t used; /* the group's length for 0 and 6, else 0 */
    lunozhar_pairs pairs;
} lunozhar_hosts;

/* The calls on a station, as the library has them: lo, hi, asker and hits are its four arrays of LUNOZHAR_MEMORY
 * places, lent with count and next where a call writes them. The record that comes back belongs at
 * line % LUNOZHAR_LINES, whatever the answer is. The functions below do all that: call those. */
lunozhar_beginning lunozhar_fresh_lent(uint64_t *lo, uint64_t *hi, uint8_t *asker, uint8_t *hits, size_t *count,
                                       size_t *next, size_t route_len);
lunozhar_line_change lunozhar_open_lent(const uint64_t *lo, const uint64_t *hi, const uint8_t *asker,
                                        const uint8_t *hits, size_t count, size_t next, size_t room,
                                        lunozhar_lines lines, uint32_t line);
lunozhar_line_change lunozhar_close_lent(uint64_t *lo, uint64_t *hi, uint8_t *asker, uint8_t *hits, size_t count,
                                         size_t next, size_t room, lunozhar_lines lines, uint32_t line);
lunozhar_arrival lunozhar_message_lent(uint64_t *lo, uint64_t *hi, uint8_t *asker, uint8_t *hits, size_t *count,
                                       size_t *next, size_t room, lunozhar_lines lines, uint32_t line, uint32_t clock,
                                       lunozhar_own own, const uint8_t *message, size_t message_len, uint8_t *out,
                                       size_t out_len, uint8_t *route, size_t route_len);
lunozhar_feeding lunozhar_feed_lent(uint64_t *lo, uint64_t *hi, uint8_t *asker, uint8_t *hits, size_t *count,
                                    size_t *next, size_t room, lunozhar_lines lines, uint32_t line, uint32_t clock,
                                    lunozhar_own own, const uint8_t *bytes, size_t len, uint8_t *held, size_t held_len,
                                    uint8_t *out, size_t out_len, uint8_t *route, size_t route_len);
lunozhar_told lunozhar_ask_lent(uint64_t *lo, uint64_t *hi, uint8_t *asker, uint8_t *hits, size_t *count, size_t *next,
                                size_t room, lunozhar_lines lines, lunozhar_number number, const uint8_t *text,
                                size_t text_len, uint8_t *out, size_t out_len, const uint8_t *route, size_t route_len);
lunozhar_finding lunozhar_look_up_lent(const uint64_t *lo, const uint64_t *hi, const uint8_t *asker,
                                       const uint8_t *hits, size_t count, size_t next, size_t room,
                                       lunozhar_lines lines, lunozhar_number number);
lunozhar_made lunozhar_table_for_lent(const uint64_t *lo, const uint64_t *hi, const uint8_t *asker,
                                      const uint8_t *hits, size_t count, size_t next, size_t room,
                                      lunozhar_lines lines, uint32_t line, const uint8_t *names, size_t names_len,
                                      uint32_t size, uint8_t *out, size_t out_len, const uint8_t *route,
                                      size_t route_len);
bool lunozhar_in_order_lent(const uint64_t *lo, const uint64_t *hi, const uint8_t *asker, const uint8_t *hits,
                            size_t count, size_t next, size_t room, lunozhar_lines lines);

/* A station's lines, to be handed on with one copy: what is read as lunozhar_lines is an array of its only
 * member's type (C11 6.5 p7, C++11 3.10 p10). */
static inline const lunozhar_lines *lunozhar_lines_of(const lunozhar_station *station) {
    const void *lines = station->lines;
    return (const lunozhar_lines *)lines;
}

/* Makes the station: every line closed, nothing remembered, room for tables as a route area of route_len bytes
 * gives it. The area itself is lent to lunozhar_message, lunozhar_feed, lunozhar_ask and lunozhar_table_for, always the
 * same one; its bytes may be anything. What the station held before does not count, but it holds something: memory that
 * is new is set to zero first, as a static station is.
 * Answers 0, or 2 for route_len below LUNOZHAR_ROUTE: the station is made all the same, with room 0. */
static inline uint8_t lunozhar_fresh(lunozhar_station *station, size_t route_len) {
    const lunozhar_beginning made =
        lunozhar_fresh_lent(station->lo, station->hi, station->asker, station->hits, &station->count, &station->next,
                            route_len);
    station->room = made.room;
    memcpy(station->lines, made.lines, sizeof station->lines);
    return made.answer;
}

/* Opens a line, 0 to 7: no table, no pongs, no ping, no held bytes, not shut. Answers 0, 1, or 3 for a line over 7 or
 * open already. */
static inline uint8_t lunozhar_open(lunozhar_station *station, uint32_t line) {
    const lunozhar_line_change change =
        lunozhar_open_lent(station->lo, station->hi, station->asker, station->hits, station->count, station->next,
                           station->room, *lunozhar_lines_of(station), line);
    station->lines[line % LUNOZHAR_LINES] = change.line;
    return change.answer;
}

/* Closes a line: its table, its pongs and its held bytes are dropped, it is not shut, and no hit for a query that came
 * by it is passed on any more, even if the line is opened again. Answers 0, 1, or 3 for a line over 7 or not open. */
static inline uint8_t lunozhar_close(lunozhar_station *station, uint32_t line) {
    const lunozhar_line_change change =
        lunozhar_close_lent(station->lo, station->hi, station->asker, station->hits, station->count, station->next,
                            station->room, *lunozhar_lines_of(station), line);
    station->lines[line % LUNOZHAR_LINES] = change.line;
    return change.answer;
}

/* Takes the message at the front of the bytes, which arrived by a line at a clock in milliseconds (it may go
 * round). Bytes past the message are not read. Answers 0 to 16 or 21, and says what is to be sent, searched or
 * delivered. Writes the bytes to be sent to the front of the output area (out_len at least LUNOZHAR_OUTPUT), and
 * an accepted update's entries to the line's part of the route area (route_len at least LUNOZHAR_ROUTE, where
 * route_len / 8 is the station's room). A refusal writes to no area and changes no state, but that 14, 15 and 16
 * mark the line's table as broken. Held bytes and shut marks are lunozhar_feed's alone: they are neither read nor
 * changed here, of this line or another, and an answer 5 shuts nothing.
 *
 * A hit whose number was looked up and found hands up told.age, how many queries were remembered after the one that it
 * answers, whether it is sent, delivered or then refused; so does a query that is answered 9.
 *
 * Of one query LUNOZHAR_HITS hits are passed back or delivered, counted from when it was remembered. Each one more is
 * answered 21, whoever asked: 11 comes before it, the 8 of TTL 1 and 12 come behind it. A hit that is refused is not
 * counted, and a message is one hit, however many results it has. */
static inline lunozhar_told lunozhar_message(lunozhar_station *station, uint32_t line, uint32_t clock,
                                             lunozhar_own own, const uint8_t *message, size_t message_len,
                                             uint8_t *out, size_t out_len, uint8_t *route, size_t route_len) {
    const lunozhar_arrival arrival =
        lunozhar_message_lent(station->lo, station->hi, station->asker, station->hits, &station->count, &station->next,
                              station->room, *lunozhar_lines_of(station), line, clock, own, message, message_len, out,
                              out_len, route, route_len);
    station->lines[line % LUNOZHAR_LINES] = arrival.line;
    return arrival.told;
}

/* Takes bytes as a line brings them, in scraps of any size: at most to the end of one message, and told.used says how
 * many of them that were. What is left is to be handed over again: a program calls until all are used, or until a call
 * uses none (1, 2, 3, 19). The message is dealt with as by lunozhar_message, at the clock of the call that brings its
 * last byte, with that call's output and route area.
 *
 * What the line has brought of a message that is not whole stands in its held area (held_len at least LUNOZHAR_HELD).
 * The area is the caller's: one for each line, lent with every call for that line, and written by nobody else between
 * these calls. At first its bytes may be anything. (Where another one is lent, the call is answered as well, by the
 * bytes that stand in that one.)
 *
 * What a call does, by what it comes to:
 *   waits     the message is not whole, and told.answer is LUNOZHAR_WAITING: all bytes are used, and stand in the held
 *             area behind those before them. Nothing else changes but the line's count of them, in the station. This
 *             comes instead of 4, and is not to be counted.
 *   0, 6..16, 21
 *             the message is whole, and done or refused: its bytes are used, and none are held any more. Where some of
 *             it was held it now stands whole at the front of the held area, and `within` is set; else the held area
 *             is as it was. State and told.age are as of lunozhar_message; any other call here tells no age.
 *   5         its header is there, with a payload over 4,096 bytes: the bytes of the header are used, none are held,
 *             the held area is as it was, and the line is shut.
 *             A program closes it: it is sent to as before, and takes no more bytes.
 *   19        the line is shut, from an answer 5 until it is closed and opened: nothing is used, nothing changes.
 *   1, 2, 3   nothing is used, nothing changes, so that the same bytes may come again. 1 is also for held bytes that
 *             start no message (whole ones, or a header with too long a payload), until the line is closed and opened
 *             or the right area is lent; 2 also for a short held area.
 * 1, 2 and 3 come before 19, and that before the 1 of held bytes. No bytes at all (len 0) change nothing.
 *
 * A message that was taken begins at held where `within` is set, else at bytes, and what told says of it counts from
 * there: a query's text is told.textlen bytes from told.textat on; of a hit that is delivered, the payload begins at
 * byte 23, and bytes 19 to 22 have its length, little-endian. It stays there until the next call for that line. */
static inline lunozhar_fed lunozhar_feed(lunozhar_station *station, uint32_t line, uint32_t clock, lunozhar_own own,
                                         const uint8_t *bytes, size_t len, uint8_t *held, size_t held_len,
                                         uint8_t *out, size_t out_len, uint8_t *route, size_t route_len) {
    const lunozhar_feeding feeding =
        lunozhar_feed_lent(station->lo, station->hi, station->asker, station->hits, &station->count, &station->next,
                           station->room, *lunozhar_lines_of(station), line, clock, own, bytes, len, held, held_len,
                           out, out_len, route, route_len);
    station->lines[line % LUNOZHAR_LINES] = feeding.line;
    return feeding.fed;
}

/* Asks a query of this station's own, with a number that no query had yet. The message goes to each open line
 * whose table does not withhold it by a keyword of the text (for what that is see lunozhar_name_table), and is
 * written to the front of the output area (lengths as for lunozhar_message). The route area is only read. Answers
 * 0, 1, 2, 5 for a text over 4,093 bytes, 6 for a zero byte in it, or 9 for a number that is remembered, which hands
 * up told.age. Held bytes and shut marks are neither read nor changed. */
static inline lunozhar_told lunozhar_ask(lunozhar_station *station, lunozhar_number number, const uint8_t *text,
                                         size_t text_len, uint8_t *out, size_t out_len, const uint8_t *route,
                                         size_t route_len) {
    return lunozhar_ask_lent(station->lo, station->hi, station->asker, station->hits, &station->count, &station->next,
                             station->room, *lunozhar_lines_of(station), number, text, text_len, out, out_len, route,
                             route_len);
}

/* Looks up the number of a query: who asked it, and how many queries were remembered after it. Answers 0, 1, or 10 for
 * a number that is not remembered. The station is only read. */
static inline lunozhar_finding lunozhar_look_up(const lunozhar_station *station, lunozhar_number number) {
    return lunozhar_look_up_lent(station->lo, station->hi, station->asker, station->hits, station->count,
                                 station->next, station->room, *lunozhar_lines_of(station), number);
}

/* Makes the table to send the neighbour of a line, which tells it what can be reached through this station: `size`
 * entries at the front of the output, whose other bytes stay as they are. They are for lunozhar_write_table, with the
 * Infinity that comes back. Every line gets a table of its own. An entry is
 *   1         where a keyword of one of this station's own names falls: `names` is the area of the list (see
 *             lunozhar_name_add; lunozhar_name_table says what a keyword is);
 *   else      one more than the least distance that the tables of the other lines have there, at most Infinity;
 *   Infinity  where they have none.
 * Only settled tables count, and never the one of this very line, so that nobody is told what they told themselves. An
 * entry that is the Infinity of its own table is no distance. Tables may have other lengths than the one that is made:
 * into a shorter one, a place takes the least of the entries that fall together there; into a longer one, the entry
 * that its place is a part of. The size may be more than the station itself has room for.
 *
 * Station, names and route area are only read, and nothing is written where the answer is not 0. It is the first of
 * these that holds:
 *   1   the state is not in order
 *   2   route_len is below LUNOZHAR_ROUTE, or gives another room than the state's
 *   3   the line is over 7, or not open
 *   2   names_len is below LUNOZHAR_NAMES
 *   1   the list of names is not in order
 *   14  the size is no power of two from 4 to 65,536
 *   2   out_len is below the size
 *   0   else */
static inline lunozhar_made lunozhar_table_for(const lunozhar_station *station, uint32_t line, const uint8_t *names,
                                               size_t names_len, uint32_t size, uint8_t *out, size_t out_len,
                                               const uint8_t *route, size_t route_len) {
    return lunozhar_table_for_lent(station->lo, station->hi, station->asker, station->hits, station->count,
                                   station->next, station->room, *lunozhar_lines_of(station), line, names, names_len,
                                   size, out, out_len, route, route_len);
}

/* Whether the state is in order, as every call tests first (answer 1). A state that only these functions wrote is. */
static inline bool lunozhar_in_order(const lunozhar_station *station) {
    return lunozhar_in_order_lent(station->lo, station->hi, station->asker, station->hits, station->count,
                                  station->next, station->room, *lunozhar_lines_of(station));
}

/* Counts one more message with this answer. A number over 21 counts nothing, LUNOZHAR_WAITING among them. */
void lunozhar_count(lunozhar_tally *tally, uint8_t answer);

/* Writes the messages that turn a neighbour's copy of the old table into the new one: a RESET where there was none
 * (`had` is false; the old entries and Infinity are not looked at then), and a run of PATCHes with `size` bytes of
 * data each (1 to 4,091), the last with the rest. Answers 0, 14 for a length, an Infinity, an entry, two unlike
 * tables, a size or a run that is not allowed, or 2 for a short area. Writes to the front of the area; one of
 * 29 + 28 * 255 + new_len bytes is never short. */
lunozhar_written lunozhar_write_table(lunozhar_number number, bool had, const uint8_t *old_entries, size_t old_len,
                                      uint8_t old_infinity, const uint8_t *new_entries, size_t new_len,
                                      uint8_t infinity, size_t size, uint8_t *out, size_t out_len);

/* The station's own file names, up to 512 of them, are a list in one area that the caller lends. Numbers in it have 4
 * bytes, little-endian:
 *
 *   bytes 0 to 3          how many names
 *   from byte 4 + 8 * i   of the name at place i, from 0: its offset from the area's start, and its length
 *   from byte 4100        the text: the bytes of the names, anywhere up to the area's end, with or without gaps
 *
 * Any area of at least LUNOZHAR_NAMES bytes whose first four are zero is an empty list; no call is needed to make one.
 * A name has 1 to 255 bytes, none of them zero. The same bytes are the same name: the case of letters counts here.
 *
 * The four functions below first answer 2 for an area under LUNOZHAR_NAMES, then 1 for a list that is not in order:
 * with more than 512 names, or with one that is no name as just said, does not lie wholly in the text, shares a byte
 * with another or is the same as another. A list that only these functions wrote is in order. Pairs past the count, and
 * text that belongs to no name, may be anything.
 *
 * Adds a name as the last. The room of names that were removed is used again: where it is needed, the texts of the
 * others are moved together, and keep their order. Answers 0, 2, 1, 6 for a bad name, 9 for one that is in the list, or
 * 20 where 512 are in it, or where their lengths and the new one's together are over area_len - LUNOZHAR_NAMES. */
uint8_t lunozhar_name_add(uint8_t *area, size_t area_len, const uint8_t *name, size_t name_len);

/* Removes a name: the place of each behind it becomes one less. Answers 0, 2, 1, 6 for a bad name, or 10 for one that
 * is not in the list. */
uint8_t lunozhar_name_remove(uint8_t *area, size_t area_len, const uint8_t *name, size_t name_len);

/* Finds the place of a name. The area is only read. Answers as lunozhar_name_remove. */
lunozhar_name_found lunozhar_name_find(const uint8_t *area, size_t area_len, const uint8_t *name, size_t name_len);

/* Makes the station's own table, to be handed to lunozhar_write_table: `length` entries at the front of the output, 1
 * where a keyword of some name falls, and Infinity elsewhere. Keywords are the runs of digits and letters A to Z and a
 * to z, whatever their case; all other bytes only stand between them. The area is only read. (The table that also has
 * what the neighbours tell of is made by lunozhar_table_for.) Answers 0, 2, 1, 14 for a length that is no power of two
 * from 4 to 65,536 or an Infinity outside 2 to 127, or 2 for an output shorter than the length. */
uint8_t lunozhar_name_table(const uint8_t *area, size_t area_len, uint32_t length, uint8_t infinity, uint8_t *out,
                            size_t out_len);

/* Reads the handshake group at the front of the bytes. Answers 0, 4, 17 or 18. */
lunozhar_group lunozhar_read_group(const uint8_t *bytes, size_t len);

/* Writes the value of the group's field of that name, whatever its case, to the front of an area; equal names are
 * joined by commas. Answers 0, 4, 17, 18, 10 for no such field, or 2 for a short area; one of 4,096 bytes is never
 * short. */
lunozhar_asked lunozhar_read_field(const uint8_t *bytes, size_t len, const uint8_t *name, size_t name_len,
                                   uint8_t *value, size_t value_len);

/* Reads the first 32 hosts of the group's X-Try field, none where it has no such field. Answers 0, 4, 17, 18, or 6
 * for a bad host. */
lunozhar_hosts lunozhar_read_hosts(const uint8_t *bytes, size_t len);

/* Writes the greeting, 24 bytes, to the front of an area. Answers 0, or 2 for a short area. */
lunozhar_written lunozhar_write_greeting(uint8_t *out, size_t out_len);

/* Writes the reply that takes a connection, 23 bytes, to the front of an area. Answers 0, or 2 for a short area. */
lunozhar_written lunozhar_write_ok(uint8_t *out, size_t out_len);

/* Writes the reply that turns a connection away and names other hosts to the front of an area. Answers 0, 6 for
 * more than 32 hosts or a port 0, or 2 for a short area; one of 737 bytes is never short. */
lunozhar_written lunozhar_write_busy(lunozhar_pairs pairs, uint8_t *out, size_t out_len);

/* The 32-bit hash of a keyword, whatever the case of its letters A to Z. */
uint32_t lunozhar_hash(const uint8_t *keyword, size_t len);

/* A keyword's place in a table of 2^bits entries: the top bits of its hash; 0 for no bits, all 32 for more than 32. */
uint32_t lunozhar_place(const uint8_t *keyword, size_t len, uint32_t bits);

/* The layout that the library was built with: the size of each struct and the offset of each field. */
#define LUNOZHAR_SIZE(type, size) static_assert(sizeof(type) == (size), "the size of " #type)
#define LUNOZHAR_AT(type, field, at) static_assert(offsetof(type, field) == (at), "the offset of " #type "." #field)

LUNOZHAR_SIZE(lunozhar_table, 16);
LUNOZHAR_AT(lunozhar_table, mark, 0);
LUNOZHAR_AT(lunozhar_table, length, 4);
LUNOZHAR_AT(lunozhar_table, infinity, 8);
LUNOZHAR_AT(lunozhar_table, place, 9);
LUNOZHAR_AT(lunozhar_table, size, 10);
LUNOZHAR_AT(lunozhar_table, bits, 11);
LUNOZHAR_AT(lunozhar_table, at, 12);

LUNOZHAR_SIZE(lunozhar_pong, 20);
LUNOZHAR_AT(lunozhar_pong, bytes, 0);
LUNOZHAR_AT(lunozhar_pong, hops, 14);
LUNOZHAR_AT(lunozhar_pong, clock, 16);

LUNOZHAR_SIZE(lunozhar_pending, 4);
LUNOZHAR_AT(lunozhar_pending, count, 0);
LUNOZHAR_AT(lunozhar_pending, shut, 2);

LUNOZHAR_SIZE(lunozhar_line, 248);
LUNOZHAR_AT(lunozhar_line, live, 0);
LUNOZHAR_AT(lunozhar_line, pinged, 1);
LUNOZHAR_AT(lunozhar_line, pingtime, 4);
LUNOZHAR_AT(lunozhar_line, pongcount, 8);
LUNOZHAR_AT(lunozhar_line, pongnext, 16);
LUNOZHAR_AT(lunozhar_line, pongs, 24);
LUNOZHAR_AT(lunozhar_line, table, 224);
LUNOZHAR_AT(lunozhar_line, pending, 240);

LUNOZHAR_SIZE(lunozhar_lines, 1984);
LUNOZHAR_AT(lunozhar_lines, at, 0);

LUNOZHAR_SIZE(lunozhar_station, 11224);
LUNOZHAR_AT(lunozhar_station, room, 0);
LUNOZHAR_AT(lunozhar_station, lines, 8);
LUNOZHAR_AT(lunozhar_station, lo, 1992);
LUNOZHAR_AT(lunozhar_station, hi, 6088);
LUNOZHAR_AT(lunozhar_station, asker, 10184);
LUNOZHAR_AT(lunozhar_station, hits, 10696);
LUNOZHAR_AT(lunozhar_station, count, 11208);
LUNOZHAR_AT(lunozhar_station, next, 11216);

LUNOZHAR_SIZE(lunozhar_own, 20);
LUNOZHAR_AT(lunozhar_own, port, 0);
LUNOZHAR_AT(lunozhar_own, address, 2);
LUNOZHAR_AT(lunozhar_own, files, 8);
LUNOZHAR_AT(lunozhar_own, kilobytes, 12);
LUNOZHAR_AT(lunozhar_own, calls, 16);

LUNOZHAR_SIZE(lunozhar_number, 16);
LUNOZHAR_AT(lunozhar_number, bytes, 0);

LUNOZHAR_SIZE(lunozhar_age, 16);
LUNOZHAR_AT(lunozhar_age, known, 0);
LUNOZHAR_AT(lunozhar_age, after, 8);

LUNOZHAR_SIZE(lunozhar_told, 72);
LUNOZHAR_AT(lunozhar_told, answer, 0);
LUNOZHAR_AT(lunozhar_told, used, 8);
LUNOZHAR_AT(lunozhar_told, written, 16);
LUNOZHAR_AT(lunozhar_told, to, 24);
LUNOZHAR_AT(lunozhar_told, search, 32);
LUNOZHAR_AT(lunozhar_told, delivered, 33);
LUNOZHAR_AT(lunozhar_told, textat, 40);
LUNOZHAR_AT(lunozhar_told, textlen, 48);
LUNOZHAR_AT(lunozhar_told, age, 56);

LUNOZHAR_SIZE(lunozhar_fed, 80);
LUNOZHAR_AT(lunozhar_fed, told, 0);
LUNOZHAR_AT(lunozhar_fed, within, 72);
LUNOZHAR_AT(lunozhar_fed, waits, 73);

LUNOZHAR_SIZE(lunozhar_finding, 16);
LUNOZHAR_AT(lunozhar_finding, answer, 0);
LUNOZHAR_AT(lunozhar_finding, asker, 1);
LUNOZHAR_AT(lunozhar_finding, after, 8);

LUNOZHAR_SIZE(lunozhar_arrival, 320);
LUNOZHAR_AT(lunozhar_arrival, line, 0);
LUNOZHAR_AT(lunozhar_arrival, told, 248);

LUNOZHAR_SIZE(lunozhar_feeding, 328);
LUNOZHAR_AT(lunozhar_feeding, line, 0);
LUNOZHAR_AT(lunozhar_feeding, fed, 248);

LUNOZHAR_SIZE(lunozhar_line_change, 256);
LUNOZHAR_AT(lunozhar_line_change, answer, 0);
LUNOZHAR_AT(lunozhar_line_change, line, 8);

LUNOZHAR_SIZE(lunozhar_beginning, 2000);
LUNOZHAR_AT(lunozhar_beginning, answer, 0);
LUNOZHAR_AT(lunozhar_beginning, room, 8);
LUNOZHAR_AT(lunozhar_beginning, lines, 16);

LUNOZHAR_SIZE(lunozhar_tally, 88);
LUNOZHAR_AT(lunozhar_tally, counts, 0);

LUNOZHAR_SIZE(lunozhar_written, 16);
LUNOZHAR_AT(lunozhar_written, answer, 0);
LUNOZHAR_AT(lunozhar_written, written, 8);

LUNOZHAR_SIZE(lunozhar_name_found, 16);
LUNOZHAR_AT(lunozhar_name_found, answer, 0);
LUNOZHAR_AT(lunozhar_name_found, place, 8);

LUNOZHAR_SIZE(lunozhar_made, 2);
LUNOZHAR_AT(lunozhar_made, answer, 0);
LUNOZHAR_AT(lunozhar_made, infinity, 1);

LUNOZHAR_SIZE(lunozhar_group, 32);
LUNOZHAR_AT(lunozhar_group, answer, 0);
LUNOZHAR_AT(lunozhar_group, used, 8);
LUNOZHAR_AT(lunozhar_group, kind, 16);
LUNOZHAR_AT(lunozhar_group, major, 20);
LUNOZHAR_AT(lunozhar_group, minor, 24);
LUNOZHAR_AT(lunozhar_group, code, 28);

LUNOZHAR_SIZE(lunozhar_asked, 24);
LUNOZHAR_AT(lunozhar_asked, answer, 0);
LUNOZHAR_AT(lunozhar_asked, used, 8);
LUNOZHAR_AT(lunozhar_asked, written, 16);

LUNOZHAR_SIZE(lunozhar_pair, 6);
LUNOZHAR_AT(lunozhar_pair, address, 0);
LUNOZHAR_AT(lunozhar_pair, port, 4);

LUNOZHAR_SIZE(lunozhar_pairs, 200);
LUNOZHAR_AT(lunozhar_pairs, count, 0);
LUNOZHAR_AT(lunozhar_pairs, pairs, 8);

LUNOZHAR_SIZE(lunozhar_hosts, 216);
LUNOZHAR_AT(lunozhar_hosts, answer, 0);
LUNOZHAR_AT(lunozhar_hosts, used, 8);
LUNOZHAR_AT(lunozhar_hosts, pairs, 16);

#undef LUNOZHAR_SIZE
#undef LUNOZHAR_AT

#ifdef __cplusplus
}
#endif

#endif
