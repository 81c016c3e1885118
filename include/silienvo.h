/* Silienvo: a segmented channel router whose answers are proved.
 *
 * The archive target/staticlib/libsilienvo.a is made by `./build library`, for x86-64 Linux. It needs no other library, and of C
 * only memcpy and memset. To compile against it:
 *
 *     cc -Iinclude examples/route.c target/staticlib/libsilienvo.a -o route-c
 *
 * examples/route.c calls every function below; this header is C and C++.
 *
 * Every function answers for every input: any bytes, any numbers, any lengths. None has a precondition beyond what C asks of a pointer and its length:
 * the bytes are there, a buffer that is written is not read through another argument, and a length of 0 goes with any non-null pointer.
 * No function keeps anything from one call to the next, allocates, blocks or calls back: calls may run side by side on any threads, as long as none of them
 * writes to bytes that another is lent. A call touches at most SILIENVO_STACK bytes of stack.
 *
 * A refusal is kind 0 with the number of a row of the table below and its place. Where several rows hold, the first in this order decides. A refusal changes
 * no byte of a lent buffer, and bytes behind what an answer writes are never touched.
 *
 *    1  the file is shorter than 8 bytes                                                   place 0
 *    2  N, T, M or K outside its limits; P1: connection bytes not a multiple of 3, or a    0
 *       panel of another N or T; a panel whose list is full
 *    3  a distance in the trailer is wrong                                                 0
 *    4  a track record breaks its rule or runs into the connections; bytes left over       the track; T + 1 for left over
 *    5  a connection breaks its rule                                                       the connection; on a panel the number given, M + 1 for one added
 *    9  the lent buffer is too short: M bytes for labels, 62 for a line, 16 for each       0
 *       connection's row, a whole P1 file
 *    6  a reply's line is not well-formed; or its s, v and 0 rules are broken              the line, from 1; 0
 *    7  a literal's variable is above V or was seen before; else variables are missing     the position, from 1; one behind the last
 *    8  the model makes a clause false                                                     the first such clause, from 1
 *   10  the line number is above C; a panel has no connection of the number                0
 *   11  not M labels; or not a legal routing                                               0; the first connection that is wrong
 */
#ifndef SILIENVO_H
#define SILIENVO_H

#include <stddef.h>
#include <stdint.h>

#ifdef __cplusplus
extern "C" {
#endif

/* The kinds of an answer. 0 is a refusal at every function; each function says which of the others it gives. */
enum {
    SILIENVO_REFUSED = 0,
    SILIENVO_JOB = 1,        /* silienvo_read */
    SILIENVO_ROUTED = 1,     /* silienvo_route, silienvo_p1_route, silienvo_panel_p1_route */
    SILIENVO_UNROUTABLE = 2,
    SILIENVO_UNDECIDED = 3,
    SILIENVO_LEGAL = 1,      /* silienvo_judge */
    SILIENVO_WRITTEN = 1,    /* silienvo_rows, silienvo_line, silienvo_p1_write */
    SILIENVO_ACCEPTED = 1,   /* silienvo_reply */
    SILIENVO_CLAIMED = 2,
    SILIENVO_UNKNOWN = 3,
    SILIENVO_DONE = 1,       /* silienvo_panel_make, silienvo_panel_add, silienvo_panel_drop, silienvo_panel_move */
    SILIENVO_GREEN = 1,      /* silienvo_panel_red */
    SILIENVO_RED = 2
};

/* Sizes in bytes that are enough for every job: a buffer for labels (M of them are asked), for the rows of a routing (16 for each connection are asked), for a
 * clause line, and for a file of house part P1 (58 and 3 for each connection are asked); the room of a panel's list and of its loads; and the stack of a
 * call. */
enum {
    SILIENVO_MOST_LABELS = 64,
    SILIENVO_MOST_CONNECTIONS = 64,
    SILIENVO_MOST_LOADS = 256,
    SILIENVO_MOST_ROWS = 1024,
    SILIENVO_LINE = 62,
    SILIENVO_MOST_P1_FILE = 250,
    SILIENVO_STACK = 196608
};

/* kind 0: refused by `number` at place `value`. Other kinds, and what `value` then is, stand at each function; `number` is then 0. */
typedef struct {
    uint32_t kind;
    uint32_t number;
    uint64_t value;
} SilienvoAnswer;

/* kind 0: refused by `number` at `place`. kind 1: a job with N, T, M and K; its connections are the `length` bytes of the file from `start` on. */
typedef struct {
    uint32_t kind;
    uint32_t number;
    uint64_t place;
    uint32_t columns;
    uint32_t tracks;
    uint32_t connections;
    uint32_t limit;
    uint64_t start;
    uint64_t length;
} SilienvoJob;

/* A connection of the editor. Its mark, as in a job file, is its net's number times 2, plus 1 if it is critical: every byte is a mark. Net 0 is a connection on
 * its own, 1-127 name a net. Connections with the same net above 0 are pieces of one net: they may share segments, and some may be critical and others not. */
typedef struct {
    uint8_t left;
    uint8_t right;
    uint8_t mark;
} SilienvoConnection;

/* The panel of the editor: a list of connections for an N and a T, and for each column its load, how many distinct nets cross it. A connection crosses the
 * columns from its left to its right, both included; pieces of one net over one column count once, each connection of net 0 by itself.
 * silienvo_panel_make makes one, and the functions below it change it. After any sequence of their calls, refused ones among them, the loads are true. A
 * panel is its 451 bytes and nothing else: it may be copied, kept and compared, and any bytes are a panel. What the functions do with one that they did not
 * make stands at each. */
typedef struct {
    uint8_t columns;                                    /* N */
    uint8_t tracks;                                     /* T */
    uint8_t connections;                                /* M; above 64 it is read as 64 */
    SilienvoConnection list[SILIENVO_MOST_CONNECTIONS]; /* the first M */
    uint8_t loads[SILIENVO_MOST_LOADS];                 /* loads[x] of column x, 1 to N; loads[0] is no column's */
} SilienvoPanel;

/* Reads a job file. kind SILIENVO_JOB exactly if the file is the encoding of a valid job. Rows 1-5. */
SilienvoJob silienvo_read(const uint8_t *file, size_t file_length);

/* Routes a job under a budget of trials. Rows 1-5, 9.
 * kind SILIENVO_ROUTED: the first M labels are the first legal routing in track order. SILIENVO_UNROUTABLE: no legal routing exists. With both, value is
 * the job's need, which is at most the budget. SILIENVO_UNDECIDED: the need is above the budget; value is the budget. Only Routed writes.
 * A larger budget never changes Routed or Unroutable. */
SilienvoAnswer silienvo_route(const uint8_t *file, size_t file_length, uint32_t budget, uint8_t *labels, size_t labels_length);

/* Judges a brought routing. Rows 1-5, 11. kind SILIENVO_LEGAL exactly if the labels are a legal routing of the job. */
SilienvoAnswer silienvo_judge(const uint8_t *file, size_t file_length, const uint8_t *labels, size_t labels_length);

/* Writes the rows of a brought routing: for each connection a line with its number, its track, and the first and last segment it occupies, with single blanks
 * and LF. Rows 1-5, 9, 11 of the table. kind SILIENVO_WRITTEN, exactly if the labels are a legal routing of the job and there is room: value is the text's
 * length. */
SilienvoAnswer silienvo_rows(const uint8_t *file, size_t file_length, const uint8_t *labels, size_t labels_length, uint8_t *text, size_t text_length);

/* Writes line `number` of the clause export, 0 (`p cnf V C`) to C, LF included. Rows 1-5, 9, 10. kind SILIENVO_WRITTEN: value is the line's length, at
 * most SILIENVO_LINE, and that many bytes are always asked of the buffer.
 * The models of the lines together are exactly the codes of the legal routings. */
SilienvoAnswer silienvo_line(const uint8_t *file, size_t file_length, uint64_t number, uint8_t *buffer, size_t buffer_length);

/* Reads a solver's reply to the exported clauses. Rows 1-5, 9, 6, 7, 8.
 * kind SILIENVO_ACCEPTED: its literals are a model, and the first M labels are the legal routing that it spells. SILIENVO_CLAIMED: it says UNSATISFIABLE,
 * which is never turned into Unroutable. SILIENVO_UNKNOWN: it says UNKNOWN. Only Accepted writes. A reply that was cut anywhere is refused or answered the same; an empty reply is refused by 6, place 0. */
SilienvoAnswer silienvo_reply(const uint8_t *file, size_t file_length, const uint8_t *text, size_t text_length, uint8_t *labels, size_t labels_length);

/* Writes the job file of house part P1 with these connections, three bytes each (left, right, and mark as above), and the limit K. Rows 2, 5, 9.
 * kind SILIENVO_WRITTEN: value is the file's length. The reader gives the same values back. */
SilienvoAnswer silienvo_p1_write(const uint8_t *connections, size_t connections_length, uint32_t limit, uint8_t *buffer, size_t buffer_length);

/* Routes P1 with these connections exactly as silienvo_route does the file with them. Rows 2, 5, 9 (M bytes of labels); kinds as for silienvo_route. */
SilienvoAnswer silienvo_p1_route(const SilienvoConnection *connections, size_t count, uint32_t limit, uint32_t budget, uint8_t *labels, size_t labels_length);

/* A panel for N columns and T tracks with no connection: every other byte is 0. Row 2, if N is not 1-255 or T is not 1-36. kind SILIENVO_DONE. */
SilienvoAnswer silienvo_panel_make(SilienvoPanel *panel, uint64_t columns, uint64_t tracks);

/* Drops all connections: N and T stay, every other byte becomes 0. Never refused. */
void silienvo_panel_clear(SilienvoPanel *panel);

/* The three edits. kind SILIENVO_DONE: the list is changed as said, and the load of each column with it. A refusal changes nothing. Numbers are taken whole:
 * 300 is a bad column, and never 44. Connections are numbered from 1. Columns are bad unless 1 <= left <= right <= N.
 * Any panel, made or not: each load from column 1 on goes one up where the changed list has one net more over its column than the list before (255 stays),
 * one down where it has one less (0 stays), and else stays; a listed connection with left > right crosses nothing. M becomes the length of the changed list.
 * loads[0], N, T and what stands behind the list stay: those behind a dropped connection move down by one, and from the new end on every byte is as it was. */

/* Appends a connection. Rows 2, if there are SILIENVO_MOST_CONNECTIONS already, then 5 with place M + 1, if its columns are bad. Every mark is good. */
SilienvoAnswer silienvo_panel_add(SilienvoPanel *panel, uint64_t left, uint64_t right, uint8_t mark);

/* Drops the connection of this number and closes the gap. Row 10, if there is none. */
SilienvoAnswer silienvo_panel_drop(SilienvoPanel *panel, uint64_t number);

/* Gives the connection of this number other columns; its number and its mark stay. Rows 5, with the number given as place, if the columns are bad, then 10, if
 * there is no such connection. */
SilienvoAnswer silienvo_panel_move(SilienvoPanel *panel, uint64_t number, uint64_t left, uint64_t right);

/* The first column of 1 to N whose load exceeds T. Never refused. kind SILIENVO_RED: value is the column. SILIENVO_GREEN: there is none, and value is 0.
 * On a panel that was made and edited, red means that no job with its N, its T and its connections has a legal routing, whatever its segments, its
 * performance tracks and its K: a routable channel is never red. Green promises no routing. */
SilienvoAnswer silienvo_panel_red(const SilienvoPanel *panel);

/* Routes the panel's connections on house part P1 exactly as silienvo_p1_route does them: what their job file gives, with the same trials. Rows 2 (also for a
 * panel whose N and T are not P1's 30 and 8), 5, 9; kinds as for silienvo_route. The panel stays. */
SilienvoAnswer silienvo_panel_p1_route(const SilienvoPanel *panel, uint32_t limit, uint32_t budget, uint8_t *labels, size_t labels_length);

#ifdef __cplusplus
}
#endif

#endif
