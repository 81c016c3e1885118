/* The bytes of stack that each export touches at its worst job: a call on a thread whose stack was painted before, less what a thread without a call touches.
 * Prints a line a function; the status is 0 only if none is above SILIENVO_STACK. */
#define _POSIX_C_SOURCE 200809L
#include <pthread.h>
#include <stdio.h>
#include <string.h>

#include "silienvo.h"

enum { PAINTED = 1 << 20, PAINT = 0xa5, TRACKS = 36, SEGMENTS = 32, CONNECTIONS = 64, COLUMNS = 255, MOST_FILE = 2048 };

static _Alignas(4096) uint8_t stack[PAINTED];
static uint8_t file[MOST_FILE], labels[CONNECTIONS], line[SILIENVO_LINE], part[SILIENVO_MOST_P1_FILE], records[3 * CONNECTIONS], rows[SILIENVO_MOST_ROWS];
static SilienvoConnection edited[CONNECTIONS];
static SilienvoPanel panel, part_panel, other_panel;

_Static_assert(sizeof(SilienvoPanel) == 451, "a panel has no padding");
static char reply[4096];
static size_t length, reply_length;

/* The largest job: every track has the most segments, and every connection is placed, so that the search is as deep as it can be. */
static void make_job(void) {
    size_t at = 0;
    for (int t = 0; t < TRACKS; t++) {
        file[at++] = SEGMENTS;
        file[at++] = 1;
        for (int s = 1; s < SEGMENTS; s++) {
            file[at++] = (uint8_t)(7 * s);
        }
        file[at++] = COLUMNS;
    }
    for (int c = 0; c < CONNECTIONS; c++) {
        records[3 * c] = records[3 * c + 1] = (uint8_t)(1 + 7 * (c % SEGMENTS));
        records[3 * c + 2] = 1;
    }
    memcpy(file + at, records, sizeof records);
    at += sizeof records;
    const uint8_t trailer[] = {(uint8_t)(at & 255), (uint8_t)(at >> 8), sizeof records, 0, COLUMNS, TRACKS, CONNECTIONS, 32};
    memcpy(file + at, trailer, sizeof trailer);
    length = at + sizeof trailer;
    for (int c = 0; c < CONNECTIONS; c++) {
        edited[c].left = edited[c].right = (uint8_t)(1 + c % 30);
        edited[c].mark = 0;
    }
}

/* The model of the labels: six bits of each code, the highest first. */
static void make_reply(void) {
    char *to = reply + sprintf(reply, "s SATISFIABLE\n");
    for (int v = 0; v < 6 * CONNECTIONS; v++) {
        int code = labels[v / 6] - 1;
        to += sprintf(to, "v %s%d\n", code >> (5 - v % 6) & 1 ? "" : "-", v + 1);
    }
    reply_length = (size_t)(to + sprintf(to, "v 0\n") - reply);
}

static SilienvoAnswer answer;

static void *nothing(void *_) { return _; }
static void *job_read(void *_) { answer.kind = silienvo_read(file, length).kind; return _; }
static void *route(void *_) { answer = silienvo_route(file, length, UINT32_MAX, labels, sizeof labels); return _; }
static void *judge(void *_) { answer = silienvo_judge(file, length, labels, sizeof labels); return _; }
static void *lines(void *_) { answer = silienvo_rows(file, length, labels, sizeof labels, rows, sizeof rows); return _; }
static void *clause(void *_) { answer = silienvo_line(file, length, 2900, line, sizeof line); return _; }
static void *replied(void *_) { answer = silienvo_reply(file, length, (const uint8_t *)reply, reply_length, labels, sizeof labels); return _; }
static void *p1_write(void *_) {
    for (int c = 0; c < CONNECTIONS; c++) {
        records[3 * c] = records[3 * c + 1] = (uint8_t)(1 + c % 30);
    }
    answer = silienvo_p1_write(records, sizeof records, 32, part, sizeof part);
    return _;
}
static void *p1_route(void *_) { answer = silienvo_p1_route(edited, CONNECTIONS, 32, 1000000, labels, sizeof labels); return _; }

/* Pieces of one net over all columns, one short of a full list, so that an edit compares the most. */
static void make_panels(void) {
    silienvo_panel_make(&panel, COLUMNS, TRACKS);
    silienvo_panel_make(&part_panel, 30, 8);
    for (int c = 0; c < CONNECTIONS; c++) {
        if (c > 0) {
            silienvo_panel_add(&panel, 1, COLUMNS, 2);
        }
        silienvo_panel_add(&part_panel, edited[c].left, edited[c].right, 0);
    }
}

static void *panel_make(void *_) { answer = silienvo_panel_make(&other_panel, COLUMNS, TRACKS); return _; }
static void *panel_clear(void *_) { silienvo_panel_clear(&other_panel); answer.kind = other_panel.connections == 0; return _; }
static void *panel_add(void *_) { answer = silienvo_panel_add(&panel, 1, COLUMNS, 2); return _; }
static void *panel_drop(void *_) { answer = silienvo_panel_drop(&panel, 1); return _; }
static void *panel_move(void *_) { answer = silienvo_panel_move(&panel, 20, 2, COLUMNS); return _; }
static void *panel_red(void *_) { answer = silienvo_panel_red(&panel); return _; }
static void *panel_p1_route(void *_) { answer = silienvo_panel_p1_route(&part_panel, 32, 1000000, labels, sizeof labels); return _; }

static size_t touched(void *(*call)(void *)) {
    pthread_attr_t attributes;
    pthread_t thread;
    size_t low = 0;
    memset(stack, PAINT, sizeof stack);
    pthread_attr_init(&attributes);
    pthread_attr_setstack(&attributes, stack, sizeof stack);
    if (pthread_create(&thread, &attributes, call, NULL) != 0 || pthread_join(thread, NULL) != 0) {
        return PAINTED;
    }
    pthread_attr_destroy(&attributes);
    while (low < sizeof stack && stack[low] == PAINT) {
        low++;
    }
    return sizeof stack - low;
}

int main(void) {
    const struct { const char *name; void *(*call)(void *); } calls[] = {
        {"silienvo_read", job_read}, {"silienvo_route", route}, {"silienvo_judge", judge}, {"silienvo_rows", lines},
        {"silienvo_line", clause}, {"silienvo_reply", replied}, {"silienvo_p1_write", p1_write}, {"silienvo_p1_route", p1_route},
        {"silienvo_panel_make", panel_make}, {"silienvo_panel_clear", panel_clear}, {"silienvo_panel_add", panel_add}, {"silienvo_panel_move", panel_move},
        {"silienvo_panel_drop", panel_drop}, {"silienvo_panel_red", panel_red}, {"silienvo_panel_p1_route", panel_p1_route},
    };
    int over = 0;
    make_job();
    make_panels();
    for (size_t i = 0; i < sizeof calls / sizeof *calls; i++) {
        if (calls[i].call == replied) {
            make_reply();
        }
        size_t bytes = touched(calls[i].call) - touched(nothing);
        printf("%-23s %7zu bytes of stack%s\n", calls[i].name, bytes, answer.kind == SILIENVO_REFUSED ? ", REFUSED" : "");
        over += bytes > SILIENVO_STACK || answer.kind == SILIENVO_REFUSED;
    }
    return over > 0 || fflush(stdout) != 0;
}
