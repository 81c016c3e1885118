/* Every function of include/silienvo.h, called once on the job file that the command line names:
 *
 *     cc -Iinclude examples/route.c target/staticlib/libsilienvo.a -o route-c && ./route-c examples/a.job
 *
 * A refusal is an answer like the others. The status is 0 only if the job was routed and every line was written. */
#include <stdio.h>

#include "silienvo.h"

enum { BUDGET = 1000000, MOST_FILE = 4096 };

static void refused(const char *what, unsigned number, unsigned long long place) {
    printf("%s: refused %u %llu\n", what, number, place);
}

static void print_labels(const uint8_t *labels, size_t count) {
    for (size_t i = 0; i < count; i++) {
        printf(" %u", labels[i]);
    }
    printf("\n");
}

static void print_verdict(const char *what, SilienvoAnswer answer, const uint8_t *labels, size_t count) {
    switch (answer.kind) {
    case SILIENVO_ROUTED:
        printf("%s: routed after %llu trials:", what, (unsigned long long)answer.value);
        print_labels(labels, count);
        break;
    case SILIENVO_UNROUTABLE: printf("%s: no routing exists, after %llu trials\n", what, (unsigned long long)answer.value); break;
    case SILIENVO_UNDECIDED: printf("%s: undecided after %llu trials\n", what, (unsigned long long)answer.value); break;
    default: refused(what, answer.number, (unsigned long long)answer.value);
    }
}

/* Each connection with its track, and the first and last segment it occupies there. */
static void print_rows(const uint8_t *file, size_t length, const uint8_t *labels, size_t count) {
    uint8_t text[SILIENVO_MOST_ROWS];
    SilienvoAnswer answer = silienvo_rows(file, length, labels, count, text, sizeof text);
    if (answer.kind == SILIENVO_WRITTEN) {
        fwrite(text, 1, (size_t)answer.value, stdout);
    } else {
        refused("rows", answer.number, (unsigned long long)answer.value);
    }
}

/* Lines are asked for by number until one is refused by row 10: it is one behind the last. */
static void print_clauses(const uint8_t *file, size_t length) {
    uint8_t line[SILIENVO_LINE];
    for (uint64_t number = 0;; number++) {
        SilienvoAnswer answer = silienvo_line(file, length, number, line, sizeof line);
        if (answer.kind != SILIENVO_WRITTEN) {
            if (answer.number != 10) {
                refused("clauses", answer.number, (unsigned long long)answer.value);
            }
            return;
        }
        fwrite(line, 1, (size_t)answer.value, stdout);
    }
}

/* A reply that never came is refused, and so is one that was cut. */
static void print_reply(const uint8_t *file, size_t length, const char *text, size_t text_length, size_t count) {
    uint8_t labels[SILIENVO_MOST_LABELS];
    SilienvoAnswer answer = silienvo_reply(file, length, (const uint8_t *)text, text_length, labels, sizeof labels);
    switch (answer.kind) {
    case SILIENVO_ACCEPTED:
        printf("reply: accepted:");
        print_labels(labels, count);
        break;
    case SILIENVO_CLAIMED: printf("reply: claimed\n"); break;
    case SILIENVO_UNKNOWN: printf("reply: unknown\n"); break;
    default: refused("reply", answer.number, (unsigned long long)answer.value);
    }
}

/* House part P1 with two connections: as a file, and from the editor's records. */
static void print_p1(void) {
    const uint8_t bytes[] = {1, 12, 0, 7, 30, 1};
    const SilienvoConnection records[] = {{1, 12, 0}, {7, 30, 1}};
    uint8_t file[SILIENVO_MOST_P1_FILE], labels[SILIENVO_MOST_LABELS];
    SilienvoAnswer written = silienvo_p1_write(bytes, sizeof bytes, 3, file, sizeof file);
    if (written.kind == SILIENVO_WRITTEN) {
        printf("P1: a file of %llu bytes\n", (unsigned long long)written.value);
    } else {
        refused("P1", written.number, (unsigned long long)written.value);
    }
    print_verdict("P1", silienvo_p1_route(records, 2, 3, BUDGET, labels, sizeof labels), labels, 2);
}

static void print_panel(const SilienvoPanel *panel) {
    SilienvoAnswer red = silienvo_panel_red(panel);
    printf("panel: %u connections, loads", panel->connections);
    for (unsigned column = 1; column <= panel->columns; column++) {
        printf(" %u", panel->loads[column]);
    }
    if (red.kind == SILIENVO_RED) {
        printf(", red at column %llu\n", (unsigned long long)red.value);
    } else {
        printf("\n");
    }
}

/* The panel of an editor: two nets over one track, and one net in two pieces. */
static void edit(void) {
    SilienvoPanel panel;
    SilienvoAnswer answer = silienvo_panel_make(&panel, 6, 1);
    if (answer.kind != SILIENVO_DONE) {
        refused("panel", answer.number, (unsigned long long)answer.value);
        return;
    }
    silienvo_panel_add(&panel, 1, 4, 2);
    silienvo_panel_add(&panel, 3, 6, 4);
    print_panel(&panel);
    silienvo_panel_drop(&panel, 2);
    silienvo_panel_add(&panel, 3, 6, 2);
    print_panel(&panel);
    silienvo_panel_move(&panel, 1, 1, 1);
    print_panel(&panel);
    answer = silienvo_panel_move(&panel, 3, 1, 300);
    refused("panel", answer.number, (unsigned long long)answer.value);
    silienvo_panel_clear(&panel);
    print_panel(&panel);
}

/* A panel of part P1, routed. */
static void route_panel(void) {
    SilienvoPanel panel;
    uint8_t labels[SILIENVO_MOST_LABELS];
    silienvo_panel_make(&panel, 30, 8);
    silienvo_panel_add(&panel, 1, 12, 0);
    silienvo_panel_add(&panel, 7, 30, 1);
    print_verdict("panel", silienvo_panel_p1_route(&panel, 3, BUDGET, labels, sizeof labels), labels, panel.connections);
}

int main(int count, char **words) {
    static uint8_t file[MOST_FILE];
    uint8_t labels[SILIENVO_MOST_LABELS];
    FILE *source = count == 2 ? fopen(words[1], "rb") : NULL;
    size_t length = source ? fread(file, 1, sizeof file, source) : 0;
    if (!source || ferror(source) || !feof(source)) {
        fprintf(stderr, "usage: route-c FILE, a job file of less than 4,096 bytes\n");
        return 4;
    }
    fclose(source);

    SilienvoJob job = silienvo_read(file, length);
    if (job.kind != SILIENVO_JOB) {
        refused("job", job.number, (unsigned long long)job.place);
        return fflush(stdout) == 0 ? 3 : 4;
    }
    printf("job: N = %u, T = %u, M = %u, K = %u, connections from byte %llu\n", job.columns, job.tracks, job.connections, job.limit, (unsigned long long)job.start);

    SilienvoAnswer verdict = silienvo_route(file, length, BUDGET, labels, sizeof labels);
    print_verdict("route", verdict, labels, job.connections);
    if (verdict.kind == SILIENVO_ROUTED) {
        SilienvoAnswer judged = silienvo_judge(file, length, labels, job.connections);
        printf("judge: %s\n", judged.kind == SILIENVO_LEGAL ? "legal" : "refused");
        print_rows(file, length, labels, job.connections);
    }
    print_clauses(file, length);
    print_reply(file, length, "s UNKNOWN\n", 10, job.connections);
    print_reply(file, length, "", 0, job.connections);
    print_p1();
    edit();
    route_panel();
    if (fflush(stdout) != 0 || ferror(stdout)) {
        fprintf(stderr, "route-c: the answer was not written whole\n");
        return 4;
    }
    return verdict.kind == SILIENVO_ROUTED ? 0 : verdict.kind == SILIENVO_UNROUTABLE ? 1 : 2;
}
