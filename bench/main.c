/* main: checks that the proved code and the counterpart give the same, then times them side by side and prints a table.
 * main before, where it is compiled with BEFORE: times the wire's proved functions against those of an earlier commit.
 * main loop HOW KIND BOARDS TIMES: runs one step so many times, for a count of instructions.
 * main list SIDE CAPTURE TIMES: finds all in a capture so many times, for the same. */
#define _POSIX_C_SOURCE 199309L
#include "inside.h"
#include "same.h"
#include "shared.h"
#include "work.h"

#include <stdio.h>
#include <stdlib.h>
#include <string.h>
#include <time.h>

static double now(void) {
    struct timespec t;
    clock_gettime(CLOCK_MONOTONIC, &t);
    return (double)t.tv_sec * 1e9 + (double)t.tv_nsec;
}

static size_t good_counterpart(struct work *w, size_t times) {
    size_t sum = 0;
    while (times-- > 0) sum += ct_good(w->bytes, w->count);
    return sum;
}

static size_t read_counterpart(struct work *w, size_t times) {
    size_t sum = 0;
    while (times-- > 0) {
        struct ct_frame f;
        if (ct_read(w->subnet, w->bytes, w->count, &f) == NADRELGOS_ACCEPTED) sum += f.header.message;
    }
    return sum;
}

static size_t write_counterpart(struct work *w, size_t times) {
    size_t sum = 0;
    struct ct_header header;
    memcpy(&header, w->bytes, sizeof header);
    while (times-- > 0)
        sum += ct_write(&header, w->bytes + 10, w->count - CT_OVERHEAD, w->out, sizeof w->out) == NADRELGOS_ACCEPTED;
    return sum;
}

/* Here and not in wire.c, which is compiled for an earlier commit too, and that may not have it. */
static size_t write_ready_proved(struct work *w, size_t times) {
    size_t sum = 0;
    struct ct_header header;
    memcpy(&header, w->bytes, sizeof header);
    struct ready ready = measure_prepare(header);
    while (times-- > 0)
        sum += measure_write_ready(ready, w->bytes + 10, w->count - CT_OVERHEAD, w->out, sizeof w->out).written;
    return sum;
}

/* Goes on after each frame found, as framelist does. */
static size_t list_counterpart(struct work *w, size_t times) {
    size_t frames = 0;
    while (times-- > 0)
        for (size_t at = 0;;) {
            ct_finding f = ct_find(w->subnet, w->bytes + at, w->count - at, w->count);
            if (f.number != NADRELGOS_FOUND) break;
            at += f.start + f.length;
            frames++;
        }
    return frames;
}

static const struct ct_joiner nobody; /* no join is timed */

/* One step on each panel. They are set anew before, outside the time that is taken. */
static size_t steps_counterpart(struct work *w, size_t times) {
    size_t sum = 0;
    for (size_t i = 0; i < times; i++)
        sum += nadrelgos_answer(
            step_counterpart(&w->panels[i], w->event, &nobody, w->acks[i], w->ack_count, w->out, sizeof w->out));
    return sum;
}

static size_t steps_lent(struct work *w, size_t times) {
    size_t sum = 0;
    for (size_t i = 0; i < times; i++)
        sum += nadrelgos_answer(nadrelgos_step(&w->panels[i].coordinator, w->panels[i].nodes, NADRELGOS_NODES, w->event,
                                               0, 0, 0, 0, w->acks[i], w->ack_count, w->out, sizeof w->out));
    return sum;
}

/* The steps that are timed: a name, a word, the event, and the version of the board to which the list is owed, 0 where
   it is owed to none. */
struct kind_of_step {
    const char *name, *word;
    uint8_t event, owed;
};
static const struct kind_of_step kinds[] = {
    {"turn: an offer", "turn", NADRELGOS_EVENT_TURN, 0},
    {"turn: a list, 2.0", "list", NADRELGOS_EVENT_TURN, NADRELGOS_VERSION_LATER},
    {"turn: a list, 1.0", "condensed", NADRELGOS_EVENT_TURN, NADRELGOS_VERSION_1_0},
    {"frame: its ACK", "frame", NADRELGOS_EVENT_FRAME, 0},
    {"quiet: a miss", "quiet", NADRELGOS_EVENT_QUIET, 0},
};
enum { KINDS = sizeof kinds / sizeof *kinds };

/* Panels that are about to offer the bus or to send a list; for an event in a wait, those that have offered it. */
static void set_panels(struct work *w, size_t boards, const struct kind_of_step *kind) {
    for (size_t i = 0; i < PANELS; i++) {
        struct panel *p = &w->panels[i];
        make_panel(p, boards, i * 5 % boards);
        if (kind->owed) owe_list(p, 1 + i * 5 % boards, kind->owed);
        if (kind->event != NADRELGOS_EVENT_TURN) {
            ct_turn(&p->coordinator, p->nodes, NADRELGOS_NODES, w->out, sizeof w->out);
            w->ack_count = make_ack(&p->coordinator, p->nodes, p->coordinator.stand.board, w->acks[i]);
        }
    }
    w->event = kind->event;
}

/* ---- time ---- */

static double clock_cost;
static volatile size_t sink;

/* The best of many rounds, in which the jobs take turns, in nanoseconds a call. */
static void race(struct work *w, job *const *jobs, size_t job_count, size_t times, size_t rounds, double *best) {
    static struct panel kept[PANELS];
    memcpy(kept, w->panels, sizeof kept);
    for (size_t j = 0; j < job_count; j++) best[j] = 1e18;
    for (size_t round = 0; round < rounds; round++)
        for (size_t j = 0; j < job_count; j++) {
            memcpy(w->panels, kept, sizeof kept);
            double start = now();
            sink += jobs[j](w, times);
            double spent = (now() - start - clock_cost) / (double)times;
            if (spent < best[j]) best[j] = spent;
        }
}

static void time_clock(void) {
    clock_cost = 1e18;
    for (int i = 0; i < 20000; i++) {
        double start = now(), spent = now() - start;
        if (spent < clock_cost) clock_cost = spent;
    }
}

/* ---- tables ---- */

/* One side of the wire's table. */
struct side {
    const char *name;
    job *good, *read, *write, *list;
};

static const struct side proved = {"proved", good_proved, read_proved, write_proved, list_proved};
static const struct side counterpart = {"C -O2", good_counterpart, read_counterpart, write_counterpart, list_counterpart};

#ifdef BEFORE
/* wire.c over the functions of an earlier commit: bench/run has given all of them these names */
job good_before, read_before, write_before, list_before;
static const struct side before = {"before", good_before, read_before, write_before, list_before};
#endif

static void row(const char *name, struct work *w, job *ours, job *others, size_t times, size_t rounds) {
    double best[2];
    race(w, (job *[]){ours, others}, 2, times, rounds, best);
    printf("%-34s %12.1f %12.1f %8.2f\n", name, best[0], best[1], best[0] / best[1]);
}

static void wire_table(struct work *w, const struct side *other) {
    static uint8_t full[CT_FRAME], empty[CT_FRAME], capture[CAPTURE];
    size_t full_count = make_frame(CT_PAYLOAD, full), empty_count = make_frame(0, empty);
    w->subnet = SUBNET;
    printf("%-34s %12s %12s %8s\n", "ns a call", proved.name, other->name, "ratio");
    w->bytes = full, w->count = full_count;
    row("checksum, 252 bytes", w, proved.good, other->good, 20, 4000);
    w->bytes = empty, w->count = empty_count;
    row("checksum, 12 bytes", w, proved.good, other->good, 200, 4000);
    w->bytes = full, w->count = full_count;
    row("read, payload of 240", w, proved.read, other->read, 20, 4000);
    w->bytes = empty, w->count = empty_count;
    row("read, payload of 0", w, proved.read, other->read, 200, 4000);
    w->bytes = full, w->count = full_count;
    row("write, payload of 240", w, proved.write, other->write, 20, 4000);
    w->bytes = empty, w->count = empty_count;
    row("write, payload of 0", w, proved.write, other->write, 200, 4000);
    w->bytes = capture, w->count = CAPTURE;
    w->subnet = make_typical(capture);
    row("find all in 4,096 bytes, typical", w, proved.list, other->list, 1, 400);
    w->subnet = make_quiet(capture);
    row("find all in 4,096 bytes, no noise", w, proved.list, other->list, 1, 400);
    w->subnet = make_worst(capture);
    row("find in 4,096 bytes, worst", w, proved.list, other->list, 1, 60);
}

/* From a ready header beside `write`, both ours. */
static void ready_table(struct work *w) {
    static const size_t lengths[] = {CT_PAYLOAD, 0};
    static uint8_t frame[CT_FRAME];
    printf("\n%-34s %12s %12s %8s\n", "ns a call", "write_ready", "write", "ratio");
    for (size_t i = 0; i < 2; i++) {
        char name[64];
        w->bytes = frame, w->count = make_frame(lengths[i], frame);
        snprintf(name, sizeof name, "payload of %zu", lengths[i]);
        row(name, w, write_ready_proved, write_proved, 20, 4000);
    }
}

/* Frames of 252 bytes with messages inside messages, beside the frame's own reader and writer, all ours. */
static void inside_table(struct work *w) {
    static uint8_t frame[CT_FRAME];
    w->subnet = SUBNET;
    for (int writes = 0; writes < 2; writes++) {
        printf("\n%-34s %12s %12s %8s\n", "ns a call", writes ? "wrap" : "unwrap", writes ? "write" : "read", "ratio");
        for (size_t depth = 0; depth <= NADRELGOS_LEVELS; depth++) {
            char name[64];
            w->bytes = frame, w->count = make_inside(depth, frame);
            snprintf(name, sizeof name, "252 bytes, levels: %zu", depth);
            row(name, w, writes ? wrap_proved : unwrap_proved, writes ? write_proved : read_proved, 20, 4000);
        }
    }
}

/* In images without a free slot: 40 heads are looked at, or 80, those of both; a store finds its sector in the last. */
static void shared_table(struct work *w) {
    printf("\n%-34s %12s %12s %8s\n", "ns a call", proved.name, counterpart.name, "ratio");
    make_shared(SECTOR_LAST);
    row("look-up, found in slot 40", w, hold_proved, hold_counterpart, 200, 4000);
    make_shared(SECTOR_NONE);
    row("look-up, in neither image", w, hold_proved, hold_counterpart, 200, 4000);
    make_shared(SECTOR_LAST);
    row("store, 200 bytes in slot 40", w, store_proved, store_counterpart, 200, 4000);
}

enum { LENT, COUNTERPART, STEPPERS };
static job *const steppers[STEPPERS] = {steps_lent, steps_counterpart};

static const size_t board_counts[] = {1, 8, 40};
static double step_times[KINDS][3][STEPPERS]; /* kind, boards, stepper */

static void step_table(struct work *w) {
    printf("\n%-34s %12s %12s %8s\n", "ns a step", "lent", "C -O2", "ratio");
    for (size_t k = 0; k < KINDS; k++)
        for (size_t b = 0; b < 3; b++) {
            double *best = step_times[k][b];
            char name[64];
            set_panels(w, board_counts[b], &kinds[k]);
            race(w, steppers, STEPPERS, PANELS, 4000, best);
            snprintf(name, sizeof name, "%s, %zu board%s", kinds[k].name, board_counts[b], b ? "s" : "");
            printf("%-34s %12.1f %12.1f %8.2f\n", name, best[LENT], best[COUNTERPART], best[LENT] / best[COUNTERPART]);
        }
}

/* How a time grows from each size to the next. */
static void growth_row(const char *name, const double *times, size_t count) {
    printf("%-34s", name);
    for (size_t i = 0; i < count; i++) {
        printf(" %10.0f", times[i]);
        if (i > 0) printf(" (x%.2f)", times[i] / times[i - 1]);
    }
    printf("\n");
}

static void growth_table(struct work *w) {
    static uint8_t capture[CAPTURE];
    static const size_t sizes[] = {512, 1024, 2048, 4096};
    printf("\n%-34s %10s %10s %18s %17s\n", "growth: ns over bytes", "512", "1,024", "2,048", "4,096");
    for (int worst = 0; worst < 2; worst++) {
        double times[2][4];
        w->bytes = capture;
        w->subnet = (worst ? make_worst : make_typical)(capture);
        for (size_t s = 0; s < 4; s++) {
            double best[2];
            w->count = sizes[s];
            race(w, (job *[]){list_proved, list_counterpart}, 2, 1, worst ? 60 : 400, best);
            times[0][s] = best[0], times[1][s] = best[1];
        }
        growth_row(worst ? "find, worst, proved" : "find all, typical, proved", times[0], 4);
        growth_row(worst ? "find, worst, C" : "find all, typical, C", times[1], 4);
    }
    printf("\n%-34s %10s %10s %18s\n", "growth: ns over boards", "1", "8", "40");
    static const char *const stepper_names[STEPPERS] = {"lent", "C"};
    for (size_t k = 0; k < KINDS; k++)
        for (size_t j = 0; j < STEPPERS; j++) {
            char name[64];
            double times[3];
            for (size_t b = 0; b < 3; b++) times[b] = step_times[k][b][j];
            snprintf(name, sizeof name, "%s, %s", kinds[k].name, stepper_names[j]);
            growth_row(name, times, 3);
        }
}

/* ---- one step, or one capture, over and over ---- */

int main(int argc, char **argv);

static bool loop(const char *what, const char *kind, size_t boards, size_t times) {
    static struct work w;
    static const char *const names[STEPPERS] = {"lent", "counterpart"};
    for (size_t k = 0; k < KINDS; k++)
        for (size_t j = 0; j < STEPPERS; j++)
            if (strcmp(what, names[j]) == 0 && strcmp(kind, kinds[k].word) == 0 && boards >= 1 &&
                boards <= NADRELGOS_NODES) {
                while (times-- > 0) {
                    set_panels(&w, boards, &kinds[k]);
                    sink += steppers[j](&w, 1);
                }
                return true;
            }
    return false;
}

static bool list(const char *what, const char *capture_name, size_t times) {
    static uint8_t capture[CAPTURE];
    static struct work w = {.bytes = capture, .count = CAPTURE};
    static uint8_t (*const makers[])(uint8_t *) = {make_typical, make_quiet, make_worst};
    static const char *const capture_names[] = {"typical", "quiet", "worst"};
    static job *const listers[] = {list_proved, list_counterpart};
    static const char *const names[] = {"proved", "counterpart"};
    for (size_t c = 0; c < 3; c++)
        for (size_t j = 0; j < 2; j++)
            if (strcmp(capture_name, capture_names[c]) == 0 && strcmp(what, names[j]) == 0) {
                job *volatile lister = listers[j]; /* called, whatever the compiler would make of it */
                w.subnet = makers[c](capture);
                sink += lister(&w, times);
                return true;
            }
    return false;
}

/* Says where main is loaded, for whoever counts in a log of addresses. */
static int done(bool known) {
    if (known) {
        printf("%zx\n", (size_t)(uintptr_t)main);
        return 0;
    }
    fprintf(stderr, "usage: main [loop lent|counterpart turn|list|condensed|frame|quiet BOARDS TIMES]\n"
                    "       main [list proved|counterpart typical|quiet|worst TIMES]\n");
    return 2;
}

int main(int argc, char **argv) {
    static struct work w;
    if (argc == 6 && strcmp(argv[1], "loop") == 0)
        return done(loop(argv[2], argv[3], strtoul(argv[4], NULL, 10), strtoul(argv[5], NULL, 10)));
    if (argc == 5 && strcmp(argv[1], "list") == 0) return done(list(argv[2], argv[3], strtoul(argv[4], NULL, 10)));
#ifdef BEFORE
    if (argc == 2 && strcmp(argv[1], "before") == 0) {
        time_clock();
        wire_table(&w, &before);
        ready_table(&w);
        return 0;
    }
#endif
    if (argc != 1) return done(false);
    if (!all_same()) return 1;
    printf("The proved code and the counterpart give the same answers, bytes and records on all that is timed.\n\n");
    time_clock();
    wire_table(&w, &counterpart);
    ready_table(&w);
    inside_table(&w);
    shared_table(&w);
    step_table(&w);
    growth_table(&w);
    return 0;
}
