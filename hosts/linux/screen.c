#define _DEFAULT_SOURCE
#include "screen.h"

#include "words.h"

#include <stdarg.h>
#include <stdio.h>
#include <string.h>
#include <sys/ioctl.h>
#include <unistd.h>

/* How often it is drawn: for the clocks on it, and at most so often when things happen. */
enum { EVERY = SECOND, AT_MOST_EVERY = SECOND / 4 };

/* Where no size is known; and the rows that are kept free below: that of the orders, and one for its new line. */
enum { ROWS = 24, COLUMNS = 80, ROWS_BELOW = 2 };

/* A row at a time, from the first to the last that there is room for. */
struct page {
    unsigned row, rows, columns;
};

/* Of the machine's time, since that is whose eyes it is for. */
static uint64_t machine(const struct screen *screen, uint64_t time) {
    return time * screen->pace->faster;
}

/* ---- rows */

/* A row of text, cut off at the terminal's edge, in place of what stood there before. */
static void put(struct page *page, const char *format, ...) {
    char text[SCREEN_WIDE + 64];
    va_list values;
    if (page->row >= page->rows) return;
    va_start(values, format);
    vsnprintf(text, sizeof text, format, values);
    va_end(values);
    printf("\033[%u;1H\033[K%.*s", ++page->row, (int)page->columns, text);
}

/* How long ago something was, in words. */
static const char *ago(const struct screen *screen, uint64_t then) {
    static char text[24];
    uint64_t now = pace_now(screen->pace), seconds = (now - (then < now ? then : now)) / SECOND;
    if (seconds < 60)
        snprintf(text, sizeof text, "%u s ago", (unsigned)seconds);
    else
        snprintf(text, sizeof text, "%u min ago", (unsigned)(seconds / 60));
    return text;
}

static void put_head(struct page *page, const struct screen *screen) {
    const struct options *options = screen->options;
    unsigned seconds = (unsigned)(pace_now(screen->pace) / SECOND);
    char faster[32] = "";
    if (options->faster > 1) snprintf(faster, sizeof faster, ", %u times faster", options->faster);
    put(page, "Nadrelgos on %s, %u %s%s, up %u:%02u:%02u", options->device, options->baud, options->format, faster,
        seconds / 3600, seconds / 60 % 60, seconds % 60);
}

/* The exchange that is on. */
static void put_exchange(struct page *page, const struct screen *screen) {
    const struct panel *panel = screen->panel;
    unsigned position = nadrelgos_board(screen->wait);
    if (screen->is_lost)
        put(page, "the device is lost: waiting until it can be opened again");
    else if (panel->coordinator.stand.stage == RESTING || position == 0)
        put(page, "no exchange is on");
    else
        put(page, "%s: position %u, address %u, %s", words_exchange(nadrelgos_exchange(screen->wait)), position,
            words_address(panel, position), ago(screen, screen->since));
}

/* ---- the table */

static void put_board(struct page *page, const struct screen *screen, unsigned position) {
    static const char *const marks[] = {"-", "x", "xx", "xxx"};
    const struct nadrelgos_node *node = &screen->panel->nodes[position - 1];
    char kind[32];
    snprintf(kind, sizeof kind, "%s (%u)", words_kind(node->kind), node->kind);
    put(page, "%3u %4u  %-20s %s %5u %016llx %-6s %-4s %s", position, words_address(screen->panel, position), kind,
        words_version(node->version), node->index, (unsigned long long)node->session, marks[node->misses & 3],
        node->owed ? "owed" : "-", ago(screen, screen->heard[position - 1]));
}

static void put_table(struct page *page, const struct screen *screen) {
    const struct panel *panel = screen->panel;
    unsigned listed = 0;
    put(page, "pos addr  type                 ver index session          misses list heard");
    for (unsigned p = 1; p <= panel->coordinator.setup.k; p++) {
        if (panel->nodes[p - 1].kind == 0) continue;
        put_board(page, screen, p);
        listed++;
    }
    if (listed == 0) put(page, "  - nobody is listed");
}

/* ---- counts, and what happened */

static void put_counts(struct page *page, const struct screen *screen) {
    const struct counts *counts = screen->counts;
    char refused[SCREEN_WIDE];
    size_t length = 0;
    put(page, "offers %lu   carried %lu   misses %lu   joins %lu   drops %lu   noise %llu bytes", counts->offers,
        counts->carried, counts->misses, counts->joins, counts->drops, (unsigned long long)counts->noise);
    refused[0] = '\0';
    for (unsigned i = 1; i < REFUSALS && length < sizeof refused; i++)
        if (counts->refused[i])
            length += (size_t)snprintf(refused + length, sizeof refused - length, "  %u %s: %lu", i, words_refusal(i),
                                       counts->refused[i]);
    put(page, "refused:%s", length ? refused : "  none");
}

/* As many of the last lines as there is room for. */
static void put_lines(struct page *page, const struct screen *screen) {
    unsigned long room = page->rows > page->row + 1 ? page->rows - page->row - 1 : 0;
    unsigned long count = screen->happened;
    if (count > SCREEN_LINES) count = SCREEN_LINES;
    if (count > room) count = room;
    for (unsigned long n = screen->happened - count; n < screen->happened; n++) {
        const struct line *line = &screen->lines[n % SCREEN_LINES];
        put(page, "%9.1f  %s", (double)line->at / SECOND, line->text);
    }
    while (page->row < page->rows) put(page, "%s", "");
}

/* ---- drawing */

static struct page page_begin(void) {
    struct winsize size = {0};
    bool is_known = ioctl(STDOUT_FILENO, TIOCGWINSZ, &size) == 0 && size.ws_row && size.ws_col;
    unsigned rows = is_known ? size.ws_row : ROWS;
    struct page page = {0, rows > ROWS_BELOW ? rows - ROWS_BELOW : 1, is_known ? size.ws_col : COLUMNS};
    return page;
}

/* The row of the orders stays as the terminal echoes it, until one is done. */
static void put_order(struct screen *screen, const struct page *page) {
    if (!screen->options->notes) return;
    if (screen->is_obeyed)
        printf("\033[%u;1Horder: \033[J", page->rows + 1);
    else
        printf("\0338"); /* the cursor as it was */
    screen->is_obeyed = false;
}

static void draw(struct screen *screen) {
    struct page page = page_begin();
    if (page.rows != screen->rows) screen->is_obeyed = true; /* the row of the orders is another */
    screen->rows = page.rows;
    if (screen->options->notes && !screen->is_obeyed) printf("\0337"); /* keeps the cursor */
    put_head(&page, screen);
    put_exchange(&page, screen);
    put(&page, "%s", "");
    put_table(&page, screen);
    put(&page, "%s", "");
    put_counts(&page, screen);
    put(&page, "%s", "");
    put_lines(&page, screen);
    put_order(screen, &page);
    fflush(stdout);
    clearerr(stdout);
}

void screen_begin(struct screen *screen, const struct options *options, const struct panel *panel,
                  const struct counts *counts, const struct pace *pace) {
    static char buffer[1 << 15]; /* a whole screen goes out at once */
    screen->options = options;
    screen->panel = panel;
    screen->counts = counts;
    screen->pace = pace;
    screen->is_obeyed = true;
    setvbuf(stdout, buffer, _IOFBF, sizeof buffer);
    /* the terminal's other screen, cleared; without orders the cursor is hidden */
    printf("\033[?1049h\033[2J%s", options->notes ? "" : "\033[?25l");
}

void screen_sent(struct screen *screen, uint64_t wait, uint64_t at) {
    screen->wait = wait;
    screen->since = at;
}

void screen_heard(struct screen *screen, unsigned position, uint64_t at) {
    screen->heard[position - 1] = at;
}

/* Printable characters only: what boards say must not move the cursor. */
static void copy_printable(char *to, size_t room, const char *text) {
    size_t i = 0;
    for (; text[i] && i + 1 < room; i++) to[i] = text[i] >= ' ' && text[i] <= '~' ? text[i] : '.';
    to[i] = '\0';
}

void screen_note(struct screen *screen, const struct event *event) {
    if (strcmp(event->name, "note") == 0) screen->is_obeyed = true;
    if (event->is_common) return;
    size_t n = screen->happened++ % SCREEN_LINES;
    screen->lines[n].at = event->at;
    copy_printable(screen->lines[n].text, SCREEN_WIDE, event->words);
    uint64_t soon = screen->drawn + machine(screen, AT_MOST_EVERY);
    if (soon < screen->due) screen->due = soon;
}

void screen_refresh(struct screen *screen) {
    uint64_t now = pace_now(screen->pace);
    if (now < screen->due) return;
    draw(screen);
    screen->drawn = now;
    screen->due = now + machine(screen, EVERY);
}

void screen_end(struct screen *screen) {
    (void)screen;
    printf("\033[?25h\033[?1049l");
}
