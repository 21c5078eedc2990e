#include "house.h"

#include "chance.h"
#include "client.h"
#include "noise.h"
#include "tell.h"

#include <string.h>

struct board *house_add(struct house *house, const char *name, uint8_t kind, uint64_t mac) {
    if (house->count == HOUSE_BOARDS) return NULL;
    struct board *board = &house->boards[house->count++];
    memset(board, 0, sizeof *board);
    strncpy(board->name, name, sizeof board->name - 1);
    board->kind = kind;
    board->mac = mac;
    board->chance = chance_start(house->seed, mac);
    return board;
}

struct board *house_find(struct house *house, const char *name) {
    for (unsigned i = 0; i < house->count; i++)
        if (strcmp(house->boards[i].name, name) == 0) return &house->boards[i];
    return NULL;
}

void house_start(struct house *house, const struct options *options) {
    static const struct {
        const char *name;
        uint8_t kind;
        uint64_t mac;
        bool is_old;
    } first[] = {
        {"thermostat", 1, 0x1A2B00000101, false},
        {"furnace", FURNACE, 0x1A2B00000202, true},
        {"heatpump", 5, 0x1A2B00000505, false},
    };
    pace_begin(&house->pace, options->faster);
    ear_start(&house->ear, options->faster);
    line_start(&house->line, house->terminal.master, options->baud, options->seed);
    house->seed = options->seed;
    for (unsigned i = 0; i < sizeof first / sizeof *first; i++) {
        struct board *board = house_add(house, first[i].name, first[i].kind, first[i].mac);
        board->is_old = first[i].is_old;
        board->plugged = !options->empty;
        if (!options->empty) board_power_up(board);
    }
}

/* Something begins on the line: all who count a slot delay and hear it hold back, but for the one that it is from. */
static void hold_back(struct house *house, const struct board *from) {
    for (unsigned i = 0; i < house->count; i++) {
        struct board *board = &house->boards[i];
        if (board != from && board->plugged) client_hold_back(board);
    }
}

/* A frame of the panel goes to all on the line. A frame from elsewhere is none: the panel alone is at the other end
   (Data Link Specification, 6.2). */
static void hand_over(struct house *house, const uint8_t *frame, uint64_t at) {
    if (frame[AT_SOURCE] != WIRE_PANEL) return;
    for (unsigned i = 0; i < house->count; i++) {
        struct board *board = &house->boards[i];
        if (board->plugged && board->powered) board_hear(board, frame, at);
    }
}

/* The frames in what was heard, whose last byte came at that time. */
static void take_frames(struct house *house, bool silence, uint64_t at) {
    uint8_t frame[WIRE_MOST];
    while (ear_frame(&house->ear, silence, frame) > 0) hand_over(house, frame, at);
}

void house_hear(struct house *house, const uint8_t *bytes, size_t count) {
    uint64_t now = pace_now(&house->pace);
    for (size_t i = 0; i < count; i++) {
        hold_back(house, NULL);
        ear_take(&house->ear, bytes[i], now);
        take_frames(house, false, now);
    }
}

/* The board's first answer begins. One that is off the line speaks to nobody. */
static void speak(struct house *house, struct board *board, uint64_t at) {
    struct answer answer;
    uint8_t bytes[LINE_ROOM];
    board_next_answer(board, &answer);
    if (!board->plugged) return;
    size_t count = noise_around(&board->faults, &house->line.chance, &answer, bytes);
    line_begin(&house->line, bytes, count, at);
    house->speaker = board;
    house->speaks_request = answer.is_request;
    hold_back(house, board);
}

/* What the board does by itself: its address, its slot delay or its answer is due. */
static void let_act(struct house *house, struct board *board, uint64_t at) {
    struct memory *now = &board->now;
    if (now->address != 0 && client_forgotten(board) <= at) {
        client_give_up(board);
    } else if (now->in_slot && now->slot <= at && line_is_busy(&house->line)) {
        client_hold_back(board);
    } else {
        if (now->in_slot && now->slot <= at) client_answer(board);
        speak(house, board, at);
    }
}

/* The line's next piece goes out; with the last one the transmission ends. */
static void let_go(struct house *house) {
    line_go(&house->line);
    if (line_is_busy(&house->line)) return;
    if (house->speaker && house->speaks_request) tell("%s: request sent", house->speaker->name);
    house->speaker = NULL;
}

/* The board that has the next thing to do, if one has it before `due`; `due` is then when. */
static const struct board *next_board(const struct house *house, uint64_t *due) {
    uint64_t free = line_is_busy(&house->line) ? NEVER : house->line.free;
    const struct board *next = NULL;
    for (unsigned i = 0; i < house->count; i++) {
        uint64_t then = board_due(&house->boards[i], free);
        if (then >= *due) continue;
        *due = then;
        next = &house->boards[i];
    }
    return next;
}

uint64_t house_due(const struct house *house) {
    uint64_t due = line_due(&house->line), silence = ear_due(&house->ear);
    if (silence < due) due = silence;
    next_board(house, &due);
    return due;
}

/* Does what is due first, as of the time when it was due, so that being late changes no order. False where nothing
   is. */
static bool step(struct house *house, uint64_t now) {
    uint64_t line = line_due(&house->line), silence = ear_due(&house->ear);
    uint64_t due = line < silence ? line : silence;
    const struct board *board = next_board(house, &due);
    if (due > now) return false;
    if (board)
        let_act(house, &house->boards[board - house->boards], due);
    else if (due == line)
        let_go(house);
    else
        take_frames(house, true, house->ear.last);
    return true;
}

void house_run(struct house *house) {
    uint64_t now = pace_now(&house->pace);
    while (step(house, now)) continue;
}

void house_disturb(struct house *house, size_t count) {
    line_disturb(&house->line, count, pace_now(&house->pace));
    hold_back(house, NULL);
}

void house_cut(struct house *house, const struct board *board) {
    if (house->speaker != board) return;
    line_cut(&house->line);
    house->speaker = NULL;
}
