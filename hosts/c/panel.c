/*
 * The panel's loop. The wire and the clock are behind struct port (port.h): put your own there, and leave out the calls
 * tell_..., which say what happens.
 */
#include "panel.h"

#include "tell.h"

/* For how many seconds discovery is left alone after somebody had the address at stake and gave no ID. */
enum { LEAVE_ALONE = 300 };

/* Sends what the last call wrote. */
static void send_written(const struct panel *panel, const struct port *port, uint64_t answer) {
    if (nadrelgos_written(answer) > 0) port->send(port->line, panel->out, nadrelgos_written(answer));
}

/* A request of a board for this host. Its type is received[7], its payload begins at received[10] and is received[9]
   bytes long. Shared data without a sector is left, and so is a request for it with more than that. */
static void deliver(const struct panel *panel, uint64_t wait) {
    const uint8_t *payload = panel->received + 10;
    size_t count = panel->received[9];
    if (panel->received[7] == NADRELGOS_SET_SHARED_DATA && count > 0) {
        struct nadrelgos_storing stored = shared_store(&panel->shared, payload, count);
        tell_stored(panel, wait, stored);
    } else if (panel->received[7] == NADRELGOS_GET_SHARED_DATA && count == 1) {
        struct served served = shared_serve(&panel->shared, *payload);
        tell_served(panel, wait, &served);
    } else {
        tell_request(panel, wait);
    }
}

/* The wait is over by this answer: when to look for boards again. After a join at once: others may have held back. */
static void plan_look(struct panel *panel, const struct port *port, uint64_t wait, uint64_t answer) {
    uint32_t now = port->seconds(port->line);
    bool is_over = panel->coordinator.stand.stage == 0;
    if (nadrelgos_joined(answer))
        panel->look = now;
    else if (nadrelgos_exchange(wait) == NADRELGOS_IDENTIFY && is_over)
        panel->look = now + LEAVE_ALONE;
}

/* The time for the reply has passed. */
static void be_quiet(struct panel *panel, const struct port *port, uint64_t wait) {
    struct nadrelgos_node before = panel->nodes[nadrelgos_board(wait) - 1];
    uint64_t answer = nadrelgos_quiet(&panel->coordinator, panel->nodes);
    tell_quiet(panel, wait, before, answer);
    if (!nadrelgos_refusal(answer)) plan_look(panel, port, wait, answer);
}

/* A frame has come in. Whether it ended the wait. */
static bool take_frame(struct panel *panel, const struct port *port, size_t count, uint64_t wait) {
    uint64_t answer =
        nadrelgos_frame(&panel->coordinator, panel->nodes, panel->received, count, panel->out, sizeof panel->out);
    tell_frame(panel, wait, count, answer);
    if (nadrelgos_refusal(answer)) return false;
    send_written(panel, port, answer);
    if (nadrelgos_answer(answer) == NADRELGOS_DELIVER) deliver(panel, wait);
    if (nadrelgos_answer(answer) == NADRELGOS_WAIT) {
        port->start(port->line); /* it was an ACK, and the response is still to come */
        return false;
    }
    plan_look(panel, port, wait, answer);
    return true;
}

/* Sends what the answer wrote, and listens until the wait is over. Frames that are refused do not stop the timer. */
static void send_and_listen(struct panel *panel, const struct port *port, uint64_t wait) {
    send_written(panel, port, wait);
    port->start(port->line);
    for (;;) {
        size_t count = port->receive(port->line, panel->received, sizeof panel->received);
        if (count > 0 && take_frame(panel, port, count, wait)) return;
        if (port->quiet(port->line)) {
            be_quiet(panel, port, wait);
            return;
        }
    }
}

/* Looks for boards that have no address, where it is time. What comes of it goes on by turns. */
static void look(struct panel *panel, const struct port *port) {
    uint32_t now = port->seconds(port->line);
    if (now < panel->look) return;
    uint64_t answer = nadrelgos_discover(&panel->coordinator, panel->nodes, panel->out, sizeof panel->out);
    tell_discover(panel, answer);
    unsigned refusal = nadrelgos_refusal(answer);
    bool at_next_chance = refusal == NADRELGOS_BUSY || refusal == NADRELGOS_HELD;
    if (!at_next_chance) panel->look = now + panel->plan.look_every;
    if (!refusal) send_and_listen(panel, port, answer);
}

/* Nobody is listed: there is nothing to do until it is time to look. */
static void pause_and_look(struct panel *panel, const struct port *port) {
    uint32_t now = port->seconds(port->line);
    if (now < panel->look) port->pause(port->line, panel->look - now);
    look(panel, port);
}

/* The panel's turn, and what comes of it. The answer to the turn. */
static uint64_t take_turn(struct panel *panel, const struct port *port) {
    uint64_t answer = nadrelgos_turn(&panel->coordinator, panel->nodes, panel->out, sizeof panel->out);
    tell_turn(panel, answer);
    if (!nadrelgos_refusal(answer)) send_and_listen(panel, port, answer);
    return answer;
}

bool panel_set_up(struct panel *panel) {
    const struct plan *plan = &panel->plan;
    uint64_t answer =
        nadrelgos_setup(&panel->coordinator, panel->nodes, NADRELGOS_NODES, plan->addresses, plan->addresses_count,
                        plan->subnet, plan->internal, plan->mac, plan->session);
    tell_setup(panel, answer);
    panel->look = 0;
    return nadrelgos_refusal(answer) == NADRELGOS_ACCEPTED;
}

bool panel_go_round(struct panel *panel, const struct port *port) {
    uint64_t answer = take_turn(panel, port);
    switch (nadrelgos_refusal(answer)) {
    case NADRELGOS_ACCEPTED:
        /* after an offer nothing is due but what its answer brought, and then the discovery is refused */
        if (nadrelgos_exchange(answer) == NADRELGOS_OFFER) look(panel, port);
        return true;
    case NADRELGOS_NOBODY_LISTED:
        pause_and_look(panel, port);
        return true;
    case NADRELGOS_STATE_UNFIT:
        return panel_set_up(panel); /* no setup yet, or something has written to the records: a fresh start */
    default:
        return false; /* none is given where no wait is on and there is room */
    }
}
