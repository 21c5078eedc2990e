/*
 * Nadrelgos: the coordinator of a ClimateTalk CT-485 bus, for firmware in C (C11) or C++ (C++11).
 *
 * The archive libpanel.a, which `tools/archive panel` proves and writes, has nadrelgos_setup, nadrelgos_step and, for
 * tools, nadrelgos_list, _clear and _mark. A second one, libfinder.a (`tools/archive finder`), has nadrelgos_find, for a
 * host that cuts the line's bytes at a silence; a firmware that has whole frames from elsewhere need not link it. A
 * third one, libdisplay.a (`tools/archive display`), reads and writes texts and faults for a display, a fourth one,
 * libencapsulation.a (`tools/archive encapsulation`), messages inside messages, and a fifth one, libshared.a
 * (`tools/archive shared`), keeps the shared data of boards. They are written in Rattle and proved to do what the
 * definitions under crates/ say, for every input; docs/PROMISES.md leads from each rule to its definition, its theorem
 * and its code. This header is not proved: it restates those definitions for whoever writes the firmware.
 * The archives are for x86-64; the assertions at the end stop a build whose records would be laid out otherwise. Of C's
 * library libpanel.a needs memcpy and memset and libencapsulation.a memcpy; the others need nothing. A call of
 * libpanel.a takes up to some 3.3 kilobytes of stack, one of libencapsulation.a up to 1.0, one of libshared.a up to 0.1:
 * `hosts/c/run stack` measures them.
 *
 * WHO OWNS WHAT
 *   The host owns all memory: one coordinator record, forty node records, the buffers, and two images where it keeps
 *   shared data. Nothing is allocated and nothing is kept between calls but what stands in coordinator and node records
 *   and in the network's copy of the shared data, so that a second panel is a second set of them. No call may run while
 *   another one on the same set has not returned.
 *   What the host owes, and no test can see:
 *     - each pointer is good for its count and aligned for its type, and is not null even where the count is 0;
 *     - records and buffers have been written before, if only with zeros;
 *     - no two things lent to one call overlap.
 *
 * BEFORE SETUP
 *   Zero both records (static storage is zeroed already), then call nadrelgos_setup. Setup looks at nothing that the
 *   records hold and, where it is accepted, writes every field of them, so that it would take any other contents as
 *   well. The zeros are for the steps: each first tests whether coordinator and table are fit, and refuses 22 where
 *   they are not. Zeros are never fit, so that a step before setup is refused for certain; other contents might be
 *   fit by accident, and the step would act on them.
 *
 * WHAT A REFUSAL MEANS
 *   Nothing was changed: no node record, no field of the coordinator, no byte of out or of an image. A wait that was on
 *   is still on.
 *   The call can be made again, at once or later. `enum nadrelgos_refusal_number` has what to do next for each number.
 *
 * THE CALLS
 *   After setup the firmware goes round, for ever:
 *     1. Where it is time to look for boards (see WHEN TO LOOK), call nadrelgos_discover. The answer is NADRELGOS_WAIT:
 *        send what was written, start the reply timer, and go on at 3. Refused 14, 15 or 16: not now. Go on at 2, and
 *        call it again after a later step.
 *     2. Call nadrelgos_turn. The answer is NADRELGOS_WAIT: send what was written, and start the reply timer.
 *        (Refused 19: nobody is listed and nothing is due. Go back to 1.)
 *     3. For each frame that comes in call nadrelgos_frame, until the wait is over:
 *          NADRELGOS_REST      it was an ACK that ends the wait, or it answered a discovery. Nothing to send; the wait
 *                              is over.
 *          NADRELGOS_TRANSMIT  it was taken. Send the ACK that was written; the wait is over. Where the answer names a
 *                              position joined, a board has joined there.
 *          NADRELGOS_DELIVER   it was a request for the host. Send the ACK that was written, then see to the request:
 *                              type received[7], payload received + 10, received[9] bytes long. The wait is over.
 *                              A text or a fault for the display, types 4 and 5: see TEXTS AND FAULTS. A message
 *                              that holds another, type 0x7E: see MESSAGES INSIDE MESSAGES. Shared data to be kept
 *                              or got back, types 0x10 and 0x11: see SHARED DATA.
 *          NADRELGOS_WAIT      it was an ACK, to a forwarded request or to Get Node ID, and the response is still to
 *                              come. Nothing to send: start the timer again and go on listening.
 *          refused             1 to 9, 23 or 24: it was not taken. The wait goes on, and so does the timer.
 *     4. Where the reply timer has run out and the wait is still on, call nadrelgos_quiet. The answer is
 *        NADRELGOS_REST; where the board missed its third message in a row it names the board dropped.
 *   The host's own part is the wire and the clock: when a frame begins and ends (nadrelgos_find tells it of bytes that
 *   came in), how long a reply may take, the pauses between frames, and when to look for boards.
 *
 * HOW A BOARD JOINS
 *   By an exchange that nadrelgos_discover starts and that turns, frames and quiets carry on, in the round above as all
 *   else (Networking Specification, 11.11). The position that it names is the one whose address is at stake: in search
 *   the lowest free one; then the lowest free one too, or the board's own where its MAC is listed.
 *     search     Node Discovery was sent to all boards. Of those that have no address one answers; it is kept as
 *                `found`, and Get Node ID goes out at the next turn. Quiet: there is none.
 *     identify   Get Node ID was sent to the address that it is to have. Quiet: the address is free, and Set Address
 *                goes out at the next turn. Somebody who answers with his ID has that address already: he joins, where
 *                a join of his would be taken and give him that very position. What was found is found again by a
 *                later discovery.
 *     assign     Set Address was sent to what was found. It joins where it answers the same from the new address.
 *   A board that joins in the exchange needs no nadrelgos_join: NADRELGOS_TRANSMIT names its position, and its record
 *   has the type that it gave, also where it was listed before; the indexes follow, other boards' too. The node list is
 *   then owed to every board, and further joins and discoveries are held until the next offer. Every other end breaks
 *   the exchange off, and the same boards are listed as before. Quiet in the exchange is a miss for no board. While it
 *   runs no other join or discovery is taken (14). It has at most six accepted steps.
 *
 * BOARDS THAT SPEAK 1.0
 *   Each board has a version: 1 where it speaks ClimateTalk 1.0, 2 where it speaks a later one. Where a discovery finds
 *   the board, the panel knows it by itself: a 1.0 board sets bit 5 of its answer's packet number (API Reference, 4.3),
 *   and the whole exchange goes by it, so that somebody who has the address at stake joins as the same version. A host
 *   that brings a join itself tells it; where it cannot know, 2. It stands in the record, and a join replaces it as it
 *   does the type. What it changes:
 *     subnet     a 1.0 board is in subnet 2, NADRELGOS_OLD_SUBNET, whatever ours is: Set Address assigns it, and every
 *                frame to the board has it (Networking Specification, 11.11). Frames of subnet 2 are taken while a 1.0
 *                board is awaited or was found, and in search; else they get 24. Of two systems on one line only one
 *                can have 1.0 boards.
 *     node list  the list to a 1.0 board has 16 bytes, always (8.1.2.4): the internal type, then each listed type once.
 *                The lowest 1.0 board of a type stands at its position, where that is at most 15; the other types go
 *                into the lowest bytes that are open, by their lowest positions. The rest are 0.
 *     types      while a 1.0 board is listed there are at most 15 different types: a join that would bring more is
 *                refused 25, and a board that was found and would bring more breaks the exchange off.
 *   All else is the same for either version, and so is what is promised of boards.
 *   FRAMES OF SUBNET 2 HAVE TO REACH nadrelgos_frame. A host that cuts the line's bytes by nadrelgos_find looks for
 *   both subnets, ours and 2: see there. Whoever filters by the subnet elsewhere, as in an interrupt, lets 2 pass too.
 *   Which of them is taken is for the step to say.
 *
 * HOW LONG TO WAIT
 *   Three seconds in each wait, and three more where an ACK was answered by NADRELGOS_WAIT (Networking Specification,
 *   7.8 and 11.11). In search a board may take 2.5 seconds before it begins (11.1). Do not cut identify short: the
 *   address of a board that answers too late is given to another.
 *
 * WHEN TO LOOK
 *   At least once in 120 seconds (11.13), and soon after a board has joined, since others may have held back when they
 *   heard it answer. While anyone is listed the panel takes one discovery between two offers (15): it can be asked for
 *   at every chance, and keeps no board from its turn. With nobody listed there is nothing else to do.
 *   After an exchange that broke off in identify leave discovery alone for FIVE MINUTES. It did so where the wait in
 *   identify is over, no board has joined and stand.stage is 0: at a frame that was answered by NADRELGOS_TRANSMIT
 *   without a position joined, or at a quiet after the ACK. Somebody has the address at stake who gives no ID, or
 *   cannot be listed there, and it would be at stake in every discovery; he loses it when nothing is sent to him for a
 *   while (9.1.2). Turns, frames and quiets go on meanwhile.
 *
 * TEXTS AND FAULTS
 *   A board that wants something shown sends a Set Display, one that has a fault a Set Diagnostics (API Reference, 5.4
 *   and 5.5). Give the payload that was delivered to nadrelgos_read_display or nadrelgos_read_diagnostics: where it is
 *   not refused, its text is `length` bytes from payload + start on, all of them 0x20 to 0x7E, with no zero behind
 *   them. Show nothing of a payload that is refused. Fault codes are the maker's own: major, the board does not work;
 *   minor, it works and needs looking after; both 0 without a text, the fault is gone (5.5.1). A board that counts an
 *   ending zero as text is refused 33, one that sends it without counting it 32. The writers make such payloads, for
 *   whoever sends them. The response to either carries the payload NADRELGOS_REPLY, by which nadrelgos_is_reply knows
 *   it; the panel answers what is delivered with the ACK, and no call of it makes a response.
 *
 * MESSAGES INSIDE MESSAGES
 *   A gateway carries messages in Network Encapsulation, type 0x7E (API Reference, 6.10): a code, three operands and
 *   one whole message, which may hold another in the same way, up to four levels deep. Give the whole frame that was
 *   received, not only its payload, to nadrelgos_unwrap: where it is not refused, the plain message's type is `message`
 *   and its payload `length` bytes from received + start on. A frame of any other type is its own plain message, in no
 *   level. Of a delivered frame the step has judged the subnet: give its own, received[2], as ours, since a 1.0 board's
 *   is another. What is refused is nobody's message: take nothing from it, the outer levels included. nadrelgos_wrap
 *   writes such a frame, to be sent by whoever sends frames of his own; the panel carries an encapsulation that one
 *   board sends to another as any other request, and opens none.
 *
 * SHARED DATA
 *   Boards keep their settings in the network, so that a board that is put in the place of another finds them (API
 *   Reference, 5.10 and 5.11): one record of 6 to 200 bytes for each sector, which is a node type, any byte. The host
 *   lends two images of NADRELGOS_IMAGE bytes: the network's copy, in which records are stored, and the factory image,
 *   which is only read, and only for a sector of which the network's copy has no record. No record is copied elsewhere.
 *     0x10  Set Application Shared Data To Network. The payload is the sector, one byte, then the record to the very
 *           end, its own length byte included; what it holds is not looked at. Give both to nadrelgos_shared_store: it
 *           replaces the record of that sector, or takes the lowest free slot. A payload of no byte has no sector:
 *           leave it.
 *     0x11  Get Application Shared Data From Network. The payload is the sector alone; leave one of any other length.
 *           nadrelgos_shared_holder says where the record stands, nadrelgos_shared_answer writes the payload of the
 *           response, type 0x91: sector and record, or no byte where neither image has one. The panel answers what is
 *           delivered with the ACK, and no call of it makes a response: the payload is for the host to use or to show.
 *   Keep the network's copy in memory that outlives a power failure. A store is not done at one stroke, and a failure
 *   in its midst may leave a slot with a part of its record: so lend working memory, and after each store that is not
 *   refused write to the lasting one only the bytes that this store wrote, `length` of them from network + start on,
 *   the second of them, the record's length, last. A new image is all 0, or all 255 as erased flash is: either has
 *   forty free slots. A host that has no factory data lends such bytes as the factory image, or the network's copy
 *   itself once more: who looks for a record only reads.
 *
 * READING THE RECORDS
 *   Between calls the host may read every field, as for its screen: the table is the list of who is there, with the
 *   index of each, which need not be counted. It must not write any. A step tests fit and answers 22 where what it
 *   finds breaks a rule, but a changed record can be fit, and then the step goes by it: who stays on the list, the
 *   turns and the rest of demand 3 are promised of records that only setup and the steps have written. Bytes between
 *   the fields have no meaning: compare by fields.
 *
 * RECORDS THAT THE HOST MAKES
 *   A table that the host makes itself, or brings back from where it was stored, must have the right index and a
 *   version in every record, 0 and 0 in a free one, or every step is refused 22. One that was stored by a firmware
 *   whose records had no index or no version has padding in its place: mostly 0, but any byte. The record has 32 bytes
 *   as before.
 *     index      nadrelgos_clear at position 0, which names nobody, counts the index of every record and changes
 *                nothing else; or list the boards anew by nadrelgos_list, which counts them all too.
 *     version    write 2 into every listed record and 0 into every free one. A 1.0 board among them goes on as it did,
 *                in our subnet, which the earlier firmware gave it, and is found as one when it joins anew. Do not
 *                write 1 for it: it would be sought in subnet 2, where it is not, and be dropped. Or leave the stored
 *                table: call nadrelgos_setup, and all boards are found again, each with its version.
 */
#ifndef NADRELGOS_H
#define NADRELGOS_H

#include <stdbool.h>
#include <stddef.h>
#include <stdint.h>

#ifdef __cplusplus
extern "C" {
#endif

/* The node records to lend: forty, whatever the number of addresses. */
#define NADRELGOS_NODES 40

/* The longest frame: 10 bytes before the payload, 240 of payload, 2 check bytes. This room always suffices for out. */
#define NADRELGOS_ROOM 252

/* A MAC is a number from 1 to this one, 2^56 - 1. On the wire MAC and session go low byte first. */
#define NADRELGOS_MAC_MAX UINT64_C(0x00FFFFFFFFFFFFFF)

/* The subnet of boards that speak 1.0. */
#define NADRELGOS_OLD_SUBNET 2

/* The bytes of the node list to such a board, and how many different types may be listed while one is. */
#define NADRELGOS_OLD_LIST 16
#define NADRELGOS_OLD_TYPES 15

/* A board's version. */
enum nadrelgos_version_number {
    NADRELGOS_VERSION_1_0 = 1,  /* it speaks ClimateTalk 1.0 */
    NADRELGOS_VERSION_LATER = 2 /* it speaks 2.0, or any later one */
};

/*
 * What the panel knows of the board at one position. Position p, from 1 on, is nodes[p - 1], and its address is
 * coordinator->setup.pool[p - 1]. A free position's record is all zeros.
 */
struct nadrelgos_node {
    uint8_t kind;     /* node type; 0 where the position is free, never 165 */
    uint64_t mac;     /* 1 to NADRELGOS_MAC_MAX, no two boards' alike */
    uint64_t session; /* as the board last gave it when it joined, or in an ACK to an offer, a forward or a return */
    uint8_t misses;   /* messages in a row that it left unanswered since it joined or was last heard: 0 to 2 */
    uint8_t owed;     /* 1 where the node list is still to be sent to it, else 0 */
    uint8_t index;    /* how many boards of its type are listed at lower positions, 0 to 39: it moves as these come, go
                         and change their types. Parameter 2 of the panel's own frames to it, and of its requests that
                         are forwarded */
    uint8_t version;  /* one of enum nadrelgos_version_number, as its last join gave it; 0 where the position is free */
};

/* What setup was told. */
struct nadrelgos_settings {
    uint8_t pool[40]; /* the addresses, rising; zeros past the first k */
    size_t k;         /* how many there are: positions are 1 to k */
    uint8_t subnet;   /* our subnet: of every frame to a board and of every frame that is read, but for those to and
                         from 1.0 boards, which have NADRELGOS_OLD_SUBNET, and for those of 0 */
    uint8_t internal; /* byte 0 of the node list: the type of the virtual internal subordinate */
    uint64_t mac;     /* the panel's own MAC and session, in its offers and ACKs */
    uint64_t session;
};

/* What the panel is about, and the positions that it names. */
struct nadrelgos_stand {
    /* 0 nothing; a wait for the answer to 1 an offer, 2 a list, 3 a forward, 4 a forward whose ACK has come,
       5 a return; to be sent at the next turn: 6 a forward, 7 a return. The exchange by which a board joins: 8 the wait
       in search; 9 Get Node ID to be sent at the next turn; 10 the wait in identify, 11 the same once an ACK has come;
       12 Set Address to be sent at the next turn; 13 the wait in assign */
    uint8_t stage;
    size_t board;     /* stages 1 to 7: the board awaited, or the one it goes to; 8 to 13: the position whose address is
                         at stake, listed or not */
    size_t requester; /* stages 3, 4 and 6: the board that made the request */
};

/* The message that is carried: a request until its response comes, then the response; afterwards what it last was. */
struct nadrelgos_kept {
    uint8_t message;      /* message type */
    uint8_t packet;       /* packet number */
    uint8_t kind;         /* source node type */
    uint8_t method;       /* send method */
    uint8_t parameter;    /* send parameter 1 */
    size_t length;        /* of the payload, at most 240 */
    uint8_t payload[240]; /* zeros past its length */
};

/* The board that a discovery has found: stages 9 to 13. Zeros in every other stage, where it is not looked at. */
struct nadrelgos_found {
    uint8_t kind;     /* its node type, neither 0 nor 165 */
    uint8_t version;  /* one of enum nadrelgos_version_number, by bit 5 of its answer's packet number */
    uint64_t mac;     /* 1 to NADRELGOS_MAC_MAX */
    uint64_t session; /* by which it knows Set Address as its own */
};

/* The coordinator's record. */
struct nadrelgos_coordinator {
    struct nadrelgos_settings setup;
    size_t last;      /* the position last offered the bus; 0 before the first offer */
    uint8_t held;     /* 1 where joins are held until the next offer, else 0 */
    uint8_t searched; /* 1 where a discovery was started since the last offer, else 0 */
    struct nadrelgos_stand stand;
    struct nadrelgos_kept kept;
    struct nadrelgos_found found;
};

/* What the panel now does: byte 1 of an answer. */
enum nadrelgos_answer_number {
    NADRELGOS_REFUSED = 0,  /* nothing: the call was refused and changed nothing */
    NADRELGOS_WAIT = 1,     /* it waits for an answer: send what was written, if anything was */
    NADRELGOS_DELIVER = 2,  /* a request for the host was taken, the ACK written: send it, then see to the request */
    NADRELGOS_TRANSMIT = 3, /* a frame was taken, the ACK written: send it. It may name a position joined */
    NADRELGOS_REST = 4      /* nothing to send: a setup, a join, a quiet, an ACK that ended its wait, an answer to a
                               discovery */
};

/* What the awaited board was sent: byte 3 of an answer that waits. The last three: the exchange by which one joins. */
enum nadrelgos_exchange_number {
    NADRELGOS_OFFER = 1,    /* the bus; it answers an ACK, or a request of its own */
    NADRELGOS_LIST = 2,     /* the node list, in the form of its version; it answers the same list */
    NADRELGOS_FORWARD = 3,  /* another board's request; it answers the response, or an ACK and then the response */
    NADRELGOS_RETURN = 4,   /* the response to its own request; it answers an ACK */
    NADRELGOS_SEARCH = 5,   /* Node Discovery, to all; a board without an address answers type, MAC and session */
    NADRELGOS_IDENTIFY = 6, /* Get Node ID, to the address at stake; who has it answers type, MAC and session, or an ACK
                               and then these; where it is free nobody answers */
    NADRELGOS_ASSIGN = 7    /* Set Address, to all; the board found answers the same, from the address at stake */
};

/* What has happened: the event of a step. The wrappers below name it. */
enum nadrelgos_event_number {
    NADRELGOS_EVENT_JOIN = 1,    /* a board has joined: kind, mac, session, version */
    NADRELGOS_EVENT_TURN = 2,    /* the line is free: out */
    NADRELGOS_EVENT_FRAME = 3,   /* bytes came in: received, out */
    NADRELGOS_EVENT_QUIET = 4,   /* no answer came in time */
    NADRELGOS_EVENT_DISCOVER = 5 /* boards without an address are to be looked for: out */
};

/*
 * The numbers by which a call is refused: byte 0 of an answer, or the field `refusal` of what is said of a text, a
 * fault, an encapsulation or shared data; 0 where it was accepted. Each says when it is given, then what the firmware
 * does next. "Listen on" means: the wait, where one is on, is still on. Drop the bytes and go on listening until a
 * frame ends the wait; when the reply timer has run out, call nadrelgos_quiet. "The exchange" is the one by which a
 * board joins: stages 8 to 13. Where more than one holds, the first in this order is given: 22; then in setup 21, 13;
 * in a join 12 to 15, 25, 16; in a discover 14, 15, 16, 11; in a turn 18, 19, 11; in a frame 1 to 4, 24, 5, 23, 6 to 9,
 * 11; in a quiet 20. Of a text or a fault 32, 33, and where it is written 11. Of a message inside messages 1 to 4, 24,
 * then level by level 31, 30; where it is written 31, 10, 11. Of shared data 22, then where it is stored 26, 27, and
 * where the response's payload is written 11.
 */
enum nadrelgos_refusal_number {
    NADRELGOS_ACCEPTED = 0,

    /* a frame: what came in is no good frame, as happens on a line. Listen on. */
    NADRELGOS_SHORT = 1,           /* under 12 bytes */
    NADRELGOS_OVER_LONG = 2,       /* its payload length, byte 9, is above 240 */
    NADRELGOS_LENGTH_MISMATCH = 3, /* not 12 bytes and byte 9 more. If this is common, frames are cut wrongly */
    NADRELGOS_BAD_CHECKSUM = 4,    /* its two sums are not 0 */

    /* a frame: good, and of another system. Listen on. */
    NADRELGOS_OTHER_SUBNET = 24, /* its subnet, byte 2, is neither ours nor 0; 2 is taken beside these while the board
                                    awaited or found is a 1.0 board, and in search. If this is common, another system is
                                    on the line, as where two run through one conduit: see that they have two subnets,
                                    and that no board has the other's. If it is given for our own boards, they have kept
                                    a subnet of an earlier setup: they have theirs once they have joined anew */

    /* a frame: good, and not what is awaited. Listen on. */
    NADRELGOS_NOT_FOR_US = 5,       /* its destination is not 255, the coordinator */
    NADRELGOS_NOT_DISCOVERING = 23, /* a response to Node Discovery, Set Address or Get Node ID, types 249 to 251, and
                                       the exchange is not running. It came after its wait: if this is common, the reply
                                       timer is too short. Its sender is found again by a later discovery. Never given
                                       where such a request was forwarded and this is the response awaited */
    NADRELGOS_NOT_AWAITED = 6,      /* no wait is on, or it is from another board than the one awaited. In search source
                                       0 is awaited, in identify and assign the address at stake */
    NADRELGOS_UNEXPECTED_TYPE = 7,  /* a message type that this wait does not take; or type 0 that is no ACK of this
                                       board: another form, or another MAC, as where a board was exchanged. In identify
                                       an ACK of any MAC is taken, but no second one. In search and identify also a
                                       response whose payload is not 18, or 17, bytes long */
    NADRELGOS_BAD_ECHO = 8,         /* after a list: another list than the one sent. After Set Address: another payload
                                       than the one sent, of whatever length */
    NADRELGOS_BAD_METHOD = 9,       /* a request with a send method above 3 */

    /* what is written */
    NADRELGOS_PAYLOAD_TOO_LONG = 10, /* a message inside messages: its payload and seven bytes for each level are over
                                        240. Send it in fewer levels, or in parts. No other of these functions gives
                                        it */
    NADRELGOS_NO_ROOM = 11,          /* a turn, a frame or a discover: out is shorter than the frame due. Call again
                                        with more room, and for a frame with the same bytes. NADRELGOS_ROOM always
                                        suffices. A text or a fault: out is shorter than its payload. A message
                                        inside messages: out is shorter than the frame; NADRELGOS_ROOM suffices.
                                        The response with shared data: out is shorter than sector and record;
                                        NADRELGOS_SHARED_ROOM suffices */

    /* a join, and where it says so a discover */
    NADRELGOS_BAD_TYPE = 12,       /* node type 0 or 165; also an event number that is none of the five. Give it up */
    NADRELGOS_BAD_MAC = 13,        /* a MAC of 0 or above NADRELGOS_MAC_MAX, in a setup too. Give it up */
    NADRELGOS_BUSY = 14,           /* a join, a discover: a wait is on, a forward, a return or a list is due, or the
                                      exchange is running. Keep the join, go on with turns, and try again after each
                                      step that leaves no wait */
    NADRELGOS_HELD = 15,           /* a join, a discover: no offer was made since the last join. A discover: someone is
                                      listed, and none was made since the last discovery. The same */
    NADRELGOS_TOO_MANY_TYPES = 25, /* a join, with room or without: it would leave a 1.0 board listed, the joiner or
                                      another, and more than 15 different node types with the joiner's. Try again when a
                                      board was dropped. Tell the installer: a board of a type that is there already can
                                      join; for one of another type, put a later board in place of each 1.0 board, or
                                      take out all boards of one type. No other call answers it: a board that was found
                                      and would bring too many breaks the exchange off, at a frame that is answered by
                                      NADRELGOS_REST in search, or by NADRELGOS_TRANSMIT without a position joined */
    NADRELGOS_FULL = 16,           /* a join of a new MAC, a discover: all k positions are taken. Try again when a board
                                      was dropped. Until then a listed board that has lost its address is not found
                                      either */
    /* 17 is retired, and is given to nothing else. It was the address clash: that the address chosen for a new MAC is
       listed already. That cannot be, since the pool rises strictly, and no call answers it */

    /* a turn */
    NADRELGOS_AWAITING_REPLY = 18, /* a wait is on. Call nadrelgos_frame or nadrelgos_quiet first */
    NADRELGOS_NOBODY_LISTED = 19,  /* no board is listed and nothing of the exchange is due, so that there is nobody to
                                      talk to. Call nadrelgos_discover */

    /* a quiet */
    NADRELGOS_NOT_WAITING = 20, /* no wait is on: the reply timer ran on after the wait. Stop it; call nadrelgos_turn */

    /* a setup */
    NADRELGOS_BAD_POOL = 21, /* not 1 to 40 addresses from 1 to 254, each above the one before. Mend them */

    /* any call on the records */
    NADRELGOS_STATE_UNFIT = 22, /* nodes_count is not 40; or, in a step, coordinator and table are not fit: no setup
                                   was accepted, or something else has written to them. Call nadrelgos_setup; the boards
                                   have to join again. Where the host has made or stored the table itself, look at its
                                   indexes and versions first: see RECORDS THAT THE HOST MAKES. A version is 1 or 2, 0
                                   where the position is free; and with a 1.0 board listed there are at most 15 types.
                                   Of shared data: an image is not NADRELGOS_IMAGE bytes long. Lend it whole */

    /* shared data to be stored. The network's copy is as it was, and so is what the sector had */
    NADRELGOS_BAD_LENGTH = 26, /* the record is not 6 to 200 bytes long. The board that sent it is wrong: leave it */
    NADRELGOS_NO_SLOT = 27,    /* the sector has no record yet, and all forty slots are in use. Leave it: sectors that
                                  have a record are still replaced. To make room the host frees a slot that nobody
                                  needs any more, by 0 in its second byte, the length */

    /* a message inside messages. One that came in: take nothing from it, neither its outer levels nor its payload. Its
       frame was good, and who made what is inside is wrong */
    NADRELGOS_BAD_INNER = 30, /* the payload of an encapsulation, at some level, is not code, operands and one whole
                                 message: under seven bytes, or the inner length byte is not exactly the count of the
                                 bytes behind it */
    NADRELGOS_TOO_DEEP = 31,  /* the message in the fourth level is itself an encapsulation, a fifth level; it was not
                                 looked into. To be written: more than four levels: send it in fewer; or the message
                                 inside is of type 0x7E, a level that was not given as one: give it as one */

    /* a text or a fault for the display. One that came in: show nothing of it. Its frame was good, and the board that
       sent it is wrong */
    NADRELGOS_BAD_TEXT_LENGTH = 32, /* the payload lacks its fixed bytes (2; of a fault 4); or its length byte is not
                                       the count of the bytes behind it, or is above 30 (of a fault 15). To be written:
                                       the text is longer than that. Cut it */
    NADRELGOS_BAD_TEXT = 33         /* a byte of the text is outside 0x20 to 0x7E, as a letter of another alphabet is.
                                       To be written: put another in its place */
};

/*
 * The fresh start: nobody is listed, no wait, nothing due, no join held. Both records are written whole.
 *
 *   coordinator            the one coordinator record
 *   nodes, nodes_count     the node records and their count, 40
 *   addresses, .._count    the pool: 1 to 40 addresses, each 1 to 254 and above the one before. Position i is the
 *                          i-th of them. The shipped pool is 16 to 55
 *   subnet, internal       any bytes: see struct nadrelgos_settings
 *   mac, session           the panel's own; the MAC is 1 to NADRELGOS_MAC_MAX, the session any number
 *
 * Answers NADRELGOS_REST and all else 0, or refuses: 22 (only where nodes_count is not 40), 21, 13.
 */
uint64_t nadrelgos_setup(struct nadrelgos_coordinator *coordinator, struct nadrelgos_node *nodes, size_t nodes_count,
                         const uint8_t *addresses, size_t addresses_count, uint8_t subnet, uint8_t internal,
                         uint64_t mac, uint64_t session);

/*
 * One step. Use the wrappers below, each of which is this call for one event.
 *
 *   coordinator, nodes     the records that setup has written, updated where they stand
 *   event                  one of enum nadrelgos_event_number. Any other is a join of node type 0: always refused
 *   kind .. version        looked at in a join only: see nadrelgos_join
 *   received, .._count     looked at in a frame only: the bytes of one whole frame, check bytes included
 *   out, out_count         written in a turn, a frame and a discover only: the frame to send, at the front. Bytes past
 *                          it stay
 */
uint64_t nadrelgos_step(struct nadrelgos_coordinator *coordinator, struct nadrelgos_node *nodes, size_t nodes_count,
                        uint8_t event, uint8_t kind, uint64_t mac, uint64_t session, uint8_t version,
                        const uint8_t *received, size_t received_count, uint8_t *out, size_t out_count);

/*
 * One node record listed, cleared or marked, for tools and tests, and for indexes to be counted (RECORDS THAT THE HOST
 * MAKES). Else a firmware has no need of them: boards are listed by joins and cleared by quiets, and what is promised
 * of the list is promised of records that only setup and the steps have written.
 *
 *   nodes, nodes_count     the node records and their count, 40
 *   position               1 to 40. Any other names nobody: no record is listed, cleared or marked
 *
 * List and clear count the index of every one of the forty records, whatever stood there, also where the position names
 * nobody; mark changes none. Whether the records are fit afterwards is not tested here: the next step tests it, and
 * refuses 22 where they are not, as with a MAC that is listed twice, a board cleared that a wait names, or a sixteenth
 * type beside a 1.0 board.
 *
 * Each answers NADRELGOS_REST and all else 0, or refuses 22 where nodes_count is not 40.
 */

/* A new board's record at the position, whatever stood there: no misses, no list owed. Its version is 1 where that is
   told, and 2 by every other number. */
uint64_t nadrelgos_list(struct nadrelgos_node *nodes, size_t nodes_count, size_t position, uint8_t kind, uint64_t mac,
                        uint64_t session, uint8_t version);

/* The position freed: all zeros. */
uint64_t nadrelgos_clear(struct nadrelgos_node *nodes, size_t nodes_count, size_t position);

/* The node list owed to the board at the position; a free position stays as it is. */
uint64_t nadrelgos_mark(struct nadrelgos_node *nodes, size_t nodes_count, size_t position);

/* What nadrelgos_find found. A frame of another subnet than ours or 0 counts as not good. */
enum nadrelgos_finding_number {
    NADRELGOS_FOUND = 1,   /* a good frame */
    NADRELGOS_NOTHING = 2, /* no good frame begins at any start */
    NADRELGOS_SPENT = 3    /* none begins at the starts that the budget allowed, and there are more */
};

struct nadrelgos_finding {
    uint8_t number; /* one of enum nadrelgos_finding_number */
    size_t start;   /* where the frame begins, from 0 on; 0 where none was found */
    size_t length;  /* of the frame, check bytes included: 12 to NADRELGOS_ROOM; 0 where none was found */
    size_t tried;   /* how many starts were tried, the found one counted */
};

/*
 * The first good frame in bytes as the line brought them, where noise or several frames may stand between two silences.
 * It is in libfinder.a.
 *
 *   ours                   our subnet, as setup was told it; or NADRELGOS_OLD_SUBNET, for the frames of 1.0 boards
 *   bytes, count           what came in. It is only read
 *   budget                 how many starts are tried at most: the time is bounded by it. count always suffices
 *
 * A start is a place with at least 12 bytes from it to the end; they are tried from the first on. One holds a good
 * frame if its payload length, the byte 9 places on, is at most 240, 12 bytes and that many more are there, their two
 * sums are 0, and its subnet, the byte 2 places on, is ours or 0: nadrelgos_frame, given length bytes at bytes + start,
 * never refuses them 1 to 4, nor 24 where ours is setup's. A frame of another system is passed over byte by byte, so
 * that one of ours in its payload would be found. After a frame a host goes on at start + length, after NADRELGOS_SPENT
 * at tried, with the bytes that are left.
 *
 * Where boards may speak 1.0, look with our subnet and, where that is another, with NADRELGOS_OLD_SUBNET, and take the
 * frame that begins earlier: it is the first good one of either subnet or 0. Two that begin at one place are the same.
 * Go on with both behind its end. What a search has found holds until that place is passed, and that it has found
 * nothing until more bytes come, so that each start is tried once by either: hosts/linux/cutter.c does it. A frame of
 * subnet 2 may still get 24 by the step.
 */
struct nadrelgos_finding nadrelgos_find(uint8_t ours, const uint8_t *bytes, size_t count, size_t budget);

/* The message types of a text and of a fault, and the longest text of each. */
#define NADRELGOS_SET_DISPLAY 0x04
#define NADRELGOS_SET_DIAGNOSTICS 0x05
#define NADRELGOS_DISPLAY_MAX 30
#define NADRELGOS_DIAGNOSTICS_MAX 15

/* The longest payload of either: two fixed bytes and 30 of text. This room always suffices for the writers' out. */
#define NADRELGOS_TEXT_ROOM 32

/* The payload of the response to either, as an initializer of two bytes. */
#define NADRELGOS_REPLY {0xAC, 0x06}

/* What was read of a Set Display or a Set Diagnostics. All 0 but the first where it is refused. */
struct nadrelgos_text {
    uint8_t refusal; /* 0, or 32 or 33 by enum nadrelgos_refusal_number */
    uint8_t kind;    /* the node type in the payload, any byte. Who sent it is the board that was awaited */
    uint8_t major;   /* the fault codes of a Set Diagnostics, any bytes; 0 in a Set Display */
    uint8_t minor;
    size_t start;    /* where in the payload the text begins: 2, or 4 */
    size_t length;   /* of the text: 0 to 30, or to 15 */
};

/* What was written. */
struct nadrelgos_writing {
    uint8_t refusal; /* 0, or a number by enum nadrelgos_refusal_number: then no byte of out was changed */
    size_t written;  /* how many bytes from out on are what was to be written; those past it stay. 0 where it is
                        refused */
};

/*
 * Texts and faults for the display, in libdisplay.a.
 *
 *   payload, payload_count what came in. It is only read
 *   kind, major, minor     any bytes: a node type, as of who wants it shown, and its fault codes
 *   text, text_count       up to 30 bytes, of a fault 15, each 0x20 to 0x7E; with no zero behind them. For none, as to
 *                          clear a fault, any byte's address and 0: not null. It does not overlap out
 *   out, out_count         the payload is written at its front: 2 bytes and the text, of a fault 4 and the text
 *
 * The readers are refused 32, then 33; the writers 32, 33, then 11. What a writer wrote, its reader reads back.
 */
struct nadrelgos_text nadrelgos_read_display(const uint8_t *payload, size_t payload_count);
struct nadrelgos_text nadrelgos_read_diagnostics(const uint8_t *payload, size_t payload_count);
struct nadrelgos_writing nadrelgos_write_display(uint8_t kind, const uint8_t *text, size_t text_count, uint8_t *out,
                                                 size_t out_count);
struct nadrelgos_writing nadrelgos_write_diagnostics(uint8_t kind, uint8_t major, uint8_t minor, const uint8_t *text,
                                                     size_t text_count, uint8_t *out, size_t out_count);

/* Whether a payload is that of the response to either: NADRELGOS_REPLY. */
bool nadrelgos_is_reply(const uint8_t *payload, size_t payload_count);

/* The message type of Network Encapsulation, and how many levels there may be. */
#define NADRELGOS_ENCAPSULATION 0x7E
#define NADRELGOS_LEVELS 4

/* One level: code and operands, any bytes, and the packet number of the message that holds them: of the first level it
   is the frame's. */
struct nadrelgos_level {
    uint8_t code;
    uint8_t operand1;
    uint8_t operand2;
    uint8_t operand3;
    uint8_t packet;
};

/* The levels, from the outermost on. */
struct nadrelgos_levels {
    struct nadrelgos_level level[NADRELGOS_LEVELS];
};

/* What was found inside a frame. All 0 but the first where it is refused. */
struct nadrelgos_unwrapping {
    uint8_t refusal;                /* 0, or 1 to 4, 24, 30 or 31 by enum nadrelgos_refusal_number */
    uint8_t depth;                  /* how many levels there are around the plain message: 0 to 4 */
    uint8_t message;                /* the plain message's type, any but 0x7E */
    uint8_t packet;                 /* and its packet number */
    struct nadrelgos_levels levels; /* the levels; zeros from the depth on */
    size_t start;                   /* where in the received bytes its payload begins: 10, and 7 for each level */
    size_t length;                  /* of its payload: 0 to 240, less 7 for each level */
};

/* The nine bytes of a frame before its payload length, in their order. */
struct nadrelgos_header {
    uint8_t destination;
    uint8_t source;
    uint8_t subnet;
    uint8_t method;     /* send method */
    uint8_t parameter1; /* send parameters */
    uint8_t parameter2;
    uint8_t kind;       /* source node type */
    uint8_t message;    /* message type */
    uint8_t packet;     /* packet number */
};

/*
 * Messages inside messages, in libencapsulation.a.
 *
 *   ours                   the subnet that is taken beside 0: of a frame that was delivered, its own, received[2]
 *   received, .._count     what came in: the bytes of one whole frame, check bytes included. It is only read
 *   header                 as of the frame that would carry the message plain: type and packet number are those of the
 *                          message inside. Of the frame that is written they are 0x7E and the first level's packet
 *                          number, where there is a level; all other fields are the header's
 *   levels, depth          the levels around it, from the outermost on, and how many of them: 0 to 4. The others are
 *                          not looked at
 *   payload, .._count      of the message inside: up to 240 bytes, less 7 for each level. For none any byte's address
 *                          and 0: not null. It does not overlap out
 *   out, out_count         the whole frame is written at its front, 12 bytes, 7 for each level and the payload
 *
 * The reader is refused 1 to 4, 24; then level by level 31, 30. The writer 31, 10, 11. What was wrapped is unwrapped to
 * the same, by a system that takes its subnet; what was unwrapped and is wrapped again, with the fields of its frame
 * and the type and packet number that were found, is the same frame, but that a check byte 0 becomes 255.
 */
struct nadrelgos_unwrapping nadrelgos_unwrap(uint8_t ours, const uint8_t *received, size_t received_count);
struct nadrelgos_writing nadrelgos_wrap(struct nadrelgos_header header, struct nadrelgos_levels levels, size_t depth,
                                        const uint8_t *payload, size_t payload_count, uint8_t *out, size_t out_count);

/* The message types by which a board has a record kept in the network, and gets it back. */
#define NADRELGOS_SET_SHARED_DATA 0x10
#define NADRELGOS_GET_SHARED_DATA 0x11

/* An image of shared data: forty slots, each a sector, the record's length and room for the longest record. A slot
   whose length is none that a record may have is free. */
#define NADRELGOS_SLOTS 40
#define NADRELGOS_SLOT 202
#define NADRELGOS_IMAGE 8080

/* How long a record is, at least and at most. */
#define NADRELGOS_RECORD_MIN 6
#define NADRELGOS_RECORD_MAX 200

/* The longest payload of the response: a sector and the longest record. This room always suffices for out. */
#define NADRELGOS_SHARED_ROOM 201

/* Which image holds a record. */
enum nadrelgos_image_number {
    NADRELGOS_NEITHER = 0, /* neither: there is no such record */
    NADRELGOS_NETWORK = 1, /* the network's copy */
    NADRELGOS_FACTORY = 2  /* the factory image: the network's copy has none of this sector */
};

/* Where the record of a sector stands. All 0 where neither image has one, and all 0 but the first where it is
   refused. */
struct nadrelgos_holder {
    uint8_t refusal; /* 0, or 22 by enum nadrelgos_refusal_number */
    uint8_t image;   /* one of enum nadrelgos_image_number */
    uint8_t slot;    /* 1 to 40, the lowest that has a record of the sector */
    size_t start;    /* where in that image the record begins, behind sector and length */
    size_t length;   /* of the record: 6 to 200 */
};

/* What storing a record came to. All 0 but the first where it is refused. */
struct nadrelgos_storing {
    uint8_t refusal; /* 0, or 22, 26 or 27 by enum nadrelgos_refusal_number */
    uint8_t slot;    /* 1 to 40 */
    size_t start;    /* which bytes of the network's copy were written: where they begin, */
    size_t length;   /* and how many: sector, length and record, 8 to 202. All others are as they were */
};

/*
 * Shared data, in libshared.a.
 *
 *   network, .._count      the network's copy and its size, NADRELGOS_IMAGE. Only nadrelgos_shared_store writes to it
 *   factory, .._count      the factory image and its size, the same. It is only read
 *   sector                 a node type, any byte
 *   record, .._count       the record, 6 to 200 bytes, any. It does not overlap the network's copy
 *   out, out_count         the response's payload is written at its front: nothing, or sector and record
 *
 * The holder is refused 22; the store 22, 26, 27; the answer 22, 11, and 11 never where there is no record. Any bytes
 * are an image. Where several slots have records of one sector, the lowest counts, and a store replaces that one. What
 * was stored is what is served from then on, and every other sector is served as before.
 */
struct nadrelgos_holder nadrelgos_shared_holder(const uint8_t *network, size_t network_count, const uint8_t *factory,
                                                size_t factory_count, uint8_t sector);
struct nadrelgos_storing nadrelgos_shared_store(uint8_t *network, size_t network_count, uint8_t sector,
                                                const uint8_t *record, size_t record_count);
struct nadrelgos_writing nadrelgos_shared_answer(const uint8_t *network, size_t network_count, const uint8_t *factory,
                                                 size_t factory_count, uint8_t sector, uint8_t *out,
                                                 size_t out_count);

/*
 * The parts of an answer, low byte first: the refusal's number, the answer, the board awaited, its exchange, the
 * position joined, the position dropped, and in two bytes the count of bytes written. Positions are 1 to k, 0 for none.
 */

/* Why the call was refused, by enum nadrelgos_refusal_number; 0 where it was accepted. All other parts are then 0. */
static inline unsigned nadrelgos_refusal(uint64_t answer) { return (unsigned)(answer & 0xFF); }

/* What the panel now does, by enum nadrelgos_answer_number. */
static inline unsigned nadrelgos_answer(uint64_t answer) { return (unsigned)(answer >> 8 & 0xFF); }

/* The position of the board awaited; in search, identify and assign the one whose address is at stake, listed or not.
   0 in an answer that does not wait. */
static inline unsigned nadrelgos_board(uint64_t answer) { return (unsigned)(answer >> 16 & 0xFF); }

/* What it was sent, by enum nadrelgos_exchange_number; 0 in an answer that does not wait. */
static inline unsigned nadrelgos_exchange(uint64_t answer) { return (unsigned)(answer >> 24 & 0xFF); }

/* The position that a join gave, or that a board got in the exchange: the lowest free one, or the board's own where its
   MAC is listed already. Its address is coordinator->setup.pool[position - 1]: after a join of the host's it is to have
   it, after the exchange it has it. */
static inline unsigned nadrelgos_joined(uint64_t answer) { return (unsigned)(answer >> 32 & 0xFF); }

/* The position that a quiet freed: its board left a third message in a row unanswered. */
static inline unsigned nadrelgos_dropped(uint64_t answer) { return (unsigned)(answer >> 40 & 0xFF); }

/* How many bytes of out are to be sent: at most NADRELGOS_ROOM. */
static inline size_t nadrelgos_written(uint64_t answer) { return (size_t)(answer >> 48); }

/* The steps. `nodes` are NADRELGOS_NODES records. */

/*
 * A board has joined by other means than a discovery, as where the host has set its address itself. It is told as a
 * finished fact. A new MAC gets the lowest free position; a listed one keeps its position, has its type, its session
 * and its version replaced and its misses cleared: lists, indexes and routes follow the new type at once. The list is
 * then owed to every board. Indexes are right in every record afterwards, also in those of boards that were not named.
 *
 *   kind                   its node type, neither 0 nor 165
 *   mac, session           1 to NADRELGOS_MAC_MAX; any number
 *   version                1 where it speaks 1.0, and has its address in subnet 2; every other number counts as 2, a
 *                          later one, in our subnet: one of enum nadrelgos_version_number
 *
 * Refused 22, 12 to 15, 25, 16.
 */
static inline uint64_t nadrelgos_join(struct nadrelgos_coordinator *coordinator, struct nadrelgos_node *nodes,
                                      uint8_t kind, uint64_t mac, uint64_t session, uint8_t version) {
    const uint8_t no_bytes = 0;
    uint8_t no_room = 0;
    return nadrelgos_step(coordinator, nodes, NADRELGOS_NODES, NADRELGOS_EVENT_JOIN, kind, mac, session, version,
                          &no_bytes, 0, &no_room, 0);
}

/*
 * Boards without an address are to be looked for: it writes Node Discovery, 13 bytes, and waits in search. It is taken
 * where the join of a new MAC would be, and while anyone is listed once between two offers. Refused 22, 14, 15, 16, 11.
 */
static inline uint64_t nadrelgos_discover(struct nadrelgos_coordinator *coordinator, struct nadrelgos_node *nodes,
                                          uint8_t *out, size_t out_count) {
    const uint8_t no_bytes = 0;
    return nadrelgos_step(coordinator, nodes, NADRELGOS_NODES, NADRELGOS_EVENT_DISCOVER, 0, 0, 0, 0, &no_bytes, 0, out,
                          out_count);
}

/*
 * The panel's turn: it writes the next frame to send and waits for the answer. A return that is due comes first, then a
 * forward, then what the exchange by which a board joins has due, then the lists that are owed, then an offer to the
 * next board round. Refused 22, 18, 19, 11.
 */
static inline uint64_t nadrelgos_turn(struct nadrelgos_coordinator *coordinator, struct nadrelgos_node *nodes,
                                      uint8_t *out, size_t out_count) {
    const uint8_t no_bytes = 0;
    return nadrelgos_step(coordinator, nodes, NADRELGOS_NODES, NADRELGOS_EVENT_TURN, 0, 0, 0, 0, &no_bytes, 0, out,
                          out_count);
}

/*
 * A frame came in: one whole frame, check bytes included. Where it is taken the board's misses are cleared, and the ACK
 * due to it, where one is, is written. In identify somebody else may sit at a listed board's address: there its misses
 * are cleared only where the MAC is its own. Refused 22, 1 to 4, 24, 5, 23, 6 to 9, 11.
 */
static inline uint64_t nadrelgos_frame(struct nadrelgos_coordinator *coordinator, struct nadrelgos_node *nodes,
                                       const uint8_t *received, size_t received_count, uint8_t *out,
                                       size_t out_count) {
    return nadrelgos_step(coordinator, nodes, NADRELGOS_NODES, NADRELGOS_EVENT_FRAME, 0, 0, 0, 0, received,
                          received_count, out, out_count);
}

/*
 * The time for the reply has passed and the wait is still on: the board has one miss more, and the third in a row drops
 * it: its record is then all zeros, and each board of its type above it has an index one lower. Where the ACK to a
 * forward has come and its response has not, there is no miss, nor is there one in search, identify and assign. The
 * wait is over either way; after identify without an ACK Set Address is due. Refused 22, 20.
 */
static inline uint64_t nadrelgos_quiet(struct nadrelgos_coordinator *coordinator, struct nadrelgos_node *nodes) {
    const uint8_t no_bytes = 0;
    uint8_t no_room = 0;
    return nadrelgos_step(coordinator, nodes, NADRELGOS_NODES, NADRELGOS_EVENT_QUIET, 0, 0, 0, 0, &no_bytes, 0,
                          &no_room, 0);
}

/* The layout that the archives were built with. */
#if defined(__cplusplus) && __cplusplus >= 201103L
#define NADRELGOS_LAID_OUT(test) static_assert(test, "the records are not laid out as the archives have them: " #test)
#elif defined(__STDC_VERSION__) && __STDC_VERSION__ >= 201112L
#define NADRELGOS_LAID_OUT(test) _Static_assert(test, "the records are not laid out as the archives have them: " #test)
#endif
#ifdef NADRELGOS_LAID_OUT
NADRELGOS_LAID_OUT(sizeof(size_t) == 8);

NADRELGOS_LAID_OUT(sizeof(struct nadrelgos_node) == 32);
NADRELGOS_LAID_OUT(offsetof(struct nadrelgos_node, kind) == 0);
NADRELGOS_LAID_OUT(offsetof(struct nadrelgos_node, mac) == 8);
NADRELGOS_LAID_OUT(offsetof(struct nadrelgos_node, session) == 16);
NADRELGOS_LAID_OUT(offsetof(struct nadrelgos_node, misses) == 24);
NADRELGOS_LAID_OUT(offsetof(struct nadrelgos_node, owed) == 25);
NADRELGOS_LAID_OUT(offsetof(struct nadrelgos_node, index) == 26);
NADRELGOS_LAID_OUT(offsetof(struct nadrelgos_node, version) == 27);

NADRELGOS_LAID_OUT(sizeof(struct nadrelgos_settings) == 72);
NADRELGOS_LAID_OUT(offsetof(struct nadrelgos_settings, pool) == 0);
NADRELGOS_LAID_OUT(offsetof(struct nadrelgos_settings, k) == 40);
NADRELGOS_LAID_OUT(offsetof(struct nadrelgos_settings, subnet) == 48);
NADRELGOS_LAID_OUT(offsetof(struct nadrelgos_settings, internal) == 49);
NADRELGOS_LAID_OUT(offsetof(struct nadrelgos_settings, mac) == 56);
NADRELGOS_LAID_OUT(offsetof(struct nadrelgos_settings, session) == 64);

NADRELGOS_LAID_OUT(sizeof(struct nadrelgos_stand) == 24);
NADRELGOS_LAID_OUT(offsetof(struct nadrelgos_stand, stage) == 0);
NADRELGOS_LAID_OUT(offsetof(struct nadrelgos_stand, board) == 8);
NADRELGOS_LAID_OUT(offsetof(struct nadrelgos_stand, requester) == 16);

NADRELGOS_LAID_OUT(sizeof(struct nadrelgos_kept) == 256);
NADRELGOS_LAID_OUT(offsetof(struct nadrelgos_kept, message) == 0);
NADRELGOS_LAID_OUT(offsetof(struct nadrelgos_kept, packet) == 1);
NADRELGOS_LAID_OUT(offsetof(struct nadrelgos_kept, kind) == 2);
NADRELGOS_LAID_OUT(offsetof(struct nadrelgos_kept, method) == 3);
NADRELGOS_LAID_OUT(offsetof(struct nadrelgos_kept, parameter) == 4);
NADRELGOS_LAID_OUT(offsetof(struct nadrelgos_kept, length) == 8);
NADRELGOS_LAID_OUT(offsetof(struct nadrelgos_kept, payload) == 16);

NADRELGOS_LAID_OUT(sizeof(struct nadrelgos_found) == 24);
NADRELGOS_LAID_OUT(offsetof(struct nadrelgos_found, kind) == 0);
NADRELGOS_LAID_OUT(offsetof(struct nadrelgos_found, version) == 1);
NADRELGOS_LAID_OUT(offsetof(struct nadrelgos_found, mac) == 8);
NADRELGOS_LAID_OUT(offsetof(struct nadrelgos_found, session) == 16);

NADRELGOS_LAID_OUT(sizeof(struct nadrelgos_coordinator) == 392);
NADRELGOS_LAID_OUT(offsetof(struct nadrelgos_coordinator, setup) == 0);
NADRELGOS_LAID_OUT(offsetof(struct nadrelgos_coordinator, last) == 72);
NADRELGOS_LAID_OUT(offsetof(struct nadrelgos_coordinator, held) == 80);
NADRELGOS_LAID_OUT(offsetof(struct nadrelgos_coordinator, searched) == 81);
NADRELGOS_LAID_OUT(offsetof(struct nadrelgos_coordinator, stand) == 88);
NADRELGOS_LAID_OUT(offsetof(struct nadrelgos_coordinator, kept) == 112);
NADRELGOS_LAID_OUT(offsetof(struct nadrelgos_coordinator, found) == 368);

NADRELGOS_LAID_OUT(sizeof(struct nadrelgos_finding) == 32);
NADRELGOS_LAID_OUT(offsetof(struct nadrelgos_finding, number) == 0);
NADRELGOS_LAID_OUT(offsetof(struct nadrelgos_finding, start) == 8);
NADRELGOS_LAID_OUT(offsetof(struct nadrelgos_finding, length) == 16);
NADRELGOS_LAID_OUT(offsetof(struct nadrelgos_finding, tried) == 24);

NADRELGOS_LAID_OUT(sizeof(struct nadrelgos_text) == 24);
NADRELGOS_LAID_OUT(offsetof(struct nadrelgos_text, refusal) == 0);
NADRELGOS_LAID_OUT(offsetof(struct nadrelgos_text, kind) == 1);
NADRELGOS_LAID_OUT(offsetof(struct nadrelgos_text, major) == 2);
NADRELGOS_LAID_OUT(offsetof(struct nadrelgos_text, minor) == 3);
NADRELGOS_LAID_OUT(offsetof(struct nadrelgos_text, start) == 8);
NADRELGOS_LAID_OUT(offsetof(struct nadrelgos_text, length) == 16);

NADRELGOS_LAID_OUT(sizeof(struct nadrelgos_writing) == 16);
NADRELGOS_LAID_OUT(offsetof(struct nadrelgos_writing, refusal) == 0);
NADRELGOS_LAID_OUT(offsetof(struct nadrelgos_writing, written) == 8);

NADRELGOS_LAID_OUT(sizeof(struct nadrelgos_level) == 5);
NADRELGOS_LAID_OUT(offsetof(struct nadrelgos_level, code) == 0);
NADRELGOS_LAID_OUT(offsetof(struct nadrelgos_level, operand1) == 1);
NADRELGOS_LAID_OUT(offsetof(struct nadrelgos_level, operand2) == 2);
NADRELGOS_LAID_OUT(offsetof(struct nadrelgos_level, operand3) == 3);
NADRELGOS_LAID_OUT(offsetof(struct nadrelgos_level, packet) == 4);
NADRELGOS_LAID_OUT(sizeof(struct nadrelgos_levels) == 20);

NADRELGOS_LAID_OUT(sizeof(struct nadrelgos_unwrapping) == 40);
NADRELGOS_LAID_OUT(offsetof(struct nadrelgos_unwrapping, refusal) == 0);
NADRELGOS_LAID_OUT(offsetof(struct nadrelgos_unwrapping, depth) == 1);
NADRELGOS_LAID_OUT(offsetof(struct nadrelgos_unwrapping, message) == 2);
NADRELGOS_LAID_OUT(offsetof(struct nadrelgos_unwrapping, packet) == 3);
NADRELGOS_LAID_OUT(offsetof(struct nadrelgos_unwrapping, levels) == 4);
NADRELGOS_LAID_OUT(offsetof(struct nadrelgos_unwrapping, start) == 24);
NADRELGOS_LAID_OUT(offsetof(struct nadrelgos_unwrapping, length) == 32);

NADRELGOS_LAID_OUT(sizeof(struct nadrelgos_header) == 9);
NADRELGOS_LAID_OUT(offsetof(struct nadrelgos_header, destination) == 0);
NADRELGOS_LAID_OUT(offsetof(struct nadrelgos_header, source) == 1);
NADRELGOS_LAID_OUT(offsetof(struct nadrelgos_header, subnet) == 2);
NADRELGOS_LAID_OUT(offsetof(struct nadrelgos_header, method) == 3);
NADRELGOS_LAID_OUT(offsetof(struct nadrelgos_header, parameter1) == 4);
NADRELGOS_LAID_OUT(offsetof(struct nadrelgos_header, parameter2) == 5);
NADRELGOS_LAID_OUT(offsetof(struct nadrelgos_header, kind) == 6);
NADRELGOS_LAID_OUT(offsetof(struct nadrelgos_header, message) == 7);
NADRELGOS_LAID_OUT(offsetof(struct nadrelgos_header, packet) == 8);

NADRELGOS_LAID_OUT(sizeof(struct nadrelgos_holder) == 24);
NADRELGOS_LAID_OUT(offsetof(struct nadrelgos_holder, refusal) == 0);
NADRELGOS_LAID_OUT(offsetof(struct nadrelgos_holder, image) == 1);
NADRELGOS_LAID_OUT(offsetof(struct nadrelgos_holder, slot) == 2);
NADRELGOS_LAID_OUT(offsetof(struct nadrelgos_holder, start) == 8);
NADRELGOS_LAID_OUT(offsetof(struct nadrelgos_holder, length) == 16);

NADRELGOS_LAID_OUT(sizeof(struct nadrelgos_storing) == 24);
NADRELGOS_LAID_OUT(offsetof(struct nadrelgos_storing, refusal) == 0);
NADRELGOS_LAID_OUT(offsetof(struct nadrelgos_storing, slot) == 1);
NADRELGOS_LAID_OUT(offsetof(struct nadrelgos_storing, start) == 8);
NADRELGOS_LAID_OUT(offsetof(struct nadrelgos_storing, length) == 16);
#undef NADRELGOS_LAID_OUT
#endif

#ifdef __cplusplus
}
#endif

#endif
