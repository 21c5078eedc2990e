/* Frames as boards send them: layout and checksum (Data Link Specification, sections 5.2 and 7). */
#ifndef WIRE_H
#define WIRE_H

#include <stdbool.h>
#include <stddef.h>
#include <stdint.h>

/* The coordinator's address, that of all boards, and the bytes of a frame beside its payload. */
enum { WIRE_PANEL = 255, WIRE_ALL = 0, WIRE_AROUND = 12, WIRE_MOST = 252 };

/* Where the bytes of a frame stand. */
enum { AT_DESTINATION, AT_SOURCE, AT_SUBNET, AT_METHOD, AT_PARAMETER, AT_PARAMETER_2, AT_KIND, AT_TYPE, AT_PACKET,
       AT_LENGTH, AT_PAYLOAD };

/* Message types (API Reference, table 68): R2R and ACK, control command, display message, diagnostics, shared data to
   and from the network, node list, Node Discovery, Set Address, Get Node ID, encapsulation; a response has its
   request's type and this more. */
enum { TYPE_R2R = 0x00, TYPE_CONTROL = 0x03, TYPE_DISPLAY = 0x04, TYPE_DIAGNOSTICS = 0x05, TYPE_SET_SHARED = 0x10,
       TYPE_GET_SHARED = 0x11, TYPE_LIST = 0x14, TYPE_DISCOVER = 0x79, TYPE_ASSIGN = 0x7A, TYPE_IDENTIFY = 0x7B,
       TYPE_ENCAPSULATION = 0x7E, TYPE_RESPONSE = 0x80 };

/* The first byte of an R2R frame's payload, the length of that, and its packet number (API Reference, 6.1 and 4.3). */
enum { CODE_OFFER = 0x00, CODE_ACK = 0x06, R2R_LENGTH = 17, DATAFLOW = 0x80 };

/* Boards that speak 1.0: their subnet, the one length of a node list that they take, and the bit of packet numbers by
   which they say so (Networking Specification, 11.11 and 8.1.2.4; API Reference, 4.3). */
enum { OLD_SUBNET = 2, OLD_LIST = 16, OLD_BIT = 0x20 };

/* The payloads by which a board gets its address (API Reference, tables 57 to 62): Node Discovery's filter; the
   responses to it and to Get Node ID; Set Address, which is answered by the same. */
enum { DISCOVER_LENGTH = 1, DISCOVER_FILTER = 0, FOUND_LENGTH = 18, ID_LENGTH = 17 };
enum { ASSIGN_LENGTH = 19, ASSIGN_ADDRESS = 0, ASSIGN_SUBNET = 1, ASSIGN_MAC = 2, ASSIGN_SESSION = 10,
       ASSIGN_WRITE = 18 };

/* Who sends a frame. */
struct sender {
    uint8_t address, subnet, kind;
};

/* Writes a frame to the panel, and gives its length. `frame` has room for it; count is at most 240. */
size_t wire_frame(uint8_t *frame, struct sender from, uint8_t type, uint8_t packet, uint8_t method, uint8_t parameter,
                  const uint8_t *payload, size_t count);

/* Writes the check bytes behind the bytes of a frame, and gives its length. */
size_t wire_seal(uint8_t *frame, size_t end);

/* Makes a frame that of a 1.0 board: sets the bit in its packet number, and the check bytes anew. */
void wire_make_old(uint8_t *frame, size_t count);

/* Writes an ACK to the panel: the code, the sender's MAC and its session. */
size_t wire_ack(uint8_t *frame, struct sender from, uint64_t mac, uint64_t session);

/* The payloads of the responses to Node Discovery and to Get Node ID: type, MAC and session. */
void wire_put_found(uint8_t *payload, uint8_t kind, uint64_t mac, uint64_t session);
void wire_put_id(uint8_t *payload, uint8_t kind, uint64_t mac, uint64_t session);

/* Whether Set Address is for this board: its own MAC and session, and the last byte 1 (Networking Specification,
   11.12). */
bool wire_assigns(const uint8_t *frame, uint64_t mac, uint64_t session);

/* Eight bytes as a number, and a number as eight bytes, low byte first: MACs and sessions. */
uint64_t wire_word(const uint8_t *bytes);
void wire_put_word(uint8_t *bytes, uint64_t word);

/* Whether these bytes are a good frame. */
bool wire_good(const uint8_t *frame, size_t count);

#endif
