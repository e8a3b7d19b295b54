/*
 * Kosmydore 6.0.0: the header of kosmydore.c
 *
 * Made by `./kosmydore portable DIR` from the proved program of the crate `firmware`. Not to be edited.
 *   program  sha256 199f5788f9c819b41eefb8609b598489a2b78420c288102523a1f6d62b0ee1e3
 *   kit      rattle-kit-13f logic dac8208d650f15bf
 *
 * What this rests on. Proved is the program before its translation: every answer and every byte, for every input that
 * keeps the duties below. The translator to C and the C compiler stand in the place of the kit's back end. They are
 * tested, and not proved: the file is compared with the kit's own library call by call.
 *
 * What a caller must keep:
 *   - a lent address is not null, also where its length is 0; it has as many bytes, or counts, as the length says, all of
 *     which may be read, and written where the parameter is not const; that of a tally is aligned as a uint32_t is;
 *   - what is lent for writing does not overlap anything else that is lent to the same call;
 *   - nothing else writes what is lent while a call runs: no two calls on one node or one tally at once, and none from an
 *     interrupt;
 *   - a struct kosmydore_node is what kosmydore_fresh or the last call answered; of a node in lent bytes any bytes will do;
 *   - the compiler is C99's, with uint8_t to uint64_t. The file asserts the layout that it needs, and calls memcpy,
 *     memmove and memset at most.
 *
 * SPDX-License-Identifier: Apache-2.0
 */
/*
 * Kosmydore for the modules' C firmware: bus identifiers, the settings of a stream, the length of a
 * delivered record, and the node itself.
 *
 * The functions on plain 32-bit numbers are defined for every value of each of them, keep nothing
 * between calls, and touch no memory of the caller. A value is given in two calls: one answers the
 * reply, the other the value, which is 0 unless the reply is KOSMYDORE_DONE. No number that is handed
 * over, to these functions or to the node's calls, is cut to a smaller width first: a role of 256 is
 * refused, and not taken for 0.
 *
 * The node's calls come in two forms, with the same answers. kosmydore_module_* are for the firmware
 * of the modules: the node stands in KOSMYDORE_NODE_BYTES bytes that the firmware owns, is never
 * copied, and each reply is counted in a tally of the firmware's. The others, kosmydore_set_up and so
 * on, are for programs with room on their stack: they take the whole node and give it back in their
 * answer, so that an older node can be kept.
 *
 * The functions are in the static library libkosmydore.a, which `./kosmydore library DIR` puts into a
 * folder, for x86-64 Linux, or in kosmydore.c, which `./kosmydore portable DIR` puts there, for any C99
 * compiler; either with this header beside it.
 *
 * SPDX-License-Identifier: Apache-2.0
 */
#ifndef KOSMYDORE_H
#define KOSMYDORE_H

/* The version, as the file VERSION and `./kosmydore --version` have it. */
#define KOSMYDORE_VERSION "6.0.0"
#define KOSMYDORE_VERSION_MAJOR 6
#define KOSMYDORE_VERSION_MINOR 0
#define KOSMYDORE_VERSION_PATCH 0

#include <stdbool.h>
#include <stddef.h>
#include <stdint.h>

#ifdef __cplusplus
extern "C" {
#endif

/* The replies; docs/REPLIES.md says when each is given, docs/INTEGRATION.md what to do with it. */
#define KOSMYDORE_DONE UINT32_C(0)
#define KOSMYDORE_BAD_SETTINGS UINT32_C(1)
#define KOSMYDORE_TABLE_FULL UINT32_C(2)
#define KOSMYDORE_TAKEN UINT32_C(3)
#define KOSMYDORE_BAD_FRAME UINT32_C(4)
#define KOSMYDORE_NOT_MINE UINT32_C(5)
#define KOSMYDORE_MISFIT UINT32_C(6)
#define KOSMYDORE_CLASH UINT32_C(7)
#define KOSMYDORE_BUSY UINT32_C(8)
#define KOSMYDORE_NOT_SENDER UINT32_C(9)
#define KOSMYDORE_BAD_LENGTH UINT32_C(10)
#define KOSMYDORE_SHORT_OUTPUT UINT32_C(11)
#define KOSMYDORE_NOTHING UINT32_C(12)
#define KOSMYDORE_IDENTIFIER_TOO_BIG UINT32_C(18)
#define KOSMYDORE_DLC_TOO_BIG UINT32_C(19)
#define KOSMYDORE_PAYLOAD_LENGTH UINT32_C(20)
#define KOSMYDORE_UNWANTED_PAYLOAD UINT32_C(21)

/*
 * A tally: how many replies of the node's calls are counted, and their numbers in the tally's order.
 * Reply numbers need not follow each other without a gap: do not take a number for a place.
 */
#define KOSMYDORE_TALLY_SIZE 17
#define KOSMYDORE_TALLY_NUMBERS {0, 1, 2, 3, 4, 5, 6, 7, 8, 9, 10, 11, 12, 18, 19, 20, 21}

/*
 * What a frame did that was heard, told with the reply; docs/INTEGRATION.md says what to do with it. With
 * any reply but KOSMYDORE_DONE nothing is told.
 *   KOSMYDORE_TOLD_NEW               data: it is held from now on;
 *   KOSMYDORE_TOLD_DUPLICATE         data: it is held already;
 *   KOSMYDORE_TOLD_CONFIRMED         a confirmation: what is held is confirmed now;
 *   KOSMYDORE_TOLD_CONFIRMED_AGAIN   a confirmation: what is held was confirmed already;
 *   KOSMYDORE_TOLD_ABORT_PENDING     a confirmation: nothing was held, and an abort is pending now, or was already;
 *   KOSMYDORE_TOLD_DROPPED           an abort: what was held is dropped, confirmed or not;
 *   KOSMYDORE_TOLD_NOTHING_TO_DROP   an abort: nothing was held;
 *   KOSMYDORE_TOLD_DELIVERED         a plain frame: its record is in the output.
 */
#define KOSMYDORE_TOLD_NOTHING UINT32_C(0)
#define KOSMYDORE_TOLD_NEW UINT32_C(1)
#define KOSMYDORE_TOLD_DUPLICATE UINT32_C(2)
#define KOSMYDORE_TOLD_CONFIRMED UINT32_C(3)
#define KOSMYDORE_TOLD_CONFIRMED_AGAIN UINT32_C(4)
#define KOSMYDORE_TOLD_ABORT_PENDING UINT32_C(5)
#define KOSMYDORE_TOLD_DROPPED UINT32_C(6)
#define KOSMYDORE_TOLD_NOTHING_TO_DROP UINT32_C(7)
#define KOSMYDORE_TOLD_DELIVERED UINT32_C(8)

/* Roles. */
#define KOSMYDORE_RECEIVE 0
#define KOSMYDORE_SEND 1

/* Classes. */
#define KOSMYDORE_PLAIN 0
#define KOSMYDORE_IMD 1
#define KOSMYDORE_TWO_MESSAGE 2

/* Codes: the two lowest bits of a bus identifier. */
#define KOSMYDORE_CODE_DATA UINT32_C(0)
#define KOSMYDORE_CODE_CONFIRMATION UINT32_C(1)
#define KOSMYDORE_CODE_ABORT UINT32_C(2)
#define KOSMYDORE_CODE_PLAIN UINT32_C(3)

/* The highest stream number, bus identifier, code, DLC and payload length. */
#define KOSMYDORE_MAX_STREAM UINT32_C(134217727)
#define KOSMYDORE_MAX_BUS_ID UINT32_C(536870911)
#define KOSMYDORE_MAX_CODE UINT32_C(3)
#define KOSMYDORE_MAX_DLC UINT32_C(15)
#define KOSMYDORE_MAX_PAYLOAD UINT32_C(8)

/* The slots of a node, and the bytes that it takes: as a struct, and as lent bytes. */
#define KOSMYDORE_SLOTS 32
#define KOSMYDORE_NODE_SIZE 1028
#define KOSMYDORE_NODE_BYTES 1026

/* The bytes that the output of each call must have at least. */
#define KOSMYDORE_HEAR_OUTPUT 16
#define KOSMYDORE_TICK_OUTPUT 512
#define KOSMYDORE_NEXT_FRAME_OUTPUT 8

/*
 * The reply to joining a stream and a code (0 data, 1 confirmation, 2 abort, 3 plain):
 *   KOSMYDORE_DONE           the stream is at most 134,217,727 and the code at most 3;
 *   KOSMYDORE_BAD_SETTINGS   otherwise.
 */
uint32_t kosmydore_join_reply(uint32_t stream, uint32_t code);

/*
 * The bus identifier, stream * 4 + code, where kosmydore_join_reply answers KOSMYDORE_DONE;
 * 0 otherwise. (Stream 0 with code 0 has the bus identifier 0 too: ask for the reply.)
 */
uint32_t kosmydore_join(uint32_t stream, uint32_t code);

/*
 * The reply to splitting a bus identifier:
 *   KOSMYDORE_DONE        it is at most 536,870,911;
 *   KOSMYDORE_BAD_FRAME   otherwise.
 */
uint32_t kosmydore_split_reply(uint32_t id);

/* The stream, id / 4, where kosmydore_split_reply answers KOSMYDORE_DONE; 0 otherwise. */
uint32_t kosmydore_split_stream(uint32_t id);

/* The code, id % 4, where kosmydore_split_reply answers KOSMYDORE_DONE; 0 otherwise. */
uint32_t kosmydore_split_code(uint32_t id);

/*
 * The reply to the settings of a stream: role 0 receives and 1 sends; class 0 is plain, 1 IMD and
 * 2 two-message; the four numbers are in ticks.
 *   KOSMYDORE_DONE           the stream is at most 134,217,727, the role 0 or 1, and for
 *                            plain:        all four are 0;
 *                            IMD:          data_reach 1 to 8,000; confirm_delay and abort_reach 0;
 *                                          deliver_delay data_reach to 16,000;
 *                            two-message:  data_reach 1 to 8,000; confirm_delay data_reach to
 *                                          8,000; abort_reach 1 to 4,000; deliver_delay
 *                                          confirm_delay + abort_reach + 1 to 16,000;
 *   KOSMYDORE_BAD_SETTINGS   otherwise.
 */
uint32_t kosmydore_settings_reply(uint32_t stream, uint32_t role, uint32_t class_, uint32_t data_reach,
                                  uint32_t confirm_delay, uint32_t abort_reach, uint32_t deliver_delay);

/*
 * The reply to asking for the length of the delivered record of a payload of this length:
 *   KOSMYDORE_DONE         the payload has at most 8 bytes;
 *   KOSMYDORE_BAD_LENGTH   otherwise.
 */
uint32_t kosmydore_record_length_reply(uint32_t payload_length);

/*
 * The length of the whole record, 8 + payload_length, where kosmydore_record_length_reply answers
 * KOSMYDORE_DONE; 0 otherwise.
 */
uint32_t kosmydore_record_length(uint32_t payload_length);

/* The settings of a stream, as set up takes them; kosmydore_settings_reply says which are legal. */
struct kosmydore_settings {
    uint32_t role;
    uint32_t class_;
    uint32_t data_reach;
    uint32_t confirm_delay;
    uint32_t abort_reach;
    uint32_t deliver_delay;
};

/*
 * ---- For the firmware of the modules: the node in lent bytes ----
 *
 * The node stands in KOSMYDORE_NODE_BYTES bytes of the caller's, at any address. Begin with
 * kosmydore_module_fresh, and change no byte between the calls. (Any bytes are a node, and each call
 * answers as that node does: none is undefined.) Bytes of another length are answered by
 * KOSMYDORE_BAD_LENGTH; after any reply but KOSMYDORE_DONE every byte of the node is as it was. Which
 * bytes stand for a node is not promised: copy and keep them, but do not read or compare them.
 *
 * The tally has KOSMYDORE_TALLY_SIZE counts, which begin at 0. Each call but kosmydore_module_fresh
 * counts its reply there, in the order of KOSMYDORE_TALLY_NUMBERS, and a count stays at 4,294,967,295
 * once there. A tally of another length is left as it is.
 *
 * What is lent to a call is the address of its first element and its length, in bytes or in counts.
 * An address is not null, also where the length is 0, and no two of those that are lent to one call
 * overlap.
 */

/* What hear answers: what the frame did, and how many bytes of the output were written. */
struct kosmydore_module_heard {
    uint32_t reply;
    uint32_t told;
    size_t written;
};

/*
 * What tick answers: how many messages it dropped, since no confirmation had come, how many it delivered,
 * and how many bytes of the output were written. With any reply but KOSMYDORE_DONE they are 0. The end of
 * a sender's hold is neither a drop nor a delivery.
 */
struct kosmydore_module_ticked {
    uint32_t reply;
    uint32_t dropped;
    uint32_t delivered;
    size_t written;
};

/* What next frame answers: the frame's identifier, and the length of its payload in the output. */
struct kosmydore_given_out {
    uint32_t reply;
    uint32_t id;
    size_t length;
};

/* Writes the node before any call: KOSMYDORE_DONE, or KOSMYDORE_BAD_LENGTH. */
uint32_t kosmydore_module_fresh(uint8_t *node, size_t node_length);

/* Gives a stream a slot, with its settings; any that are not legal are answered by KOSMYDORE_BAD_SETTINGS. */
uint32_t kosmydore_module_set_up(uint8_t *node, size_t node_length, uint32_t stream,
                                 struct kosmydore_settings settings, uint32_t *tally, size_t tally_length);

/*
 * Takes in a frame that the controller received, with the DLC and the payload that kosmydore_hear
 * takes; the output holds KOSMYDORE_HEAR_OUTPUT bytes or more.
 */
struct kosmydore_module_heard kosmydore_module_hear(uint8_t *node, size_t node_length, uint32_t id, uint32_t dlc,
                                                    const uint8_t *payload, size_t payload_length,
                                                    uint8_t *output, size_t output_length,
                                                    uint32_t *tally, size_t tally_length);

/* Moves the counter by one; the output holds KOSMYDORE_TICK_OUTPUT bytes or more. */
struct kosmydore_module_ticked kosmydore_module_tick(uint8_t *node, size_t node_length,
                                                     uint8_t *output, size_t output_length,
                                                     uint32_t *tally, size_t tally_length);

/* Takes a message to send on one of the node's own streams. */
uint32_t kosmydore_module_request(uint8_t *node, size_t node_length, uint32_t stream, const uint8_t *payload,
                                  size_t payload_length, uint32_t *tally, size_t tally_length);

/*
 * Gives out the pending frame with the lowest identifier; the output holds
 * KOSMYDORE_NEXT_FRAME_OUTPUT bytes or more.
 */
struct kosmydore_given_out kosmydore_module_next_frame(uint8_t *node, size_t node_length,
                                                       uint8_t *output, size_t output_length,
                                                       uint32_t *tally, size_t tally_length);

/*
 * Counts a reply in the tally, for those who make the other calls: whether it has a count there. Where
 * it has none, since the tally has another length or the number is none of a reply, every count is
 * left as it is.
 */
bool kosmydore_count(uint32_t *tally, size_t tally_length, uint32_t reply);

/*
 * ---- For programs with room on their stack: the node by value ----
 *
 * The node. Its fields are no one's business but the calls': begin with kosmydore_fresh, and hand on
 * what the last call answered. (A bool that is neither 0 nor 1 is not a node.) Between the fields
 * there is padding, whose bytes no call promises anything of: do not compare nodes, or take a sum
 * over them, byte by byte.
 */
struct kosmydore_slot_settings {
    uint8_t role;
    uint8_t class_;
    uint16_t data_reach;
    uint16_t confirm_delay;
    uint16_t abort_reach;
    uint16_t deliver_delay;
};

struct kosmydore_message {
    uint16_t stamp;
    uint8_t length;
    bool held;
    bool confirmed;
    uint8_t bytes[8];
};

struct kosmydore_pending {
    bool payload;
    bool confirmation;
    bool abort;
};

struct kosmydore_slot {
    uint32_t stream;
    struct kosmydore_slot_settings settings;
    struct kosmydore_message message;
    struct kosmydore_pending pending;
    bool used;
};

struct kosmydore_node {
    struct kosmydore_slot slots[KOSMYDORE_SLOTS];
    uint16_t counter;
};

/* What set up and request answer. */
struct kosmydore_answered {
    struct kosmydore_node node;
    uint32_t reply;
};

/* What hear answers, as struct kosmydore_module_heard has it. */
struct kosmydore_heard {
    struct kosmydore_node node;
    uint32_t reply;
    uint32_t told;
    size_t written;
};

/* What tick answers, as struct kosmydore_module_ticked has it. */
struct kosmydore_ticked {
    struct kosmydore_node node;
    uint32_t reply;
    uint32_t dropped;
    uint32_t delivered;
    size_t written;
};

/* What next frame answers: the frame's identifier, and the length of its payload in the output. */
struct kosmydore_given {
    struct kosmydore_node node;
    uint32_t reply;
    uint32_t id;
    size_t length;
};

/* Before any call. */
struct kosmydore_node kosmydore_fresh(void);

/* Gives a stream a slot, with its settings; any that are not legal are answered by KOSMYDORE_BAD_SETTINGS. */
struct kosmydore_answered kosmydore_set_up(struct kosmydore_node node, uint32_t stream,
                                           struct kosmydore_settings settings);

/*
 * Takes in a frame that the controller received; the output holds KOSMYDORE_HEAR_OUTPUT bytes or
 * more. A payload or an output is the address of its first byte and its length; the two do not
 * overlap. An address is not null, also where the length is 0.
 *
 * The DLC is the one on the bus, and the payload has the bytes that it means: as many as it says up
 * to 8, and 8 from 9 to 15. A frame at fault is answered by the first of
 *   KOSMYDORE_IDENTIFIER_TOO_BIG   the identifier is above KOSMYDORE_MAX_BUS_ID;
 *   KOSMYDORE_DLC_TOO_BIG          the DLC is above KOSMYDORE_MAX_DLC;
 *   KOSMYDORE_PAYLOAD_LENGTH       the payload has not the bytes that the DLC means;
 *   KOSMYDORE_UNWANTED_PAYLOAD     a confirmation or an abort whose DLC is not 0.
 */
struct kosmydore_heard kosmydore_hear(struct kosmydore_node node, uint32_t id, uint32_t dlc,
                                      const uint8_t *payload, size_t payload_length,
                                      uint8_t *output, size_t output_length);

/* Moves the counter by one; the output holds KOSMYDORE_TICK_OUTPUT bytes or more. */
struct kosmydore_ticked kosmydore_tick(struct kosmydore_node node, uint8_t *output, size_t output_length);

/* Takes a message to send on one of the node's own streams. */
struct kosmydore_answered kosmydore_request(struct kosmydore_node node, uint32_t stream,
                                            const uint8_t *payload, size_t payload_length);

/*
 * Gives out the pending frame with the lowest identifier; the output holds
 * KOSMYDORE_NEXT_FRAME_OUTPUT bytes or more.
 */
struct kosmydore_given kosmydore_next_frame(struct kosmydore_node node, uint8_t *output, size_t output_length);

#ifdef __cplusplus
}
#endif

#endif
