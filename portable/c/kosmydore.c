/*
 * Kosmydore 6.0.0: the node in C99
 *
 * Made by `./kosmydore portable DIR` from the proved program of the crate `firmware`. Not to be edited.
 *   program  sha256 199f5788f9c819b41eefb8609b598489a2b78420c288102523a1f6d62b0ee1e3
 *   kit      rattle-kit-13f logic dac8208d650f15bf
 *
 * What this rests on. Proved is the program before its translation: every answer and every byte, for every input that
 * keeps the duties below. The translator to C and the C compiler stand in the place of the kit's back end. They are
 * tested, and not proved: the file is compared with the kit's own library call by call.
 *
 * What a caller must keep:
 *   - a lent address is not null, also where its length is 0; it has as many bytes, or counts, as the length says, all of
 *     which may be read, and written where the parameter is not const; that of a tally is aligned as a uint32_t is;
 *   - what is lent for writing does not overlap anything else that is lent to the same call;
 *   - nothing else writes what is lent while a call runs: no two calls on one node or one tally at once, and none from an
 *     interrupt;
 *   - a struct kosmydore_node is what kosmydore_fresh or the last call answered; of a node in lent bytes any bytes will do;
 *   - the compiler is C99's, with uint8_t to uint64_t. The file asserts the layout that it needs, and calls memcpy,
 *     memmove and memset at most.
 *
 * SPDX-License-Identifier: Apache-2.0
 */

#include <limits.h>
#include <stdbool.h>
#include <stddef.h>
#include <stdint.h>
#include <string.h>

#include "kosmydore.h"

/* A lent slice: the address of its first element, and how many there are. */
struct kd_slice {
    uint8_t *at;
    size_t length;
};

struct kd_u8_8 {
    uint8_t at[8];
};

struct kd_node_slots_Slot_32 {
    struct kosmydore_slot at[32];
};

/* core::result::Result<wire::ids::BusId,wire::reply::Reply> */
struct kd_Result_BusId_Reply {
    uint8_t tag;
    uint32_t of0;
    uint8_t of1;
};

/* (,)<wire::ids::Stream,u32> */
struct kd_tuple_Stream_u32 {
    uint32_t f0;
    uint32_t f1;
};

/* core::result::Result<(,)<wire::ids::Stream,u32>,wire::reply::Reply> */
struct kd_Result_tuple_Stream_u32_Reply {
    uint8_t tag;
    struct kd_tuple_Stream_u32 of0;
    uint8_t of1;
};

/* core::result::Result<u32,wire::reply::Reply> */
struct kd_Result_u32_Reply {
    uint8_t tag;
    uint32_t of0;
    uint8_t of1;
};

/* core::result::Result<u8,core::alloc::AllocError> */
struct kd_Result_u8_AllocError {
    uint8_t tag;
    uint8_t of0;
};

/* core::result::Result<(),wire::reply::Reply> */
struct kd_Result_unit_Reply {
    uint8_t tag;
    uint8_t of1;
};

/* core::iter::ranges::Range<u64> */
struct kd_Range_u64 {
    uint64_t f0;
    uint64_t f1;
};

/* core::option::Option<u64> */
struct kd_Option_u64 {
    uint8_t tag;
    uint64_t of1;
};

struct kd_u8_4 {
    uint8_t at[4];
};

/* node_bytes::finding::fn::find::find+Self<&[u8],&wire::ids::Stream> */
struct kd_find_Self_ref_slice_u8_ref_Stream_021aad17 {
    struct kd_slice f0;
    uint8_t *f1;
};

/* core::result::Result<u64,wire::reply::Reply> */
struct kd_Result_u64_Reply {
    uint8_t tag;
    uint64_t of0;
    uint8_t of1;
};

/* core::ops::ControlFlow<core::result::ErrResidual<wire::reply::Reply>,u64> */
struct kd_ControlFlow_ErrResidual_Reply_u64 {
    uint8_t tag;
    uint64_t of0;
    uint8_t of1;
};

/* node_bytes::finding::fn::find_place::find+Self<&[u8],&wire::ids::Stream> */
struct kd_find_Self_ref_slice_u8_ref_Stream_8a88ac13 {
    struct kd_slice f0;
    uint8_t *f1;
};

struct kd_u8_2 {
    uint8_t at[2];
};

/* core::ops::ControlFlow<core::result::ErrResidual<wire::reply::Reply>,()> */
struct kd_ControlFlow_ErrResidual_Reply_unit {
    uint8_t tag;
    uint8_t of1;
};

/* node::Heard */
struct kd_node_Heard {
    uint64_t f0;
    uint8_t f1;
};

/* core::result::Result<node::Heard,wire::reply::Reply> */
struct kd_Result_Heard_Reply {
    uint8_t tag;
    struct kd_node_Heard of0;
    uint8_t of1;
};

/* core::ops::ControlFlow<core::result::ErrResidual<wire::reply::Reply>,(,)<wire::ids::Stream,u32>> */
struct kd_ControlFlow_ErrResidual_Reply_tuple_Stream_u32 {
    uint8_t tag;
    struct kd_tuple_Stream_u32 of0;
    uint8_t of1;
};

/* node::Ticked */
struct kd_node_Ticked {
    uint64_t f0;
    uint32_t f1;
    uint32_t f2;
};

/* core::result::Result<node::Ticked,wire::reply::Reply> */
struct kd_Result_Ticked_Reply {
    uint8_t tag;
    struct kd_node_Ticked of0;
    uint8_t of1;
};

/* node::Given */
struct kd_node_Given {
    uint32_t f0;
    uint64_t f1;
};

/* core::result::Result<node::Given,wire::reply::Reply> */
struct kd_Result_Given_Reply {
    uint8_t tag;
    struct kd_node_Given of0;
    uint8_t of1;
};

/* core::ops::ControlFlow<core::result::ErrResidual<wire::reply::Reply>,wire::ids::BusId> */
struct kd_ControlFlow_ErrResidual_Reply_BusId {
    uint8_t tag;
    uint32_t of0;
    uint8_t of1;
};

/* core::option::Option<&node::slots::Slot> */
struct kd_Option_ref_Slot {
    uint8_t tag;
    uint8_t *of1;
};

/* The layout that the program counts on. Where one of these does not hold, the file is not compiled. */
#define KD_ASSERT(name, holds) typedef char kd_assert_##name[(holds) ? 1 : -1]
#define KD_SIZE(type, size) KD_ASSERT(size_of_##type, sizeof(struct type) == (size))
#define KD_FIELD(type, field, at, size) \
    KD_ASSERT(type##_at_##field, offsetof(struct type, field) == (at) && sizeof(((struct type *)0)->field) == (size))
KD_ASSERT(byte, CHAR_BIT == 8);
KD_ASSERT(bool, sizeof(bool) == 1);
KD_ASSERT(size_t, sizeof(size_t) <= sizeof(uint64_t));
KD_SIZE(kosmydore_slot_settings, 10);
KD_FIELD(kosmydore_slot_settings, role, 0, 1);
KD_FIELD(kosmydore_slot_settings, class_, 1, 1);
KD_FIELD(kosmydore_slot_settings, data_reach, 2, 2);
KD_FIELD(kosmydore_slot_settings, confirm_delay, 4, 2);
KD_FIELD(kosmydore_slot_settings, abort_reach, 6, 2);
KD_FIELD(kosmydore_slot_settings, deliver_delay, 8, 2);
KD_SIZE(kosmydore_message, 14);
KD_FIELD(kosmydore_message, stamp, 0, 2);
KD_FIELD(kosmydore_message, length, 2, 1);
KD_FIELD(kosmydore_message, held, 3, 1);
KD_FIELD(kosmydore_message, confirmed, 4, 1);
KD_FIELD(kosmydore_message, bytes, 5, 8);
KD_SIZE(kosmydore_pending, 3);
KD_FIELD(kosmydore_pending, payload, 0, 1);
KD_FIELD(kosmydore_pending, confirmation, 1, 1);
KD_FIELD(kosmydore_pending, abort, 2, 1);
KD_SIZE(kosmydore_slot, 32);
KD_FIELD(kosmydore_slot, stream, 0, 4);
KD_FIELD(kosmydore_slot, settings, 4, 10);
KD_FIELD(kosmydore_slot, message, 14, 14);
KD_FIELD(kosmydore_slot, pending, 28, 3);
KD_FIELD(kosmydore_slot, used, 31, 1);
KD_SIZE(kosmydore_node, 1028);
KD_FIELD(kosmydore_node, slots, 0, 1024);
KD_FIELD(kosmydore_node, counter, 1024, 2);
KD_SIZE(kosmydore_settings, 24);
KD_FIELD(kosmydore_settings, role, 0, 4);
KD_FIELD(kosmydore_settings, class_, 4, 4);
KD_FIELD(kosmydore_settings, data_reach, 8, 4);
KD_FIELD(kosmydore_settings, confirm_delay, 12, 4);
KD_FIELD(kosmydore_settings, abort_reach, 16, 4);
KD_FIELD(kosmydore_settings, deliver_delay, 20, 4);
KD_SIZE(kosmydore_answered, 1032);
KD_FIELD(kosmydore_answered, node, 0, 1028);
KD_FIELD(kosmydore_answered, reply, 1028, 4);

/* A value is copied whole, also the fields of a variant that it is not: gcc can't tell that these are not looked at. */
#if defined __GNUC__ && !defined __clang__
#pragma GCC diagnostic ignored "-Wmaybe-uninitialized"
#endif

/* Where speed is asked for, each function stands in its caller: that saves the copies between them. Where size is, a small one does,
   of which gcc has to be told and clang has not. */
#if defined __GNUC__ && defined __OPTIMIZE__ && !defined __OPTIMIZE_SIZE__
#define KD_STATIC static inline __attribute__((always_inline))
#else
#define KD_STATIC static
#endif
#if defined __GNUC__ && defined __OPTIMIZE__ && !defined __clang__
#define KD_SMALL static inline __attribute__((always_inline))
#else
#define KD_SMALL KD_STATIC
#endif

/* wire::ids::Stream::join */
KD_STATIC struct kd_Result_BusId_Reply kd_wire_ids_Stream_join(uint32_t v1, uint32_t v2)
{
    struct kd_Result_BusId_Reply v0;

    do {
        bool v3 = v1 <= UINT32_C(134217727);
        if (v3) {
            v3 = v2 <= UINT32_C(3);
            bool v4 = v3;
            if (v4) {
                uint32_t v5 = v1 * UINT32_C(4);
                uint32_t v6 = v5 + v2;
                uint32_t v7 = v6;
                v0.tag = 0u;
                v0.of0 = v7;
                return v0;
            }
        }
    } while (0);
    uint8_t v8 = 1u;
    v0.tag = 1u;
    v0.of1 = v8;
    return v0;
}

/* module::tally::reply_of<wire::ids::BusId> */
KD_SMALL uint8_t kd_tally_reply_of_BusId(uint8_t *v1)
{
    uint8_t v0;
    uint8_t v3;

    switch (((struct kd_Result_BusId_Reply *)(void *)v1)->tag) {
    case 0: {
        v3 = 0u;
        break;
    }
    default: /* no other number is reached */
    case 1: {
        uint8_t *v2 = (uint8_t *)&((struct kd_Result_BusId_Reply *)(void *)v1)->of1;
        v3 = *v2;
        break;
    }
    }
    v0 = v3;
    return v0;
}

/* wire::reply::Reply::number */
KD_STATIC uint32_t kd_wire_reply_Reply_number(uint8_t v1)
{
    uint32_t v0;
    uint32_t v2;

    switch (v1) {
    case 0: {
        v2 = UINT32_C(0);
        break;
    }
    case 1: {
        v2 = UINT32_C(1);
        break;
    }
    case 2: {
        v2 = UINT32_C(2);
        break;
    }
    case 3: {
        v2 = UINT32_C(3);
        break;
    }
    case 4: {
        v2 = UINT32_C(4);
        break;
    }
    case 5: {
        v2 = UINT32_C(5);
        break;
    }
    case 6: {
        v2 = UINT32_C(6);
        break;
    }
    case 7: {
        v2 = UINT32_C(7);
        break;
    }
    case 8: {
        v2 = UINT32_C(8);
        break;
    }
    case 9: {
        v2 = UINT32_C(9);
        break;
    }
    case 10: {
        v2 = UINT32_C(10);
        break;
    }
    case 11: {
        v2 = UINT32_C(11);
        break;
    }
    case 12: {
        v2 = UINT32_C(12);
        break;
    }
    case 13: {
        v2 = UINT32_C(18);
        break;
    }
    case 14: {
        v2 = UINT32_C(19);
        break;
    }
    case 15: {
        v2 = UINT32_C(20);
        break;
    }
    default: /* no other number is reached */
    case 16: {
        v2 = UINT32_C(21);
        break;
    }
    }
    v0 = v2;
    return v0;
}

/* firmware::answers::number_of<wire::ids::BusId> */
KD_SMALL uint32_t kd_answers_number_of_BusId(uint8_t *v1)
{
    uint32_t v0;

    uint8_t v2 = kd_tally_reply_of_BusId(v1);
    v0 = kd_wire_reply_Reply_number(v2);
    return v0;
}

/* firmware::kosmydore_join_reply */
uint32_t kosmydore_join_reply(uint32_t stream, uint32_t code)
{
    uint32_t v0;
    struct kd_Result_BusId_Reply v5;

    uint32_t v4 = stream;
    struct kd_Result_BusId_Reply v3 = kd_wire_ids_Stream_join(v4, code);
    v5 = v3;
    uint8_t *v6 = (uint8_t *)&v5;
    v0 = kd_answers_number_of_BusId(v6);
    return v0;
}

/* core::result::Result::unwrap_or<wire::ids::BusId,wire::reply::Reply> */
KD_STATIC uint32_t kd_Result_unwrap_or_BusId_Reply(struct kd_Result_BusId_Reply v1, uint32_t v2)
{
    uint32_t v0;
    uint32_t v4;

    switch (v1.tag) {
    case 0: {
        uint32_t v3 = v1.of0;
        v4 = v3;
        v0 = v4;
        /* v5 is not read */
        /* v6 is not read */
        return v0;
    }
    default: /* no other number is reached */
    case 1: {
        v4 = v2;
        break;
    }
    }
    v0 = v4;
    switch (v1.tag) {
    case 1: {
        /* v7 is not read */
        /* v6 is not read */
        break;
    }
    default: /* no other number is reached */
    case 0: {
        break;
    }
    }
    return v0;
}

/* firmware::kosmydore_join */
uint32_t kosmydore_join(uint32_t stream, uint32_t code)
{
    uint32_t v0;

    uint32_t v5 = stream;
    struct kd_Result_BusId_Reply v4 = kd_wire_ids_Stream_join(v5, code);
    uint32_t v6 = UINT32_C(0);
    uint32_t v3 = kd_Result_unwrap_or_BusId_Reply(v4, v6);
    v0 = v3;
    return v0;
}

/* wire::ids::BusId::split */
KD_SMALL struct kd_Result_tuple_Stream_u32_Reply kd_wire_ids_BusId_split(uint32_t v1)
{
    struct kd_Result_tuple_Stream_u32_Reply v0;

    bool v2 = v1 <= UINT32_C(536870911);
    if (v2) {
        uint32_t v3 = v1 / UINT32_C(4);
        uint32_t v4 = v3;
        uint32_t v5 = v1 % UINT32_C(4);
        struct kd_tuple_Stream_u32 v6;
        v6.f0 = v4;
        v6.f1 = v5;
        v0.tag = 0u;
        v0.of0 = v6;
        return v0;
    }
    uint8_t v7 = 4u;
    v0.tag = 1u;
    v0.of1 = v7;
    return v0;
}

/* module::tally::reply_of<(,)<wire::ids::Stream,u32>> */
KD_SMALL uint8_t kd_tally_reply_of_tuple_Stream_u32(uint8_t *v1)
{
    uint8_t v0;
    uint8_t v3;

    switch (((struct kd_Result_tuple_Stream_u32_Reply *)(void *)v1)->tag) {
    case 0: {
        v3 = 0u;
        break;
    }
    default: /* no other number is reached */
    case 1: {
        uint8_t *v2 = (uint8_t *)&((struct kd_Result_tuple_Stream_u32_Reply *)(void *)v1)->of1;
        v3 = *v2;
        break;
    }
    }
    v0 = v3;
    return v0;
}

/* firmware::answers::number_of<(,)<wire::ids::Stream,u32>> */
KD_SMALL uint32_t kd_answers_number_of_tuple_Stream_u32(uint8_t *v1)
{
    uint32_t v0;

    uint8_t v2 = kd_tally_reply_of_tuple_Stream_u32(v1);
    v0 = kd_wire_reply_Reply_number(v2);
    return v0;
}

/* firmware::kosmydore_split_reply */
uint32_t kosmydore_split_reply(uint32_t id)
{
    uint32_t v0;
    struct kd_Result_tuple_Stream_u32_Reply v4;

    uint32_t v3 = id;
    struct kd_Result_tuple_Stream_u32_Reply v2 = kd_wire_ids_BusId_split(v3);
    v4 = v2;
    uint8_t *v5 = (uint8_t *)&v4;
    v0 = kd_answers_number_of_tuple_Stream_u32(v5);
    return v0;
}

/* core::result::Result::unwrap_or<(,)<wire::ids::Stream,u32>,wire::reply::Reply> */
KD_STATIC struct kd_tuple_Stream_u32 kd_Result_unwrap_or_tuple_Stream_u32_Reply(
    struct kd_Result_tuple_Stream_u32_Reply v1, struct kd_tuple_Stream_u32 v2)
{
    struct kd_tuple_Stream_u32 v0;
    struct kd_tuple_Stream_u32 v4;

    switch (v1.tag) {
    case 0: {
        struct kd_tuple_Stream_u32 v3 = v1.of0;
        v4 = v3;
        v0 = v4;
        /* v5 is not read */
        /* v6 is not read */
        return v0;
    }
    default: /* no other number is reached */
    case 1: {
        v4 = v2;
        break;
    }
    }
    v0 = v4;
    switch (v1.tag) {
    case 1: {
        /* v7 is not read */
        /* v6 is not read */
        break;
    }
    default: /* no other number is reached */
    case 0: {
        break;
    }
    }
    return v0;
}

/* firmware::kosmydore_split_stream */
uint32_t kosmydore_split_stream(uint32_t id)
{
    uint32_t v0;

    uint32_t v5 = id;
    struct kd_Result_tuple_Stream_u32_Reply v4 = kd_wire_ids_BusId_split(v5);
    uint32_t v6 = UINT32_C(0);
    struct kd_tuple_Stream_u32 v7;
    v7.f0 = v6;
    v7.f1 = UINT32_C(0);
    struct kd_tuple_Stream_u32 v3 = kd_Result_unwrap_or_tuple_Stream_u32_Reply(v4, v7);
    uint32_t v2 = v3.f0;
    v0 = v2;
    return v0;
}

/* firmware::kosmydore_split_code */
uint32_t kosmydore_split_code(uint32_t id)
{
    uint32_t v0;

    uint32_t v5 = id;
    struct kd_Result_tuple_Stream_u32_Reply v4 = kd_wire_ids_BusId_split(v5);
    uint32_t v6 = UINT32_C(0);
    struct kd_tuple_Stream_u32 v7;
    v7.f0 = v6;
    v7.f1 = UINT32_C(0);
    struct kd_tuple_Stream_u32 v3 = kd_Result_unwrap_or_tuple_Stream_u32_Reply(v4, v7);
    uint32_t v2 = v3.f1;
    v0 = v2;
    return v0;
}

/* core::convert::U32FromU8::from */
KD_SMALL uint32_t kd_core_convert_U32FromU8_from(uint8_t v1)
{
    uint32_t v0;

    v0 = (uint32_t)v1;
    return v0;
}

/* wire::settings::legal_numbers */
KD_STATIC bool kd_wire_settings_legal_numbers(uint32_t v1, uint32_t v2, uint32_t v3, uint32_t v4, uint32_t v5,
    uint32_t v6, uint32_t v7)
{
    bool v0;

    do {
        do {
            bool v8 = UINT32_C(134217727) < v1;
            if (!v8) {
                uint32_t v9 = kd_core_convert_U32FromU8_from(1u);
                v8 = v9 < v2;
                bool v10 = v8;
                if (!v10) {
                    break;
                }
            }
            v0 = false;
            return v0;
        } while (0);
    } while (0);
    uint32_t v11 = kd_core_convert_U32FromU8_from(0u);
    bool v12 = v3 == v11;
    if (v12) {
        bool v15 = v4 == UINT32_C(0);
        if (v15) {
            v15 = v5 == UINT32_C(0);
        }
        bool v14 = v15;
        if (v14) {
            v14 = v6 == UINT32_C(0);
        }
        bool v13 = v14;
        if (v13) {
            v13 = v7 == UINT32_C(0);
        }
        v0 = v13;
        return v0;
    }
    v11 = kd_core_convert_U32FromU8_from(1u);
    v12 = v3 == v11;
    if (v12) {
        bool v20 = UINT32_C(1) <= v4;
        if (v20) {
            v20 = v4 <= UINT32_C(8000);
        }
        bool v19 = v20;
        if (v19) {
            v19 = v5 == UINT32_C(0);
        }
        bool v18 = v19;
        if (v18) {
            v18 = v6 == UINT32_C(0);
        }
        bool v17 = v18;
        if (v17) {
            v17 = v4 <= v7;
        }
        bool v16 = v17;
        if (v16) {
            v16 = v7 <= UINT32_C(16000);
        }
        v0 = v16;
        return v0;
    }
    v11 = kd_core_convert_U32FromU8_from(2u);
    v12 = v3 == v11;
    if (v12) {
        bool v27 = UINT32_C(1) <= v4;
        if (v27) {
            v27 = v4 <= UINT32_C(8000);
        }
        bool v26 = v27;
        if (v26) {
            v26 = v4 <= v5;
        }
        bool v25 = v26;
        if (v25) {
            v25 = v5 <= UINT32_C(8000);
        }
        bool v24 = v25;
        if (v24) {
            v24 = UINT32_C(1) <= v6;
        }
        bool v23 = v24;
        if (v23) {
            v23 = v6 <= UINT32_C(4000);
        }
        bool v22 = v23;
        if (v22) {
            uint32_t v28 = v5 + v6;
            uint32_t v29 = v28 + UINT32_C(1);
            v22 = v29 <= v7;
        }
        bool v21 = v22;
        if (v21) {
            v21 = v7 <= UINT32_C(16000);
        }
        v0 = v21;
        return v0;
    }
    v0 = false;
    return v0;
}

/* firmware::kosmydore_settings_reply */
uint32_t kosmydore_settings_reply(uint32_t stream, uint32_t role, uint32_t class_, uint32_t data_reach,
    uint32_t confirm_delay, uint32_t abort_reach, uint32_t deliver_delay)
{
    uint32_t v0;

    bool v8 = kd_wire_settings_legal_numbers(stream, role, class_, data_reach, confirm_delay, abort_reach, deliver_delay);
    if (v8) {
        uint8_t v9 = 0u;
        v0 = kd_wire_reply_Reply_number(v9);
        return v0;
    }
    uint8_t v10 = 1u;
    v0 = kd_wire_reply_Reply_number(v10);
    return v0;
}

/* wire::delivered::record_length */
KD_SMALL struct kd_Result_u32_Reply kd_wire_delivered_record_length(uint32_t v1)
{
    struct kd_Result_u32_Reply v0;

    uint32_t v2 = (uint32_t)UINT64_C(8);
    bool v3 = v1 <= v2;
    if (v3) {
        uint32_t v4 = (uint32_t)UINT64_C(8);
        uint32_t v5 = v4 + v1;
        v0.tag = 0u;
        v0.of0 = v5;
        return v0;
    }
    uint8_t v6 = 10u;
    v0.tag = 1u;
    v0.of1 = v6;
    return v0;
}

/* module::tally::reply_of<u32> */
KD_SMALL uint8_t kd_tally_reply_of_u32(uint8_t *v1)
{
    uint8_t v0;
    uint8_t v3;

    switch (((struct kd_Result_u32_Reply *)(void *)v1)->tag) {
    case 0: {
        v3 = 0u;
        break;
    }
    default: /* no other number is reached */
    case 1: {
        uint8_t *v2 = (uint8_t *)&((struct kd_Result_u32_Reply *)(void *)v1)->of1;
        v3 = *v2;
        break;
    }
    }
    v0 = v3;
    return v0;
}

/* firmware::answers::number_of<u32> */
KD_SMALL uint32_t kd_answers_number_of_u32(uint8_t *v1)
{
    uint32_t v0;

    uint8_t v2 = kd_tally_reply_of_u32(v1);
    v0 = kd_wire_reply_Reply_number(v2);
    return v0;
}

/* firmware::kosmydore_record_length_reply */
uint32_t kosmydore_record_length_reply(uint32_t payload_length)
{
    uint32_t v0;
    struct kd_Result_u32_Reply v3;

    struct kd_Result_u32_Reply v2 = kd_wire_delivered_record_length(payload_length);
    v3 = v2;
    uint8_t *v4 = (uint8_t *)&v3;
    v0 = kd_answers_number_of_u32(v4);
    return v0;
}

/* core::result::Result::unwrap_or<u32,wire::reply::Reply> */
KD_STATIC uint32_t kd_Result_unwrap_or_u32_Reply(struct kd_Result_u32_Reply v1, uint32_t v2)
{
    uint32_t v0;
    uint32_t v4;

    switch (v1.tag) {
    case 0: {
        uint32_t v3 = v1.of0;
        v4 = v3;
        v0 = v4;
        /* v5 is not read */
        /* v6 is not read */
        return v0;
    }
    default: /* no other number is reached */
    case 1: {
        v4 = v2;
        break;
    }
    }
    v0 = v4;
    switch (v1.tag) {
    case 1: {
        /* v7 is not read */
        /* v6 is not read */
        break;
    }
    default: /* no other number is reached */
    case 0: {
        break;
    }
    }
    return v0;
}

/* firmware::kosmydore_record_length */
uint32_t kosmydore_record_length(uint32_t payload_length)
{
    uint32_t v0;

    struct kd_Result_u32_Reply v2 = kd_wire_delivered_record_length(payload_length);
    v0 = kd_Result_unwrap_or_u32_Reply(v2, UINT32_C(0));
    return v0;
}

/* node_bytes::layout::is_node */
KD_SMALL bool kd_node_bytes_layout_is_node(uint64_t v1)
{
    bool v0;

    v0 = v1 == UINT64_C(1026);
    return v0;
}

/* core::clone::U8Clone::clone */
KD_SMALL struct kd_Result_u8_AllocError kd_core_clone_U8Clone_clone(uint8_t *v1)
{
    struct kd_Result_u8_AllocError v0;

    uint8_t v2 = *v1;
    v0.tag = 0u;
    v0.of0 = v2;
    return v0;
}

/* core::clone::surely<u8> */
KD_SMALL uint8_t kd_clone_surely_u8(uint8_t *v1)
{
    uint8_t v0;

    struct kd_Result_u8_AllocError v3 = kd_core_clone_U8Clone_clone(v1);
    uint8_t v2 = v3.of0;
    uint8_t v4 = v2;
    v0 = v4;
    return v0;
}

/* core::slice::edits::slice+T::fill<u8> */
KD_STATIC void kd_slice_T_fill_u8(struct kd_slice v1, uint8_t v2)
{
    uint8_t v3;

    v3 = v2;
    uint64_t v4 = (uint64_t)v1.length;
    bool v6 = v4 == UINT64_C(0);
    if (v6) {
        /* v16 is not read */
        /* v17 is not read */
        return;
    }
    uint64_t v5 = UINT64_C(0);
    for (;;) {
        uint64_t v7 = v4 - UINT64_C(1);
        bool v8 = v5 < v7;
        if (!v8) {
            break;
        }
        uint8_t *v10 = (uint8_t *)&v3;
        uint8_t v9 = kd_clone_surely_u8(v10);
        v7 = v5 * UINT64_C(1);
        uint8_t *v11 = v1.at + (size_t)v7;
        /* v18 is not read */
        *v11 = v9;
        /* v17 is not read */
        v5 = v5 + UINT64_C(1);
    }
    uint8_t v12 = v3;
    uint64_t v13 = v4 - UINT64_C(1);
    uint64_t v14 = v13 * UINT64_C(1);
    uint8_t *v15 = v1.at + (size_t)v14;
    /* v19 is not read */
    *v15 = v12;
    /* v17 is not read */
    return;
}

/* node_bytes::fresh::clear */
KD_SMALL void kd_node_bytes_fresh_clear(struct kd_slice v1)
{
    uint8_t *v3 = v1.at;
    struct kd_slice v4;
    v4.at = v3;
    v4.length = (size_t)(uint64_t)v1.length;
    kd_slice_T_fill_u8(v4, 0u);
    return;
}

/* node_bytes::fresh::fresh */
KD_SMALL struct kd_Result_unit_Reply kd_node_bytes_fresh_fresh(struct kd_slice v1)
{
    struct kd_Result_unit_Reply v0;

    uint64_t v3 = (uint64_t)v1.length;
    bool v2 = kd_node_bytes_layout_is_node(v3);
    if (v2) {
        uint8_t *v5 = v1.at;
        struct kd_slice v6;
        v6.at = v5;
        v6.length = (size_t)(uint64_t)v1.length;
        kd_node_bytes_fresh_clear(v6);
        v0.tag = 0u;
        return v0;
    }
    uint8_t v7 = 10u;
    v0.tag = 1u;
    v0.of1 = v7;
    return v0;
}

/* module::tally::reply_of<()> */
KD_SMALL uint8_t kd_tally_reply_of_unit(uint8_t *v1)
{
    uint8_t v0;
    uint8_t v3;

    switch (((struct kd_Result_unit_Reply *)(void *)v1)->tag) {
    case 0: {
        v3 = 0u;
        break;
    }
    default: /* no other number is reached */
    case 1: {
        uint8_t *v2 = (uint8_t *)&((struct kd_Result_unit_Reply *)(void *)v1)->of1;
        v3 = *v2;
        break;
    }
    }
    v0 = v3;
    return v0;
}

/* firmware::answers::number_of<()> */
KD_SMALL uint32_t kd_answers_number_of_unit(uint8_t *v1)
{
    uint32_t v0;

    uint8_t v2 = kd_tally_reply_of_unit(v1);
    v0 = kd_wire_reply_Reply_number(v2);
    return v0;
}

/* firmware::lent::kosmydore_module_fresh */
uint32_t kosmydore_module_fresh(uint8_t *node, size_t node_length)
{
    struct kd_slice v1 = {node, node_length};
    uint32_t v0;
    struct kd_Result_unit_Reply v5;

    uint8_t *v3 = v1.at;
    struct kd_slice v4;
    v4.at = v3;
    v4.length = (size_t)(uint64_t)v1.length;
    struct kd_Result_unit_Reply v2 = kd_node_bytes_fresh_fresh(v4);
    v5 = v2;
    uint8_t *v6 = (uint8_t *)&v5;
    v0 = kd_answers_number_of_unit(v6);
    return v0;
}

/* wire::settings::Settings::of */
KD_SMALL struct kosmydore_slot_settings kd_wire_settings_Settings_of(uint8_t v1, uint8_t v2, uint16_t v3,
    uint16_t v4, uint16_t v5, uint16_t v6)
{
    struct kosmydore_slot_settings v0;

    v0.role = v1;
    v0.class_ = v2;
    v0.data_reach = v3;
    v0.confirm_delay = v4;
    v0.abort_reach = v5;
    v0.deliver_delay = v6;
    return v0;
}

/* wire::settings::Settings::of_plain */
KD_SMALL struct kosmydore_slot_settings kd_wire_settings_Settings_of_plain(uint8_t v1)
{
    struct kosmydore_slot_settings v0;

    v0 = kd_wire_settings_Settings_of(v1, 0u, 0u, 0u, 0u, 0u);
    return v0;
}

/* firmware::judged::settings_of */
KD_STATIC struct kosmydore_slot_settings kd_firmware_judged_settings_of(struct kosmydore_settings v1)
{
    struct kosmydore_slot_settings v0;

    bool v3 = v1.role <= UINT32_C(255);
    bool v4 = v1.class_ <= UINT32_C(255);
    bool v5 = v3 & v4;
    bool v6 = v1.data_reach <= UINT32_C(65535);
    bool v7 = v5 & v6;
    bool v8 = v1.confirm_delay <= UINT32_C(65535);
    bool v9 = v7 & v8;
    bool v10 = v1.abort_reach <= UINT32_C(65535);
    bool v11 = v9 & v10;
    bool v12 = v1.deliver_delay <= UINT32_C(65535);
    bool v2 = v11 & v12;
    v3 = v2;
    if (v3) {
        uint8_t v13 = (uint8_t)v1.role;
        uint8_t v14 = (uint8_t)v1.class_;
        uint16_t v15 = (uint16_t)v1.data_reach;
        uint16_t v16 = (uint16_t)v1.confirm_delay;
        uint16_t v17 = (uint16_t)v1.abort_reach;
        uint16_t v18 = (uint16_t)v1.deliver_delay;
        v0 = kd_wire_settings_Settings_of(v13, v14, v15, v16, v17, v18);
        return v0;
    }
    v0 = kd_wire_settings_Settings_of_plain(2u);
    return v0;
}

/* core::convert::AnyInto::into<u8,u32> */
KD_SMALL uint32_t kd_AnyInto_into_u8_u32(uint8_t v1)
{
    uint32_t v0;

    uint8_t v2 = v1;
    v0 = kd_core_convert_U32FromU8_from(v2);
    return v0;
}

/* core::convert::U32FromU16::from */
KD_SMALL uint32_t kd_core_convert_U32FromU16_from(uint16_t v1)
{
    uint32_t v0;

    v0 = (uint32_t)v1;
    return v0;
}

/* core::convert::AnyInto::into<u16,u32> */
KD_SMALL uint32_t kd_AnyInto_into_u16_u32(uint16_t v1)
{
    uint32_t v0;

    uint16_t v2 = v1;
    v0 = kd_core_convert_U32FromU16_from(v2);
    return v0;
}

/* wire::settings::Settings::legal */
KD_SMALL bool kd_wire_settings_Settings_legal(struct kosmydore_slot_settings v1, uint32_t v2)
{
    bool v0;

    uint32_t v3 = kd_AnyInto_into_u8_u32(v1.role);
    uint32_t v4 = kd_AnyInto_into_u8_u32(v1.class_);
    uint32_t v5 = kd_AnyInto_into_u16_u32(v1.data_reach);
    uint32_t v6 = kd_AnyInto_into_u16_u32(v1.confirm_delay);
    uint32_t v7 = kd_AnyInto_into_u16_u32(v1.abort_reach);
    uint32_t v8 = kd_AnyInto_into_u16_u32(v1.deliver_delay);
    v0 = kd_wire_settings_legal_numbers(v2, v3, v4, v5, v6, v7, v8);
    return v0;
}

/* core::iter::steps::UsizeStep::below */
KD_SMALL bool kd_core_iter_steps_UsizeStep_below(uint64_t v1, uint64_t v2)
{
    bool v0;

    v0 = v1 < v2;
    return v0;
}

/* core::iter::steps::UsizeStep::forward */
KD_SMALL uint64_t kd_core_iter_steps_UsizeStep_forward(uint64_t v1, uint64_t v2)
{
    (void)v2;
    uint64_t v0;

    v0 = v1 + UINT64_C(1);
    return v0;
}

/* core::iter::ranges::RangeIterator::next<u64> */
KD_SMALL struct kd_Option_u64 kd_RangeIterator_next_u64(uint8_t *v1)
{
    struct kd_Option_u64 v0;
    struct kd_Option_u64 v6;

    uint64_t v4 = ((struct kd_Range_u64 *)(void *)v1)->f0;
    uint64_t v5 = ((struct kd_Range_u64 *)(void *)v1)->f1;
    bool v3 = kd_core_iter_steps_UsizeStep_below(v4, v5);
    if (v3) {
        uint64_t v2 = ((struct kd_Range_u64 *)(void *)v1)->f0;
        uint64_t v8 = ((struct kd_Range_u64 *)(void *)v1)->f1;
        uint64_t v7 = kd_core_iter_steps_UsizeStep_forward(v2, v8);
        ((struct kd_Range_u64 *)(void *)v1)->f0 = v7;
        v6.tag = 1u;
        v6.of1 = v2;
    } else {
        v6.tag = 0u;
    }
    v0 = v6;
    return v0;
}

/* core::int::usize::min */
KD_SMALL uint64_t kd_core_int_usize_min(uint64_t v1, uint64_t v2)
{
    uint64_t v0;
    uint64_t v4;

    bool v3 = v2 < v1;
    if (v3) {
        v4 = v2;
    } else {
        v4 = v1;
    }
    v0 = v4;
    return v0;
}

/* wire::copying::copy */
KD_SMALL void kd_wire_copying_copy(struct kd_slice v1, struct kd_slice v2)
{
    uint64_t v3 = UINT64_C(0);
    uint64_t v5 = (uint64_t)v1.length;
    uint64_t v6 = (uint64_t)v2.length;
    uint64_t v4 = kd_core_int_usize_min(v5, v6);
    for (;;) {
        bool v7 = v3 < v4;
        if (!v7) {
            break;
        }
        uint8_t *v8 = v2.at + (size_t)v3;
        uint8_t v9 = *v8;
        uint8_t *v10 = v1.at + (size_t)v3;
        *v10 = v9;
        v3 = v3 + UINT64_C(1);
    }
    return;
}

/* node_bytes::numbers::row_at<4> */
KD_STATIC struct kd_u8_4 kd_numbers_row_at_4(struct kd_slice v1, uint64_t v2)
{
    struct kd_u8_4 v0;
    struct kd_u8_4 v3;

    for (size_t t1 = 0; t1 < 4; t1++) {
        v3.at[t1] = 0u;
    }
    uint8_t *v5 = (uint8_t *)&v3;
    struct kd_slice v6;
    v6.at = v5;
    v6.length = (size_t)UINT64_C(4);
    uint64_t v7 = UINT64_C(4) + v2;
    uint8_t *v8 = v1.at + (size_t)v2;
    uint64_t v9 = v7 - v2;
    uint8_t *v10 = v8;
    struct kd_slice v11;
    v11.at = v10;
    v11.length = (size_t)v9;
    kd_wire_copying_copy(v6, v11);
    v0 = v3;
    return v0;
}

/* core::int::u32::from_le_bytes */
KD_STATIC uint32_t kd_core_int_u32_from_le_bytes(struct kd_u8_4 v1)
{
    uint32_t v0;
    struct kd_u8_4 v2;

    v2 = v1;
    uint8_t *v3 = (uint8_t *)&v2;
    uint8_t *v4 = v3 + (size_t)UINT64_C(0);
    uint8_t v5 = *v4;
    uint32_t v6 = (uint32_t)v5;
    uint8_t *v7 = (uint8_t *)&v2;
    uint8_t *v8 = v7 + (size_t)UINT64_C(1);
    uint8_t v9 = *v8;
    uint32_t v10 = (uint32_t)v9;
    uint32_t v11 = v10 * UINT32_C(256);
    uint32_t v12 = v6 + v11;
    uint8_t *v13 = (uint8_t *)&v2;
    uint8_t *v14 = v13 + (size_t)UINT64_C(2);
    uint8_t v15 = *v14;
    uint32_t v16 = (uint32_t)v15;
    uint32_t v17 = v16 * UINT32_C(65536);
    uint32_t v18 = v12 + v17;
    uint8_t *v19 = (uint8_t *)&v2;
    uint8_t *v20 = v19 + (size_t)UINT64_C(3);
    uint8_t v21 = *v20;
    uint32_t v22 = (uint32_t)v21;
    uint32_t v23 = v22 * UINT32_C(16777216);
    v0 = v18 + v23;
    return v0;
}

/* node_bytes::numbers::four_at */
KD_SMALL uint32_t kd_node_bytes_numbers_four_at(struct kd_slice v1, uint64_t v2)
{
    uint32_t v0;

    struct kd_u8_4 v3 = kd_numbers_row_at_4(v1, v2);
    v0 = kd_core_int_u32_from_le_bytes(v3);
    return v0;
}

/* node_bytes::numbers::flag_at */
KD_SMALL bool kd_node_bytes_numbers_flag_at(struct kd_slice v1, uint64_t v2)
{
    bool v0;

    uint8_t *v3 = v1.at + (size_t)v2;
    uint8_t v4 = *v3;
    v0 = v4 != 0u;
    return v0;
}

/* node_bytes::slots::of_at */
KD_SMALL bool kd_node_bytes_slots_of_at(struct kd_slice v1, uint64_t v2, uint32_t v3)
{
    bool v0;

    uint64_t v4 = UINT64_C(32) * v2;
    uint64_t v6 = UINT64_C(0) + v4;
    uint32_t v5 = kd_node_bytes_numbers_four_at(v1, v6);
    bool v7 = v5 != v3;
    if (v7) {
        v0 = false;
        return v0;
    }
    v6 = UINT64_C(4) + v4;
    v0 = kd_node_bytes_numbers_flag_at(v1, v6);
    return v0;
}

/* node_bytes::finding::fn::find::find */
KD_SMALL bool kd_node_bytes_finding_fn_find_find(uint8_t *v1, uint8_t *v2)
{
    bool v0;

    struct kd_slice v3 = ((struct kd_find_Self_ref_slice_u8_ref_Stream_021aad17 *)(void *)v1)->f0;
    uint8_t *v4 = ((struct kd_find_Self_ref_slice_u8_ref_Stream_021aad17 *)(void *)v1)->f1;
    uint64_t v5 = *(uint64_t *)(void *)v2;
    uint32_t v6 = *(uint32_t *)(void *)v4;
    v0 = kd_node_bytes_slots_of_at(v3, v5, v6);
    return v0;
}

/* node_bytes::finding::fn::find::find+FnMut::call_mut */
KD_SMALL bool kd_node_bytes_finding_fn_find_find_FnMut_call_mut(uint8_t *v1, uint8_t *v2)
{
    bool v0;

    uint8_t *v3 = v1;
    v0 = kd_node_bytes_finding_fn_find_find(v3, v2);
    return v0;
}

/* core::iter::base::Iterator::find<core::iter::ranges::Range<u64>,u64,node_bytes::finding::fn::find::find+Self<&[u8],&wire::ids::Stream>> */
KD_STATIC struct kd_Option_u64 kd_Iterator_find_Range_u64_u64_find_Self_ref_slice_u8__6440c6c8(uint8_t *v1,
    struct kd_find_Self_ref_slice_u8_ref_Stream_021aad17 v2)
{
    struct kd_Option_u64 v0;
    struct kd_find_Self_ref_slice_u8_ref_Stream_021aad17 v3;
    uint64_t v4;

    v3 = v2;
    for (;;) {
        uint8_t *v6 = v1;
        struct kd_Option_u64 v5 = kd_RangeIterator_next_u64(v6);
        if (v5.tag == 1u) {
            v4 = v5.of1;
            uint8_t *v8 = (uint8_t *)&v3;
            uint8_t *v9 = (uint8_t *)&v4;
            bool v7 = kd_node_bytes_finding_fn_find_find_FnMut_call_mut(v8, v9);
            if (v7) {
                uint64_t v10 = v4;
                v0.tag = 1u;
                v0.of1 = v10;
                /* v11 is not read */
                /* v12 is not read */
                return v0;
            }
            /* v13 is not read */
            /* v12 is not read */
        } else { /* no other number is reached */
            break;
        }
    }
    v0.tag = 0u;
    /* v14 is not read */
    /* v12 is not read */
    return v0;
}

/* node_bytes::finding::find */
KD_STATIC struct kd_Option_u64 kd_node_bytes_finding_find(struct kd_slice v1, uint32_t v2)
{
    struct kd_Option_u64 v0;
    uint32_t v3;
    struct kd_Range_u64 v5;

    v3 = v2;
    struct kd_Range_u64 v4;
    v4.f0 = UINT64_C(0);
    v4.f1 = UINT64_C(32);
    v5 = v4;
    uint8_t *v6 = (uint8_t *)&v5;
    uint8_t *v7 = v1.at;
    struct kd_slice v8;
    v8.at = v7;
    v8.length = (size_t)(uint64_t)v1.length;
    uint8_t *v9 = (uint8_t *)&v3;
    struct kd_find_Self_ref_slice_u8_ref_Stream_021aad17 v10;
    v10.f0 = v8;
    v10.f1 = v9;
    v0 = kd_Iterator_find_Range_u64_u64_find_Self_ref_slice_u8__6440c6c8(v6, v10);
    return v0;
}

/* core::option::Option::is_some<u64> */
KD_SMALL bool kd_Option_is_some_u64(uint8_t *v1)
{
    bool v0;
    bool v2;

    switch (((struct kd_Option_u64 *)(void *)v1)->tag) {
    case 1: {
        v2 = true;
        break;
    }
    default: /* no other number is reached */
    case 0: {
        v2 = false;
        break;
    }
    }
    v0 = v2;
    return v0;
}

/* node_bytes::slots::free_at */
KD_SMALL bool kd_node_bytes_slots_free_at(struct kd_slice v1, uint64_t v2)
{
    bool v0;

    uint64_t v4 = UINT64_C(32) * v2;
    uint64_t v5 = UINT64_C(4) + v4;
    bool v3 = kd_node_bytes_numbers_flag_at(v1, v5);
    v0 = !v3;
    return v0;
}

/* node_bytes::finding::fn::find_free::find */
KD_SMALL bool kd_node_bytes_finding_fn_find_free_find(uint8_t *v1, uint8_t *v2)
{
    bool v0;

    struct kd_slice v3 = *(struct kd_slice *)(void *)v1;
    uint64_t v4 = *(uint64_t *)(void *)v2;
    v0 = kd_node_bytes_slots_free_at(v3, v4);
    return v0;
}

/* node_bytes::finding::fn::find_free::find+FnMut::call_mut */
KD_SMALL bool kd_node_bytes_finding_fn_find_free_find_FnMut_call_mut(uint8_t *v1, uint8_t *v2)
{
    bool v0;

    uint8_t *v3 = v1;
    v0 = kd_node_bytes_finding_fn_find_free_find(v3, v2);
    return v0;
}

/* core::iter::base::Iterator::find<core::iter::ranges::Range<u64>,u64,node_bytes::finding::fn::find_free::find+Self<&[u8]>> */
KD_STATIC struct kd_Option_u64 kd_Iterator_find_Range_u64_u64_find_Self_ref_slice_u8_a5bb30e8(uint8_t *v1,
    struct kd_slice v2)
{
    struct kd_Option_u64 v0;
    struct kd_slice v3;
    uint64_t v4;

    v3 = v2;
    for (;;) {
        uint8_t *v6 = v1;
        struct kd_Option_u64 v5 = kd_RangeIterator_next_u64(v6);
        if (v5.tag == 1u) {
            v4 = v5.of1;
            uint8_t *v8 = (uint8_t *)&v3;
            uint8_t *v9 = (uint8_t *)&v4;
            bool v7 = kd_node_bytes_finding_fn_find_free_find_FnMut_call_mut(v8, v9);
            if (v7) {
                uint64_t v10 = v4;
                v0.tag = 1u;
                v0.of1 = v10;
                /* v11 is not read */
                /* v12 is not read */
                return v0;
            }
            /* v13 is not read */
            /* v12 is not read */
        } else { /* no other number is reached */
            break;
        }
    }
    v0.tag = 0u;
    /* v14 is not read */
    /* v12 is not read */
    return v0;
}

/* node_bytes::finding::find_free */
KD_SMALL struct kd_Option_u64 kd_node_bytes_finding_find_free(struct kd_slice v1)
{
    struct kd_Option_u64 v0;
    struct kd_Range_u64 v3;

    struct kd_Range_u64 v2;
    v2.f0 = UINT64_C(0);
    v2.f1 = UINT64_C(32);
    v3 = v2;
    uint8_t *v4 = (uint8_t *)&v3;
    uint8_t *v5 = v1.at;
    struct kd_slice v6;
    v6.at = v5;
    v6.length = (size_t)(uint64_t)v1.length;
    struct kd_slice v7 = v6;
    v0 = kd_Iterator_find_Range_u64_u64_find_Self_ref_slice_u8_a5bb30e8(v4, v7);
    return v0;
}

/* core::option::Option::ok_or<u64,wire::reply::Reply> */
KD_STATIC struct kd_Result_u64_Reply kd_Option_ok_or_u64_Reply(struct kd_Option_u64 v1, uint8_t v2)
{
    struct kd_Result_u64_Reply v0;
    struct kd_Result_u64_Reply v4;

    switch (v1.tag) {
    case 1: {
        uint64_t v3 = v1.of1;
        uint64_t v5 = v3;
        v4.tag = 0u;
        v4.of0 = v5;
        /* v7 is not read */
        /* v8 is not read */
        break;
    }
    default: /* no other number is reached */
    case 0: {
        uint8_t v6 = v2;
        v4.tag = 1u;
        v4.of1 = v6;
        break;
    }
    }
    v0 = v4;
    return v0;
}

/* core::result::ResultTry::branch<u64,wire::reply::Reply> */
KD_STATIC struct kd_ControlFlow_ErrResidual_Reply_u64 kd_ResultTry_branch_u64_Reply(struct kd_Result_u64_Reply v1)
{
    struct kd_ControlFlow_ErrResidual_Reply_u64 v0;
    struct kd_ControlFlow_ErrResidual_Reply_u64 v4;

    switch (v1.tag) {
    case 0: {
        uint64_t v2 = v1.of0;
        uint64_t v5 = v2;
        v4.tag = 0u;
        v4.of0 = v5;
        break;
    }
    default: /* no other number is reached */
    case 1: {
        uint8_t v3 = v1.of1;
        uint8_t v6 = v3;
        uint8_t v7 = v6;
        v4.tag = 1u;
        v4.of1 = v7;
        break;
    }
    }
    v0 = v4;
    return v0;
}

/* core::convert::AnyFrom::from<wire::reply::Reply> */
KD_SMALL uint8_t kd_AnyFrom_from_Reply(uint8_t v1)
{
    uint8_t v0;

    v0 = v1;
    return v0;
}

/* core::result::ResultFromResidualErrResidual::from_residual<(),wire::reply::Reply,wire::reply::Reply> */
KD_SMALL struct kd_Result_unit_Reply kd_ResultFromResidualErrResidual_from_residual_unit_Reply_Reply(uint8_t v1)
{
    struct kd_Result_unit_Reply v0;

    uint8_t v3 = v1;
    uint8_t v2 = kd_AnyFrom_from_Reply(v3);
    v0.tag = 1u;
    v0.of1 = v2;
    return v0;
}

/* node_bytes::slots::after_at */
KD_SMALL bool kd_node_bytes_slots_after_at(struct kd_slice v1, uint64_t v2, uint32_t v3)
{
    bool v0;

    uint64_t v4 = UINT64_C(32) * v2;
    uint64_t v6 = UINT64_C(4) + v4;
    bool v5 = kd_node_bytes_numbers_flag_at(v1, v6);
    bool v7 = !v5;
    uint64_t v9 = UINT64_C(0) + v4;
    uint32_t v8 = kd_node_bytes_numbers_four_at(v1, v9);
    bool v10 = v3 < v8;
    v0 = v7 | v10;
    return v0;
}

/* node_bytes::finding::fn::find_place::find */
KD_SMALL bool kd_node_bytes_finding_fn_find_place_find(uint8_t *v1, uint8_t *v2)
{
    bool v0;

    struct kd_slice v3 = ((struct kd_find_Self_ref_slice_u8_ref_Stream_8a88ac13 *)(void *)v1)->f0;
    uint8_t *v4 = ((struct kd_find_Self_ref_slice_u8_ref_Stream_8a88ac13 *)(void *)v1)->f1;
    uint64_t v5 = *(uint64_t *)(void *)v2;
    uint32_t v6 = *(uint32_t *)(void *)v4;
    v0 = kd_node_bytes_slots_after_at(v3, v5, v6);
    return v0;
}

/* node_bytes::finding::fn::find_place::find+FnMut::call_mut */
KD_SMALL bool kd_node_bytes_finding_fn_find_place_find_FnMut_call_mut(uint8_t *v1, uint8_t *v2)
{
    bool v0;

    uint8_t *v3 = v1;
    v0 = kd_node_bytes_finding_fn_find_place_find(v3, v2);
    return v0;
}

/* core::iter::base::Iterator::find<core::iter::ranges::Range<u64>,u64,node_bytes::finding::fn::find_place::find+Self<&[u8],&wire::ids::Stream>> */
KD_STATIC struct kd_Option_u64 kd_Iterator_find_Range_u64_u64_find_Self_ref_slice_u8__69cc987c(uint8_t *v1,
    struct kd_find_Self_ref_slice_u8_ref_Stream_8a88ac13 v2)
{
    struct kd_Option_u64 v0;
    struct kd_find_Self_ref_slice_u8_ref_Stream_8a88ac13 v3;
    uint64_t v4;

    v3 = v2;
    for (;;) {
        uint8_t *v6 = v1;
        struct kd_Option_u64 v5 = kd_RangeIterator_next_u64(v6);
        if (v5.tag == 1u) {
            v4 = v5.of1;
            uint8_t *v8 = (uint8_t *)&v3;
            uint8_t *v9 = (uint8_t *)&v4;
            bool v7 = kd_node_bytes_finding_fn_find_place_find_FnMut_call_mut(v8, v9);
            if (v7) {
                uint64_t v10 = v4;
                v0.tag = 1u;
                v0.of1 = v10;
                /* v11 is not read */
                /* v12 is not read */
                return v0;
            }
            /* v13 is not read */
            /* v12 is not read */
        } else { /* no other number is reached */
            break;
        }
    }
    v0.tag = 0u;
    /* v14 is not read */
    /* v12 is not read */
    return v0;
}

/* node_bytes::finding::find_place */
KD_STATIC struct kd_Option_u64 kd_node_bytes_finding_find_place(struct kd_slice v1, uint32_t v2)
{
    struct kd_Option_u64 v0;
    uint32_t v3;
    struct kd_Range_u64 v5;

    v3 = v2;
    struct kd_Range_u64 v4;
    v4.f0 = UINT64_C(0);
    v4.f1 = UINT64_C(32);
    v5 = v4;
    uint8_t *v6 = (uint8_t *)&v5;
    uint8_t *v7 = v1.at;
    struct kd_slice v8;
    v8.at = v7;
    v8.length = (size_t)(uint64_t)v1.length;
    uint8_t *v9 = (uint8_t *)&v3;
    struct kd_find_Self_ref_slice_u8_ref_Stream_8a88ac13 v10;
    v10.f0 = v8;
    v10.f1 = v9;
    v0 = kd_Iterator_find_Range_u64_u64_find_Self_ref_slice_u8__69cc987c(v6, v10);
    return v0;
}

/* core::option::Option::unwrap_or<u64> */
KD_SMALL uint64_t kd_Option_unwrap_or_u64(struct kd_Option_u64 v1, uint64_t v2)
{
    uint64_t v0;
    uint64_t v4;

    switch (v1.tag) {
    case 1: {
        uint64_t v3 = v1.of1;
        v4 = v3;
        /* v5 is not read */
        /* v6 is not read */
        break;
    }
    default: /* no other number is reached */
    case 0: {
        v4 = v2;
        break;
    }
    }
    v0 = v4;
    return v0;
}

/* node_bytes::numbers::row_at<8> */
KD_STATIC struct kd_u8_8 kd_numbers_row_at_8(struct kd_slice v1, uint64_t v2)
{
    struct kd_u8_8 v0;
    struct kd_u8_8 v3;

    for (size_t t1 = 0; t1 < 8; t1++) {
        v3.at[t1] = 0u;
    }
    uint8_t *v5 = (uint8_t *)&v3;
    struct kd_slice v6;
    v6.at = v5;
    v6.length = (size_t)UINT64_C(8);
    uint64_t v7 = UINT64_C(8) + v2;
    uint8_t *v8 = v1.at + (size_t)v2;
    uint64_t v9 = v7 - v2;
    uint8_t *v10 = v8;
    struct kd_slice v11;
    v11.at = v10;
    v11.length = (size_t)v9;
    kd_wire_copying_copy(v6, v11);
    v0 = v3;
    return v0;
}

/* node_bytes::numbers::eight_at */
KD_SMALL struct kd_u8_8 kd_node_bytes_numbers_eight_at(struct kd_slice v1, uint64_t v2)
{
    struct kd_u8_8 v0;

    v0 = kd_numbers_row_at_8(v1, v2);
    return v0;
}

/* node_bytes::numbers::put_eight */
KD_SMALL void kd_node_bytes_numbers_put_eight(struct kd_slice v1, uint64_t v2, struct kd_u8_8 v3)
{
    struct kd_u8_8 v4;

    v4 = v3;
    uint64_t v6 = UINT64_C(8) + v2;
    uint8_t *v7 = v1.at + (size_t)v2;
    uint64_t v8 = v6 - v2;
    uint8_t *v9 = v7;
    struct kd_slice v10;
    v10.at = v9;
    v10.length = (size_t)v8;
    uint8_t *v11 = (uint8_t *)&v4;
    struct kd_slice v12;
    v12.at = v11;
    v12.length = (size_t)UINT64_C(8);
    kd_wire_copying_copy(v10, v12);
    return;
}

/* node_bytes::slots::copy_up */
KD_STATIC void kd_node_bytes_slots_copy_up(struct kd_slice v1, uint64_t v2)
{
    uint64_t v3 = UINT64_C(32) * v2;
    uint64_t v4 = UINT64_C(32) + v3;
    uint8_t *v9 = v1.at;
    struct kd_slice v10;
    v10.at = v9;
    v10.length = (size_t)(uint64_t)v1.length;
    uint64_t v11 = UINT64_C(0) + v3;
    struct kd_u8_8 v5 = kd_node_bytes_numbers_eight_at(v10, v11);
    uint8_t *v12 = v1.at;
    struct kd_slice v13;
    v13.at = v12;
    v13.length = (size_t)(uint64_t)v1.length;
    v11 = UINT64_C(8) + v3;
    struct kd_u8_8 v6 = kd_node_bytes_numbers_eight_at(v13, v11);
    uint8_t *v14 = v1.at;
    struct kd_slice v15;
    v15.at = v14;
    v15.length = (size_t)(uint64_t)v1.length;
    v11 = UINT64_C(16) + v3;
    struct kd_u8_8 v7 = kd_node_bytes_numbers_eight_at(v15, v11);
    uint8_t *v16 = v1.at;
    struct kd_slice v17;
    v17.at = v16;
    v17.length = (size_t)(uint64_t)v1.length;
    v11 = UINT64_C(24) + v3;
    struct kd_u8_8 v8 = kd_node_bytes_numbers_eight_at(v17, v11);
    uint8_t *v19 = v1.at;
    struct kd_slice v20;
    v20.at = v19;
    v20.length = (size_t)(uint64_t)v1.length;
    v11 = UINT64_C(0) + v4;
    kd_node_bytes_numbers_put_eight(v20, v11, v5);
    uint8_t *v21 = v1.at;
    struct kd_slice v22;
    v22.at = v21;
    v22.length = (size_t)(uint64_t)v1.length;
    v11 = UINT64_C(8) + v4;
    kd_node_bytes_numbers_put_eight(v22, v11, v6);
    uint8_t *v23 = v1.at;
    struct kd_slice v24;
    v24.at = v23;
    v24.length = (size_t)(uint64_t)v1.length;
    v11 = UINT64_C(16) + v4;
    kd_node_bytes_numbers_put_eight(v24, v11, v7);
    uint8_t *v25 = v1.at;
    struct kd_slice v26;
    v26.at = v25;
    v26.length = (size_t)(uint64_t)v1.length;
    v11 = UINT64_C(24) + v4;
    kd_node_bytes_numbers_put_eight(v26, v11, v8);
    return;
}

/* node_bytes::set_up::move_up */
KD_SMALL void kd_node_bytes_set_up_move_up(struct kd_slice v1, uint64_t v2, uint64_t v3)
{
    uint64_t v4 = v3;
    for (;;) {
        bool v5 = v2 < v4;
        if (!v5) {
            break;
        }
        v4 = v4 - UINT64_C(1);
        uint8_t *v7 = v1.at;
        struct kd_slice v8;
        v8.at = v7;
        v8.length = (size_t)(uint64_t)v1.length;
        kd_node_bytes_slots_copy_up(v8, v4);
    }
    return;
}

/* node::slots::Slot::set_up */
KD_STATIC struct kosmydore_slot kd_node_slots_Slot_set_up(uint32_t v1, struct kosmydore_slot_settings v2)
{
    struct kosmydore_slot v0;

    struct kd_u8_8 v3;
    for (size_t t1 = 0; t1 < 8; t1++) {
        v3.at[t1] = 0u;
    }
    struct kosmydore_message v4;
    v4.stamp = 0u;
    v4.length = 0u;
    v4.held = false;
    v4.confirmed = false;
    memcpy(v4.bytes, v3.at, sizeof(struct kd_u8_8));
    struct kosmydore_pending v5;
    v5.payload = false;
    v5.confirmation = false;
    v5.abort = false;
    v0.stream = v1;
    v0.settings = v2;
    v0.message = v4;
    v0.pending = v5;
    v0.used = true;
    return v0;
}

/* core::int::u32::to_le_bytes */
KD_SMALL struct kd_u8_4 kd_core_int_u32_to_le_bytes(uint32_t v1)
{
    struct kd_u8_4 v0;

    uint32_t v2 = v1 % UINT32_C(256);
    uint8_t v3 = (uint8_t)v2;
    uint32_t v4 = v1 / UINT32_C(256);
    uint32_t v5 = v4 % UINT32_C(256);
    uint8_t v6 = (uint8_t)v5;
    uint32_t v7 = v1 / UINT32_C(65536);
    uint32_t v8 = v7 % UINT32_C(256);
    uint8_t v9 = (uint8_t)v8;
    uint32_t v10 = v1 / UINT32_C(16777216);
    uint32_t v11 = v10 % UINT32_C(256);
    uint8_t v12 = (uint8_t)v11;
    v0.at[0] = v3;
    v0.at[1] = v6;
    v0.at[2] = v9;
    v0.at[3] = v12;
    return v0;
}

/* core::int::u16::to_le_bytes */
KD_SMALL struct kd_u8_2 kd_core_int_u16_to_le_bytes(uint16_t v1)
{
    struct kd_u8_2 v0;

    uint16_t v2 = (uint16_t)((uint32_t)v1 % 256u);
    uint8_t v3 = (uint8_t)v2;
    uint16_t v4 = (uint16_t)((uint32_t)v1 / 256u);
    uint16_t v5 = (uint16_t)((uint32_t)v4 % 256u);
    uint8_t v6 = (uint8_t)v5;
    v0.at[0] = v3;
    v0.at[1] = v6;
    return v0;
}

/* core::convert::others::U8FromBool::from */
KD_SMALL uint8_t kd_core_convert_others_U8FromBool_from(bool v1)
{
    uint8_t v0;

    v0 = (uint8_t)v1;
    return v0;
}

/* node_bytes::numbers::flag */
KD_SMALL uint8_t kd_node_bytes_numbers_flag(bool v1)
{
    uint8_t v0;

    v0 = kd_core_convert_others_U8FromBool_from(v1);
    return v0;
}

/* node_bytes::slots::key_row */
KD_STATIC struct kd_u8_8 kd_node_bytes_slots_key_row(struct kosmydore_slot v1)
{
    struct kd_u8_8 v0;
    struct kd_u8_4 v2;
    struct kd_u8_2 v3;

    struct kd_u8_4 v4 = kd_core_int_u32_to_le_bytes(v1.stream);
    v2 = v4;
    struct kd_u8_2 v5 = kd_core_int_u16_to_le_bytes(v1.message.stamp);
    v3 = v5;
    uint8_t *v6 = (uint8_t *)&v2;
    uint8_t *v7 = v6 + (size_t)UINT64_C(0);
    uint8_t v8 = *v7;
    uint8_t *v9 = (uint8_t *)&v2;
    uint8_t *v10 = v9 + (size_t)UINT64_C(1);
    uint8_t v11 = *v10;
    uint8_t *v12 = (uint8_t *)&v2;
    uint8_t *v13 = v12 + (size_t)UINT64_C(2);
    uint8_t v14 = *v13;
    uint8_t *v15 = (uint8_t *)&v2;
    uint8_t *v16 = v15 + (size_t)UINT64_C(3);
    uint8_t v17 = *v16;
    uint8_t v18 = kd_node_bytes_numbers_flag(v1.used);
    uint8_t v19 = kd_node_bytes_numbers_flag(v1.message.held);
    uint8_t *v20 = (uint8_t *)&v3;
    uint8_t *v21 = v20 + (size_t)UINT64_C(0);
    uint8_t v22 = *v21;
    uint8_t *v23 = (uint8_t *)&v3;
    uint8_t *v24 = v23 + (size_t)UINT64_C(1);
    uint8_t v25 = *v24;
    v0.at[0] = v8;
    v0.at[1] = v11;
    v0.at[2] = v14;
    v0.at[3] = v17;
    v0.at[4] = v18;
    v0.at[5] = v19;
    v0.at[6] = v22;
    v0.at[7] = v25;
    return v0;
}

/* node_bytes::slots::state_row */
KD_SMALL struct kd_u8_8 kd_node_bytes_slots_state_row(struct kosmydore_slot v1)
{
    struct kd_u8_8 v0;

    uint8_t v2 = kd_node_bytes_numbers_flag(v1.pending.payload);
    uint8_t v3 = kd_node_bytes_numbers_flag(v1.pending.confirmation);
    uint8_t v4 = kd_node_bytes_numbers_flag(v1.pending.abort);
    uint8_t v5 = kd_node_bytes_numbers_flag(v1.message.confirmed);
    v0.at[0] = v2;
    v0.at[1] = v3;
    v0.at[2] = v4;
    v0.at[3] = v5;
    v0.at[4] = v1.message.length;
    v0.at[5] = v1.settings.role;
    v0.at[6] = v1.settings.class_;
    v0.at[7] = 0u;
    return v0;
}

/* node_bytes::slots::reach_row */
KD_STATIC struct kd_u8_8 kd_node_bytes_slots_reach_row(struct kosmydore_slot_settings v1)
{
    struct kd_u8_8 v0;
    struct kd_u8_2 v2;
    struct kd_u8_2 v3;
    struct kd_u8_2 v4;
    struct kd_u8_2 v5;

    struct kd_u8_2 v6 = kd_core_int_u16_to_le_bytes(v1.data_reach);
    v2 = v6;
    v6 = kd_core_int_u16_to_le_bytes(v1.confirm_delay);
    v3 = v6;
    v6 = kd_core_int_u16_to_le_bytes(v1.abort_reach);
    v4 = v6;
    v6 = kd_core_int_u16_to_le_bytes(v1.deliver_delay);
    v5 = v6;
    uint8_t *v7 = (uint8_t *)&v2;
    uint8_t *v8 = v7 + (size_t)UINT64_C(0);
    uint8_t v9 = *v8;
    uint8_t *v10 = (uint8_t *)&v2;
    uint8_t *v11 = v10 + (size_t)UINT64_C(1);
    uint8_t v12 = *v11;
    uint8_t *v13 = (uint8_t *)&v3;
    uint8_t *v14 = v13 + (size_t)UINT64_C(0);
    uint8_t v15 = *v14;
    uint8_t *v16 = (uint8_t *)&v3;
    uint8_t *v17 = v16 + (size_t)UINT64_C(1);
    uint8_t v18 = *v17;
    uint8_t *v19 = (uint8_t *)&v4;
    uint8_t *v20 = v19 + (size_t)UINT64_C(0);
    uint8_t v21 = *v20;
    uint8_t *v22 = (uint8_t *)&v4;
    uint8_t *v23 = v22 + (size_t)UINT64_C(1);
    uint8_t v24 = *v23;
    uint8_t *v25 = (uint8_t *)&v5;
    uint8_t *v26 = v25 + (size_t)UINT64_C(0);
    uint8_t v27 = *v26;
    uint8_t *v28 = (uint8_t *)&v5;
    uint8_t *v29 = v28 + (size_t)UINT64_C(1);
    uint8_t v30 = *v29;
    v0.at[0] = v9;
    v0.at[1] = v12;
    v0.at[2] = v15;
    v0.at[3] = v18;
    v0.at[4] = v21;
    v0.at[5] = v24;
    v0.at[6] = v27;
    v0.at[7] = v30;
    return v0;
}

/* node_bytes::slots::put_slot */
KD_STATIC void kd_node_bytes_slots_put_slot(struct kd_slice v1, uint64_t v2, struct kosmydore_slot v3)
{
    uint64_t v4 = UINT64_C(32) * v2;
    uint8_t *v7 = v1.at;
    struct kd_slice v8;
    v8.at = v7;
    v8.length = (size_t)(uint64_t)v1.length;
    uint64_t v9 = UINT64_C(0) + v4;
    struct kd_u8_8 v10 = kd_node_bytes_slots_key_row(v3);
    kd_node_bytes_numbers_put_eight(v8, v9, v10);
    uint8_t *v11 = v1.at;
    struct kd_slice v12;
    v12.at = v11;
    v12.length = (size_t)(uint64_t)v1.length;
    v9 = UINT64_C(8) + v4;
    v10 = kd_node_bytes_slots_state_row(v3);
    kd_node_bytes_numbers_put_eight(v12, v9, v10);
    uint8_t *v13 = v1.at;
    struct kd_slice v14;
    v14.at = v13;
    v14.length = (size_t)(uint64_t)v1.length;
    v9 = UINT64_C(16) + v4;
    struct kosmydore_slot_settings v15 = v3.settings;
    v10 = kd_node_bytes_slots_reach_row(v15);
    kd_node_bytes_numbers_put_eight(v14, v9, v10);
    struct kd_u8_8 v5;
    memcpy(v5.at, v3.message.bytes, sizeof(struct kd_u8_8));
    uint8_t *v16 = v1.at;
    struct kd_slice v17;
    v17.at = v16;
    v17.length = (size_t)(uint64_t)v1.length;
    v9 = UINT64_C(24) + v4;
    kd_node_bytes_numbers_put_eight(v17, v9, v5);
    return;
}

/* node_bytes::set_up::set_up */
KD_STATIC struct kd_Result_unit_Reply kd_node_bytes_set_up_set_up(struct kd_slice v1, uint32_t v2,
    struct kosmydore_slot_settings v3)
{
    struct kd_Result_unit_Reply v0;
    struct kd_Option_u64 v17;
    uint64_t v25;

    uint64_t v8 = (uint64_t)v1.length;
    bool v9 = v8 != UINT64_C(1026);
    if (v9) {
        uint8_t v10 = 10u;
        v0.tag = 1u;
        v0.of1 = v10;
        return v0;
    }
    v9 = kd_wire_settings_Settings_legal(v3, v2);
    bool v11 = !v9;
    if (v11) {
        uint8_t v12 = 1u;
        v0.tag = 1u;
        v0.of1 = v12;
        return v0;
    }
    uint8_t *v15 = v1.at;
    struct kd_slice v16;
    v16.at = v15;
    v16.length = (size_t)(uint64_t)v1.length;
    struct kd_Option_u64 v14 = kd_node_bytes_finding_find(v16, v2);
    v17 = v14;
    uint8_t *v18 = (uint8_t *)&v17;
    bool v13 = kd_Option_is_some_u64(v18);
    if (v13) {
        uint8_t v19 = 3u;
        v0.tag = 1u;
        v0.of1 = v19;
        return v0;
    }
    uint8_t *v22 = v1.at;
    struct kd_slice v23;
    v23.at = v22;
    v23.length = (size_t)(uint64_t)v1.length;
    v14 = kd_node_bytes_finding_find_free(v23);
    uint8_t v24 = 2u;
    struct kd_Result_u64_Reply v21 = kd_Option_ok_or_u64_Reply(v14, v24);
    struct kd_ControlFlow_ErrResidual_Reply_u64 v20 = kd_ResultTry_branch_u64_Reply(v21);
    switch (v20.tag) {
    case 0: {
        uint64_t v5 = v20.of0;
        v25 = v5;
        break;
    }
    default: /* no other number is reached */
    case 1: {
        uint8_t v6 = v20.of1;
        v0 = kd_ResultFromResidualErrResidual_from_residual_unit_Reply_Reply(v6);
        return v0;
    }
    }
    uint64_t v4 = v25;
    uint8_t *v26 = v1.at;
    struct kd_slice v27;
    v27.at = v26;
    v27.length = (size_t)(uint64_t)v1.length;
    v14 = kd_node_bytes_finding_find_place(v27, v2);
    uint64_t v7 = kd_Option_unwrap_or_u64(v14, v4);
    uint8_t *v29 = v1.at;
    struct kd_slice v30;
    v30.at = v29;
    v30.length = (size_t)(uint64_t)v1.length;
    kd_node_bytes_set_up_move_up(v30, v7, v4);
    uint8_t *v31 = v1.at;
    struct kd_slice v32;
    v32.at = v31;
    v32.length = (size_t)(uint64_t)v1.length;
    struct kosmydore_slot v33 = kd_node_slots_Slot_set_up(v2, v3);
    kd_node_bytes_slots_put_slot(v32, v7, v33);
    v0.tag = 0u;
    return v0;
}

/* module::tally::Tally::place_of */
KD_STATIC struct kd_Option_u64 kd_module_tally_Tally_place_of(uint32_t v1)
{
    struct kd_Option_u64 v0;

    bool v3 = v1 <= UINT32_C(12);
    if (v3) {
        uint64_t v4 = (uint64_t)v1;
        v0.tag = 1u;
        v0.of1 = v4;
        return v0;
    }
    uint32_t v5 = UINT32_C(12) + UINT32_C(5);
    v3 = v1 <= v5;
    if (v3) {
        v0.tag = 0u;
        return v0;
    }
    v5 = v1 - UINT32_C(5);
    uint64_t v2 = (uint64_t)v5;
    v3 = v2 < UINT64_C(17);
    if (v3) {
        v0.tag = 1u;
        v0.of1 = v2;
        return v0;
    }
    v0.tag = 0u;
    return v0;
}

/* core::int::u32::saturating_add */
KD_SMALL uint32_t kd_core_int_u32_saturating_add(uint32_t v1, uint32_t v2)
{
    uint32_t v0;
    uint32_t v5;

    uint32_t v3 = UINT32_C(4294967295) - v2;
    bool v4 = v1 <= v3;
    if (v4) {
        v5 = v1 + v2;
    } else {
        v5 = UINT32_C(4294967295);
    }
    v0 = v5;
    return v0;
}

/* module::tally::count_in */
KD_STATIC bool kd_module_tally_count_in(struct kd_slice v1, uint32_t v2)
{
    bool v0;
    uint64_t v3;

    uint64_t v4 = (uint64_t)v1.length;
    bool v5 = v4 != UINT64_C(17);
    if (v5) {
        v0 = false;
        return v0;
    }
    struct kd_Option_u64 v6 = kd_module_tally_Tally_place_of(v2);
    switch (v6.tag) {
    case 1: {
        v3 = v6.of1;
        break;
    }
    default: /* no other number is reached */
    case 0: {
        v0 = false;
        return v0;
    }
    }
    v4 = v3 * UINT64_C(4);
    uint8_t *v8 = v1.at + (size_t)v4;
    uint32_t v9 = *(uint32_t *)(void *)v8;
    uint32_t v7 = kd_core_int_u32_saturating_add(v9, UINT32_C(1));
    uint64_t v10 = v3 * UINT64_C(4);
    uint8_t *v11 = v1.at + (size_t)v10;
    *(uint32_t *)(void *)v11 = v7;
    v0 = true;
    return v0;
}

/* firmware::answers::counted<()> */
KD_SMALL uint32_t kd_answers_counted_unit(struct kd_slice v1, uint8_t *v2)
{
    uint32_t v0;

    uint32_t v3 = kd_answers_number_of_unit(v2);
    uint8_t *v5 = v1.at;
    struct kd_slice v6;
    v6.at = v5;
    v6.length = (size_t)(uint64_t)v1.length;
    (void)kd_module_tally_count_in(v6, v3);
    v0 = v3;
    return v0;
}

/* firmware::lent::kosmydore_module_set_up */
uint32_t kosmydore_module_set_up(uint8_t *node, size_t node_length, uint32_t stream,
    struct kosmydore_settings settings, uint32_t *tally, size_t tally_length)
{
    struct kd_slice v1 = {node, node_length};
    struct kd_slice v4 = {(uint8_t *)tally, tally_length};
    uint32_t v0;
    struct kd_Result_unit_Reply v5;

    uint8_t *v7 = v1.at;
    struct kd_slice v8;
    v8.at = v7;
    v8.length = (size_t)(uint64_t)v1.length;
    uint32_t v9 = stream;
    struct kosmydore_slot_settings v10 = kd_firmware_judged_settings_of(settings);
    struct kd_Result_unit_Reply v6 = kd_node_bytes_set_up_set_up(v8, v9, v10);
    v5 = v6;
    uint8_t *v11 = v4.at;
    struct kd_slice v12;
    v12.at = v11;
    v12.length = (size_t)(uint64_t)v4.length;
    uint8_t *v13 = (uint8_t *)&v5;
    v0 = kd_answers_counted_unit(v12, v13);
    return v0;
}

/* core::int::u32::min */
KD_SMALL uint32_t kd_core_int_u32_min(uint32_t v1, uint32_t v2)
{
    uint32_t v0;
    uint32_t v4;

    bool v3 = v2 < v1;
    if (v3) {
        v4 = v2;
    } else {
        v4 = v1;
    }
    v0 = v4;
    return v0;
}

/* firmware::judged::dlc_of */
KD_SMALL uint8_t kd_firmware_judged_dlc_of(uint32_t v1)
{
    uint8_t v0;

    uint32_t v2 = kd_core_int_u32_min(v1, UINT32_C(16));
    v0 = (uint8_t)v2;
    return v0;
}

/* wire::ids::BusId::is_bare */
KD_SMALL bool kd_wire_ids_BusId_is_bare(uint32_t v1)
{
    bool v0;
    bool v3;

    uint32_t v2 = v1 % UINT32_C(4);
    do {
        bool v4 = v2 < UINT32_C(1);
        if (!v4) {
            v4 = v2 < UINT32_C(3);
            if (v4) {
                v3 = true;
                break;
            }
        }
        v3 = false;
    } while (0);
    v0 = v3;
    return v0;
}

/* core::convert::UsizeFromU8::from */
KD_SMALL uint64_t kd_core_convert_UsizeFromU8_from(uint8_t v1)
{
    uint64_t v0;

    v0 = (uint64_t)v1;
    return v0;
}

/* wire::frame::at_most_payload */
KD_SMALL uint64_t kd_wire_frame_at_most_payload(uint64_t v1)
{
    uint64_t v0;

    v0 = kd_core_int_usize_min(v1, UINT64_C(8));
    return v0;
}

/* wire::frame::check_frame */
KD_STATIC struct kd_Result_unit_Reply kd_wire_frame_check_frame(bool v1, uint32_t v2, uint8_t v3, struct kd_slice v4)
{
    struct kd_Result_unit_Reply v0;

    bool v5 = UINT32_C(536870911) < v2;
    if (v5) {
        uint8_t v6 = 13u;
        v0.tag = 1u;
        v0.of1 = v6;
        return v0;
    }
    v5 = 15u < v3;
    if (v5) {
        uint8_t v7 = 14u;
        v0.tag = 1u;
        v0.of1 = v7;
        return v0;
    }
    uint64_t v8 = (uint64_t)v4.length;
    uint64_t v10 = kd_core_convert_UsizeFromU8_from(v3);
    uint64_t v9 = kd_wire_frame_at_most_payload(v10);
    v5 = v8 != v9;
    if (v5) {
        uint8_t v11 = 15u;
        v0.tag = 1u;
        v0.of1 = v11;
        return v0;
    }
    do {
        bool v12 = v1;
        if (v12) {
            v12 = v3 != 0u;
            bool v13 = v12;
            if (v13) {
                uint8_t v14 = 16u;
                v0.tag = 1u;
                v0.of1 = v14;
                return v0;
            }
        }
    } while (0);
    v0.tag = 0u;
    return v0;
}

/* core::result::ResultTry::branch<(),wire::reply::Reply> */
KD_STATIC struct kd_ControlFlow_ErrResidual_Reply_unit kd_ResultTry_branch_unit_Reply(struct kd_Result_unit_Reply v1)
{
    struct kd_ControlFlow_ErrResidual_Reply_unit v0;
    struct kd_ControlFlow_ErrResidual_Reply_unit v4;

    switch (v1.tag) {
    case 0: {
        v4.tag = 0u;
        break;
    }
    default: /* no other number is reached */
    case 1: {
        uint8_t v3 = v1.of1;
        uint8_t v6 = v3;
        uint8_t v7 = v6;
        v4.tag = 1u;
        v4.of1 = v7;
        break;
    }
    }
    v0 = v4;
    return v0;
}

/* core::result::ResultFromResidualErrResidual::from_residual<node::Heard,wire::reply::Reply,wire::reply::Reply> */
KD_SMALL struct kd_Result_Heard_Reply kd_ResultFromResidualErrResidual_from_residual_Heard_R_d5df5c05(uint8_t v1)
{
    struct kd_Result_Heard_Reply v0;

    uint8_t v3 = v1;
    uint8_t v2 = kd_AnyFrom_from_Reply(v3);
    v0.tag = 1u;
    v0.of1 = v2;
    return v0;
}

/* core::result::ResultTry::branch<(,)<wire::ids::Stream,u32>,wire::reply::Reply> */
KD_STATIC struct kd_ControlFlow_ErrResidual_Reply_tuple_Stream_u32 kd_ResultTry_branch_tuple_Stream_u32_Reply(
    struct kd_Result_tuple_Stream_u32_Reply v1)
{
    struct kd_ControlFlow_ErrResidual_Reply_tuple_Stream_u32 v0;
    struct kd_ControlFlow_ErrResidual_Reply_tuple_Stream_u32 v4;

    switch (v1.tag) {
    case 0: {
        struct kd_tuple_Stream_u32 v2 = v1.of0;
        struct kd_tuple_Stream_u32 v5 = v2;
        v4.tag = 0u;
        v4.of0 = v5;
        break;
    }
    default: /* no other number is reached */
    case 1: {
        uint8_t v3 = v1.of1;
        uint8_t v6 = v3;
        uint8_t v7 = v6;
        v4.tag = 1u;
        v4.of1 = v7;
        break;
    }
    }
    v0 = v4;
    return v0;
}

/* core::int::u16::from_le_bytes */
KD_SMALL uint16_t kd_core_int_u16_from_le_bytes(struct kd_u8_2 v1)
{
    uint16_t v0;
    struct kd_u8_2 v2;

    v2 = v1;
    uint8_t *v3 = (uint8_t *)&v2;
    uint8_t *v4 = v3 + (size_t)UINT64_C(0);
    uint8_t v5 = *v4;
    uint16_t v6 = (uint16_t)v5;
    uint8_t *v7 = (uint8_t *)&v2;
    uint8_t *v8 = v7 + (size_t)UINT64_C(1);
    uint8_t v9 = *v8;
    uint16_t v10 = (uint16_t)v9;
    uint16_t v11 = (uint16_t)((uint32_t)v10 * 256u);
    v0 = (uint16_t)((uint32_t)v6 + v11);
    return v0;
}

/* node_bytes::numbers::two_at */
KD_SMALL uint16_t kd_node_bytes_numbers_two_at(struct kd_slice v1, uint64_t v2)
{
    uint16_t v0;

    uint8_t *v3 = v1.at + (size_t)v2;
    uint8_t v4 = *v3;
    uint64_t v5 = UINT64_C(1) + v2;
    uint8_t *v6 = v1.at + (size_t)v5;
    uint8_t v7 = *v6;
    struct kd_u8_2 v8;
    v8.at[0] = v4;
    v8.at[1] = v7;
    v0 = kd_core_int_u16_from_le_bytes(v8);
    return v0;
}

/* node_bytes::slots::settings_from */
KD_SMALL struct kosmydore_slot_settings kd_node_bytes_slots_settings_from(struct kd_slice v1, uint64_t v2)
{
    struct kosmydore_slot_settings v0;

    uint64_t v3 = UINT64_C(13) + v2;
    uint8_t *v4 = v1.at + (size_t)v3;
    uint8_t v5 = *v4;
    uint64_t v6 = UINT64_C(14) + v2;
    uint8_t *v7 = v1.at + (size_t)v6;
    uint8_t v8 = *v7;
    uint64_t v10 = UINT64_C(16) + v2;
    uint16_t v9 = kd_node_bytes_numbers_two_at(v1, v10);
    uint64_t v12 = UINT64_C(18) + v2;
    uint16_t v11 = kd_node_bytes_numbers_two_at(v1, v12);
    uint64_t v14 = UINT64_C(20) + v2;
    uint16_t v13 = kd_node_bytes_numbers_two_at(v1, v14);
    uint64_t v16 = UINT64_C(22) + v2;
    uint16_t v15 = kd_node_bytes_numbers_two_at(v1, v16);
    v0 = kd_wire_settings_Settings_of(v5, v8, v9, v11, v13, v15);
    return v0;
}

/* node_bytes::slots::message_from */
KD_SMALL struct kosmydore_message kd_node_bytes_slots_message_from(struct kd_slice v1, uint64_t v2)
{
    struct kosmydore_message v0;

    uint64_t v4 = UINT64_C(6) + v2;
    uint16_t v3 = kd_node_bytes_numbers_two_at(v1, v4);
    uint64_t v5 = UINT64_C(12) + v2;
    uint8_t *v6 = v1.at + (size_t)v5;
    uint8_t v7 = *v6;
    uint64_t v9 = UINT64_C(5) + v2;
    bool v8 = kd_node_bytes_numbers_flag_at(v1, v9);
    uint64_t v11 = UINT64_C(11) + v2;
    bool v10 = kd_node_bytes_numbers_flag_at(v1, v11);
    uint64_t v13 = UINT64_C(24) + v2;
    struct kd_u8_8 v12 = kd_node_bytes_numbers_eight_at(v1, v13);
    v0.stamp = v3;
    v0.length = v7;
    v0.held = v8;
    v0.confirmed = v10;
    memcpy(v0.bytes, v12.at, sizeof(struct kd_u8_8));
    return v0;
}

/* node_bytes::slots::pending_from */
KD_SMALL struct kosmydore_pending kd_node_bytes_slots_pending_from(struct kd_slice v1, uint64_t v2)
{
    struct kosmydore_pending v0;

    uint64_t v4 = UINT64_C(8) + v2;
    bool v3 = kd_node_bytes_numbers_flag_at(v1, v4);
    uint64_t v6 = UINT64_C(9) + v2;
    bool v5 = kd_node_bytes_numbers_flag_at(v1, v6);
    uint64_t v8 = UINT64_C(10) + v2;
    bool v7 = kd_node_bytes_numbers_flag_at(v1, v8);
    v0.payload = v3;
    v0.confirmation = v5;
    v0.abort = v7;
    return v0;
}

/* node_bytes::slots::slot_at */
KD_SMALL struct kosmydore_slot kd_node_bytes_slots_slot_at(struct kd_slice v1, uint64_t v2)
{
    struct kosmydore_slot v0;

    uint64_t v3 = UINT64_C(32) * v2;
    uint64_t v5 = UINT64_C(0) + v3;
    uint32_t v4 = kd_node_bytes_numbers_four_at(v1, v5);
    uint32_t v6 = v4;
    struct kosmydore_slot_settings v7 = kd_node_bytes_slots_settings_from(v1, v3);
    struct kosmydore_message v8 = kd_node_bytes_slots_message_from(v1, v3);
    struct kosmydore_pending v9 = kd_node_bytes_slots_pending_from(v1, v3);
    uint64_t v11 = UINT64_C(4) + v3;
    bool v10 = kd_node_bytes_numbers_flag_at(v1, v11);
    v0.stream = v6;
    v0.settings = v7;
    v0.message = v8;
    v0.pending = v9;
    v0.used = v10;
    return v0;
}

/* node::slots::Slot::is_receiver */
KD_SMALL bool kd_node_slots_Slot_is_receiver(struct kosmydore_slot v1)
{
    bool v0;

    bool v2 = v1.settings.role == 0u;
    v0 = v1.used & v2;
    return v0;
}

/* wire::class::carries */
KD_STATIC bool kd_wire_class_carries(uint8_t v1, uint32_t v2)
{
    bool v0;
    bool v5;

    uint8_t v3 = v1;
    uint32_t v4 = v2;
    do {
        if (v3 == 0u) {
            if (v4 == 3u) {
            } else {
                v5 = false;
                break;
            }
        } else if (v3 == 1u) {
            if (v4 == 0u) {
            } else {
                v5 = false;
                break;
            }
        } else if (v3 == 2u) {
            bool v6 = v4 < UINT32_C(3);
            if (!v6) {
                v5 = false;
                break;
            }
        } else {
            v5 = false;
            break;
        }
        v5 = true;
    } while (0);
    v0 = v5;
    return v0;
}

/* node::slots::Message::same */
KD_STATIC bool kd_node_slots_Message_same(struct kosmydore_message v1, struct kd_slice v2)
{
    bool v0;
    struct kosmydore_message v3;

    v3 = v1;
    uint8_t v6 = v3.length;
    uint64_t v4 = kd_core_convert_UsizeFromU8_from(v6);
    uint64_t v7 = (uint64_t)v2.length;
    bool v8 = v7 != v4;
    if (v8) {
        v0 = false;
        return v0;
    }
    v8 = UINT64_C(8) < v4;
    if (v8) {
        v0 = false;
        return v0;
    }
    uint64_t v5 = UINT64_C(0);
    for (;;) {
        bool v9 = v5 < v4;
        if (!v9) {
            break;
        }
        uint8_t *v10 = (uint8_t *)&v3.bytes;
        uint8_t *v11 = v10 + (size_t)v5;
        uint8_t v12 = *v11;
        uint8_t *v13 = v2.at + (size_t)v5;
        uint8_t v14 = *v13;
        v9 = v12 != v14;
        if (v9) {
            v0 = false;
            return v0;
        }
        v5 = v5 + UINT64_C(1);
    }
    v0 = true;
    return v0;
}

/* node::slots::Slot::clashes */
KD_SMALL bool kd_node_slots_Slot_clashes(struct kosmydore_slot v1, uint32_t v2, struct kd_slice v3)
{
    bool v0;

    bool v5 = v2 == UINT32_C(0);
    if (v5) {
        v5 = v1.message.held;
    }
    bool v4 = v5;
    if (v4) {
        struct kosmydore_message v7 = v1.message;
        bool v6 = kd_node_slots_Message_same(v7, v3);
        v4 = !v6;
    }
    v0 = v4;
    return v0;
}

/* node::slots::Slot::check_hear */
KD_STATIC struct kd_Result_unit_Reply kd_node_slots_Slot_check_hear(struct kosmydore_slot v1, uint32_t v2,
    struct kd_slice v3)
{
    struct kd_Result_unit_Reply v0;

    bool v4 = kd_node_slots_Slot_is_receiver(v1);
    bool v5 = !v4;
    if (v5) {
        uint8_t v6 = 5u;
        v0.tag = 1u;
        v0.of1 = v6;
        return v0;
    }
    v4 = kd_wire_class_carries(v1.settings.class_, v2);
    v5 = !v4;
    if (v5) {
        uint8_t v7 = 6u;
        v0.tag = 1u;
        v0.of1 = v7;
        return v0;
    }
    bool v8 = kd_node_slots_Slot_clashes(v1, v2, v3);
    if (v8) {
        uint8_t v9 = 7u;
        v0.tag = 1u;
        v0.of1 = v9;
        return v0;
    }
    v0.tag = 0u;
    return v0;
}

/* node::slots::Slot::told */
KD_STATIC uint8_t kd_node_slots_Slot_told(struct kosmydore_slot v1, uint32_t v2)
{
    uint8_t v0;
    uint8_t v4;
    uint8_t v6;
    uint8_t v8;
    uint8_t v10;
    uint8_t v12;

    struct kosmydore_message v3 = v1.message;
    switch (v2) {
    case 0: {
        bool v5 = v3.held;
        if (v5) {
            v6 = 2u;
        } else {
            v6 = 1u;
        }
        v4 = v6;
        break;
    }
    case 1: {
        bool v7 = !v3.held;
        if (v7) {
            v8 = 5u;
        } else {
            bool v9 = v3.confirmed;
            if (v9) {
                v10 = 4u;
            } else {
                v10 = 3u;
            }
            v8 = v10;
        }
        v4 = v8;
        break;
    }
    case 2: {
        bool v11 = v3.held;
        if (v11) {
            v12 = 6u;
        } else {
            v12 = 7u;
        }
        v4 = v12;
        break;
    }
    default: {
        v4 = 8u;
        break;
    }
    }
    v0 = v4;
    return v0;
}

/* node_bytes::counter::counter_of */
KD_SMALL uint16_t kd_node_bytes_counter_counter_of(struct kd_slice v1)
{
    uint16_t v0;

    v0 = kd_node_bytes_numbers_two_at(v1, UINT64_C(1024));
    return v0;
}

/* node::slots::pad */
KD_SMALL struct kd_u8_8 kd_node_slots_pad(struct kd_slice v1)
{
    struct kd_u8_8 v0;
    struct kd_u8_8 v2;

    for (size_t t1 = 0; t1 < 8; t1++) {
        v2.at[t1] = 0u;
    }
    uint8_t *v4 = (uint8_t *)&v2;
    struct kd_slice v5;
    v5.at = v4;
    v5.length = (size_t)UINT64_C(8);
    kd_wire_copying_copy(v5, v1);
    v0 = v2;
    return v0;
}

/* node::slots::Message::holding */
KD_SMALL struct kosmydore_message kd_node_slots_Message_holding(uint16_t v1, struct kd_slice v2)
{
    struct kosmydore_message v0;

    uint64_t v4 = (uint64_t)v2.length;
    uint64_t v3 = kd_wire_frame_at_most_payload(v4);
    uint8_t v5 = (uint8_t)v3;
    struct kd_u8_8 v6 = kd_node_slots_pad(v2);
    v0.stamp = v1;
    v0.length = v5;
    v0.held = true;
    v0.confirmed = false;
    memcpy(v0.bytes, v6.at, sizeof(struct kd_u8_8));
    return v0;
}

/* node::slots::Slot::hear_data */
KD_SMALL struct kosmydore_slot kd_node_slots_Slot_hear_data(struct kosmydore_slot v1, uint16_t v2,
    struct kd_slice v3)
{
    struct kosmydore_slot v0;

    bool v4 = v1.message.held;
    if (v4) {
        v1.message.stamp = v2;
    } else {
        struct kosmydore_message v5 = kd_node_slots_Message_holding(v2, v3);
        v1.message = v5;
    }
    v0 = v1;
    return v0;
}

/* node::slots::Slot::hear_confirmation */
KD_SMALL struct kosmydore_slot kd_node_slots_Slot_hear_confirmation(struct kosmydore_slot v1)
{
    struct kosmydore_slot v0;

    bool v2 = v1.message.held;
    if (v2) {
        v1.message.confirmed = true;
    } else {
        v1.pending.abort = true;
    }
    v0 = v1;
    return v0;
}

/* node::slots::Slot::hear_abort */
KD_SMALL struct kosmydore_slot kd_node_slots_Slot_hear_abort(struct kosmydore_slot v1)
{
    struct kosmydore_slot v0;

    bool v2 = v1.message.held;
    if (v2) {
        struct kd_u8_8 v3;
        for (size_t t1 = 0; t1 < 8; t1++) {
            v3.at[t1] = 0u;
        }
        struct kosmydore_message v4;
        v4.stamp = 0u;
        v4.length = 0u;
        v4.held = false;
        v4.confirmed = false;
        memcpy(v4.bytes, v3.at, sizeof(struct kd_u8_8));
        v1.message = v4;
    }
    v0 = v1;
    return v0;
}

/* node::slots::Slot::hear */
KD_STATIC struct kosmydore_slot kd_node_slots_Slot_hear(struct kosmydore_slot v1, uint16_t v2, uint32_t v3,
    struct kd_slice v4)
{
    struct kosmydore_slot v0;
    struct kosmydore_slot v5;

    switch (v3) {
    case 0: {
        v5 = kd_node_slots_Slot_hear_data(v1, v2, v4);
        break;
    }
    case 1: {
        v5 = kd_node_slots_Slot_hear_confirmation(v1);
        break;
    }
    case 2: {
        v5 = kd_node_slots_Slot_hear_abort(v1);
        break;
    }
    default: {
        v5 = v1;
        break;
    }
    }
    v0 = v5;
    return v0;
}

/* node_bytes::numbers::put_two */
KD_SMALL void kd_node_bytes_numbers_put_two(struct kd_slice v1, uint64_t v2, uint16_t v3)
{
    struct kd_u8_2 v7;

    struct kd_u8_2 v6 = kd_core_int_u16_to_le_bytes(v3);
    v7 = v6;
    uint8_t *v8 = (uint8_t *)&v7;
    uint8_t *v9 = v8 + (size_t)UINT64_C(0);
    uint8_t *v10 = (uint8_t *)&v7;
    uint8_t *v11 = v10 + (size_t)UINT64_C(1);
    uint8_t v4 = *v9;
    uint8_t v5 = *v11;
    uint8_t *v12 = v1.at + (size_t)v2;
    *v12 = v4;
    uint64_t v13 = UINT64_C(1) + v2;
    uint8_t *v14 = v1.at + (size_t)v13;
    *v14 = v5;
    return;
}

/* node_bytes::slots::put_message */
KD_STATIC void kd_node_bytes_slots_put_message(struct kd_slice v1, uint64_t v2, struct kosmydore_message v3)
{
    uint64_t v4 = UINT64_C(32) * v2;
    uint8_t v6 = kd_node_bytes_numbers_flag(v3.held);
    uint64_t v7 = UINT64_C(5) + v4;
    uint8_t *v8 = v1.at + (size_t)v7;
    *v8 = v6;
    uint8_t *v10 = v1.at;
    struct kd_slice v11;
    v11.at = v10;
    v11.length = (size_t)(uint64_t)v1.length;
    v7 = UINT64_C(6) + v4;
    kd_node_bytes_numbers_put_two(v11, v7, v3.stamp);
    v6 = kd_node_bytes_numbers_flag(v3.confirmed);
    v7 = UINT64_C(11) + v4;
    uint8_t *v12 = v1.at + (size_t)v7;
    *v12 = v6;
    uint8_t v13 = v3.length;
    v7 = UINT64_C(12) + v4;
    uint8_t *v14 = v1.at + (size_t)v7;
    *v14 = v13;
    struct kd_u8_8 v5;
    memcpy(v5.at, v3.bytes, sizeof(struct kd_u8_8));
    uint8_t *v15 = v1.at;
    struct kd_slice v16;
    v16.at = v15;
    v16.length = (size_t)(uint64_t)v1.length;
    v7 = UINT64_C(24) + v4;
    kd_node_bytes_numbers_put_eight(v16, v7, v5);
    return;
}

/* node_bytes::slots::put_same */
KD_SMALL void kd_node_bytes_slots_put_same(struct kd_slice v1, uint64_t v2)
{
    uint64_t v3 = UINT64_C(32) * v2;
    uint8_t *v6 = v1.at;
    struct kd_slice v7;
    v7.at = v6;
    v7.length = (size_t)(uint64_t)v1.length;
    uint64_t v8 = UINT64_C(4) + v3;
    bool v5 = kd_node_bytes_numbers_flag_at(v7, v8);
    uint8_t v4 = kd_node_bytes_numbers_flag(v5);
    uint64_t v9 = UINT64_C(4) + v3;
    uint8_t *v10 = v1.at + (size_t)v9;
    *v10 = v4;
    v8 = UINT64_C(15) + v3;
    uint8_t *v11 = v1.at + (size_t)v8;
    *v11 = 0u;
    return;
}

/* node_bytes::slots::put_parts */
KD_STATIC void kd_node_bytes_slots_put_parts(struct kd_slice v1, uint64_t v2, struct kosmydore_message v3,
    struct kosmydore_pending v4)
{
    uint8_t *v7 = v1.at;
    struct kd_slice v8;
    v8.at = v7;
    v8.length = (size_t)(uint64_t)v1.length;
    kd_node_bytes_slots_put_message(v8, v2, v3);
    uint64_t v5 = UINT64_C(32) * v2;
    uint8_t v9 = kd_node_bytes_numbers_flag(v4.payload);
    uint64_t v10 = UINT64_C(8) + v5;
    uint8_t *v11 = v1.at + (size_t)v10;
    *v11 = v9;
    v9 = kd_node_bytes_numbers_flag(v4.confirmation);
    v10 = UINT64_C(9) + v5;
    uint8_t *v12 = v1.at + (size_t)v10;
    *v12 = v9;
    v9 = kd_node_bytes_numbers_flag(v4.abort);
    v10 = UINT64_C(10) + v5;
    uint8_t *v13 = v1.at + (size_t)v10;
    *v13 = v9;
    uint8_t *v14 = v1.at;
    struct kd_slice v15;
    v15.at = v14;
    v15.length = (size_t)(uint64_t)v1.length;
    kd_node_bytes_slots_put_same(v15, v2);
    return;
}

/* wire::delivered::first_eight */
KD_SMALL struct kd_u8_8 kd_wire_delivered_first_eight(struct kd_slice v1)
{
    struct kd_u8_8 v0;
    struct kd_u8_8 v2;

    for (size_t t1 = 0; t1 < 8; t1++) {
        v2.at[t1] = 0u;
    }
    uint8_t *v4 = (uint8_t *)&v2;
    struct kd_slice v5;
    v5.at = v4;
    v5.length = (size_t)UINT64_C(8);
    uint8_t *v6 = v1.at;
    struct kd_slice v7;
    v7.at = v6;
    v7.length = (size_t)UINT64_C(8);
    kd_wire_copying_copy(v5, v7);
    v0 = v2;
    return v0;
}

/* wire::delivered::put_record */
KD_STATIC void kd_wire_delivered_put_record(struct kd_slice v1, uint32_t v2, struct kd_slice v3)
{
    struct kd_u8_8 v10;
    struct kd_u8_4 v12;
    struct kd_u8_8 v36;

    uint64_t v4 = (uint64_t)v3.length;
    struct kd_u8_4 v11 = kd_core_int_u32_to_le_bytes(v2);
    v12 = v11;
    uint8_t *v13 = (uint8_t *)&v12;
    uint8_t *v14 = v13 + (size_t)UINT64_C(0);
    uint8_t *v15 = (uint8_t *)&v12;
    uint8_t *v16 = v15 + (size_t)UINT64_C(1);
    uint8_t *v17 = (uint8_t *)&v12;
    uint8_t *v18 = v17 + (size_t)UINT64_C(2);
    uint8_t *v19 = (uint8_t *)&v12;
    uint8_t *v20 = v19 + (size_t)UINT64_C(3);
    uint8_t v5 = *v14;
    uint8_t v6 = *v16;
    uint8_t v7 = *v18;
    uint8_t v8 = *v20;
    uint64_t v21 = UINT64_C(6) + v4;
    uint8_t v9 = (uint8_t)v21;
    uint8_t v22 = (uint8_t)UINT64_C(1);
    v10.at[0] = v9;
    v10.at[1] = 0u;
    v10.at[2] = v22;
    v10.at[3] = 0u;
    v10.at[4] = v5;
    v10.at[5] = v6;
    v10.at[6] = v7;
    v10.at[7] = v8;
    uint8_t *v24 = v1.at;
    struct kd_slice v25;
    v25.at = v24;
    v25.length = (size_t)UINT64_C(8);
    uint8_t *v26 = (uint8_t *)&v10;
    struct kd_slice v27;
    v27.at = v26;
    v27.length = (size_t)UINT64_C(8);
    kd_wire_copying_copy(v25, v27);
    bool v28 = v4 == UINT64_C(8);
    if (v28) {
        uint64_t v30 = UINT64_C(8) + UINT64_C(8);
        uint8_t *v31 = v1.at + (size_t)UINT64_C(8);
        uint64_t v32 = v30 - UINT64_C(8);
        uint8_t *v33 = v31;
        struct kd_slice v34;
        v34.at = v33;
        v34.length = (size_t)v32;
        struct kd_u8_8 v35 = kd_wire_delivered_first_eight(v3);
        v36 = v35;
        uint8_t *v37 = (uint8_t *)&v36;
        struct kd_slice v38;
        v38.at = v37;
        v38.length = (size_t)UINT64_C(8);
        kd_wire_copying_copy(v34, v38);
    } else {
        uint64_t v40 = UINT64_C(8) + v4;
        uint8_t *v41 = v1.at + (size_t)UINT64_C(8);
        uint64_t v42 = v40 - UINT64_C(8);
        uint8_t *v43 = v41;
        struct kd_slice v44;
        v44.at = v43;
        v44.length = (size_t)v42;
        kd_wire_copying_copy(v44, v3);
    }
    return;
}

/* wire::delivered::write_record */
KD_STATIC uint64_t kd_wire_delivered_write_record(struct kd_slice v1, uint32_t v2, struct kd_slice v3)
{
    uint64_t v0;

    uint64_t v5 = (uint64_t)v3.length;
    uint64_t v4 = kd_wire_frame_at_most_payload(v5);
    v5 = (uint64_t)v1.length;
    uint64_t v6 = UINT64_C(8) + v4;
    bool v7 = v5 < v6;
    if (v7) {
        v0 = UINT64_C(0);
        return v0;
    }
    uint8_t *v9 = v1.at;
    struct kd_slice v10;
    v10.at = v9;
    v10.length = (size_t)(uint64_t)v1.length;
    uint8_t *v11 = v3.at;
    struct kd_slice v12;
    v12.at = v11;
    v12.length = (size_t)v4;
    kd_wire_delivered_put_record(v10, v2, v12);
    v0 = UINT64_C(8) + v4;
    return v0;
}

/* node::hear::deliver_plain */
KD_SMALL uint64_t kd_node_hear_deliver_plain(struct kd_slice v1, uint32_t v2, uint32_t v3, struct kd_slice v4)
{
    uint64_t v0;
    uint64_t v5;

    switch (v3) {
    case 3: {
        uint8_t *v6 = v1.at;
        struct kd_slice v7;
        v7.at = v6;
        v7.length = (size_t)(uint64_t)v1.length;
        v5 = kd_wire_delivered_write_record(v7, v2, v4);
        break;
    }
    default: {
        v5 = UINT64_C(0);
        break;
    }
    }
    v0 = v5;
    return v0;
}

/* node_bytes::hear::hear */
KD_STATIC struct kd_Result_Heard_Reply kd_node_bytes_hear_hear(struct kd_slice v1, uint32_t v2, uint8_t v3,
    struct kd_slice v4, struct kd_slice v5)
{
    struct kd_Result_Heard_Reply v0;
    struct kd_tuple_Stream_u32 v30;
    uint64_t v37;

    uint64_t v21 = (uint64_t)v1.length;
    bool v22 = v21 != UINT64_C(1026);
    if (v22) {
        uint8_t v23 = 10u;
        v0.tag = 1u;
        v0.of1 = v23;
        return v0;
    }
    v21 = (uint64_t)v5.length;
    v22 = v21 < UINT64_C(16);
    if (v22) {
        uint8_t v24 = 11u;
        v0.tag = 1u;
        v0.of1 = v24;
        return v0;
    }
    v22 = kd_wire_ids_BusId_is_bare(v2);
    struct kd_Result_unit_Reply v26 = kd_wire_frame_check_frame(v22, v2, v3, v4);
    struct kd_ControlFlow_ErrResidual_Reply_unit v25 = kd_ResultTry_branch_unit_Reply(v26);
    switch (v25.tag) {
    case 0: {
        break;
    }
    default: /* no other number is reached */
    case 1: {
        uint8_t v7 = v25.of1;
        v0 = kd_ResultFromResidualErrResidual_from_residual_Heard_R_d5df5c05(v7);
        return v0;
    }
    }
    struct kd_Result_tuple_Stream_u32_Reply v29 = kd_wire_ids_BusId_split(v2);
    struct kd_ControlFlow_ErrResidual_Reply_tuple_Stream_u32 v28 = kd_ResultTry_branch_tuple_Stream_u32_Reply(v29);
    switch (v28.tag) {
    case 0: {
        struct kd_tuple_Stream_u32 v10 = v28.of0;
        v30 = v10;
        break;
    }
    default: /* no other number is reached */
    case 1: {
        uint8_t v11 = v28.of1;
        v0 = kd_ResultFromResidualErrResidual_from_residual_Heard_R_d5df5c05(v11);
        return v0;
    }
    }
    struct kd_tuple_Stream_u32 v27 = v30;
    uint32_t v8 = v27.f0;
    uint32_t v9 = v27.f1;
    uint8_t *v34 = v1.at;
    struct kd_slice v35;
    v35.at = v34;
    v35.length = (size_t)(uint64_t)v1.length;
    struct kd_Option_u64 v33 = kd_node_bytes_finding_find(v35, v8);
    uint8_t v36 = 5u;
    struct kd_Result_u64_Reply v32 = kd_Option_ok_or_u64_Reply(v33, v36);
    struct kd_ControlFlow_ErrResidual_Reply_u64 v31 = kd_ResultTry_branch_u64_Reply(v32);
    switch (v31.tag) {
    case 0: {
        uint64_t v13 = v31.of0;
        v37 = v13;
        break;
    }
    default: /* no other number is reached */
    case 1: {
        uint8_t v14 = v31.of1;
        v0 = kd_ResultFromResidualErrResidual_from_residual_Heard_R_d5df5c05(v14);
        return v0;
    }
    }
    uint64_t v12 = v37;
    uint8_t *v38 = v1.at;
    struct kd_slice v39;
    v39.at = v38;
    v39.length = (size_t)(uint64_t)v1.length;
    struct kosmydore_slot v15 = kd_node_bytes_slots_slot_at(v39, v12);
    v26 = kd_node_slots_Slot_check_hear(v15, v9, v4);
    struct kd_ControlFlow_ErrResidual_Reply_unit v40 = kd_ResultTry_branch_unit_Reply(v26);
    switch (v40.tag) {
    case 0: {
        break;
    }
    default: /* no other number is reached */
    case 1: {
        uint8_t v17 = v40.of1;
        v0 = kd_ResultFromResidualErrResidual_from_residual_Heard_R_d5df5c05(v17);
        return v0;
    }
    }
    uint8_t v18 = kd_node_slots_Slot_told(v15, v9);
    uint8_t *v42 = v1.at;
    struct kd_slice v43;
    v43.at = v42;
    v43.length = (size_t)(uint64_t)v1.length;
    uint16_t v41 = kd_node_bytes_counter_counter_of(v43);
    struct kosmydore_slot v19 = kd_node_slots_Slot_hear(v15, v41, v9, v4);
    uint8_t *v45 = v1.at;
    struct kd_slice v46;
    v46.at = v45;
    v46.length = (size_t)(uint64_t)v1.length;
    struct kosmydore_message v47 = v19.message;
    struct kosmydore_pending v48 = v19.pending;
    kd_node_bytes_slots_put_parts(v46, v12, v47, v48);
    uint8_t *v49 = v5.at;
    struct kd_slice v50;
    v50.at = v49;
    v50.length = (size_t)(uint64_t)v5.length;
    uint64_t v20 = kd_node_hear_deliver_plain(v50, v8, v9, v4);
    struct kd_node_Heard v51;
    v51.f0 = v20;
    v51.f1 = v18;
    v0.tag = 0u;
    v0.of0 = v51;
    return v0;
}

/* module::tally::reply_of<node::Heard> */
KD_SMALL uint8_t kd_tally_reply_of_Heard(uint8_t *v1)
{
    uint8_t v0;
    uint8_t v3;

    switch (((struct kd_Result_Heard_Reply *)(void *)v1)->tag) {
    case 0: {
        v3 = 0u;
        break;
    }
    default: /* no other number is reached */
    case 1: {
        uint8_t *v2 = (uint8_t *)&((struct kd_Result_Heard_Reply *)(void *)v1)->of1;
        v3 = *v2;
        break;
    }
    }
    v0 = v3;
    return v0;
}

/* firmware::answers::number_of<node::Heard> */
KD_SMALL uint32_t kd_answers_number_of_Heard(uint8_t *v1)
{
    uint32_t v0;

    uint8_t v2 = kd_tally_reply_of_Heard(v1);
    v0 = kd_wire_reply_Reply_number(v2);
    return v0;
}

/* firmware::answers::counted<node::Heard> */
KD_SMALL uint32_t kd_answers_counted_Heard(struct kd_slice v1, uint8_t *v2)
{
    uint32_t v0;

    uint32_t v3 = kd_answers_number_of_Heard(v2);
    uint8_t *v5 = v1.at;
    struct kd_slice v6;
    v6.at = v5;
    v6.length = (size_t)(uint64_t)v1.length;
    (void)kd_module_tally_count_in(v6, v3);
    v0 = v3;
    return v0;
}

/* core::result::Result::unwrap_or<node::Heard,wire::reply::Reply> */
KD_STATIC struct kd_node_Heard kd_Result_unwrap_or_Heard_Reply(struct kd_Result_Heard_Reply v1,
    struct kd_node_Heard v2)
{
    struct kd_node_Heard v0;
    struct kd_node_Heard v4;

    switch (v1.tag) {
    case 0: {
        struct kd_node_Heard v3 = v1.of0;
        v4 = v3;
        v0 = v4;
        /* v5 is not read */
        /* v6 is not read */
        return v0;
    }
    default: /* no other number is reached */
    case 1: {
        v4 = v2;
        break;
    }
    }
    v0 = v4;
    switch (v1.tag) {
    case 1: {
        /* v7 is not read */
        /* v6 is not read */
        break;
    }
    default: /* no other number is reached */
    case 0: {
        break;
    }
    }
    return v0;
}

/* node::told::Told::number */
KD_SMALL uint32_t kd_node_told_Told_number(uint8_t v1)
{
    uint32_t v0;

    v0 = (uint32_t)v1;
    return v0;
}

/* firmware::lent::kosmydore_module_hear */
struct kosmydore_module_heard kosmydore_module_hear(uint8_t *node, size_t node_length, uint32_t id, uint32_t dlc,
    const uint8_t *payload, size_t payload_length, uint8_t *output, size_t output_length, uint32_t *tally,
    size_t tally_length)
{
    struct kd_slice v1 = {node, node_length};
    struct kd_slice v4 = {(uint8_t *)payload, payload_length};
    struct kd_slice v5 = {output, output_length};
    struct kd_slice v6 = {(uint8_t *)tally, tally_length};
    struct kosmydore_module_heard v0;
    struct kd_Result_Heard_Reply v7;

    uint8_t *v11 = v1.at;
    struct kd_slice v12;
    v12.at = v11;
    v12.length = (size_t)(uint64_t)v1.length;
    uint32_t v13 = id;
    uint8_t v14 = kd_firmware_judged_dlc_of(dlc);
    uint8_t *v15 = v5.at;
    struct kd_slice v16;
    v16.at = v15;
    v16.length = (size_t)(uint64_t)v5.length;
    struct kd_Result_Heard_Reply v10 = kd_node_bytes_hear_hear(v12, v13, v14, v4, v16);
    v7 = v10;
    uint8_t *v17 = v6.at;
    struct kd_slice v18;
    v18.at = v17;
    v18.length = (size_t)(uint64_t)v6.length;
    uint8_t *v19 = (uint8_t *)&v7;
    uint32_t v8 = kd_answers_counted_Heard(v18, v19);
    v10 = v7;
    uint8_t v20 = 0u;
    struct kd_node_Heard v21;
    v21.f0 = UINT64_C(0);
    v21.f1 = v20;
    struct kd_node_Heard v9 = kd_Result_unwrap_or_Heard_Reply(v10, v21);
    uint8_t v23 = v9.f1;
    uint32_t v22 = kd_node_told_Told_number(v23);
    v0.reply = v8;
    v0.told = v22;
    v0.written = (size_t)v9.f0;
    return v0;
}

/* node::tick::next */
KD_SMALL uint16_t kd_node_tick_next(uint16_t v1)
{
    uint16_t v0;

    v0 = (uint16_t)((uint32_t)v1 + 1u);
    return v0;
}

/* node_bytes::counter::put_counter */
KD_SMALL void kd_node_bytes_counter_put_counter(struct kd_slice v1, uint16_t v2)
{
    uint8_t *v4 = v1.at;
    struct kd_slice v5;
    v5.at = v4;
    v5.length = (size_t)(uint64_t)v1.length;
    kd_node_bytes_numbers_put_two(v5, UINT64_C(1024), v2);
    return;
}

/* node_bytes::slots::held_at */
KD_SMALL bool kd_node_bytes_slots_held_at(struct kd_slice v1, uint64_t v2)
{
    bool v0;

    uint64_t v3 = UINT64_C(32) * v2;
    uint64_t v4 = UINT64_C(5) + v3;
    v0 = kd_node_bytes_numbers_flag_at(v1, v4);
    return v0;
}

/* node_bytes::slots::stamp_at */
KD_SMALL uint16_t kd_node_bytes_slots_stamp_at(struct kd_slice v1, uint64_t v2)
{
    uint16_t v0;

    uint64_t v3 = UINT64_C(32) * v2;
    uint64_t v4 = UINT64_C(6) + v3;
    v0 = kd_node_bytes_numbers_two_at(v1, v4);
    return v0;
}

/* node::tick::age */
KD_SMALL uint16_t kd_node_tick_age(uint16_t v1, uint16_t v2)
{
    uint16_t v0;

    v0 = (uint16_t)((uint32_t)v1 - v2);
    return v0;
}

/* node_bytes::slots::kind_at */
KD_SMALL uint16_t kd_node_bytes_slots_kind_at(struct kd_slice v1, uint64_t v2)
{
    uint16_t v0;

    uint64_t v3 = UINT64_C(32) * v2;
    uint64_t v4 = UINT64_C(13) + v3;
    v0 = kd_node_bytes_numbers_two_at(v1, v4);
    return v0;
}

/* node_bytes::slots::confirmed_at */
KD_SMALL bool kd_node_bytes_slots_confirmed_at(struct kd_slice v1, uint64_t v2)
{
    bool v0;

    uint64_t v3 = UINT64_C(32) * v2;
    uint64_t v4 = UINT64_C(11) + v3;
    v0 = kd_node_bytes_numbers_flag_at(v1, v4);
    return v0;
}

/* node_bytes::slots::deliver_delay_at */
KD_SMALL uint16_t kd_node_bytes_slots_deliver_delay_at(struct kd_slice v1, uint64_t v2)
{
    uint16_t v0;

    uint64_t v3 = UINT64_C(32) * v2;
    uint64_t v4 = UINT64_C(22) + v3;
    v0 = kd_node_bytes_numbers_two_at(v1, v4);
    return v0;
}

/* node::slots::Slot::due */
KD_SMALL bool kd_node_slots_Slot_due(struct kosmydore_slot v1, uint16_t v2)
{
    bool v0;

    struct kosmydore_slot_settings v3 = v1.settings;
    struct kosmydore_message v4 = v1.message;
    bool v6 = v3.class_ == 1u;
    bool v7 = v3.class_ == 2u;
    bool v8 = v7 & v4.confirmed;
    bool v5 = v6 | v8;
    bool v9 = v3.deliver_delay < v2;
    if (v9) {
        bool v10 = kd_node_slots_Slot_is_receiver(v1);
        bool v11 = v10 & v4.held;
        v9 = v11 & v5;
    }
    v0 = v9;
    return v0;
}

/* node_bytes::tick::due_or_stays */
KD_SMALL uint8_t kd_node_bytes_tick_due_or_stays(bool v1)
{
    uint8_t v0;
    uint8_t v3;

    bool v2 = v1;
    if (v2) {
        v3 = 2u;
    } else {
        v3 = 0u;
    }
    v0 = v3;
    return v0;
}

/* node_bytes::slots::confirm_delay_at */
KD_SMALL uint16_t kd_node_bytes_slots_confirm_delay_at(struct kd_slice v1, uint64_t v2)
{
    uint16_t v0;

    uint64_t v3 = UINT64_C(32) * v2;
    uint64_t v4 = UINT64_C(18) + v3;
    v0 = kd_node_bytes_numbers_two_at(v1, v4);
    return v0;
}

/* node::slots::Slot::late */
KD_SMALL bool kd_node_slots_Slot_late(struct kosmydore_slot v1, uint16_t v2)
{
    bool v0;

    struct kosmydore_slot_settings v3 = v1.settings;
    struct kosmydore_message v4 = v1.message;
    bool v5 = v3.confirm_delay < v2;
    if (v5) {
        bool v6 = kd_node_slots_Slot_is_receiver(v1);
        bool v7 = v6 & v4.held;
        bool v8 = v3.class_ == 2u;
        bool v9 = v7 & v8;
        bool v10 = !v4.confirmed;
        v5 = v9 & v10;
    }
    v0 = v5;
    return v0;
}

/* node::slots::Slot::delivered */
KD_SMALL struct kosmydore_slot kd_node_slots_Slot_delivered(struct kosmydore_slot v1)
{
    struct kosmydore_slot v0;

    struct kd_u8_8 v2;
    for (size_t t1 = 0; t1 < 8; t1++) {
        v2.at[t1] = 0u;
    }
    struct kosmydore_message v3;
    v3.stamp = 0u;
    v3.length = 0u;
    v3.held = false;
    v3.confirmed = false;
    memcpy(v3.bytes, v2.at, sizeof(struct kd_u8_8));
    v1.message = v3;
    v0 = v1;
    return v0;
}

/* node::slots::Slot::dropped */
KD_SMALL struct kosmydore_slot kd_node_slots_Slot_dropped(struct kosmydore_slot v1)
{
    struct kosmydore_slot v0;

    struct kosmydore_slot v2 = kd_node_slots_Slot_delivered(v1);
    v2.pending.abort = true;
    v0 = v2;
    return v0;
}

/* node_bytes::slots::put_abort */
KD_SMALL void kd_node_bytes_slots_put_abort(struct kd_slice v1, uint64_t v2, bool v3)
{
    uint8_t v4 = kd_node_bytes_numbers_flag(v3);
    uint64_t v5 = UINT64_C(32) * v2;
    uint64_t v6 = UINT64_C(10) + v5;
    uint8_t *v7 = v1.at + (size_t)v6;
    *v7 = v4;
    return;
}

/* node::slots::Slot::is_sender */
KD_SMALL bool kd_node_slots_Slot_is_sender(struct kosmydore_slot v1)
{
    bool v0;

    bool v2 = v1.settings.role == 1u;
    v0 = v1.used & v2;
    return v0;
}

/* node::slots::Slot::hold_over */
KD_SMALL bool kd_node_slots_Slot_hold_over(struct kosmydore_slot v1, uint16_t v2)
{
    bool v0;

    struct kosmydore_slot_settings v3 = v1.settings;
    uint32_t v5 = kd_core_convert_U32FromU16_from(v2);
    uint32_t v6 = kd_core_convert_U32FromU16_from(v3.data_reach);
    uint32_t v7 = kd_core_convert_U32FromU16_from(v3.deliver_delay);
    uint32_t v8 = v6 + v7;
    bool v4 = v8 < v5;
    if (v4) {
        bool v9 = kd_node_slots_Slot_is_sender(v1);
        v4 = v9 & v1.message.held;
    }
    v0 = v4;
    return v0;
}

/* node::slots::Slot::hold_ended */
KD_SMALL struct kosmydore_slot kd_node_slots_Slot_hold_ended(struct kosmydore_slot v1)
{
    struct kosmydore_slot v0;

    v1.message.stamp = 0u;
    v1.message.held = false;
    v1.message.confirmed = false;
    v0 = v1;
    return v0;
}

/* node_bytes::tick::lapse_at */
KD_STATIC uint8_t kd_node_bytes_tick_lapse_at(struct kd_slice v1, uint64_t v2, uint16_t v3)
{
    uint8_t v0;

    uint8_t *v12 = v1.at;
    struct kd_slice v13;
    v13.at = v12;
    v13.length = (size_t)(uint64_t)v1.length;
    bool v11 = kd_node_bytes_slots_held_at(v13, v2);
    bool v14 = !v11;
    if (v14) {
        v0 = 0u;
        return v0;
    }
    uint8_t *v16 = v1.at;
    struct kd_slice v17;
    v17.at = v16;
    v17.length = (size_t)(uint64_t)v1.length;
    uint16_t v15 = kd_node_bytes_slots_stamp_at(v17, v2);
    uint16_t v4 = kd_node_tick_age(v3, v15);
    uint8_t *v18 = v1.at;
    struct kd_slice v19;
    v19.at = v18;
    v19.length = (size_t)(uint64_t)v1.length;
    uint16_t v5 = kd_node_bytes_slots_kind_at(v19, v2);
    v11 = v5 == 512u;
    if (v11) {
        uint8_t *v21 = v1.at;
        struct kd_slice v22;
        v22.at = v21;
        v22.length = (size_t)(uint64_t)v1.length;
        bool v20 = kd_node_bytes_slots_confirmed_at(v22, v2);
        if (v20) {
            uint8_t *v24 = v1.at;
            struct kd_slice v25;
            v25.at = v24;
            v25.length = (size_t)(uint64_t)v1.length;
            uint16_t v23 = kd_node_bytes_slots_deliver_delay_at(v25, v2);
            bool v26 = v4 <= v23;
            if (v26) {
                v0 = 0u;
                return v0;
            }
            uint8_t *v27 = v1.at;
            struct kd_slice v28;
            v28.at = v27;
            v28.length = (size_t)(uint64_t)v1.length;
            struct kosmydore_slot v6 = kd_node_bytes_slots_slot_at(v28, v2);
            v26 = kd_node_slots_Slot_due(v6, v4);
            v0 = kd_node_bytes_tick_due_or_stays(v26);
            return v0;
        }
        uint8_t *v30 = v1.at;
        struct kd_slice v31;
        v31.at = v30;
        v31.length = (size_t)(uint64_t)v1.length;
        uint16_t v29 = kd_node_bytes_slots_confirm_delay_at(v31, v2);
        bool v32 = v4 <= v29;
        if (v32) {
            v0 = 0u;
            return v0;
        }
        uint8_t *v33 = v1.at;
        struct kd_slice v34;
        v34.at = v33;
        v34.length = (size_t)(uint64_t)v1.length;
        struct kosmydore_slot v7 = kd_node_bytes_slots_slot_at(v34, v2);
        v32 = kd_node_slots_Slot_late(v7, v4);
        bool v35 = !v32;
        if (v35) {
            v0 = 0u;
            return v0;
        }
        struct kosmydore_slot v8 = kd_node_slots_Slot_dropped(v7);
        uint8_t *v37 = v1.at;
        struct kd_slice v38;
        v38.at = v37;
        v38.length = (size_t)(uint64_t)v1.length;
        struct kosmydore_message v39 = v8.message;
        kd_node_bytes_slots_put_message(v38, v2, v39);
        uint8_t *v40 = v1.at;
        struct kd_slice v41;
        v41.at = v40;
        v41.length = (size_t)(uint64_t)v1.length;
        kd_node_bytes_slots_put_abort(v41, v2, v8.pending.abort);
        v0 = 1u;
        return v0;
    }
    uint8_t *v42 = v1.at;
    struct kd_slice v43;
    v43.at = v42;
    v43.length = (size_t)(uint64_t)v1.length;
    v15 = kd_node_bytes_slots_deliver_delay_at(v43, v2);
    v14 = v4 <= v15;
    if (v14) {
        v0 = 0u;
        return v0;
    }
    uint8_t *v44 = v1.at;
    struct kd_slice v45;
    v45.at = v44;
    v45.length = (size_t)(uint64_t)v1.length;
    struct kosmydore_slot v9 = kd_node_bytes_slots_slot_at(v45, v2);
    v11 = v5 == 256u;
    if (v11) {
        bool v46 = kd_node_slots_Slot_due(v9, v4);
        v0 = kd_node_bytes_tick_due_or_stays(v46);
        return v0;
    }
    v14 = kd_node_slots_Slot_hold_over(v9, v4);
    v11 = !v14;
    if (v11) {
        v0 = 0u;
        return v0;
    }
    struct kosmydore_slot v10 = kd_node_slots_Slot_hold_ended(v9);
    uint8_t *v48 = v1.at;
    struct kd_slice v49;
    v49.at = v48;
    v49.length = (size_t)(uint64_t)v1.length;
    struct kosmydore_message v50 = v10.message;
    kd_node_bytes_slots_put_message(v49, v2, v50);
    v0 = 0u;
    return v0;
}

/* node::slots::Message::payload_length */
KD_SMALL uint64_t kd_node_slots_Message_payload_length(struct kosmydore_message v1)
{
    uint64_t v0;

    uint64_t v2 = kd_core_convert_UsizeFromU8_from(v1.length);
    v0 = kd_wire_frame_at_most_payload(v2);
    return v0;
}

/* node_bytes::tick::deliver_at */
KD_STATIC uint64_t kd_node_bytes_tick_deliver_at(struct kd_slice v1, uint64_t v2, struct kd_slice v3)
{
    uint64_t v0;
    struct kd_u8_8 v6;

    uint8_t *v8 = v1.at;
    struct kd_slice v9;
    v9.at = v8;
    v9.length = (size_t)(uint64_t)v1.length;
    struct kosmydore_slot v4 = kd_node_bytes_slots_slot_at(v9, v2);
    struct kosmydore_slot v5 = kd_node_slots_Slot_delivered(v4);
    uint8_t *v11 = v1.at;
    struct kd_slice v12;
    v12.at = v11;
    v12.length = (size_t)(uint64_t)v1.length;
    struct kosmydore_message v13 = v5.message;
    kd_node_bytes_slots_put_message(v12, v2, v13);
    memcpy(v6.at, v4.message.bytes, sizeof(struct kd_u8_8));
    struct kosmydore_message v14 = v4.message;
    uint64_t v7 = kd_node_slots_Message_payload_length(v14);
    uint8_t *v15 = v3.at;
    struct kd_slice v16;
    v16.at = v15;
    v16.length = (size_t)(uint64_t)v3.length;
    uint32_t v17 = v4.stream;
    uint8_t *v18 = (uint8_t *)&v6;
    struct kd_slice v19;
    v19.at = v18;
    v19.length = (size_t)v7;
    v0 = kd_wire_delivered_write_record(v16, v17, v19);
    return v0;
}

/* node_bytes::tick::tick */
KD_STATIC struct kd_Result_Ticked_Reply kd_node_bytes_tick_tick(struct kd_slice v1, struct kd_slice v2)
{
    struct kd_Result_Ticked_Reply v0;

    uint64_t v8 = (uint64_t)v1.length;
    bool v9 = v8 != UINT64_C(1026);
    if (v9) {
        uint8_t v10 = 10u;
        v0.tag = 1u;
        v0.of1 = v10;
        return v0;
    }
    v8 = (uint64_t)v2.length;
    v9 = v8 < UINT64_C(512);
    if (v9) {
        uint8_t v11 = 11u;
        v0.tag = 1u;
        v0.of1 = v11;
        return v0;
    }
    uint8_t *v13 = v1.at;
    struct kd_slice v14;
    v14.at = v13;
    v14.length = (size_t)(uint64_t)v1.length;
    uint16_t v12 = kd_node_bytes_counter_counter_of(v14);
    uint16_t v3 = kd_node_tick_next(v12);
    uint8_t *v16 = v1.at;
    struct kd_slice v17;
    v17.at = v16;
    v17.length = (size_t)(uint64_t)v1.length;
    kd_node_bytes_counter_put_counter(v17, v3);
    uint64_t v4 = UINT64_C(0);
    uint32_t v5 = UINT32_C(0);
    uint32_t v6 = UINT32_C(0);
    uint64_t v7 = UINT64_C(0);
    for (;;) {
        bool v18 = v7 < UINT64_C(32);
        if (!v18) {
            break;
        }
        uint8_t *v20 = v1.at;
        struct kd_slice v21;
        v21.at = v20;
        v21.length = (size_t)(uint64_t)v1.length;
        uint8_t v19 = kd_node_bytes_tick_lapse_at(v21, v7, v3);
        switch (v19) {
        case 0: {
            break;
        }
        case 1: {
            v5 = v5 + UINT32_C(1);
            break;
        }
        default: /* no other number is reached */
        case 2: {
            uint8_t *v23 = v1.at;
            struct kd_slice v24;
            v24.at = v23;
            v24.length = (size_t)(uint64_t)v1.length;
            uint8_t *v25 = v2.at + (size_t)v4;
            uint64_t v26 = (uint64_t)v2.length - v4;
            uint8_t *v27 = v25;
            struct kd_slice v28;
            v28.at = v27;
            v28.length = (size_t)v26;
            uint64_t v22 = kd_node_bytes_tick_deliver_at(v24, v7, v28);
            v4 = v4 + v22;
            v6 = v6 + UINT32_C(1);
            break;
        }
        }
        v7 = v7 + UINT64_C(1);
    }
    struct kd_node_Ticked v29;
    v29.f0 = v4;
    v29.f1 = v5;
    v29.f2 = v6;
    v0.tag = 0u;
    v0.of0 = v29;
    return v0;
}

/* module::tally::reply_of<node::Ticked> */
KD_SMALL uint8_t kd_tally_reply_of_Ticked(uint8_t *v1)
{
    uint8_t v0;
    uint8_t v3;

    switch (((struct kd_Result_Ticked_Reply *)(void *)v1)->tag) {
    case 0: {
        v3 = 0u;
        break;
    }
    default: /* no other number is reached */
    case 1: {
        uint8_t *v2 = (uint8_t *)&((struct kd_Result_Ticked_Reply *)(void *)v1)->of1;
        v3 = *v2;
        break;
    }
    }
    v0 = v3;
    return v0;
}

/* firmware::answers::number_of<node::Ticked> */
KD_SMALL uint32_t kd_answers_number_of_Ticked(uint8_t *v1)
{
    uint32_t v0;

    uint8_t v2 = kd_tally_reply_of_Ticked(v1);
    v0 = kd_wire_reply_Reply_number(v2);
    return v0;
}

/* firmware::answers::counted<node::Ticked> */
KD_SMALL uint32_t kd_answers_counted_Ticked(struct kd_slice v1, uint8_t *v2)
{
    uint32_t v0;

    uint32_t v3 = kd_answers_number_of_Ticked(v2);
    uint8_t *v5 = v1.at;
    struct kd_slice v6;
    v6.at = v5;
    v6.length = (size_t)(uint64_t)v1.length;
    (void)kd_module_tally_count_in(v6, v3);
    v0 = v3;
    return v0;
}

/* core::result::Result::unwrap_or<node::Ticked,wire::reply::Reply> */
KD_STATIC struct kd_node_Ticked kd_Result_unwrap_or_Ticked_Reply(struct kd_Result_Ticked_Reply v1,
    struct kd_node_Ticked v2)
{
    struct kd_node_Ticked v0;
    struct kd_node_Ticked v4;

    switch (v1.tag) {
    case 0: {
        struct kd_node_Ticked v3 = v1.of0;
        v4 = v3;
        v0 = v4;
        /* v5 is not read */
        /* v6 is not read */
        return v0;
    }
    default: /* no other number is reached */
    case 1: {
        v4 = v2;
        break;
    }
    }
    v0 = v4;
    switch (v1.tag) {
    case 1: {
        /* v7 is not read */
        /* v6 is not read */
        break;
    }
    default: /* no other number is reached */
    case 0: {
        break;
    }
    }
    return v0;
}

/* firmware::lent::kosmydore_module_tick */
struct kosmydore_module_ticked kosmydore_module_tick(uint8_t *node, size_t node_length, uint8_t *output,
    size_t output_length, uint32_t *tally, size_t tally_length)
{
    struct kd_slice v1 = {node, node_length};
    struct kd_slice v2 = {output, output_length};
    struct kd_slice v3 = {(uint8_t *)tally, tally_length};
    struct kosmydore_module_ticked v0;
    struct kd_Result_Ticked_Reply v4;

    uint8_t *v8 = v1.at;
    struct kd_slice v9;
    v9.at = v8;
    v9.length = (size_t)(uint64_t)v1.length;
    uint8_t *v10 = v2.at;
    struct kd_slice v11;
    v11.at = v10;
    v11.length = (size_t)(uint64_t)v2.length;
    struct kd_Result_Ticked_Reply v7 = kd_node_bytes_tick_tick(v9, v11);
    v4 = v7;
    uint8_t *v12 = v3.at;
    struct kd_slice v13;
    v13.at = v12;
    v13.length = (size_t)(uint64_t)v3.length;
    uint8_t *v14 = (uint8_t *)&v4;
    uint32_t v5 = kd_answers_counted_Ticked(v13, v14);
    v7 = v4;
    struct kd_node_Ticked v15;
    v15.f0 = UINT64_C(0);
    v15.f1 = UINT32_C(0);
    v15.f2 = UINT32_C(0);
    struct kd_node_Ticked v6 = kd_Result_unwrap_or_Ticked_Reply(v7, v15);
    v0.reply = v5;
    v0.dropped = v6.f1;
    v0.delivered = v6.f2;
    v0.written = (size_t)v6.f0;
    return v0;
}

/* node::slots::Pending::any */
KD_SMALL bool kd_node_slots_Pending_any(struct kosmydore_pending v1)
{
    bool v0;

    bool v2 = v1.payload | v1.confirmation;
    v0 = v2 | v1.abort;
    return v0;
}

/* node::slots::Slot::is_busy */
KD_SMALL bool kd_node_slots_Slot_is_busy(struct kosmydore_slot v1)
{
    bool v0;

    struct kosmydore_pending v3 = v1.pending;
    bool v2 = kd_node_slots_Pending_any(v3);
    v0 = v1.message.held | v2;
    return v0;
}

/* node::slots::Slot::check_request */
KD_SMALL struct kd_Result_unit_Reply kd_node_slots_Slot_check_request(struct kosmydore_slot v1)
{
    struct kd_Result_unit_Reply v0;

    bool v2 = kd_node_slots_Slot_is_sender(v1);
    bool v3 = !v2;
    if (v3) {
        uint8_t v4 = 9u;
        v0.tag = 1u;
        v0.of1 = v4;
        return v0;
    }
    bool v5 = kd_node_slots_Slot_is_busy(v1);
    if (v5) {
        uint8_t v6 = 8u;
        v0.tag = 1u;
        v0.of1 = v6;
        return v0;
    }
    v0.tag = 0u;
    return v0;
}

/* node::slots::Message::keeping */
KD_SMALL struct kosmydore_message kd_node_slots_Message_keeping(struct kd_slice v1)
{
    struct kosmydore_message v0;

    uint64_t v3 = (uint64_t)v1.length;
    uint64_t v2 = kd_wire_frame_at_most_payload(v3);
    uint8_t v4 = (uint8_t)v2;
    struct kd_u8_8 v5 = kd_node_slots_pad(v1);
    v0.stamp = 0u;
    v0.length = v4;
    v0.held = false;
    v0.confirmed = false;
    memcpy(v0.bytes, v5.at, sizeof(struct kd_u8_8));
    return v0;
}

/* node::request::message_for */
KD_SMALL struct kosmydore_message kd_node_request_message_for(bool v1, uint16_t v2, struct kd_slice v3)
{
    struct kosmydore_message v0;
    struct kosmydore_message v5;

    bool v4 = v1;
    if (v4) {
        v5 = kd_node_slots_Message_keeping(v3);
    } else {
        v5 = kd_node_slots_Message_holding(v2, v3);
    }
    v0 = v5;
    return v0;
}

/* node::slots::Pending::to_send */
KD_SMALL struct kosmydore_pending kd_node_slots_Pending_to_send(bool v1)
{
    struct kosmydore_pending v0;

    v0.payload = true;
    v0.confirmation = v1;
    v0.abort = false;
    return v0;
}

/* node::slots::Slot::requested */
KD_SMALL struct kosmydore_slot kd_node_slots_Slot_requested(struct kosmydore_slot v1, uint16_t v2,
    struct kd_slice v3)
{
    struct kosmydore_slot v0;

    uint8_t v4 = v1.settings.class_;
    bool v6 = v4 == 0u;
    struct kosmydore_message v5 = kd_node_request_message_for(v6, v2, v3);
    v1.message = v5;
    v6 = v4 == 2u;
    struct kosmydore_pending v7 = kd_node_slots_Pending_to_send(v6);
    v1.pending = v7;
    v0 = v1;
    return v0;
}

/* node_bytes::request::request */
KD_STATIC struct kd_Result_unit_Reply kd_node_bytes_request_request(struct kd_slice v1, uint32_t v2,
    struct kd_slice v3)
{
    struct kd_Result_unit_Reply v0;
    uint64_t v21;

    uint64_t v11 = (uint64_t)v1.length;
    bool v12 = v11 != UINT64_C(1026);
    if (v12) {
        uint8_t v13 = 10u;
        v0.tag = 1u;
        v0.of1 = v13;
        return v0;
    }
    v11 = (uint64_t)v3.length;
    v12 = UINT64_C(8) < v11;
    if (v12) {
        uint8_t v14 = 10u;
        v0.tag = 1u;
        v0.of1 = v14;
        return v0;
    }
    uint8_t *v18 = v1.at;
    struct kd_slice v19;
    v19.at = v18;
    v19.length = (size_t)(uint64_t)v1.length;
    struct kd_Option_u64 v17 = kd_node_bytes_finding_find(v19, v2);
    uint8_t v20 = 9u;
    struct kd_Result_u64_Reply v16 = kd_Option_ok_or_u64_Reply(v17, v20);
    struct kd_ControlFlow_ErrResidual_Reply_u64 v15 = kd_ResultTry_branch_u64_Reply(v16);
    switch (v15.tag) {
    case 0: {
        uint64_t v5 = v15.of0;
        v21 = v5;
        break;
    }
    default: /* no other number is reached */
    case 1: {
        uint8_t v6 = v15.of1;
        v0 = kd_ResultFromResidualErrResidual_from_residual_unit_Reply_Reply(v6);
        return v0;
    }
    }
    uint64_t v4 = v21;
    uint8_t *v22 = v1.at;
    struct kd_slice v23;
    v23.at = v22;
    v23.length = (size_t)(uint64_t)v1.length;
    struct kosmydore_slot v7 = kd_node_bytes_slots_slot_at(v23, v4);
    struct kd_Result_unit_Reply v25 = kd_node_slots_Slot_check_request(v7);
    struct kd_ControlFlow_ErrResidual_Reply_unit v24 = kd_ResultTry_branch_unit_Reply(v25);
    switch (v24.tag) {
    case 0: {
        break;
    }
    default: /* no other number is reached */
    case 1: {
        uint8_t v9 = v24.of1;
        v0 = kd_ResultFromResidualErrResidual_from_residual_unit_Reply_Reply(v9);
        return v0;
    }
    }
    uint8_t *v27 = v1.at;
    struct kd_slice v28;
    v28.at = v27;
    v28.length = (size_t)(uint64_t)v1.length;
    uint16_t v26 = kd_node_bytes_counter_counter_of(v28);
    struct kosmydore_slot v10 = kd_node_slots_Slot_requested(v7, v26, v3);
    uint8_t *v30 = v1.at;
    struct kd_slice v31;
    v31.at = v30;
    v31.length = (size_t)(uint64_t)v1.length;
    struct kosmydore_message v32 = v10.message;
    struct kosmydore_pending v33 = v10.pending;
    kd_node_bytes_slots_put_parts(v31, v4, v32, v33);
    v0.tag = 0u;
    return v0;
}

/* firmware::lent::kosmydore_module_request */
uint32_t kosmydore_module_request(uint8_t *node, size_t node_length, uint32_t stream, const uint8_t *payload,
    size_t payload_length, uint32_t *tally, size_t tally_length)
{
    struct kd_slice v1 = {node, node_length};
    struct kd_slice v3 = {(uint8_t *)payload, payload_length};
    struct kd_slice v4 = {(uint8_t *)tally, tally_length};
    uint32_t v0;
    struct kd_Result_unit_Reply v5;

    uint8_t *v7 = v1.at;
    struct kd_slice v8;
    v8.at = v7;
    v8.length = (size_t)(uint64_t)v1.length;
    uint32_t v9 = stream;
    struct kd_Result_unit_Reply v6 = kd_node_bytes_request_request(v8, v9, v3);
    v5 = v6;
    uint8_t *v10 = v4.at;
    struct kd_slice v11;
    v11.at = v10;
    v11.length = (size_t)(uint64_t)v4.length;
    uint8_t *v12 = (uint8_t *)&v5;
    v0 = kd_answers_counted_unit(v11, v12);
    return v0;
}

/* node_bytes::slots::pending_at */
KD_SMALL bool kd_node_bytes_slots_pending_at(struct kd_slice v1, uint64_t v2)
{
    bool v0;

    uint64_t v4 = UINT64_C(32) * v2;
    struct kosmydore_pending v3 = kd_node_bytes_slots_pending_from(v1, v4);
    v0 = kd_node_slots_Pending_any(v3);
    return v0;
}

/* node::slots::Slot::has_frame */
KD_SMALL bool kd_node_slots_Slot_has_frame(struct kosmydore_slot v1)
{
    bool v0;

    struct kosmydore_pending v3 = v1.pending;
    bool v2 = kd_node_slots_Pending_any(v3);
    if (v2) {
        bool v4 = v1.stream <= UINT32_C(134217727);
        v2 = v1.used & v4;
    }
    v0 = v2;
    return v0;
}

/* node_bytes::slots::frame_at */
KD_SMALL bool kd_node_bytes_slots_frame_at(struct kd_slice v1, uint64_t v2)
{
    bool v0;

    bool v4 = kd_node_bytes_slots_pending_at(v1, v2);
    bool v5 = !v4;
    if (v5) {
        v0 = false;
        return v0;
    }
    struct kosmydore_slot v3 = kd_node_bytes_slots_slot_at(v1, v2);
    v0 = kd_node_slots_Slot_has_frame(v3);
    return v0;
}

/* node_bytes::finding::fn::find_frame::find */
KD_SMALL bool kd_node_bytes_finding_fn_find_frame_find(uint8_t *v1, uint8_t *v2)
{
    bool v0;

    struct kd_slice v3 = *(struct kd_slice *)(void *)v1;
    uint64_t v4 = *(uint64_t *)(void *)v2;
    v0 = kd_node_bytes_slots_frame_at(v3, v4);
    return v0;
}

/* node_bytes::finding::fn::find_frame::find+FnMut::call_mut */
KD_SMALL bool kd_node_bytes_finding_fn_find_frame_find_FnMut_call_mut(uint8_t *v1, uint8_t *v2)
{
    bool v0;

    uint8_t *v3 = v1;
    v0 = kd_node_bytes_finding_fn_find_frame_find(v3, v2);
    return v0;
}

/* core::iter::base::Iterator::find<core::iter::ranges::Range<u64>,u64,node_bytes::finding::fn::find_frame::find+Self<&[u8]>> */
KD_STATIC struct kd_Option_u64 kd_Iterator_find_Range_u64_u64_find_Self_ref_slice_u8_4f6f617f(uint8_t *v1,
    struct kd_slice v2)
{
    struct kd_Option_u64 v0;
    struct kd_slice v3;
    uint64_t v4;

    v3 = v2;
    for (;;) {
        uint8_t *v6 = v1;
        struct kd_Option_u64 v5 = kd_RangeIterator_next_u64(v6);
        if (v5.tag == 1u) {
            v4 = v5.of1;
            uint8_t *v8 = (uint8_t *)&v3;
            uint8_t *v9 = (uint8_t *)&v4;
            bool v7 = kd_node_bytes_finding_fn_find_frame_find_FnMut_call_mut(v8, v9);
            if (v7) {
                uint64_t v10 = v4;
                v0.tag = 1u;
                v0.of1 = v10;
                /* v11 is not read */
                /* v12 is not read */
                return v0;
            }
            /* v13 is not read */
            /* v12 is not read */
        } else { /* no other number is reached */
            break;
        }
    }
    v0.tag = 0u;
    /* v14 is not read */
    /* v12 is not read */
    return v0;
}

/* node_bytes::finding::find_frame */
KD_SMALL struct kd_Option_u64 kd_node_bytes_finding_find_frame(struct kd_slice v1)
{
    struct kd_Option_u64 v0;
    struct kd_Range_u64 v3;

    struct kd_Range_u64 v2;
    v2.f0 = UINT64_C(0);
    v2.f1 = UINT64_C(32);
    v3 = v2;
    uint8_t *v4 = (uint8_t *)&v3;
    uint8_t *v5 = v1.at;
    struct kd_slice v6;
    v6.at = v5;
    v6.length = (size_t)(uint64_t)v1.length;
    struct kd_slice v7 = v6;
    v0 = kd_Iterator_find_Range_u64_u64_find_Self_ref_slice_u8_4f6f617f(v4, v7);
    return v0;
}

/* core::result::ResultFromResidualErrResidual::from_residual<node::Given,wire::reply::Reply,wire::reply::Reply> */
KD_SMALL struct kd_Result_Given_Reply kd_ResultFromResidualErrResidual_from_residual_Given_R_bdc4252a(uint8_t v1)
{
    struct kd_Result_Given_Reply v0;

    uint8_t v3 = v1;
    uint8_t v2 = kd_AnyFrom_from_Reply(v3);
    v0.tag = 1u;
    v0.of1 = v2;
    return v0;
}

/* node::slots::Slot::lowest_code */
KD_STATIC uint32_t kd_node_slots_Slot_lowest_code(struct kosmydore_slot v1)
{
    uint32_t v0;
    uint32_t v6;
    uint32_t v8;
    uint32_t v10;

    struct kosmydore_pending v2 = v1.pending;
    bool v3 = v1.settings.class_ == 0u;
    bool v4 = !v3;
    bool v5 = v2.payload & v4;
    if (v5) {
        v6 = UINT32_C(0);
    } else {
        bool v7 = v2.confirmation;
        if (v7) {
            v8 = UINT32_C(1);
        } else {
            bool v9 = v2.abort;
            if (v9) {
                v10 = UINT32_C(2);
            } else {
                v10 = UINT32_C(3);
            }
            v8 = v10;
        }
        v6 = v8;
    }
    v0 = v6;
    return v0;
}

/* core::result::ResultTry::branch<wire::ids::BusId,wire::reply::Reply> */
KD_STATIC struct kd_ControlFlow_ErrResidual_Reply_BusId kd_ResultTry_branch_BusId_Reply(
    struct kd_Result_BusId_Reply v1)
{
    struct kd_ControlFlow_ErrResidual_Reply_BusId v0;
    struct kd_ControlFlow_ErrResidual_Reply_BusId v4;

    switch (v1.tag) {
    case 0: {
        uint32_t v2 = v1.of0;
        uint32_t v5 = v2;
        v4.tag = 0u;
        v4.of0 = v5;
        break;
    }
    default: /* no other number is reached */
    case 1: {
        uint8_t v3 = v1.of1;
        uint8_t v6 = v3;
        uint8_t v7 = v6;
        v4.tag = 1u;
        v4.of1 = v7;
        break;
    }
    }
    v0 = v4;
    return v0;
}

/* wire::delivered::copy_eight */
KD_STATIC void kd_wire_delivered_copy_eight(struct kd_slice v1, uint64_t v2, struct kd_slice v3)
{
    uint64_t v7;
    struct kd_u8_8 v16;

    uint64_t v4 = (uint64_t)v1.length;
    do {
        do {
            v7 = (uint64_t)v3.length;
            bool v6 = v7 < UINT64_C(8);
            if (!v6) {
                v6 = v4 < UINT64_C(8);
                bool v5 = v6;
                if (!v5) {
                    uint64_t v8 = v4 - UINT64_C(8);
                    v5 = v8 < v2;
                    bool v9 = v5;
                    if (!v9) {
                        break;
                    }
                }
            }
            return;
        } while (0);
    } while (0);
    v7 = v2 + UINT64_C(8);
    uint8_t *v11 = v1.at + (size_t)v2;
    uint64_t v12 = v7 - v2;
    uint8_t *v13 = v11;
    struct kd_slice v14;
    v14.at = v13;
    v14.length = (size_t)v12;
    struct kd_u8_8 v15 = kd_wire_delivered_first_eight(v3);
    v16 = v15;
    uint8_t *v17 = (uint8_t *)&v16;
    struct kd_slice v18;
    v18.at = v17;
    v18.length = (size_t)UINT64_C(8);
    kd_wire_copying_copy(v14, v18);
    return;
}

/* node::next_frame::put_payload */
KD_STATIC uint64_t kd_node_next_frame_put_payload(struct kd_slice v1, struct kosmydore_message v2)
{
    uint64_t v0;
    struct kosmydore_message v3;

    v3 = v2;
    struct kosmydore_message v5 = v3;
    uint64_t v4 = kd_node_slots_Message_payload_length(v5);
    uint64_t v6 = (uint64_t)v1.length;
    bool v7 = v6 < v4;
    if (v7) {
        v0 = UINT64_C(0);
        return v0;
    }
    v7 = v4 == UINT64_C(8);
    if (v7) {
        uint8_t *v9 = v1.at;
        struct kd_slice v10;
        v10.at = v9;
        v10.length = (size_t)(uint64_t)v1.length;
        uint8_t *v11 = (uint8_t *)&v3.bytes;
        struct kd_slice v12;
        v12.at = v11;
        v12.length = (size_t)UINT64_C(8);
        kd_wire_delivered_copy_eight(v10, UINT64_C(0), v12);
    } else {
        uint8_t *v14 = v1.at;
        struct kd_slice v15;
        v15.at = v14;
        v15.length = (size_t)(uint64_t)v1.length;
        uint8_t *v16 = (uint8_t *)&v3.bytes;
        struct kd_slice v17;
        v17.at = v16;
        v17.length = (size_t)v4;
        kd_wire_copying_copy(v15, v17);
    }
    v0 = v4;
    return v0;
}

/* node::next_frame::give_payload */
KD_STATIC uint64_t kd_node_next_frame_give_payload(struct kd_slice v1, struct kosmydore_slot v2, uint32_t v3)
{
    uint64_t v0;
    uint64_t v4;

    do {
        bool v5 = v3 < UINT32_C(1);
        if (!v5) {
            v5 = v3 < UINT32_C(3);
            if (v5) {
                v4 = UINT64_C(0);
                break;
            }
        }
        uint8_t *v6 = v1.at;
        struct kd_slice v7;
        v7.at = v6;
        v7.length = (size_t)(uint64_t)v1.length;
        struct kosmydore_message v8 = v2.message;
        v4 = kd_node_next_frame_put_payload(v7, v8);
    } while (0);
    v0 = v4;
    return v0;
}

/* node::slots::Slot::given_out */
KD_SMALL struct kosmydore_slot kd_node_slots_Slot_given_out(struct kosmydore_slot v1, uint32_t v2)
{
    struct kosmydore_slot v0;

    switch (v2) {
    case 1: {
        v1.pending.confirmation = false;
        break;
    }
    case 2: {
        v1.pending.abort = false;
        break;
    }
    default: {
        v1.pending.payload = false;
        break;
    }
    }
    v0 = v1;
    return v0;
}

/* node_bytes::numbers::put_flag */
KD_SMALL void kd_node_bytes_numbers_put_flag(struct kd_slice v1, uint64_t v2, bool v3, bool v4)
{
    bool v5 = v3 != v4;
    if (v5) {
        uint8_t v6 = kd_node_bytes_numbers_flag(v4);
        uint8_t *v7 = v1.at + (size_t)v2;
        *v7 = v6;
    }
    return;
}

/* node_bytes::slots::put_pending */
KD_STATIC void kd_node_bytes_slots_put_pending(struct kd_slice v1, uint64_t v2, struct kosmydore_pending v3,
    struct kosmydore_pending v4)
{
    uint64_t v5 = UINT64_C(32) * v2;
    uint8_t *v7 = v1.at;
    struct kd_slice v8;
    v8.at = v7;
    v8.length = (size_t)(uint64_t)v1.length;
    uint64_t v9 = UINT64_C(8) + v5;
    kd_node_bytes_numbers_put_flag(v8, v9, v3.payload, v4.payload);
    uint8_t *v10 = v1.at;
    struct kd_slice v11;
    v11.at = v10;
    v11.length = (size_t)(uint64_t)v1.length;
    v9 = UINT64_C(9) + v5;
    kd_node_bytes_numbers_put_flag(v11, v9, v3.confirmation, v4.confirmation);
    uint8_t *v12 = v1.at;
    struct kd_slice v13;
    v13.at = v12;
    v13.length = (size_t)(uint64_t)v1.length;
    v9 = UINT64_C(10) + v5;
    kd_node_bytes_numbers_put_flag(v13, v9, v3.abort, v4.abort);
    return;
}

/* node_bytes::next_frame::next_frame */
KD_STATIC struct kd_Result_Given_Reply kd_node_bytes_next_frame_next_frame(struct kd_slice v1, struct kd_slice v2)
{
    struct kd_Result_Given_Reply v0;
    uint64_t v23;
    uint32_t v29;

    uint64_t v13 = (uint64_t)v1.length;
    bool v14 = v13 != UINT64_C(1026);
    if (v14) {
        uint8_t v15 = 10u;
        v0.tag = 1u;
        v0.of1 = v15;
        return v0;
    }
    v13 = (uint64_t)v2.length;
    v14 = v13 < UINT64_C(8);
    if (v14) {
        uint8_t v16 = 11u;
        v0.tag = 1u;
        v0.of1 = v16;
        return v0;
    }
    uint8_t *v20 = v1.at;
    struct kd_slice v21;
    v21.at = v20;
    v21.length = (size_t)(uint64_t)v1.length;
    struct kd_Option_u64 v19 = kd_node_bytes_finding_find_frame(v21);
    uint8_t v22 = 12u;
    struct kd_Result_u64_Reply v18 = kd_Option_ok_or_u64_Reply(v19, v22);
    struct kd_ControlFlow_ErrResidual_Reply_u64 v17 = kd_ResultTry_branch_u64_Reply(v18);
    switch (v17.tag) {
    case 0: {
        uint64_t v4 = v17.of0;
        v23 = v4;
        break;
    }
    default: /* no other number is reached */
    case 1: {
        uint8_t v5 = v17.of1;
        v0 = kd_ResultFromResidualErrResidual_from_residual_Given_R_bdc4252a(v5);
        return v0;
    }
    }
    uint64_t v3 = v23;
    uint8_t *v24 = v1.at;
    struct kd_slice v25;
    v25.at = v24;
    v25.length = (size_t)(uint64_t)v1.length;
    struct kosmydore_slot v6 = kd_node_bytes_slots_slot_at(v25, v3);
    uint32_t v7 = kd_node_slots_Slot_lowest_code(v6);
    uint32_t v28 = v6.stream;
    struct kd_Result_BusId_Reply v27 = kd_wire_ids_Stream_join(v28, v7);
    struct kd_ControlFlow_ErrResidual_Reply_BusId v26 = kd_ResultTry_branch_BusId_Reply(v27);
    switch (v26.tag) {
    case 0: {
        uint32_t v9 = v26.of0;
        v29 = v9;
        break;
    }
    default: /* no other number is reached */
    case 1: {
        uint8_t v10 = v26.of1;
        v0 = kd_ResultFromResidualErrResidual_from_residual_Given_R_bdc4252a(v10);
        return v0;
    }
    }
    uint32_t v8 = v29;
    uint8_t *v30 = v2.at;
    struct kd_slice v31;
    v31.at = v30;
    v31.length = (size_t)(uint64_t)v2.length;
    uint64_t v11 = kd_node_next_frame_give_payload(v31, v6, v7);
    struct kosmydore_slot v12 = kd_node_slots_Slot_given_out(v6, v7);
    uint8_t *v33 = v1.at;
    struct kd_slice v34;
    v34.at = v33;
    v34.length = (size_t)(uint64_t)v1.length;
    struct kosmydore_pending v35 = v6.pending;
    struct kosmydore_pending v36 = v12.pending;
    kd_node_bytes_slots_put_pending(v34, v3, v35, v36);
    struct kd_node_Given v37;
    v37.f0 = v8;
    v37.f1 = v11;
    v0.tag = 0u;
    v0.of0 = v37;
    return v0;
}

/* module::tally::reply_of<node::Given> */
KD_SMALL uint8_t kd_tally_reply_of_Given(uint8_t *v1)
{
    uint8_t v0;
    uint8_t v3;

    switch (((struct kd_Result_Given_Reply *)(void *)v1)->tag) {
    case 0: {
        v3 = 0u;
        break;
    }
    default: /* no other number is reached */
    case 1: {
        uint8_t *v2 = (uint8_t *)&((struct kd_Result_Given_Reply *)(void *)v1)->of1;
        v3 = *v2;
        break;
    }
    }
    v0 = v3;
    return v0;
}

/* firmware::answers::number_of<node::Given> */
KD_SMALL uint32_t kd_answers_number_of_Given(uint8_t *v1)
{
    uint32_t v0;

    uint8_t v2 = kd_tally_reply_of_Given(v1);
    v0 = kd_wire_reply_Reply_number(v2);
    return v0;
}

/* firmware::answers::counted<node::Given> */
KD_SMALL uint32_t kd_answers_counted_Given(struct kd_slice v1, uint8_t *v2)
{
    uint32_t v0;

    uint32_t v3 = kd_answers_number_of_Given(v2);
    uint8_t *v5 = v1.at;
    struct kd_slice v6;
    v6.at = v5;
    v6.length = (size_t)(uint64_t)v1.length;
    (void)kd_module_tally_count_in(v6, v3);
    v0 = v3;
    return v0;
}

/* core::result::Result::unwrap_or<node::Given,wire::reply::Reply> */
KD_STATIC struct kd_node_Given kd_Result_unwrap_or_Given_Reply(struct kd_Result_Given_Reply v1,
    struct kd_node_Given v2)
{
    struct kd_node_Given v0;
    struct kd_node_Given v4;

    switch (v1.tag) {
    case 0: {
        struct kd_node_Given v3 = v1.of0;
        v4 = v3;
        v0 = v4;
        /* v5 is not read */
        /* v6 is not read */
        return v0;
    }
    default: /* no other number is reached */
    case 1: {
        v4 = v2;
        break;
    }
    }
    v0 = v4;
    switch (v1.tag) {
    case 1: {
        /* v7 is not read */
        /* v6 is not read */
        break;
    }
    default: /* no other number is reached */
    case 0: {
        break;
    }
    }
    return v0;
}

/* firmware::lent::kosmydore_module_next_frame */
struct kosmydore_given_out kosmydore_module_next_frame(uint8_t *node, size_t node_length, uint8_t *output,
    size_t output_length, uint32_t *tally, size_t tally_length)
{
    struct kd_slice v1 = {node, node_length};
    struct kd_slice v2 = {output, output_length};
    struct kd_slice v3 = {(uint8_t *)tally, tally_length};
    struct kosmydore_given_out v0;
    struct kd_Result_Given_Reply v4;

    uint8_t *v8 = v1.at;
    struct kd_slice v9;
    v9.at = v8;
    v9.length = (size_t)(uint64_t)v1.length;
    uint8_t *v10 = v2.at;
    struct kd_slice v11;
    v11.at = v10;
    v11.length = (size_t)(uint64_t)v2.length;
    struct kd_Result_Given_Reply v7 = kd_node_bytes_next_frame_next_frame(v9, v11);
    v4 = v7;
    uint8_t *v12 = v3.at;
    struct kd_slice v13;
    v13.at = v12;
    v13.length = (size_t)(uint64_t)v3.length;
    uint8_t *v14 = (uint8_t *)&v4;
    uint32_t v5 = kd_answers_counted_Given(v13, v14);
    v7 = v4;
    uint32_t v15 = UINT32_C(0);
    struct kd_node_Given v16;
    v16.f0 = v15;
    v16.f1 = UINT64_C(0);
    struct kd_node_Given v6 = kd_Result_unwrap_or_Given_Reply(v7, v16);
    v0.reply = v5;
    v0.id = v6.f0;
    v0.length = (size_t)v6.f1;
    return v0;
}

/* firmware::lent::kosmydore_count */
bool kosmydore_count(uint32_t *tally, size_t tally_length, uint32_t reply)
{
    struct kd_slice v1 = {(uint8_t *)tally, tally_length};
    bool v0;

    uint8_t *v3 = v1.at;
    struct kd_slice v4;
    v4.at = v3;
    v4.length = (size_t)(uint64_t)v1.length;
    v0 = kd_module_tally_count_in(v4, reply);
    return v0;
}

/* node::Node::fresh */
KD_STATIC struct kosmydore_node kd_node_Node_fresh(void)
{
    struct kosmydore_node v0;

    uint32_t v1 = UINT32_C(0);
    struct kosmydore_slot_settings v2;
    v2.role = 0u;
    v2.class_ = 0u;
    v2.data_reach = 0u;
    v2.confirm_delay = 0u;
    v2.abort_reach = 0u;
    v2.deliver_delay = 0u;
    struct kd_u8_8 v3;
    for (size_t t1 = 0; t1 < 8; t1++) {
        v3.at[t1] = 0u;
    }
    struct kosmydore_message v4;
    v4.stamp = 0u;
    v4.length = 0u;
    v4.held = false;
    v4.confirmed = false;
    memcpy(v4.bytes, v3.at, sizeof(struct kd_u8_8));
    struct kosmydore_pending v5;
    v5.payload = false;
    v5.confirmation = false;
    v5.abort = false;
    struct kosmydore_slot v6;
    v6.stream = v1;
    v6.settings = v2;
    v6.message = v4;
    v6.pending = v5;
    v6.used = false;
    struct kd_node_slots_Slot_32 v7;
    for (size_t t2 = 0; t2 < 32; t2++) {
        v7.at[t2] = v6;
    }
    memcpy(v0.slots, v7.at, sizeof(struct kd_node_slots_Slot_32));
    v0.counter = 0u;
    return v0;
}

/* firmware::calls::kosmydore_fresh */
struct kosmydore_node kosmydore_fresh(void)
{
    struct kosmydore_node v0;

    v0 = kd_node_Node_fresh();
    return v0;
}

/* core::iter::slices::slice+T::iter<node::slots::Slot> */
KD_SMALL struct kd_slice kd_slice_T_iter_Slot(struct kd_slice v1)
{
    struct kd_slice v0;

    v0 = v1;
    return v0;
}

/* core::slice::slice+T::is_empty<node::slots::Slot> */
KD_SMALL bool kd_slice_T_is_empty_Slot(struct kd_slice v1)
{
    bool v0;

    uint64_t v2 = (uint64_t)v1.length;
    v0 = v2 == UINT64_C(0);
    return v0;
}

/* core::iter::slices::IterIterator::next<node::slots::Slot> */
KD_STATIC struct kd_Option_ref_Slot kd_IterIterator_next_Slot(uint8_t *v1)
{
    struct kd_Option_ref_Slot v0;

    struct kd_slice v2 = *(struct kd_slice *)(void *)v1;
    bool v3 = kd_slice_T_is_empty_Slot(v2);
    if (v3) {
        v0.tag = 0u;
        return v0;
    }
    uint64_t v4 = UINT64_C(1) * UINT64_C(32);
    uint8_t *v5 = v2.at + (size_t)v4;
    uint64_t v6 = (uint64_t)v2.length - UINT64_C(1);
    uint8_t *v7 = v5;
    struct kd_slice v8;
    v8.at = v7;
    v8.length = (size_t)v6;
    *(struct kd_slice *)(void *)v1 = v8;
    v4 = UINT64_C(0) * UINT64_C(32);
    uint8_t *v9 = v2.at + (size_t)v4;
    uint8_t *v10 = v9;
    v0.tag = 1u;
    v0.of1 = v10;
    return v0;
}

/* core::cmp::numbers::U32PartialEq::eq */
KD_SMALL bool kd_core_cmp_numbers_U32PartialEq_eq(uint8_t *v1, uint8_t *v2)
{
    bool v0;

    uint32_t v3 = *(uint32_t *)(void *)v1;
    uint32_t v4 = *(uint32_t *)(void *)v2;
    v0 = v3 == v4;
    return v0;
}

/* wire::ids::StreamPartialEq::eq */
KD_SMALL bool kd_wire_ids_StreamPartialEq_eq(uint8_t *v1, uint8_t *v2)
{
    bool v0;

    uint8_t *v3 = v1;
    uint8_t *v4 = v2;
    bool v6 = kd_core_cmp_numbers_U32PartialEq_eq(v3, v4);
    bool v5 = v6;
    v0 = v5;
    return v0;
}

/* node::slots::Slot::is_of */
KD_SMALL bool kd_node_slots_Slot_is_of(struct kosmydore_slot v1, uint32_t v2)
{
    bool v0;
    struct kosmydore_slot v3;
    uint32_t v4;

    v3 = v1;
    v4 = v2;
    bool v5 = v3.used;
    uint8_t *v7 = (uint8_t *)&v3.stream;
    uint8_t *v8 = (uint8_t *)&v4;
    bool v6 = kd_wire_ids_StreamPartialEq_eq(v7, v8);
    v0 = v5 & v6;
    return v0;
}

/* node::fn::Node::place_of::position */
KD_SMALL bool kd_node_fn_Node_place_of_position(uint8_t *v1, uint8_t *v2)
{
    bool v0;

    uint8_t *v3 = *(uint8_t **)(void *)v1;
    struct kosmydore_slot v4 = *(struct kosmydore_slot *)(void *)v2;
    uint32_t v5 = *(uint32_t *)(void *)v3;
    v0 = kd_node_slots_Slot_is_of(v4, v5);
    return v0;
}

/* node::fn::Node::place_of::position+FnMut::call_mut */
KD_SMALL bool kd_node_fn_Node_place_of_position_FnMut_call_mut(uint8_t *v1, uint8_t *v2)
{
    bool v0;

    uint8_t *v3 = v1;
    v0 = kd_node_fn_Node_place_of_position(v3, v2);
    return v0;
}

/* core::iter::base::Iterator::position<core::iter::slices::Iter<node::slots::Slot>,&node::slots::Slot,node::fn::Node::place_of::position+Self<&wire::ids::Stream>> */
KD_STATIC struct kd_Option_u64 kd_Iterator_position_Iter_Slot_ref_Slot_position_Self__467c7a6c(uint8_t *v1,
    uint8_t *v2)
{
    struct kd_Option_u64 v0;
    uint8_t *v3;

    v3 = v2;
    uint64_t v4 = UINT64_C(0);
    for (;;) {
        uint8_t *v7 = v1;
        struct kd_Option_ref_Slot v6 = kd_IterIterator_next_Slot(v7);
        if (v6.tag == 1u) {
            uint8_t *v5 = v6.of1;
            uint8_t *v9 = (uint8_t *)&v3;
            uint8_t *v10 = v5;
            bool v8 = kd_node_fn_Node_place_of_position_FnMut_call_mut(v9, v10);
            if (v8) {
                v0.tag = 1u;
                v0.of1 = v4;
                /* v11 is not read */
                /* v12 is not read */
                return v0;
            }
            v4 = v4 + UINT64_C(1);
        } else { /* no other number is reached */
            break;
        }
    }
    v0.tag = 0u;
    /* v13 is not read */
    /* v12 is not read */
    return v0;
}

/* node::Node::place_of */
KD_SMALL struct kd_Option_u64 kd_node_Node_place_of(uint8_t *v1, uint32_t v2)
{
    struct kd_Option_u64 v0;
    uint32_t v3;
    struct kd_slice v7;

    v3 = v2;
    uint8_t *v5 = (uint8_t *)&((struct kosmydore_node *)(void *)v1)->slots;
    struct kd_slice v6;
    v6.at = v5;
    v6.length = (size_t)UINT64_C(32);
    struct kd_slice v4 = kd_slice_T_iter_Slot(v6);
    v7 = v4;
    uint8_t *v8 = (uint8_t *)&v7;
    uint8_t *v9 = (uint8_t *)&v3;
    uint8_t *v10 = v9;
    v0 = kd_Iterator_position_Iter_Slot_ref_Slot_position_Self__467c7a6c(v8, v10);
    return v0;
}

/* node::slots::Slot::is_free */
KD_SMALL bool kd_node_slots_Slot_is_free(struct kosmydore_slot v1)
{
    bool v0;

    v0 = !v1.used;
    return v0;
}

/* node::fn::Node::free_place::position */
KD_SMALL bool kd_node_fn_Node_free_place_position(uint8_t *v2)
{
    bool v0;

    struct kosmydore_slot v3 = *(struct kosmydore_slot *)(void *)v2;
    v0 = kd_node_slots_Slot_is_free(v3);
    return v0;
}

/* node::fn::Node::free_place::position+FnMut::call_mut */
KD_SMALL bool kd_node_fn_Node_free_place_position_FnMut_call_mut(uint8_t *v2)
{
    bool v0;

    v0 = kd_node_fn_Node_free_place_position(v2);
    return v0;
}

/* core::iter::base::Iterator::position<core::iter::slices::Iter<node::slots::Slot>,&node::slots::Slot,node::fn::Node::free_place::position+Self> */
KD_STATIC struct kd_Option_u64 kd_Iterator_position_Iter_Slot_ref_Slot_position_Self_6f8eaa0e(uint8_t *v1)
{
    struct kd_Option_u64 v0;

    uint64_t v4 = UINT64_C(0);
    for (;;) {
        uint8_t *v7 = v1;
        struct kd_Option_ref_Slot v6 = kd_IterIterator_next_Slot(v7);
        if (v6.tag == 1u) {
            uint8_t *v5 = v6.of1;
            uint8_t *v10 = v5;
            bool v8 = kd_node_fn_Node_free_place_position_FnMut_call_mut(v10);
            if (v8) {
                v0.tag = 1u;
                v0.of1 = v4;
                /* v12 is not read */
                return v0;
            }
            v4 = v4 + UINT64_C(1);
        } else { /* no other number is reached */
            break;
        }
    }
    v0.tag = 0u;
    /* v12 is not read */
    return v0;
}

/* node::Node::free_place */
KD_SMALL struct kd_Option_u64 kd_node_Node_free_place(uint8_t *v1)
{
    struct kd_Option_u64 v0;
    struct kd_slice v5;

    uint8_t *v3 = (uint8_t *)&((struct kosmydore_node *)(void *)v1)->slots;
    struct kd_slice v4;
    v4.at = v3;
    v4.length = (size_t)UINT64_C(32);
    struct kd_slice v2 = kd_slice_T_iter_Slot(v4);
    v5 = v2;
    uint8_t *v6 = (uint8_t *)&v5;
    v0 = kd_Iterator_position_Iter_Slot_ref_Slot_position_Self_6f8eaa0e(v6);
    return v0;
}

/* node::set_up::fn::place_above::position */
KD_SMALL bool kd_node_set_up_fn_place_above_position(uint8_t *v1, uint8_t *v2)
{
    bool v0;

    uint8_t *v3 = *(uint8_t **)(void *)v1;
    uint32_t v4 = *(uint32_t *)(void *)v3;
    uint32_t v5 = ((struct kosmydore_slot *)(void *)v2)->stream;
    v0 = v4 < v5;
    return v0;
}

/* node::set_up::fn::place_above::position+FnMut::call_mut */
KD_SMALL bool kd_node_set_up_fn_place_above_position_FnMut_call_mut(uint8_t *v1, uint8_t *v2)
{
    bool v0;

    uint8_t *v3 = v1;
    v0 = kd_node_set_up_fn_place_above_position(v3, v2);
    return v0;
}

/* core::iter::base::Iterator::position<core::iter::slices::Iter<node::slots::Slot>,&node::slots::Slot,node::set_up::fn::place_above::position+Self<&u32>> */
KD_STATIC struct kd_Option_u64 kd_Iterator_position_Iter_Slot_ref_Slot_position_Self_ref_u32(uint8_t *v1, uint8_t *v2)
{
    struct kd_Option_u64 v0;
    uint8_t *v3;

    v3 = v2;
    uint64_t v4 = UINT64_C(0);
    for (;;) {
        uint8_t *v7 = v1;
        struct kd_Option_ref_Slot v6 = kd_IterIterator_next_Slot(v7);
        if (v6.tag == 1u) {
            uint8_t *v5 = v6.of1;
            uint8_t *v9 = (uint8_t *)&v3;
            uint8_t *v10 = v5;
            bool v8 = kd_node_set_up_fn_place_above_position_FnMut_call_mut(v9, v10);
            if (v8) {
                v0.tag = 1u;
                v0.of1 = v4;
                /* v11 is not read */
                /* v12 is not read */
                return v0;
            }
            v4 = v4 + UINT64_C(1);
        } else { /* no other number is reached */
            break;
        }
    }
    v0.tag = 0u;
    /* v13 is not read */
    /* v12 is not read */
    return v0;
}

/* node::set_up::place_above */
KD_SMALL struct kd_Option_u64 kd_node_set_up_place_above(struct kd_slice v1, uint32_t v2)
{
    struct kd_Option_u64 v0;
    uint32_t v3;
    struct kd_slice v5;

    v3 = v2;
    struct kd_slice v4 = kd_slice_T_iter_Slot(v1);
    v5 = v4;
    uint8_t *v6 = (uint8_t *)&v5;
    uint8_t *v7 = (uint8_t *)&v3;
    uint8_t *v8 = v7;
    v0 = kd_Iterator_position_Iter_Slot_ref_Slot_position_Self_ref_u32(v6, v8);
    return v0;
}

/* node::Node::set_up */
KD_STATIC struct kd_Result_unit_Reply kd_node_Node_set_up(uint8_t *v1, uint32_t v2, struct kosmydore_slot_settings v3)
{
    struct kd_Result_unit_Reply v0;
    struct kd_Option_u64 v15;
    uint64_t v22;

    bool v9 = kd_wire_settings_Settings_legal(v3, v2);
    bool v10 = !v9;
    if (v10) {
        uint8_t v11 = 1u;
        v0.tag = 1u;
        v0.of1 = v11;
        return v0;
    }
    uint8_t *v14 = v1;
    struct kd_Option_u64 v13 = kd_node_Node_place_of(v14, v2);
    v15 = v13;
    uint8_t *v16 = (uint8_t *)&v15;
    bool v12 = kd_Option_is_some_u64(v16);
    if (v12) {
        uint8_t v17 = 3u;
        v0.tag = 1u;
        v0.of1 = v17;
        return v0;
    }
    uint8_t *v20 = v1;
    v13 = kd_node_Node_free_place(v20);
    uint8_t v21 = 2u;
    struct kd_Result_u64_Reply v19 = kd_Option_ok_or_u64_Reply(v13, v21);
    struct kd_ControlFlow_ErrResidual_Reply_u64 v18 = kd_ResultTry_branch_u64_Reply(v19);
    switch (v18.tag) {
    case 0: {
        uint64_t v5 = v18.of0;
        v22 = v5;
        break;
    }
    default: /* no other number is reached */
    case 1: {
        uint8_t v6 = v18.of1;
        v0 = kd_ResultFromResidualErrResidual_from_residual_unit_Reply_Reply(v6);
        return v0;
    }
    }
    uint64_t v4 = v22;
    uint8_t *v23 = (uint8_t *)&((struct kosmydore_node *)(void *)v1)->slots;
    struct kd_slice v24;
    v24.at = v23;
    v24.length = (size_t)v4;
    v13 = kd_node_set_up_place_above(v24, v2);
    uint64_t v7 = kd_Option_unwrap_or_u64(v13, v4);
    uint64_t v8 = v4;
    for (;;) {
        bool v25 = v7 < v8;
        if (!v25) {
            break;
        }
        v8 = v8 - UINT64_C(1);
        uint64_t v26 = v8 * UINT64_C(32);
        uint8_t *v27 = (uint8_t *)&((struct kosmydore_node *)(void *)v1)->slots;
        uint8_t *v28 = v27 + (size_t)v26;
        struct kosmydore_slot v29 = *(struct kosmydore_slot *)(void *)v28;
        uint64_t v30 = v8 + UINT64_C(1);
        uint64_t v31 = v30 * UINT64_C(32);
        uint8_t *v32 = (uint8_t *)&((struct kosmydore_node *)(void *)v1)->slots;
        uint8_t *v33 = v32 + (size_t)v31;
        *(struct kosmydore_slot *)(void *)v33 = v29;
    }
    struct kosmydore_slot v34 = kd_node_slots_Slot_set_up(v2, v3);
    uint64_t v35 = v7 * UINT64_C(32);
    uint8_t *v36 = (uint8_t *)&((struct kosmydore_node *)(void *)v1)->slots;
    uint8_t *v37 = v36 + (size_t)v35;
    *(struct kosmydore_slot *)(void *)v37 = v34;
    v0.tag = 0u;
    return v0;
}

/* firmware::calls::kosmydore_set_up */
struct kosmydore_answered kosmydore_set_up(struct kosmydore_node node, uint32_t stream,
    struct kosmydore_settings settings)
{
    struct kosmydore_answered v0;
    struct kosmydore_node v4;
    struct kd_Result_unit_Reply v5;

    v4 = node;
    uint8_t *v8 = (uint8_t *)&v4;
    uint32_t v9 = stream;
    struct kosmydore_slot_settings v10 = kd_firmware_judged_settings_of(settings);
    struct kd_Result_unit_Reply v7 = kd_node_Node_set_up(v8, v9, v10);
    v5 = v7;
    uint8_t *v11 = (uint8_t *)&v5;
    uint32_t v6 = kd_answers_number_of_unit(v11);
    struct kosmydore_node v12 = v4;
    v0.node = v12;
    v0.reply = v6;
    return v0;
}

/* node::Node::hear */
KD_STATIC struct kd_Result_Heard_Reply kd_node_Node_hear(uint8_t *v1, uint32_t v2, uint8_t v3, struct kd_slice v4,
    struct kd_slice v5)
{
    struct kd_Result_Heard_Reply v0;
    struct kd_tuple_Stream_u32 v28;
    uint64_t v34;

    uint64_t v20 = (uint64_t)v5.length;
    bool v21 = v20 < UINT64_C(16);
    if (v21) {
        uint8_t v22 = 11u;
        v0.tag = 1u;
        v0.of1 = v22;
        return v0;
    }
    v21 = kd_wire_ids_BusId_is_bare(v2);
    struct kd_Result_unit_Reply v24 = kd_wire_frame_check_frame(v21, v2, v3, v4);
    struct kd_ControlFlow_ErrResidual_Reply_unit v23 = kd_ResultTry_branch_unit_Reply(v24);
    switch (v23.tag) {
    case 0: {
        break;
    }
    default: /* no other number is reached */
    case 1: {
        uint8_t v7 = v23.of1;
        v0 = kd_ResultFromResidualErrResidual_from_residual_Heard_R_d5df5c05(v7);
        return v0;
    }
    }
    struct kd_Result_tuple_Stream_u32_Reply v27 = kd_wire_ids_BusId_split(v2);
    struct kd_ControlFlow_ErrResidual_Reply_tuple_Stream_u32 v26 = kd_ResultTry_branch_tuple_Stream_u32_Reply(v27);
    switch (v26.tag) {
    case 0: {
        struct kd_tuple_Stream_u32 v10 = v26.of0;
        v28 = v10;
        break;
    }
    default: /* no other number is reached */
    case 1: {
        uint8_t v11 = v26.of1;
        v0 = kd_ResultFromResidualErrResidual_from_residual_Heard_R_d5df5c05(v11);
        return v0;
    }
    }
    struct kd_tuple_Stream_u32 v25 = v28;
    uint32_t v8 = v25.f0;
    uint32_t v9 = v25.f1;
    uint8_t *v32 = v1;
    struct kd_Option_u64 v31 = kd_node_Node_place_of(v32, v8);
    uint8_t v33 = 5u;
    struct kd_Result_u64_Reply v30 = kd_Option_ok_or_u64_Reply(v31, v33);
    struct kd_ControlFlow_ErrResidual_Reply_u64 v29 = kd_ResultTry_branch_u64_Reply(v30);
    switch (v29.tag) {
    case 0: {
        uint64_t v13 = v29.of0;
        v34 = v13;
        break;
    }
    default: /* no other number is reached */
    case 1: {
        uint8_t v14 = v29.of1;
        v0 = kd_ResultFromResidualErrResidual_from_residual_Heard_R_d5df5c05(v14);
        return v0;
    }
    }
    uint64_t v12 = v34;
    v20 = v12 * UINT64_C(32);
    uint8_t *v35 = (uint8_t *)&((struct kosmydore_node *)(void *)v1)->slots;
    uint8_t *v36 = v35 + (size_t)v20;
    struct kosmydore_slot v37 = *(struct kosmydore_slot *)(void *)v36;
    struct kosmydore_slot v15 = v37;
    v24 = kd_node_slots_Slot_check_hear(v15, v9, v4);
    struct kd_ControlFlow_ErrResidual_Reply_unit v38 = kd_ResultTry_branch_unit_Reply(v24);
    switch (v38.tag) {
    case 0: {
        break;
    }
    default: /* no other number is reached */
    case 1: {
        uint8_t v17 = v38.of1;
        v0 = kd_ResultFromResidualErrResidual_from_residual_Heard_R_d5df5c05(v17);
        return v0;
    }
    }
    uint8_t v18 = kd_node_slots_Slot_told(v15, v9);
    uint16_t v39 = ((struct kosmydore_node *)(void *)v1)->counter;
    v37 = kd_node_slots_Slot_hear(v15, v39, v9, v4);
    v20 = v12 * UINT64_C(32);
    uint8_t *v40 = (uint8_t *)&((struct kosmydore_node *)(void *)v1)->slots;
    uint8_t *v41 = v40 + (size_t)v20;
    *(struct kosmydore_slot *)(void *)v41 = v37;
    uint8_t *v42 = v5.at;
    struct kd_slice v43;
    v43.at = v42;
    v43.length = (size_t)(uint64_t)v5.length;
    uint64_t v19 = kd_node_hear_deliver_plain(v43, v8, v9, v4);
    struct kd_node_Heard v44;
    v44.f0 = v19;
    v44.f1 = v18;
    v0.tag = 0u;
    v0.of0 = v44;
    return v0;
}

/* firmware::calls::kosmydore_hear */
struct kosmydore_heard kosmydore_hear(struct kosmydore_node node, uint32_t id, uint32_t dlc, const uint8_t *payload,
    size_t payload_length, uint8_t *output, size_t output_length)
{
    struct kd_slice v4 = {(uint8_t *)payload, payload_length};
    struct kd_slice v5 = {output, output_length};
    struct kosmydore_heard v0;
    struct kosmydore_node v6;
    struct kd_Result_Heard_Reply v7;

    v6 = node;
    uint8_t *v11 = (uint8_t *)&v6;
    uint32_t v12 = id;
    uint8_t v13 = kd_firmware_judged_dlc_of(dlc);
    uint8_t *v14 = v5.at;
    struct kd_slice v15;
    v15.at = v14;
    v15.length = (size_t)(uint64_t)v5.length;
    struct kd_Result_Heard_Reply v10 = kd_node_Node_hear(v11, v12, v13, v4, v15);
    v7 = v10;
    uint8_t *v16 = (uint8_t *)&v7;
    uint32_t v8 = kd_answers_number_of_Heard(v16);
    v10 = v7;
    uint8_t v17 = 0u;
    struct kd_node_Heard v18;
    v18.f0 = UINT64_C(0);
    v18.f1 = v17;
    struct kd_node_Heard v9 = kd_Result_unwrap_or_Heard_Reply(v10, v18);
    struct kosmydore_node v19 = v6;
    uint8_t v21 = v9.f1;
    uint32_t v20 = kd_node_told_Told_number(v21);
    v0.node = v19;
    v0.reply = v8;
    v0.told = v20;
    v0.written = (size_t)v9.f0;
    return v0;
}

/* node::slots::Slot::may_stir */
KD_STATIC bool kd_node_slots_Slot_may_stir(struct kosmydore_slot v1, uint16_t v2)
{
    bool v0;

    bool v4 = !v1.message.held;
    if (v4) {
        v0 = false;
        return v0;
    }
    struct kosmydore_slot_settings v3 = v1.settings;
    v4 = v3.deliver_delay < v2;
    if (v4) {
        v0 = true;
        return v0;
    }
    v4 = v3.class_ == 2u;
    if (v4) {
        v0 = v3.confirm_delay < v2;
        return v0;
    }
    v0 = false;
    return v0;
}

/* node::slots::Message::all_bytes */
KD_SMALL struct kd_u8_8 kd_node_slots_Message_all_bytes(struct kosmydore_message v1)
{
    struct kd_u8_8 v0;

    memcpy(v0.at, v1.bytes, sizeof(struct kd_u8_8));
    return v0;
}

/* node::Node::tick */
KD_STATIC struct kd_Result_Ticked_Reply kd_node_Node_tick(uint8_t *v1, struct kd_slice v2)
{
    struct kd_Result_Ticked_Reply v0;
    struct kd_u8_8 v10;

    uint64_t v12 = (uint64_t)v2.length;
    bool v13 = v12 < UINT64_C(512);
    if (v13) {
        uint8_t v14 = 11u;
        v0.tag = 1u;
        v0.of1 = v14;
        return v0;
    }
    uint16_t v15 = ((struct kosmydore_node *)(void *)v1)->counter;
    uint16_t v3 = kd_node_tick_next(v15);
    ((struct kosmydore_node *)(void *)v1)->counter = v3;
    uint64_t v4 = UINT64_C(0);
    uint32_t v5 = UINT32_C(0);
    uint32_t v6 = UINT32_C(0);
    uint64_t v7 = UINT64_C(0);
    for (;;) {
        bool v16 = v7 < UINT64_C(32);
        if (!v16) {
            break;
        }
        uint64_t v17 = v7 * UINT64_C(32);
        uint8_t *v18 = (uint8_t *)&((struct kosmydore_node *)(void *)v1)->slots;
        uint8_t *v19 = v18 + (size_t)v17;
        struct kosmydore_slot v20 = *(struct kosmydore_slot *)(void *)v19;
        struct kosmydore_slot v8 = v20;
        uint16_t v9 = kd_node_tick_age(v3, v8.message.stamp);
        v16 = kd_node_slots_Slot_may_stir(v8, v9);
        bool v21 = !v16;
        if (v21) {
            v7 = v7 + UINT64_C(1);
            continue;
        }
        bool v22 = kd_node_slots_Slot_due(v8, v9);
        if (v22) {
            struct kosmydore_slot v23 = kd_node_slots_Slot_delivered(v8);
            uint64_t v24 = v7 * UINT64_C(32);
            uint8_t *v25 = (uint8_t *)&((struct kosmydore_node *)(void *)v1)->slots;
            uint8_t *v26 = v25 + (size_t)v24;
            *(struct kosmydore_slot *)(void *)v26 = v23;
            struct kosmydore_message v28 = v8.message;
            struct kd_u8_8 v27 = kd_node_slots_Message_all_bytes(v28);
            v10 = v27;
            struct kosmydore_message v29 = v8.message;
            uint64_t v11 = kd_node_slots_Message_payload_length(v29);
            uint8_t *v30 = v2.at + (size_t)v4;
            uint64_t v31 = (uint64_t)v2.length - v4;
            uint8_t *v32 = v30;
            struct kd_slice v33;
            v33.at = v32;
            v33.length = (size_t)v31;
            uint32_t v34 = v8.stream;
            uint8_t *v35 = (uint8_t *)&v10;
            struct kd_slice v36;
            v36.at = v35;
            v36.length = (size_t)v11;
            v24 = kd_wire_delivered_write_record(v33, v34, v36);
            v4 = v4 + v24;
            v6 = v6 + UINT32_C(1);
        } else {
            bool v37 = kd_node_slots_Slot_late(v8, v9);
            if (v37) {
                struct kosmydore_slot v38 = kd_node_slots_Slot_dropped(v8);
                uint64_t v39 = v7 * UINT64_C(32);
                uint8_t *v40 = (uint8_t *)&((struct kosmydore_node *)(void *)v1)->slots;
                uint8_t *v41 = v40 + (size_t)v39;
                *(struct kosmydore_slot *)(void *)v41 = v38;
                v5 = v5 + UINT32_C(1);
            } else {
                bool v42 = kd_node_slots_Slot_hold_over(v8, v9);
                if (v42) {
                    struct kosmydore_slot v43 = kd_node_slots_Slot_hold_ended(v8);
                    uint64_t v44 = v7 * UINT64_C(32);
                    uint8_t *v45 = (uint8_t *)&((struct kosmydore_node *)(void *)v1)->slots;
                    uint8_t *v46 = v45 + (size_t)v44;
                    *(struct kosmydore_slot *)(void *)v46 = v43;
                }
            }
        }
        v7 = v7 + UINT64_C(1);
    }
    struct kd_node_Ticked v47;
    v47.f0 = v4;
    v47.f1 = v5;
    v47.f2 = v6;
    v0.tag = 0u;
    v0.of0 = v47;
    return v0;
}

/* firmware::calls::kosmydore_tick */
struct kosmydore_ticked kosmydore_tick(struct kosmydore_node node, uint8_t *output, size_t output_length)
{
    struct kd_slice v2 = {output, output_length};
    struct kosmydore_ticked v0;
    struct kosmydore_node v3;
    struct kd_Result_Ticked_Reply v4;

    v3 = node;
    uint8_t *v8 = (uint8_t *)&v3;
    uint8_t *v9 = v2.at;
    struct kd_slice v10;
    v10.at = v9;
    v10.length = (size_t)(uint64_t)v2.length;
    struct kd_Result_Ticked_Reply v7 = kd_node_Node_tick(v8, v10);
    v4 = v7;
    uint8_t *v11 = (uint8_t *)&v4;
    uint32_t v5 = kd_answers_number_of_Ticked(v11);
    v7 = v4;
    struct kd_node_Ticked v12;
    v12.f0 = UINT64_C(0);
    v12.f1 = UINT32_C(0);
    v12.f2 = UINT32_C(0);
    struct kd_node_Ticked v6 = kd_Result_unwrap_or_Ticked_Reply(v7, v12);
    struct kosmydore_node v13 = v3;
    v0.node = v13;
    v0.reply = v5;
    v0.dropped = v6.f1;
    v0.delivered = v6.f2;
    v0.written = (size_t)v6.f0;
    return v0;
}

/* node::Node::request */
KD_STATIC struct kd_Result_unit_Reply kd_node_Node_request(uint8_t *v1, uint32_t v2, struct kd_slice v3)
{
    struct kd_Result_unit_Reply v0;
    uint64_t v18;

    uint64_t v10 = (uint64_t)v3.length;
    bool v11 = UINT64_C(8) < v10;
    if (v11) {
        uint8_t v12 = 10u;
        v0.tag = 1u;
        v0.of1 = v12;
        return v0;
    }
    uint8_t *v16 = v1;
    struct kd_Option_u64 v15 = kd_node_Node_place_of(v16, v2);
    uint8_t v17 = 9u;
    struct kd_Result_u64_Reply v14 = kd_Option_ok_or_u64_Reply(v15, v17);
    struct kd_ControlFlow_ErrResidual_Reply_u64 v13 = kd_ResultTry_branch_u64_Reply(v14);
    switch (v13.tag) {
    case 0: {
        uint64_t v5 = v13.of0;
        v18 = v5;
        break;
    }
    default: /* no other number is reached */
    case 1: {
        uint8_t v6 = v13.of1;
        v0 = kd_ResultFromResidualErrResidual_from_residual_unit_Reply_Reply(v6);
        return v0;
    }
    }
    uint64_t v4 = v18;
    v10 = v4 * UINT64_C(32);
    uint8_t *v19 = (uint8_t *)&((struct kosmydore_node *)(void *)v1)->slots;
    uint8_t *v20 = v19 + (size_t)v10;
    struct kosmydore_slot v21 = *(struct kosmydore_slot *)(void *)v20;
    struct kosmydore_slot v7 = v21;
    struct kd_Result_unit_Reply v23 = kd_node_slots_Slot_check_request(v7);
    struct kd_ControlFlow_ErrResidual_Reply_unit v22 = kd_ResultTry_branch_unit_Reply(v23);
    switch (v22.tag) {
    case 0: {
        break;
    }
    default: /* no other number is reached */
    case 1: {
        uint8_t v9 = v22.of1;
        v0 = kd_ResultFromResidualErrResidual_from_residual_unit_Reply_Reply(v9);
        return v0;
    }
    }
    uint16_t v24 = ((struct kosmydore_node *)(void *)v1)->counter;
    v21 = kd_node_slots_Slot_requested(v7, v24, v3);
    v10 = v4 * UINT64_C(32);
    uint8_t *v25 = (uint8_t *)&((struct kosmydore_node *)(void *)v1)->slots;
    uint8_t *v26 = v25 + (size_t)v10;
    *(struct kosmydore_slot *)(void *)v26 = v21;
    v0.tag = 0u;
    return v0;
}

/* firmware::calls::kosmydore_request */
struct kosmydore_answered kosmydore_request(struct kosmydore_node node, uint32_t stream, const uint8_t *payload,
    size_t payload_length)
{
    struct kd_slice v3 = {(uint8_t *)payload, payload_length};
    struct kosmydore_answered v0;
    struct kosmydore_node v4;
    struct kd_Result_unit_Reply v5;

    v4 = node;
    uint8_t *v8 = (uint8_t *)&v4;
    uint32_t v9 = stream;
    struct kd_Result_unit_Reply v7 = kd_node_Node_request(v8, v9, v3);
    v5 = v7;
    uint8_t *v10 = (uint8_t *)&v5;
    uint32_t v6 = kd_answers_number_of_unit(v10);
    struct kosmydore_node v11 = v4;
    v0.node = v11;
    v0.reply = v6;
    return v0;
}

/* node::fn::Node::place_of_frame::position */
KD_SMALL bool kd_node_fn_Node_place_of_frame_position(uint8_t *v2)
{
    bool v0;

    struct kosmydore_slot v3 = *(struct kosmydore_slot *)(void *)v2;
    v0 = kd_node_slots_Slot_has_frame(v3);
    return v0;
}

/* node::fn::Node::place_of_frame::position+FnMut::call_mut */
KD_SMALL bool kd_node_fn_Node_place_of_frame_position_FnMut_call_mut(uint8_t *v2)
{
    bool v0;

    v0 = kd_node_fn_Node_place_of_frame_position(v2);
    return v0;
}

/* core::iter::base::Iterator::position<core::iter::slices::Iter<node::slots::Slot>,&node::slots::Slot,node::fn::Node::place_of_frame::position+Self> */
KD_STATIC struct kd_Option_u64 kd_Iterator_position_Iter_Slot_ref_Slot_position_Self_1bb7b6b7(uint8_t *v1)
{
    struct kd_Option_u64 v0;

    uint64_t v4 = UINT64_C(0);
    for (;;) {
        uint8_t *v7 = v1;
        struct kd_Option_ref_Slot v6 = kd_IterIterator_next_Slot(v7);
        if (v6.tag == 1u) {
            uint8_t *v5 = v6.of1;
            uint8_t *v10 = v5;
            bool v8 = kd_node_fn_Node_place_of_frame_position_FnMut_call_mut(v10);
            if (v8) {
                v0.tag = 1u;
                v0.of1 = v4;
                /* v12 is not read */
                return v0;
            }
            v4 = v4 + UINT64_C(1);
        } else { /* no other number is reached */
            break;
        }
    }
    v0.tag = 0u;
    /* v12 is not read */
    return v0;
}

/* node::Node::place_of_frame */
KD_SMALL struct kd_Option_u64 kd_node_Node_place_of_frame(uint8_t *v1)
{
    struct kd_Option_u64 v0;
    struct kd_slice v5;

    uint8_t *v3 = (uint8_t *)&((struct kosmydore_node *)(void *)v1)->slots;
    struct kd_slice v4;
    v4.at = v3;
    v4.length = (size_t)UINT64_C(32);
    struct kd_slice v2 = kd_slice_T_iter_Slot(v4);
    v5 = v2;
    uint8_t *v6 = (uint8_t *)&v5;
    v0 = kd_Iterator_position_Iter_Slot_ref_Slot_position_Self_1bb7b6b7(v6);
    return v0;
}

/* node::Node::next_frame */
KD_STATIC struct kd_Result_Given_Reply kd_node_Node_next_frame(uint8_t *v1, struct kd_slice v2)
{
    struct kd_Result_Given_Reply v0;
    uint64_t v20;
    uint32_t v27;

    uint64_t v12 = (uint64_t)v2.length;
    bool v13 = v12 < UINT64_C(8);
    if (v13) {
        uint8_t v14 = 11u;
        v0.tag = 1u;
        v0.of1 = v14;
        return v0;
    }
    uint8_t *v18 = v1;
    struct kd_Option_u64 v17 = kd_node_Node_place_of_frame(v18);
    uint8_t v19 = 12u;
    struct kd_Result_u64_Reply v16 = kd_Option_ok_or_u64_Reply(v17, v19);
    struct kd_ControlFlow_ErrResidual_Reply_u64 v15 = kd_ResultTry_branch_u64_Reply(v16);
    switch (v15.tag) {
    case 0: {
        uint64_t v4 = v15.of0;
        v20 = v4;
        break;
    }
    default: /* no other number is reached */
    case 1: {
        uint8_t v5 = v15.of1;
        v0 = kd_ResultFromResidualErrResidual_from_residual_Given_R_bdc4252a(v5);
        return v0;
    }
    }
    uint64_t v3 = v20;
    v12 = v3 * UINT64_C(32);
    uint8_t *v21 = (uint8_t *)&((struct kosmydore_node *)(void *)v1)->slots;
    uint8_t *v22 = v21 + (size_t)v12;
    struct kosmydore_slot v23 = *(struct kosmydore_slot *)(void *)v22;
    struct kosmydore_slot v6 = v23;
    uint32_t v7 = kd_node_slots_Slot_lowest_code(v6);
    uint32_t v26 = v6.stream;
    struct kd_Result_BusId_Reply v25 = kd_wire_ids_Stream_join(v26, v7);
    struct kd_ControlFlow_ErrResidual_Reply_BusId v24 = kd_ResultTry_branch_BusId_Reply(v25);
    switch (v24.tag) {
    case 0: {
        uint32_t v9 = v24.of0;
        v27 = v9;
        break;
    }
    default: /* no other number is reached */
    case 1: {
        uint8_t v10 = v24.of1;
        v0 = kd_ResultFromResidualErrResidual_from_residual_Given_R_bdc4252a(v10);
        return v0;
    }
    }
    uint32_t v8 = v27;
    uint8_t *v28 = v2.at;
    struct kd_slice v29;
    v29.at = v28;
    v29.length = (size_t)(uint64_t)v2.length;
    uint64_t v11 = kd_node_next_frame_give_payload(v29, v6, v7);
    v23 = kd_node_slots_Slot_given_out(v6, v7);
    v12 = v3 * UINT64_C(32);
    uint8_t *v30 = (uint8_t *)&((struct kosmydore_node *)(void *)v1)->slots;
    uint8_t *v31 = v30 + (size_t)v12;
    *(struct kosmydore_slot *)(void *)v31 = v23;
    struct kd_node_Given v32;
    v32.f0 = v8;
    v32.f1 = v11;
    v0.tag = 0u;
    v0.of0 = v32;
    return v0;
}

/* firmware::calls::kosmydore_next_frame */
struct kosmydore_given kosmydore_next_frame(struct kosmydore_node node, uint8_t *output, size_t output_length)
{
    struct kd_slice v2 = {output, output_length};
    struct kosmydore_given v0;
    struct kosmydore_node v3;
    struct kd_Result_Given_Reply v4;

    v3 = node;
    uint8_t *v8 = (uint8_t *)&v3;
    uint8_t *v9 = v2.at;
    struct kd_slice v10;
    v10.at = v9;
    v10.length = (size_t)(uint64_t)v2.length;
    struct kd_Result_Given_Reply v7 = kd_node_Node_next_frame(v8, v10);
    v4 = v7;
    uint8_t *v11 = (uint8_t *)&v4;
    uint32_t v5 = kd_answers_number_of_Given(v11);
    v7 = v4;
    uint32_t v12 = UINT32_C(0);
    struct kd_node_Given v13;
    v13.f0 = v12;
    v13.f1 = UINT64_C(0);
    struct kd_node_Given v6 = kd_Result_unwrap_or_Given_Reply(v7, v13);
    struct kosmydore_node v14 = v3;
    v0.node = v14;
    v0.reply = v5;
    v0.id = v6.f0;
    v0.length = (size_t)v6.f1;
    return v0;
}
