/* mvs_svc.h: the supervisor calls of MVS for storage and tasks, from the registers and parameter lists of the emulated program.
 *
 * This header is not proved: it is a translation into mvs_request and mvs_list. The meaning of each bit is from memory, as no manual
 * was at hand: compare it with the macro expansions of your system. Tested with the programs of examples/s390.
 *
 * An emulator calls mvs_svc where a task executes SVC. It gives the general
 * registers, and two functions that read and write the storage of the program. The result says what the emulator does next.
 *
 *   SVC 3    EXIT      the task ends
 *   SVC 4    GETMAIN   E, V and L: register 1 has the address of a parameter list
 *   SVC 5    FREEMAIN  the same
 *   SVC 10   GETMAIN, FREEMAIN R: register 0 has the subpool in bits 0-7 and the length in bits 8-31, register 1 is negative for
 *            GETMAIN, and else has the address; length 0 releases the whole subpool
 *   SVC 13   ABEND     register 1 has the user code in bits 20-31, or the system code in bits 8-19
 *   SVC 120  GETMAIN, FREEMAIN RC, RU, VRC, VRU: register 15 has the subpool in bits 16-23 and flags in bits 24-31
 *
 * SVC 42 (ATTACH) has a parameter list with the subpools in lists of their own: mvs_svc_attach makes the request of its fields.
 */
#ifndef MVS_SVC_H
#define MVS_SVC_H

#include <mvs.h>

#ifdef __cplusplus
extern "C" {
#endif

/* The storage of the emulated program: functions that copy bytes, and return whether the program may access them. */
typedef struct mvs_svc_memory {
    void *data;
    bool (*read)(void *data, uint32_t address, uint8_t *out, size_t length);
    bool (*write)(void *data, uint32_t address, const uint8_t *bytes, size_t length);
} mvs_svc_memory;

typedef enum mvs_svc_result {
    MVS_SVC_CONTINUES = 1, /* the registers are set, and the task continues */
    MVS_SVC_ENDED = 2,     /* the task has ended: event.kind is MVS_EVENT_ENDED or MVS_EVENT_ABENDED */
    MVS_SVC_PROTECTION = 3, /* a parameter list cannot be accessed: the task ends with 0C4 */
    MVS_SVC_UNKNOWN = 4,   /* the number or a parameter is none of those above */
    MVS_SVC_FAILED = 5     /* the status of the call says why */
} mvs_svc_result;

/* Who makes a call, and what it returns. */
typedef struct mvs_svc_call {
    mvs_session *session;
    const mvs_svc_memory *memory;
    uint32_t *registers; /* 16 */
    uint8_t task[8];
    uint32_t status;     /* of the call of mvs.h that was made last */
    mvs_event event;
} mvs_svc_call;

/* Option byte of the parameter list of SVC 4 and 5 (from memory). */
enum {
    MVS_SVC_FORM_MASK = 0xE0,
    MVS_SVC_FORM_EU = 0x00,
    MVS_SVC_FORM_EC = 0x20,
    MVS_SVC_FORM_LU = 0x80,
    MVS_SVC_FORM_LC = 0xA0,
    MVS_SVC_FORM_VU = 0xC0,
    MVS_SVC_FORM_VC = 0xE0,
    MVS_SVC_PAGE = 0x10 /* BNDRY=PAGE */
};

/* Flags of SVC 120, bits 24-31 of register 15 (from memory). */
enum {
    MVS_SVC_120_FREE = 0x01,
    MVS_SVC_120_UNCONDITIONAL = 0x02,
    MVS_SVC_120_PAGE = 0x04,
    MVS_SVC_120_VARIABLE = 0x08,
    MVS_SVC_120_BELOW = 0x10,
    MVS_SVC_120_ANY = 0x20
};

static inline uint32_t mvs_svc_word(const uint8_t *at) {
    return (uint32_t)at[0] << 24 | (uint32_t)at[1] << 16 | (uint32_t)at[2] << 8 | at[3];
}

static inline void mvs_svc_put_word(uint8_t *at, uint32_t word) {
    at[0] = (uint8_t)(word >> 24), at[1] = (uint8_t)(word >> 16), at[2] = (uint8_t)(word >> 8), at[3] = (uint8_t)word;
}

/* Reads, and writes, a word of the program's storage, whose address has 31 bits. */
static inline bool mvs_svc_read(const mvs_svc_call *call, uint32_t address, uint32_t *word) {
    uint8_t bytes[4];
    if (!call->memory->read(call->memory->data, address & 0x7FFFFFFF, bytes, 4)) return false;
    *word = mvs_svc_word(bytes);
    return true;
}

static inline bool mvs_svc_write(const mvs_svc_call *call, uint32_t address, uint32_t word) {
    uint8_t bytes[4];
    mvs_svc_put_word(bytes, word);
    return call->memory->write(call->memory->data, address & 0x7FFFFFFF, bytes, 4);
}

static inline mvs_ask mvs_svc_ask(const mvs_svc_call *call, uint32_t kind, uint32_t form, uint32_t subpool) {
    mvs_ask ask;
    memset(&ask, 0, sizeof ask);
    ask.size = sizeof ask;
    ask.kind = kind;
    ask.form = form;
    ask.subpool = subpool;
    memcpy(ask.task, call->task, 8);
    return ask;
}

/* Sets register 15 by the reply, and says how the task goes on. */
static inline mvs_svc_result mvs_svc_answer(mvs_svc_call *call) {
    if (call->status != MVS_STATUS_OK) return MVS_SVC_FAILED;
    switch (call->event.kind) {
    case MVS_EVENT_GRANTED:
    case MVS_EVENT_RC_0: call->registers[15] = 0; return MVS_SVC_CONTINUES;
    case MVS_EVENT_RC_4: call->registers[15] = 4; return MVS_SVC_CONTINUES;
    case MVS_EVENT_ATTACHED:
    case MVS_EVENT_DONE: return MVS_SVC_CONTINUES;
    case MVS_EVENT_ENDED:
    case MVS_EVENT_ABENDED: return MVS_SVC_ENDED;
    default: return MVS_SVC_FAILED;
    }
}

static inline mvs_svc_result mvs_svc_request(mvs_svc_call *call, const mvs_ask *ask) {
    call->event.size = sizeof call->event;
    call->status = mvs_request(call->session, ask, &call->event);
    return mvs_svc_answer(call);
}

/* Ends the task with a protection exception, as an access does to bytes that are not obtained: 0C4. */
static inline mvs_svc_result mvs_svc_protection(mvs_svc_call *call, uint32_t address) {
    mvs_ask ask = mvs_svc_ask(call, MVS_ASK_SHOW, 0, 0);
    ask.address = address & 0x7FFFFFFF;
    ask.length = 1;
    return mvs_svc_request(call, &ask) == MVS_SVC_ENDED ? MVS_SVC_ENDED : MVS_SVC_PROTECTION;
}

/* SVC 10. The low bytes of register 0 have the length; the address of a grant goes to register 1. */
static inline mvs_svc_result mvs_svc_register_form(mvs_svc_call *call) {
    uint32_t *r = call->registers, subpool = r[0] >> 24, length = r[0] & 0xFFFFFF;
    bool obtains = r[1] >> 31 != 0;
    mvs_ask ask = mvs_svc_ask(call, obtains ? MVS_ASK_OBTAIN : length ? MVS_ASK_RELEASE : MVS_ASK_RELEASE_WHOLE, MVS_FORM_R, subpool);
    ask.length = length;
    ask.address = obtains ? 0 : r[1] & 0x7FFFFFFF;
    mvs_svc_result result = mvs_svc_request(call, &ask);
    if (obtains && result == MVS_SVC_CONTINUES) r[1] = call->event.address;
    return result;
}

/* SVC 120. Register 0 has the length, of a variable request the greatest, and register 1 the least, or the address. */
static inline mvs_svc_result mvs_svc_register_120(mvs_svc_call *call) {
    uint32_t *r = call->registers, flags = r[15] & 0xFF, subpool = r[15] >> 8 & 0xFF;
    bool frees = flags & MVS_SVC_120_FREE, varies = flags & MVS_SVC_120_VARIABLE, must = flags & MVS_SVC_120_UNCONDITIONAL;
    uint32_t form = varies && !frees ? (must ? MVS_FORM_VRU : MVS_FORM_VRC) : (must ? MVS_FORM_RU : MVS_FORM_RC);
    mvs_ask ask = mvs_svc_ask(call, !frees ? MVS_ASK_OBTAIN : r[0] ? MVS_ASK_RELEASE : MVS_ASK_RELEASE_WHOLE, form, subpool);
    ask.length = r[0];
    if (frees) {
        ask.address = r[1] & 0x7FFFFFFF;
        return mvs_svc_request(call, &ask);
    }
    if (varies) ask.least = r[1];
    if (flags & MVS_SVC_120_PAGE) ask.boundary = 12;
    if (flags & MVS_SVC_120_BELOW) ask.location = MVS_LOCATION_BELOW;
    if (flags & MVS_SVC_120_ANY) ask.location = MVS_LOCATION_ANY;
    mvs_svc_result result = mvs_svc_request(call, &ask);
    if (result == MVS_SVC_CONTINUES && call->event.kind == MVS_EVENT_GRANTED) {
        r[1] = call->event.address;
        if (varies) r[0] = call->event.length;
    }
    return result;
}

/* The lists of SVC 4 and 5 for LC and LU: at `lengths` words with lengths, the last of which has bit 0; at `addresses` words for the
 * addresses of the areas. */
static inline mvs_svc_result mvs_svc_list(mvs_svc_call *call, mvs_ask ask, uint32_t lengths, uint32_t addresses) {
    mvs_area areas[16];
    uint32_t count = 0, word = 0, i;
    do {
        if (count == 16) return MVS_SVC_UNKNOWN;
        if (!mvs_svc_read(call, lengths + 4 * count, &word)) return mvs_svc_protection(call, lengths + 4 * count);
        areas[count].length = word & 0x7FFFFFFF;
        areas[count].address = 0;
        if (ask.kind == MVS_ASK_RELEASE) {
            if (!mvs_svc_read(call, addresses + 4 * count, &areas[count].address)) return mvs_svc_protection(call, addresses + 4 * count);
            areas[count].address &= 0x7FFFFFFF;
        }
        count++;
    } while (!(word >> 31));
    call->event.size = sizeof call->event;
    call->status = mvs_list(call->session, &ask, areas, count, &call->event);
    mvs_svc_result result = mvs_svc_answer(call);
    if (ask.kind != MVS_ASK_OBTAIN || result != MVS_SVC_CONTINUES || call->event.kind != MVS_EVENT_RC_0) return result;
    for (i = 0; i < count; i++)
        if (!mvs_svc_write(call, addresses + 4 * i, areas[i].address)) return mvs_svc_protection(call, addresses + 4 * i);
    return result;
}

/* SVC 4. The parameter list has the length or the address of lengths, the address of the field for the address, the option byte and
 * the subpool. Of VC and VU the lengths are the least and the greatest, and the field has room for the address and the length. */
static inline mvs_svc_result mvs_svc_obtain(mvs_svc_call *call, uint32_t first, uint32_t field, mvs_ask ask) {
    mvs_svc_result result;
    ask.length = first & 0x7FFFFFFF;
    if (ask.form == MVS_FORM_VC || ask.form == MVS_FORM_VU) {
        if (!mvs_svc_read(call, first, &ask.least)) return mvs_svc_protection(call, first);
        if (!mvs_svc_read(call, first + 4, &ask.length)) return mvs_svc_protection(call, first + 4);
    }
    result = mvs_svc_request(call, &ask);
    if (result != MVS_SVC_CONTINUES || call->event.kind != MVS_EVENT_GRANTED) return result;
    if (!mvs_svc_write(call, field, call->event.address)) return mvs_svc_protection(call, field);
    if (!ask.least) return result;
    return mvs_svc_write(call, field + 4, call->event.length) ? result : mvs_svc_protection(call, field + 4);
}

/* SVC 5: the field has the address, and of VC and VU the length after it. */
static inline mvs_svc_result mvs_svc_release(mvs_svc_call *call, uint32_t first, uint32_t field, mvs_ask ask) {
    ask.length = first & 0x7FFFFFFF;
    if (!mvs_svc_read(call, field, &ask.address)) return mvs_svc_protection(call, field);
    ask.address &= 0x7FFFFFFF;
    if ((ask.form == MVS_FORM_VC || ask.form == MVS_FORM_VU) && !mvs_svc_read(call, field + 4, &ask.length))
        return mvs_svc_protection(call, field + 4);
    return mvs_svc_request(call, &ask);
}

/* SVC 4 and 5: reads the parameter list at register 1. */
static inline mvs_svc_result mvs_svc_list_form(mvs_svc_call *call, uint32_t kind) {
    uint8_t list[10];
    uint32_t address = call->registers[1] & 0x7FFFFFFF, form, first, field;
    if (!call->memory->read(call->memory->data, address, list, sizeof list)) return mvs_svc_protection(call, address);
    first = mvs_svc_word(list), field = mvs_svc_word(list + 4);
    switch (list[8] & MVS_SVC_FORM_MASK) {
    case MVS_SVC_FORM_EU: form = MVS_FORM_EU; break;
    case MVS_SVC_FORM_EC: form = MVS_FORM_EC; break;
    case MVS_SVC_FORM_LU: form = MVS_FORM_LU; break;
    case MVS_SVC_FORM_LC: form = MVS_FORM_LC; break;
    case MVS_SVC_FORM_VU: form = MVS_FORM_VU; break;
    case MVS_SVC_FORM_VC: form = MVS_FORM_VC; break;
    default: return MVS_SVC_UNKNOWN;
    }
    mvs_ask ask = mvs_svc_ask(call, kind, form, list[9]);
    if (kind == MVS_ASK_OBTAIN && list[8] & MVS_SVC_PAGE) ask.boundary = 12;
    if (form == MVS_FORM_LC || form == MVS_FORM_LU) return mvs_svc_list(call, ask, first, field);
    return kind == MVS_ASK_OBTAIN ? mvs_svc_obtain(call, first, field, ask) : mvs_svc_release(call, first, field, ask);
}

/* SVC 13. */
static inline mvs_svc_result mvs_svc_abend(mvs_svc_call *call) {
    uint32_t system = call->registers[1] >> 12 & 0xFFF, user = call->registers[1] & 0xFFF;
    mvs_ask ask = mvs_svc_ask(call, system ? MVS_ASK_SYSTEM_ABEND : MVS_ASK_ABEND, 0, 0);
    ask.code = system ? system : user;
    return mvs_svc_request(call, &ask);
}

/* Makes the request of ATTACH for a subtask: given and shared have a bit for each subpool number, 1 to 127, the lower 64 first. */
static inline mvs_svc_result mvs_svc_attach(mvs_svc_call *call, const uint8_t subtask[8], const uint64_t given[2], const uint64_t shared[2], bool shares_zero) {
    mvs_ask ask = mvs_svc_ask(call, MVS_ASK_ATTACH, 0, 0);
    memcpy(ask.name, subtask, 8);
    ask.given_low = given[0], ask.given_high = given[1];
    ask.shared_low = shared[0], ask.shared_high = shared[1];
    ask.keeps_zero = !shares_zero;
    return mvs_svc_request(call, &ask);
}

/* Executes a supervisor call of call->task. */
static inline mvs_svc_result mvs_svc(mvs_svc_call *call, uint32_t number) {
    mvs_ask ask;
    switch (number) {
    case 3: ask = mvs_svc_ask(call, MVS_ASK_RETURN, 0, 0); return mvs_svc_request(call, &ask);
    case 4: return mvs_svc_list_form(call, MVS_ASK_OBTAIN);
    case 5: return mvs_svc_list_form(call, MVS_ASK_RELEASE);
    case 10: return mvs_svc_register_form(call);
    case 13: return mvs_svc_abend(call);
    case 120: return mvs_svc_register_120(call);
    default: return MVS_SVC_UNKNOWN;
    }
}

#ifdef __cplusplus
}
#endif

#endif
