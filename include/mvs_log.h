/* mvs_log.h: requests by values as statements, so that the log of an emulator is a script: mvsjob explains, draws and judges it.
 *
 * The library writes the statement: mvs_statement, and mvs_list_statement of a list. What this header adds, which is not proved, is a
 * shorter statement of a list for which the library has no room: its addresses have no leading zeros, and what is as without an operand
 * is left out. Tests compare the replies to such statements with those to the requests.
 *
 *     mvs_request(&session, &ask, &event);
 *     if (mvs_log(&ask, NULL, 0, &event, line, sizeof line)) fprintf(log, "%s\n", line);
 *
 * An area or a cell that is granted gets a name of its address, as A0006000. A release by VC or VU is written as one by EC or EU,
 * which has the same replies, since the statement of VC takes a name only. An abend with a system code is written as one with the user
 * code of the same number, since statements have no system codes.
 */
#ifndef MVS_LOG_H
#define MVS_LOG_H

#include <mvs.h>

#include <inttypes.h>
#include <stdarg.h>
#include <stdio.h>

#ifdef __cplusplus
extern "C" {
#endif

/* The most bytes of a statement, with the zero byte at its end. */
#define MVS_LOG_LINE ((size_t)256)

/* A line that is written, and whether it has room. */
typedef struct mvs_log_text {
    char *at;
    size_t room, used;
    bool is_full;
} mvs_log_text;

static inline void mvs_log_put(mvs_log_text *text, const char *format, ...) {
    va_list arguments;
    va_start(arguments, format);
    int length = vsnprintf(text->at + text->used, text->room - text->used, format, arguments);
    va_end(arguments);
    if (length < 0 || (size_t)length >= text->room - text->used) text->is_full = true;
    else text->used += (size_t)length;
}

/* The name of an area at an address. */
static inline void mvs_log_area(mvs_log_text *text, uint32_t address) {
    mvs_log_put(text, "A%07" PRIX32, address & 0xFFFFFFF);
}

static inline void mvs_log_name(mvs_log_text *text, const uint8_t name[8]) {
    int length = 0;
    while (length < 8 && name[length] && name[length] != ' ') length++;
    mvs_log_put(text, "%.*s", length, (const char *)name);
}

/* GETMAIN and FREEMAIN LC and LU, in fewer bytes. The areas are those after the request. Where they were not granted, each gets another
 * name. */
static inline void mvs_log_long_list(mvs_log_text *text, const mvs_ask *ask, const mvs_area *areas, size_t count, const mvs_event *event) {
    bool obtains = ask->kind == MVS_ASK_OBTAIN;
    size_t i;
    mvs_log_name(text, ask->task);
    mvs_log_put(text, " %s %s,SP=%" PRIu32 ",LA=(", obtains ? "GETMAIN" : "FREEMAIN", ask->form == MVS_FORM_LC ? "LC" : "LU", ask->subpool);
    for (i = 0; i < count; i++) mvs_log_put(text, "%s%" PRIu32, i ? "," : "", areas[i].length);
    mvs_log_put(text, "),A=(");
    for (i = 0; i < count; i++) {
        mvs_log_put(text, i ? "," : "");
        if (obtains) mvs_log_area(text, event->kind == MVS_EVENT_RC_0 ? areas[i].address : (uint32_t)i);
        else mvs_log_put(text, "X'%" PRIX32 "'", areas[i].address);
    }
    mvs_log_put(text, ")");
    if (obtains && ask->boundary == 12) mvs_log_put(text, ",BNDRY=PAGE");
}

/* Writes the statement of a request that was served, with a zero byte at its end, and returns its length. count is 0 if it is no list.
 * Returns 0 if the statement is too long or has no room, or if the request is none. */
static inline size_t mvs_log(const mvs_ask *ask, const mvs_area *areas, size_t count, const mvs_event *event, char *out, size_t room) {
    mvs_log_text text = { out, room < MVS_LOG_LINE ? room : MVS_LOG_LINE, 0, room == 0 };
    if (text.is_full) return 0;
    if (!count) {
        if (mvs_statement(ask, event, out, text.room - 1, &text.used) != MVS_STATUS_OK) return 0;
        out[text.used] = 0;
        return text.used;
    }
    if (mvs_list_statement(ask, areas, count, out, text.room - 1, &text.used) == MVS_STATUS_OK) {
        out[text.used] = 0;
        return text.used;
    }
    text.used = 0;
    mvs_log_long_list(&text, ask, areas, count, event);
    return text.is_full ? 0 : text.used;
}

#ifdef __cplusplus
}
#endif

#endif
