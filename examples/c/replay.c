/* replay.c: runs the script on standard input and prints what mvsjob prints; the exit status is the job's.
 * Line by line through a session; with the word `whole` in one call. */
#include <mvs.h>

#include <stdio.h>
#include <stdlib.h>
#include <string.h>

static char *text;
static size_t room;

/* Makes room for this number of bytes. */
static int make_room(size_t wanted) {
    char *more = calloc(wanted, 1);
    if (!more) return 0;
    free(text);
    text = more;
    room = wanted;
    return 1;
}

/* Prints the reply to the last line. */
static int print_last(mvs_session *session) {
    size_t wanted = 0;
    uint32_t status = mvs_text(session, text, room, &wanted);
    if (status == MVS_STATUS_TOO_SMALL && make_room(wanted)) status = mvs_text(session, text, room, &wanted);
    return status == MVS_STATUS_OK && fwrite(text, 1, wanted, stdout) == wanted;
}

static uint32_t run_lines(const char *script, size_t length) {
    mvs_session session = MVS_SESSION_INIT;
    mvs_event event = MVS_EVENT_INIT;
    const char *at = script, *end = script + length;
    uint32_t status = mvs_new(&session, MVS_PLACE_LOW);
    while (status == MVS_STATUS_OK && at < end) {
        const char *feed = memchr(at, '\n', (size_t)(end - at));
        const char *stop = feed ? feed : end;
        status = mvs_line(&session, at, (size_t)(stop - at), &event);
        if (!print_last(&session)) status = MVS_STATUS_NO_MEMORY;
        at = feed ? feed + 1 : end;
    }
    if (status == MVS_STATUS_OK) {
        status = mvs_end(&session, &event);
        if (!print_last(&session)) status = MVS_STATUS_NO_MEMORY;
    }
    mvs_free(&session);
    return status;
}

static uint32_t run_whole(const char *script, size_t length) {
    size_t wanted = 0;
    uint32_t status = mvs_run(MVS_PLACE_LOW, script, length, text, room, &wanted);
    if (status == MVS_STATUS_TOO_SMALL && make_room(wanted)) status = mvs_run(MVS_PLACE_LOW, script, length, text, room, &wanted);
    if (status < MVS_STATUS_NO_MEMORY && fwrite(text, 1, wanted, stdout) != wanted) status = MVS_STATUS_NO_MEMORY;
    return status;
}

int main(int count, char **words) {
    static char script[16777217];
    size_t length = fread(script, 1, sizeof script, stdin);
    int whole = count > 1 && strcmp(words[1], "whole") == 0;
    if (!make_room(16)) return MVS_STATUS_NO_MEMORY;
    uint32_t status = whole ? run_whole(script, length) : run_lines(script, length);
    free(text);
    return (int)status;
}
