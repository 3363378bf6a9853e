/* calls WHAT COUNT: makes some calls of the library COUNT times. bench/library counts their instructions. */
#include <mvs.h>

#include <stdlib.h>

static mvs_session session = MVS_SESSION_INIT;
static mvs_event event = MVS_EVENT_INIT;
static mvs_ask obtain = {sizeof(mvs_ask), MVS_ASK_OBTAIN, MVS_FORM_RC, 0, 64}, release = {sizeof(mvs_ask), MVS_ASK_RELEASE, MVS_FORM_RC, 0, 64};
static uint32_t held;

static void pair(void) {
    mvs_request(&session, &obtain, &event);
    release.address = event.address;
    if (mvs_request(&session, &release, &event) != MVS_STATUS_OK || event.kind != MVS_EVENT_RC_0) exit(2);
}

static void lines(void) {
    mvs_execute(&session, "JOB GETMAIN RC,LV=64,A=X", &event);
    if (mvs_execute(&session, "JOB FREEMAIN RC,LV=64,A=X", &event) != MVS_STATUS_OK || event.kind != MVS_EVENT_RC_0) exit(2);
}

static void refused(void) {
    static const mvs_ask none = {sizeof(mvs_ask), MVS_ASK_OBTAIN, MVS_FORM_RC, 0, 0};
    if (mvs_request(&session, &none, &event) != MVS_STATUS_NO_REQUEST) exit(2);
}

static void reads(void) {
    uint8_t bytes[4];
    if (mvs_read(&session, held, bytes, sizeof bytes) != MVS_STATUS_OK) exit(2);
}

static void writes(void) {
    static const uint8_t bytes[4] = {0};
    if (mvs_write(&session, held, bytes, sizeof bytes) != MVS_STATUS_OK) exit(2);
}

int main(int count, char **words) {
    static const struct { const char *name; void (*make)(void); uint32_t pages; bool holds; } calls[] = {
        {"pair", pair, 64, false}, {"pair of many", pair, 2048, false}, {"lines", lines, 64, false},
        {"refused", refused, 64, false}, {"read", reads, 64, true}, {"write", writes, 64, true}};
    mvs_region region = {sizeof region, 0, 0, 0, false, "JOB"};
    size_t which = 0;
    long n;
    if (count != 3) return 1;
    while (strcmp(calls[which].name, words[1])) which++;
    region.below = calls[which].pages;
    mvs_name(obtain.task, "JOB"), mvs_name(release.task, "JOB");
    if (mvs_new(&session, MVS_PLACE_LOW) || mvs_begin(&session, &region, &event)) return 1;
    if (calls[which].holds && mvs_request(&session, &obtain, &event) != MVS_STATUS_OK) return 1;
    held = event.address;
    for (n = atol(words[2]); n > 0; n--) calls[which].make();
    mvs_free(&session);
    return 0;
}
