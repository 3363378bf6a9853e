/* refused.c: what the functions of mvs.h answer where malloc and realloc refuse. It is linked with --wrap for these two. The exit
 * status is the number of the first check that fails, or 0. */
#include <mvs.h>

#include <stdlib.h>
#include <string.h>

/* How many calls are granted yet. */
static long granted;

void *__real_malloc(size_t size);
void *__real_realloc(void *block, size_t size);
void *__wrap_malloc(size_t size);
void *__wrap_realloc(void *block, size_t size);

void *__wrap_malloc(size_t size) {
    return granted-- > 0 ? __real_malloc(size) : NULL;
}

void *__wrap_realloc(void *block, size_t size) {
    return granted-- > 0 ? __real_realloc(block, size) : NULL;
}

static mvs_session session = MVS_SESSION_INIT;
static mvs_event event = MVS_EVENT_INIT;

static uint32_t line(const char *text) {
    return mvs_line(&session, text, strlen(text), &event);
}

/* A session that is refused, and one whose step is. Each leaves what the header says. */
static int beginning(long calls) {
    granted = 0;
    if (mvs_new(&session, MVS_PLACE_LOW) != MVS_STATUS_NO_MEMORY || line("* a comment") != MVS_STATUS_NO_SESSION) return 1;
    granted = calls;
    if (mvs_new(&session, MVS_PLACE_LOW) == MVS_STATUS_NO_MEMORY) return 0;
    if (line("JOB REGION BELOW=4,ABOVE=4") == MVS_STATUS_OK) return event.kind == MVS_EVENT_STEP_BEGAN ? 0 : 2;
    if (event.kind != MVS_EVENT_STOPPED || line("* a comment") != MVS_STATUS_OVER) return 3;
    return 0;
}

/* In a step that has begun requests, lists, bytes and reports need no memory; text does, and is left as it is where it is refused. */
static int serving(void) {
    mvs_ask ask;
    mvs_area areas[2] = {{0, 100}, {0, 8}};
    mvs_subpool_line subpool = MVS_SUBPOOL_LINE_INIT;
    uint8_t bytes[4] = {1, 2, 3, 4}, job[8];
    char out[64] = {7};
    size_t wanted = 7;
    memset(&ask, 0, sizeof ask);
    mvs_name(ask.task, "JOB");
    mvs_name(job, "JOB");
    ask.size = sizeof ask, ask.kind = MVS_ASK_OBTAIN, ask.form = MVS_FORM_R;
    granted = 1000;
    if (mvs_new(&session, MVS_PLACE_LOW) != MVS_STATUS_OK || line("JOB REGION BELOW=4,ABOVE=4") != MVS_STATUS_OK) return 10;
    granted = 1;
    if (mvs_record(&session) != MVS_STATUS_OK) return 18;
    granted = 0;
    ask.length = 16;
    if (mvs_request(&session, &ask, &event) != MVS_STATUS_OK || event.kind != MVS_EVENT_GRANTED) return 11;
    if (mvs_write(&session, event.address, bytes, 4) != MVS_STATUS_OK || mvs_read(&session, event.address, bytes, 4) != MVS_STATUS_OK) return 12;
    ask.form = MVS_FORM_LU;
    if (mvs_list(&session, &ask, areas, 2, &event) != MVS_STATUS_OK || event.kind != MVS_EVENT_RC_0) return 13;
    if (mvs_subpool(&session, job, 0, &subpool) != MVS_STATUS_OK) return 14;
    if (line("JOB REPORT SP") != MVS_STATUS_OK) return 15;
    if (mvs_text(&session, out, 64, &wanted) != MVS_STATUS_NO_MEMORY || wanted != 7 || out[0] != 7) return 16;
    if (mvs_new(&session, MVS_PLACE_HIGH) != MVS_STATUS_NO_MEMORY || mvs_end(&session, &event) != MVS_STATUS_OK) return 17;
    return 0;
}

/* A copy that is refused leaves both sessions, whichever call is refused. */
static int copying(void) {
    mvs_session copy = MVS_SESSION_INIT;
    uint32_t status, first;
    long calls;
    granted = 1000;
    if (mvs_new(&session, MVS_PLACE_LOW) != MVS_STATUS_OK || line("JOB REGION BELOW=4,ABOVE=4") != MVS_STATUS_OK) return 30;
    if (line("JOB GETMAIN R,LV=16,A=X") != MVS_STATUS_OK || mvs_new(&copy, MVS_PLACE_LOW) != MVS_STATUS_OK) return 31;
    for (calls = 0; calls < 40; calls++) {
        granted = calls;
        status = mvs_clone(&session, &copy);
        if (status == MVS_STATUS_OK) break;
        if (status != MVS_STATUS_NO_MEMORY || mvs_line(&copy, "JOB WHERE X", 11, &event) != MVS_STATUS_SCRIPT_FAULT) return 32;
        granted = 1;
        if (mvs_new(&copy, MVS_PLACE_LOW) != MVS_STATUS_OK) return 33;
    }
    if (calls == 0 || calls == 40) return 34;
    if (mvs_record(&session) != MVS_STATUS_NO_MEMORY) return 37;
    granted = 1;
    if (mvs_record(&session) != MVS_STATUS_OK || mvs_record(&session) != MVS_STATUS_OK) return 38;
    granted = 0;
    if (line("JOB WHERE X") != MVS_STATUS_OK || event.kind != MVS_EVENT_AT) return 35;
    first = event.address;
    if (mvs_line(&copy, "JOB WHERE X", 11, &event) != MVS_STATUS_OK || event.address != first) return 36;
    mvs_free(&copy);
    return 0;
}

/* A whole run that is refused leaves the buffer. */
static int whole(void) {
    static const char script[] = "JOB REGION BELOW=4\nJOB REPORT MAP\n";
    char out[256] = {7};
    size_t wanted = 7;
    long calls;
    for (calls = 0; calls < 40; calls++) {
        granted = calls;
        uint32_t status = mvs_run(MVS_PLACE_LOW, script, sizeof script - 1, out, sizeof out, &wanted);
        if (status == MVS_STATUS_OK) return calls > 0 && wanted > 7 && wanted <= sizeof out ? 0 : 20;
        if (status != MVS_STATUS_NO_MEMORY || wanted != 7 || out[0] != 7) return 21;
    }
    return 22;
}

int main(void) {
    long calls;
    int failed = 0;
    for (calls = 0; calls < 40 && !failed; calls++) {
        failed = beginning(calls);
        mvs_free(&session);
    }
    if (!failed) failed = serving();
    mvs_free(&session);
    if (!failed) failed = copying();
    mvs_free(&session);
    return failed ? failed : whole();
}
