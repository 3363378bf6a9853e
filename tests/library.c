/* library.c: what each function of mvs.h answers, also where it is misused. It prints the number of the first check that fails, and
 * ends with 1 then. It is a C++ program too. */
#include <mvs.h>

#include <stdio.h>
#include <string.h>

static mvs_session session = MVS_SESSION_INIT;
static mvs_event event = MVS_EVENT_INIT;

/* A name in a field of its own. */
static const uint8_t *named(const char *name) {
    static uint8_t field[8];
    mvs_name(field, name);
    return field;
}

static uint32_t line(const char *text) {
    return mvs_line(&session, text, strlen(text), &event);
}

static uint32_t answered(const char *text) {
    return line(text) == MVS_STATUS_OK ? event.kind : 0xFFFFFFFFu;
}

/* Each call without a session. */
static int without_session(void) {
    uint8_t bytes[8] = {7}, name[8] = {7};
    char out[8] = {7};
    size_t wanted = 7;
    mvs_subpool_line subpool = MVS_SUBPOOL_LINE_INIT;
    mvs_map_run run = MVS_MAP_RUN_INIT;
    mvs_area area = {7, 7};
    mvs_ask ask;
    event.kind = 77, subpool.plain = 7, run.number = 7;
    if (line("JOB REGION BELOW=1") != MVS_STATUS_NO_SESSION || event.kind != 77) return 1;
    if (mvs_end(&session, &event) != MVS_STATUS_NO_SESSION || event.kind != 77) return 2;
    if (mvs_text(&session, out, 8, &wanted) != MVS_STATUS_NO_SESSION || wanted != 7) return 3;
    if (mvs_read(&session, 0, bytes, 8) != MVS_STATUS_NO_SESSION || bytes[0] != 7) return 4;
    if (mvs_fallen(&session, 0, name) != MVS_STATUS_NO_SESSION || name[0] != 7) return 5;
    if (mvs_subpool(&session, named("JOB"), 0, &subpool) != MVS_STATUS_NO_SESSION || subpool.plain != 7) return 6;
    if (mvs_map(&session, 0, &run) != MVS_STATUS_NO_SESSION || run.number != 7) return 7;
    memset(&ask, 0, sizeof ask);
    ask.size = sizeof ask;
    if (mvs_list(&session, &ask, &area, 1, &event) != MVS_STATUS_NO_SESSION || event.kind != 77 || area.address != 7) return 8;
    mvs_free(&session);
    return 0;
}

/* The events of a step, and what they borrow. */
static int events(void) {
    uint8_t bytes[4] = {0}, name[8] = {0};
    mvs_subpool_line subpool = MVS_SUBPOOL_LINE_INIT;
    mvs_map_run run = MVS_MAP_RUN_INIT;
    uint32_t area;
    if (mvs_new(&session, MVS_PLACE_HIGH) != MVS_STATUS_OK || mvs_new(&session, MVS_PLACE_LOW) != MVS_STATUS_OK) return 10;
    if (mvs_read(&session, 0x6000, bytes, 1) != MVS_STATUS_NO_ACCESS || mvs_map(&session, 0, &run) != MVS_STATUS_NO_MORE) return 11;
    if (answered("") != MVS_EVENT_NOTHING || answered("* a comment") != MVS_EVENT_NOTHING) return 12;
    if (answered("JOB REGION BELOW=2,ABOVE=1") != MVS_EVENT_STEP_BEGAN || event.ended != MVS_STEP_NONE) return 13;
    if (memcmp(event.task, "JOB     ", 8) != 0) return 14;
    if (answered("JOB GETMAIN RC,LV=16,SP=2,A=X") != MVS_EVENT_RC_0 || answered("JOB WHERE X") != MVS_EVENT_AT) return 15;
    area = event.address;
    if (answered("JOB WHERE Y") != MVS_EVENT_NO_NAME || answered("SUB RETURN") != MVS_EVENT_NOT_RUN) return 16;
    if (answered("JOB PUT X,X'C1C2C3C4'") != MVS_EVENT_DONE || answered("JOB SHOW X,4") != MVS_EVENT_DATA) return 17;
    if (event.address != area || event.length != 4) return 18;
    if (mvs_read(&session, area, bytes, 4) != MVS_STATUS_OK || memcmp(bytes, "\xC1\xC2\xC3\xC4", 4) != 0) return 19;
    if (mvs_read(&session, area + 14, bytes, 4) != MVS_STATUS_NO_ACCESS || bytes[0] != 0xC1) return 20;
    if (mvs_read(&session, area, bytes, 0) != MVS_STATUS_NO_ACCESS || mvs_read(&session, 0x80000000u, bytes, 1) != MVS_STATUS_NO_ACCESS) return 21;
    if (mvs_subpool(&session, named("JOB"), 1, &subpool) != MVS_STATUS_OK) return 22;
    if (subpool.number != 2 || !subpool.owned || subpool.plain != 16 || subpool.pool != 0) return 23;
    if (mvs_subpool(&session, named("JOB"), 3, &subpool) != MVS_STATUS_NO_MORE) return 24;
    if (mvs_subpool(&session, named("9NAME"), 0, &subpool) != MVS_STATUS_NO_TASK || subpool.number != 2) return 25;
    if (mvs_map(&session, 0, &run) != MVS_STATUS_OK || !run.assigned || run.number != 2 || run.length != 4096) return 26;
    if (run.address != (area & ~4095u) || memcmp(run.owner, "JOB     ", 8) != 0) return 27;
    if (mvs_map(&session, run.address + 1, &run) != MVS_STATUS_OK || run.assigned || run.length != 4096) return 28;
    if (mvs_map(&session, 0x80000000u, &run) != MVS_STATUS_NO_MORE) return 29;
    if (answered("JOB ATTACH TASK=SUB") != MVS_EVENT_ATTACHED || answered("SUB ATTACH TASK=SUB2") != MVS_EVENT_ATTACHED) return 30;
    if (answered("SUB ABEND 7") != MVS_EVENT_ABENDED || event.code != 7 || MVS_USER_CODE(event.code) != 7) return 31;
    if (mvs_fallen(&session, 0, name) != MVS_STATUS_OK || memcmp(name, "SUB2    ", 8) != 0) return 32;
    if (mvs_fallen(&session, 1, name) != MVS_STATUS_NO_MORE) return 33;
    if (answered("JOB GETMAIN R,LV=8000000,A=Z") != MVS_EVENT_ABENDED || MVS_SYSTEM_CODE(event.code) != 0x80A) return 34;
    return 0;
}

/* What a request by values is answered: the kind of the event, or else the status. */
static mvs_ask asked(uint32_t kind, const char *task) {
    mvs_ask ask;
    memset(&ask, 0, sizeof ask);
    ask.size = sizeof ask;
    ask.kind = kind;
    ask.form = MVS_FORM_R;
    memcpy(ask.task, task, strlen(task));
    return ask;
}

static uint32_t requested(mvs_ask ask) {
    uint32_t status = mvs_request(&session, &ask, &event);
    return status == MVS_STATUS_OK ? event.kind : 1000 + status;
}

/* Whether a request is refused for the field of this name. */
static bool refused(mvs_ask ask, const char *field) {
    if (mvs_request(&session, &ask, &event) != MVS_STATUS_NO_REQUEST || event.kind != MVS_EVENT_REFUSED) return false;
    return strcmp(mvs_field_name(event.code), field) == 0 && event.size == sizeof event;
}

static bool list_refused(mvs_ask ask, mvs_area *areas, size_t count, const char *field) {
    if (mvs_list(&session, &ask, areas, count, &event) != MVS_STATUS_NO_REQUEST || event.kind != MVS_EVENT_REFUSED) return false;
    return strcmp(mvs_field_name(event.code), field) == 0;
}

/* Storage by values. */
static int areas(void) {
    uint8_t bytes[4] = {1, 2, 3, 4}, read[4] = {0};
    mvs_ask obtain = asked(MVS_ASK_OBTAIN, "JOB"), release = asked(MVS_ASK_RELEASE, "JOB"), show = asked(MVS_ASK_SHOW, "JOB"), copy = asked(MVS_ASK_MOVE, "JOB");
    if (requested(obtain) != 1000 + MVS_STATUS_NO_SESSION || mvs_write(&session, 0x6000, bytes, 4) != MVS_STATUS_NO_SESSION) return 70;
    if (mvs_new(&session, MVS_PLACE_LOW) != MVS_STATUS_OK) return 71;
    obtain.length = 20;
    if (requested(obtain) != 1000 + MVS_STATUS_NO_STEP || mvs_write(&session, 0x6000, bytes, 4) != MVS_STATUS_NO_ACCESS) return 72;
    if (answered("JOB REGION BELOW=2") != MVS_EVENT_STEP_BEGAN) return 73;
    if (requested(obtain) != MVS_EVENT_GRANTED || event.address != 0x6000 || event.length != 24 || memcmp(event.task, "JOB     ", 8) != 0) return 74;
    if (mvs_write(&session, 0x6002, bytes, 4) != MVS_STATUS_OK || mvs_read(&session, 0x6002, read, 4) != MVS_STATUS_OK || memcmp(read, bytes, 4) != 0) return 75;
    if (mvs_write(&session, 0x6016, bytes, 4) != MVS_STATUS_NO_ACCESS || mvs_write(&session, 0x6000, bytes, 0) != MVS_STATUS_NO_ACCESS) return 76;
    copy.address = 0x6010, copy.source = 0x6002, copy.length = 4;
    if (requested(copy) != MVS_EVENT_DONE || mvs_read(&session, 0x6010, read, 4) != MVS_STATUS_OK || memcmp(read, bytes, 4) != 0) return 77;
    show.address = 0x6014, show.length = 4;
    if (requested(show) != MVS_EVENT_DONE) return 78;
    release.address = 0x6000, release.length = 32, release.form = MVS_FORM_RC;
    if (requested(release) != MVS_EVENT_RC_4) return 79;
    release.length = 20;
    if (requested(release) != MVS_EVENT_RC_0 || mvs_write(&session, 0x6000, bytes, 4) != MVS_STATUS_NO_ACCESS) return 80;
    obtain.form = MVS_FORM_VRC, obtain.length = 8192, obtain.least = 8, obtain.within = 12, obtain.subpool = 131;
    if (requested(obtain) != MVS_EVENT_GRANTED || event.length != 4096) return 81;
    obtain.task[0] = 'X', obtain.subpool = 0;
    if (requested(obtain) != MVS_EVENT_NOT_RUN) return 86;
    release = asked(MVS_ASK_RELEASE_WHOLE, "JOB"), release.subpool = 131, release.form = MVS_FORM_STORAGE_CONDITIONAL;
    if (requested(release) != MVS_EVENT_RC_0) return 87;
    return 0;
}

/* What each form of an obtain takes: whether a least length is needed, whether it may be left out, and whether LOC, STARTBDY and
 * CONTBDY may be there; and whether the form releases an area, and a whole subpool. The rows are those of the manual's macros. */
static const struct form_row { uint32_t form; bool needs_least, takes_least, is_located, releases, releases_whole; } form_rows[] = {
    {MVS_FORM_R, false, false, false, true, true},
    {MVS_FORM_RC, false, false, true, true, true},
    {MVS_FORM_RU, false, false, true, true, true},
    {MVS_FORM_VRC, true, true, true, false, false},
    {MVS_FORM_VRU, true, true, true, false, false},
    {MVS_FORM_EC, false, false, false, true, false},
    {MVS_FORM_EU, false, false, false, true, false},
    {MVS_FORM_VC, true, true, false, true, false},
    {MVS_FORM_VU, true, true, false, true, false},
    {MVS_FORM_STORAGE, false, true, true, true, true},
    {MVS_FORM_STORAGE_CONDITIONAL, false, true, true, true, true},
};

/* Each combination of a form with a field, of a task that is not active: the request is one or is refused for that field. */
static int form_fields(const struct form_row *row) {
    mvs_ask ask = asked(MVS_ASK_OBTAIN, "X"), it;
    ask.form = row->form, ask.length = 100;
    it = ask;
    if (row->needs_least ? !refused(it, "least") : requested(it) != MVS_EVENT_NOT_RUN) return 1;
    it.least = 101;
    if (!refused(it, "least")) return 2;
    it.least = 100;
    if (row->takes_least ? requested(it) != MVS_EVENT_NOT_RUN : !refused(it, "least")) return 3;
    if (row->needs_least) ask.least = 1;
    it = ask, it.boundary = 3;
    if (requested(it) != MVS_EVENT_NOT_RUN) return 4;
    it.boundary = 12;
    if (requested(it) != MVS_EVENT_NOT_RUN) return 5;
    it.boundary = 13;
    if (row->is_located ? requested(it) != MVS_EVENT_NOT_RUN : !refused(it, "boundary")) return 6;
    it.boundary = 2;
    if (!refused(it, "boundary")) return 7;
    it.boundary = 32;
    if (!refused(it, "boundary")) return 8;
    it = ask, it.within = 12;
    if (row->is_located ? requested(it) != MVS_EVENT_NOT_RUN : !refused(it, "within")) return 9;
    it.within = 32;
    if (!refused(it, "within")) return 10;
    it = ask, it.location = MVS_LOCATION_ANY;
    if (row->is_located ? requested(it) != MVS_EVENT_NOT_RUN : !refused(it, "location")) return 11;
    it.location = 3;
    if (!refused(it, "location")) return 12;
    it = ask, it.kind = MVS_ASK_RELEASE, it.least = 7;
    if (row->releases ? requested(it) != MVS_EVENT_NOT_RUN : !refused(it, "form")) return 13;
    it.kind = MVS_ASK_RELEASE_WHOLE;
    if (row->releases_whole ? requested(it) != MVS_EVENT_NOT_RUN : !refused(it, "form")) return 14;
    return 0;
}

/* The fields of each kind at the ends of their ranges. */
static int fields(void) {
    mvs_ask obtain = asked(MVS_ASK_OBTAIN, "X"), release = asked(MVS_ASK_RELEASE, "X"), pool = asked(MVS_ASK_POOL_BUILD, "X");
    mvs_ask show = asked(MVS_ASK_SHOW, "X"), attach = asked(MVS_ASK_ATTACH, "X"), it;
    size_t i;
    if (mvs_new(&session, MVS_PLACE_LOW) != MVS_STATUS_OK || answered("JOB REGION BELOW=2") != MVS_EVENT_STEP_BEGAN) return 130;
    for (i = 0; i < sizeof form_rows / sizeof form_rows[0]; i++)
        if (form_fields(&form_rows[i])) return 131;
    if (!refused(obtain, "length")) return 132;
    obtain.length = 0x80000000u;
    if (!refused(obtain, "length")) return 133;
    obtain.length = 0x7FFFFFFF, it = obtain, it.subpool = 256;
    if (requested(obtain) != MVS_EVENT_NOT_RUN || !refused(it, "subpool")) return 134;
    it = obtain, it.form = 0;
    if (!refused(it, "form")) return 135;
    it.form = MVS_FORM_LC;
    if (!refused(it, "form")) return 136;
    it.kind = 0;
    if (!refused(it, "kind")) return 137;
    it.kind = MVS_ASK_SYSTEM_ABEND + 1;
    if (!refused(it, "kind")) return 138;
    it.task[0] = 0;
    if (!refused(it, "task")) return 139;
    it.task[0] = '9';
    if (!refused(it, "task")) return 140;
    it.task[0] = 'a';
    if (!refused(it, "task")) return 141;
    it.size = sizeof it - 8;
    if (!refused(it, "size")) return 142;
    release.length = 0x80000000u;
    if (!refused(release, "length")) return 143;
    release.length = 0x7FFFFFFF, release.address = 0x80000000u;
    if (!refused(release, "address")) return 144;
    release.address = 0x7FFFFFFF;
    if (requested(release) != MVS_EVENT_NOT_RUN) return 145;
    pool.length = 3, pool.primary = 0, pool.secondary = 65537, pool.location = 3;
    if (!refused(pool, "length")) return 146;
    pool.length = 65536;
    if (!refused(pool, "location")) return 147;
    pool.location = MVS_LOCATION_ANY;
    if (!refused(pool, "primary")) return 148;
    pool.primary = 1;
    if (!refused(pool, "secondary")) return 149;
    pool.secondary = 0;
    if (!refused(pool, "name")) return 150;
    mvs_name(pool.name, "A\nB");
    if (!refused(pool, "name")) return 151;
    mvs_name(pool.name, "@1#$ABCD");
    if (requested(pool) != MVS_EVENT_NOT_RUN) return 152;
    show.length = 4097;
    if (!refused(show, "length")) return 153;
    show.kind = MVS_ASK_MOVE, show.source = 0x80000000u;
    if (!refused(show, "source")) return 154;
    attach.given_low = 1;
    if (!refused(attach, "given and shared subpools")) return 155;
    attach.given_low = 2, attach.shared_low = 2;
    if (!refused(attach, "given and shared subpools")) return 156;
    it = asked(MVS_ASK_SYSTEM_ABEND, "X"), it.code = 4096;
    if (!refused(it, "code")) return 158;
    it.kind = MVS_ASK_ABEND;
    if (!refused(it, "code")) return 157;
    return 0;
}

/* Structs of another size, numbers of no place, and names of numbers. */
static int surface(void) {
    mvs_event small = MVS_EVENT_INIT;
    mvs_subpool_line subpool = MVS_SUBPOOL_LINE_INIT;
    mvs_map_run run = MVS_MAP_RUN_INIT;
    mvs_ask ask = asked(MVS_ASK_RETURN, "JOB");
    mvs_area area = {7, 8};
    size_t wanted = 7;
    char out[8];
    small.size -= 4, subpool.size += 4, run.size = 0;
    if (mvs_version() != MVS_VERSION || sizeof(mvs_event) != 32 || sizeof(mvs_ask) != 112) return 160;
    if (mvs_line(&session, "JOB RETURN", 10, &small) != MVS_STATUS_WRONG_SIZE || small.kind != 0) return 161;
    if (mvs_try(&session, "JOB RETURN", 10, &small) != MVS_STATUS_WRONG_SIZE || small.kind != 0) return 162;
    if (mvs_request(&session, &ask, &small) != MVS_STATUS_WRONG_SIZE || small.kind != 0) return 163;
    if (mvs_list(&session, &ask, &area, 1, &small) != MVS_STATUS_WRONG_SIZE || small.kind != 0) return 164;
    if (mvs_end(&session, &small) != MVS_STATUS_WRONG_SIZE || small.kind != 0) return 165;
    if (mvs_subpool(&session, named("JOB"), 0, &subpool) != MVS_STATUS_WRONG_SIZE || subpool.number != 0) return 166;
    if (mvs_map(&session, 0, &run) != MVS_STATUS_WRONG_SIZE || run.length != 0) return 167;
    if (mvs_new(&session, 0) != MVS_STATUS_NO_PLACE || mvs_new(&session, 3) != MVS_STATUS_NO_PLACE) return 168;
    if (mvs_run(0, "", 0, out, 8, &wanted) != MVS_STATUS_NO_PLACE || wanted != 7) return 169;
    if (mvs_run(MVS_PLACE_LOW, "", 0, NULL, 0, &wanted) != MVS_STATUS_TOO_SMALL || wanted != 23) return 170;
    if (strcmp(mvs_status_name(MVS_STATUS_NO_TASK), "NO_TASK") || strcmp(mvs_status_name(1), "?")) return 171;
    if (strcmp(mvs_event_name(MVS_EVENT_GRANTED), "GRANTED") || strcmp(mvs_event_name(0), "?")) return 172;
    if (requested(ask) != MVS_EVENT_ENDED || mvs_subpool(&session, named("JOB"), 0, &subpool) != MVS_STATUS_WRONG_SIZE) return 173;
    subpool.size = sizeof subpool;
    if (mvs_subpool(&session, named("JOB"), 0, &subpool) != MVS_STATUS_NO_TASK) return 174;
    mvs_free(&session);
    mvs_free(NULL);
    return 0;
}

/* A step that is begun by values. */
static int begun(void) {
    mvs_region region;
    uint8_t byte = 0;
    char out[64];
    size_t wanted = 0;
    mvs_ask obtain = asked(MVS_ASK_OBTAIN, "BATCH");
    memset(&region, 0, sizeof region);
    region.size = sizeof region - 1, region.below = 3, region.above = 2, region.fill = 0xC1, region.resides_above = true;
    mvs_name(region.task, "BATCH");
    if (mvs_begin(&session, &region, &event) != MVS_STATUS_WRONG_SIZE) return 200;
    region.size = sizeof region, event.size--;
    if (mvs_begin(&session, &region, &event) != MVS_STATUS_WRONG_SIZE) return 201;
    event.size++;
    if (mvs_begin(&session, &region, &event) != MVS_STATUS_NO_SESSION || mvs_new(&session, MVS_PLACE_LOW) != MVS_STATUS_OK) return 202;
    if (mvs_begin(&session, &region, &event) != MVS_STATUS_OK || event.kind != MVS_EVENT_STEP_BEGAN || memcmp(event.task, "BATCH   ", 8) != 0) return 203;
    if (mvs_text(&session, out, 64, &wanted) != MVS_STATUS_OK || memcmp(out, "1 BATCH REGION BELOW 3 ABOVE 2\n", wanted) != 0) return 204;
    obtain.form = MVS_FORM_RU, obtain.length = 8;
    if (requested(obtain) != MVS_EVENT_GRANTED || event.address != 0x1000000) return 205;
    if (mvs_read(&session, event.address, &byte, 1) != MVS_STATUS_OK || byte != 0xC1) return 206;
    region.below = 2049;
    if (mvs_begin(&session, &region, &event) != MVS_STATUS_SCRIPT_FAULT || event.code != 6) return 207;
    region.below = 1, region.resides_above = false, region.task[0] = 0;
    if (mvs_begin(&session, &region, &event) != MVS_STATUS_SCRIPT_FAULT || event.code != 3) return 208;
    region.task[0] = 'B';
    if (mvs_begin(&session, &region, &event) != MVS_STATUS_OK || event.ended != MVS_STEP_CLEAN) return 209;
    if (requested(obtain) != MVS_EVENT_GRANTED || event.address != 0x6000) return 210;
    mvs_free(&session);
    return 0;
}

/* A line with a fault that is tried changes nothing. */
static int tried(void) {
    char out[64];
    size_t wanted = 7;
    if (mvs_execute(&session, "", &event) != MVS_STATUS_NO_SESSION || mvs_new(&session, MVS_PLACE_LOW) != MVS_STATUS_OK) return 180;
    if (mvs_execute(&session, "JOB RETURN", &event) != MVS_STATUS_SCRIPT_FAULT || event.kind != MVS_EVENT_FAULT || event.code != 9) return 181;
    if (mvs_execute(&session, "JOB REGION BELOW=1\n", &event) != MVS_STATUS_SCRIPT_FAULT || event.code != 2) return 182;
    if (mvs_execute(&session, "JOB REGION BELOW=1", &event) != MVS_STATUS_OK || event.kind != MVS_EVENT_STEP_BEGAN) return 183;
    if (mvs_text(&session, NULL, 0, &wanted) != MVS_STATUS_TOO_SMALL || wanted != 29) return 184;
    if (mvs_text(&session, out, 64, &wanted) != MVS_STATUS_OK || memcmp(out, "1 JOB REGION BELOW 1 ABOVE 0\n", 29) != 0) return 185;
    if (mvs_execute(&session, "JOB GETMIAN R,LV=8,A=X", &event) != MVS_STATUS_SCRIPT_FAULT || event.code != 3) return 186;
    if (mvs_text(&session, out, 64, &wanted) != MVS_STATUS_OK || wanted != 29) return 187;
    if (mvs_execute(&session, "JOB GETMAIN R,LV=8,A=X", &event) != MVS_STATUS_OK || event.kind != MVS_EVENT_RC_0) return 188;
    if (mvs_text(&session, out, 64, &wanted) != MVS_STATUS_OK || memcmp(out, "2 JOB RC 0\n", 11) != 0) return 189;
    if (mvs_end(&session, &event) != MVS_STATUS_OK || mvs_execute(&session, "JOB RETURN", &event) != MVS_STATUS_OVER) return 190;
    mvs_free(&session);
    return 0;
}

/* Lists by values, after areas. */
static int lists(void) {
    mvs_ask list = asked(MVS_ASK_OBTAIN, "JOB");
    mvs_area two[2] = {{7, 20}, {7, 8}}, long_list[17];
    size_t i;
    for (i = 0; i < 17; i++) long_list[i].address = 7, long_list[i].length = 8;
    list.subpool = 9;
    if (!list_refused(list, two, 2, "form") || two[0].address != 7) return 110;
    list.form = MVS_FORM_LC;
    if (!list_refused(list, two, 0, "areas")) return 111;
    if (!list_refused(list, long_list, 17, "areas") || long_list[0].address != 7) return 112;
    if (mvs_list(&session, &list, two, 2, &event) != MVS_STATUS_OK || event.kind != MVS_EVENT_RC_0 || two[0].length != 24 || two[1].length != 8) return 113;
    if (two[0].address % 8 || two[1].address % 8 || two[0].address == two[1].address) return 114;
    list.kind = MVS_ASK_RELEASE;
    if (mvs_list(&session, &list, two, 2, &event) != MVS_STATUS_OK || event.kind != MVS_EVENT_RC_0) return 115;
    if (mvs_list(&session, &list, two, 2, &event) != MVS_STATUS_OK || event.kind != MVS_EVENT_RC_4) return 116;
    list.kind = MVS_ASK_OBTAIN, two[0].address = two[1].address = 7, two[1].length = 0x7FFFFFFF;
    if (mvs_list(&session, &list, two, 2, &event) != MVS_STATUS_OK || event.kind != MVS_EVENT_RC_4 || two[0].address != 7 || two[0].length != 24) return 117;
    two[1].length = 0;
    if (!list_refused(list, two, 2, "areas")) return 118;
    list.boundary = 13;
    if (!list_refused(list, two, 2, "boundary")) return 121;
    list.boundary = 0, list.kind = MVS_ASK_RELEASE_WHOLE;
    if (!list_refused(list, long_list, 1, "kind")) return 119;
    list.kind = MVS_ASK_OBTAIN, list.form = MVS_FORM_LU;
    if (mvs_list(&session, &list, long_list, 16, &event) != MVS_STATUS_OK || event.kind != MVS_EVENT_RC_0 || long_list[15].address == 7 || long_list[16].address != 7) return 120;
    return 0;
}

/* Pools and tasks by values, after lists. */
static int pools_and_tasks(void) {
    uint8_t name[8] = {0};
    mvs_ask pool = asked(MVS_ASK_POOL_BUILD, "JOB"), attach = asked(MVS_ASK_ATTACH, "JOB");
    memcpy(pool.name, "POOL    ", 8);
    pool.length = 12, pool.primary = 2;
    if (requested(pool) != MVS_EVENT_RC_0) return 90;
    pool.kind = MVS_ASK_POOL_GET, pool.conditional = true;
    if (requested(pool) != MVS_EVENT_CELL || event.length != 12 || requested(pool) != MVS_EVENT_CELL) return 91;
    pool.address = event.address;
    if (requested(pool) != MVS_EVENT_NO_CELL) return 92;
    pool.kind = MVS_ASK_POOL_FREE;
    if (requested(pool) != MVS_EVENT_RC_0) return 93;
    memcpy(attach.name, "SUB", 3);
    attach.given_low = 4, attach.shared_low = 4;
    if (!refused(attach, "given and shared subpools")) return 94;
    attach.shared_low = 8;
    if (requested(attach) != MVS_EVENT_ATTACHED || answered("SUB REPORT SP") != MVS_EVENT_SUBPOOLS) return 95;
    memcpy(attach.task, "SUB", 3), memcpy(attach.name, "SUB2", 4);
    if (requested(attach) != MVS_EVENT_ATTACHED || requested(asked(MVS_ASK_RETURN, "SUB2")) != MVS_EVENT_ENDED) return 96;
    if (requested(attach) != MVS_EVENT_ATTACHED) return 97;
    attach = asked(MVS_ASK_ABEND, "SUB"), attach.code = 7;
    if (requested(attach) != MVS_EVENT_ABENDED || event.code != 7 || mvs_fallen(&session, 0, name) != MVS_STATUS_OK || memcmp(name, "SUB2    ", 8) != 0) return 98;
    pool.kind = MVS_ASK_POOL_DELETE;
    if (requested(pool) != MVS_EVENT_RC_0 || requested(pool) != MVS_EVENT_ABENDED || event.code != 4002) return 99;
    if (mvs_end(&session, &event) != MVS_STATUS_SOME_ABEND || requested(attach) != 1000 + MVS_STATUS_OVER || mvs_write(&session, 0x6000, name, 1) != MVS_STATUS_OVER) return 100;
    mvs_free(&session);
    return 0;
}

/* Text, and the end of a job. */
static int text(void) {
    char out[64] = {7};
    size_t wanted = 7;
    mvs_map_run run = MVS_MAP_RUN_INIT;
    if (line("JOB REGION BELOW=1") != MVS_STATUS_OK || event.ended != MVS_STEP_ABENDED) return 40;
    if (mvs_text(&session, out, 0, &wanted) != MVS_STATUS_TOO_SMALL || wanted != 46 || out[0] != 7) return 41;
    if (mvs_text(&session, out, 45, &wanted) != MVS_STATUS_TOO_SMALL || out[0] != 7) return 42;
    if (mvs_text(&session, out, 64, &wanted) != MVS_STATUS_OK || wanted != 46 || out[46] != 0) return 43;
    if (memcmp(out, "STEP ENDED RC 8\n", 16) != 0) return 44;
    if (line("JOB NO SUCH") != MVS_STATUS_SCRIPT_FAULT || event.kind != MVS_EVENT_FAULT || event.code != 3) return 45;
    if (line("JOB REGION BELOW=1") != MVS_STATUS_OVER || event.kind != MVS_EVENT_FAULT || mvs_end(&session, &event) != MVS_STATUS_OVER) return 46;
    if (mvs_map(&session, 0, &run) != MVS_STATUS_OK || run.length != 4096) return 52;
    mvs_free(&session);
    mvs_free(&session);
    if (mvs_new(&session, MVS_PLACE_LOW) != MVS_STATUS_OK || line("JOB\n") != MVS_STATUS_SCRIPT_FAULT || event.code != 2) return 47;
    if (mvs_new(&session, MVS_PLACE_LOW) != MVS_STATUS_OK || line("JOB REGION BELOW=1") != MVS_STATUS_OK) return 48;
    if (mvs_end(&session, &event) != MVS_STATUS_OK || event.kind != MVS_EVENT_JOB_ENDED || event.ended != MVS_STEP_CLEAN) return 49;
    if (mvs_text(&session, out, 64, &wanted) != MVS_STATUS_OK || wanted != 16 || mvs_map(&session, 0, &run) != MVS_STATUS_OK) return 50;
    if (mvs_new(&session, MVS_PLACE_LOW) != MVS_STATUS_OK || mvs_end(&session, &event) != MVS_STATUS_SCRIPT_FAULT) return 51;
    mvs_free(&session);
    return 0;
}

static int whole(void) {
    static const char script[] = "JOB REGION BELOW=1\n";
    static char longest[16777216];
    char out[64] = {0};
    size_t wanted = 7;
    if (mvs_run(MVS_PLACE_LOW, script, 19, out, 64, &wanted) != MVS_STATUS_OK || wanted != 29 + 16) return 60;
    out[0] = 7;
    if (mvs_run(MVS_PLACE_LOW, script, 18, out, 44, &wanted) != MVS_STATUS_TOO_SMALL || wanted != 45 || out[0] != 7) return 61;
    if (mvs_run(MVS_PLACE_LOW, script, 0, out, 64, &wanted) != MVS_STATUS_SCRIPT_FAULT || wanted == 0) return 62;
    memset(longest, '\n', sizeof longest);
    wanted = 7;
    if (mvs_run(MVS_PLACE_LOW, longest, sizeof longest, out, 64, &wanted) != MVS_STATUS_TOO_LONG || wanted != 7) return 63;
    return 0;
}

/* Whether a run is at an address, of a length, and is areas of JOB under this number, or parts of a pool. */
static bool is_held(const mvs_held_run *run, uint32_t address, uint32_t length, uint32_t number, const char *pool) {
    const uint8_t *owner = named(pool ? "" : "JOB");
    if (run->address != address || run->length != length || run->pooled != (pool != NULL) || run->number != number) return false;
    if (memcmp(run->owner, owner, 8) != 0) return false;
    return memcmp(run->pool, named(pool ? pool : ""), 8) == 0;
}

/* The runs of held doublewords. */
static int held_runs(void) {
    mvs_held_run run = MVS_HELD_RUN_INIT;
    mvs_ask obtain = asked(MVS_ASK_OBTAIN, "JOB"), release = asked(MVS_ASK_RELEASE, "JOB"), pool = asked(MVS_ASK_POOL_BUILD, "JOB");
    run.number = 7, run.size--;
    if (mvs_held(&session, 0, &run) != MVS_STATUS_WRONG_SIZE || run.number != 7) return 220;
    run.size++;
    if (mvs_held(&session, 0, &run) != MVS_STATUS_NO_SESSION || run.number != 7) return 221;
    if (mvs_new(&session, MVS_PLACE_LOW) != MVS_STATUS_OK || mvs_held(&session, 0, &run) != MVS_STATUS_NO_MORE) return 222;
    if (answered("JOB REGION BELOW=2,ABOVE=1") != MVS_EVENT_STEP_BEGAN || mvs_held(&session, 0, &run) != MVS_STATUS_NO_MORE || run.number != 7) return 223;
    obtain.length = 24, obtain.subpool = 2, obtain.form = MVS_FORM_RC;
    if (requested(obtain) != MVS_EVENT_GRANTED || event.address != 0x6000 || requested(obtain) != MVS_EVENT_GRANTED || event.address != 0x6018) return 224;
    if (mvs_held(&session, 0, &run) != MVS_STATUS_OK || !is_held(&run, 0x6000, 48, 2, NULL)) return 225;
    if (mvs_held(&session, 0x6001, &run) != MVS_STATUS_NO_MORE || mvs_held(&session, 0x80000000u, &run) != MVS_STATUS_NO_MORE) return 226;
    release.form = MVS_FORM_RC, release.subpool = 2, release.length = 8, release.address = 0x6010;
    if (requested(release) != MVS_EVENT_RC_0) return 227;
    if (mvs_held(&session, 0, &run) != MVS_STATUS_OK || !is_held(&run, 0x6000, 16, 2, NULL)) return 228;
    if (mvs_held(&session, run.address + run.length, &run) != MVS_STATUS_OK || !is_held(&run, 0x6018, 24, 2, NULL)) return 229;
    memcpy(pool.name, "POOL    ", 8);
    pool.subpool = 3, pool.length = 8, pool.primary = 2;
    if (requested(pool) != MVS_EVENT_RC_0 || mvs_held(&session, run.address + run.length, &run) != MVS_STATUS_OK) return 230;
    if (!is_held(&run, 0x7000, 40, 0, "POOL")) return 231;
    obtain.location = MVS_LOCATION_ANY, obtain.length = 4096;
    if (requested(obtain) != MVS_EVENT_GRANTED || mvs_held(&session, run.address + run.length, &run) != MVS_STATUS_OK) return 232;
    if (!is_held(&run, 0x1000000, 4096, 2, NULL) || mvs_held(&session, run.address + run.length, &run) != MVS_STATUS_NO_MORE) return 233;
    mvs_free(&session);
    return 0;
}

/* Whether this is the line that says why the last request was refused. */
static bool explained(const char *why) {
    char out[240];
    size_t wanted = 7;
    if (mvs_why(&session, NULL, 0, &wanted) != (*why ? MVS_STATUS_TOO_SMALL : MVS_STATUS_OK) || wanted != strlen(why)) return false;
    if (mvs_why(&session, out, sizeof out, &wanted) != MVS_STATUS_OK || wanted != strlen(why)) return false;
    return memcmp(out, why, wanted) == 0;
}

/* Why requests were refused. */
static int reasons(void) {
    char out[8] = {7};
    size_t wanted = 7;
    mvs_ask obtain = asked(MVS_ASK_OBTAIN, "JOB"), other = asked(MVS_ASK_RETURN, "SUB");
    if (mvs_why(&session, out, 8, &wanted) != MVS_STATUS_NO_SESSION || wanted != 7 || out[0] != 7) return 240;
    if (mvs_new(&session, MVS_PLACE_LOW) != MVS_STATUS_OK || !explained("")) return 241;
    if (answered("JOB REGION BELOW=1") != MVS_EVENT_STEP_BEGAN || !explained("")) return 242;
    obtain.form = MVS_FORM_RC, obtain.length = 8192, obtain.subpool = 1;
    if (requested(obtain) != MVS_EVENT_RC_4) return 243;
    if (!explained("* 8192 bytes requested in SP 1, but the largest area that fits has 4096 bytes; free runs: 0; free pages: 1 below, 0 above. (rule 12)\n")) return 244;
    if (mvs_why(&session, out, 8, &wanted) != MVS_STATUS_TOO_SMALL || wanted != 133 || out[0] != 7) return 245;
    obtain.length = 8;
    if (requested(obtain) != MVS_EVENT_GRANTED || !explained("")) return 246;
    if (answered("JOB FREEMAIN RC,LV=8,A=NONE") != MVS_EVENT_NO_NAME || !explained("")) return 247;
    if (requested(other) != MVS_EVENT_NOT_RUN || !explained("* SUB is not active: it has ended, or was never attached. (rule 73)\n")) return 248;
    if (answered("JOB GETMAIN RC,LV=8,A=Y,SP=200") != MVS_EVENT_ABENDED) return 249;
    if (!explained("* A program can use SP 0 to 127, 131 and 132, but not 200. (rule 8)\n")) return 250;
    if (mvs_end(&session, &event) != MVS_STATUS_SOME_ABEND || !explained("")) return 251;
    mvs_free(&session);
    return 0;
}

/* Whether these are the kind and the rule of why the last request was refused, and reason has the rest. */
static mvs_reason reason;

static bool is_reason(uint32_t kind, uint32_t rule) {
    mvs_reason none = MVS_REASON_INIT;
    memset(&reason, 7, sizeof reason);
    reason.size = sizeof reason;
    if (!kind) return mvs_why_fields(&session, &reason) == MVS_STATUS_NO_MORE && reason.kind == 0x07070707;
    return mvs_why_fields(&session, &reason) == MVS_STATUS_OK && reason.size == none.size && reason.kind == kind && reason.rule == rule;
}

static bool is_named(const uint8_t field[8], const char *text) {
    uint8_t wanted[8];
    mvs_name(wanted, text);
    return memcmp(field, wanted, 8) == 0;
}

/* What room the reason names. */
static bool has_room(uint32_t longest, uint32_t runs, uint32_t below, uint32_t above) {
    return reason.longest == longest && reason.free_runs == runs && reason.pages_below == below && reason.pages_above == above;
}

/* Why requests were refused, as fields: of storage. */
static int reason_fields(void) {
    mvs_ask obtain = asked(MVS_ASK_OBTAIN, "JOB"), release = asked(MVS_ASK_RELEASE, "JOB"), list = asked(MVS_ASK_OBTAIN, "JOB"), other = asked(MVS_ASK_RETURN, "SUB");
    mvs_area areas[2] = {{0, 8}, {0, 9000}};
    reason.size = 8, reason.kind = 9;
    if (mvs_why_fields(&session, &reason) != MVS_STATUS_WRONG_SIZE || reason.kind != 9) return 260;
    reason.size = sizeof reason;
    if (mvs_why_fields(&session, &reason) != MVS_STATUS_NO_SESSION || reason.kind != 9) return 261;
    if (mvs_new(&session, MVS_PLACE_LOW) != MVS_STATUS_OK || !is_reason(0, 0)) return 262;
    if (answered("JOB REGION BELOW=2,ABOVE=1") != MVS_EVENT_STEP_BEGAN || !is_reason(0, 0)) return 263;
    if (requested(other) != MVS_EVENT_NOT_RUN || !is_reason(MVS_REASON_NOT_ACTIVE, 73) || !is_named(reason.task, "SUB")) return 264;
    if (!is_named(reason.name, "") || !is_named(reason.holder_name, "") || reason.address || reason.holder || reason.second_rule) return 265;
    obtain.form = MVS_FORM_RC, obtain.length = 8195, obtain.subpool = 1;
    if (requested(obtain) != MVS_EVENT_RC_4 || !is_reason(MVS_REASON_SHORTAGE, 12) || reason.number != 1 || reason.length != 8200) return 266;
    if (!has_room(8192, 0, 2, 1)) return 267;
    obtain.length = 8;
    if (requested(obtain) != MVS_EVENT_GRANTED || !is_reason(0, 0)) return 268;
    release.form = MVS_FORM_RC, release.subpool = 1, release.address = 0x6000, release.length = 16;
    if (requested(release) != MVS_EVENT_RC_4 || !is_reason(MVS_REASON_NOT_HELD, 26) || reason.second_rule != 66) return 269;
    if (reason.address != 0x6008 || reason.number != 1 || reason.holder != MVS_HOLDER_NOBODY || !is_named(reason.task, "JOB")) return 270;
    release.subpool = 2;
    if (requested(release) != MVS_EVENT_RC_4 || !is_reason(MVS_REASON_NO_SUBPOOL, 26) || reason.number != 2 || !is_named(reason.task, "JOB")) return 271;
    list.form = MVS_FORM_LC, list.subpool = 1;
    if (mvs_list(&session, &list, areas, 2, &event) != MVS_STATUS_OK || event.kind != MVS_EVENT_RC_4) return 272;
    if (!is_reason(MVS_REASON_NO_MEMBER, 22) || reason.member != 2 || reason.length != 9000 || reason.number != 1 || !has_room(8176, 1, 1, 1)) return 273;
    if (answered("JOB GETMAIN R,LV=8,A=X,SP=2") != MVS_EVENT_RC_0 || !is_reason(0, 0)) return 274;
    release.subpool = 1, release.address = 0x7000, release.length = 8;
    if (requested(release) != MVS_EVENT_RC_4 || !is_reason(MVS_REASON_NOT_HELD, 26) || reason.holder != MVS_HOLDER_SUBPOOL) return 275;
    if (reason.holder_number != 2 || !is_named(reason.holder_name, "JOB")) return 276;
    if (answered("JOB FREEMAIN LC,LA=(8,8),A=(X,X),SP=2") != MVS_EVENT_RC_4 || !is_reason(MVS_REASON_OVERLAP, 32)) return 277;
    if (reason.address != 0x7000 || reason.first_address != 0x7000 || reason.second_address != 0x7000) return 278;
    if (answered("JOB FREEMAIN LC,LA=(8,8),A=(X,NONE),SP=2") != MVS_EVENT_NO_NAME || !is_reason(0, 0)) return 279;
    release.address = 0x7004;
    if (requested(release) != MVS_EVENT_ABENDED || !is_reason(MVS_REASON_OFF_DOUBLEWORD, 29) || reason.address != 0x7004) return 280;
    if (mvs_end(&session, &event) != MVS_STATUS_SOME_ABEND || !is_reason(0, 0)) return 281;
    mvs_free(&session);
    return 0;
}

/* The same of cell pools and tasks, and an abend with a system code. */
static int reasons_of_names(void) {
    mvs_ask pool = asked(MVS_ASK_POOL_BUILD, "JOB"), get = asked(MVS_ASK_POOL_GET, "JOB"), cell = asked(MVS_ASK_POOL_FREE, "SUB");
    mvs_ask attach = asked(MVS_ASK_ATTACH, "JOB"), abend = asked(MVS_ASK_SYSTEM_ABEND, "SUB"), show = asked(MVS_ASK_SHOW, "SUB");
    mvs_pool_line line = MVS_POOL_LINE_INIT;
    mvs_name(pool.name, "P"), mvs_name(get.name, "P"), mvs_name(cell.name, "P"), mvs_name(attach.name, "SUB");
    line.size = 7, line.cells = 9;
    if (mvs_pool(&session, pool.name, &line) != MVS_STATUS_WRONG_SIZE || line.cells != 9) return 290;
    line.size = sizeof line;
    if (mvs_pool(&session, pool.name, &line) != MVS_STATUS_NO_SESSION || line.cells != 9) return 291;
    if (mvs_new(&session, MVS_PLACE_LOW) != MVS_STATUS_OK || mvs_pool(&session, pool.name, &line) != MVS_STATUS_NO_MORE) return 292;
    if (answered("JOB REGION BELOW=2") != MVS_EVENT_STEP_BEGAN || mvs_pool(&session, pool.name, &line) != MVS_STATUS_NO_MORE || line.cells != 9) return 293;
    if (requested(attach) != MVS_EVENT_ATTACHED) return 294;
    pool.subpool = 3, pool.length = 12, pool.primary = 1, pool.secondary = 2;
    if (requested(pool) != MVS_EVENT_RC_0 || mvs_pool(&session, pool.name, &line) != MVS_STATUS_OK) return 295;
    if (line.cell_size != 12 || line.parts != 1 || line.address != 0x6000 || line.length != 40 || line.cells != 1) return 296;
    if (line.number != 3 || !is_named(line.owner, "JOB")) return 297;
    get.conditional = true;
    if (requested(get) != MVS_EVENT_CELL || event.address != 0x6018 || requested(get) != MVS_EVENT_NO_CELL) return 298;
    if (!is_reason(MVS_REASON_NO_FREE_CELL, 60) || !is_named(reason.name, "P")) return 299;
    get.conditional = false;
    if (requested(get) != MVS_EVENT_CELL || mvs_pool(&session, pool.name, &line) != MVS_STATUS_OK) return 300;
    if (line.parts != 2 || line.address != 0x6028 || line.length != 48 || line.cells != 2 || line.number != 3) return 301;
    cell.address = 0x601C;
    if (requested(cell) != MVS_EVENT_ABENDED || !is_reason(MVS_REASON_NO_TAKEN_CELL, 63) || reason.address != 0x601C) return 302;
    if (reason.position != MVS_POSITION_INSIDE || reason.first_address != 0x6018 || !is_named(reason.name, "P")) return 303;
    if (requested(attach) != MVS_EVENT_ATTACHED || requested(attach) != MVS_EVENT_ABENDED) return 304;
    if (!is_reason(MVS_REASON_TASK_IN_USE, 51) || !is_named(reason.name, "SUB")) return 305;
    if (answered("JOB REGION BELOW=2") != MVS_EVENT_STEP_BEGAN || requested(attach) != MVS_EVENT_ATTACHED) return 306;
    abend.code = 4096;
    if (mvs_request(&session, &abend, &event) != MVS_STATUS_NO_REQUEST || event.code != offsetof(mvs_ask, code)) return 307;
    abend.code = 0x0C1;
    if (requested(abend) != MVS_EVENT_ABENDED || event.code != 0x0C1000 || !is_named(event.task, "SUB")) return 308;
    if (!is_reason(MVS_REASON_ASKED, 55) || !is_named(reason.task, "SUB") || requested(abend) != MVS_EVENT_NOT_RUN || event.code) return 309;
    show.address = 0x5000, show.length = 4, mvs_name(show.task, "JOB");
    if (requested(show) != MVS_EVENT_ABENDED || event.code != 0x0C4000) return 310;
    if (!is_reason(MVS_REASON_NO_ACCESS, 38) || reason.address != 0x5000 || reason.holder != MVS_HOLDER_OUTSIDE) return 311;
    if (strcmp(mvs_reason_name(reason.kind), "NO_ACCESS") || strcmp(mvs_reason_name(0), "?")) return 312;
    mvs_free(&session);
    return 0;
}

/* The statement of a request. */
static mvs_event no_event = MVS_EVENT_INIT;

static bool is_stated(mvs_ask ask, const char *text) {
    char out[256];
    size_t wanted = 7;
    if (mvs_statement(&ask, &no_event, NULL, 0, &wanted) != MVS_STATUS_TOO_SMALL || wanted != strlen(text)) return false;
    return mvs_statement(&ask, &no_event, out, sizeof out, &wanted) == MVS_STATUS_OK && wanted == strlen(text) && memcmp(out, text, wanted) == 0;
}

static int statements(void) {
    char out[256];
    size_t wanted = 7;
    mvs_ask ask = asked(MVS_ASK_OBTAIN, "JOB");
    no_event.address = 0x12345;
    ask.form = MVS_FORM_VRC, ask.length = 9000, ask.least = 8, ask.location = MVS_LOCATION_ANY, ask.within = 12;
    if (!is_stated(ask, "JOB GETMAIN VRC,LV=(9000,8),A=A0012345,SP=0,LOC=ANY,STARTBDY=3,CONTBDY=12")) return 320;
    ask.least = 0;
    if (mvs_statement(&ask, &no_event, out, sizeof out, &wanted) != MVS_STATUS_NO_REQUEST || wanted != 7) return 321;
    ask.form = MVS_FORM_STORAGE_CONDITIONAL, ask.within = 0, ask.subpool = 9;
    if (!is_stated(ask, "JOB STORAGE OBTAIN,LENGTH=9000,ADDR=A0012345,SP=9,LOC=ANY,STARTBDY=3,COND=YES")) return 322;
    ask.form = MVS_FORM_EU, ask.location = 0, ask.boundary = 12;
    if (!is_stated(ask, "JOB GETMAIN EU,LV=9000,A=A0012345,SP=9,BNDRY=PAGE")) return 323;
    ask.kind = MVS_ASK_RELEASE, ask.form = MVS_FORM_VC, ask.address = 0x6000;
    if (!is_stated(ask, "JOB FREEMAIN EC,LV=9000,A=X'00006000',SP=9")) return 324;
    ask.kind = MVS_ASK_RELEASE_WHOLE, ask.form = MVS_FORM_STORAGE;
    if (!is_stated(ask, "JOB STORAGE RELEASE,SP=9,COND=NO")) return 325;
    ask = asked(MVS_ASK_ATTACH, "JOB");
    mvs_name(ask.name, "SUB");
    ask.given_low = 2 | 1ull << 63, ask.shared_high = 1ull << 63, ask.above = true;
    if (!is_stated(ask, "JOB ATTACH TASK=SUB,GSPL=(1,63),SHSPL=(127),SZERO=YES,RES=ABOVE")) return 326;
    ask.given_low = ~1ull, ask.shared_high = 0;
    if (mvs_statement(&ask, &no_event, out, sizeof out, &wanted) != MVS_STATUS_TOO_LONG || wanted != 7) return 327;
    ask = asked(MVS_ASK_SYSTEM_ABEND, "JOB");
    ask.code = 0x0C1;
    if (!is_stated(ask, "JOB ABEND 193")) return 328;
    if (mvs_statement_into(&ask, (const uint8_t *)"9       ", out, sizeof out, &wanted) != MVS_STATUS_NO_REQUEST) return 329;
    return 0;
}

/* The tasks and the cell pools, one by one. */
static int tasks_and_pools(void) {
    mvs_ask attach = asked(MVS_ASK_ATTACH, "JOB"), pool = asked(MVS_ASK_POOL_BUILD, "JOB");
    mvs_task_line task = MVS_TASK_LINE_INIT;
    uint8_t after[8] = {0}, name[8] = "unset";
    task.size = 19, task.mother[0] = 'x';
    if (mvs_next_task(&session, after, &task) != MVS_STATUS_WRONG_SIZE || task.mother[0] != 'x') return 340;
    task.size = sizeof task;
    if (mvs_next_task(&session, after, &task) != MVS_STATUS_NO_SESSION || task.mother[0] != 'x') return 341;
    if (mvs_next_pool(&session, after, name) != MVS_STATUS_NO_SESSION || name[0] != 'u') return 342;
    if (mvs_new(&session, MVS_PLACE_LOW) != MVS_STATUS_OK || mvs_next_task(&session, after, &task) != MVS_STATUS_NO_MORE) return 343;
    if (mvs_next_pool(&session, after, name) != MVS_STATUS_NO_MORE || name[0] != 'u' || task.mother[0] != 'x') return 344;
    if (answered("JOB REGION BELOW=4") != MVS_EVENT_STEP_BEGAN) return 345;
    mvs_name(attach.name, "ZULU");
    if (requested(attach) != MVS_EVENT_ATTACHED) return 346;
    mvs_name(attach.task, "ZULU"), mvs_name(attach.name, "ALFA");
    if (requested(attach) != MVS_EVENT_ATTACHED) return 347;
    if (mvs_next_task(&session, after, &task) != MVS_STATUS_OK || !is_named(task.name, "ALFA") || !is_named(task.mother, "ZULU")) return 348;
    memcpy(after, task.name, 8);
    if (mvs_next_task(&session, after, &task) != MVS_STATUS_OK || !is_named(task.name, "JOB") || !is_named(task.mother, "")) return 349;
    mvs_name(after, "JOBX");
    if (mvs_next_task(&session, after, &task) != MVS_STATUS_OK || !is_named(task.name, "ZULU") || !is_named(task.mother, "JOB")) return 350;
    mvs_name(after, "ZULU");
    if (mvs_next_task(&session, after, &task) != MVS_STATUS_NO_MORE || !is_named(task.name, "ZULU")) return 351;
    pool.length = 12, pool.primary = 1;
    mvs_name(pool.name, "P2");
    if (requested(pool) != MVS_EVENT_RC_0) return 352;
    mvs_name(pool.name, "P1");
    if (requested(pool) != MVS_EVENT_RC_0) return 353;
    if (mvs_next_pool(&session, (const uint8_t *)"        ", name) != MVS_STATUS_OK || !is_named(name, "P1")) return 354;
    memcpy(after, name, 8);
    if (mvs_next_pool(&session, after, name) != MVS_STATUS_OK || !is_named(name, "P2")) return 355;
    memcpy(after, name, 8);
    if (mvs_next_pool(&session, after, name) != MVS_STATUS_NO_MORE || !is_named(name, "P2")) return 356;
    mvs_free(&session);
    return 0;
}

/* The event of a line, or none. */
static uint32_t replied(mvs_session *to, const char *text) {
    return mvs_line(to, text, strlen(text), &event) == MVS_STATUS_OK ? event.kind : 0xFFFFFFFFu;
}

/* Whether two sessions print the same. */
static bool prints_alike(mvs_session *one, mvs_session *other) {
    char first[512], second[512];
    size_t length = 0, other_length = 1;
    if (mvs_text(one, first, sizeof first, &length) != MVS_STATUS_OK || mvs_text(other, second, sizeof second, &other_length) != MVS_STATUS_OK) return false;
    return length == other_length && memcmp(first, second, length) == 0;
}

/* A copy of a session that has none, has no line yet, and has names, bytes, tasks, pools and a refusal. */
static int copies(void) {
    mvs_session copy = MVS_SESSION_INIT;
    uint8_t bytes[4] = {0}, name[8] = {0};
    char why[512], other_why[512];
    size_t length = 0, other_length = 1;
    uint32_t area, cell, other;
    if (mvs_clone(&session, &copy) != MVS_STATUS_NO_SESSION || copy.held) return 360;
    if (mvs_new(&session, MVS_PLACE_HIGH) != MVS_STATUS_OK || mvs_clone(&session, &copy) != MVS_STATUS_OK) return 361;
    if (answered("JOB REGION BELOW=4,ABOVE=2") != MVS_EVENT_STEP_BEGAN || replied(&copy, "JOB REGION BELOW=1") != MVS_EVENT_STEP_BEGAN) return 362;
    if (replied(&copy, "JOB GETMAIN R,LV=8,A=Z") != MVS_EVENT_RC_0 || replied(&copy, "JOB WHERE Z") != MVS_EVENT_AT || event.address != 0x6FF8) return 363;
    if (answered("JOB GETMAIN RC,LV=16,SP=2,A=X") != MVS_EVENT_RC_0 || answered("JOB WHERE X") != MVS_EVENT_AT) return 364;
    area = event.address;
    if (answered("JOB PUT X,X'C1C2C3C4'") != MVS_EVENT_DONE) return 365;
    if (answered("JOB CPOOL BUILD,CPID=P,CSIZE=16,PCELLCT=2") != MVS_EVENT_RC_0 || answered("JOB CPOOL GET,CPID=P,CELL=C") != MVS_EVENT_CELL) return 366;
    if (answered("JOB WHERE C") != MVS_EVENT_AT) return 367;
    cell = event.address;
    if (answered("JOB ATTACH TASK=A") != MVS_EVENT_ATTACHED || answered("A ATTACH TASK=B") != MVS_EVENT_ATTACHED) return 368;
    if (answered("JOB ATTACH TASK=D") != MVS_EVENT_ATTACHED || answered("A ABEND 7") != MVS_EVENT_ABENDED) return 369;
    if (mvs_clone(&session, &copy) != MVS_STATUS_OK || !prints_alike(&session, &copy)) return 370;
    if (mvs_fallen(&copy, 0, name) != MVS_STATUS_OK || !is_named(name, "B") || mvs_fallen(&copy, 1, name) != MVS_STATUS_NO_MORE) return 371;
    if (mvs_why(&session, why, sizeof why, &length) != MVS_STATUS_OK || mvs_why(&copy, other_why, sizeof other_why, &other_length) != MVS_STATUS_OK) return 372;
    if (length == 0 || length != other_length || memcmp(why, other_why, length) != 0) return 373;
    if (replied(&copy, "JOB WHERE X") != MVS_EVENT_AT || event.address != area || replied(&copy, "JOB WHERE C") != MVS_EVENT_AT || event.address != cell) return 374;
    if (mvs_read(&copy, area, bytes, 4) != MVS_STATUS_OK || memcmp(bytes, "\xC1\xC2\xC3\xC4", 4) != 0) return 375;
    if (answered("JOB GETMAIN RC,LV=24,SP=9,A=Y") != MVS_EVENT_RC_0 || replied(&copy, "JOB GETMAIN RC,LV=24,SP=9,A=Y") != MVS_EVENT_RC_0) return 376;
    if (answered("JOB WHERE Y") != MVS_EVENT_AT) return 377;
    other = event.address;
    if (replied(&copy, "JOB WHERE Y") != MVS_EVENT_AT || event.address != other) return 378;
    if (replied(&copy, "JOB PUT X,X'00000000'") != MVS_EVENT_DONE || mvs_read(&session, area, bytes, 4) != MVS_STATUS_OK || bytes[0] != 0xC1) return 379;
    if (answered("JOB FREEMAIN RC,LV=16,SP=2,A=X") != MVS_EVENT_RC_0 || mvs_read(&session, area, bytes, 4) != MVS_STATUS_NO_ACCESS) return 380;
    if (mvs_read(&copy, area, bytes, 4) != MVS_STATUS_OK || bytes[0] != 0) return 381;
    if (answered("D RETURN") != MVS_EVENT_ENDED || answered("D RETURN") != MVS_EVENT_NOT_RUN || replied(&copy, "D RETURN") != MVS_EVENT_ENDED) return 382;
    if (replied(&copy, "JOB CPOOL GET,C,CPID=P,CELL=E") != MVS_EVENT_CELL || answered("JOB CPOOL GET,C,CPID=P,CELL=E") != MVS_EVENT_CELL) return 383;
    if (replied(&copy, "JOB WHERE E") != MVS_EVENT_AT || event.address == cell) return 384;
    cell = event.address;
    if (answered("JOB WHERE E") != MVS_EVENT_AT || event.address != cell) return 385;
    mvs_free(&session);
    if (replied(&copy, "JOB WHERE Y") != MVS_EVENT_AT || event.address != other || mvs_end(&copy, &event) != MVS_STATUS_SOME_ABEND) return 386;
    if (mvs_clone(&copy, &session) != MVS_STATUS_OK || mvs_end(&session, &event) != MVS_STATUS_OVER) return 387;
    mvs_free(&copy);
    mvs_free(&session);
    return 0;
}

/* The bytes that mvs_lend returns are those, and as many, as can be read. */
static bool is_lent(uint32_t address, size_t wanted) {
    const uint8_t *bytes = NULL;
    uint8_t read[8192];
    size_t length = 0;
    if (mvs_lend(&session, address, &bytes, &length) != MVS_STATUS_OK || length != wanted) return false;
    if (mvs_read(&session, address, read, length) != MVS_STATUS_OK || memcmp(bytes, read, length) != 0) return false;
    return mvs_read(&session, address, read, length + 1) == MVS_STATUS_NO_ACCESS;
}

/* A call that returns none leaves what it is passed. */
static bool lends_nothing(uint32_t address, uint32_t status) {
    uint8_t own[2] = {1, 2};
    const uint8_t *bytes = own;
    size_t length = 2;
    mvs_bytes lent = {own, 2};
    if (mvs_lend(&session, address, &bytes, &length) != status || bytes != own || length != 2) return false;
    return mvs_lend_bytes(&session, address, &lent) == status && lent.bytes == own && lent.length == 2;
}

static int lent(void) {
    const uint8_t *bytes = NULL;
    size_t length = 0;
    uint8_t written[3] = {1, 2, 3};
    uint32_t cell;
    mvs_map_run run = MVS_MAP_RUN_INIT;
    mvs_held_run held = MVS_HELD_RUN_INIT;
    mvs_reason reason = MVS_REASON_INIT;
    mvs_task_line task = MVS_TASK_LINE_INIT;
    if (!lends_nothing(0x6000, MVS_STATUS_NO_SESSION)) return 520;
    if (mvs_new(&session, MVS_PLACE_LOW) != MVS_STATUS_OK || !lends_nothing(0x6000, MVS_STATUS_NO_ACCESS)) return 521;
    if (answered("JOB REGION BELOW=4,ABOVE=1,FILL=C1") != MVS_EVENT_STEP_BEGAN || !lends_nothing(0x6000, MVS_STATUS_NO_ACCESS)) return 522;
    if (answered("JOB GETMAIN RC,LV=100,SP=2,A=X") != MVS_EVENT_RC_0 || !is_lent(0x6000, 104) || !is_lent(0x6007, 97) || !is_lent(0x6067, 1)) return 523;
    if (!lends_nothing(0x6068, MVS_STATUS_NO_ACCESS) || !lends_nothing(0x7FFFFFFF, MVS_STATUS_NO_ACCESS) || !lends_nothing(0xFFFFFFFFu, MVS_STATUS_NO_ACCESS)) return 524;
    if (answered("JOB GETMAIN RC,LV=4096,SP=3,A=Y") != MVS_EVENT_RC_0 || !is_lent(0x7000, 4096) || !is_lent(0x6000, 104)) return 525;
    if (answered("JOB GETMAIN RC,LV=3992,SP=2,A=Z") != MVS_EVENT_RC_0 || !is_lent(0x6000, 8192) || !is_lent(0x6800, 6144) || !is_lent(0x7FFF, 1)) return 526;
    if (answered("JOB CPOOL BUILD,CPID=P,CSIZE=24,PCELLCT=3,SP=4") != MVS_EVENT_RC_0 || !is_lent(0x6000, 8192) || !lends_nothing(0x8000, MVS_STATUS_NO_ACCESS)) return 527;
    if (answered("JOB CPOOL GET,CPID=P,CELL=C") != MVS_EVENT_CELL || answered("JOB WHERE C") != MVS_EVENT_AT) return 528;
    cell = event.address;
    if (!is_lent(cell, 24) || !is_lent(cell + 3, 21) || !lends_nothing(cell + 24, MVS_STATUS_NO_ACCESS)) return 538;
    if (answered("JOB CPOOL GET,CPID=P,CELL=D") != MVS_EVENT_CELL || answered("JOB CPOOL GET,CPID=P,CELL=E") != MVS_EVENT_CELL) return 539;
    if (!is_lent(cell, 72) || !is_lent(cell + 3, 69) || !is_lent(0x7FF8, 8)) return 540;
    if (mvs_write(&session, 0x6003, written, 3) != MVS_STATUS_OK || mvs_lend(&session, 0x6002, &bytes, &length) != MVS_STATUS_OK) return 529;
    if (memcmp(bytes, "\xC1\1\2\3\xC1", 5) != 0) return 530;
    if (mvs_map(&session, 0, &run) != MVS_STATUS_OK || mvs_held(&session, 0, &held) != MVS_STATUS_OK || mvs_why_fields(&session, &reason) != MVS_STATUS_NO_MORE) return 536;
    if (mvs_next_task(&session, named(""), &task) != MVS_STATUS_OK || memcmp(bytes, "\xC1\1\2\3\xC1", 5) != 0) return 537;
    if (answered("JOB FREEMAIN RC,LV=8,SP=2,A=X+16") != MVS_EVENT_RC_0 || !is_lent(0x6000, 16) || !lends_nothing(0x6010, MVS_STATUS_NO_ACCESS)) return 531;
    if (answered("JOB REGION BELOW=2048,ABOVE=8192") != MVS_EVENT_STEP_BEGAN || answered("JOB GETMAIN RC,LV=33550336,LOC=ANY,A=X") != MVS_EVENT_RC_0) return 532;
    if (mvs_lend(&session, 0x1000000, &bytes, &length) != MVS_STATUS_OK || length != 33550336 || bytes[length - 1] != 0) return 533;
    if (mvs_lend(&session, 0x2FFEFFE, &bytes, &length) != MVS_STATUS_OK || length != 2) return 534;
    if (mvs_end(&session, &event) != MVS_STATUS_OK || mvs_lend(&session, 0x1000000, &bytes, &length) != MVS_STATUS_OK || length != 33550336) return 535;
    mvs_free(&session);
    return 0;
}

#include "recording.h"
#include "no_bytes.h"

int main(void) {
    int failed = without_session();
    if (!failed) failed = events();
    if (!failed) failed = text();
    if (!failed) failed = whole();
    if (!failed) failed = areas();
    if (!failed) failed = lists();
    if (!failed) failed = pools_and_tasks();
    if (!failed) failed = fields();
    if (!failed) failed = surface();
    if (!failed) failed = tried();
    if (!failed) failed = begun();
    if (!failed) failed = held_runs();
    if (!failed) failed = reasons();
    if (!failed) failed = reason_fields();
    if (!failed) failed = reasons_of_names();
    if (!failed) failed = tasks_and_pools();
    if (!failed) failed = copies();
    if (!failed) failed = lent();
    if (!failed) failed = without_bytes();
    if (!failed) failed = effects();
    if (!failed) failed = list_statements();
    if (!failed) failed = statements();
    if (failed) fprintf(stderr, "library.c: check %d failed\n", failed);
    return failed != 0;
}
