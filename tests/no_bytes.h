/* A session without bytes beside one with bytes, and the pages that events change: a part of library.c, whose session and functions it uses. */
enum { PAGES = 12288 };

/* Writes for each page whether the map of a session shows it as assigned. */
static void assigned_pages(mvs_session *of, bool *assigned) {
    mvs_map_run run = MVS_MAP_RUN_INIT;
    uint32_t from, page;
    memset(assigned, 0, PAGES * sizeof *assigned);
    for (from = 0; mvs_map(of, from, &run) == MVS_STATUS_OK; from = run.address + run.length)
        for (page = run.address / 4096; page < (run.address + run.length) / 4096; page++) assigned[page] = run.assigned;
}

/* Whether mvs_changed_pages returns the first and the last page of those that differ, and then that there are none. */
static bool changed_so(mvs_session *of, const bool *before, const bool *after) {
    mvs_pages pages = MVS_PAGES_INIT;
    uint32_t page, first = PAGES, last = 0;
    for (page = 0; page < PAGES; page++)
        if (before[page] != after[page]) first = first < page ? first : page, last = page;
    if (first == PAGES) return mvs_changed_pages(of, &pages) == MVS_STATUS_NO_MORE && pages.first == 0 && pages.last == 0;
    if (mvs_changed_pages(of, &pages) != MVS_STATUS_OK || pages.first != 4096 * first || pages.last != 4096 * last) return false;
    return mvs_changed_pages(of, &pages) == MVS_STATUS_NO_MORE && pages.first == 4096 * first;
}

/* Whether two sessions print the same, and have the same pages. */
static bool are_alike(mvs_session *one, mvs_session *other, bool *pages) {
    static bool others[PAGES];
    char text[2][4096];
    size_t length[2] = {0, 0};
    if (mvs_text(one, text[0], sizeof text[0], &length[0]) != MVS_STATUS_OK || mvs_text(other, text[1], sizeof text[1], &length[1]) != MVS_STATUS_OK) return false;
    assigned_pages(one, pages);
    assigned_pages(other, others);
    return length[0] == length[1] && memcmp(text[0], text[1], length[0]) == 0 && memcmp(pages, others, sizeof others) == 0;
}

/* Whether a line that needs bytes is refused, by mvs_line and by mvs_try, and nothing changes. */
static bool line_lacks(mvs_session *without, const char *text) {
    mvs_event kept = event;
    if (mvs_line(without, text, strlen(text), &event) != MVS_STATUS_NO_BYTES || memcmp(&kept, &event, sizeof kept) != 0) return false;
    return mvs_execute(without, text, &event) == MVS_STATUS_NO_BYTES && memcmp(&kept, &event, sizeof kept) == 0;
}

static const char *const LINES[] = {
    "JOB REGION BELOW=16,ABOVE=8,FILL=C1", "* a comment", "JOB GETMAIN RC,LV=8192,SP=2,A=X", "JOB GETMAIN RC,LV=8,SP=2,A=Y",
    "JOB STORAGE OBTAIN,LENGTH=4096,SP=3,LOC=ANY,ADDR=Z", "JOB CPOOL BUILD,CPID=P,CSIZE=4000,PCELLCT=1,SP=4", "JOB CPOOL GET,CPID=P,CELL=C",
    "JOB CPOOL GET,CPID=P,CELL=D", "JOB FREEMAIN RC,LV=4096,SP=2,A=X", "JOB ATTACH TASK=SUB,GSPV=3", "SUB GETMAIN RC,LV=4096,SP=5,A=V",
    "SUB GETMAIN LC,LA=(8,5000),A=(L,M),SP=6", "JOB REPORT MAP", "SUB WHERE V", "SUB RETURN", "JOB GETMAIM", "JOB FREEMAIN RC,SP=2",
    "JOB CPOOL DELETE,CPID=P", "JOB GETMAIN RC,LV=16777216,A=W", "JOB GETMAIN RC,LV=8,A=W", "JOB GETMAIN R,LV=16777216,A=W", "JOB RETURN",
    "JOB REGION BELOW=2", "JOB GETMAIN RC,LV=4096,SP=1,A=X", "JOB REGION BELOW=1,ABOVE=1"
};

static int without_bytes(void) {
    static bool before[PAGES], after[PAGES];
    mvs_session with = MVS_SESSION_INIT, copy = MVS_SESSION_INIT;
    mvs_event other = MVS_EVENT_INIT;
    mvs_pages pages = MVS_PAGES_INIT;
    mvs_ask move = asked(MVS_ASK_MOVE, "JOB"), show = asked(MVS_ASK_SHOW, "JOB");
    uint8_t bytes[4] = {7, 7, 7, 7};
    char out[8] = {7};
    size_t i, wanted = 7;
    uint32_t place;
    for (place = 0; place < 0x400; place++) {
        bool is_place = place == 1 || place == 2 || place == 0x101 || place == 0x102;
        if (mvs_new(&session, place) != (is_place ? MVS_STATUS_OK : MVS_STATUS_NO_PLACE)) return 560;
    }
    if (mvs_run(MVS_PLACE_LOW | MVS_NO_BYTES, "", 0, out, sizeof out, &wanted) != MVS_STATUS_NO_PLACE || wanted != 7) return 561;
    mvs_free(&session);
    if (mvs_changed_pages(&session, &pages) != MVS_STATUS_NO_SESSION) return 562;
    if (mvs_new(&with, MVS_PLACE_LOW) != MVS_STATUS_OK || mvs_new(&session, MVS_PLACE_LOW | MVS_NO_BYTES) != MVS_STATUS_OK) return 563;
    pages.size = 11;
    if (mvs_changed_pages(&session, &pages) != MVS_STATUS_WRONG_SIZE) return 564;
    if (!changed_so(&session, before, after) || !lends_nothing(0x6000, MVS_STATUS_NO_BYTES)) return 565;
    for (i = 0; i < sizeof LINES / sizeof LINES[0]; i++) {
        if (mvs_execute(&session, LINES[i], &event) != mvs_execute(&with, LINES[i], &other) || memcmp(&event, &other, sizeof event) != 0) return 600 + (int)i;
        if (!are_alike(&session, &with, after) || !changed_so(&session, before, after)) return 650 + (int)i;
        memcpy(before, after, sizeof before);
        if (i == 2 && (!line_lacks(&session, "JOB SHOW X,4") || !line_lacks(&session, "JOB PUT X,X'C2'") || !line_lacks(&session, "SUB MOVE X,X+8,8"))) return 566;
        if (i == 2 && mvs_execute(&session, "JOB SHOW X,0", &event) != MVS_STATUS_SCRIPT_FAULT) return 567;
    }
    pages.size = sizeof pages;
    if (mvs_changed_pages(&with, &pages) != MVS_STATUS_NO_MORE) return 568;
    if (answered("JOB GETMAIN RC,LV=4096,A=X") != MVS_EVENT_RC_0 || mvs_clone(&session, &copy) != MVS_STATUS_OK) return 569;
    assigned_pages(&session, after);
    if (!changed_so(&copy, before, after) || !changed_so(&session, before, after)) return 570;
    if (mvs_read(&session, 0x6000, bytes, 4) != MVS_STATUS_NO_BYTES || bytes[0] != 7 || mvs_write(&session, 0x6000, bytes, 4) != MVS_STATUS_NO_BYTES) return 571;
    move.address = 0x6000, move.source = 0x6008, move.length = 8, show.address = 0x6000, show.length = 4;
    event.kind = 77;
    if (mvs_request(&session, &move, &event) != MVS_STATUS_NO_BYTES || event.kind != 77) return 572;
    if (mvs_request(&session, &show, &event) != MVS_STATUS_OK || event.kind != MVS_EVENT_DONE) return 573;
    move.length = 0;
    if (mvs_request(&session, &move, &event) != MVS_STATUS_NO_REQUEST) return 574;
    show.address = 0x8000;
    if (mvs_request(&session, &show, &event) != MVS_STATUS_OK || event.kind != MVS_EVENT_ABENDED || event.code != 0x0C4000) return 575;
    memcpy(before, after, sizeof before);
    assigned_pages(&session, after);
    if (!changed_so(&session, before, after) || mvs_end(&session, &event) != MVS_STATUS_SOME_ABEND || mvs_changed_pages(&session, &pages) != MVS_STATUS_NO_MORE) return 576;
    if (mvs_read(&session, 0x6000, bytes, 4) != MVS_STATUS_NO_BYTES || line("JOB SHOW X,4") != MVS_STATUS_OVER) return 577;
    mvs_free(&session);
    mvs_free(&with);
    mvs_free(&copy);
    return 0;
}
