/* The effects of requests, and the statements of lists: a part of library.c, whose session and functions it uses. */
/* Whether an effect of this index has a kind and a rule. */
static bool has_effect(size_t index, uint32_t kind, uint32_t rule, mvs_effect_line *effect) {
    return mvs_effect(&session, index, effect) == MVS_STATUS_OK && effect->kind == kind && effect->rule == rule;
}

/* The effects of requests, and when there are none. */
static int effects(void) {
    mvs_effect_line effect = MVS_EFFECT_LINE_INIT, other = MVS_EFFECT_LINE_INIT;
    mvs_session copy = MVS_SESSION_INIT;
    mvs_ask ask;
    uint8_t byte = 1;
    memset(&ask, 0, sizeof ask);
    ask.size = sizeof ask, ask.kind = MVS_ASK_OBTAIN, ask.form = MVS_FORM_VRC, ask.subpool = 5, ask.length = 40000, ask.least = 8;
    mvs_name(ask.task, "JOB");
    if (mvs_record(&session) != MVS_STATUS_NO_SESSION || mvs_effect(&session, 0, &effect) != MVS_STATUS_NO_SESSION) return 400;
    if (mvs_new(&session, MVS_PLACE_LOW) != MVS_STATUS_OK || answered("JOB REGION BELOW=4") != MVS_EVENT_STEP_BEGAN) return 401;
    if (answered("JOB GETMAIN R,LV=8,A=X") != MVS_EVENT_RC_0 || mvs_effect(&session, 0, &effect) != MVS_STATUS_NO_MORE) return 402;
    if (mvs_record(&session) != MVS_STATUS_OK || mvs_effect(&session, 0, &effect) != MVS_STATUS_NO_MORE || effect.kind != 0) return 403;
    effect.size = 71;
    if (mvs_effect(&session, 0, &effect) != MVS_STATUS_WRONG_SIZE) return 404;
    effect = other;
    if (mvs_request(&session, &ask, &event) != MVS_STATUS_OK || event.kind != MVS_EVENT_GRANTED) return 405;
    if (!has_effect(0, MVS_EFFECT_OBTAINED, 20, &effect) || effect.address != event.address || effect.length != event.length) return 406;
    if (effect.least != 8 || effect.most != 40000 || effect.number != 5 || !is_named(effect.owner, "JOB")) return 407;
    if (!has_effect(1, MVS_EFFECT_NO_GREATER, 20, &effect) || effect.pages != 3 || effect.pages_above != 0) return 408;
    if (!has_effect(2, MVS_EFFECT_NEW_SUBPOOL, 42, &effect) || effect.number != 5 || effect.length != 0) return 409;
    if (!has_effect(3, MVS_EFFECT_PAGES_ASSIGNED, 5, &effect) || effect.pages != 3 || mvs_effect(&session, 4, &effect) != MVS_STATUS_NO_MORE) return 410;
    if (mvs_record(&session) != MVS_STATUS_OK || mvs_clone(&session, &copy) != MVS_STATUS_OK) return 411;
    if (mvs_write(&session, event.address, &byte, 1) != MVS_STATUS_OK || mvs_effect(&session, 0, &effect) != MVS_STATUS_NO_MORE) return 412;
    if (mvs_effect(&copy, 3, &other) != MVS_STATUS_OK || other.pages != 3) return 413;
    mvs_free(&copy);
    if (answered("JOB GETMAIN RC,LV=8,A=Y,SP=6") != MVS_EVENT_RC_4 || mvs_effect(&session, 0, &effect) != MVS_STATUS_NO_MORE) return 414;
    if (answered("JOB FREEMAIN R,SP=5") != MVS_EVENT_RC_0 || !has_effect(0, MVS_EFFECT_EMPTIED, 34, &effect) || !has_effect(1, MVS_EFFECT_PAGES_FREED, 5, &effect)) return 415;
    if (answered("JOB WHERE X") != MVS_EVENT_AT || mvs_effect(&session, 0, &effect) != MVS_STATUS_NO_MORE) return 416;
    if (answered("JOB ATTACH TASK=A,SHSPV=5") != MVS_EVENT_ATTACHED || !has_effect(0, MVS_EFFECT_SHARED, 44, &effect) || !is_named(effect.task, "A")) return 417;
    if (answered("A ABEND 1") != MVS_EVENT_ABENDED || !has_effect(0, MVS_EFFECT_REMAINS, 53, &effect) || !is_named(effect.task, "A")) return 418;
    if (answered("JOB GETMAIN R,LV=99999,A=Z") != MVS_EVENT_ABENDED || !has_effect(0, MVS_EFFECT_FREED, 52, &effect) || effect.length != 8 || effect.pages != 1) return 419;
    if (answered("JOB RETURN") != MVS_EVENT_NOT_RUN || mvs_effect(&session, 0, &effect) != MVS_STATUS_NO_MORE) return 420;
    if (mvs_end(&session, &event) != MVS_STATUS_SOME_ABEND || mvs_effect(&session, 0, &effect) != MVS_STATUS_NO_MORE) return 421;
    mvs_free(&session);
    return 0;
}

/* The statements of lists. */
static int list_statements(void) {
    mvs_ask ask;
    mvs_area areas[17];
    uint8_t base[8] = "X";
    char out[256] = {7};
    size_t wanted = 7, i;
    static const char obtain[] = "JOB GETMAIN LC,LA=(100,8),A=(XA,XB),SP=3,BNDRY=PAGE", release[] = "JOB FREEMAIN LU,LA=(100,8),A=(X'00006000',X'01000008'),SP=0";
    memset(&ask, 0, sizeof ask);
    ask.size = sizeof ask, ask.kind = MVS_ASK_OBTAIN, ask.form = MVS_FORM_LC, ask.subpool = 3, ask.boundary = 12;
    mvs_name(ask.task, "JOB");
    for (i = 0; i < 17; i++) areas[i].address = 0x6000, areas[i].length = i ? 8 : 100;
    if (mvs_list_statement_into(&ask, areas, 2, base, out, sizeof out, &wanted) != MVS_STATUS_OK || wanted != sizeof obtain - 1 || memcmp(out, obtain, wanted) != 0) return 430;
    if (mvs_list_statement(&ask, areas, 2, NULL, 0, &wanted) != MVS_STATUS_TOO_SMALL || wanted != sizeof obtain + 11) return 431;
    ask.kind = MVS_ASK_RELEASE, ask.form = MVS_FORM_LU, ask.subpool = 0, areas[1].address = 0x1000008;
    if (mvs_list_statement(&ask, areas, 2, out, sizeof out, &wanted) != MVS_STATUS_OK || wanted != sizeof release - 1 || memcmp(out, release, wanted) != 0) return 432;
    wanted = 7;
    if (mvs_list_statement(&ask, areas, 16, out, sizeof out, &wanted) != MVS_STATUS_TOO_LONG || wanted != 7) return 433;
    if (mvs_list_statement(&ask, areas, 17, out, sizeof out, &wanted) != MVS_STATUS_NO_REQUEST || mvs_list_statement(&ask, areas, 0, out, sizeof out, &wanted) != MVS_STATUS_NO_REQUEST) return 434;
    mvs_name(base, "TOOLONGX");
    if (mvs_list_statement_into(&ask, areas, 2, base, out, sizeof out, &wanted) != MVS_STATUS_NO_REQUEST) return 435;
    mvs_name(base, "9X");
    if (mvs_list_statement_into(&ask, areas, 2, base, out, sizeof out, &wanted) != MVS_STATUS_NO_REQUEST) return 436;
    ask.form = MVS_FORM_RC;
    if (mvs_list_statement(&ask, areas, 2, out, sizeof out, &wanted) != MVS_STATUS_NO_REQUEST || wanted != 7) return 437;
    return 0;
}
