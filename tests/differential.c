/* differential.c: random requests by values against the same requests as lines, in two sessions; and in a third one against the lines
 * that mvs_log.h writes of them.
 *
 *     differential FIRST COUNT
 *
 * runs COUNT sequences of requests, from seed FIRST on. After each request the events, the tasks that ended, the areas, the pages, the
 * subpools and some bytes have to be the same. A request that is refused as values has to be a fault as a line, and the other way
 * round. It prints the first difference with the lines before it, and the exit status is then 1; or what it did. */
#include <mvs_log.h>

#include <stdlib.h>

enum { REQUESTS = 60, MOST_HELD = 256, MOST_AREAS = 17 };

static const char *const FORMS[] = {"", "R", "RC", "RU", "VRC", "VRU", "EC", "EU", "VC", "VU", "", "", "LC", "LU"};
static const char *const TASKS[] = {"JOB", "A", "B2", "SUBTASK8", "#X", "9NO"};
static const char *const POOLS[] = {"P1", "P2", "POOLTHRE", "@P4", "p5"};

/* A request by values, and its line. */
typedef struct request {
    mvs_ask ask;
    mvs_area areas[MOST_AREAS];
    size_t count; /* of areas; 0: it is no list */
    char line[1024];
    const char *task;
    char area_name[8]; /* that the line sets */
} request;

/* An area or a cell that was granted, and its name in the session that gets lines. */
typedef struct held {
    uint32_t address, length, subpool;
    const char *pool;
    char name[8];
} held;

static mvs_session by_values = MVS_SESSION_INIT, by_lines = MVS_SESSION_INIT, by_log = MVS_SESSION_INIT;
static held areas[MOST_HELD];
static size_t held_count, pools_built;
static const char *last_pool;
static unsigned long seed, served, refused, kinds[32], effects[16];
static char lines_so_far[1 << 16];

/* ---- random numbers */

static uint64_t state;

static uint32_t below(uint32_t bound) {
    state ^= state << 13, state ^= state >> 7, state ^= state << 17;
    return (uint32_t)(state >> 20) % bound;
}

static bool one_in(uint32_t bound) {
    return below(bound) == 0;
}

static uint32_t any_length(void) {
    static const uint32_t rare[] = {0, 1, 4096, 8192, 65536, 0x7FFFFFFF, 0x80000000u, 0xFFFFFFFFu};
    return one_in(12) ? rare[below(8)] : 1 + below(one_in(3) ? 20000 : 600);
}

static uint32_t any_subpool(void) {
    static const uint32_t rare[] = {127, 128, 131, 132, 255, 256, 0xFFFFFFFFu};
    return one_in(15) ? rare[below(7)] : below(6);
}

static uint32_t any_address(void) {
    static const uint32_t rare[] = {0, 0x7FFFFFF8, 0x80000000u, 0xFFFFFFFFu};
    return one_in(10) ? rare[below(4)] : (one_in(5) ? 0x1000000 : 0x6000) + 8 * below(4096) + (one_in(6) ? below(8) : 0);
}

static const held *any_held(void) {
    return held_count && !one_in(20) ? &areas[below((uint32_t)held_count)] : NULL;
}

/* ---- lines */

static void append(request *r, const char *format, ...) {
    size_t used = strlen(r->line);
    va_list arguments;
    va_start(arguments, format);
    vsnprintf(r->line + used, sizeof r->line - used, format, arguments);
    va_end(arguments);
}

static void begin(request *r, uint32_t kind, const char *operation) {
    static uint32_t serial;
    memset(r, 0, sizeof *r);
    r->task = TASKS[one_in(4) ? below(6) : 0];
    r->ask.size = sizeof r->ask;
    r->ask.kind = kind;
    mvs_name(r->ask.task, r->task);
    if (one_in(2)) memset(r->ask.task + strlen(r->task), 0, 8 - strlen(r->task));
    snprintf(r->area_name, sizeof r->area_name, "N%" PRIu32, serial++ % 1000000);
    append(r, "%s %s ", r->task, operation);
}

static bool is_storage(uint32_t form) {
    return form == MVS_FORM_STORAGE || form == MVS_FORM_STORAGE_CONDITIONAL;
}

static bool is_located(uint32_t form) {
    return (form >= MVS_FORM_RC && form <= MVS_FORM_VRU) || is_storage(form);
}

/* A form, mostly a conditional one. */
static uint32_t any_form(void) {
    static const uint32_t conditional[] = {MVS_FORM_RC, MVS_FORM_VRC, MVS_FORM_EC, MVS_FORM_VC, MVS_FORM_STORAGE_CONDITIONAL};
    return one_in(6) ? 1 + below(11) : conditional[below(5)];
}

/* The operands of an obtain of one area, whether its form takes them or not. */
static void obtain(request *r) {
    uint32_t form = any_form();
    begin(r, MVS_ASK_OBTAIN, is_storage(form) ? "STORAGE" : "GETMAIN");
    mvs_ask *a = &r->ask;
    a->form = form, a->subpool = any_subpool(), a->length = any_length();
    if (one_in(3) || (form >= MVS_FORM_VRC && form <= MVS_FORM_VRU) || form == MVS_FORM_VC || form == MVS_FORM_VU)
        a->least = one_in(9) ? below(2) * any_length() : 1 + below(a->length && a->length < 100000 ? a->length : 1000);
    if (one_in(3)) a->boundary = one_in(2) ? (one_in(2) ? 3 : 12) : below(34);
    if (one_in(5)) a->within = one_in(9) ? below(34) : 6 + below(20);
    if (one_in(3)) a->location = below(4);
    if (is_storage(form)) append(r, "OBTAIN,ADDR=%s,LENGTH=", r->area_name);
    else append(r, "%s,A=%s,LV=", FORMS[form], r->area_name);
    append(r, a->least ? "(%" PRIu32 ",%" PRIu32 ")" : "%" PRIu32, a->length, a->least);
    append(r, ",SP=%" PRIu32, a->subpool);
    if (form == MVS_FORM_STORAGE_CONDITIONAL) append(r, ",COND=YES");
    if (a->boundary && !is_located(form) && (a->boundary == 3 || a->boundary == 12)) append(r, ",BNDRY=%s", a->boundary == 3 ? "DBLWD" : "PAGE");
    else if (a->boundary) append(r, ",STARTBDY=%" PRIu32, a->boundary);
    if (a->within) append(r, ",CONTBDY=%" PRIu32, a->within);
    if (a->location) append(r, ",LOC=%s", a->location == 1 ? "BELOW" : a->location == 2 ? "ANY" : "WHAT");
}

static void release(request *r) {
    const held *area = any_held();
    uint32_t form = any_form();
    begin(r, MVS_ASK_RELEASE, is_storage(form) ? "STORAGE" : "FREEMAIN");
    mvs_ask *a = &r->ask;
    a->form = form;
    a->subpool = area && !one_in(6) ? area->subpool : any_subpool();
    a->address = area ? area->address : any_address();
    a->length = area ? area->length : any_length();
    if (form == MVS_FORM_VC || form == MVS_FORM_VU) {
        /* A line has the name of an area; the values are its place. */
        if (!area) a->form = MVS_FORM_RC, append(r, "RC,A=X'%" PRIX32 "',LV=%" PRIu32, a->address, a->length);
        else append(r, "%s,A=%s", FORMS[form], area->name);
    } else {
        if (area && one_in(3)) a->address += 8, a->length -= a->length > 8 ? 8 : 0;
        if (area && one_in(40)) a->address += 1 + below(7);
        if (is_storage(form)) append(r, "RELEASE,ADDR=X'%" PRIX32 "',LENGTH=%" PRIu32, a->address, a->length);
        else append(r, "%s,A=X'%" PRIX32 "',LV=%" PRIu32, FORMS[form], a->address, a->length);
        if (form == MVS_FORM_STORAGE_CONDITIONAL) append(r, ",COND=YES");
    }
    append(r, ",SP=%" PRIu32, a->subpool);
}

static void release_whole(request *r) {
    uint32_t form = any_form();
    begin(r, MVS_ASK_RELEASE_WHOLE, is_storage(form) ? "STORAGE" : "FREEMAIN");
    r->ask.form = form, r->ask.subpool = any_subpool();
    append(r, "%s,SP=%" PRIu32, is_storage(form) ? "RELEASE" : FORMS[form], r->ask.subpool);
    if (form == MVS_FORM_STORAGE_CONDITIONAL) append(r, ",COND=YES");
}

static void list(request *r) {
    bool obtains = one_in(2);
    begin(r, obtains ? MVS_ASK_OBTAIN : MVS_ASK_RELEASE, obtains ? "GETMAIN" : "FREEMAIN");
    r->ask.form = one_in(2) ? MVS_FORM_LC : MVS_FORM_LU;
    r->ask.subpool = any_subpool();
    r->count = one_in(20) ? MOST_AREAS : 1 + below(4);
    for (size_t i = 0; i < r->count; i++) {
        const held *area = any_held();
        r->areas[i].address = area ? area->address : any_address();
        r->areas[i].length = obtains ? (one_in(20) ? any_length() : 1 + below(3000)) : area ? area->length : any_length();
        if (area && !obtains) r->ask.subpool = area->subpool;
    }
    append(r, "%s,SP=%" PRIu32 ",LA=(", FORMS[r->ask.form], r->ask.subpool);
    for (size_t i = 0; i < r->count; i++) append(r, "%s%" PRIu32, i ? "," : "", r->areas[i].length);
    append(r, "),A=(");
    r->area_name[6] = 0;
    for (size_t i = 0; i < r->count; i++)
        obtains ? append(r, "%s%s%c", i ? "," : "", r->area_name, (int)('A' + i)) : append(r, "%sX'%" PRIX32 "'", i ? "," : "", r->areas[i].address);
    append(r, ")");
    if (obtains && one_in(4)) {
        r->ask.boundary = one_in(3) ? 13 : one_in(2) ? 3 : 12;
        append(r, r->ask.boundary == 13 ? ",STARTBDY=13" : r->ask.boundary == 3 ? ",BNDRY=DBLWD" : ",BNDRY=PAGE");
    }
}

static void pool(request *r) {
    const char *name = POOLS[below(one_in(9) ? 5 : 4)];
    static const uint32_t pool_kinds[] = {MVS_ASK_POOL_BUILD, MVS_ASK_POOL_GET, MVS_ASK_POOL_GET, MVS_ASK_POOL_FREE};
    const held *cell = any_held();
    uint32_t kind = one_in(20) ? MVS_ASK_POOL_DELETE : pool_kinds[below(4)];
    if (kind == MVS_ASK_POOL_FREE && !(cell && cell->pool) && !one_in(20)) kind = MVS_ASK_POOL_BUILD;
    begin(r, kind, "CPOOL");
    if (kind == MVS_ASK_POOL_GET && !pools_built && !one_in(30)) kind = r->ask.kind = MVS_ASK_POOL_BUILD;
    mvs_ask *a = &r->ask;
    if (kind == MVS_ASK_POOL_FREE && cell && cell->pool) name = cell->pool;
    if (kind == MVS_ASK_POOL_GET && pools_built && !one_in(20)) name = last_pool;
    mvs_name(a->name, name);
    switch (kind) {
    case MVS_ASK_POOL_BUILD:
        a->subpool = any_subpool(), a->length = one_in(9) ? below(70000) : 4 + below(300);
        a->primary = one_in(9) ? below(70000) : 1 + below(40), a->secondary = one_in(2) ? 0 : 1 + below(one_in(9) ? 70000 : 40);
        a->location = one_in(3) ? below(4) : 0;
        append(r, "BUILD,CPID=%s,CSIZE=%" PRIu32 ",PCELLCT=%" PRIu32 ",SP=%" PRIu32, name, a->length, a->primary, a->subpool);
        if (a->secondary) append(r, ",SCELLCT=%" PRIu32, a->secondary);
        if (a->location) append(r, ",LOC=%s", a->location == 1 ? "24" : a->location == 2 ? "31" : "WHAT");
        break;
    case MVS_ASK_POOL_GET:
        a->conditional = one_in(2);
        append(r, "GET,%s,CPID=%s,CELL=%s", a->conditional ? "C" : "U", name, r->area_name);
        break;
    case MVS_ASK_POOL_FREE:
        a->address = cell && cell->pool ? cell->address : any_address();
        append(r, "FREE,CPID=%s,CELL=X'%" PRIX32 "'", name, a->address);
        break;
    case MVS_ASK_POOL_DELETE: append(r, "DELETE,CPID=%s", name); break;
    default: abort();
    }
}

/* The operand for a set of subpool numbers, some of them out of range or in both sets. */
static void subpools(request *r, const char *key, uint64_t *low, uint64_t *high) {
    for (uint32_t i = 0, count = below(4); i < count; i++) {
        uint32_t number = one_in(40) ? 0 : one_in(8) ? 64 + below(64) : 1 + below(6);
        if ((number < 64 ? *low >> number : *high >> (number - 64)) & 1) continue;
        append(r, *low || *high ? ",%" PRIu32 : key, number);
        *(number < 64 ? low : high) |= (uint64_t)1 << number % 64;
    }
    if (*low || *high) append(r, ")");
}

static void task(request *r) {
    uint32_t kind = one_in(6) ? (one_in(3) ? MVS_ASK_ABEND : MVS_ASK_RETURN) : MVS_ASK_ATTACH;
    begin(r, kind, kind == MVS_ASK_RETURN ? "RETURN" : kind == MVS_ASK_ABEND ? "ABEND" : "ATTACH");
    mvs_ask *a = &r->ask;
    if (kind == MVS_ASK_ABEND) {
        a->code = one_in(5) ? below(10000) : below(4096);
        append(r, "%" PRIu32, a->code);
    }
    if (kind != MVS_ASK_ATTACH) return;
    const char *name = TASKS[below(6)];
    mvs_name(a->name, name);
    a->keeps_zero = one_in(3), a->above = one_in(2);
    append(r, "TASK=%s%s%s", name, a->keeps_zero ? ",SZERO=NO" : "", a->above ? ",RES=ABOVE" : "");
    subpools(r, ",GSPL=(%" PRIu32, &a->given_low, &a->given_high);
    subpools(r, ",SHSPL=(%" PRIu32, &a->shared_low, &a->shared_high);
}

static void bytes(request *r) {
    const held *to = any_held(), *from = any_held();
    bool moves = one_in(2);
    begin(r, moves ? MVS_ASK_MOVE : MVS_ASK_SHOW, moves ? "MOVE" : "SHOW");
    mvs_ask *a = &r->ask;
    a->address = to && !one_in(30) ? to->address : any_address();
    a->length = one_in(30) ? (moves ? 65530 : 4090) + below(10) : below(9);
    append(r, "X'%" PRIX32 "'", a->address);
    if (moves) {
        a->source = from && !one_in(30) ? from->address : any_address();
        append(r, ",X'%" PRIX32 "'", a->source);
    }
    append(r, ",%" PRIu32, a->length);
}

/* ---- comparing */

static void fail(const char *what, const request *r) {
    printf("seed %lu: %s differs\n%s%s\n", seed, what, lines_so_far, r ? r->line : "");
    exit(1);
}

static uint32_t tell(const char *line, mvs_event *event) {
    size_t used = strlen(lines_so_far);
    uint32_t status = mvs_execute(&by_lines, line, event);
    if (status == MVS_STATUS_OK && used + strlen(line) + 2 < sizeof lines_so_far) sprintf(lines_so_far + used, "%s\n", line);
    return status;
}

static void compare_pages(const request *r) {
    mvs_map_run one = MVS_MAP_RUN_INIT, other = MVS_MAP_RUN_INIT;
    for (uint32_t from = 0;; from = one.address + one.length) {
        uint32_t status = mvs_map(&by_values, from, &one);
        if (status != mvs_map(&by_lines, from, &other)) fail("number of pages", r);
        if (status != MVS_STATUS_OK) return;
        if (one.address != other.address || one.length != other.length || one.assigned != other.assigned || one.number != other.number) fail("pages", r);
        if (memcmp(one.owner, other.owner, 8) != 0) fail("owner of pages", r);
    }
}

static void compare_held(const request *r) {
    mvs_held_run one = MVS_HELD_RUN_INIT, other = MVS_HELD_RUN_INIT;
    uint32_t from = any_address(), status = mvs_held(&by_values, from, &one);
    if (status != mvs_held(&by_lines, from, &other)) fail("number of held runs", r);
    if (one.address != other.address || one.length != other.length || one.pooled != other.pooled || one.number != other.number) fail("held runs", r);
    if (memcmp(one.owner, other.owner, 8) != 0 || memcmp(one.pool, other.pool, 8) != 0) fail("holder of held runs", r);
}

static void compare_subpools(const request *r, const char *name) {
    mvs_subpool_line one = MVS_SUBPOOL_LINE_INIT, other = MVS_SUBPOOL_LINE_INIT;
    uint8_t field[8];
    mvs_name(field, name);
    for (uint32_t from = 0; from < 256; from = one.number + 1) {
        uint32_t status = mvs_subpool(&by_values, field, (uint8_t)from, &one);
        if (status != mvs_subpool(&by_lines, field, (uint8_t)from, &other)) fail("number of subpools", r);
        if (status != MVS_STATUS_OK) return;
        if (one.number != other.number || one.owned != other.owned || one.plain != other.plain || one.pool != other.pool) fail("subpools", r);
    }
}

static void compare_bytes(const request *r) {
    uint8_t one[256] = {1}, other[256] = {1};
    const held *area = any_held();
    uint32_t address = area ? area->address : any_address(), length = 1 + below(256);
    if (mvs_read(&by_values, address, one, length) != mvs_read(&by_lines, address, other, length)) fail("access", r);
    if (memcmp(one, other, sizeof one) != 0) fail("bytes", r);
    const uint8_t *first = NULL, *second = NULL;
    size_t first_length = 0, second_length = 0;
    if (mvs_lend(&by_values, address, &first, &first_length) != mvs_lend(&by_lines, address, &second, &second_length)) fail("lent access", r);
    if (first_length != second_length || (first && memcmp(first, second, first_length) != 0)) fail("lent bytes", r);
}

static void compare_fallen(const request *r) {
    uint8_t one[8] = {0}, other[8] = {0};
    for (size_t i = 0;; i++) {
        uint32_t status = mvs_fallen(&by_values, i, one);
        if (status != mvs_fallen(&by_lines, i, other) || memcmp(one, other, 8) != 0) fail("fallen tasks", r);
        if (status != MVS_STATUS_OK) return;
    }
}

static void hold(uint32_t address, uint32_t length, const request *r, const char *name, const char *pool_name) {
    held *area = &areas[held_count < MOST_HELD ? held_count++ : below(MOST_HELD)];
    area->address = address, area->length = length, area->subpool = r->ask.subpool, area->pool = pool_name;
    snprintf(area->name, sizeof area->name, "%s", name);
}

/* Whether the name that a line set has this place. */
static void compare_place(const request *r, const char *name, uint32_t address, uint32_t length, const char *pool_name) {
    char line[64];
    mvs_event event = MVS_EVENT_INIT;
    snprintf(line, sizeof line, "%s WHERE %s", r->task, name);
    if (tell(line, &event) != MVS_STATUS_OK || event.kind != MVS_EVENT_AT || event.address != address) fail("place", r);
    hold(address, length, r, name, pool_name);
}

static const char *pool_of(const request *r) {
    for (size_t i = 0; i < 4; i++)
        if (memcmp(r->ask.name, POOLS[i], strlen(POOLS[i])) == 0) return POOLS[i];
    return NULL;
}

static void compare_granted(request *r, const mvs_area *before, const mvs_event *event) {
    if (event->kind == MVS_EVENT_GRANTED) compare_place(r, r->area_name, event->address, event->length, NULL);
    if (event->kind == MVS_EVENT_CELL) compare_place(r, r->area_name, event->address, event->length, pool_of(r));
    if (!r->count || r->ask.kind != MVS_ASK_OBTAIN || event->kind != MVS_EVENT_RC_0) {
        if (memcmp(before, r->areas, sizeof r->areas) != 0) fail("areas", r);
        return;
    }
    for (size_t i = 0; i < r->count; i++) {
        char name[10];
        snprintf(name, sizeof name, "%s%c", r->area_name, (int)('A' + i));
        if (r->areas[i].length != (before[i].length + 7) / 8 * 8) fail("length of an area", r);
        compare_place(r, name, r->areas[i].address, r->areas[i].length, NULL);
    }
}

/* The kind that a line has for the event of a request by values. */
static uint32_t kind_of_line(const request *r, const mvs_event *line) {
    if (line->kind == MVS_EVENT_RC_0 && r->ask.kind == MVS_ASK_OBTAIN && !r->count) return MVS_EVENT_GRANTED;
    return line->kind == MVS_EVENT_DATA ? (uint32_t)MVS_EVENT_DONE : line->kind;
}

/* The same request in the session that gets the lines of the log. */
static void compare_log(const request *r, const mvs_event *event) {
    char line[MVS_LOG_LINE], where[MVS_LOG_LINE];
    mvs_event logged = MVS_EVENT_INIT;
    size_t length = mvs_log(&r->ask, r->areas, r->count, event, line, sizeof line);
    if (length == 0 || length != strlen(line)) fail("length of the log", r);
    if (mvs_execute(&by_log, line, &logged) != MVS_STATUS_OK || logged.code != event->code) fail(line, r);
    if (event->kind != kind_of_line(r, &logged)) fail(line, r);
    if (event->kind != MVS_EVENT_GRANTED && event->kind != MVS_EVENT_CELL) return;
    snprintf(where, sizeof where, "%s WHERE A%07" PRIX32, r->task, event->address);
    if (mvs_execute(&by_log, where, &logged) != MVS_STATUS_OK || logged.address != event->address) fail(where, r);
}

/* The effects of the same request in both sessions. */
static void compare_effects(const request *r) {
    mvs_effect_line one = MVS_EFFECT_LINE_INIT, other = MVS_EFFECT_LINE_INIT;
    for (size_t i = 0;; i++) {
        uint32_t status = mvs_effect(&by_values, i, &one);
        if (status != mvs_effect(&by_lines, i, &other) || memcmp(&one, &other, sizeof one) != 0) fail("effects", r);
        if (status != MVS_STATUS_OK) return;
        effects[one.kind & 15]++;
    }
}

static void serve(request *r) {
    mvs_event event = MVS_EVENT_INIT, line = MVS_EVENT_INIT;
    mvs_area before[MOST_AREAS];
    if (strlen(r->line) > 255) return;
    memcpy(before, r->areas, sizeof before);
    uint32_t status = r->count ? mvs_list(&by_values, &r->ask, r->areas, r->count, &event) : mvs_request(&by_values, &r->ask, &event);
    uint32_t told = tell(r->line, &line);
    if (status == MVS_STATUS_NO_REQUEST) {
        refused++;
        if (told != MVS_STATUS_SCRIPT_FAULT) fail("a refusal of values", r);
        if (event.kind != MVS_EVENT_REFUSED || strcmp(mvs_field_name(event.code), "?") == 0) fail("the field of a refusal", r);
        return;
    }
    if (status != MVS_STATUS_OK || told != MVS_STATUS_OK) fail("a status", r);
    served++, kinds[event.kind]++;
    if (event.kind != kind_of_line(r, &line) || event.code != line.code || memcmp(event.task, line.task, 8) != 0) fail("event", r);
    if (line.kind == MVS_EVENT_GRANTED && event.length != line.length) fail("length", r);
    compare_effects(r);
    compare_granted(r, before, &event);
    compare_log(r, &event);
    if (r->ask.kind == MVS_ASK_POOL_BUILD && event.kind == MVS_EVENT_RC_0) pools_built++, last_pool = pool_of(r);
    if (event.kind == MVS_EVENT_ABENDED) compare_fallen(r);
}

static void begin_step(void) {
    char line[80];
    mvs_event one = MVS_EVENT_INIT, other = MVS_EVENT_INIT;
    snprintf(line, sizeof line, "JOB REGION BELOW=%" PRIu32 ",ABOVE=%" PRIu32 "%s%s", 1 + below(40), below(2) * below(12), one_in(2) ? ",RES=ABOVE" : "", one_in(2) ? ",FILL=A5" : "");
    lines_so_far[0] = 0;
    held_count = pools_built = 0;
    if (mvs_execute(&by_log, line, &one) != MVS_STATUS_OK || mvs_execute(&by_values, line, &one) != MVS_STATUS_OK || tell(line, &other) != MVS_STATUS_OK || memcmp(&one, &other, sizeof one) != 0) fail("a step", NULL);
}

static bool is_over(void) {
    mvs_subpool_line line = MVS_SUBPOOL_LINE_INIT;
    uint8_t job[8];
    mvs_name(job, "JOB");
    return mvs_subpool(&by_values, job, 0, &line) == MVS_STATUS_NO_TASK;
}

/* Some bytes that the program stores. */
static void store(const request *r) {
    uint8_t bytes_stored[64];
    const held *area = any_held();
    uint32_t length = 1 + below(64), address = area ? area->address : any_address();
    for (size_t i = 0; i < sizeof bytes_stored; i++) bytes_stored[i] = (uint8_t)below(256);
    if (mvs_write(&by_values, address, bytes_stored, length) != mvs_write(&by_lines, address, bytes_stored, length)) fail("a store", r);
}

static void sequence(void) {
    static void (*const makers[])(request *) = {obtain, obtain, obtain, release, release, release_whole, list, pool, pool, pool, task, bytes};
    mvs_event one = MVS_EVENT_INIT, other = MVS_EVENT_INIT;
    request r;
    uint32_t place = one_in(2) ? MVS_PLACE_LOW : MVS_PLACE_HIGH;
    if (mvs_new(&by_values, place) != MVS_STATUS_OK || mvs_new(&by_lines, place) != MVS_STATUS_OK || mvs_new(&by_log, place) != MVS_STATUS_OK) fail("memory", NULL);
    if (mvs_record(&by_values) != MVS_STATUS_OK || mvs_record(&by_lines) != MVS_STATUS_OK) fail("memory", NULL);
    begin_step();
    for (int i = 0; i < REQUESTS; i++) {
        makers[below(sizeof makers / sizeof makers[0])](&r);
        serve(&r);
        if (one_in(4)) store(&r);
        if (one_in(6)) compare_pages(&r), compare_bytes(&r), compare_held(&r), compare_subpools(&r, TASKS[below(5)]);
        if (is_over()) begin_step();
    }
    uint32_t status = mvs_end(&by_values, &one);
    if (status != mvs_end(&by_lines, &other) || memcmp(&one, &other, sizeof one) != 0) fail("the end", NULL);
}

int main(int count, char **words) {
    unsigned long first = count > 1 ? strtoul(words[1], NULL, 10) : 1, number = count > 2 ? strtoul(words[2], NULL, 10) : 1000;
    for (seed = first; seed < first + number; seed++) {
        state = seed * 0x9E3779B97F4A7C15u | 1;
        for (int i = 0; i < 8; i++) below(2);
        sequence();
    }
    mvs_free(&by_values);
    mvs_free(&by_lines);
    mvs_free(&by_log);
    printf("%lu sequences, %lu requests served, %lu refused\n", number, served, refused);
    for (uint32_t kind = 0; kind < 32; kind++)
        if (kinds[kind]) printf("%s %lu\n", mvs_event_name(kind), kinds[kind]);
    for (uint32_t kind = 0; kind < 16; kind++)
        if (effects[kind]) printf("effect %s %lu\n", mvs_effect_name(kind), effects[kind]);
    return 0;
}
