/* fuzz.c: random calls of each function of mvs.h, within the rules of the header, and what must stay in each case.
 *
 * With libFuzzer, for long runs:
 *
 *     clang -g -fsanitize=fuzzer,address -DLIBFUZZER -I../include fuzz.c FOLDER/libmvs.a && ./a.out
 *
 * Without it, `fuzz FIRST COUNT` runs COUNT random inputs, from seed FIRST on. A broken promise aborts. */
#include <mvs.h>

#include <stdio.h>
#include <stdlib.h>

int LLVMFuzzerTestOneInput(const uint8_t *data, size_t size);

#define MUST(holds) \
    do { \
        if (!(holds)) { \
            fprintf(stderr, "fuzz: line %d: %s\n", __LINE__, #holds); \
            abort(); \
        } \
    } while (0)

/* ---- values from the input */

static const uint8_t *input;
static size_t left;

static uint8_t byte(void) {
    if (!left) return 0;
    left--;
    return *input++;
}

static uint32_t word(void) {
    uint32_t value = 0;
    for (int i = 0; i < 4; i++) value = value << 8 | byte();
    return value;
}

/* A number, more often one that is near to what the machine has. */
static uint32_t number(void) {
    uint8_t kind = byte();
    if (kind < 120) return kind;
    if (kind < 170) return 8u * byte();
    if (kind < 200) return 4096u * byte();
    if (kind < 220) return 0x6000u + 16u * byte();
    return kind < 240 ? 0x1000000u + 16u * byte() : word();
}

static void name(uint8_t field[8]) {
    static const char *const names[] = {"JOB", "A", "B", "LONGNAME", "", "lower", "1X", "@"};
    uint8_t kind = byte();
    mvs_name(field, names[kind & 7]);
    if (kind > 220) for (int i = 0; i < 8; i++) field[i] = byte();
}

/* A block of its own for each buffer, so that a sanitizer sees each byte past its end. */
static void *block(size_t size, uint8_t fill) {
    void *made = malloc(size ? size : 1);
    MUST(made);
    memset(made, fill, size ? size : 1);
    return made;
}

static bool is_filled(const uint8_t *bytes, size_t from, size_t to, uint8_t fill) {
    for (size_t i = from; i < to; i++)
        if (bytes[i] != fill) return false;
    return true;
}

/* ---- the calls, each on a session that is there or not */

typedef struct player {
    mvs_session session;
    bool is_there, has_bytes;
} player;

static bool has_event(uint32_t status) {
    return status == MVS_STATUS_OK || status == MVS_STATUS_SCRIPT_FAULT || status == MVS_STATUS_NO_MEMORY || status == MVS_STATUS_SOME_ABEND || status == MVS_STATUS_NO_REQUEST;
}

/* What holds of the event of each call: it is written or stays, and there is no session exactly if that is the status. */
static void judge(const player *p, uint32_t status, const mvs_event *before, const mvs_event *after) {
    MUST((status == MVS_STATUS_NO_SESSION) == !p->is_there || status == MVS_STATUS_WRONG_SIZE);
    MUST((status == MVS_STATUS_WRONG_SIZE) == (before->size != sizeof *before));
    MUST(status != MVS_STATUS_NO_BYTES || !p->has_bytes);
    if (has_event(status)) MUST(after->size == sizeof *after && strcmp(mvs_event_name(after->kind), "?") != 0);
    else MUST(memcmp(before, after, sizeof *before) == 0);
    MUST(strcmp(mvs_status_name(status), "?") != 0);
}

static mvs_event any_event(void) {
    mvs_event event = MVS_EVENT_INIT;
    event.code = 0x5A5A5A5A;
    if (byte() < 3) event.size = byte();
    return event;
}

static void begin(player *p) {
    uint32_t place = byte() < 250 ? (1u + byte() % 2) | (byte() < 60 ? MVS_NO_BYTES : 0u) : word();
    uint32_t status = mvs_new(&p->session, place), at = place & ~MVS_NO_BYTES;
    MUST(status == (at == 1 || at == 2 ? MVS_STATUS_OK : MVS_STATUS_NO_PLACE) || status == MVS_STATUS_NO_MEMORY);
    if (status == MVS_STATUS_OK) p->is_there = true, p->has_bytes = !(place & MVS_NO_BYTES);
}

static void say(player *p) {
    static const char *const lines[] = {
        "JOB REGION BELOW=2", "JOB REGION BELOW=1,ABOVE=3,FILL=C1", "A REGION BELOW=3,RES=ABOVE,ABOVE=1", "JOB GETMAIN R,LV=64,A=X", "JOB WHERE X",
        "JOB REPORT SP", "JOB REPORT MAP", "JOB CPOOL BUILD,CPID=P,CSIZE=16,PCELLCT=4", "JOB CPOOL GET,C,CPID=P,CELL=C", "JOB ATTACH TASK=A,GSPV=1,SHSPV=2",
        "A ABEND 12", "JOB RETURN", "* x", "", " bad", "JOB SHOW X,8", "JOB PUT X,X'0102'", "JOB FREEMAIN R,LV=64,A=X", "A GETMAIN LC,LA=(8,16),A=(Q,R)", "JOB MOVE X,X+8,8"};
    const char *text = lines[byte() % 20];
    size_t length = strlen(text);
    char *line = block(length, 0);
    memcpy(line, text, length);
    if (length && byte() > 230) line[byte() % length] = (char)byte();
    mvs_event event = any_event(), before = event;
    bool tries = byte() < 200;
    uint32_t status = (tries ? mvs_try : mvs_line)(&p->session, line, length, &event);
    judge(p, status, &before, &event);
    if (status == MVS_STATUS_SCRIPT_FAULT) MUST(event.kind == MVS_EVENT_FAULT && event.code >= 1 && event.code <= 9);
    free(line);
}

static void region(player *p) {
    mvs_region made;
    memset(&made, 0, sizeof made);
    made.size = sizeof made, made.below = number() % 8, made.above = byte() % 4, made.fill = byte(), made.resides_above = byte() & 1;
    name(made.task);
    mvs_event event = any_event(), before = event;
    judge(p, mvs_begin(&p->session, &made, &event), &before, &event);
}

static mvs_ask any_ask(void) {
    mvs_ask ask;
    memset(&ask, 0, sizeof ask);
    ask.size = byte() < 250 ? sizeof ask : byte();
    ask.kind = byte() % 14, ask.form = byte() % 15, ask.subpool = byte() < 200 ? byte() % 8 : number();
    ask.length = number(), ask.address = number(), ask.source = number(), ask.code = number();
    ask.primary = number(), ask.secondary = byte() < 99 ? number() : 0;
    if (byte() < 60) ask.least = number();
    if (byte() < 40) ask.boundary = byte() % 34;
    if (byte() < 40) ask.within = byte() % 34;
    if (byte() < 90) ask.location = byte() % 4;
    ask.conditional = byte() & 1, ask.keeps_zero = byte() & 1, ask.above = byte() & 1;
    if (byte() < 60) ask.given_low = word(), ask.shared_low = (uint64_t)word() << 32 | byte();
    name(ask.name);
    name(ask.task);
    if (byte() < 200) mvs_name(ask.task, "JOB");
    return ask;
}

/* The bytes of a grant can be read and written. */
static void use(player *p, const mvs_event *event) {
    uint8_t *bytes = block(event->length, 9);
    uint32_t wanted = p->has_bytes ? MVS_STATUS_OK : MVS_STATUS_NO_BYTES;
    MUST(event->length && mvs_read(&p->session, event->address, bytes, event->length) == wanted);
    MUST(mvs_write(&p->session, event->address, bytes, event->length) == wanted);
    free(bytes);
}

static void request(player *p) {
    mvs_ask ask = any_ask(), kept = ask;
    mvs_event event = any_event(), before = event;
    size_t wanted = 7;
    uint32_t status = mvs_request(&p->session, &ask, &event);
    judge(p, status, &before, &event);
    MUST(memcmp(&ask, &kept, sizeof ask) == 0);
    if (status == MVS_STATUS_NO_REQUEST) MUST(event.kind == MVS_EVENT_REFUSED && strcmp(mvs_field_name(event.code), "?") != 0);
    if (status != MVS_STATUS_OK) return;
    MUST(mvs_text(&p->session, NULL, 0, &wanted) == MVS_STATUS_OK && wanted == 0);
    if (event.kind == MVS_EVENT_GRANTED || event.kind == MVS_EVENT_CELL) use(p, &event);
}

static void list(player *p) {
    mvs_ask ask = any_ask();
    size_t count = byte() % 19, size = count * sizeof(mvs_area);
    mvs_area *areas = block(size, 0), *kept = block(size, 0);
    ask.kind = 1 + byte() % 2, ask.form = 11 + byte() % 3;
    for (size_t i = 0; i < count; i++) areas[i].address = number(), areas[i].length = number();
    memcpy(kept, areas, size);
    mvs_event event = any_event(), before = event;
    uint32_t status = mvs_list(&p->session, &ask, areas, count, &event);
    judge(p, status, &before, &event);
    bool granted = status == MVS_STATUS_OK && ask.kind == MVS_ASK_OBTAIN && event.kind == MVS_EVENT_RC_0;
    if (!granted) MUST(memcmp(areas, kept, size) == 0);
    for (size_t i = 0; granted && i < count; i++) MUST(areas[i].length == (kept[i].length + 7) / 8 * 8 && areas[i].address % 8 == 0);
    free(areas);
    free(kept);
}

static void text(player *p) {
    size_t room = byte(), wanted = 0x1234;
    char *out = block(room, 7);
    uint32_t status = mvs_text(&p->session, out, room, &wanted);
    MUST((status == MVS_STATUS_NO_SESSION) == !p->is_there);
    if (status == MVS_STATUS_OK) MUST(wanted <= room && is_filled((uint8_t *)out, wanted, room, 7));
    else MUST(is_filled((uint8_t *)out, 0, room, 7) && (status == MVS_STATUS_TOO_SMALL ? wanted > room : wanted == 0x1234));
    free(out);
}

static void why(player *p) {
    size_t room = byte(), wanted = 0x1234;
    char *out = block(room, 7);
    uint32_t status = mvs_why(&p->session, out, room, &wanted);
    MUST((status == MVS_STATUS_NO_SESSION) == !p->is_there);
    if (status == MVS_STATUS_OK) MUST(wanted <= room && wanted <= 240 && is_filled((uint8_t *)out, wanted, room, 7));
    else MUST(is_filled((uint8_t *)out, 0, room, 7) && (status == MVS_STATUS_TOO_SMALL ? wanted > room : wanted == 0x1234));
    if (status == MVS_STATUS_OK && wanted) MUST(out[0] == '*' && out[wanted - 1] == '\n');
    mvs_reason reason = MVS_REASON_INIT;
    uint32_t found = mvs_why_fields(&p->session, &reason);
    MUST((found == MVS_STATUS_NO_SESSION) == !p->is_there);
    if (found == MVS_STATUS_OK) MUST(mvs_reason_name(reason.kind)[0] != '?' && reason.rule && wanted > 0);
    if (found == MVS_STATUS_NO_MORE) MUST(!wanted && !reason.kind);
    free(out);
}

static void bytes(player *p) {
    size_t length = byte();
    uint8_t *at = block(length, 3);
    uint32_t address = number(), status = mvs_read(&p->session, address, at, length);
    MUST((status == MVS_STATUS_NO_SESSION) == !p->is_there && (status == MVS_STATUS_NO_BYTES) == (p->is_there && !p->has_bytes));
    if (status != MVS_STATUS_OK) MUST(is_filled(at, 0, length, 3));
    uint32_t written = mvs_write(&p->session, address, at, length);
    MUST(written == status || written == MVS_STATUS_OVER);
    free(at);
}

/* mvs_lend returns as many bytes as can be read, and they are the same. */
static void lent(player *p) {
    const uint8_t *bytes = NULL;
    size_t length = 0;
    uint32_t address = number(), status = mvs_lend(&p->session, address, &bytes, &length);
    MUST((status == MVS_STATUS_NO_SESSION) == !p->is_there);
    MUST((status == MVS_STATUS_OK) == (bytes != NULL) && (status == MVS_STATUS_OK) == (length > 0));
    if (status != MVS_STATUS_OK) return;
    uint8_t *copy = block(length + 1, 3);
    MUST(mvs_read(&p->session, address, copy, length) == MVS_STATUS_OK && memcmp(copy, bytes, length) == 0);
    MUST(mvs_read(&p->session, address, copy, length + 1) == MVS_STATUS_NO_ACCESS);
    free(copy);
}

static void reports(player *p) {
    mvs_subpool_line line = MVS_SUBPOOL_LINE_INIT;
    mvs_map_run run = MVS_MAP_RUN_INIT;
    mvs_held_run held = MVS_HELD_RUN_INIT;
    uint8_t field[8], fallen[8] = {0};
    uint32_t from = 0, status;
    name(field);
    if (byte() < 3) line.size = byte();
    status = mvs_subpool(&p->session, field, byte(), &line);
    MUST((status == MVS_STATUS_NO_SESSION) == !p->is_there || status == MVS_STATUS_WRONG_SIZE);
    while ((status = mvs_map(&p->session, from, &run)) == MVS_STATUS_OK) {
        MUST(run.length && run.length % 4096 == 0 && run.address % 4096 == 0 && run.address >= from);
        from = run.address + run.length;
    }
    MUST(status == (p->is_there ? MVS_STATUS_NO_MORE : MVS_STATUS_NO_SESSION));
    mvs_pages pages = MVS_PAGES_INIT;
    status = mvs_changed_pages(&p->session, &pages);
    MUST((status == MVS_STATUS_NO_SESSION) == !p->is_there && (status != MVS_STATUS_OK || !p->has_bytes));
    if (status == MVS_STATUS_OK) MUST(pages.first % 4096 == 0 && pages.last % 4096 == 0 && pages.first >= 0x6000 && pages.first <= pages.last && pages.last < 0x3000000);
    if (status == MVS_STATUS_OK) MUST(mvs_changed_pages(&p->session, &pages) == MVS_STATUS_NO_MORE);
    status = mvs_held(&p->session, from = (uint32_t)byte() << 18, &held);
    MUST((status == MVS_STATUS_NO_SESSION) == !p->is_there);
    if (status == MVS_STATUS_OK) MUST(held.length && held.length % 8 == 0 && held.address % 8 == 0 && held.address >= from);
    mvs_pool_line pool = MVS_POOL_LINE_INIT;
    name(field);
    status = mvs_pool(&p->session, field, &pool);
    MUST((status == MVS_STATUS_NO_SESSION) == !p->is_there);
    if (status == MVS_STATUS_OK) MUST(pool.parts && pool.cells && pool.cell_size && pool.length >= pool.cells * pool.cell_size && pool.address % 8 == 0);
    mvs_task_line task = MVS_TASK_LINE_INIT;
    uint8_t pool_name[8];
    name(field);
    status = mvs_next_task(&p->session, field, &task);
    MUST((status == MVS_STATUS_NO_SESSION) == !p->is_there);
    if (status == MVS_STATUS_OK) MUST(task.name[0] > 0x20 && task.mother[0] >= 0x20);
    status = mvs_next_pool(&p->session, field, pool_name);
    MUST((status == MVS_STATUS_NO_SESSION) == !p->is_there);
    if (status == MVS_STATUS_OK) MUST(pool_name[0] > 0x20 && mvs_pool(&p->session, pool_name, &pool) == MVS_STATUS_OK);
    status = mvs_fallen(&p->session, byte() < 9 ? (size_t)-1 : byte() % 40, fallen);
    MUST((status == MVS_STATUS_NO_SESSION) == !p->is_there);
}

static void end(player *p) {
    if (byte() < 200) return;
    if (byte() < 128) {
        mvs_event event = any_event(), before = event;
        judge(p, mvs_end(&p->session, &event), &before, &event);
        return;
    }
    mvs_free(&p->session);
    p->is_there = false;
}

/* A copy prints what the original prints, and replaces it. */
static void copies(player *p) {
    mvs_session copy = MVS_SESSION_INIT;
    char one[512], other[512];
    size_t one_length = 0, other_length = 0;
    uint32_t status = mvs_clone(&p->session, &copy);
    MUST(status == (p->is_there ? MVS_STATUS_OK : MVS_STATUS_NO_SESSION) || status == MVS_STATUS_NO_MEMORY);
    if (status != MVS_STATUS_OK) return;
    MUST(mvs_text(&p->session, one, sizeof one, &one_length) == mvs_text(&copy, other, sizeof other, &other_length));
    MUST(one_length == other_length && (one_length > sizeof one || memcmp(one, other, one_length) == 0));
    mvs_free(&p->session);
    p->session = copy;
}

/* The effects end, and each has a kind. */
static void effects(player *p) {
    mvs_effect_line effect = MVS_EFFECT_LINE_INIT;
    uint32_t status = byte() < 40 ? mvs_record(&p->session) : (uint32_t)MVS_STATUS_OK;
    size_t i;
    MUST(status == MVS_STATUS_OK || (status == MVS_STATUS_NO_SESSION && !p->is_there));
    for (i = 0; (status = mvs_effect(&p->session, i, &effect)) == MVS_STATUS_OK; i++) MUST(strcmp(mvs_effect_name(effect.kind), "?") != 0 && effect.rule != 0 && i < 5000);
    MUST(status == (p->is_there ? MVS_STATUS_NO_MORE : MVS_STATUS_NO_SESSION));
}

static void run(player *p) {
    static const char script[] = "JOB REGION BELOW=1\nJOB GETMAIN R,LV=8,A=X\nJOB REPORT MAP\nJOB NO\n";
    size_t length = byte() % sizeof script, room = byte(), wanted = 5;
    char *out = block(room, 6), *copy = block(length, 0);
    (void)p;
    memcpy(copy, script, length);
    uint32_t status = mvs_run(byte() % 4, copy, length, out, room, &wanted);
    if (status == MVS_STATUS_NO_PLACE) MUST(wanted == 5);
    else MUST(status == MVS_STATUS_TOO_SMALL ? wanted > room : wanted <= room);
    if (status == MVS_STATUS_TOO_SMALL || status == MVS_STATUS_NO_PLACE) MUST(is_filled((uint8_t *)out, 0, room, 6));
    free(out);
    free(copy);
}

int LLVMFuzzerTestOneInput(const uint8_t *data, size_t size) {
    static void (*const calls[])(player *) = {say, say, say, request, request, request, request, list, region, text, why, bytes, lent, reports, end, run, copies, effects};
    player players[2] = {{MVS_SESSION_INIT, false, false}, {MVS_SESSION_INIT, false, false}};
    input = data, left = size;
    while (left) {
        uint8_t call = byte();
        player *p = &players[call >> 7];
        if (!p->is_there && call % 4) begin(p);
        calls[call % (sizeof calls / sizeof calls[0])](p);
    }
    for (int i = 0; i < 2; i++) mvs_free(&players[i].session);
    return 0;
}

#ifndef LIBFUZZER
int main(int count, char **words) {
    unsigned long first = count > 1 ? strtoul(words[1], NULL, 10) : 1, inputs = count > 2 ? strtoul(words[2], NULL, 10) : 1000;
    uint8_t data[1024];
    for (unsigned long seed = first; seed < first + inputs; seed++) {
        uint64_t state = seed * 0x9E3779B97F4A7C15u | 1;
        for (size_t i = 0; i < sizeof data; i++) {
            state ^= state << 13, state ^= state >> 7, state ^= state << 17;
            data[i] = (uint8_t)(state >> 24);
        }
        LLVMFuzzerTestOneInput(data, sizeof data);
    }
    return 0;
}
#endif
