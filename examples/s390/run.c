/* run.c: an S/390 processor (Unicorn) whose supervisor calls for storage and tasks libmvs serves, through mvs_svc.h.
 *
 *     run PROGRAM PAGES
 *
 * PROGRAM is a flat image for the address X'00900000', PAGES the number of pages of the region. It prints what mvsjob prints of a
 * script with the same requests. The bytes are the processor's: after each call the pages that the session assigns are those that the
 * program can access. ATTACH runs the subtask until it ends, and then the attaching task goes on. */
#include <mvs_svc.h>

#include <unicorn/unicorn.h>

#include <inttypes.h>
#include <stdio.h>
#include <stdlib.h>

enum { PROGRAM = 0x900000, PROGRAM_SIZE = 0x10000, REGION = 0x6000, PAGE = 4096, SVC_ATTACH = 42 };

/* The machine, and the task that runs. */
typedef struct machine {
    uc_engine *processor;
    mvs_session session;
    uint32_t pages;
    uint32_t line;      /* the number of the last request */
    uint8_t task[8];
    bool has_ended;
} machine;

static void fail(const char *what, const char *why) {
    fprintf(stderr, "run: %s: %s\n", what, why);
    exit(16);
}

static void check(const char *what, uc_err error) {
    if (error != UC_ERR_OK) fail(what, uc_strerror(error));
}

/* ---- storage */

/* Whether the program may access bytes: they are its own, or the pages are assigned. */
static bool may_access(machine *m, uint32_t address, size_t length) {
    mvs_map_run run = MVS_MAP_RUN_INIT;
    uint64_t end = (uint64_t)address + length;
    if (address >= PROGRAM && end <= PROGRAM + PROGRAM_SIZE) return true;
    uint32_t from = 0;
    while (mvs_map(&m->session, from, &run) == MVS_STATUS_OK) {
        if (run.assigned && address >= run.address && end <= (uint64_t)run.address + run.length) return true;
        from = run.address + run.length;
    }
    return false;
}

static bool read_bytes(void *data, uint32_t address, uint8_t *out, size_t length) {
    machine *m = data;
    return may_access(m, address, length) && uc_mem_read(m->processor, address, out, length) == UC_ERR_OK;
}

static bool write_bytes(void *data, uint32_t address, const uint8_t *bytes, size_t length) {
    machine *m = data;
    return may_access(m, address, length) && uc_mem_write(m->processor, address, bytes, length) == UC_ERR_OK;
}

/* Lets the program access the pages that are assigned, and no others. */
static void protect(machine *m) {
    mvs_map_run run = MVS_MAP_RUN_INIT;
    uint32_t from = 0;
    while (mvs_map(&m->session, from, &run) == MVS_STATUS_OK) {
        check("protect", uc_mem_protect(m->processor, run.address, run.length, run.assigned ? UC_PROT_READ | UC_PROT_WRITE : UC_PROT_NONE));
        from = run.address + run.length;
    }
}

/* Clears an area that was granted. */
static void clear(machine *m, uint32_t address, uint32_t length) {
    uint8_t zero[PAGE] = {0};
    for (uint32_t done = 0; done < length; done += PAGE)
        check("clear", uc_mem_write(m->processor, address + done, zero, length - done < PAGE ? length - done : PAGE));
}

/* ---- printing, as mvsjob prints */

static void print_name(const uint8_t name[8]) {
    for (int i = 0; i < 8 && name[i] != ' '; i++) putchar(name[i]);
}

static void print_event(machine *m, const mvs_svc_call *call, bool varies) {
    const mvs_event *event = &call->event;
    uint8_t fallen[8] = {0};
    printf("%" PRIu32 " ", m->line);
    print_name(call->task);
    switch (event->kind) {
    case MVS_EVENT_RC_0: printf(" RC 0\n"); break;
    case MVS_EVENT_GRANTED: varies ? printf(" RC 0 LENGTH %08" PRIX32 "\n", event->length) : printf(" RC 0\n"); break;
    case MVS_EVENT_RC_4: printf(" RC 4\n"); break;
    case MVS_EVENT_ATTACHED: printf(" ATTACHED\n"); break;
    case MVS_EVENT_ENDED: printf(" ENDED\n"); break;
    case MVS_EVENT_ABENDED:
        if (MVS_SYSTEM_CODE(event->code)) printf(" ABEND S%03" PRIX32 "\n", MVS_SYSTEM_CODE(event->code));
        else printf(" ABEND U%04" PRIu32 "\n", MVS_USER_CODE(event->code));
        break;
    default: fail("a call", mvs_event_name(event->kind));
    }
    for (size_t i = 0; mvs_fallen(&m->session, i, fallen) == MVS_STATUS_OK; i++) {
        printf("%" PRIu32 " ", m->line);
        print_name(fallen);
        printf(" ENDED WITH ");
        print_name(call->task);
        printf("\n");
    }
}

static void print_text(machine *m) {
    char text[256] = {0};
    size_t wanted = 0;
    if (mvs_text(&m->session, text, sizeof text, &wanted) != MVS_STATUS_OK) fail("text", "no room");
    fwrite(text, 1, wanted, stdout);
}

/* ---- the processor */

static void get_registers(machine *m, uint32_t registers[16]) {
    for (int i = 0; i < 16; i++) {
        uint64_t value = 0;
        check("registers", uc_reg_read(m->processor, UC_S390X_REG_R0 + i, &value));
        registers[i] = (uint32_t)value;
    }
}

static void set_registers(machine *m, const uint32_t registers[16]) {
    for (int i = 0; i < 16; i++) {
        uint64_t value = registers[i];
        check("registers", uc_reg_write(m->processor, UC_S390X_REG_R0 + i, &value));
    }
}

static void run_task(machine *m, const uint8_t task[8], uint64_t entry);

/* What follows from a call: the pages, the printing, and whether the task goes on. */
static void settle(machine *m, mvs_svc_call *call, mvs_svc_result result, bool varies) {
    if (result != MVS_SVC_CONTINUES && result != MVS_SVC_ENDED) fail("a call", mvs_status_name(call->status));
    m->line++;
    print_event(m, call, varies);
    m->has_ended = result == MVS_SVC_ENDED;
    protect(m);
    if (call->event.kind == MVS_EVENT_GRANTED) clear(m, call->event.address, call->event.length);
}

/* ATTACH: the parameter list has a name, an entry, and a subpool number that is given and one that is shared, or 0. */
static void attach(machine *m, mvs_svc_call *call, uint64_t next) {
    uint8_t list[14];
    uint64_t given[2] = {0}, shared[2] = {0};
    if (!read_bytes(m, call->registers[1], list, sizeof list)) fail("ATTACH", "its list");
    if (list[12]) given[list[12] / 64 & 1] = (uint64_t)1 << list[12] % 64;
    if (list[13]) shared[list[13] / 64 & 1] = (uint64_t)1 << list[13] % 64;
    settle(m, call, mvs_svc_attach(call, list, given, shared, true), false);
    if (m->has_ended) return;
    run_task(m, list, mvs_svc_word(list + 8));
    memcpy(m->task, call->task, 8);
    m->has_ended = false;
    set_registers(m, call->registers);
    check("resume", uc_reg_write(m->processor, UC_S390X_REG_PC, &next));
}

static mvs_svc_call call_of(machine *m, const mvs_svc_memory *memory, uint32_t registers[16]) {
    mvs_svc_call call;
    memset(&call, 0, sizeof call);
    call.session = &m->session;
    call.memory = memory;
    call.registers = registers;
    memcpy(call.task, m->task, 8);
    return call;
}

/* Serves the supervisor call whose instruction ends at an address. */
static void supervisor_call(machine *m, uint64_t next) {
    mvs_svc_memory memory = { m, read_bytes, write_bytes };
    uint8_t instruction[2] = {0}, list[10] = {0};
    uint32_t registers[16];
    check("fetch", uc_mem_read(m->processor, next - 2, instruction, 2));
    get_registers(m, registers);
    mvs_svc_call call = call_of(m, &memory, registers);
    if (instruction[1] == SVC_ATTACH) {
        attach(m, &call, next);
        return;
    }
    bool varies = instruction[1] == 120 && registers[15] & MVS_SVC_120_VARIABLE;
    if (instruction[1] == 4 && read_bytes(m, registers[1], list, 10)) varies = list[8] >= MVS_SVC_FORM_VU;
    settle(m, &call, mvs_svc(&call, instruction[1]), varies);
    if (!m->has_ended) set_registers(m, registers);
}

/* Ends the task with 0C4, since it accessed a page that is not assigned. */
static void protection_exception(machine *m, uint64_t address) {
    mvs_svc_memory memory = { m, read_bytes, write_bytes };
    uint32_t registers[16] = {0};
    mvs_svc_call call = call_of(m, &memory, registers);
    settle(m, &call, mvs_svc_protection(&call, (uint32_t)address), false);
}

/* What stopped the processor. */
typedef struct stop {
    bool is_call, is_access;
    uint64_t address;
} stop;

static void on_interrupt(uc_engine *processor, uint32_t number, void *data) {
    (void)number;
    ((stop *)data)->is_call = true;
    uc_emu_stop(processor);
}

static bool on_access(uc_engine *processor, uc_mem_type type, uint64_t address, int size, int64_t value, void *data) {
    (void)processor, (void)type, (void)size, (void)value;
    stop *it = data;
    it->is_access = true;
    it->address = address;
    return false;
}

/* Runs a task from an entry until it ends. */
static void run_task(machine *m, const uint8_t task[8], uint64_t entry) {
    const uint32_t none[16] = {0};
    uint64_t at = entry;
    memcpy(m->task, task, 8);
    m->has_ended = false;
    set_registers(m, none);
    while (!m->has_ended) {
        stop it = { false, false, 0 };
        uc_hook interrupts, accesses;
        check("hook", uc_hook_add(m->processor, &interrupts, UC_HOOK_INTR, (void *)on_interrupt, &it, 1, 0));
        check("hook", uc_hook_add(m->processor, &accesses, UC_HOOK_MEM_INVALID, (void *)on_access, &it, 1, 0));
        uc_err error = uc_emu_start(m->processor, at, 0, 0, 0);
        uc_hook_del(m->processor, interrupts);
        uc_hook_del(m->processor, accesses);
        check("pc", uc_reg_read(m->processor, UC_S390X_REG_PC, &at));
        if (it.is_access) {
            protection_exception(m, it.address);
        } else if (it.is_call) {
            uint8_t code = 0;
            check("fetch", uc_mem_read(m->processor, at, &code, 1));
            if (code == 0x0A) at += 2; /* the processor stops at the instruction or after it */
            supervisor_call(m, at);
        } else {
            fail("the processor", uc_strerror(error));
        }
    }
}

static void load(machine *m, const char *path) {
    static uint8_t image[PROGRAM_SIZE];
    FILE *file = fopen(path, "rb");
    if (!file) fail(path, "cannot be opened");
    size_t length = fread(image, 1, sizeof image, file);
    fclose(file);
    check("map", uc_mem_map(m->processor, PROGRAM, PROGRAM_SIZE, UC_PROT_ALL));
    check("map", uc_mem_map(m->processor, REGION, (size_t)m->pages * PAGE, UC_PROT_NONE));
    check("load", uc_mem_write(m->processor, PROGRAM, image, length));
}

int main(int count, char **words) {
    machine m = { 0 };
    mvs_event event = MVS_EVENT_INIT;
    char region[64];
    uint8_t job[8];
    if (count != 3) fail("usage", "run PROGRAM PAGES");
    m.pages = (uint32_t)strtoul(words[2], NULL, 10);
    check("open", uc_open(UC_ARCH_S390X, UC_MODE_BIG_ENDIAN, &m.processor));
    load(&m, words[1]);
    snprintf(region, sizeof region, "JOB REGION BELOW=%" PRIu32, m.pages);
    if (mvs_new(&m.session, MVS_PLACE_LOW) != MVS_STATUS_OK) fail("session", "no memory");
    if (mvs_execute(&m.session, region, &event) != MVS_STATUS_OK) fail(region, mvs_event_name(event.kind));
    print_text(&m);
    m.line = 1;
    mvs_name(job, "JOB");
    run_task(&m, job, PROGRAM);
    uint32_t status = mvs_end(&m.session, &event);
    print_text(&m);
    mvs_free(&m.session);
    uc_close(m.processor);
    return (int)status;
}
