/* handler.c: a supervisor call handler of an emulator, with GETMAIN and FREEMAIN. The emulated program calls it with its general
 * registers. The handler passes the request to the session, and sets the registers by the reply. Here SVC 4 and 5 have a length in
 * register 0 and an address in register 1; those of MVS have parameter lists. */
#include <mvs.h>

#include <inttypes.h>
#include <stdio.h>
#include <stdlib.h>

enum { SVC_GETMAIN = 4, SVC_FREEMAIN = 5 };

typedef struct emulator {
    mvs_session session;
    uint32_t registers[16];
    uint32_t completion; /* 0 while the task is active */
} emulator;

/* Stops: the emulator itself has a fault. */
static void fail(uint32_t status, const mvs_event *event) {
    fprintf(stderr, "handler: %s, %s %s\n", mvs_status_name(status), mvs_event_name(event->kind),
            status == MVS_STATUS_NO_REQUEST ? mvs_field_name(event->code) : "");
    exit(16);
}

/* Sets the registers by the reply. */
static void answer(emulator *machine, const mvs_event *event) {
    switch (event->kind) {
    case MVS_EVENT_GRANTED: machine->registers[1] = event->address; machine->registers[15] = 0; break;
    case MVS_EVENT_RC_0: machine->registers[15] = 0; break;
    case MVS_EVENT_RC_4: machine->registers[15] = 4; break;
    case MVS_EVENT_ABENDED: machine->completion = event->code; break; /* and the tasks that mvs_fallen returns */
    default: fail(MVS_STATUS_OK, event); /* MVS_EVENT_NOT_RUN: the emulator runs a task that has ended */
    }
}

/* Makes a conditional request. */
static void request(emulator *machine, mvs_ask ask) {
    mvs_event event = MVS_EVENT_INIT;
    ask.size = sizeof ask;
    ask.form = MVS_FORM_RC;
    ask.length = machine->registers[0];
    mvs_name(ask.task, "JOB");
    uint32_t status = mvs_request(&machine->session, &ask, &event);
    if (status != MVS_STATUS_OK) fail(status, &event);
    answer(machine, &event);
}

static void supervisor_call(emulator *machine, int number) {
    if (machine->completion) return;
    switch (number) {
    case SVC_GETMAIN: request(machine, (mvs_ask){ .kind = MVS_ASK_OBTAIN }); break;
    case SVC_FREEMAIN: request(machine, (mvs_ask){ .kind = MVS_ASK_RELEASE, .address = machine->registers[1] & 0x7FFFFFFF }); break;
    }
    printf("SVC %d: R15=%08" PRIX32 " R1=%08" PRIX32 " completion %06" PRIX32 "\n", number, machine->registers[15], machine->registers[1], machine->completion);
}

int main(void) {
    emulator machine = { MVS_SESSION_INIT, {0}, 0 };
    mvs_event event = MVS_EVENT_INIT;
    uint32_t status = mvs_new(&machine.session, MVS_PLACE_LOW);
    if (status == MVS_STATUS_OK) status = mvs_execute(&machine.session, "JOB REGION BELOW=1", &event);
    if (status != MVS_STATUS_OK) fail(status, &event);
    machine.registers[0] = 64;
    supervisor_call(&machine, SVC_GETMAIN);
    supervisor_call(&machine, SVC_FREEMAIN);
    machine.registers[0] = 8192;
    supervisor_call(&machine, SVC_GETMAIN); /* the region is too small */
    machine.registers[0] = 64;
    supervisor_call(&machine, SVC_FREEMAIN); /* the area is not held */
    mvs_free(&machine.session);
    return 0;
}
