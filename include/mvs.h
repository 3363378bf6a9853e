/* mvs.h: the virtual storage services of an MVS program's own region, for C and C++.
 *
 * A session executes the statements of a job one by one. mvs_line executes a statement that is given as text, and mvs_request a
 * request that is given as a struct; each returns the reply as an mvs_event. mvs_text prints the reply of a line as mvsjob prints it.
 * mvs_run executes a whole script in one call.
 *
 * Each function returns for every input that follows the rules below. None of them ends the program, and none keeps a pointer.
 *
 * The caller's part, which nothing checks:
 *  - A pointer is not null, except where a function says so. What it points to is aligned and initialised, even if it is only
 *    written. While the call runs, only the call uses it, and two arguments overlap only if both are only read.
 *  - A length is at most that of the memory at the pointer, and below 2^63. A bool is 0 or 1.
 *  - An mvs_session begins as MVS_SESSION_INIT, and only these functions write it. You may move it. Use only one of its copies:
 *    to use another one, or one after mvs_free, is a use after free.
 *  - One call at a time uses a session, also of those that do not change it. The next call may come from another thread, if the end of
 *    the one happens before the beginning of the other: a lock, a join or the like is between them. Sessions share nothing.
 *  - malloc, realloc and free come from one allocator, whose blocks are aligned as C requires. No call comes from a signal handler,
 *    nor from the forked child of a program with threads.
 *  - There is enough stack. A thread with 64 KiB can make each call: mvs_effect needs at most 40 KiB, mvs_line, mvs_try, mvs_list,
 *    mvs_clone and mvs_run 24 KiB, and each other function 8 KiB. Tests measure that; no proof says it.
 *
 * The caller checks one thing: a struct that begins with `size` has the size that the caller was compiled with, as in MVS_EVENT_INIT.
 * Another size is refused, so that a program and a library of two versions never read past the end of a struct.
 */
#ifndef MVS_H
#define MVS_H

#include <stdbool.h>
#include <stddef.h>
#include <stdint.h>
#include <string.h>

/* The version of these calls. A program runs with a library if the thousands agree and the library's version is not less. */
#define MVS_VERSION 2007

/* What comes before each declaration of a function of the library. In libmvs.a these are hidden: a plugin that contains it does not
 * export them. */
#ifndef MVS_API
#define MVS_API
#endif

#ifdef __cplusplus
extern "C" {
#endif

/* What a call returns. */
typedef enum mvs_status {
    MVS_STATUS_OK = 0,
    MVS_STATUS_SOME_ABEND = 8,    /* mvs_end, mvs_run: the job has ended, and some task abended */
    MVS_STATUS_SCRIPT_FAULT = 12, /* the line or the script has a fault. Of mvs_line, mvs_end, mvs_run: the job has ended */
    MVS_STATUS_NO_MEMORY = 16,    /* memory is exhausted. Of a line or a step: the job has ended. Of the others: nothing changes */
    MVS_STATUS_NO_SESSION = 20,   /* there is no session; nothing changes */
    MVS_STATUS_OVER = 24,         /* the job has ended; of a line also: there were 4,294,967,294 lines; nothing changes */
    MVS_STATUS_TOO_SMALL = 32,    /* the buffer is too small and does not change; the size that is needed is returned */
    MVS_STATUS_NO_ACCESS = 36,    /* no step has begun, no byte is named, or one of them cannot be accessed (0C4) */
    MVS_STATUS_NO_MORE = 40,      /* there is none, or no further one */
    MVS_STATUS_TOO_LONG = 44,     /* mvs_run: the script has more than 16,777,215 bytes; mvs_statement, mvs_list_statement: the line is too long */
    MVS_STATUS_NO_TASK = 48,      /* mvs_subpool: no task of this name is active */
    MVS_STATUS_NO_REQUEST = 52,   /* mvs_request, mvs_list: a field is out of range; event.code is its offset */
    MVS_STATUS_NO_STEP = 56,      /* mvs_request, mvs_list: no step runs; nothing changes */
    MVS_STATUS_NO_PLACE = 60,     /* mvs_new, mvs_run: the place is none of mvs_place; nothing changes */
    MVS_STATUS_WRONG_SIZE = 64,   /* the size field of a struct is not its size; nothing changes */
    MVS_STATUS_NO_BYTES = 68      /* the session has no bytes, and the call needs them; nothing changes */
} mvs_status;

/* What an event reports. The fields that are not named are 0, and the task is blank. */
typedef enum mvs_event_kind {
    MVS_EVENT_NOTHING = 1,     /* a blank line or a comment */
    MVS_EVENT_STEP_BEGAN = 2,  /* REGION: a step has begun; task: its job step task; ended: how the step before it ended */
    MVS_EVENT_NOT_RUN = 3,     /* the task is not active; nothing was done */
    MVS_EVENT_NO_NAME = 4,     /* a name in the statement is not set; nothing was done */
    MVS_EVENT_AT = 5,          /* WHERE: address */
    MVS_EVENT_RC_0 = 6,        /* return code 0 */
    MVS_EVENT_GRANTED = 7,     /* return code 0 of a variable request: length; of an obtain by mvs_request: address, length */
    MVS_EVENT_RC_4 = 8,        /* return code 4 */
    MVS_EVENT_CELL = 9,        /* CPOOL GET: a cell is allocated; by mvs_request: address, length */
    MVS_EVENT_NO_CELL = 10,    /* CPOOL GET: no cell is free */
    MVS_EVENT_ATTACHED = 11,
    MVS_EVENT_ENDED = 12,      /* RETURN: the task has ended */
    MVS_EVENT_DONE = 13,       /* bytes were written; by mvs_request: or can be read */
    MVS_EVENT_DATA = 14,       /* SHOW in a line: address, length; mvs_read reads the bytes */
    MVS_EVENT_ABENDED = 15,    /* code: the completion code; mvs_fallen returns the tasks that ended with this one */
    MVS_EVENT_SUBPOOLS = 16,   /* REPORT SP; mvs_subpool returns its lines */
    MVS_EVENT_MAP = 17,        /* REPORT MAP; mvs_map returns its lines */
    MVS_EVENT_FAULT = 18,      /* the line has a fault, JS01 to JS09; code: 1 to 9 */
    MVS_EVENT_STOPPED = 19,    /* memory is exhausted; of a REGION statement, ended: how the step before it ended */
    MVS_EVENT_JOB_ENDED = 20,  /* mvs_end; ended: how the last step ended */
    MVS_EVENT_REFUSED = 21     /* MVS_STATUS_NO_REQUEST; code: the offset in mvs_ask of a field that is out of range */
} mvs_event_kind;

/* How a step ended. */
typedef enum mvs_step_end {
    MVS_STEP_NONE = 0,    /* there was no step */
    MVS_STEP_CLEAN = 1,   /* no task of it abended */
    MVS_STEP_ABENDED = 2
} mvs_step_end;

/* A completion code has 24 bits: a system code in the upper twelve, as X'80A000' for 80A, or a user code in the lower twelve. */
#define MVS_SYSTEM_CODE(code) ((uint32_t)(code) >> 12)
#define MVS_USER_CODE(code) ((uint32_t)(code) & 0xFFFu)

typedef struct mvs_event {
    uint32_t size;
    uint32_t kind; /* mvs_event_kind */
    uint32_t code;
    uint32_t address;
    uint32_t length;
    uint32_t ended; /* mvs_step_end */
    uint8_t task[8]; /* padded with blanks */
} mvs_event;

#define MVS_EVENT_INIT { sizeof(mvs_event), 0, 0, 0, 0, 0, {0} }

/* The kinds of requests, and which fields of mvs_ask each one reads beside size, kind and task. */
typedef enum mvs_ask_kind {
    MVS_ASK_OBTAIN = 1,        /* form, subpool, length, least, boundary, within, location */
    MVS_ASK_RELEASE = 2,       /* form, subpool, length, address */
    MVS_ASK_RELEASE_WHOLE = 3, /* form, subpool */
    MVS_ASK_POOL_BUILD = 4,    /* subpool, length, location, primary, secondary, name */
    MVS_ASK_POOL_GET = 5,      /* conditional, name */
    MVS_ASK_POOL_FREE = 6,     /* address, name */
    MVS_ASK_POOL_DELETE = 7,   /* name */
    MVS_ASK_ATTACH = 8,        /* keeps_zero, above, given_.., shared_.., name */
    MVS_ASK_RETURN = 9,
    MVS_ASK_ABEND = 10,        /* code */
    MVS_ASK_SHOW = 11,         /* length, 1 to 4,096, address: whether the bytes can be accessed */
    MVS_ASK_MOVE = 12,         /* length, 1 to 65,536, address, source */
    MVS_ASK_SYSTEM_ABEND = 13  /* code, a system code, as X'0C1': what an emulator ends a task with. No statement does this */
} mvs_ask_kind;

/* The forms of GETMAIN and FREEMAIN, and STORAGE with COND=NO and COND=YES.
 *
 * Obtain: LC and LU with mvs_list only. VRC, VRU, VC and VU need a least length; STORAGE may have one; the others have none. R, EC,
 * EU, VC and VU have no location and no boundary within, and their boundary is a doubleword or a page.
 * Release: VRC and VRU release nothing. EC, EU, VC and VU do not release a whole subpool. */
typedef enum mvs_form {
    MVS_FORM_R = 1,
    MVS_FORM_RC = 2,
    MVS_FORM_RU = 3,
    MVS_FORM_VRC = 4,
    MVS_FORM_VRU = 5,
    MVS_FORM_EC = 6,
    MVS_FORM_EU = 7,
    MVS_FORM_VC = 8,
    MVS_FORM_VU = 9,
    MVS_FORM_STORAGE = 10,
    MVS_FORM_STORAGE_CONDITIONAL = 11,
    MVS_FORM_LC = 12,
    MVS_FORM_LU = 13
} mvs_form;

/* LOC=. 0 is as in a statement without LOC. */
typedef enum mvs_location { MVS_LOCATION_RES = 0, MVS_LOCATION_BELOW = 1, MVS_LOCATION_ANY = 2 } mvs_location;

/* A request. A field that is 0 is as an operand that is omitted, and a field that the kind does not read is ignored. A name is padded
 * with blanks or zero bytes, and ends before the first of them. It has the letters of a name in a script: A to Z, 0 to 9, @, # and $,
 * and does not begin with a digit. */
typedef struct mvs_ask {
    uint32_t size;
    uint32_t kind;      /* mvs_ask_kind */
    uint32_t form;      /* mvs_form */
    uint32_t subpool;   /* 0 to 255 */
    uint32_t length;    /* in bytes, 1 to 2,147,483,647; of a variable obtain the greatest; of a pool that of a cell, 4 to 65,536 */
    uint32_t least;     /* the least length of a variable obtain, at most length */
    uint32_t boundary;  /* the area begins on a multiple of 2 to this power, 3 to 31: STARTBDY, and BNDRY is 3 or 12; 0: 3 */
    uint32_t within;    /* CONTBDY: the area crosses no multiple of 2 to this power, 3 to 31; 0: none */
    uint32_t location;  /* mvs_location */
    uint32_t address;   /* 31 bits, without the addressing mode */
    uint32_t source;    /* where MVS_ASK_MOVE reads */
    uint32_t primary;   /* the number of cells in the first part of a pool, 1 to 65,536 */
    uint32_t secondary; /* and in each further part; 0: the same */
    uint32_t code;      /* a user completion code, 0 to 4095; of MVS_ASK_SYSTEM_ABEND a system completion code, X'000' to X'FFF' */
    bool conditional;   /* MVS_ASK_POOL_GET: COND */
    bool keeps_zero;    /* MVS_ASK_ATTACH: SZERO=NO */
    bool above;         /* MVS_ASK_ATTACH: RES=ABOVE */
    uint64_t given_low; /* GSPV, GSPL: a bit for each subpool number, 1 to 63 and 64 to 127 */
    uint64_t given_high;
    uint64_t shared_low; /* SHSPV, SHSPL */
    uint64_t shared_high;
    uint8_t task[8];    /* the task that makes the request */
    uint8_t name[8];    /* of a pool or a subtask */
} mvs_ask;

/* An area of a list: its length, and its address if it is released; after a request that obtains, what was granted. */
typedef struct mvs_area {
    uint32_t address;
    uint32_t length;
} mvs_area;

/* A subpool number that a task has: whether the task owns the subpool, and the bytes in it, outside and inside of cell pools. */
typedef struct mvs_subpool_line {
    uint32_t size;
    uint32_t number;
    bool owned;
    uint32_t plain;
    uint32_t pool;
} mvs_subpool_line;

#define MVS_SUBPOOL_LINE_INIT { sizeof(mvs_subpool_line), 0, false, 0, 0 }

/* Adjacent pages that are assigned alike: to no subpool, or to the one that the owner has under this number. */
typedef struct mvs_map_run {
    uint32_t size;
    uint32_t address;
    uint32_t length;
    bool assigned;
    uint32_t number;
    uint8_t owner[8]; /* padded with blanks */
} mvs_map_run;

#define MVS_MAP_RUN_INIT { sizeof(mvs_map_run), 0, 0, false, 0, {0} }

/* The addresses of the first and of the last page of those that changed. Not each page between them did. */
typedef struct mvs_pages {
    uint32_t size;
    uint32_t first;
    uint32_t last;
} mvs_pages;

#define MVS_PAGES_INIT { sizeof(mvs_pages), 0, 0 }

/* Adjacent doublewords that are held alike: by areas of one subpool, or by parts of one cell pool. */
typedef struct mvs_held_run {
    uint32_t size;
    uint32_t address;
    uint32_t length;
    bool pooled;      /* whether they are in parts of a cell pool */
    uint32_t number;  /* if not: the number that the owner has for the subpool */
    uint8_t owner[8]; /* and the owner, padded with blanks */
    uint8_t pool[8];  /* if so: the cell pool, padded with blanks */
} mvs_held_run;

#define MVS_HELD_RUN_INIT { sizeof(mvs_held_run), 0, 0, false, 0, {0}, {0} }

/* Bytes in the memory of a session. */
typedef struct mvs_bytes {
    const uint8_t *bytes;
    size_t length;
} mvs_bytes;

/* An active task, and the task that attached it: both padded with blanks. Nothing attached the job step task, so that is blank. */
typedef struct mvs_task_line {
    uint32_t size;
    uint8_t name[8];
    uint8_t mother[8];
} mvs_task_line;
#define MVS_TASK_LINE_INIT { sizeof(mvs_task_line), {0}, {0} }

/* A cell pool: the bytes of a cell, how many parts it has, and of the part that was added last the address, the length, and how many
 * cells it has. A pool with one part has its primary cells in that; the last one of several parts has the secondary cells. */
typedef struct mvs_pool_line {
    uint32_t size;
    uint32_t cell_size;
    uint32_t parts;
    uint32_t address;
    uint32_t length;
    uint32_t cells;
    uint32_t number;  /* the subpool of the part's first page: the number that its owner has for it */
    uint8_t owner[8]; /* and the owner, padded with blanks */
} mvs_pool_line;

#define MVS_POOL_LINE_INIT { sizeof(mvs_pool_line), 0, 0, 0, 0, 0, 0, {0} }

/* Why a request was refused, and which fields of mvs_reason each one has beside size, kind, rule and second_rule. */
typedef enum mvs_reason_kind {
    MVS_REASON_NOT_ACTIVE = 1,      /* the task is not active: task */
    MVS_REASON_INVALID_NUMBER = 2,  /* a program cannot use the subpool number: number */
    MVS_REASON_SHORTAGE = 3,        /* no place is long enough: number, length, longest, free_runs, pages_below, pages_above */
    MVS_REASON_NO_MEMBER = 4,       /* the same of a member of a list, after grants for those before it: also member */
    MVS_REASON_NO_PART = 5,         /* the same of a part of a cell pool: name, cells, cell_size; no number and no length */
    MVS_REASON_OFF_DOUBLEWORD = 6,  /* a release does not begin on a doubleword: address */
    MVS_REASON_NO_SUBPOOL = 7,      /* the task, which is another one for 131 and 132, has no such subpool: number, task */
    MVS_REASON_NOT_HELD = 8,        /* the subpool does not hold the address: address, holder.., number, and its owner: task */
    MVS_REASON_OVERLAP = 9,         /* two members of a list have the address: address, first_address, second_address */
    MVS_REASON_WHOLE_OF_ZERO = 10,  /* subpool 0 is not released as a whole */
    MVS_REASON_POOL_IN_USE = 11,    /* the pool exists: name */
    MVS_REASON_TOO_MANY_POOLS = 12, /* there are 64 pools */
    MVS_REASON_NO_POOL = 13,        /* there is no such pool: name */
    MVS_REASON_NO_FREE_CELL = 14,   /* no cell is free: name */
    MVS_REASON_NO_TAKEN_CELL = 15,  /* no allocated cell begins at the address: address, name, position, first_address */
    MVS_REASON_TASK_IN_USE = 16,    /* the subtask is active: name */
    MVS_REASON_TOO_MANY_TASKS = 17, /* 32 tasks are active */
    MVS_REASON_NOT_OWNED = 18,      /* the task gives a subpool that it shares: number, and its owner: task */
    MVS_REASON_ACTIVE_SUBTASK = 19, /* the task returns, and has an active subtask: task is the subtask */
    MVS_REASON_ASKED = 20,          /* the task requests the abend: task */
    MVS_REASON_NO_ACCESS = 21       /* the address cannot be accessed: address, holder.. */
} mvs_reason_kind;

/* What holds the doubleword of an address. */
typedef enum mvs_holder {
    MVS_HOLDER_NOBODY = 1,  /* it is free */
    MVS_HOLDER_OUTSIDE = 2, /* it is in no region */
    MVS_HOLDER_SUBPOOL = 3, /* a subpool, outside of cell pools: holder_number, and its owner: holder_name */
    MVS_HOLDER_POOL = 4,    /* a part of a cell pool: holder_name */
    MVS_HOLDER_UNOWNED = 5  /* a subpool without an owner: no statement leads to this */
} mvs_holder;

/* Where an address is, if no allocated cell of the pool begins there. */
typedef enum mvs_position {
    MVS_POSITION_FREE_CELL = 1, /* a free cell begins there */
    MVS_POSITION_INSIDE = 2,    /* it is inside of the cell at first_address */
    MVS_POSITION_NO_CELL = 3    /* it is in no cell of the pool */
} mvs_position;

/* Why a request was refused. The fields that the kind does not name are 0, and the names are blank. */
typedef struct mvs_reason {
    uint32_t size;
    uint32_t kind;           /* mvs_reason_kind */
    uint32_t rule;           /* a rule of RULES.md, and a second one, or 0 */
    uint32_t second_rule;
    uint32_t address;        /* the address that the reason is about */
    uint32_t number;         /* a subpool number */
    uint32_t length;         /* the bytes that have no place, rounded up for an area */
    uint32_t member;         /* a member of a list, from 1 on */
    uint32_t cells;          /* the cells of a part, and the bytes of each */
    uint32_t cell_size;
    uint32_t longest;        /* the largest area that has a place */
    uint32_t free_runs;      /* in the pages of the subpool, each run in one page */
    uint32_t pages_below;    /* that hold nothing */
    uint32_t pages_above;
    uint32_t first_address;  /* two members of a list; or a cell */
    uint32_t second_address;
    uint32_t position;       /* mvs_position */
    uint32_t holder;         /* mvs_holder */
    uint32_t holder_number;
    uint8_t holder_name[8];  /* names are padded with blanks */
    uint8_t task[8];
    uint8_t name[8];         /* the cell pool or the subtask of the request */
} mvs_reason;

#define MVS_REASON_INIT { sizeof(mvs_reason), 0, 0, 0, 0, 0, 0, 0, 0, 0, 0, 0, 0, 0, 0, 0, 0, 0, 0, {0}, {0}, {0} }

/* What a request changed, and which fields of mvs_effect_line each effect has beside size, kind and rule. They are those that
 * mvsjob --explain prints of a line, in its order. */
typedef enum mvs_effect_kind {
    MVS_EFFECT_OBTAINED = 1,       /* an area was obtained: address, length, least, most, number, owner */
    MVS_EFFECT_NO_GREATER = 2,     /* no greater length had a place: pages, pages_above: the free pages before */
    MVS_EFFECT_NEW_SUBPOOL = 3,    /* a subpool was made: number, owner */
    MVS_EFFECT_PAGES_ASSIGNED = 4, /* free pages were assigned: pages, which may be 0 */
    MVS_EFFECT_PAGES_FREED = 5,    /* pages became free: pages */
    MVS_EFFECT_EMPTIED = 6,        /* all of a subpool was released: number, owner */
    MVS_EFFECT_CELL = 7,           /* a cell was allocated: address, length, pool */
    MVS_EFFECT_PART = 8,           /* a cell pool has a new part: address, length, cells, cell_size, pool */
    MVS_EFFECT_GIVEN = 9,          /* a subtask now owns a subpool: task; number, and who gave it: owner */
    MVS_EFFECT_SHARED = 10,        /* a subtask shares a subpool: task; number, owner */
    MVS_EFFECT_FREED = 11,         /* a subpool was freed with its owner: number, owner, its bytes: length, pages */
    MVS_EFFECT_REMAINS = 12        /* a subpool remains that the task shared, which ended: number, owner, task */
} mvs_effect_kind;

/* An effect. The fields that the kind does not name are 0, and the names are blank. */
typedef struct mvs_effect_line {
    uint32_t size;
    uint32_t kind;        /* mvs_effect_kind */
    uint32_t rule;        /* a rule of RULES.md */
    uint32_t address;     /* of an area, a cell or a part of a cell pool */
    uint32_t length;
    uint32_t least;       /* the least and the greatest length that were requested */
    uint32_t most;
    uint32_t pages;       /* of MVS_EFFECT_NO_GREATER those below 16 megabytes */
    uint32_t pages_above;
    uint32_t cells;       /* the cells of a part, and the bytes of each */
    uint32_t cell_size;
    uint32_t number;      /* the number that the owner has for a subpool */
    uint8_t owner[8];     /* names are padded with blanks */
    uint8_t task[8];
    uint8_t pool[8];
} mvs_effect_line;

#define MVS_EFFECT_LINE_INIT { sizeof(mvs_effect_line), 0, 0, 0, 0, 0, 0, 0, 0, 0, 0, 0, {0}, {0}, {0} }

/* What REGION begins: the pages of a step, and its job step task. */
typedef struct mvs_region {
    uint32_t size;
    uint32_t below;     /* pages below 16 megabytes, 1 to 2048 */
    uint32_t above;     /* pages above, 0 to 8192 */
    uint8_t fill;       /* the byte that new areas and cells are filled with */
    bool resides_above; /* RES=ABOVE of the job step task */
    uint8_t task[8];
} mvs_region;

/* A session, or none. */
typedef struct mvs_session {
    void *held;
} mvs_session;

#define MVS_SESSION_INIT { NULL }

/* Which of the places that fit is used: the lowest or the highest. The machine allows each place that fits, so no proof says which
 * one is used: tests do. */
typedef enum mvs_place { MVS_PLACE_LOW = 1, MVS_PLACE_HIGH = 2 } mvs_place;

/* A bit of the place of mvs_new, as MVS_PLACE_LOW | MVS_NO_BYTES: a session without bytes, for a program that has the bytes of storage
 * itself. What would read or write them is MVS_STATUS_NO_BYTES, and changes nothing: mvs_read, mvs_write, mvs_lend, the statements PUT,
 * MOVE and SHOW, and MVS_ASK_MOVE. MVS_ASK_SHOW, which returns no bytes, is served. All other replies are those of a session with bytes.
 * mvs_changed_pages returns which pages changed. */
#define MVS_NO_BYTES 0x100u

/* Returns the version of the library, as MVS_VERSION is that of the header. */
MVS_API uint32_t mvs_version(void);

/* Begins a session, and frees the one that was there. The place is one of mvs_place, with MVS_NO_BYTES or without. MVS_STATUS_OK;
 * MVS_STATUS_NO_PLACE or MVS_STATUS_NO_MEMORY, and then the session stays. */
MVS_API uint32_t mvs_new(mvs_session *session, uint32_t place);

/* Makes a copy of a session, and frees the session that was in *to. The copy continues as the original would. What one of them does
 * later does not change the other. MVS_STATUS_OK; MVS_STATUS_NO_SESSION if *from has none, or MVS_STATUS_NO_MEMORY, and then *to
 * stays. *from does not change. */
MVS_API uint32_t mvs_clone(mvs_session *from, mvs_session *to);

/* Executes a line of length bytes, given without its newline. *event is the reply. MVS_STATUS_OK, MVS_STATUS_SCRIPT_FAULT or
 * MVS_STATUS_NO_MEMORY; MVS_STATUS_WRONG_SIZE, MVS_STATUS_NO_SESSION, MVS_STATUS_OVER or MVS_STATUS_NO_BYTES, and then *event does not
 * change. */
MVS_API uint32_t mvs_line(mvs_session *session, const char *line, size_t length, mvs_event *event);

/* Does the same, except that a line with a fault changes nothing but *event: it has no line number, and the job continues. */
MVS_API uint32_t mvs_try(mvs_session *session, const char *line, size_t length, mvs_event *event);

/* Begins a step, and ends the one before, as mvs_try does with the line of the REGION statement:
 * TASK REGION BELOW=..,ABOVE=..,FILL=..,RES=.. MVS_STATUS_WRONG_SIZE is of *region too. */
MVS_API uint32_t mvs_begin(mvs_session *session, const mvs_region *region, mvs_event *event);

/* Executes a request of a task, as a line does that makes the same request. It has no line number, sets no name, and mvs_text prints
 * nothing of it. *event is the reply. MVS_STATUS_OK; MVS_STATUS_NO_REQUEST, and then *event is MVS_EVENT_REFUSED and nothing else
 * changes; MVS_STATUS_NO_STEP, MVS_STATUS_WRONG_SIZE (of *event), MVS_STATUS_NO_SESSION, MVS_STATUS_OVER or MVS_STATUS_NO_BYTES, and
 * then *event does not change. The code of MVS_EVENT_REFUSED is the offset of the first field that is out of range, of size, task,
 * kind, and then those that the kind reads, in the order above. A size of *ask that is wrong is refused so too. */
MVS_API uint32_t mvs_request(mvs_session *session, const mvs_ask *ask, mvs_event *event);

/* Executes a request for a list of count areas, 1 to 16, as mvs_request does. MVS_ASK_OBTAIN reads form, subpool, boundary (of a
 * doubleword or a page) and the lengths of the areas; MVS_ASK_RELEASE reads form, subpool and the areas. If all are granted, which is
 * MVS_EVENT_RC_0, each area has its address and its length; else the areas do not change. If their number or one of them is out of
 * range, the code of MVS_EVENT_REFUSED is sizeof(mvs_ask). */
MVS_API uint32_t mvs_list(mvs_session *session, const mvs_ask *ask, mvs_area *areas, size_t count, mvs_event *event);

/* Ends the job: there are no more lines. MVS_STATUS_OK, MVS_STATUS_SOME_ABEND, or MVS_STATUS_SCRIPT_FAULT if there was no step;
 * MVS_STATUS_WRONG_SIZE, MVS_STATUS_NO_SESSION or MVS_STATUS_OVER, and then *event does not change. The storage, subpools and pages of
 * the last step can be read until mvs_free, also if a line with a fault has ended the job. */
MVS_API uint32_t mvs_end(mvs_session *session, mvs_event *event);

/* Prints the reply to the last line to the front of a buffer of room bytes, as mvsjob prints it: lines that end with X'0A'. *wanted is
 * the length of the text. MVS_STATUS_OK; MVS_STATUS_TOO_SMALL; MVS_STATUS_NO_SESSION or MVS_STATUS_NO_MEMORY, and then *wanted does not
 * change. The session does not change, so you can repeat the call. The buffer of mvs_text may be null if room is 0; that of
 * mvs_text_into, the function of the library that it calls, may not. */
MVS_API uint32_t mvs_text_into(mvs_session *session, char *out, size_t room, size_t *wanted);

/* Copies the line that says why the last request was refused, of a line or by values, to the front of a buffer of room bytes. It is the
 * line that mvsjob --explain prints: it begins with an asterisk, names the rule, and ends with X'0A'. It has at most 240 bytes. *wanted
 * is its length: 0 if the request was granted, after MVS_EVENT_NOT_RUN and MVS_EVENT_NO_NAME of a line, and after mvs_write and mvs_end.
 * MVS_STATUS_OK; MVS_STATUS_TOO_SMALL; MVS_STATUS_NO_SESSION, and then *wanted does not change. The session does not change. The buffer
 * of mvs_why may be null if room is 0; that of mvs_why_into, the function of the library that it calls, may not. */
MVS_API uint32_t mvs_why_into(mvs_session *session, char *out, size_t room, size_t *wanted);

/* Returns the same as fields. MVS_STATUS_OK; MVS_STATUS_NO_MORE if mvs_why has no line, MVS_STATUS_WRONG_SIZE or
 * MVS_STATUS_NO_SESSION, and then *reason does not change. The session does not change. */
MVS_API uint32_t mvs_why_fields(mvs_session *session, mvs_reason *reason);

/* From now on the session records each request, so that mvs_effect returns its effects. That costs time: before each request it looks
 * at the subpools of all tasks. It allocates memory once. MVS_STATUS_OK, also if it records already; MVS_STATUS_NO_MEMORY or
 * MVS_STATUS_NO_SESSION, and then nothing changes. */
MVS_API uint32_t mvs_record(mvs_session *session);

/* Returns one of the effects of the last event, by its index from 0 on: what a granted request changed, of a line or by values, and
 * which subpools a task's end freed. MVS_STATUS_OK; MVS_STATUS_NO_MORE if there is none, as after a refusal that ended no task, after a
 * line that made no request, after mvs_write and mvs_end, and if the session does not record; MVS_STATUS_WRONG_SIZE or
 * MVS_STATUS_NO_SESSION; and then *effect does not change. The session does not change. */
MVS_API uint32_t mvs_effect(mvs_session *session, size_t index, mvs_effect_line *effect);

/* Copies length bytes, at least one, from an address on. MVS_STATUS_OK; MVS_STATUS_NO_ACCESS, MVS_STATUS_NO_SESSION or
 * MVS_STATUS_NO_BYTES, and then the buffer does not change. */
MVS_API uint32_t mvs_read(mvs_session *session, uint32_t address, uint8_t *out, size_t length);

/* Writes length bytes, at least one, from an address on. MVS_STATUS_OK; MVS_STATUS_NO_ACCESS, MVS_STATUS_NO_SESSION, MVS_STATUS_OVER or
 * MVS_STATUS_NO_BYTES, and then nothing changes. The text of the last line is lost. */
MVS_API uint32_t mvs_write(mvs_session *session, uint32_t address, const uint8_t *bytes, size_t length);

/* Returns where the bytes from an address on are in the memory of the session, and how many of them can be read without a break. They are
 * borrowed: they stay there, as they are, until the next call for this session. (A call that only returns what the session has, as mvs_read
 * and mvs_map, leaves them too: tests show that, not a proof.) Do not write them: mvs_write does. MVS_STATUS_OK; MVS_STATUS_NO_ACCESS if
 * the byte at the address cannot be accessed, MVS_STATUS_NO_SESSION or MVS_STATUS_NO_BYTES, and then *lent does not change. The session
 * does not change.
 * Before the call, *lent is some bytes of yours, or none at a pointer that is not null; mvs_lend, which calls this function, has no such
 * rule. The call looks at each doubleword a few times. */
MVS_API uint32_t mvs_lend_bytes(mvs_session *session, uint32_t address, mvs_bytes *lent);

/* Returns the name, padded with blanks, of one of the tasks that ended with the one that abended, by its index from 0 on. These are
 * those of the last request, of a line or by values; a line that makes no request changes nothing here. MVS_STATUS_OK;
 * MVS_STATUS_NO_MORE or MVS_STATUS_NO_SESSION, and then the name does not change. */
MVS_API uint32_t mvs_fallen(mvs_session *session, size_t index, uint8_t name[8]);

/* Returns the first subpool number, from `from` on, that a task has. The name is as in mvs_ask. MVS_STATUS_OK; MVS_STATUS_NO_TASK,
 * MVS_STATUS_NO_MORE, MVS_STATUS_WRONG_SIZE or MVS_STATUS_NO_SESSION, and then *line does not change. */
MVS_API uint32_t mvs_subpool(mvs_session *session, const uint8_t task[8], uint8_t from, mvs_subpool_line *line);

/* Returns the first run of pages that begins at or after an address. MVS_STATUS_OK; MVS_STATUS_NO_MORE, MVS_STATUS_WRONG_SIZE or
 * MVS_STATUS_NO_SESSION, and then *run does not change. */
MVS_API uint32_t mvs_map(mvs_session *session, uint32_t from, mvs_map_run *run);

/* Returns the addresses of the first and of the last page that were assigned or became free since the call before, or since mvs_new: those
 * that mvs_map shows as assigned now and did not then, or the other way round. So a call after each event returns what that changed, and
 * a call after several of them what they changed together. Of a session without bytes: of one with bytes there are none. MVS_STATUS_OK;
 * MVS_STATUS_NO_MORE if there are none, MVS_STATUS_WRONG_SIZE or MVS_STATUS_NO_SESSION, and then *pages does not change. The call looks at
 * each page once or a few times. */
MVS_API uint32_t mvs_changed_pages(mvs_session *session, mvs_pages *pages);

/* Returns the first run of held doublewords that begins at or after an address. The next one begins at address + length or later.
 * Areas of one subpool that are adjacent are one run. MVS_STATUS_OK; MVS_STATUS_NO_MORE, MVS_STATUS_WRONG_SIZE or
 * MVS_STATUS_NO_SESSION, and then *run does not change. The call looks at the map, and at each doubleword of the assigned pages from
 * there on up to the end of the run. */
MVS_API uint32_t mvs_held(mvs_session *session, uint32_t from, mvs_held_run *run);

/* Returns the cell pool of a name, which is as in mvs_ask; mvs_held returns the names of the pools. MVS_STATUS_OK; MVS_STATUS_NO_MORE if
 * there is no such pool, MVS_STATUS_WRONG_SIZE or MVS_STATUS_NO_SESSION, and then *pool does not change. */
MVS_API uint32_t mvs_pool(mvs_session *session, const uint8_t name[8], mvs_pool_line *pool);

/* Returns the first active task whose name is after `after` in byte order. If `after` is no name, as eight blanks or zero bytes, it is
 * the first of all; it may not be a part of *task. MVS_STATUS_OK; MVS_STATUS_NO_MORE if there is none, MVS_STATUS_WRONG_SIZE or MVS_STATUS_NO_SESSION, and then *task
 * does not change. */
MVS_API uint32_t mvs_next_task(mvs_session *session, const uint8_t after[8], mvs_task_line *task);

/* Returns the name of the first cell pool after `after`, as mvs_next_task returns a task. `after` and `name` are not the same bytes. Where it
 * does not return MVS_STATUS_OK, `name` does not change. */
MVS_API uint32_t mvs_next_pool(mvs_session *session, const uint8_t after[8], uint8_t name[8]);

/* Writes the statement that makes the same request to the front of a buffer of room bytes, without a newline: it has at most 240 bytes.
 * An area or a cell that is granted gets the name `area`, which is as in mvs_ask. *wanted is the length. A release by VC or VU is written
 * as one by EC or EU, which has the same replies, since the statement of VC takes a name only; an abend with a system code as one with
 * the user code of the same number. MVS_STATUS_OK; MVS_STATUS_TOO_SMALL; MVS_STATUS_NO_REQUEST if a field of *ask is out of range or the
 * area has no name, MVS_STATUS_TOO_LONG if MVS_ASK_ATTACH has too many subpools for a statement, and then *wanted does not change. No
 * session is needed. The buffer of mvs_statement may be null if room is 0; that of mvs_statement_into may not. */
MVS_API uint32_t mvs_statement_into(const mvs_ask *ask, const uint8_t area[8], char *out, size_t room, size_t *wanted);

/* Writes the statement that makes the same list request, of count areas, to the front of a buffer of room bytes, as mvs_statement_into
 * does. The areas of an obtain get the name `base` with the letters A to P appended: it has at most 7 bytes. MVS_STATUS_OK;
 * MVS_STATUS_TOO_SMALL; MVS_STATUS_NO_REQUEST if a field of *ask or an area is out of range or `base` is no such name,
 * MVS_STATUS_TOO_LONG if the areas take about 200 bytes of the statement or more, and then *wanted does not change. The buffer of
 * mvs_list_statement may be null if room is 0; that of mvs_list_statement_into may not. */
MVS_API uint32_t mvs_list_statement_into(const mvs_ask *ask, const mvs_area *areas, size_t count, const uint8_t base[8], char *out, size_t room, size_t *wanted);

/* Frees a session, if there is one; then there is none. The pointer of mvs_free may be null; that of mvs_free_session, the function of
 * the library that it calls, may not. */
MVS_API void mvs_free_session(mvs_session *session);

/* Runs a whole script of length bytes, and prints to the front of a buffer of room bytes. *wanted is the length of what is printed.
 * MVS_STATUS_OK, MVS_STATUS_SOME_ABEND or MVS_STATUS_SCRIPT_FAULT; MVS_STATUS_TOO_SMALL; MVS_STATUS_NO_MEMORY, MVS_STATUS_TOO_LONG or
 * MVS_STATUS_NO_PLACE, and then the buffer and *wanted do not change. The whole text is in memory while it runs. The buffer of
 * mvs_run may be null if room is 0; that of mvs_run_into, the function of the library that it calls, may not. */
MVS_API uint32_t mvs_run_into(uint32_t place, const char *script, size_t length, char *out, size_t room, size_t *wanted);

static inline uint32_t mvs_text(mvs_session *session, char *out, size_t room, size_t *wanted) {
    char none = 0;
    return mvs_text_into(session, out ? out : &none, out ? room : 0, wanted);
}

static inline uint32_t mvs_why(mvs_session *session, char *out, size_t room, size_t *wanted) {
    char none = 0;
    return mvs_why_into(session, out ? out : &none, out ? room : 0, wanted);
}

/* Returns where the bytes from an address on are, as mvs_lend_bytes does. If it does not return MVS_STATUS_OK, *bytes and *length do not change. */
static inline uint32_t mvs_lend(mvs_session *session, uint32_t address, const uint8_t **bytes, size_t *length) {
    uint8_t none = 0;
    mvs_bytes lent;
    uint32_t status;
    lent.bytes = &none;
    lent.length = 0;
    status = mvs_lend_bytes(session, address, &lent);
    if (status == MVS_STATUS_OK) {
        *bytes = lent.bytes;
        *length = lent.length;
    }
    return status;
}

/* Writes the statement of a request that was served, as mvs_statement_into does. An area or a cell gets a name of its address, as
 * A0006000. */
static inline uint32_t mvs_statement(const mvs_ask *ask, const mvs_event *event, char *out, size_t room, size_t *wanted) {
    uint8_t area[8] = {'A'};
    char none = 0;
    unsigned i;
    for (i = 1; i < 8; i++) area[i] = (uint8_t)"0123456789ABCDEF"[event->address >> 4 * (7 - i) & 15];
    return mvs_statement_into(ask, area, out ? out : &none, out ? room : 0, wanted);
}

/* Writes the statement of a list request that was served, as mvs_list_statement_into does. The areas get names of the place of the first
 * one, which begin with L. */
static inline uint32_t mvs_list_statement(const mvs_ask *ask, const mvs_area *areas, size_t count, char *out, size_t room, size_t *wanted) {
    uint8_t base[8] = {'L'};
    char none = 0;
    unsigned i;
    for (i = 1; i < 7; i++) base[i] = (uint8_t)"0123456789ABCDEF"[(count ? areas[0].address : 0) / 8 >> 4 * (6 - i) & 15];
    return mvs_list_statement_into(ask, areas, count, base, out ? out : &none, out ? room : 0, wanted);
}

static inline uint32_t mvs_run(uint32_t place, const char *script, size_t length, char *out, size_t room, size_t *wanted) {
    char none = 0;
    return mvs_run_into(place, script, length, out ? out : &none, out ? room : 0, wanted);
}

static inline void mvs_free(mvs_session *session) {
    if (session) mvs_free_session(session);
}

/* Executes a line that ends with a zero byte, as mvs_try does. */
static inline uint32_t mvs_execute(mvs_session *session, const char *line, mvs_event *event) {
    return mvs_try(session, line, strlen(line), event);
}

/* Copies a name into a field of mvs_ask: at most 8 bytes, padded with blanks. */
static inline void mvs_name(uint8_t field[8], const char *name) {
    size_t i;
    memset(field, ' ', 8);
    for (i = 0; i < 8 && name[i]; i++) field[i] = (uint8_t)name[i];
}

/* Returns the name of a status, as "NO_ACCESS", or "?". */
static inline const char *mvs_status_name(uint32_t status) {
    switch (status) {
    case MVS_STATUS_OK: return "OK";
    case MVS_STATUS_SOME_ABEND: return "SOME_ABEND";
    case MVS_STATUS_SCRIPT_FAULT: return "SCRIPT_FAULT";
    case MVS_STATUS_NO_MEMORY: return "NO_MEMORY";
    case MVS_STATUS_NO_SESSION: return "NO_SESSION";
    case MVS_STATUS_OVER: return "OVER";
    case MVS_STATUS_TOO_SMALL: return "TOO_SMALL";
    case MVS_STATUS_NO_ACCESS: return "NO_ACCESS";
    case MVS_STATUS_NO_MORE: return "NO_MORE";
    case MVS_STATUS_TOO_LONG: return "TOO_LONG";
    case MVS_STATUS_NO_TASK: return "NO_TASK";
    case MVS_STATUS_NO_REQUEST: return "NO_REQUEST";
    case MVS_STATUS_NO_STEP: return "NO_STEP";
    case MVS_STATUS_NO_PLACE: return "NO_PLACE";
    case MVS_STATUS_WRONG_SIZE: return "WRONG_SIZE";
    case MVS_STATUS_NO_BYTES: return "NO_BYTES";
    default: return "?";
    }
}

/* Returns the name of the kind of an event, as "GRANTED", or "?". */
static inline const char *mvs_event_name(uint32_t kind) {
    switch (kind) {
    case MVS_EVENT_NOTHING: return "NOTHING";
    case MVS_EVENT_STEP_BEGAN: return "STEP_BEGAN";
    case MVS_EVENT_NOT_RUN: return "NOT_RUN";
    case MVS_EVENT_NO_NAME: return "NO_NAME";
    case MVS_EVENT_AT: return "AT";
    case MVS_EVENT_RC_0: return "RC_0";
    case MVS_EVENT_GRANTED: return "GRANTED";
    case MVS_EVENT_RC_4: return "RC_4";
    case MVS_EVENT_CELL: return "CELL";
    case MVS_EVENT_NO_CELL: return "NO_CELL";
    case MVS_EVENT_ATTACHED: return "ATTACHED";
    case MVS_EVENT_ENDED: return "ENDED";
    case MVS_EVENT_DONE: return "DONE";
    case MVS_EVENT_DATA: return "DATA";
    case MVS_EVENT_ABENDED: return "ABENDED";
    case MVS_EVENT_SUBPOOLS: return "SUBPOOLS";
    case MVS_EVENT_MAP: return "MAP";
    case MVS_EVENT_FAULT: return "FAULT";
    case MVS_EVENT_STOPPED: return "STOPPED";
    case MVS_EVENT_JOB_ENDED: return "JOB_ENDED";
    case MVS_EVENT_REFUSED: return "REFUSED";
    default: return "?";
    }
}

/* Returns the name of the kind of a reason, as "SHORTAGE", or "?". */
static inline const char *mvs_reason_name(uint32_t kind) {
    switch (kind) {
    case MVS_REASON_NOT_ACTIVE: return "NOT_ACTIVE";
    case MVS_REASON_INVALID_NUMBER: return "INVALID_NUMBER";
    case MVS_REASON_SHORTAGE: return "SHORTAGE";
    case MVS_REASON_NO_MEMBER: return "NO_MEMBER";
    case MVS_REASON_NO_PART: return "NO_PART";
    case MVS_REASON_OFF_DOUBLEWORD: return "OFF_DOUBLEWORD";
    case MVS_REASON_NO_SUBPOOL: return "NO_SUBPOOL";
    case MVS_REASON_NOT_HELD: return "NOT_HELD";
    case MVS_REASON_OVERLAP: return "OVERLAP";
    case MVS_REASON_WHOLE_OF_ZERO: return "WHOLE_OF_ZERO";
    case MVS_REASON_POOL_IN_USE: return "POOL_IN_USE";
    case MVS_REASON_TOO_MANY_POOLS: return "TOO_MANY_POOLS";
    case MVS_REASON_NO_POOL: return "NO_POOL";
    case MVS_REASON_NO_FREE_CELL: return "NO_FREE_CELL";
    case MVS_REASON_NO_TAKEN_CELL: return "NO_TAKEN_CELL";
    case MVS_REASON_TASK_IN_USE: return "TASK_IN_USE";
    case MVS_REASON_TOO_MANY_TASKS: return "TOO_MANY_TASKS";
    case MVS_REASON_NOT_OWNED: return "NOT_OWNED";
    case MVS_REASON_ACTIVE_SUBTASK: return "ACTIVE_SUBTASK";
    case MVS_REASON_ASKED: return "ASKED";
    case MVS_REASON_NO_ACCESS: return "NO_ACCESS";
    default: return "?";
    }
}

/* Returns the name of the kind of an effect, as "NEW_SUBPOOL", or "?". */
static inline const char *mvs_effect_name(uint32_t kind) {
    switch (kind) {
    case MVS_EFFECT_OBTAINED: return "OBTAINED";
    case MVS_EFFECT_NO_GREATER: return "NO_GREATER";
    case MVS_EFFECT_NEW_SUBPOOL: return "NEW_SUBPOOL";
    case MVS_EFFECT_PAGES_ASSIGNED: return "PAGES_ASSIGNED";
    case MVS_EFFECT_PAGES_FREED: return "PAGES_FREED";
    case MVS_EFFECT_EMPTIED: return "EMPTIED";
    case MVS_EFFECT_CELL: return "CELL";
    case MVS_EFFECT_PART: return "PART";
    case MVS_EFFECT_GIVEN: return "GIVEN";
    case MVS_EFFECT_SHARED: return "SHARED";
    case MVS_EFFECT_FREED: return "FREED";
    case MVS_EFFECT_REMAINS: return "REMAINS";
    default: return "?";
    }
}

/* Returns the name of the field of mvs_ask at an offset, as the code of MVS_EVENT_REFUSED has it; "areas" for those of a list; or "?". */
static inline const char *mvs_field_name(uint32_t offset) {
    switch (offset) {
    case offsetof(mvs_ask, size): return "size";
    case offsetof(mvs_ask, kind): return "kind";
    case offsetof(mvs_ask, form): return "form";
    case offsetof(mvs_ask, subpool): return "subpool";
    case offsetof(mvs_ask, length): return "length";
    case offsetof(mvs_ask, least): return "least";
    case offsetof(mvs_ask, boundary): return "boundary";
    case offsetof(mvs_ask, within): return "within";
    case offsetof(mvs_ask, location): return "location";
    case offsetof(mvs_ask, address): return "address";
    case offsetof(mvs_ask, source): return "source";
    case offsetof(mvs_ask, primary): return "primary";
    case offsetof(mvs_ask, secondary): return "secondary";
    case offsetof(mvs_ask, code): return "code";
    case offsetof(mvs_ask, given_low): return "given and shared subpools";
    case offsetof(mvs_ask, task): return "task";
    case offsetof(mvs_ask, name): return "name";
    case sizeof(mvs_ask): return "areas";
    default: return "?";
    }
}

#ifdef __cplusplus
}
#endif

#endif
