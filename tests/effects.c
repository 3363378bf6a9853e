/* Runs the script at standard input line by line, and prints the effects of each as mvsjob --explain does, but for the names of areas and
 * cells: an event has none. */
#include <mvs.h>

#include <inttypes.h>
#include <stdio.h>
#include <stdlib.h>

static int width(const uint8_t name[8]) {
    int n = 0;
    while (n < 8 && name[n] != ' ') n++;
    return n;
}

#define NAME(bytes) width(bytes), (const char *)(bytes)
#define ONE(count, one, more) ((count) == 1 ? (one) : (more))

static void requested(const mvs_effect_line *e) {
    if (e->least != e->most) printf(", %" PRIu32 " to %" PRIu32 " requested", e->least, e->most);
    else if (e->length != e->most) printf(", %" PRIu32 " of them added by rounding", e->length - e->most);
}

static void print(const mvs_effect_line *e) {
    switch (e->kind) {
    case MVS_EFFECT_OBTAINED:
        printf("* ? is %" PRIu32 " bytes at %08" PRIX32 " in SP %" PRIu32 " of %.*s", e->length, e->address, e->number, NAME(e->owner));
        requested(e);
        break;
    case MVS_EFFECT_NO_GREATER:
        printf("* No greater length fits; free pages before: %" PRIu32 " below, %" PRIu32 " above", e->pages, e->pages_above);
        break;
    case MVS_EFFECT_NEW_SUBPOOL: printf("* SP %" PRIu32 " of %.*s is new", e->number, NAME(e->owner)); break;
    case MVS_EFFECT_PAGES_ASSIGNED:
        if (e->pages == 0) printf("* No page was newly assigned");
        else printf("* %" PRIu32 " page%s newly assigned", e->pages, ONE(e->pages, " was", "s were"));
        break;
    case MVS_EFFECT_PAGES_FREED: printf("* %" PRIu32 " page%s became free", e->pages, ONE(e->pages, "", "s")); break;
    case MVS_EFFECT_EMPTIED: printf("* SP %" PRIu32 " of %.*s is now empty", e->number, NAME(e->owner)); break;
    case MVS_EFFECT_CELL: printf("* ? is a cell of pool %.*s: %" PRIu32 " bytes at %08" PRIX32, NAME(e->pool), e->length, e->address); break;
    case MVS_EFFECT_PART:
        printf("* Pool %.*s has a new part for %" PRIu32 " cell%s of %" PRIu32 " bytes: %" PRIu32 " bytes at %08" PRIX32, NAME(e->pool), e->cells, ONE(e->cells, "", "s"), e->cell_size, e->length, e->address);
        break;
    case MVS_EFFECT_GIVEN: printf("* %.*s now owns SP %" PRIu32 ", given by %.*s", NAME(e->task), e->number, NAME(e->owner)); break;
    case MVS_EFFECT_SHARED: printf("* %.*s shares SP %" PRIu32 " of %.*s", NAME(e->task), e->number, NAME(e->owner)); break;
    case MVS_EFFECT_FREED:
        printf("* SP %" PRIu32 " of %.*s is freed: %" PRIu32 " bytes in %" PRIu32 " page%s", e->number, NAME(e->owner), e->length, e->pages, ONE(e->pages, "", "s"));
        break;
    case MVS_EFFECT_REMAINS: printf("* SP %" PRIu32 " of %.*s remains: %.*s shared it", e->number, NAME(e->owner), NAME(e->task)); break;
    default: printf("* ?"); break;
    }
    printf(". (rule %" PRIu32 ")\n", e->rule);
}

int main(void) {
    char line[512];
    mvs_session session = MVS_SESSION_INIT;
    mvs_event event = MVS_EVENT_INIT;
    mvs_effect_line effect = MVS_EFFECT_LINE_INIT;
    if (mvs_new(&session, MVS_PLACE_LOW) != MVS_STATUS_OK || mvs_record(&session) != MVS_STATUS_OK) return 1;
    while (fgets(line, sizeof line, stdin)) {
        size_t i;
        if (mvs_line(&session, line, strcspn(line, "\n"), &event) != MVS_STATUS_OK) break;
        for (i = 0; mvs_effect(&session, i, &effect) == MVS_STATUS_OK; i++) print(&effect);
    }
    mvs_free(&session);
    return 0;
}
