/* read_script.h: a reader of mvsjob's script language, for emulators that are written in C.
 *
 * Copy this file into your emulator. mvs_read_statement reads one line and returns what it is: a statement, a line that asks for
 * nothing, or a fault from JS01 to JS09. SCRIPT.md describes the language; list_script.c shows the calls.
 */
#ifndef READ_SCRIPT_H
#define READ_SCRIPT_H

#include <stdbool.h>
#include <stdint.h>
#include <stdio.h>
#include <stdlib.h>
#include <string.h>

enum { MVS_LINE_MAX = 255, MVS_ITEMS = 128, MVS_OPERANDS = 8 };
enum { MVS_BLANK = 0, MVS_STATEMENT = 10 }; /* 1 to 9: the fault JS01 to JS09 */

/* A number; a name or a word; or an address: a name with an offset in `number`, or no name. */
typedef struct mvs_item {
    char name[9];
    uint64_t number;
} mvs_item;

/* An operand: its key, or "" for a positional one, and its items: the members of a list or a pair, the bytes of PUT, or just one. */
typedef struct mvs_operand {
    char key[9];
    int count;
    mvs_item items[MVS_ITEMS];
} mvs_operand;

typedef struct mvs_statement {
    char task[9], operation[9], form[9]; /* form: "" for an operation without one */
    int count;
    mvs_operand operands[MVS_OPERANDS];
} mvs_statement;

/* Each operation and form with its operands: KEY!type is required, KEY:type optional, KEY&type comes with the other & or not at all.
 * An operand without a key is positional. */
#define MVS_NUMBER "1-2147483647"
#define MVS_LOC " LOC:BELOW|24|ANY|31|RES"
#define MVS_PLACE " SP:0-255 BNDRY:DBLWD|PAGE"
#define MVS_BOUNDARIES MVS_PLACE " STARTBDY:3-31 CONTBDY:3-31" MVS_LOC
static const char *const mvs_statements[][3] = {
    { "REGION", "", "BELOW!1-2048 ABOVE:0-8192 FILL:hex RES:BELOW|ABOVE" },
    { "GETMAIN", "R,EC,EU", "LV!" MVS_NUMBER " A!name" MVS_PLACE },
    { "GETMAIN", "RC,RU", "LV!" MVS_NUMBER " A!name" MVS_BOUNDARIES },
    { "GETMAIN", "VC,VU", "LV!pair A!name" MVS_PLACE },
    { "GETMAIN", "VRC,VRU", "LV!pair A!name" MVS_BOUNDARIES },
    { "GETMAIN", "LC,LU", "LA!lengths A!names" MVS_PLACE },
    { "STORAGE", "OBTAIN", "LENGTH!length ADDR!name" MVS_BOUNDARIES " COND:YES|NO" },
    { "STORAGE", "RELEASE", "LENGTH&" MVS_NUMBER " ADDR&address SP:0-255 COND:YES|NO" },
    { "FREEMAIN", "R,RC,RU", "LV&" MVS_NUMBER " A&address SP:0-255" },
    { "FREEMAIN", "EC,EU", "LV!" MVS_NUMBER " A!address SP:0-255" },
    { "FREEMAIN", "VC,VU", "A!name SP:0-255" },
    { "FREEMAIN", "LC,LU", "LA!lengths A!addresses SP:0-255" },
    { "CPOOL", "BUILD", "CPID!name CSIZE!4-65536 PCELLCT!1-65536 SCELLCT:1-65536 SP:0-255" MVS_LOC },
    { "CPOOL", "GET", ":COND|C|UNCOND|U CPID!name CELL!name" },
    { "CPOOL", "FREE", "CPID!name CELL!address" },
    { "CPOOL", "DELETE", "CPID!name" },
    { "ATTACH", "", "TASK!name GSPV:1-127 GSPL:subpools SHSPV:1-127 SHSPL:subpools SZERO:YES|NO RES:BELOW|ABOVE" },
    { "REPORT", "SP,MAP", "" },
    { "ABEND", "", "!0-4095" },
    { "PUT", "", "!address !bytes" },
    { "SHOW", "", "!address !1-4096" },
    { "MOVE", "", "!address !address !1-65536" },
    { "WHERE", "", "!name" },
    { "RETURN", "", "" },
};
enum { MVS_ROWS = sizeof mvs_statements / sizeof *mvs_statements };

/* Each list: the type of its members, how many they may be, and whether they must differ. */
static const struct mvs_list {
    const char *type, *member;
    int most;
    bool differ;
} mvs_lists[] = {
    { "pair", MVS_NUMBER, 2, false }, { "lengths", MVS_NUMBER, 16, false }, { "addresses", "address", 16, false },
    { "names", "name", 16, true }, { "subpools", "1-127", 127, true },
};
static const char *const mvs_excluding[][2] = { { "BNDRY", "STARTBDY" }, { "BNDRY", "CONTBDY" }, { "GSPV", "GSPL" }, { "SHSPV", "SHSPL" } };

/* Ends the text at a byte, which for a comma is outside parentheses, and moves *rest after that, or to NULL if there is none. */
static char *mvs_cut(char **rest, char end) {
    char *text = *rest, *at = text;
    for (int depth = 0; *at && (*at != end || depth > 0); at++)
        depth += end != ',' ? 0 : *at == '(' ? 1 : *at == ')' && depth > 0 ? -1 : 0;
    *rest = *at ? at + 1 : NULL;
    *at = '\0';
    return text;
}

/* Whether a word is one of a list whose words are separated by a byte. */
static bool mvs_among(const char *list, char separator, const char *word) {
    char copy[64], *rest = strcpy(copy, list);
    while (rest)
        if (strcmp(mvs_cut(&rest, separator), word) == 0)
            return true;
    return false;
}

/* The readers of values return 0, 4 for a malformed one, or 6 for one that is out of its range. */
static int mvs_number(const char *text, uint64_t least, uint64_t most, mvs_item *item) {
    size_t digits = strspn(text, "0123456789");
    if (digits == 0 || text[digits])
        return 4;
    item->number = strtoull(text, NULL, 10);
    return digits > 10 || item->number < least || item->number > most ? 6 : 0;
}

static int mvs_name(const char *text, char *name) {
    size_t size = strspn(text, "ABCDEFGHIJKLMNOPQRSTUVWXYZ@#$0123456789");
    if (size == 0 || size > 8 || text[size] || (text[0] >= '0' && text[0] <= '9'))
        return 4;
    strcpy(name, text);
    return 0;
}

/* Returns 4 if a text does not have `least` to `most` hexadecimal digits. */
static int mvs_hexadecimal(const char *text, size_t least, size_t most) {
    size_t digits = strspn(text, "0123456789ABCDEF");
    return digits < least || digits > most || text[digits] ? 4 : 0;
}

/* Returns what X'..' has between its quotes, or NULL. */
static char *mvs_unquoted(char *text) {
    size_t size = strlen(text);
    if (size < 3 || strncmp(text, "X'", 2) != 0 || text[size - 1] != '\'')
        return NULL;
    text[size - 1] = '\0';
    return text + 2;
}

static int mvs_address(char *text, mvs_item *item) {
    char *offset = text, *digits = mvs_unquoted(text);
    if (digits) {
        item->number = strtoull(digits, NULL, 16);
        return mvs_hexadecimal(digits, 1, 8) ? 4 : item->number >> 31 ? 6 : 0;
    }
    int fault = mvs_name(mvs_cut(&offset, '+'), item->name);
    return fault || !offset ? fault : mvs_number(offset, 0, 33554431, item);
}

static int mvs_bytes(char *text, mvs_operand *to) {
    char *digits = mvs_unquoted(text), byte[3] = "";
    if (!digits || mvs_hexadecimal(digits, 2, MVS_LINE_MAX) || strlen(digits) % 2)
        return 4;
    if (strlen(digits) > 200)
        return 6;
    for (; *digits; digits += 2)
        to->items[to->count++].number = strtoull(memcpy(byte, digits, 2), NULL, 16);
    return 0;
}

/* Reads one item of a type that is no list. */
static int mvs_one(const char *type, char *text, mvs_item *item) {
    unsigned long long least, most;
    if (strcmp(type, "name") == 0)
        return mvs_name(text, item->name);
    if (strcmp(type, "address") == 0)
        return mvs_address(text, item);
    if (sscanf(type, "%llu-%llu", &least, &most) == 2)
        return mvs_number(text, least, most, item);
    if (strcmp(type, "hex") == 0) {
        item->number = strtoull(text, NULL, 16);
        return mvs_hexadecimal(text, 2, 2);
    }
    if (!mvs_among(type, '|', text))
        return 4;
    strcpy(item->name, text);
    return 0;
}

static bool mvs_repeats(const mvs_operand *list) {
    for (int k = 0; k < list->count; k++)
        for (int j = 0; j < k; j++)
            if (strcmp(list->items[k].name, list->items[j].name) == 0 && list->items[k].number == list->items[j].number)
                return true;
    return false;
}

static int mvs_members(const struct mvs_list *list, char *text, mvs_operand *to) {
    size_t size = strlen(text);
    int fault = 0;
    if (size < 2 || text[0] != '(' || text[size - 1] != ')' || strcspn(text + 1, "()") != size - 2)
        return 4;
    text[size - 1] = '\0';
    for (char *rest = text + 1; rest;) {
        mvs_item item = { "", 0 };
        int found = mvs_one(list->member, mvs_cut(&rest, ','), &item);
        if (found == 4)
            return 4;
        fault = found ? found : fault;
        if (to->count < MVS_ITEMS)
            to->items[to->count++] = item;
    }
    if (list == mvs_lists && to->count != 2)
        return 4;
    if (list->differ && mvs_repeats(to))
        return 7;
    return to->count > list->most || (list == mvs_lists && to->items[1].number > to->items[0].number) ? 6 : fault;
}

static int mvs_value(const char *type, char *text, mvs_operand *to) {
    if (strcmp(type, "length") == 0)
        type = text[0] == '(' ? "pair" : MVS_NUMBER;
    for (size_t k = 0; k < sizeof mvs_lists / sizeof *mvs_lists; k++)
        if (strcmp(type, mvs_lists[k].type) == 0)
            return mvs_members(&mvs_lists[k], text, to);
    if (strcmp(type, "bytes") == 0)
        return mvs_bytes(text, to);
    to->count = 1;
    return mvs_one(type, text, &to->items[0]);
}

/* Returns the operand of a key, or NULL. */
static const mvs_operand *mvs_find(const mvs_statement *statement, const char *key) {
    for (int k = 0; k < statement->count; k++)
        if (strcmp(statement->operands[k].key, key) == 0)
            return &statement->operands[k];
    return NULL;
}

/* Reads the next operand of a row of the table: its key, mark and type. Returns false at the end. */
static bool mvs_next(const char **row, char *key, char *mark, char *type) {
    int read = 0;
    key[0] = '\0';
    bool has_key = sscanf(*row, " %8[A-Z]%n", key, &read) == 1;
    const char *rest = *row + (has_key ? read : (int)strspn(*row, " "));
    bool is_there = sscanf(rest, "%c%39s%n", mark, type, &read) == 2;
    *row = rest + (is_there ? read : 0);
    return is_there;
}

/* Finds the type of the operand of a key, or of the place'th without one. */
static bool mvs_type(const char *row, const char *key, int place, char *type) {
    char known[9], mark;
    while (mvs_next(&row, known, &mark, type))
        if (strcmp(known, key) == 0 && (key[0] || place-- == 0))
            return true;
    return false;
}

static int mvs_read_operands(const char *row, char *rest, mvs_statement *to) {
    bool has_key = false;
    for (int place = 0; rest; place++) {
        char type[40], *text = mvs_cut(&rest, ','), *key = "";
        mvs_operand found = { "", 0, { { "", 0 } } };
        if (has_key || strchr(text, '=')) {
            has_key = true;
            key = mvs_cut(&text, '=');
        }
        if ((has_key && !key[0]) || !mvs_type(row, key, place, type))
            return 4;
        int fault = mvs_value(type, text ? text : key + strlen(key), &found);
        if (fault != 4 && has_key && mvs_find(to, key))
            return 7;
        if (fault)
            return fault;
        strcpy(found.key, key);
        to->operands[to->count++] = found;
    }
    return 0;
}

/* Returns 5 if a required operand or one of a pair is missing. */
static int mvs_missing(const char *row, const mvs_statement *given) {
    int some = 0, both = 0, places = 0;
    char key[9], mark, type[40];
    while (mvs_next(&row, key, &mark, type)) {
        bool is_given = key[0] ? mvs_find(given, key) != NULL : given->count > places++;
        if (mark == '!' && !is_given)
            return 5;
        both += mark == '&';
        some += mark == '&' && is_given;
    }
    return some && some != both ? 5 : 0;
}

/* Returns 8 if operands exclude each other. */
static int mvs_excluded(const mvs_statement *given) {
    for (int k = 0; k < 4; k++)
        if (mvs_find(given, mvs_excluding[k][0]) && mvs_find(given, mvs_excluding[k][1]))
            return 8;
    const mvs_operand *lengths = mvs_find(given, "LA"), *areas = mvs_find(given, "A");
    const mvs_operand *gives = mvs_find(given, "GSPV"), *shares = mvs_find(given, "SHSPV");
    gives = gives ? gives : mvs_find(given, "GSPL");
    shares = shares ? shares : mvs_find(given, "SHSPL");
    for (int k = 0; gives && shares && k < gives->count; k++)
        for (int j = 0; j < shares->count; j++)
            if (gives->items[k].number == shares->items[j].number)
                return 8;
    return lengths && areas && lengths->count != areas->count ? 8 : 0;
}

/* Cuts the next word of a line, "" at its end. */
static char *mvs_word(char **rest) {
    char *word = *rest ? mvs_cut(rest, ' ') : "";
    while (*rest && !word[0])
        word = mvs_cut(rest, ' ');
    return word;
}

/* Reads a line of `size` bytes without its X'0A'; `is_first` until a statement was read. A script without one is JS09. */
static int mvs_read_statement(const char *line, size_t size, bool is_first, mvs_statement *to) {
    char text[MVS_LINE_MAX + 1] = "", *rest = text, *form = "";
    const char *row = NULL, *forms = NULL;
    memset(to, 0, sizeof *to);
    if (size > MVS_LINE_MAX)
        return 1;
    for (size_t k = 0; k < size; k++)
        if (line[k] < 0x20 || line[k] > 0x7E)
            return 2;
    memcpy(text, line, size);
    if (text[0] == '*' || strspn(text, " ") == size)
        return MVS_BLANK;
    char *task = mvs_cut(&rest, ' '), *operation = mvs_word(&rest), *field = mvs_word(&rest);
    char *operands = field[0] ? field : NULL;
    bool is_bare = !operands;
    for (int k = 0; k < MVS_ROWS; k++)
        forms = strcmp(operation, mvs_statements[k][0]) == 0 ? mvs_statements[k][1] : forms;
    if (mvs_name(task, to->task) || !forms)
        return 3;
    if (is_first && strcmp(operation, "REGION") != 0)
        return 9;
    if (forms[0] && operands)
        form = mvs_cut(&operands, ',');
    if (forms[0] && (is_bare || strchr(form, '=')))
        return 5;
    for (int k = 0; k < MVS_ROWS; k++)
        if (strcmp(operation, mvs_statements[k][0]) == 0 && (!forms[0] || (form[0] && mvs_among(mvs_statements[k][1], ',', form))))
            row = mvs_statements[k][2];
    if (!row)
        return 3;
    strcpy(to->operation, operation);
    strcpy(to->form, form);
    int fault = strcmp(operation, "RETURN") == 0 ? 0 : mvs_read_operands(row, operands, to);
    fault = fault ? fault : mvs_missing(row, to);
    fault = fault ? fault : mvs_excluded(to);
    return fault ? fault : MVS_STATEMENT;
}

#endif
