/* list_script.c: prints the statements of the script on standard input, by read_script.h.
 *
 *     cc -std=c99 list_script.c -o list_script && ./list_script < my.job
 */
#include <inttypes.h>
#include <stdio.h>
#include "read_script.h"

static void print_operand(const mvs_operand *operand, int place) {
    operand->key[0] ? printf(" %s=", operand->key) : printf(" %d=", place);
    for (int k = 0; k < operand->count; k++) {
        const mvs_item *item = &operand->items[k];
        printf("%s%s", k ? "," : "", item->name);
        if (!item->name[0] || item->number)
            printf("%s%" PRIu64, item->name[0] ? "+" : "", item->number);
    }
}

/* Reads a line without its X'0A', and keeps its first bytes. Returns their number, or -1 at the end of the input. */
static int read_line(char *line, int room) {
    int byte = getchar(), size = 0;
    if (byte == EOF)
        return -1;
    for (; byte != EOF && byte != '\n'; byte = getchar())
        if (size < room)
            line[size++] = (char)byte;
    return size;
}

int main(void) {
    char line[MVS_LINE_MAX + 1];
    bool is_first = true;
    unsigned number = 0;
    mvs_statement statement;
    for (int size; (size = read_line(line, (int)sizeof line)) >= 0;) {
        int found = mvs_read_statement(line, (size_t)size, is_first, &statement);
        number++;
        if (found == MVS_STATEMENT) {
            printf("%u %s %s%s%s", number, statement.task, statement.operation, statement.form[0] ? " " : "", statement.form);
            for (int k = 0; k < statement.count; k++)
                print_operand(&statement.operands[k], k);
            printf("\n");
            is_first = false;
        } else if (found != MVS_BLANK) {
            printf("%u JS0%d\n", number, found);
            return 12;
        }
    }
    if (is_first)
        printf("%u JS09\n", number + 1);
    return is_first ? 12 : 0;
}
