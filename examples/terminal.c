/* A rule book's way through the library, from C: read, shrunk and saved at the desk; restored at a terminal, where a small answer is rebuilt into a full
 * order. Prints what each call answers. tools/try-install builds it, runs it and compares what it prints with terminal.out. */
#include "broodchamber.h"

#include <stdio.h>
#include <string.h>

static const char BOOK[] = "p cnf 5 5\n1 4 0\n-4 5 0\n-1 2 0\n-2 3 0\n-3 1 0\n";

/* A book and its stack, with the room that the readers ask for. */
struct book {
    size_t options, rules, removals;
    uint16_t lits[BC_LITERALS];
    uint32_t offs[BC_OFFSETS];
    uint32_t stack[BC_STACK_WORDS];
};

static struct book desk, terminal;
static uint8_t saved[BC_SAVED_BYTES];
static size_t answer[BC_ANSWER];

/* The table and the stack as the doors take them. */
#define TABLE(b) (b).options, (b).rules, (b).lits, BC_LITERALS, (b).offs, BC_OFFSETS
#define STACK(b) (b).stack, BC_STACK_WORDS

/* Whether the last call answered; a refusal is printed. */
static bool answered(const char *call)
{
    if (answer[0] != 0) {
        printf("%s: refused %zu at %zu\n", call, answer[0], answer[1]);
        return false;
    }
    return true;
}

static void print_rule(const struct book *b, size_t k)
{
    bc_clause_literals(TABLE(*b), k, answer, BC_ANSWER);
    printf("rule %zu:", k);
    for (size_t i = 0; i < answer[2]; i++) {
        printf(" %u", b->lits[answer[1] + i]);
    }
    printf("\n");
}

/* At the desk: the book is read, shrunk and saved. Answers the saved form's length, 0 where a call was refused. */
static size_t at_the_desk(void)
{
    bc_read_text((const uint8_t *)BOOK, strlen(BOOK), desk.lits, BC_LITERALS, desk.offs, BC_OFFSETS, answer, BC_ANSWER);
    if (!answered("read")) {
        return 0;
    }
    desk.options = answer[1];
    desk.rules = answer[2];
    printf("read: %zu options, %zu rules, %s\n", desk.options, desk.rules, bc_is_sound(TABLE(desk)) ? "sound" : "not sound");
    for (size_t k = 1; k <= desk.rules; k++) {
        print_rule(&desk, k);
    }
    bc_next_blocked(TABLE(desk), STACK(desk), 0, answer, BC_ANSWER);
    printf("next: rule %zu by literal %zu\n", answer[1], answer[2]);
    bc_remove(TABLE(desk), STACK(desk), 0, 1, 8, answer, BC_ANSWER);
    answered("remove rule 1 by literal 8");
    bc_eliminate(TABLE(desk), STACK(desk), answer, BC_ANSWER);
    desk.removals = answer[1];
    printf("eliminate: %zu removals\n", desk.removals);
    for (size_t i = 0; i < desk.removals; i++) {
        printf("rule %u by literal %u\n", desk.stack[2 * i], desk.stack[2 * i + 1]);
    }
    bc_write_saved(TABLE(desk), STACK(desk), desk.removals, saved, BC_SAVED_BYTES, answer, BC_ANSWER);
    if (!answered("write")) {
        return 0;
    }
    printf("saved: %zu bytes\n", answer[1]);
    return answer[1];
}

/* One order at the terminal. */
static void order(const uint8_t choice[5])
{
    uint8_t vals[5];
    memcpy(vals, choice, sizeof vals);
    printf("choice %u %u %u %u %u\n", vals[0], vals[1], vals[2], vals[3], vals[4]);
    bc_rebuild(TABLE(terminal), STACK(terminal), terminal.removals, vals, sizeof vals, answer, BC_ANSWER);
    if (answered("rebuild")) {
        printf("order  %u %u %u %u %u\n", vals[0], vals[1], vals[2], vals[3], vals[4]);
    }
}

/* At the terminal: the saved form is read and checked, and choices are rebuilt into orders. */
static void at_the_terminal(size_t length)
{
    bc_read_saved(saved, length - 1, terminal.lits, BC_LITERALS, terminal.offs, BC_OFFSETS, STACK(terminal), answer, BC_ANSWER);
    answered("read a form whose last byte is lost");
    bc_read_saved(saved, length, terminal.lits, BC_LITERALS, terminal.offs, BC_OFFSETS, STACK(terminal), answer, BC_ANSWER);
    if (!answered("read")) {
        return;
    }
    terminal.options = answer[1];
    terminal.rules = answer[2];
    terminal.removals = answer[3];
    printf("restored: %zu options, %zu rules, %zu removals\n", terminal.options, terminal.rules, terminal.removals);
    bc_check_stack(TABLE(terminal), STACK(terminal), terminal.removals, answer, BC_ANSWER);
    if (answered("check")) {
        printf("checked\n");
    }
    order((const uint8_t[]){0, 0, 0, 0, 0});
    order((const uint8_t[]){1, 0, 0, 0, 0});
    if (!bc_eliminate(TABLE(terminal), STACK(terminal), answer, BC_ANSWER - 1)) {
        printf("three cells for an answer: not made\n");
    }
}

int main(void)
{
    size_t length = at_the_desk();
    if (length != 0) {
        at_the_terminal(length);
    }
    return 0;
}
