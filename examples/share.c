/*
 * Reads a scenario on standard input, analyses it, and says for each shape of a called atom which of its arguments the two desks may share:
 * those whose variables every call row of the shape marks ground.
 */
#include <stdio.h>
#include <string.h>

#include "threadknoll.h"

static uint8_t text[THREADKNOLL_MAX_TEXT + 1];
static uint16_t words[THREADKNOLL_MAX_WORDS];
static uint8_t names[THREADKNOLL_MAX_NAMES];
static uint16_t table[THREADKNOLL_MAX_ROWS * THREADKNOLL_ROW_WORDS];

struct shape {
    int cells;
    uint16_t cell[THREADKNOLL_ATOM_CELLS];
};

static struct shape shapes[THREADKNOLL_MAX_SHAPES];
static int shape_count;

static int arity_of_predicate(uint16_t n) { return words[3 + n]; }
static int arity_of_function(uint16_t n) { return words[3 + words[0] + n]; }

/* The first cell behind a term of an accepted program. */
static size_t term_end(size_t at) {
    uint16_t cell = words[at++];
    if (cell < THREADKNOLL_FIRST_VARIABLE)
        for (int i = arity_of_function(cell); i > 0; i--)
            at = term_end(at);
    return at;
}

static size_t atom_end(size_t at) {
    int arity = arity_of_predicate(words[at++]);
    while (arity-- > 0)
        at = term_end(at);
    return at;
}

/* "A shape is an atom with its variables renumbered by first appearance"; each distinct shape is numbered once. */
static void add_shape(size_t from, size_t to) {
    struct shape *s = &shapes[shape_count];
    uint16_t met[THREADKNOLL_MAX_VARIABLES];
    int variables = 0;
    s->cells = (int)(to - from);
    for (int i = 0; i < s->cells; i++) {
        uint16_t cell = words[from + (size_t)i];
        if (i > 0 && cell >= THREADKNOLL_FIRST_VARIABLE) {
            int v = 0;
            while (v < variables && met[v] != cell)
                v++;
            if (v == variables)
                met[variables++] = cell;
            cell = (uint16_t)(THREADKNOLL_FIRST_VARIABLE + v);
        }
        s->cell[i] = cell;
    }
    for (int n = 0; n < shape_count; n++)
        if (shapes[n].cells == s->cells && memcmp(shapes[n].cell, s->cell, 2 * (size_t)s->cells) == 0)
            return;
    shape_count++;
}

/* "Shape 0 is the goal's; the body atoms follow in program order." The goal stands last, so it is found first. */
static void number_shapes(void) {
    size_t first = (size_t)3 + words[0] + words[1], at = first;
    for (int c = 0; c < words[2]; c++)
        for (int atoms = words[at++] + 1; atoms > 0; atoms--)
            at = atom_end(at);
    add_shape(at, atom_end(at));
    at = first;
    for (int c = 0; c < words[2]; c++) {
        int body = words[at++];
        for (at = atom_end(at); body > 0; body--) {
            size_t end = atom_end(at);
            add_shape(at, end);
            at = end;
        }
    }
}

/* The variables of argument number n (from 1) of a shape, as a mask. */
static uint16_t argument_variables(const struct shape *s, int n) {
    int at = 1;
    uint16_t mask = 0;
    while (n-- > 0) {
        mask = 0;
        for (int left = 1; left > 0; left--) {
            uint16_t cell = s->cell[at++];
            if (cell < THREADKNOLL_FIRST_VARIABLE)
                left += arity_of_function(cell);
            else
                mask |= (uint16_t)(1u << (cell - THREADKNOLL_FIRST_VARIABLE));
        }
    }
    return mask;
}

int main(void) {
    size_t place, count, length = fread(text, 1, sizeof text, stdin);
    uint16_t number = threadknoll_read(text, length, words, THREADKNOLL_MAX_WORDS, names, sizeof names, &place, &count);
    if (number == THREADKNOLL_ACCEPTED)
        number = threadknoll_analyse(words, count, table, sizeof table / sizeof *table, &place, &count);
    if (number != THREADKNOLL_ACCEPTED) {
        printf("refused\t%u\t%zu\n", (unsigned)number, place);
        return 1;
    }
    number_shapes();
    for (int n = 0; n < shape_count; n++) {
        uint16_t ground = 0xffff;
        int calls = 0;
        for (size_t r = 0; r < count; r++) {
            const uint16_t *row = table + r * THREADKNOLL_ROW_WORDS;
            if (row[THREADKNOLL_KIND] == THREADKNOLL_CALL && row[THREADKNOLL_A] == n) {
                ground &= row[THREADKNOLL_MASK];
                calls++;
            }
        }
        printf("shape %d %.*s:", n, THREADKNOLL_NAME_BYTES, (const char *)names + THREADKNOLL_NAME_BYTES * shapes[n].cell[0]);
        if (calls == 0)
            printf(" never called");
        else
            for (int a = 1; a <= arity_of_predicate(shapes[n].cell[0]); a++)
                printf(" %s", (argument_variables(&shapes[n], a) & ~ground) == 0 ? "share" : "copy");
        printf("\n");
    }
    return 0;
}
