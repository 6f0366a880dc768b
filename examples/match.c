/* Matches one rule against one state from C, another up to class, lists every answer of a third,
   shows what two of them can cost at most, matches a state that it splices for edition 2, and
   writes the next state by a template.

   cc -Iinclude examples/match.c target/staticlib/libqonveshir.a -o target/match && target/match */

#include "qonveshir.h"
#include <stdio.h>

/* open, shut, held, gate (1 child), row (2 children), gates (a list), stopped */
static const uint8_t table[] = {0, 0, 0, 1, 2, 255, 0};
/* stopped means held; every other symbol is its own class */
static const uint8_t classes[] = {0, 1, 2, 3, 4, 5, 2};

/* Prints the outcome and, if it is bound, what the names and run names stand for. */
static void show(const char *what, qonveshir_outcome found, const uint16_t *answer) {
  printf("%s: number %u, count %llu\n", what, found.number, (unsigned long long)found.count);
  if (found.number != QONVESHIR_DONE) return;
  for (int i = 0; i < QONVESHIR_VARIABLES; i++) {
    const uint16_t *entry = answer + QONVESHIR_ENTRY * i;
    if (entry[0] == QONVESHIR_ABSENT) continue;
    int is_name = i < QONVESHIR_NAMES;
    printf("%c%d: offset %u, length %u, terms %u\n", is_name ? '?' : '@',
           is_name ? i : i - QONVESHIR_NAMES, entry[0], entry[1], entry[2]);
  }
}

/* The number of terms of a run name. */
static uint16_t terms(const uint16_t *answer, int run) {
  return answer[QONVESHIR_ENTRY * (QONVESHIR_NAMES + run) + 2];
}

/* Shows the first answer of gates(@0, @1), then the next after each, until there is none. */
static void show_every(const uint8_t *state, size_t state_length) {
  static const uint8_t rule[] = {5, 2, 232, 233};
  uint16_t answer[QONVESHIR_ANSWER], given[2];
  qonveshir_outcome found = qonveshir_match(table, sizeof table, rule, sizeof rule, state,
                                            state_length, 100000, answer, QONVESHIR_ANSWER);
  while (found.number == QONVESHIR_DONE) {
    show("an answer", found, answer);
    /* The run lengths of this answer, in the order of the run names' places. */
    given[0] = terms(answer, 0);
    given[1] = terms(answer, 1);
    found = qonveshir_next(table, sizeof table, rule, sizeof rule, state, state_length, given, 2,
                           100000, answer, QONVESHIR_ANSWER);
  }
  show("after the last", found, answer);
}

/* Matches gates(@0, shut) in edition 2 against gates(open, gates(held, shut)), as it is and
   spliced. */
static void show_edition_2(void) {
  static const uint8_t rule[] = {5, 2, 232, 1};
  static const uint8_t state[] = {5, 2, 0, 5, 2, 2, 1};
  uint8_t spliced[sizeof state];
  uint16_t answer[QONVESHIR_ANSWER];
  show("a list in a list",
       qonveshir_match_in(2, table, sizeof table, classes, sizeof classes, rule, sizeof rule, state,
                          sizeof state, 100000, answer, QONVESHIR_ANSWER),
       answer);
  qonveshir_outcome written =
      qonveshir_splice_record_in(table, sizeof table, classes, sizeof classes, state, sizeof state,
                                 spliced, sizeof spliced);
  printf("spliced: number %u, length %llu\n", written.number, (unsigned long long)written.count);
  show("its elements in its place",
       qonveshir_match_in(2, table, sizeof table, classes, sizeof classes, rule, sizeof rule,
                          spliced, written.count, 100000, answer, QONVESHIR_ANSWER),
       answer);
}

/* Opens the first gate that is shut: gates(@0, shut, @1) with the template gates(@0, open, @1). */
static void show_next(const uint8_t *state, size_t state_length) {
  static const uint8_t rule[] = {5, 3, 232, 1, 233};
  static const uint8_t template_[] = {5, 3, 232, 0, 233};
  uint8_t next[QONVESHIR_RECORD_LIMIT];
  qonveshir_written look = qonveshir_look(table, sizeof table, rule, sizeof rule, template_,
                                          sizeof template_, state, state_length, 100000);
  printf("a look: number %u, length %u, count %llu\n", look.number, look.length,
         (unsigned long long)look.count);
  qonveshir_written written =
      qonveshir_apply(table, sizeof table, rule, sizeof rule, template_, sizeof template_, state,
                      state_length, 100000, next, look.length);
  printf("the next state: number %u, bytes", written.number);
  for (uint32_t i = 0; i < written.length; i++) printf(" %u", next[i]);
  printf("\n");
}

int main(void) {
  uint16_t answer[QONVESHIR_ANSWER];

  static const uint8_t gates_rule[] = {5, 3, 232, 248, 0, 233};  /* gates(@0, !open, @1) */
  static const uint8_t gates[] = {5, 2, 0, 1};                   /* gates(open, shut) */
  show("gates",
       qonveshir_match(table, sizeof table, gates_rule, sizeof gates_rule, gates, sizeof gates,
                       100000, answer, QONVESHIR_ANSWER),
       answer);

  static const uint8_t row_rule[] = {4, 200, 200};  /* row(?0, ?0) */
  static const uint8_t row[] = {4, 6, 2};           /* row(stopped, held) */
  show("row",
       qonveshir_match(table, sizeof table, row_rule, sizeof row_rule, row, sizeof row, 100000,
                       answer, QONVESHIR_ANSWER),
       answer);
  show("row up to class",
       qonveshir_match_in(1, table, sizeof table, classes, sizeof classes, row_rule,
                          sizeof row_rule, row, sizeof row, 100000, answer, QONVESHIR_ANSWER),
       answer);
  show("row with a class list that is too short",
       qonveshir_match_in(1, table, sizeof table, classes, sizeof classes - 1, row_rule,
                          sizeof row_rule, row, sizeof row, 100000, answer, QONVESHIR_ANSWER),
       answer);

  static const uint8_t two[] = {5, 2, 3, 2, 1};  /* gates(gate(held), shut) */
  show_every(two, sizeof two);

  qonveshir_outcome cost =
      qonveshir_cost(table, sizeof table, row_rule, sizeof row_rule);
  printf("row costs at most: number %u, count %llu\n", cost.number,
         (unsigned long long)cost.count);
  cost = qonveshir_cost(table, sizeof table, gates_rule, sizeof gates_rule);
  printf("gates has no bound: number %u, count %llu\n", cost.number,
         (unsigned long long)cost.count);

  show_edition_2();
  show_next(gates, sizeof gates);
  return 0;
}
