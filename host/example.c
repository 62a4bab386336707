/*
** example.c - plans a file, or loads an answer, and looks at the tour, as a
** scene would
**
**     example PLAN                    plans the plan file
**     example --answer ANSWER [PLAN]  loads the answer that plantour printed
**
** Prints the answer, and for a tour what a check of it against the plan finds
** and the places that come next at some steps.  Ends with 0 for a tour, 1 for a
** refusal, 2 if a file cannot be read.
*/
#include "plantour.h"

#include <inttypes.h>
#include <stdio.h>
#include <stdlib.h>
#include <string.h>

/* What is longer than a plan may be is refused, cut or not. */
static uint8_t plan[PLANTOUR_PLAN_BYTES + 1];
static uint8_t text[PLANTOUR_TEXT_BYTES + 1];
static uint8_t runin[PLANTOUR_RUNIN_BYTES];
static uint8_t loop[PLANTOUR_LOOP_BYTES];

static const char *const meaning[] = {
  "a tour",
  "the plan is too long",
  "a line is missing or malformed",
  "a number is out of range",
  "the plan has too many combinations of place and states",
  "a buffer is too short",
  "the hard rule accepts no tour",
  "the answer block is too short",
  "the lines contradict each other",
  "the tour breaks",
  "a road is listed twice",
};

/* The next 'count' places from step t, over as many turns as it takes. */
static void print_upcoming(size_t runin_length, size_t loop_length,
                           uint64_t t, unsigned count) {
  printf("step %" PRIu64 ":", t);
  while (count > 0) {
    size_t length;
    const uint8_t *part = plantour_upcoming(
        runin, runin_length, loop, loop_length, t, &length);
    if (length == 0) {
      break;
    }
    for (size_t i = 0; i < length && count > 0; i++, t++, count--) {
      printf(" %u", part[i]);
    }
  }
  printf("\n");
}

static int print_refusal(const char *what, uint32_t number, uint32_t line) {
  printf("%s %" PRIu32 ": %s\n", what, number, meaning[number]);
  if (line != 0) {
    printf("line %" PRIu32 "\n", line);
  }
  return 1;
}

/* The tour that stands in the buffers; kept is in byte 1 of either block. */
static void print_tour(const uint8_t *block, uint32_t cost,
                       size_t runin_length, size_t loop_length) {
  printf("answer 0: %s\ncost %" PRIu32 ", soft rules kept:",
         meaning[PLANTOUR_OK], cost);
  for (unsigned rule = 1; rule <= 8; rule++) {
    if (plantour_keeps(block, rule)) {
      printf(" %u", rule);
    }
  }
  printf("\nrun-in %zu places, loop %zu\n", runin_length, loop_length);
}

static void print_steps(size_t runin_length, size_t loop_length) {
  const uint64_t steps[] = {
    0, 1, runin_length, (uint64_t)runin_length + loop_length - 1, 1000000000,
    UINT64_MAX - 11, /* the last steps that have a number */
  };
  for (size_t i = 0; i < sizeof steps / sizeof *steps; i++) {
    print_upcoming(runin_length, loop_length, steps[i], 12);
  }
}

/* What the tour in the buffers is worth to the plan. */
static void print_check(size_t plan_length, size_t runin_length,
                        size_t loop_length) {
  uint8_t check[PLANTOUR_CHECK_BYTES];
  uint32_t number = check_tour(plan, plan_length, runin, runin_length,
                               loop, loop_length, check, sizeof check);
  if (number == PLANTOUR_OK) {
    printf("checked: %s, cost %" PRIu32 "\n",
           plantour_check_accepts(check) ? "accepted" : "not accepted",
           plantour_check_cost(check));
  } else if (number == PLANTOUR_BROKEN) {
    printf("checked: %s at index %" PRIu64 "\n", meaning[number],
           plantour_check_index(check));
  } else {
    print_refusal("checked:", number, plantour_check_line(check));
  }
}

static int plan_file(size_t plan_length) {
  uint8_t answer[PLANTOUR_ANSWER_BYTES];
  uint32_t number = plan_tour(plan, plan_length, answer, sizeof answer,
                              runin, sizeof runin, loop, sizeof loop);
  if (number != PLANTOUR_OK) {
    return print_refusal("answer", number, plantour_line(answer));
  }
  size_t runin_length = plantour_runin_length(answer);
  size_t loop_length = plantour_loop_length(answer);
  print_tour(answer, plantour_cost(answer), runin_length, loop_length);
  print_check(plan_length, runin_length, loop_length);
  print_steps(runin_length, loop_length);
  return 0;
}

/* Without a plan, its length being NULL, the tour is not checked. */
static int load_answer(size_t length, const size_t *plan_length) {
  uint8_t reply[PLANTOUR_REPLY_BYTES];
  uint32_t number = read_answer(text, length, reply, sizeof reply,
                                runin, sizeof runin, loop, sizeof loop);
  if (number != PLANTOUR_OK) {
    return print_refusal("not an answer,", number,
                         plantour_reply_fault(reply));
  }
  if (plantour_reply_answer(reply) != PLANTOUR_OK) {
    return print_refusal("answer", plantour_reply_answer(reply),
                         plantour_reply_line(reply));
  }
  size_t runin_length = (size_t)plantour_reply_runin_length(reply);
  size_t loop_length = (size_t)plantour_reply_loop_length(reply);
  print_tour(reply, plantour_reply_cost(reply), runin_length, loop_length);
  if (plan_length != NULL) {
    print_check(*plan_length, runin_length, loop_length);
  }
  print_steps(runin_length, loop_length);
  return 0;
}

/* Reads at most 'most' bytes; ends the program if that fails. */
static size_t read_file(const char *name, uint8_t *bytes, size_t most) {
  FILE *file = fopen(name, "rb");
  if (file == NULL) {
    perror(name);
    exit(2);
  }
  size_t length = fread(bytes, 1, most, file);
  int failed = ferror(file);
  fclose(file);
  if (failed) {
    fprintf(stderr, "%s: cannot be read\n", name);
    exit(2);
  }
  return length;
}

int main(int argc, char **argv) {
  int load = argc > 2 && strcmp(argv[1], "--answer") == 0;
  if (argc != 2 && !(load && argc <= 4)) {
    fprintf(stderr, "usage: example PLAN\n"
                    "       example --answer ANSWER [PLAN]\n");
    return 2;
  }
  size_t plan_length = 0;
  if (!load || argc == 4) {
    plan_length = read_file(argv[argc - 1], plan, sizeof plan);
  }
  if (!load) {
    return plan_file(plan_length);
  }
  size_t length = read_file(argv[2], text, sizeof text);
  return load_answer(length, argc == 4 ? &plan_length : NULL);
}
