/*
** stack.c - how much stack the calls use: plan_tour(), read_answer() and
** check_tour()
**
**     stack FILE...
**
** Plans each file on a stack of its own, painted before the call, and checks
** the tour on another, and prints the most bytes that were painted over; then
** reads an answer on one.  Ends with 1 if any is more than plantour.h says.
*/
#define _XOPEN_SOURCE 700
#include "plantour.h"

#include <stdio.h>
#include <string.h>
#include <ucontext.h>

static uint8_t plan[PLANTOUR_PLAN_BYTES + 1];
static size_t plan_len;
static uint8_t answer[PLANTOUR_ANSWER_BYTES];
static uint8_t runin[PLANTOUR_RUNIN_BYTES];
static uint8_t loop[PLANTOUR_LOOP_BYTES];

static uint8_t room[4 << 20];
static ucontext_t here, there;

static void plan_it(void) {
  plan_tour(plan, plan_len, answer, sizeof answer, runin, sizeof runin, loop,
            sizeof loop);
}

static uint8_t check[PLANTOUR_CHECK_BYTES];

/* The tour that was planned; after a refusal, two empty lists. */
static void check_it(void) {
  check_tour(plan, plan_len, runin, plantour_runin_length(answer),
             loop, plantour_loop_length(answer), check, sizeof check);
}

static const char text[] =
  "answer=0\nline=0\ncost=4\nkept=13\nrunin=0,1,3\nloop=5,6,0,1,3\n";
static uint8_t reply[PLANTOUR_REPLY_BYTES];

static void read_it(void) {
  read_answer((const uint8_t *)text, sizeof text - 1, reply, sizeof reply,
              runin, sizeof runin, loop, sizeof loop);
}

/* The bytes from the lowest one painted over to the top. */
static size_t used(void (*call)(void), uint8_t paint) {
  size_t untouched = 0;
  memset(room, paint, sizeof room);
  if (getcontext(&there) != 0) {
    return sizeof room;
  }
  there.uc_stack.ss_sp = room;
  there.uc_stack.ss_size = sizeof room;
  there.uc_link = &here;
  makecontext(&there, call, 0);
  if (swapcontext(&here, &there) != 0) {
    return sizeof room;
  }
  while (untouched < sizeof room && room[untouched] == paint) {
    untouched++;
  }
  return sizeof room - untouched;
}

/* With two paints, since a byte may be written over with the first. */
static size_t most_used(void (*call)(void)) {
  size_t one = used(call, 0xA5), two = used(call, 0x5A);
  return one > two ? one : two;
}

int main(int argc, char **argv) {
  size_t most = 0, checking = 0;
  for (int i = 1; i < argc; i++) {
    FILE *file = fopen(argv[i], "rb");
    if (file == NULL) {
      perror(argv[i]);
      return 2;
    }
    plan_len = fread(plan, 1, sizeof plan, file);
    fclose(file);
    size_t bytes = most_used(plan_it);
    most = most > bytes ? most : bytes;
    bytes = most_used(check_it);
    checking = checking > bytes ? checking : bytes;
  }
  size_t reading = most_used(read_it);
  printf("%zu bytes of stack at most, %zu are stated\n", most,
         (size_t)PLANTOUR_STACK_BYTES);
  printf("%zu to read an answer, %zu are stated\n", reading,
         (size_t)PLANTOUR_READ_STACK_BYTES);
  printf("%zu to check a tour, %zu are stated\n", checking,
         (size_t)PLANTOUR_CHECK_STACK_BYTES);
  return most > PLANTOUR_STACK_BYTES || reading > PLANTOUR_READ_STACK_BYTES
      || checking > PLANTOUR_CHECK_STACK_BYTES;
}
