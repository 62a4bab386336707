/*
** Times two versions of the library side by side: see host/versus.
*/
#define _POSIX_C_SOURCE 199309L
#include <stdint.h>
#include <stdio.h>
#include <time.h>

#include "plantour.h"

typedef uint32_t planner(const uint8_t *plan, size_t plan_len, uint8_t *answer,
                         size_t answer_len, uint8_t *runin, size_t runin_len,
                         uint8_t *loop, size_t loop_len);
planner old_plan_tour, new_plan_tour;

#define ROUNDS 20000

static uint8_t plan[PLANTOUR_PLAN_BYTES + 1];
static uint8_t runin[PLANTOUR_RUNIN_BYTES], loop[PLANTOUR_LOOP_BYTES];

/* The time of one call in nanoseconds, and what it returned. */
static long call(planner *plan_tour, size_t length, uint32_t *number) {
  uint8_t answer[PLANTOUR_ANSWER_BYTES];
  struct timespec begin, end;
  clock_gettime(CLOCK_MONOTONIC, &begin);
  *number = plan_tour(plan, length, answer, sizeof answer, runin, sizeof runin,
                      loop, sizeof loop);
  clock_gettime(CLOCK_MONOTONIC, &end);
  return (end.tv_sec - begin.tv_sec) * 1000000000L + end.tv_nsec - begin.tv_nsec;
}

int main(int count, char **names) {
  printf("%-32s %6s %6s %12s %12s %6s\n", "plan", "old", "new", "old, us",
         "new, us", "ratio");
  for (int i = 1; i < count; i++) {
    FILE *file = fopen(names[i], "rb");
    if (!file) {
      perror(names[i]);
      return 1;
    }
    size_t length = fread(plan, 1, sizeof plan, file);
    fclose(file);
    long least[2] = {0, 0};
    uint32_t number[2];
    for (int round = 0; round < ROUNDS; round++) {
      for (int k = 0; k < 2; k++) {
        long taken = call(k ? new_plan_tour : old_plan_tour, length, &number[k]);
        if (round == 0 || taken < least[k]) {
          least[k] = taken;
        }
      }
    }
    printf("%-32s %6u %6u %12.2f %12.2f %6.2f\n", names[i], (unsigned)number[0],
           (unsigned)number[1], least[0] / 1000.0, least[1] / 1000.0,
           (double)least[1] / least[0]);
  }
  return 0;
}
