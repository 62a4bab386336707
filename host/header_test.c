/*
** header_test.c - the inline functions of plantour.h, and the entries' edges
**
** Ends with 0 and says nothing if all is well.
*/
#include "plantour.h"

#include <assert.h>
#include <string.h>

static void decodes_the_block(void) {
  const uint8_t block[PLANTOUR_ANSWER_BYTES] = {
    3, 0x85, 3, 0, 1, 2, 3, 0x84, 5, 6, 7, 0x88, 0xff, 7, 0, 0x50,
  };
  assert(plantour_number(block) == PLANTOUR_RANGE);
  assert(plantour_kept(block) == 0x85 && plantour_count(block) == 3);
  assert(plantour_keeps(block, 1) && !plantour_keeps(block, 2));
  assert(plantour_keeps(block, 3) && plantour_keeps(block, 8));
  assert(plantour_line(block) == 0x84030201u);
  assert(plantour_cost(block) == 0x88070605u);
  assert(plantour_runin_length(block) == 2047);
  assert(plantour_loop_length(block) == 20480);
}

static void decodes_the_reply(void) {
  const uint8_t block[PLANTOUR_REPLY_BYTES] = {
    3, 0x85, 6, 0, 1, 2, 3, 0x84, 5, 6, 7, 0x88, 9, 10, 11, 0x8c,
    1, 2, 3, 4, 5, 6, 7, 0x88, 9, 8, 7, 6, 5, 4, 3, 0x82,
  };
  assert(plantour_reply_number(block) == PLANTOUR_RANGE);
  assert(plantour_reply_kept(block) == 0x85);
  assert(plantour_keeps(block, 1) && !plantour_keeps(block, 2));
  assert(plantour_reply_answer(block) == PLANTOUR_NONE);
  assert(plantour_reply_fault(block) == 0x84030201u);
  assert(plantour_reply_cost(block) == 0x88070605u);
  assert(plantour_reply_line(block) == 0x8c0b0a09u);
  assert(plantour_reply_runin_length(block) == 0x8807060504030201u);
  assert(plantour_reply_loop_length(block) == 0x8203040506070809u);
}

static void decodes_the_check(void) {
  const uint8_t block[PLANTOUR_CHECK_BYTES] = {
    9, 0x85, 1, 0, 1, 2, 3, 0x84, 5, 6, 7, 0x88, 0, 0, 0, 0,
    1, 2, 3, 4, 5, 6, 7, 0x88,
  };
  assert(plantour_check_number(block) == PLANTOUR_BROKEN);
  assert(plantour_check_kept(block) == 0x85);
  assert(plantour_keeps(block, 1) && !plantour_keeps(block, 2));
  assert(plantour_check_accepts(block));
  assert(plantour_check_line(block) == 0x84030201u);
  assert(plantour_check_cost(block) == 0x88070605u);
  assert(plantour_check_index(block) == 0x8807060504030201u);
}

static void finds_where_upcoming_places_begin(void) {
  const uint64_t max = UINT64_MAX;
  assert(upcoming_offset(2, 3, 1) == 1 && upcoming_offset(2, 3, 2) == 0);
  assert(upcoming_offset(2, 3, 6) == 1 && upcoming_offset(2, 3, max) == 1);
  assert(upcoming_offset(0, 0, 0) == 0 && upcoming_offset(0, 0, max) == 0);
  assert(upcoming_offset(2, 0, 1) == 1 && upcoming_offset(2, 0, 2) == 0);
  assert(upcoming_offset(0, 1, max) == 0 && upcoming_offset(0, max, max) == 0);
  assert(upcoming_offset(0, max, max - 1) == max - 1);
  assert(upcoming_offset(1, max, max) == max - 1);
  assert(upcoming_offset(max, 1, max - 1) == max - 1);
  assert(upcoming_offset(max, 1, max) == 0 && upcoming_offset(max, 0, max) == 0);
  assert(upcoming_offset(max, max, max) == 0);
}

static const uint8_t tour_runin[] = {5, 6}, tour_loop[] = {7, 8, 9};

/* The part from step t is just so many places from 'from' on, and no copy. */
static void upcoming_is(size_t runin_length, size_t loop_length, uint64_t t,
                        const uint8_t *from, size_t expected) {
  size_t length = 99;
  const uint8_t *part = plantour_upcoming(
      tour_runin, runin_length, tour_loop, loop_length, t, &length);
  assert(part == from && length == expected);
}

static void serves_upcoming_places(void) {
  upcoming_is(2, 3, 0, tour_runin, 2);
  upcoming_is(2, 3, 1, tour_runin + 1, 1);
  upcoming_is(2, 3, 2, tour_loop, 3);
  upcoming_is(2, 3, 6, tour_loop + 1, 2);
  upcoming_is(2, 3, UINT64_MAX, tour_loop + 1, 2);
  upcoming_is(0, 3, 0, tour_loop, 3);
  upcoming_is(2, 0, 1, tour_runin + 1, 1);
  upcoming_is(2, 0, 2, tour_loop, 0);
  upcoming_is(2, 0, UINT64_MAX, tour_loop, 0);
  upcoming_is(0, 0, 0, tour_loop, 0);
}

/* One place with a road to itself: N is 1, and the loop bound 2. */
static const char plan[] =
  "tour=1\nmarks=0\nplaces=1\nlabel=0\nstart=0\nroads=1\nroad=0,0\n"
  "hard=1\nfirst=0\naccept=1\nmoves=1\nmove=0,0,0,0\nrules=0\n";

static void plans_with_the_least_buffers(void) {
  uint8_t answer[PLANTOUR_ANSWER_BYTES + 1], runin[1], loop[3];
  memset(answer, 0xaa, sizeof answer);
  memset(loop, 0xaa, sizeof loop);
  const uint8_t *bytes = (const uint8_t *)plan;
  size_t length = sizeof plan - 1;
  assert(plan_tour(bytes, length, answer, 15, runin, 1, loop, 2) == PLANTOUR_BLOCK);
  assert(answer[0] == 0xaa && loop[0] == 0xaa);
  assert(plan_tour(bytes, length, answer, 16, runin, 1, loop, 1) == PLANTOUR_BUFFER);
  assert(answer[0] == PLANTOUR_BUFFER && loop[0] == 0xaa);
  assert(plan_tour(bytes, length, answer, 16, runin, 1, loop, 2) == PLANTOUR_OK);
  assert(plantour_loop_length(answer) >= 1 && loop[0] == 0);
  assert(plan_tour(bytes, length - 1, answer, 16, runin, 1, loop, 2) == PLANTOUR_FORM);
  assert(plantour_line(answer) == 13);
  assert(plan_tour(bytes, 0, answer, 16, runin, 0, loop, 0) == PLANTOUR_FORM);
  assert(plantour_line(answer) == 1);
  assert(answer[16] == 0xaa && loop[2] == 0xaa);
}

static const char text[] =
  "answer=0\nline=0\ncost=4\nkept=13\nrunin=5,127\nloop=0,1,2\n";

static void reads_an_answer(void) {
  uint8_t reply[PLANTOUR_REPLY_BYTES + 1], runin[3], loop[4];
  memset(reply, 0xaa, sizeof reply);
  memset(runin, 0xaa, sizeof runin);
  memset(loop, 0xaa, sizeof loop);
  const uint8_t *bytes = (const uint8_t *)text;
  size_t length = sizeof text - 1;
  assert(read_answer(bytes, length, reply, 31, runin, 3, loop, 4) == PLANTOUR_BLOCK);
  assert(reply[0] == 0xaa && runin[0] == 0xaa && loop[0] == 0xaa);
  assert(read_answer(bytes, length, reply, 32, runin, 2, loop, 2) == PLANTOUR_BUFFER);
  assert(reply[0] == PLANTOUR_BUFFER && runin[0] == 0xaa && loop[0] == 0xaa);
  assert(read_answer(bytes, length, reply, 32, runin, 3, loop, 3) == PLANTOUR_OK);
  assert(plantour_reply_answer(reply) == 0 && plantour_reply_line(reply) == 0);
  assert(plantour_reply_cost(reply) == 4 && plantour_reply_kept(reply) == 13);
  assert(plantour_reply_runin_length(reply) == 2 && plantour_reply_loop_length(reply) == 3);
  assert(runin[0] == 5 && runin[1] == 127 && runin[2] == 0xaa);
  assert(loop[0] == 0 && loop[1] == 1 && loop[2] == 2 && loop[3] == 0xaa);
  assert(read_answer(bytes, length - 1, reply, 32, runin, 3, loop, 3) == PLANTOUR_FORM);
  assert(plantour_reply_fault(reply) == 6 && plantour_reply_runin_length(reply) == 0);
  assert(read_answer(bytes, 0, reply, 32, runin, 0, loop, 0) == PLANTOUR_FORM);
  assert(plantour_reply_fault(reply) == 1);
  const char clash[] = "answer=4\nline=3\ncost=0\nkept=0\nrunin=\nloop=\n";
  bytes = (const uint8_t *)clash;
  assert(read_answer(bytes, sizeof clash - 1, reply, 32, runin, 0, loop, 0) == PLANTOUR_CLASH);
  assert(plantour_reply_fault(reply) == 0 && plantour_reply_answer(reply) == 0);
  assert(reply[32] == 0xaa);
}

/*
** Two places with a road each way, the second of which has the mark.  The hard
** rule accepts nothing; the soft rules are "never the mark" and "the mark again
** and again".
*/
static const char marked[] =
  "tour=1\nmarks=1\nplaces=2\nlabel=0\nlabel=1\nstart=0\n"
  "roads=2\nroad=0,1\nroad=1,0\n"
  "hard=1\nfirst=0\naccept=0\nmoves=1\nmove=0,0,0,0\nrules=2\n"
  "soft=1\nweight=3\nfirst=0\naccept=1\nmoves=1\nmove=0,0,1,0\n"
  "soft=2\nweight=5\nfirst=0\naccept=2\nmoves=4\n"
  "move=0,1,0,1\nmove=0,0,1,0\nmove=1,1,0,1\nmove=1,0,1,0\n";

/* So many of these places are the run-in, and so many behind them the loop. */
static uint32_t checked(uint8_t *check, const uint8_t *places,
                        size_t runin_length, size_t loop_length) {
  return check_tour((const uint8_t *)marked, sizeof marked - 1,
                    places, runin_length, places + runin_length, loop_length,
                    check, PLANTOUR_CHECK_BYTES);
}

static void breaks_at(uint64_t index, const uint8_t *places,
                      size_t runin_length, size_t loop_length) {
  uint8_t check[PLANTOUR_CHECK_BYTES];
  memset(check, 0xaa, sizeof check);
  assert(checked(check, places, runin_length, loop_length) == PLANTOUR_BROKEN);
  assert(plantour_check_number(check) == PLANTOUR_BROKEN);
  assert(plantour_check_index(check) == index && plantour_check_line(check) == 0);
  assert(plantour_check_cost(check) == 0 && plantour_check_kept(check) == 0);
  assert(!plantour_check_accepts(check));
}

static void finds_where_a_tour_breaks(void) {
  const uint8_t round[] = {0, 1, 0, 1}, unknown[] = {0, 1, 2, 1};
  const uint8_t far[] = {255}, late[] = {1, 0}, stays[] = {0, 1, 1, 0};
  breaks_at(0, round, 0, 0);
  breaks_at(4, round, 4, 0);
  breaks_at(1, round, 0, 1);
  breaks_at(4, round, 1, 3);
  breaks_at(2, unknown, 1, 3);
  breaks_at(2, unknown, 4, 0);
  breaks_at(0, far, 0, 1);
  breaks_at(0, late, 1, 1);
  breaks_at(2, stays, 0, 4);
  breaks_at(2, stays, 2, 2);
}

static void checks_a_tour(void) {
  uint8_t check[PLANTOUR_CHECK_BYTES + 1];
  memset(check, 0xaa, sizeof check);
  const uint8_t *bytes = (const uint8_t *)plan;
  size_t length = sizeof plan - 1;
  const uint8_t place = 0, round[] = {0, 1, 0, 1};
  assert(check_tour(bytes, length, &place, 1, &place, 1, check, 23) == PLANTOUR_BLOCK);
  assert(check[0] == 0xaa && check[22] == 0xaa);
  /* Both lists are only read, so they may be the same. */
  assert(check_tour(bytes, length, &place, 1, &place, 1, check, 24) == PLANTOUR_OK);
  assert(plantour_check_accepts(check) && plantour_check_cost(check) == 0);
  assert(check_tour(bytes, length - 1, &place, 0, &place, 0, check, 24) == PLANTOUR_FORM);
  assert(plantour_check_line(check) == 13 && plantour_check_index(check) == 0);
  assert(check_tour(bytes, 0, &place, 0, &place, 1, check, 24) == PLANTOUR_FORM);
  assert(plantour_check_line(check) == 1 && !plantour_check_accepts(check));
  /* Not accepted, and yet it has its cost. */
  assert(checked(check, round, 0, 2) == PLANTOUR_OK);
  assert(!plantour_check_accepts(check) && plantour_check_cost(check) == 3);
  assert(plantour_check_kept(check) == 2 && plantour_check_line(check) == 0);
  assert(checked(check, round, 2, 2) == PLANTOUR_OK);
  assert(plantour_check_cost(check) == 3 && plantour_check_index(check) == 0);
  assert(check[24] == 0xaa);
}

/* The least plan with its road twice: the later copy is line 8. */
static const char doubled[] =
  "tour=1\nmarks=0\nplaces=1\nlabel=0\nstart=0\nroads=2\nroad=0,0\nroad=0,0\n"
  "hard=1\nfirst=0\naccept=1\nmoves=1\nmove=0,0,0,0\nrules=0\n";

/* A road that is listed twice is refusal 10, which carries a line. */
static void refuses_a_doubled_road(void) {
  uint8_t answer[PLANTOUR_ANSWER_BYTES], check[PLANTOUR_CHECK_BYTES];
  uint8_t runin[1] = {0xaa}, loop[2] = {0xaa, 0xaa};
  const uint8_t *bytes = (const uint8_t *)doubled, place = 0;
  size_t length = sizeof doubled - 1;
  memset(answer, 0xaa, sizeof answer);
  memset(check, 0xaa, sizeof check);
  assert(plan_tour(bytes, length, answer, 15, runin, 1, loop, 2) == PLANTOUR_BLOCK);
  assert(answer[0] == 0xaa);
  assert(plan_tour(bytes, length, answer, 16, runin, 0, loop, 0) == PLANTOUR_DOUBLED);
  assert(plantour_number(answer) == PLANTOUR_DOUBLED && plantour_line(answer) == 8);
  assert(plan_tour(bytes, length, answer, 16, runin, 1, loop, 2) == PLANTOUR_DOUBLED);
  assert(plantour_kept(answer) == 0 && plantour_count(answer) == 0);
  assert(plantour_cost(answer) == 0 && plantour_loop_length(answer) == 0);
  assert(runin[0] == 0xaa && loop[0] == 0xaa && loop[1] == 0xaa);
  assert(check_tour(bytes, length, &place, 0, &place, 1, check, 24) == PLANTOUR_DOUBLED);
  assert(plantour_check_number(check) == PLANTOUR_DOUBLED);
  assert(plantour_check_line(check) == 8);
  /* It comes before the tour's own faults. */
  assert(check_tour(bytes, length, &place, 1, &place, 0, check, 24) == PLANTOUR_DOUBLED);
  assert(plantour_check_index(check) == 0 && !plantour_check_accepts(check));
}

static void reads_the_answer_of_a_doubled_road(void) {
  uint8_t reply[PLANTOUR_REPLY_BYTES], list[1] = {0xaa};
  char said[] = "answer=10\nline=8\ncost=0\nkept=0\nrunin=\nloop=\n";
  const uint8_t *bytes = (const uint8_t *)said;
  size_t length = sizeof said - 1;
  assert(read_answer(bytes, length, reply, 32, list, 0, list, 0) == PLANTOUR_OK);
  assert(plantour_reply_answer(reply) == PLANTOUR_DOUBLED && plantour_reply_line(reply) == 8);
  said[15] = '0'; /* line=0 */
  assert(read_answer(bytes, length, reply, 32, list, 0, list, 0) == PLANTOUR_CLASH);
  said[15] = '8';
  said[8] = '1'; /* answer=11 */
  assert(read_answer(bytes, length, reply, 32, list, 0, list, 0) == PLANTOUR_RANGE);
  assert(plantour_reply_fault(reply) == 1 && plantour_reply_answer(reply) == 0);
}

/*
** Two places, a road from the first to the second, which no road leaves.  The
** hard rule wants the second one's mark again and again: the car parks there.
*/
static const char parked[] =
  "tour=1\nmarks=1\nplaces=2\nlabel=0\nlabel=1\nstart=0\nroads=1\nroad=0,1\n"
  "hard=2\nfirst=0\naccept=2\nmoves=4\n"
  "move=0,1,0,1\nmove=0,0,1,0\nmove=1,1,0,1\nmove=1,0,1,0\nrules=0\n";

static void parks_at_a_dead_end(void) {
  uint8_t answer[PLANTOUR_ANSWER_BYTES], check[PLANTOUR_CHECK_BYTES];
  uint8_t runin[4], loop[8];
  const uint8_t *bytes = (const uint8_t *)parked;
  size_t length = sizeof parked - 1;
  assert(plan_tour(bytes, length, answer, 16, runin, 4, loop, 8) == PLANTOUR_OK);
  size_t before = plantour_runin_length(answer), turn = plantour_loop_length(answer);
  assert(before >= 1 && turn >= 1 && runin[0] == 0);
  for (size_t i = 1; i < before; i++) assert(runin[i] == 1);
  for (size_t i = 0; i < turn; i++) assert(loop[i] == 1);
  assert(check_tour(bytes, length, runin, before, loop, turn, check, 24) == PLANTOUR_OK);
  assert(plantour_check_accepts(check));
  /* In the run-in too; but not where a road leads on, nor at no place. */
  const uint8_t stays[] = {0, 1, 1, 1}, early[] = {0, 0, 1}, none[] = {0, 1, 2, 2};
  assert(check_tour(bytes, length, stays, 3, stays + 3, 1, check, 24) == PLANTOUR_OK);
  assert(plantour_check_accepts(check));
  assert(check_tour(bytes, length, early, 2, early + 2, 1, check, 24) == PLANTOUR_BROKEN);
  assert(plantour_check_index(check) == 1);
  assert(check_tour(bytes, length, early, 0, early, 1, check, 24) == PLANTOUR_BROKEN);
  assert(plantour_check_index(check) == 1);
  assert(check_tour(bytes, length, none, 3, none + 3, 1, check, 24) == PLANTOUR_BROKEN);
  assert(plantour_check_index(check) == 2);
}

int main(void) {
  decodes_the_block();
  decodes_the_reply();
  decodes_the_check();
  finds_where_upcoming_places_begin();
  serves_upcoming_places();
  plans_with_the_least_buffers();
  reads_an_answer();
  finds_where_a_tour_breaks();
  checks_a_tour();
  refuses_a_doubled_road();
  reads_the_answer_of_a_doubled_road();
  parks_at_a_dead_end();
  return 0;
}
