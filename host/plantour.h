/*
** plantour.h - endless tours for scripted test cars
**
** A plan file describes a map of places joined by one-way roads, one rule
** that a tour must obey (the hard rule) and up to eight that it should (the
** soft rules, each with a weight).  plan_tour() reads such a file and answers
** with a tour of least cost: a run-in, driven once, and a loop, driven again
** and again without end.  The cost is the sum of the weights of the soft
** rules that the tour breaks.  Of two tours of equal cost the better one keeps
** the lowest-numbered rule on which they differ.  While the tour is driven,
** plantour_upcoming() gives the places that come next.  read_answer() loads an
** answer again that the program plantour printed.  check_tour() tells what a
** tour is worth, whoever made it: drawn by hand, or planned for another plan.
**
** The caller lends the memory for the plan, the answer and the tour; the
** library holds on to none of it after the call.
**
** A host needs this header and the archive, and no more:
**
**     gcc host.c libmoxiltra.a
*/

/*
** The plan file: ASCII lines, each ended by byte 10, without spaces and in
** this order.  Numbers are decimal without a leading zero; places and states
** are counted from 0.
**
**     tour=1
**     marks=M                 0 to 8
**     places=P                1 to 128
**     label=L                 P lines; bit m is set if the place has mark m
**     start=S                 the place at which every tour begins
**     roads=R                 0 to 1,024
**     road=A,B                R lines; one-way from A to B, no road twice
**     hard=Q                  the hard rule: 1 to 16 states
**     first=F                 its first state
**     accept=A                bit q is set if state q accepts
**     moves=T                 0 to 64
**     move=q,need,bar,r       T lines, each of this form
**     move=q,need,bar,any,r   or of this one
**     rules=K                 0 to 8
**     soft=Q                  K blocks, the soft rules: 1 to 8 states
**     weight=W                0 to 4,000,000
**     ...                     first, accept, moves and its move lines
**
** A move leads from state q to state r under a label that has every mark of
** need and no mark of bar; these are bits, as in a label.  With five numbers
** the label must also have at least one mark of any, unless any is 0: a move
** for "kerb or ramp".  Four numbers mean an any of 0.
**
** A road that is on two lines is almost always a slip for its return road, B,A,
** so such a plan is turned away.  A move that is on two lines changes nothing.
**
** A place that no road leaves leads to itself: a car that comes there parks,
** and its place comes again and again.  A place that a road leaves, be it to
** itself, is left by its roads alone: to stay there without one is no tour.
**
** A rule of weight 0 only watches: it costs nothing, its kept bit is exact, and
** between tours of equal cost it counts in the tie as any other.  As the last
** rule it changes neither the cost nor which other rules are kept.
*/
#ifndef PLANTOUR_H
#define PLANTOUR_H

#include <stddef.h>
#include <stdint.h>

#ifdef __cplusplus
extern "C" {
#endif

/*
** Sizes, in bytes.
**
** A buffer pair of PLANTOUR_RUNIN_BYTES and PLANTOUR_LOOP_BYTES is enough for
** every plan.  A host that knows its plan may lend less: with
**
**     N = places * (states of the hard rule)
**                * (states + 1) of each soft rule
**
** and K soft rules, N bytes for the run-in and (K+2)*N for the loop.  N is at
** most PLANTOUR_MAX_N, or the plan is refused.
**
** A longer plan than PLANTOUR_PLAN_BYTES is refused.  So a host may read a
** file of unknown length into PLANTOUR_PLAN_BYTES + 1 bytes and pass what
** fitted: whatever did not fit would have been refused just so.
**
** No text that the program plantour prints has more than PLANTOUR_TEXT_BYTES.
*/
#define PLANTOUR_ANSWER_BYTES 16
#define PLANTOUR_REPLY_BYTES  32
#define PLANTOUR_CHECK_BYTES  24
#define PLANTOUR_PLAN_BYTES   60000
#define PLANTOUR_MAX_N        2048
#define PLANTOUR_RUNIN_BYTES  2048
#define PLANTOUR_LOOP_BYTES   20480
#define PLANTOUR_TEXT_BYTES   90240

/*
** The stack that a call of plan_tour() needs, in bytes: what was measured on
** plans of all kinds, and some to spare; then that of read_answer(), and that of
** check_tour().  A thread that calls them should have more, for itself.
*/
#define PLANTOUR_STACK_BYTES       131072
#define PLANTOUR_READ_STACK_BYTES  4096
#define PLANTOUR_CHECK_STACK_BYTES 131072

/*
** What plan_tour() returns.  Of several causes the first in this order counts:
** PLANTOUR_BLOCK, PLANTOUR_LONG, the first faulty line (on the same line
** PLANTOUR_FORM before PLANTOUR_RANGE before PLANTOUR_DOUBLED), PLANTOUR_LARGE,
** PLANTOUR_BUFFER, PLANTOUR_NONE.
*/
#define PLANTOUR_OK     0 /* a tour was written */
#define PLANTOUR_LONG   1 /* the plan has more than PLANTOUR_PLAN_BYTES bytes */
#define PLANTOUR_FORM   2 /* a line is missing, has another key or is not of
                          ** the form asked for, or bytes follow the last
                          ** line; the block names the line */
#define PLANTOUR_RANGE  3 /* a number is outside its range; the block names
                          ** the line */
#define PLANTOUR_LARGE  4 /* N is above PLANTOUR_MAX_N */
#define PLANTOUR_BUFFER 5 /* runin_len is below N or loop_len below (K+2)*N */
#define PLANTOUR_NONE   6 /* the hard rule accepts no tour of this plan */
#define PLANTOUR_BLOCK  7 /* answer_len is below PLANTOUR_ANSWER_BYTES */
#define PLANTOUR_DOUBLED 10 /* a road is on an earlier line, too; the block
                            ** names the line of the later copy */

/*
** What read_answer() returns besides: PLANTOUR_OK, PLANTOUR_FORM,
** PLANTOUR_RANGE, PLANTOUR_BUFFER, PLANTOUR_BLOCK, or
*/
#define PLANTOUR_CLASH  8 /* the lines of the text contradict each other */

/*
** What check_tour() returns besides: PLANTOUR_OK, PLANTOUR_LONG, PLANTOUR_FORM,
** PLANTOUR_RANGE, PLANTOUR_DOUBLED, PLANTOUR_LARGE, PLANTOUR_BLOCK, or
*/
#define PLANTOUR_BROKEN 9 /* the tour breaks; the block has the index */

/*
** Plans one tour.
**
** plan, plan_len      The bytes of the plan file; only read.  There is no
**                     terminating zero.  plan_len may be 0 (and is then
**                     refused with PLANTOUR_FORM on line 1).
**
** answer, answer_len  The answer block.  Its first 16 bytes are filled on
**                     every return but PLANTOUR_BLOCK; later bytes are never
**                     touched.
**
** runin, runin_len    The buffer for the run-in, one byte for each place.
** loop, loop_len      The buffer for the loop, likewise.
**                     On PLANTOUR_OK the first bytes of the two hold the tour;
**                     its lengths are in the block.  The run-in may be empty,
**                     the loop is not.  Bytes beyond those lengths are not
**                     touched.  On any other return neither buffer is touched.
**
** No pointer may be null, not even one with a length of 0, and no two of the
** four stretches may overlap.
**
** Returns one of the numbers above.  On PLANTOUR_BLOCK that number is the
** whole answer and no byte at all has been written.  Otherwise the block has:
**
**     byte 0       the number returned
**     byte 1       kept: bit i-1 is set if soft rule i accepts the tour
**     byte 2       how many soft rules accept it
**     byte 3       0
**     bytes 4-7    the faulty line, counted from 1; 0 if no line is at fault
**     bytes 8-11   cost
**     bytes 12-13  places in the run-in
**     bytes 14-15  places in the loop
**
** Numbers of several bytes have the lowest byte first.  On a refusal all but
** the number and the line are 0; on PLANTOUR_OK the line is 0.
*/
uint32_t plan_tour(const uint8_t *plan, size_t plan_len,
                   uint8_t *answer, size_t answer_len,
                   uint8_t *runin, size_t runin_len,
                   uint8_t *loop, size_t loop_len);

/*
** The parts of an answer block, on a machine of any byte order.
*/
static inline uint32_t plantour_number(const uint8_t *answer) {
  return answer[0];
}
static inline uint32_t plantour_kept(const uint8_t *answer) {
  return answer[1];
}
static inline uint32_t plantour_count(const uint8_t *answer) {
  return answer[2];
}
static inline uint32_t plantour_line(const uint8_t *answer) {
  return (uint32_t)answer[4] | (uint32_t)answer[5] << 8
       | (uint32_t)answer[6] << 16 | (uint32_t)answer[7] << 24;
}
static inline uint32_t plantour_cost(const uint8_t *answer) {
  return (uint32_t)answer[8] | (uint32_t)answer[9] << 8
       | (uint32_t)answer[10] << 16 | (uint32_t)answer[11] << 24;
}
static inline size_t plantour_runin_length(const uint8_t *answer) {
  return (size_t)answer[12] | (size_t)answer[13] << 8;
}
static inline size_t plantour_loop_length(const uint8_t *answer) {
  return (size_t)answer[14] | (size_t)answer[15] << 8;
}

/* Whether soft rule 'rule', from 1 to 8, accepts the tour. */
static inline int plantour_keeps(const uint8_t *answer, unsigned rule) {
  return answer[1] >> (rule - 1) & 1;
}

/*
** Reads the text of an answer: the six lines that the program plantour prints,
** each ended by byte 10, without spaces and in this order.  Numbers are decimal
** without a leading zero.
**
**     answer=N     0 for a tour, or 1 to 6 or 10, the number of the refusal
**     line=L       the faulty line of the plan, 0 to 65,535
**     cost=C       0 to 32,000,000
**     kept=K       0 to 255
**     runin=A,B,.. the places of the run-in, each 0 to 127; perhaps none
**     loop=A,B,..  the places of the loop, likewise
**
** text, text_len      The bytes of the text; only read.  Any length will do,
**                     also 0, and so do lists of any length.
**
** reply, reply_len    The block for the reply.  Its first 32 bytes are filled on
**                     every return but PLANTOUR_BLOCK; later bytes are never
**                     touched.
**
** runin, runin_len    The buffer for the run-in, one byte for each place.
** loop, loop_len      The buffer for the loop, likewise.
**                     On PLANTOUR_OK the first bytes of the two hold the lists;
**                     their lengths are in the block.  Bytes beyond those
**                     lengths are not touched.  On any other return neither
**                     buffer is touched.
**
** No pointer may be null, not even one with a length of 0, and no two of the
** four stretches may overlap.
**
** Of several causes the first in this order counts: PLANTOUR_BLOCK (reply_len
** is below PLANTOUR_REPLY_BYTES); the first faulty line, PLANTOUR_FORM before
** PLANTOUR_RANGE on the same line; PLANTOUR_BUFFER (a list is longer than its
** buffer); PLANTOUR_CLASH.  The lines contradict each other if answer 0 stands
** beside an empty loop or a line other than 0; if another answer stands beside
** a cost, a kept or a list that is not 0 or empty; if 2, 3 or 10 stands beside
** line 0, or 1, 4, 5 or 6 beside another line.  Missing lines and bytes after
** the sixth line are faults of form, these of line 7.
**
** Returns 0 or the number of the refusal.  On PLANTOUR_BLOCK that number is all
** and no byte has been written.  Otherwise the block has:
**
**     byte 0       the number returned
**     byte 1       kept
**     byte 2       the answer's own number: PLANTOUR_OK for a tour
**     byte 3       0
**     bytes 4-7    the faulty line of the text, from 1; 0 if none is at fault
**     bytes 8-11   cost
**     bytes 12-15  the answer's own line
**     bytes 16-23  places in the run-in
**     bytes 24-31  places in the loop
**
** Numbers of several bytes have the lowest byte first.  On a refusal all but
** the number and the faulty line are 0.  A text that says why a plan was turned
** away is no refusal: it is read, and byte 2 has its number.
*/
uint32_t read_answer(const uint8_t *text, size_t text_len,
                     uint8_t *reply, size_t reply_len,
                     uint8_t *runin, size_t runin_len,
                     uint8_t *loop, size_t loop_len);

/*
** The parts of a reply's block, on a machine of any byte order.
** plantour_keeps() serves this block too.
*/
static inline uint32_t plantour_reply_number(const uint8_t *reply) {
  return reply[0];
}
static inline uint32_t plantour_reply_kept(const uint8_t *reply) {
  return reply[1];
}
static inline uint32_t plantour_reply_answer(const uint8_t *reply) {
  return reply[2];
}
static inline uint32_t plantour_reply_fault(const uint8_t *reply) {
  return (uint32_t)reply[4] | (uint32_t)reply[5] << 8
       | (uint32_t)reply[6] << 16 | (uint32_t)reply[7] << 24;
}
static inline uint32_t plantour_reply_cost(const uint8_t *reply) {
  return (uint32_t)reply[8] | (uint32_t)reply[9] << 8
       | (uint32_t)reply[10] << 16 | (uint32_t)reply[11] << 24;
}
static inline uint32_t plantour_reply_line(const uint8_t *reply) {
  return (uint32_t)reply[12] | (uint32_t)reply[13] << 8
       | (uint32_t)reply[14] << 16 | (uint32_t)reply[15] << 24;
}
static inline uint64_t plantour_reply_runin_length(const uint8_t *reply) {
  uint64_t length = 0;
  for (int i = 7; i >= 0; i--) {
    length = length << 8 | reply[16 + i];
  }
  return length;
}
static inline uint64_t plantour_reply_loop_length(const uint8_t *reply) {
  uint64_t length = 0;
  for (int i = 7; i >= 0; i--) {
    length = length << 8 | reply[24 + i];
  }
  return length;
}

/*
** Checks a tour: whether the hard rule accepts it, what it costs and which soft
** rules it keeps.  The planner's own tours are accepted, at the planner's cost.
**
** plan, plan_len      The bytes of the plan file, as for plan_tour(); only read.
**
** runin, runin_len    The places of the run-in, one byte for each; only read.
** loop, loop_len      The places of the loop, likewise.
**                     Any lengths will do, also 0, and so will any bytes.
**
** check, check_len    The block for what is found.  Its first 24 bytes are
**                     filled on every return but PLANTOUR_BLOCK; later bytes
**                     are never touched.
**
** No pointer may be null, not even one with a length of 0, and the block may
** overlap none of the other three stretches.
**
** Of several causes the first in this order counts: PLANTOUR_BLOCK (check_len
** is below PLANTOUR_CHECK_BYTES); PLANTOUR_LONG; the first faulty line of the
** plan, on the same line PLANTOUR_FORM before PLANTOUR_RANGE before
** PLANTOUR_DOUBLED; PLANTOUR_LARGE; PLANTOUR_BROKEN.  A tour that the hard rule
** does not accept is no refusal: PLANTOUR_OK is returned, byte 2 is 0, and cost
** and kept are those of the tour.
**
** PLANTOUR_BROKEN means that the two lists are no tour of this plan.  Places are
** counted from 0, through the run-in and on through the loop, and the block has
** the least of these indices:
**
**   - of a place that is none of the plan's, its own;
**   - of a first place that is not the start, 0;
**   - of a place to which no road leads from the one before, its own (to stay
**     at a place that no road leaves is as good as a road);
**   - of an empty loop, the number of places in the run-in;
**   - of a loop without a road from its last place to its first, the number of
**     places in both lists.
**
** Of two empty lists it is 0.  One that 64 bits cannot hold is given as 2^64-1.
**
** Returns 0 or the number of the refusal.  On PLANTOUR_BLOCK that number is all
** and no byte has been written.  Otherwise the block has:
**
**     byte 0       the number returned
**     byte 1       kept: bit i-1 is set if soft rule i accepts the tour
**     byte 2       1 if the hard rule accepts the tour, 0 if not
**     byte 3       0
**     bytes 4-7    the faulty line of the plan, from 1; 0 if none is at fault
**     bytes 8-11   cost
**     bytes 12-15  0
**     bytes 16-23  the index that breaks the tour; 0 if none does
**
** Numbers of several bytes have the lowest byte first.  On a refusal all but
** the number, the line and the index are 0.
*/
uint32_t check_tour(const uint8_t *plan, size_t plan_len,
                    const uint8_t *runin, size_t runin_len,
                    const uint8_t *loop, size_t loop_len,
                    uint8_t *check, size_t check_len);

/*
** The parts of a check's block, on a machine of any byte order.
** plantour_keeps() serves this block too.
*/
static inline uint32_t plantour_check_number(const uint8_t *check) {
  return check[0];
}
static inline uint32_t plantour_check_kept(const uint8_t *check) {
  return check[1];
}
static inline int plantour_check_accepts(const uint8_t *check) {
  return check[2];
}
static inline uint32_t plantour_check_line(const uint8_t *check) {
  return (uint32_t)check[4] | (uint32_t)check[5] << 8
       | (uint32_t)check[6] << 16 | (uint32_t)check[7] << 24;
}
static inline uint32_t plantour_check_cost(const uint8_t *check) {
  return (uint32_t)check[8] | (uint32_t)check[9] << 8
       | (uint32_t)check[10] << 16 | (uint32_t)check[11] << 24;
}
static inline uint64_t plantour_check_index(const uint8_t *check) {
  uint64_t index = 0;
  for (int i = 7; i >= 0; i--) {
    index = index << 8 | check[16 + i];
  }
  return index;
}

/*
** Where the upcoming places begin.  Step 0 is at the start, step t at the place
** after t roads.
**
** runin_length        How many places the run-in has, and how many the loop:
** loop_length         the tour's lengths, not the buffers'.
** t                   The step.
**
** Returns the index of step t's place: while t is below runin_length, t itself,
** in the run-in; later (t - runin_length) modulo loop_length, in the loop.
** With a loop_length of 0, which no tour has, it is then 0.  Any three numbers
** will do; none is refused.
*/
uint64_t upcoming_offset(uint64_t runin_length, uint64_t loop_length,
                         uint64_t t);

/*
** Upcoming places.  This gives the places of step t and the steps after it, as
** far as they lie side by side in memory: the rest of the run-in while it
** lasts, later the rest of the present turn of the loop.  To look farther ahead
** ask again with t plus the part's length.
**
** runin_length, loop_length and t are as for upcoming_offset().  The part's
** length is stored in *part_length.  The result points into runin or loop and
** is good as long as they are; nothing is copied.  With a loop_length of 0 the
** part is empty once the run-in is over.
*/
static inline const uint8_t *plantour_upcoming(
    const uint8_t *runin, size_t runin_length,
    const uint8_t *loop, size_t loop_length,
    uint64_t t, size_t *part_length) {
  size_t from = (size_t)upcoming_offset(runin_length, loop_length, t);
  if (t < runin_length) {
    *part_length = runin_length - from;
    return runin + from;
  }
  *part_length = loop_length - from;
  return loop + from;
}

#ifdef __cplusplus
}
#endif

#endif /* PLANTOUR_H */
