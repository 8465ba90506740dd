/* Every refusal by its small example, through the C header: the result, and that the call wrote nothing. */
#include "../../link/highboyrobin.h"
#include <stdio.h>
#include <string.h>

#define KEPT 77

static int32_t answer[HBR_REASON_ANSWER];
static uint32_t rows[4 * (HBR_MOST_TIMED_ROWS + 1)];
static uint32_t classes[2 * HBR_MOST_CLASSES];
static uint8_t line[HBR_MOST_LINE];
static uint8_t file[HBR_MOST_BYTES + 16]; /* the longest that is read, and a job */
static uint8_t order[HBR_MOST_BYTES];
static uint32_t memories[HBR_MOST_PROCESSORS + 1];
static uint32_t jobs[4 * (HBR_MOST_JOBS + 1)];
static uint32_t book[HBR_MOST_MAKERS + 1];
static uint32_t kept_book[HBR_MOST_MAKERS + 1];
static uint32_t lengths[HBR_MOST_LENGTHS + 1];
static uint32_t needs[3];
static int32_t dock_answer[HBR_REASON_ANSWER];
static uint32_t dock_rows[4 * HBR_SCREEN_ROWS];
static uint8_t dock_line[HBR_MOST_LINE];
static uint8_t block[HBR_BLOCK_BYTES + 8]; /* and some beyond, which never change */
static uint32_t held[HBR_BLOCK_ROWS + 8];
static int wrong;

static void fill(void) {
  memset(answer, KEPT, sizeof answer);
  memset(rows, KEPT, sizeof rows);
  memset(classes, KEPT, sizeof classes);
  memset(line, KEPT, sizeof line);
  memset(order, KEPT, sizeof order);
  memset(needs, KEPT, sizeof needs);
}

/* every count of the book is this one, but for that of one maker; the number after the sixteenth is not a count */
static void fill_book(uint32_t count, uint32_t maker, uint32_t other) {
  for (uint32_t i = 0; i < HBR_MOST_MAKERS; i++)
    book[i] = i + 1 == maker ? other : count;
  book[HBR_MOST_MAKERS] = KEPT;
  memcpy(kept_book, book, sizeof book);
}

/* every byte is as fill left it */
static int as_filled(const void *buffer, size_t size) {
  for (size_t i = 0; i < size; i++)
    if (((const uint8_t *)buffer)[i] != KEPT)
      return 0;
  return 1;
}

/* the result is this refusal of this job, and answer, rows, classes, line, order, needs and book are as they were filled */
static void refused(uint32_t result, uint32_t number, uint32_t job) {
  int kept = as_filled(answer, sizeof answer) && as_filled(rows, sizeof rows) && as_filled(classes, sizeof classes) &&
             as_filled(line, sizeof line) && as_filled(order, sizeof order) && as_filled(needs, sizeof needs) &&
             memcmp(book, kept_book, sizeof book) == 0;
  if (hbr_number(result) != number || hbr_job(result) != job || !kept) {
    printf("refusal %u of job %u: got %u of job %u, %s\n", number, job, hbr_number(result), hbr_job(result),
           kept ? "nothing written" : "something written");
    wrong++;
  }
}

/* writes the order of m memories of this size and n jobs like this one */
static uint32_t write_made(uint32_t m, uint32_t memory, uint32_t n, uint32_t time, int32_t due, uint32_t need, uint32_t maker) {
  fill();
  for (uint32_t i = 0; i < m; i++)
    memories[i] = memory;
  for (uint32_t j = 0; j < n; j++) {
    jobs[4 * j] = time;
    jobs[4 * j + 1] = (uint32_t)due;
    jobs[4 * j + 2] = need;
    jobs[4 * j + 3] = maker;
  }
  return hbr_write(memories, m, jobs, 4 * n, file, sizeof file, answer, HBR_WRITE_ANSWER);
}

/* the same with maker 1 */
static uint32_t write(uint32_t m, uint32_t memory, uint32_t n, uint32_t time, int32_t due, uint32_t need) {
  return write_made(m, memory, n, time, due, need, 1);
}

/* the refusals of the writer, which are those of an order */
static void of_orders(void) {
  refused(write(0, 0, 1, 1, 1, 0), HBR_NO_PROCESSOR, 0);
  refused(write(17, 4, 1, 1, 1, 0), HBR_TOO_MANY_PROCESSORS, 0);
  refused(write(1, 4, 0, 0, 0, 0), HBR_NO_JOB, 0);
  refused(write(1, 4, 49, 1, 99, 0), HBR_TOO_MANY_JOBS, 0);
  refused(write(1, 4, 1, 0, 5, 1), HBR_TIME_OUT_OF_RANGE, 1);
  refused(write(1, 4, 1, 1, 1000001, 1), HBR_DUE_OUT_OF_RANGE, 1);
  refused(write_made(1, 4, 1, 1, 1000001, 5, 0), HBR_DUE_OUT_OF_RANGE, 1);
  refused(write_made(1, 4, 1, 1, 5, 5, 0), HBR_MAKER_OUT_OF_RANGE, 1);
  refused(write_made(1, 4, 3, 1, 5, 1, HBR_MOST_MAKERS + 1), HBR_MAKER_OUT_OF_RANGE, 1);
  refused(write(1, 8, 1, 1, 5, 9), HBR_FITS_NO_PROCESSOR, 1);
  refused(hbr_write(memories, 1, jobs, 3, file, sizeof file, answer, HBR_WRITE_ANSWER), HBR_PART_JOB, 0);
  jobs[2] = 8;
  refused(hbr_write(memories, 1, jobs, 4, file, 31, answer, HBR_WRITE_ANSWER), HBR_BUFFER_TOO_SHORT, 0);
  if (!as_filled(file, sizeof file)) {
    printf("a refused hbr_write wrote to the file\n");
    wrong++;
  }
}

/* the refusals of the classes on the same order, and the one class that it has, after which nothing is written */
static void of_classes(size_t length) {
  const size_t enough = 2 * HBR_MOST_CLASSES;
  refused(hbr_classes(file, 11, classes, enough - 1, answer, HBR_CLASSES_ANSWER - 1), HBR_SHORT_ANSWER, 0);
  refused(hbr_classes(file, 11, classes, enough - 1, answer, HBR_CLASSES_ANSWER), HBR_SHORT_CLASSES, 0);
  refused(hbr_classes(file, length, classes, enough - 1, answer, HBR_CLASSES_ANSWER), HBR_SHORT_CLASSES, 0);
  refused(hbr_classes(file, 11, classes, enough, answer, HBR_CLASSES_ANSWER), HBR_BAD_FILE, 0);
  if (hbr_classes(file, length, classes, enough, answer, HBR_CLASSES_ANSWER) != 0 || answer[0] != 1 || classes[0] != 4 ||
      classes[1] != 1 || !as_filled(&classes[2], sizeof classes - 2 * sizeof classes[0])) {
    printf("the classes of one processor of memory 4 are wrong\n");
    wrong++;
  }
  fill();
}

/* the refusals of composing and of reading back on the same order; at -9 the line of job 1 has 39 bytes */
static void of_lines(size_t length) {
  static const int32_t job[HBR_REASON_ANSWER] = {HBR_JOB, 1, 3};
  const size_t short_reason = HBR_REASON_ANSWER - 1;
  refused(hbr_sentence(file, length, -9, job, short_reason, line, 0, answer, 0), HBR_SHORT_ANSWER, 0);
  refused(hbr_sentence(file, 11, -9, job, short_reason, line, 0, answer, HBR_SENTENCE_ANSWER), HBR_SHORT_REASON, 0);
  refused(hbr_sentence(file, 11, -9, job, HBR_REASON_ANSWER, line, 0, answer, HBR_SENTENCE_ANSWER), HBR_BAD_FILE, 0);
  refused(hbr_sentence(file, length, -10000001, job, HBR_REASON_ANSWER, line, 0, answer, HBR_SENTENCE_ANSWER),
          HBR_BOUND_OUT_OF_RANGE, 0);
  refused(hbr_sentence(file, length, -9, job, HBR_REASON_ANSWER, line, 38, answer, HBR_SENTENCE_ANSWER), HBR_BUFFER_TOO_SHORT, 0);
  refused(hbr_parse(file, length, -9, line, 39, answer, HBR_PARSE_ANSWER - 1), HBR_SHORT_ANSWER, 0);
  refused(hbr_parse(file, length, -10000001, line, 39, answer, HBR_PARSE_ANSWER), HBR_BOUND_OUT_OF_RANGE, 0);
}

/* the refusals of the booked calls on the same order, and what they book */
static void of_books(size_t length) {
  fill_book(0, 16, HBR_MOST_BOOKED + 1u);
  refused(hbr_book_least(file, 11, rows, 0, book, 15, answer, HBR_BOOK_LEAST_ANSWER - 1), HBR_SHORT_ANSWER, 0);
  refused(hbr_book_least(file, 11, rows, 0, book, 15, answer, HBR_BOOK_LEAST_ANSWER), HBR_SHORT_BOOK, 0);
  refused(hbr_book_least(file, 11, rows, 0, book, HBR_MOST_MAKERS, answer, HBR_BOOK_LEAST_ANSWER), HBR_BAD_FILE, 0);
  refused(hbr_book_least(file, length, rows, 0, book, HBR_MOST_MAKERS, answer, HBR_BOOK_LEAST_ANSWER), HBR_BUFFER_TOO_SHORT, 0);
  refused(hbr_book_least(file, length, rows, 4, book, HBR_MOST_MAKERS, answer, HBR_BOOK_LEAST_ANSWER), HBR_BOOK_FULL, 0);
  refused(hbr_book_plan(file, 11, 10000001, rows, 0, book, 15, answer, HBR_BOOK_PLAN_ANSWER - 1), HBR_SHORT_ANSWER, 0);
  refused(hbr_book_plan(file, 11, 10000001, rows, 0, book, 15, answer, HBR_BOOK_PLAN_ANSWER), HBR_SHORT_BOOK, 0);
  refused(hbr_book_plan(file, 11, 10000001, rows, 0, book, HBR_MOST_MAKERS, answer, HBR_BOOK_PLAN_ANSWER), HBR_BAD_FILE, 0);
  refused(hbr_book_plan(file, length, 10000001, rows, 0, book, HBR_MOST_MAKERS, answer, HBR_BOOK_PLAN_ANSWER),
          HBR_BOUND_OUT_OF_RANGE, 0);
  refused(hbr_book_plan(file, length, -9, rows, 0, book, HBR_MOST_MAKERS, answer, HBR_BOOK_PLAN_ANSWER), HBR_BUFFER_TOO_SHORT, 0);
  refused(hbr_book_plan(file, length, -9, rows, 4, book, HBR_MOST_MAKERS, answer, HBR_BOOK_PLAN_ANSWER), HBR_BOUND_TOO_TIGHT, 0);
  refused(hbr_book_plan(file, length, -8, rows, 4, book, HBR_MOST_MAKERS, answer, HBR_BOOK_PLAN_ANSWER), HBR_BOOK_FULL, 0);
  fill_book(HBR_MOST_BOOKED, 1, HBR_MOST_BOOKED - 2u);
  refused(hbr_book_plan(file, length, -8, rows, 4, book, HBR_MOST_MAKERS, answer, HBR_BOOK_PLAN_ANSWER), HBR_BOOK_FULL, 0);
  fill_book(HBR_MOST_BOOKED, 1, HBR_MOST_BOOKED - 3u);
  if (hbr_book_plan(file, length, -8, rows, 4, book, HBR_MOST_MAKERS + 1, answer, HBR_BOOK_PLAN_ANSWER) != 0)
    wrong++;
  fill();
  kept_book[0] = HBR_MOST_BOOKED;
  refused(hbr_book_least(file, length, rows, 4, book, HBR_MOST_MAKERS + 1, answer, HBR_BOOK_LEAST_ANSWER), HBR_BOOK_FULL, 0);
}

/* the three calls with times on this order are refused alike at a bound that is out of range, with no room and too many rows */
static void timed(const uint8_t *own, size_t length, const uint32_t *ready, size_t ready_length, const uint32_t *windows,
                  size_t windows_length, size_t answer_length, uint32_t number, uint32_t job) {
  const int32_t bound = 10000001;
  refused(hbr_timed_rows(own, length, bound, ready, ready_length, windows, windows_length, answer, answer_length), number, job);
  refused(hbr_timed_plan(own, length, bound, ready, ready_length, windows, windows_length, rows, 0, answer, answer_length), number,
          job);
  refused(hbr_timed_check(own, length, bound, ready, ready_length, windows, windows_length, rows, 4 * (HBR_MOST_TIMED_ROWS + 1),
                          answer, answer_length),
          number, job);
}

/* the refusals of the calls with times on the same order, in the order in which they are told, and the last that is in range */
static void of_times(size_t length) {
  const uint32_t late[] = {HBR_MOST_MINUTE + 1}, last[] = {HBR_MOST_MINUTE}, start[] = {0};
  const uint32_t shut[] = {7, 7}, backwards[] = {8, 7}, far[] = {0, HBR_MOST_MINUTE + 1}, whole[] = {0, HBR_MOST_MINUTE};
  const uint32_t soon[] = {4, 6};
  timed(file, 11, late, 0, shut, 2, 0, HBR_SHORT_ANSWER, 0);
  timed(file, 11, late, 0, shut, 2, 1, HBR_BAD_FILE, 0);
  timed(file, length, late, 0, shut, 2, 1, HBR_WRONG_TIMES, 0);
  timed(file, length, late, 1, shut, 1, 1, HBR_WRONG_TIMES, 0);
  timed(file, length, late, 1, shut, 2, 1, HBR_READY_OUT_OF_RANGE, 1);
  timed(file, length, last, 1, shut, 2, 1, HBR_BAD_WINDOW, 1);
  timed(file, length, last, 1, backwards, 2, 1, HBR_BAD_WINDOW, 1);
  timed(file, length, last, 1, far, 2, 1, HBR_BAD_WINDOW, 1);
  timed(file, length, last, 1, whole, 2, 1, HBR_BOUND_OUT_OF_RANGE, 0);
  const int32_t most = 10000000;
  const size_t too_many = 4 * HBR_MOST_TIMED_ROWS + 1;
  refused(hbr_timed_plan(file, length, most, start, 1, soon, 2, rows, 15, answer, HBR_TIMED_PLAN_ANSWER), HBR_BUFFER_TOO_SHORT, 0);
  refused(hbr_timed_plan(file, length, most, start, 1, soon, 2, rows, 16, answer, HBR_TIMED_PLAN_ANSWER), HBR_BOUND_TOO_TIGHT, 0);
  refused(hbr_timed_check(file, length, most, start, 1, soon, 2, rows, too_many, answer, HBR_TIMED_CHECK_ANSWER), HBR_TOO_MANY_ROWS,
          0);
}

/* both calls with highs are refused alike, the order of a number with no room for it; their answers lack so many numbers */
static void estimated(size_t length, const uint32_t *highs, size_t highs_length, size_t lacking, uint32_t number, uint32_t job) {
  refused(hbr_between(file, length, highs, highs_length, answer, HBR_BETWEEN_ANSWER - lacking), number, job);
  refused(hbr_between_order(file, length, highs, highs_length, -8, order, 0, answer, HBR_BETWEEN_ORDER_ANSWER - lacking), number,
          job);
}

/* both calls on order C with a high: the least lateness at the low and at the high, and the order of a number, with just enough
 * room and with more; it is the file with this time, or there is none, which is asked for by time 0 */
static void answered(uint32_t high, int32_t at_high, int32_t number, uint8_t time) {
  const size_t bytes = time == 0 ? 0 : 32;
  fill();
  int right = hbr_between(file, 32, &high, 1, answer, HBR_BETWEEN_ANSWER) == 0 && answer[0] == -8 && answer[1] == at_high &&
              as_filled(&answer[2], sizeof answer - 2 * sizeof answer[0]);
  for (size_t more = 0; more <= 8; more += 8) {
    fill();
    right = right && hbr_between_order(file, 32, &high, 1, number, order, bytes + more, answer, HBR_BETWEEN_ORDER_ANSWER) == 0 &&
            answer[0] == (int32_t)bytes && as_filled(&answer[1], sizeof answer - sizeof answer[0]) &&
            as_filled(&order[bytes], sizeof order - bytes);
    /* the low byte of the time is byte 4 */
    if (bytes != 0)
      right = right && order[4] == time && memcmp(order, file, 4) == 0 && memcmp(&order[5], &file[5], bytes - 5) == 0;
  }
  if (!right) {
    printf("order C with the high %u is wrong at %d\n", high, number);
    wrong++;
  }
}

/* the refusals of the calls with highs, in the order in which they are told: each where all that follow hold too. The order has
 * memory 4 and three jobs (3, 10, 4), which are then changed in its file: they begin at bytes 4, 20 and 36 */
static void of_estimates(void) {
  uint32_t highs[] = {2, 3, 100001};
  if (write(1, 4, 3, 3, 10, 4) != 0 || answer[0] != 64)
    wrong++;
  fill();
  file[36 + 6] = 100; /* job 3: due at minute 100 * 65536 + 10 */
  file[20 + 12] = 0;  /* job 2: maker 0 */
  file[4 + 8] = 9;    /* job 1: need 9 */
  estimated(11, highs, 2, 1, HBR_SHORT_ANSWER, 0);
  estimated(11, highs, 2, 0, HBR_BAD_FILE, 0);
  estimated(64, highs, 2, 0, HBR_WRONG_HIGHS, 0);
  estimated(64, highs, 3, 0, HBR_TIME_OUT_OF_RANGE, 3);
  highs[2] = 0;
  estimated(64, highs, 3, 0, HBR_TIME_OUT_OF_RANGE, 3);
  highs[2] = 100000;
  estimated(64, highs, 3, 0, HBR_DUE_OUT_OF_RANGE, 3);
  file[36 + 6] = 0;
  estimated(64, highs, 3, 0, HBR_MAKER_OUT_OF_RANGE, 2);
  file[20 + 12] = 1;
  estimated(64, highs, 3, 0, HBR_LOW_ABOVE_HIGH, 1);
  highs[0] = 3;
  estimated(64, highs, 3, 0, HBR_FITS_NO_PROCESSOR, 1);
  file[4 + 2] = 3; /* job 1: low 3 * 65536 + 3, above its high */
  estimated(64, highs, 3, 0, HBR_TIME_OUT_OF_RANGE, 1);
  memset(file, 0, 12);
  estimated(12, highs, 1, 0, HBR_WRONG_HIGHS, 0);
  estimated(12, highs, 0, 0, HBR_NO_PROCESSOR, 0);
  if (write(1, 4, 1, 3, 10, 4) != 0)
    wrong++;
  fill();
  highs[0] = 5;
  refused(hbr_between_order(file, 32, highs, 1, -7, order, 31, answer, HBR_BETWEEN_ORDER_ANSWER), HBR_BUFFER_TOO_SHORT, 0);
  answered(3, -8, -8, 3);
  answered(5, -6, -8, 3);
  answered(5, -6, -7, 4);
  answered(5, -6, -6, 5);
  answered(5, -6, -9, 0);
  answered(5, -6, -5, 0);
  fill();
}

/* the refusals of the needs from a table, in the order in which they are told: each where all that follow hold too; and the needs
 * of two lengths, after which nothing is written */
static void of_needs(void) {
  const uint32_t last = HBR_LONGEST_LENGTH;
  const uint32_t gap[] = {1, 10, 4, 10, 50, 6, 52, last, 8}, twice[] = {1, 10, 4, 10, last, 8};
  const uint32_t outside[] = {0, last, 4}, backwards[] = {last, 1, 4}, good[] = {30001, last, 8, 1, 30000, 4};
  const size_t most = HBR_MOST_LENGTHS;
  fill();
  refused(hbr_needs(gap, 9, lengths, most + 1, needs, 1, answer, HBR_NEEDS_ANSWER - 1), HBR_SHORT_ANSWER, 0);
  refused(hbr_needs(gap, 9, lengths, most + 1, needs, 1, answer, HBR_NEEDS_ANSWER), HBR_LONG_LIST, 0);
  refused(hbr_needs(gap, 9, lengths, most, needs, 1, answer, HBR_NEEDS_ANSWER), HBR_LENGTH_UNMET, 51);
  refused(hbr_needs(outside, 3, lengths, 2, needs, 1, answer, HBR_NEEDS_ANSWER), HBR_LENGTH_UNMET, 1);
  refused(hbr_needs(backwards, 3, lengths, 2, needs, 1, answer, HBR_NEEDS_ANSWER), HBR_LENGTH_UNMET, 1);
  refused(hbr_needs(good, 5, lengths, 2, needs, 1, answer, HBR_NEEDS_ANSWER), HBR_LENGTH_UNMET, 1);
  refused(hbr_needs(twice, 6, lengths, 2, needs, 1, answer, HBR_NEEDS_ANSWER), HBR_LENGTH_MET_TWICE, 10);
  for (size_t k = 0; k < most; k++)
    lengths[k] = k + 1 < most ? 30000 : last + 1;
  refused(hbr_needs(good, 6, lengths, most, needs, 1, answer, HBR_NEEDS_ANSWER), HBR_TIME_OUT_OF_RANGE, HBR_MOST_LENGTHS);
  refused(hbr_needs(good, 6, lengths, 2, needs, 1, answer, HBR_NEEDS_ANSWER), HBR_BUFFER_TOO_SHORT, 0);
  lengths[1]++;
  if (hbr_needs(good, 6, lengths, 2, needs, 3, answer, HBR_NEEDS_ANSWER) != 0 || answer[0] != 2 || needs[0] != 4 || needs[1] != 8 ||
      !as_filled(&needs[2], sizeof needs[2])) {
    printf("the needs of lengths 30000 and 30001 are wrong\n");
    wrong++;
  }
}

/* the file of an order of so many memories and jobs, all numbers 0: its length */
static size_t counted(uint8_t m, uint8_t n) {
  const size_t lists = 4u * m + 16u * n;
  memset(file, 0, lists + 12);
  file[lists + 4] = (uint8_t)(4 * m); /* where the jobs begin */
  file[lists + 8] = m;
  file[lists + 10] = n;
  return lists + 12;
}

/* the six calls of a screen are refused alike, at a bound that is out of range, with no room and too many rows; their answers lack
 * so many numbers */
static void screened(size_t length, size_t lacking, uint32_t number, uint32_t job) {
  static const int32_t reason[HBR_REASON_ANSWER] = {HBR_JOB, 1, 3};
  const int32_t bound = 10000001;
  const size_t too_many = 4 * (HBR_MOST_ROWS + 1);
  refused(hbr_screen_judge(file, length, answer, HBR_JUDGE_ANSWER - lacking), number, job);
  refused(hbr_screen_least(file, length, rows, 0, answer, HBR_LEAST_ANSWER - lacking), number, job);
  refused(hbr_screen_plan(file, length, bound, rows, 0, answer, HBR_PLAN_ANSWER - lacking), number, job);
  refused(hbr_screen_reason(file, length, bound, answer, HBR_REASON_ANSWER - lacking), number, job);
  refused(hbr_screen_sentence(file, length, bound, reason, HBR_REASON_ANSWER, line, 0, answer, HBR_SENTENCE_ANSWER - lacking),
          number, job);
  refused(hbr_screen_check(file, length, bound, rows, too_many, answer, HBR_CHECK_ANSWER - lacking), number, job);
}

/* an order of so many memories and jobs of 3 minutes is taken by the dock and refused by a screen */
static void dock_alone(uint32_t m, uint32_t n, uint32_t number) {
  if (write(m, 4, n, 3, 10, 4) != 0)
    wrong++;
  size_t length = (size_t)answer[0];
  if (hbr_judge(file, length, answer, HBR_JUDGE_ANSWER) != 0 || answer[0] != (int32_t)m || answer[1] != (int32_t)n) {
    printf("%u processors and %u jobs are refused at the dock\n", m, n);
    wrong++;
  }
  fill();
  screened(length, 0, number, 0);
}

/* what the dock's call left is kept, before the same is asked by a screen */
static void keep(void) {
  memcpy(dock_answer, answer, sizeof answer);
  memcpy(dock_rows, rows, sizeof dock_rows);
  memcpy(dock_line, line, sizeof line);
  fill();
}

/* a screen's call has the dock's result, which is this one, and left what the dock's call left */
static void same(const char *name, uint32_t at_dock, uint32_t from_screen, uint32_t result) {
  if (at_dock != result || from_screen != result || memcmp(answer, dock_answer, sizeof answer) != 0 ||
      memcmp(rows, dock_rows, sizeof dock_rows) != 0 || memcmp(line, dock_line, sizeof line) != 0) {
    printf("%s: %u at the dock, %u from a screen, not %u and the same\n", name, at_dock, from_screen, result);
    wrong++;
  }
  fill();
}

/* the six calls on one file, at one bound and with room for so many numbers of rows, have one reply from dock and screen */
static void alike(size_t length, int32_t bound, size_t room, uint32_t of_least, uint32_t of_plan) {
  static int32_t reason[HBR_REASON_ANSWER];
  static uint32_t plan[4 * HBR_SCREEN_ROWS];
  const uint32_t of_file = of_least == HBR_BUFFER_TOO_SHORT ? 0 : of_least;
  const uint32_t of_bound = of_plan == HBR_BUFFER_TOO_SHORT || of_plan == HBR_BOUND_TOO_TIGHT ? 0 : of_plan;
  uint32_t at_dock = hbr_judge(file, length, answer, HBR_JUDGE_ANSWER);
  keep();
  same("judge", at_dock, hbr_screen_judge(file, length, answer, HBR_JUDGE_ANSWER), of_file);
  at_dock = hbr_least(file, length, rows, room, answer, HBR_LEAST_ANSWER);
  keep();
  same("least", at_dock, hbr_screen_least(file, length, rows, room, answer, HBR_LEAST_ANSWER), of_least);
  at_dock = hbr_plan(file, length, bound, rows, room, answer, HBR_PLAN_ANSWER);
  memcpy(plan, rows, sizeof plan);
  keep();
  same("plan", at_dock, hbr_screen_plan(file, length, bound, rows, room, answer, HBR_PLAN_ANSWER), of_plan);
  at_dock = hbr_reason(file, length, bound, answer, HBR_REASON_ANSWER);
  memcpy(reason, answer, sizeof reason);
  keep();
  same("reason", at_dock, hbr_screen_reason(file, length, bound, answer, HBR_REASON_ANSWER), of_bound);
  at_dock = hbr_sentence(file, length, bound, reason, HBR_REASON_ANSWER, line, sizeof line, answer, HBR_SENTENCE_ANSWER);
  keep();
  same("sentence", at_dock,
       hbr_screen_sentence(file, length, bound, reason, HBR_REASON_ANSWER, line, sizeof line, answer, HBR_SENTENCE_ANSWER),
       of_bound);
  for (size_t numbers = 44; numbers <= 48; numbers += 4) { /* a row too few, and all 12 */
    at_dock = hbr_check(file, length, bound, plan, numbers, answer, HBR_CHECK_ANSWER);
    keep();
    same("check", at_dock, hbr_screen_check(file, length, bound, plan, numbers, answer, HBR_CHECK_ANSWER), of_bound);
  }
}

/* the refusals of a screen by the counts of an order, each where all that follow hold too, and orders that the dock alone takes */
static void of_counts(void) {
  static const int32_t reason[HBR_REASON_ANSWER] = {HBR_JOB, 1, 3};
  const size_t short_reason = HBR_REASON_ANSWER - 1;
  screened(counted(0, 0), 1, HBR_SHORT_ANSWER, 0);
  refused(hbr_screen_sentence(file, 11, 0, reason, short_reason, line, 0, answer, HBR_SENTENCE_ANSWER), HBR_SHORT_REASON, 0);
  screened(11, 0, HBR_BAD_FILE, 0);
  screened(counted(16, 49), 0, HBR_BAD_FILE, 0);
  screened(counted(0, 0), 0, HBR_NO_PROCESSOR, 0);
  screened(counted(0, 13), 0, HBR_NO_PROCESSOR, 0);
  screened(counted(5, 0), 0, HBR_SCREEN_TOO_MANY_PROCESSORS, 0);
  refused(hbr_judge(file, 32, answer, HBR_JUDGE_ANSWER), HBR_NO_JOB, 0);
  screened(counted(5, 13), 0, HBR_SCREEN_TOO_MANY_PROCESSORS, 0);
  screened(counted(17, 1), 0, HBR_SCREEN_TOO_MANY_PROCESSORS, 0);
  refused(hbr_judge(file, 96, answer, HBR_JUDGE_ANSWER), HBR_TOO_MANY_PROCESSORS, 0);
  screened(counted(4, 0), 0, HBR_NO_JOB, 0);
  screened(counted(4, 13), 0, HBR_SCREEN_TOO_MANY_JOBS, 0);
  screened(counted(1, 49), 0, HBR_SCREEN_TOO_MANY_JOBS, 0);
  refused(hbr_judge(file, 800, answer, HBR_JUDGE_ANSWER), HBR_TOO_MANY_JOBS, 0);
  screened(counted(4, 12), 0, HBR_TIME_OUT_OF_RANGE, 1);
  dock_alone(HBR_SCREEN_PROCESSORS + 1, 1, HBR_SCREEN_TOO_MANY_PROCESSORS);
  dock_alone(HBR_SCREEN_PROCESSORS + 1, HBR_SCREEN_JOBS + 1, HBR_SCREEN_TOO_MANY_PROCESSORS);
  dock_alone(HBR_MOST_PROCESSORS, HBR_MOST_JOBS, HBR_SCREEN_TOO_MANY_PROCESSORS);
  dock_alone(1, HBR_SCREEN_JOBS + 1, HBR_SCREEN_TOO_MANY_JOBS);
  dock_alone(HBR_SCREEN_PROCESSORS, HBR_SCREEN_JOBS + 1, HBR_SCREEN_TOO_MANY_JOBS);
  dock_alone(1, HBR_MOST_JOBS, HBR_SCREEN_TOO_MANY_JOBS);
}

/* the largest order of a screen, 4 processors and 12 jobs of 3 minutes: 15 rows asked for, 12 written, least lateness -2; planned,
 * refused by bound or room, as many rows to check as at the dock, and refused by a job */
static void of_screens(void) {
  const size_t most = 4 * HBR_MOST_ROWS;
  fill();
  of_counts();
  if (write(HBR_SCREEN_PROCESSORS, 4, HBR_SCREEN_JOBS, 3, 10, 4) != 0 || answer[0] != HBR_SCREEN_BYTES)
    wrong++;
  fill();
  alike(HBR_SCREEN_BYTES, -2, 60, 0, 0);
  alike(HBR_SCREEN_BYTES, 100, 60, 0, 0);
  alike(HBR_SCREEN_BYTES, -3, 60, 0, HBR_BOUND_TOO_TIGHT);
  alike(HBR_SCREEN_BYTES, -9, 60, 0, HBR_BOUND_TOO_TIGHT);
  alike(HBR_SCREEN_BYTES, -2, 59, HBR_BUFFER_TOO_SHORT, HBR_BUFFER_TOO_SHORT);
  alike(HBR_SCREEN_BYTES, 10000001, 59, HBR_BUFFER_TOO_SHORT, HBR_BOUND_OUT_OF_RANGE);
  refused(hbr_screen_check(file, HBR_SCREEN_BYTES, 0, rows, most + 1, answer, HBR_CHECK_ANSWER), HBR_TOO_MANY_ROWS, 0);
  if (hbr_screen_check(file, HBR_SCREEN_BYTES, 0, rows, most, answer, HBR_CHECK_ANSWER) != 0 || answer[0] != 0)
    wrong++;
  fill();
  file[16 + 11 * 16 + 8] = 5; /* job 12 needs 5 */
  alike(HBR_SCREEN_BYTES, 0, 60, HBR_FITS_NO_PROCESSOR + 256 * 12, HBR_FITS_NO_PROCESSOR + 256 * 12);
  file[16 + 10 * 16 + 12] = 0; /* job 11 is of maker 0 */
  alike(HBR_SCREEN_BYTES, 0, 60, HBR_MAKER_OUT_OF_RANGE + 256 * 11, HBR_MAKER_OUT_OF_RANGE + 256 * 11);
}

/* the three calls of a block are refused alike, and neither block nor rows held are touched */
static void block_refused(size_t block_length, size_t rows_length) {
  memset(block, KEPT, sizeof block);
  memset(held, KEPT, sizeof held);
  refused(hbr_block_clear(block, block_length, held, rows_length), HBR_SHORT_BLOCK, 0);
  for (int value = 0; value < 5; value++)
    refused(hbr_block_write(block, block_length, held, rows_length, 0, (uint8_t)value), HBR_SHORT_BLOCK, 0);
  refused(hbr_block_write(block, block_length, held, rows_length, 40, 1), HBR_SHORT_BLOCK, 0);
  refused(hbr_block_read(block, block_length, held, rows_length, 40, answer, HBR_BLOCK_READ_ANSWER), HBR_SHORT_BLOCK, 0);
  refused(hbr_block_read(block, block_length, held, rows_length, 40, answer, HBR_BLOCK_READ_ANSWER - 1), HBR_SHORT_ANSWER, 0);
  if (!as_filled(block, sizeof block) || !as_filled(held, sizeof held)) {
    printf("a refused call of a block wrote to it\n");
    wrong++;
  }
}

/* a write that succeeds, as every write to a block that is long enough */
static void put(uint8_t address, uint8_t value) {
  if (hbr_block_write(block, sizeof block, held, sizeof held / sizeof held[0], address, value) != 0) {
    printf("a write of %u to byte %u is refused\n", value, address);
    wrong++;
  }
}

/* a read that succeeds and writes one number */
static uint8_t get(uint8_t address) {
  fill();
  if (hbr_block_read(block, HBR_BLOCK_BYTES, held, HBR_BLOCK_ROWS, address, answer, HBR_BLOCK_READ_ANSWER) != 0 || answer[0] < 0 ||
      answer[0] > 255 || !as_filled(&answer[1], sizeof answer - sizeof answer[0])) {
    printf("a read of byte %u is wrong\n", address);
    wrong++;
  }
  uint8_t byte = (uint8_t)answer[0];
  fill();
  return byte;
}

/* a command leaves these flags, this number and this lateness, and its first row held has this job; nothing lies beyond */
static void commanded(uint8_t command, uint8_t flags, uint8_t number, uint8_t lateness, uint32_t job) {
  put(0, command);
  if (get(1) != flags || get(2) != number || get(12) != lateness || get(15) != (lateness > 127 ? 255 : 0) || held[0] != job ||
      !as_filled(&block[HBR_BLOCK_BYTES], 8) || !as_filled(&held[HBR_BLOCK_ROWS], 8 * sizeof held[0])) {
    printf("command %u: flags %u, number %u, lateness %u, job %u, not %u, %u, %u, %u, or something beyond has changed\n", command,
           get(1), get(2), get(12), (unsigned)held[0], flags, number, lateness, (unsigned)job);
    wrong++;
  }
}

/* every byte of the block reads 0 */
static void all_zero(void) {
  for (int address = 0; address < HBR_BLOCK_BYTES; address++)
    if (get((uint8_t)address) != 0) {
      printf("byte %d of a cleared block is not 0\n", address);
      wrong++;
    }
}

/* a block of this file is refused by command 2 and, whatever the bound, by command 1, with this number; the call itself succeeds */
static void file_refused(size_t length, uint8_t number) {
  for (size_t i = 0; i < length && i < HBR_SCREEN_BYTES; i++)
    put((uint8_t)(32 + i), file[i]);
  put(8, (uint8_t)(length % 256));
  put(9, (uint8_t)(length / 256));
  commanded(2, 2, number, 0, 0);
  put(7, 127); /* a bound that is out of range */
  commanded(1, 2, number, 0, 0);
  put(7, 0);
}

/* the refusals of the calls of a block, and commands that are refused, where the call succeeds: each number that there is; order C
 * is planned in between, so that there is something to clear */
static void of_blocks(void) {
  fill();
  block_refused(0, 0);
  block_refused(HBR_BLOCK_BYTES - 1, HBR_BLOCK_ROWS);
  block_refused(HBR_BLOCK_BYTES, HBR_BLOCK_ROWS - 1);
  block_refused(HBR_BLOCK_BYTES - 1, HBR_BLOCK_ROWS - 1);
  refused(hbr_block_read(block, HBR_BLOCK_BYTES, held, HBR_BLOCK_ROWS, 40, answer, 0), HBR_SHORT_ANSWER, 0);
  if (hbr_block_clear(block, sizeof block, held, sizeof held / sizeof held[0]) != 0)
    wrong++;
  all_zero();
  commanded(1, 2, HBR_BAD_FILE, 0, 0);
  commanded(7, 2, 0, 0, 0);
  if (write(1, 4, 1, 3, 10, 4) != 0)
    wrong++;
  fill();
  for (uint8_t i = 0; i < 32; i++)
    put((uint8_t)(32 + i), file[i]);
  put(8, 32);
  commanded(2, 1, 0, 0xF8, 1);
  commanded(0, 2, 0, 0, 0);
  put(7, 127);
  commanded(2, 1, 0, 0xF8, 1);
  commanded(1, 2, HBR_BOUND_OUT_OF_RANGE, 0, 0);
  for (uint8_t address = 4; address < 8; address++)
    put(address, address == 4 ? 0xF7 : 0xFF); /* -9 */
  commanded(1, 2, HBR_BOUND_TOO_TIGHT, 0, 0);
  put(4, 0xF8);
  commanded(1, 1, 0, 0xF8, 1);
  put(8, HBR_SCREEN_BYTES + 1);
  commanded(1, 2, HBR_BAD_FILE, 0, 0);
  file_refused(32 + 256, HBR_BAD_FILE);
  file_refused(11, HBR_BAD_FILE);
  file_refused(counted(0, 13), HBR_NO_PROCESSOR);
  file_refused(counted(5, 0), HBR_SCREEN_TOO_MANY_PROCESSORS);
  file_refused(counted(52, 0), HBR_SCREEN_TOO_MANY_PROCESSORS);
  file_refused(counted(4, 0), HBR_NO_JOB);
  file_refused(counted(4, 12), HBR_TIME_OUT_OF_RANGE);
  if (write(HBR_SCREEN_PROCESSORS, 4, HBR_SCREEN_JOBS, 3, 10, 4) != 0)
    wrong++;
  fill();
  file[16 + 11 * 16 + 8] = 5; /* job 12 needs 5 */
  file_refused(HBR_SCREEN_BYTES, HBR_FITS_NO_PROCESSOR);
  file[16 + 10 * 16 + 12] = 0; /* job 11 is of maker 0 */
  file_refused(HBR_SCREEN_BYTES, HBR_MAKER_OUT_OF_RANGE);
  file[16 + 9 * 16 + 6] = 100; /* job 10 is due at minute 100 * 65536 + 10 */
  file_refused(HBR_SCREEN_BYTES, HBR_DUE_OUT_OF_RANGE);
  put(3, 255);
  if (get(3) != 1 || block[3] != 1)
    wrong++;
  commanded(255, 6, 0, 0, 0);
  commanded(3, 0, 0, 0, 0);
  all_zero();
}

/* the refusals of a call on an accepted order: memory 4, job (3, 10, 4) */
static void of_calls(void) {
  if (write(1, 4, 1, 3, 10, 4) != 0)
    wrong++;
  size_t length = (size_t)answer[0];
  fill();
  refused(hbr_plan(file, length, 10000001, rows, 4, answer, HBR_PLAN_ANSWER), HBR_BOUND_OUT_OF_RANGE, 0);
  refused(hbr_least(file, length, rows, 0, answer, HBR_LEAST_ANSWER), HBR_BUFFER_TOO_SHORT, 0);
  refused(hbr_plan(file, length, -9, rows, 4, answer, HBR_PLAN_ANSWER), HBR_BOUND_TOO_TIGHT, 0);
  refused(hbr_check(file, length, -1, rows, 4 * 3025, answer, HBR_CHECK_ANSWER), HBR_TOO_MANY_ROWS, 0);
  refused(hbr_judge(file, length, answer, HBR_JUDGE_ANSWER - 1), HBR_SHORT_ANSWER, 0);
  refused(hbr_reason(file, length, -1, answer, HBR_REASON_ANSWER - 1), HBR_SHORT_ANSWER, 0);
  of_classes(length);
  of_lines(length);
  of_books(length);
  of_times(length);
  memset(file, 0, 11);
  refused(hbr_judge(file, 11, answer, HBR_JUDGE_ANSWER), HBR_BAD_FILE, 0);
  refused(hbr_parse(file, 11, -1, line, 0, answer, HBR_PARSE_ANSWER), HBR_BAD_FILE, 0);
}

int main(void) {
  memset(file, KEPT, sizeof file);
  of_orders();
  of_calls();
  of_estimates();
  of_needs();
  of_screens();
  of_blocks();
  printf("refusals: %d wrong\n", wrong);
  return wrong != 0;
}
