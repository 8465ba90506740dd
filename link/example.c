/* Plans an order from C: two processors, three jobs of two makers, whose needs a table has by their times. Prints the needs, the
 * least lateness, a plan that meets it, why -1 is too tight, in due times and as a sentence, the classes that it speaks of, and the
 * minutes booked for each maker. Then, where job 1 may take up to 7 minutes, between which two numbers the least lateness lies, and
 * the first order, minute by minute, at which it is 1. Last a screen asks for the first plan, and for a fifth processor. */
#include "highboyrobin.h"
#include <stdio.h>
#include <string.h>

int main(void) {
  const uint32_t memories[] = {8, 4}, five[] = {8, 4, 4, 4, 4};
  const uint32_t table[] = {/* from length, to length, need */ 1, 2, 2, 3, 3, 4, 4, HBR_LONGEST_LENGTH, 8};
  const uint32_t times[] = {4, 3, 2}, highs[] = {7, 3, 2};
  uint32_t jobs[] = {/* time, due, need, maker */ 4, 4, 0, 1, 3, 3, 0, 2, 2, 4, 0, 2};
  uint32_t needs[3];
  static uint8_t file[HBR_MOST_BYTES], order[HBR_MOST_BYTES], wide[HBR_MOST_BYTES];
  static uint32_t rows[4 * HBR_MOST_ROWS], other_rows[4 * HBR_MOST_ROWS], screen_rows[4 * HBR_SCREEN_ROWS];
  static uint8_t line[HBR_MOST_LINE];
  static uint32_t classes[2 * HBR_MOST_CLASSES];
  static uint32_t book[HBR_MOST_MAKERS]; /* opened: sixteen zeros */
  int32_t length[HBR_WRITE_ANSWER], least[HBR_BOOK_LEAST_ANSWER], reason[HBR_REASON_ANSWER], written[HBR_SENTENCE_ANSWER];
  int32_t count[HBR_CLASSES_ANSWER], filled[HBR_NEEDS_ANSWER];
  int32_t between[HBR_BETWEEN_ANSWER], bytes[HBR_BETWEEN_ORDER_ANSWER], other_least[HBR_LEAST_ANSWER];
  int32_t screen_least[HBR_LEAST_ANSWER], wide_length[HBR_WRITE_ANSWER], sizes[HBR_JUDGE_ANSWER];

  uint32_t result = hbr_needs(table, 9, times, 3, needs, 3, filled, HBR_NEEDS_ANSWER);
  if (result == 0) {
    for (int j = 0; j < filled[0]; j++)
      jobs[4 * j + 2] = needs[j];
    result = hbr_write(memories, 2, jobs, 12, file, sizeof file, length, HBR_WRITE_ANSWER);
  }
  if (result == 0)
    result = hbr_book_least(file, (size_t)length[0], rows, 4 * HBR_MOST_ROWS, book, HBR_MOST_MAKERS, least, HBR_BOOK_LEAST_ANSWER);
  if (result == 0)
    result = hbr_reason(file, (size_t)length[0], -1, reason, HBR_REASON_ANSWER);
  if (result == 0)
    result = hbr_sentence(file, (size_t)length[0], -1, reason, HBR_REASON_ANSWER, line, sizeof line, written, HBR_SENTENCE_ANSWER);
  if (result == 0)
    result = hbr_classes(file, (size_t)length[0], classes, 2 * HBR_MOST_CLASSES, count, HBR_CLASSES_ANSWER);
  if (result == 0)
    result = hbr_between(file, (size_t)length[0], highs, 3, between, HBR_BETWEEN_ANSWER);
  if (result == 0)
    result = hbr_between_order(file, (size_t)length[0], highs, 3, 1, order, sizeof order, bytes, HBR_BETWEEN_ORDER_ANSWER);
  if (result == 0 && bytes[0] > 0) /* 0 where no order between has this least lateness */
    result = hbr_least(order, (size_t)bytes[0], other_rows, 4 * HBR_MOST_ROWS, other_least, HBR_LEAST_ANSWER);
  if (result == 0)
    result = hbr_screen_least(file, (size_t)length[0], screen_rows, 4 * HBR_SCREEN_ROWS, screen_least, HBR_LEAST_ANSWER);
  if (result == 0)
    result = hbr_write(five, 5, jobs, 12, wide, sizeof wide, wide_length, HBR_WRITE_ANSWER);
  if (result != 0) {
    printf("refused %u, job %u\n", hbr_number(result), hbr_job(result));
    return 1;
  }
  for (int j = 0; j < filled[0]; j++)
    printf("job %d of time %u needs %u\n", j + 1, (unsigned)times[j], (unsigned)needs[j]);
  printf("least lateness %d\n", least[0]);
  for (int i = 0; i < least[1]; i++) {
    const uint32_t *row = &rows[4 * i];
    printf("job %u on processor %u from %u to %u\n", row[0], row[1], row[2], row[3]);
  }
  if (reason[0] == HBR_STAIRS) {
    printf("lateness -1 is too tight: due times");
    for (int k = 0; k < reason[1]; k++)
      printf(" %d", reason[3 + k]);
    printf("\n%.*s\n", (int)written[0], (const char *)line);
  }
  for (int k = 0; k < count[0]; k++)
    printf("class %d: memory %u, processors %u\n", k + 1, (unsigned)classes[2 * k], (unsigned)classes[2 * k + 1]);
  printf("booked: maker 1 %u minutes, maker 2 %u minutes\n", (unsigned)book[0], (unsigned)book[1]);
  printf("job 1 of %u to %u minutes: least lateness %d to %d\n", (unsigned)times[0], (unsigned)highs[0], between[0], between[1]);
  if (bytes[0] > 0) /* job 1 comes after two processors of 4 bytes each; the low byte of its time is first */
    printf("job 1 of %u minutes: least lateness %d\n", (unsigned)order[8], other_least[0]);
  int same = screen_least[1] == least[1] && memcmp(screen_rows, rows, 16 * (size_t)least[1]) == 0;
  printf("from a screen: least lateness %d, %s rows\n", screen_least[0], same ? "the same" : "other");
  uint32_t at_dock = hbr_judge(wide, (size_t)wide_length[0], sizes, HBR_JUDGE_ANSWER);
  uint32_t from_screen = hbr_screen_judge(wide, (size_t)wide_length[0], sizes, HBR_JUDGE_ANSWER);
  printf("five processors: result %u at the dock, %u from a screen\n", (unsigned)at_dock, (unsigned)from_screen);
  return 0;
}
