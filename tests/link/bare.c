/* The archive without a C library: this program brings its own memcpy and memset. Order C, its need from a table, has the least
 * lateness -8; its job, ready at 5 on a processor that is open up to 100, runs from 5 to 8 at -3; it has one class, one processor
 * of memory 4; with a time of 3 to 5 minutes its least lateness is -8 to -6, and -7 at 4. A screen has the same answers, and
 * refuses 13 jobs; a register block plans it at -8 and refuses -9. Linux on x86-64. */
#include "../../link/highboyrobin.h"

void *memcpy(void *to, const void *from, size_t count) {
  for (size_t i = 0; i < count; i++)
    ((uint8_t *)to)[i] = ((const uint8_t *)from)[i];
  return to;
}

void *memset(void *to, int value, size_t count) {
  for (size_t i = 0; i < count; i++)
    ((uint8_t *)to)[i] = (uint8_t)value;
  return to;
}

/* the same order from a screen, then one of 13 jobs; 0 where all is as it should be */
static int from_screen(const uint8_t *file, size_t length) {
  static uint8_t line[HBR_MOST_LINE], longer[HBR_MOST_BYTES];
  static uint32_t rows[4], jobs[4 * (HBR_SCREEN_JOBS + 1)];
  const uint32_t memories[] = {4};
  int32_t told[HBR_REASON_ANSWER], count[HBR_CHECK_ANSWER];
  if (hbr_screen_judge(file, length, told, HBR_JUDGE_ANSWER) != 0 || told[2] != 1)
    return 15;
  if (hbr_screen_least(file, length, rows, 4, told, HBR_LEAST_ANSWER) != 0 || told[0] != -8 || rows[3] != 3)
    return 16;
  if (hbr_screen_check(file, length, -8, rows, 4, count, HBR_CHECK_ANSWER) != 0 || count[0] != 1)
    return 17;
  if (hbr_screen_plan(file, length, -9, rows, 4, count, HBR_PLAN_ANSWER) != HBR_BOUND_TOO_TIGHT)
    return 18;
  if (hbr_screen_reason(file, length, -9, told, HBR_REASON_ANSWER) != 0 || told[0] != HBR_JOB)
    return 19;
  if (hbr_screen_sentence(file, length, -9, told, HBR_REASON_ANSWER, line, sizeof line, count, HBR_SENTENCE_ANSWER) != 0 ||
      count[0] != 39)
    return 20;
  for (size_t j = 0; j < sizeof jobs / sizeof jobs[0]; j++)
    jobs[j] = j % 4 == 3 ? 1 : 4;
  if (hbr_write(memories, 1, jobs, sizeof jobs / sizeof jobs[0], longer, sizeof longer, count, HBR_WRITE_ANSWER) != 0)
    return 21;
  return hbr_screen_judge(longer, (size_t)count[0], told, HBR_JUDGE_ANSWER) == HBR_SCREEN_TOO_MANY_JOBS ? 0 : 22;
}

static uint8_t block[HBR_BLOCK_BYTES];
static uint32_t held[HBR_BLOCK_ROWS];

static uint32_t put(uint8_t address, uint8_t value) {
  return hbr_block_write(block, HBR_BLOCK_BYTES, held, HBR_BLOCK_ROWS, address, value);
}

/* a byte, or -1 where the read is refused */
static int32_t get(uint8_t address) {
  int32_t byte[HBR_BLOCK_READ_ANSWER] = {-1};
  hbr_block_read(block, HBR_BLOCK_BYTES, held, HBR_BLOCK_ROWS, address, byte, HBR_BLOCK_READ_ANSWER);
  return byte[0];
}

/* the same order in a block: planned at the least lateness, refused a minute below, cleared; 0 where all is as it should be */
static int from_block(const uint8_t *file, size_t length) {
  if (hbr_block_clear(block, HBR_BLOCK_BYTES, held, HBR_BLOCK_ROWS) != 0)
    return 23;
  for (size_t i = 0; i < length; i++)
    if (put((uint8_t)(32 + i), file[i]) != 0)
      return 24;
  if (put(8, (uint8_t)length) != 0 || put(10, 1) != 0 || put(3, 1) != 0 || put(0, 2) != 0)
    return 25;
  if (get(1) != 5 || get(2) != 0 || get(12) != 0xF8 || get(15) != 0xFF || get(16) != 1 || get(20) != 1 || get(28) != 3)
    return 26;
  for (uint8_t address = 4; address < 8; address++)
    if (put(address, address == 4 ? 0xF7 : 0xFF) != 0)
      return 27;
  if (put(1, 5) != 0 || put(0, 1) != 0 || get(1) != 6 || get(2) != HBR_BOUND_TOO_TIGHT || get(12) != 0 || get(16) != 0)
    return 28;
  return put(0, 3) == 0 && get(1) == 0 && get(3) == 0 && get(32) == 0 ? 0 : 29;
}

/* 0 where all is as it should be */
int begin(void) {
  const uint32_t memories[] = {4}, table[] = {3, HBR_LONGEST_LENGTH, 4, 1, 2, 9};
  uint32_t jobs[] = {3, 10, 0, 1};
  const uint32_t ready[] = {5}, windows[] = {0, 100}, highs[] = {5};
  static uint8_t file[HBR_MOST_BYTES], order[HBR_MOST_BYTES];
  static uint32_t rows[16], book[HBR_MOST_MAKERS], classes[2 * HBR_MOST_CLASSES];
  int32_t length[HBR_WRITE_ANSWER], least[HBR_LEAST_ANSWER], asked[HBR_TIMED_ROWS_ANSWER];
  if (hbr_needs(table, 6, &jobs[0], 1, &jobs[2], 1, asked, HBR_NEEDS_ANSWER) != 0 || asked[0] != 1 || jobs[2] != 4)
    return 12;
  if (hbr_write(memories, 1, jobs, 4, file, sizeof file, length, HBR_WRITE_ANSWER) != 0)
    return 1;
  if (hbr_least(file, (size_t)length[0], rows, 4, least, HBR_LEAST_ANSWER) != 0)
    return 2;
  if (least[0] != -8 || least[1] != 1 || rows[3] != 3)
    return 3;
  if (hbr_book_least(file, (size_t)length[0], rows, 4, book, HBR_MOST_MAKERS, least, HBR_BOOK_LEAST_ANSWER) != 0)
    return 4;
  if (least[0] != -8 || book[0] != 3 || book[1] != 0)
    return 5;
  if (hbr_timed_rows(file, (size_t)length[0], -3, ready, 1, windows, 2, asked, HBR_TIMED_ROWS_ANSWER) != 0 || asked[0] != 4)
    return 6;
  if (hbr_timed_plan(file, (size_t)length[0], -3, ready, 1, windows, 2, rows, 16, asked, HBR_TIMED_PLAN_ANSWER) != 0 ||
      asked[0] != 1 || rows[2] != 5 || rows[3] != 8)
    return 7;
  if (hbr_timed_check(file, (size_t)length[0], -3, ready, 1, windows, 2, rows, 4, asked, HBR_TIMED_CHECK_ANSWER) != 0)
    return 8;
  if (asked[0] != 1)
    return 9;
  if (hbr_between(file, (size_t)length[0], highs, 1, least, HBR_BETWEEN_ANSWER) != 0 || least[0] != -8 || least[1] != -6)
    return 13;
  if (hbr_between_order(file, (size_t)length[0], highs, 1, -7, order, 32, asked, HBR_BETWEEN_ORDER_ANSWER) != 0 || asked[0] != 32 ||
      order[4] != 4 || order[31] != file[31])
    return 14;
  if (hbr_classes(file, (size_t)length[0], classes, 2 * HBR_MOST_CLASSES, asked, HBR_CLASSES_ANSWER) != 0)
    return 10;
  if (asked[0] != 1 || classes[0] != 4 || classes[1] != 1)
    return 11;
  const int screen = from_screen(file, (size_t)length[0]);
  return screen != 0 ? screen : from_block(file, (size_t)length[0]);
}

/* the stack is aligned to 16 bytes here; 60 leaves the program */
__asm__(".globl _start\n"
        "_start: call begin\n"
        "mov %eax, %edi\n"
        "mov $60, %eax\n"
        "syscall\n");
