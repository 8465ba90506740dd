/* Highboyrobin: a session planner whose refusals are facts. Link with libhighboyrobin.a.
 *
 * Units. Times are whole minutes from a common start, minute 0. A memory and a need are numbers of one unit of yours, 0 to
 * 4294967295. Jobs and processors are numbered from 1, in the order in which you list them. Each job has the number of its maker, 1
 * to 16: 1 where a dock has one maker.
 *
 * Ends. Due 10 means done by the close of minute 10, so the end is minute 11: a job's end is its due time plus the bound plus 1.
 * At bound 0 a job is on time; the bound moves all ends alike.
 *
 * An order is handed over as the bytes of an order file (docs/LINKING.md shows them; hbr_write makes them). Its length is exact, as
 * hbr_write answers it.
 *
 * Rows of a plan are lent as numbers, four to a row: job, processor, from, to. A row takes the minutes from `from` up to but not
 * including `to`. In a plan that is written no row begins where another of its job on its processor ends: the two would be one row.
 *
 * Books. A book is sixteen numbers, lent to hbr_book_least and hbr_book_plan: the minutes planned for maker 1, 2, .. 16 since it
 * was opened. It is opened by sixteen zeros. Lend each call the book that the last one left: then each number is the times of that
 * maker's jobs in all plans written with it, and the sixteen together are the times of all their jobs. Each is at most
 * HBR_MOST_BOOKED.
 *
 * Times. hbr_timed_rows, hbr_timed_plan and hbr_timed_check take beside the order a ready minute for each job, and for each
 * processor one window as two numbers: the minute at which it opens and the one at which it closes; all from 0 to
 * HBR_MOST_MINUTE, each window closing after it opens. ready_length is the number of jobs, windows_length twice that of processors.
 *
 * Needs. Where you know how long sessions are and not what they need, hbr_needs fills the needs in from a table that you edit.
 *
 * Estimates. Where times are known only between a low and a high, the file has the lows as its times, and hbr_between and
 * hbr_between_order take a high for each job beside it, in the order of the file: highs_length is the number of jobs. Due times,
 * needs and makers are those of the file whatever the times.
 *
 * Screens. A dock holds HBR_MOST_PROCESSORS processors and HBR_MOST_JOBS jobs, a screen HBR_SCREEN_PROCESSORS and HBR_SCREEN_JOBS. A
 * screen calls the same planner by the six functions hbr_screen_..; an order within its limits gets the dock's own reply.
 *
 * Blocks. A register block is 256 bytes as a bus has them, with commands that plan at a screen's limits. It is two buffers of yours,
 * HBR_BLOCK_BYTES bytes and HBR_BLOCK_ROWS numbers: clear them once by hbr_block_clear before the first use, then hbr_block_write and
 * hbr_block_read are the bus. A command runs inside the write to byte 0. A REFUSED COMMAND IS A CALL THAT SUCCEEDS: the result is 0, and
 * bytes 1 and 2 of the block tell the refusal.
 *
 * Results. Each function returns 0 where it succeeds, else a refusal: its number is hbr_number(result), and the job that it is
 * about, of 16 the processor, of 17 and 18 the length, of 5 from hbr_needs the place in the list, 0 where it is about none,
 * hbr_job(result). Of several refusals that apply the first is told: HBR_SHORT_ANSWER, HBR_PART_JOB, HBR_SHORT_CLASSES,
 * HBR_SHORT_REASON, HBR_SHORT_BOOK, HBR_SHORT_BLOCK or HBR_LONG_LIST, 12, HBR_WRONG_TIMES or HBR_WRONG_HIGHS, then 17, 18, 1 to 6, 13,
 * 19, 7, 15, 16, 8 to 11, 14. Of a screen 21 stands where 2 stands and 20 where 4 stands: 1, 21, 3, 20, 5, 6.
 *
 * Memory. You own every buffer; nothing is kept after a call, and nothing is allocated. Two buffers of one call must not overlap
 * unless both are const. Lengths count elements, not bytes. Pointers must be valid and aligned, not NULL, also where the length is
 * 0. A REFUSED CALL WRITES NOTHING, neither to classes, rows, book, file, order, line, needs or block nor to the answer. A refused
 * command of hbr_block_write is no refused call: it changes the block and the rows held as said there. A call that succeeds leaves what
 * lies beyond its classes, its rows, its book, its file, its order, its line, its needs, its block or its answer as it was.
 *
 * Threads. A call keeps nothing, so calls may run at once on several threads, and a call may be interrupted by another: in a
 * signal or interrupt handler, or by a thread switch. As long as a call runs, no buffer that it writes may be read or written by
 * another call or by anybody else. Buffers that calls only read may be shared.
 *
 * Machine. Calls follow the System V AMD64 ABI: the stack is aligned to 16 bytes at each call. The code uses the SSE registers
 * but not x87, MMX or AVX, keeps nothing below the stack pointer (no red zone), and is position independent. docs/LINKING.md has
 * the details, and how much stack a call needs.
 */
#ifndef HIGHBOYROBIN_H
#define HIGHBOYROBIN_H

#include <stddef.h>
#include <stdint.h>

#ifdef __cplusplus
extern "C" {
#endif

/* the most processors, jobs and classes of an order, bytes of its file, rows of a plan, rows of a plan with times, bytes of a reason's
 * line; makers are numbered up to HBR_MOST_MAKERS, and a book has as many numbers, none over HBR_MOST_BOOKED; no ready minute, opening
 * or closing is over HBR_MOST_MINUTE; the lines of a table of needs that count, the longest length, the most lengths of a call */
#define HBR_MOST_PROCESSORS 16
#define HBR_MOST_JOBS 48
#define HBR_MOST_CLASSES 16
#define HBR_MOST_BYTES 844
#define HBR_MOST_ROWS 3024
#define HBR_MOST_TIMED_ROWS 8064
#define HBR_MOST_LINE 541
#define HBR_MOST_MAKERS 16
#define HBR_MOST_BOOKED 4000000000u
#define HBR_MOST_MINUTE 1000000
#define HBR_TABLE_LINES 32
#define HBR_LONGEST_LENGTH 100000
#define HBR_MOST_LENGTHS 16777215

/* of a screen: the most processors and jobs of an order, bytes of its file, rows that it asks to be lent */
#define HBR_SCREEN_PROCESSORS 4
#define HBR_SCREEN_JOBS 12
#define HBR_SCREEN_BYTES 220
#define HBR_SCREEN_ROWS 180

/* of a register block: its bytes, and the numbers of the rows that it holds, 180 rows of four */
#define HBR_BLOCK_BYTES 256
#define HBR_BLOCK_ROWS 720

/* refusals */
#define HBR_NO_PROCESSOR 1        /* the order has no processor */
#define HBR_TOO_MANY_PROCESSORS 2 /* it has over 16 */
#define HBR_NO_JOB 3              /* it has no job */
#define HBR_TOO_MANY_JOBS 4       /* it has over 48 */
#define HBR_TIME_OUT_OF_RANGE 5   /* a job's time, low or high, or a length listed for hbr_needs, is not 1 to 100000 */
#define HBR_DUE_OUT_OF_RANGE 6    /* a job's due time is not -1000000 to 1000000 */
#define HBR_FITS_NO_PROCESSOR 7   /* a job needs more memory than any processor has */
#define HBR_BOUND_OUT_OF_RANGE 8  /* the bound is not -10000000 to 10000000 */
#define HBR_BUFFER_TOO_SHORT 9    /* rows: as hbr_judge, hbr_timed_rows tell; file, order: 4 bytes a processor, 16 a job, 12; line: its
                                   * length; needs: one to a length */
#define HBR_BOUND_TOO_TIGHT 10    /* no plan whatever meets the bound: hbr_reason tells why, but not with times */
#define HBR_TOO_MANY_ROWS 11      /* over 3024 rows to check, with times over 8064 */
#define HBR_BAD_FILE 12           /* the file is under 12 or over 844 bytes, or its lists and its trailer disagree */
#define HBR_MAKER_OUT_OF_RANGE 13 /* a job's maker is not 1 to 16; told after 6 and before 7 */
#define HBR_BOOK_FULL 14          /* a number of the book would then be over 4000000000; told last of all */
#define HBR_READY_OUT_OF_RANGE 15 /* a job's ready minute is not 0 to 1000000; told after 7 and before 8 */
#define HBR_BAD_WINDOW 16         /* a window is not in 0 to 1000000 or does not close after it opens; told after 15, before 8 */
#define HBR_LENGTH_UNMET 17       /* no line of the table of needs meets a length */
#define HBR_LENGTH_MET_TWICE 18   /* two lines of it meet a length */
#define HBR_LOW_ABOVE_HIGH 19     /* a job's low is above its high; told after 13 and before 7 */
#define HBR_SHORT_CLASSES 253     /* the list of classes has under 32 numbers */
#define HBR_SHORT_REASON 253      /* the reason has under 19 numbers */
#define HBR_SHORT_BOOK 253        /* the book has under 16 numbers; the same number, since no function has two of these */
#define HBR_SHORT_BLOCK 253       /* the block has under 256 bytes or its rows under 720 numbers */
#define HBR_LONG_LIST 253         /* over 16777215 lengths: a result has no room for such a place */
#define HBR_WRONG_TIMES 253       /* the ready minutes are not one to a job or the windows not two numbers to a processor; after 12 */
#define HBR_WRONG_HIGHS 253       /* the highs are not one to a job; after 12 */
#define HBR_PART_JOB 254          /* the numbers of the jobs are not four to a job */
#define HBR_SHORT_ANSWER 255      /* the answer is shorter than the function's HBR_.._ANSWER */

/* refusals of a screen alone */
#define HBR_SCREEN_TOO_MANY_JOBS 20       /* the order has over 12; in place of 4, so told after 3 and before 5 */
#define HBR_SCREEN_TOO_MANY_PROCESSORS 21 /* it has over 4; in place of 2, so told after 1 and before 3 */

#define hbr_number(result) ((result) % 256u)
#define hbr_job(result) ((result) / 256u)

/* Judges an order file. Refusals, in the order in which they are told: 255, 12, 1 to 6, 13, 7.
 * answer[0] processors, answer[1] jobs, answer[2] the rows that hbr_least and hbr_plan ask to be lent, 1 to 3024: lend them
 * 4 * answer[2] numbers. */
#define HBR_JUDGE_ANSWER 3
uint32_t hbr_judge(const uint8_t *file, size_t file_length, int32_t *answer, size_t answer_length);

/* The classes of an order: its distinct memories, the largest first. From classes[0] on there are two numbers to a class, class 1
 * first: its memory and how many processors have it. Memories 4, 8, 4, 2 give 8 1, 4 2, 2 1. classes_length counts numbers, not
 * classes: lend 2 * HBR_MOST_CLASSES, whatever the order. Refusals, in the order in which they are told: 255, 253, 12, 1 to 6, 13, 7.
 * answer[0] the number of classes, 1 to HBR_MOST_CLASSES. */
#define HBR_CLASSES_ANSWER 1
uint32_t hbr_classes(const uint8_t *file, size_t file_length, uint32_t *classes, size_t classes_length, int32_t *answer,
                     size_t answer_length);

/* The least lateness: the smallest whole number that, as the bound, lets every job be done by its end. It may be negative: then
 * all can be early. A plan that meets it is written from rows[0] on. rows_length counts numbers, not rows: it is 4 * rows.
 * Refusals, in the order in which they are told: 255, 12, 1 to 6, 13, 7, 9.
 * answer[0] the least lateness, answer[1] the number of rows written. */
#define HBR_LEAST_ANSWER 2
uint32_t hbr_least(const uint8_t *file, size_t file_length, uint32_t *rows, size_t rows_length, int32_t *answer,
                   size_t answer_length);

/* A plan in which every job is done by its end, written from rows[0] on. rows_length counts numbers, not rows: it is 4 * rows.
 * Refusals, in the order in which they are told: 255, 12, 1 to 6, 13, 7 to 10; 10 carries no job, also where hbr_reason then names
 * one.
 * answer[0] the number of rows written. */
#define HBR_PLAN_ANSWER 1
uint32_t hbr_plan(const uint8_t *file, size_t file_length, int32_t bound, uint32_t *rows, size_t rows_length, int32_t *answer,
                  size_t answer_length);

/* hbr_least with a book: where it writes a plan, the times of each maker's jobs are added to that maker's number of the book. A
 * number that would then be over HBR_MOST_BOOKED, of any of the sixteen makers, with a job in this order or not, is 14; numbers
 * lent are any 32-bit numbers. Refusals, in the order in which they are told: 255, 253, 12, 1 to 6, 13, 7, 9, 14.
 * answer as hbr_least has it. */
#define HBR_BOOK_LEAST_ANSWER 2
uint32_t hbr_book_least(const uint8_t *file, size_t file_length, uint32_t *rows, size_t rows_length, uint32_t *book,
                        size_t book_length, int32_t *answer, size_t answer_length);

/* hbr_plan with a book, as hbr_book_least has it. Refusals, in the order in which they are told: 255, 253, 12, 1 to 6, 13, 7 to 10,
 * 14. answer as hbr_plan has it. */
#define HBR_BOOK_PLAN_ANSWER 1
uint32_t hbr_book_plan(const uint8_t *file, size_t file_length, int32_t bound, uint32_t *rows, size_t rows_length, uint32_t *book,
                       size_t book_length, int32_t *answer, size_t answer_length);

/* Why no plan can meet the bound. Refusals, in the order in which they are told: 255, 12, 1 to 6, 13, 7, 8.
 * answer[0] HBR_NONE where there is a plan, else HBR_JOB or HBR_STAIRS.
 * HBR_JOB: answer[1] the first job whose time exceeds its end, answer[2] its time.
 * HBR_STAIRS: answer[1] a count k of classes, answer[3] to answer[k + 2] a due time for each. Class 1 is the processors of the
 * largest memory, class 2 those of the next, and so on, as hbr_classes tells them; the jobs of these classes need more minutes by the
 * ends of those due times than their processors have.
 * All numbers not named are 0. */
#define HBR_NONE 0
#define HBR_JOB 1
#define HBR_STAIRS 2
#define HBR_REASON_ANSWER 19
uint32_t hbr_reason(const uint8_t *file, size_t file_length, int32_t bound, int32_t *answer, size_t answer_length);

/* A reason as one English line, written from line[0] on, without a line feed and without a closing 0:
 *     job 1: time 3, end 2: owed 3, on hand 2
 *     memory 8 due 4, memory 4 due 2: owed 8, on hand 6
 * reason is the first 19 numbers lent, as hbr_reason answers them, by whomever they were made; numbers after them are not looked
 * at. A reason stands if it is any job whose time exceeds its end or, where there is no such job, any count of classes with due
 * times that never rise, each of them some job's, by whose ends those classes owe more minutes than they have on hand.
 * A reason that does not stand, HBR_NONE too, has an empty line: the call succeeds, answer[0] is 0 and line is left as it was.
 * HBR_MOST_LINE bytes are always enough. Refusals, in the order in which they are told: 255, 253, 12, 1 to 6, 13, 7 to 9.
 * answer[0] the length of the line. */
#define HBR_SENTENCE_ANSWER 1
uint32_t hbr_sentence(const uint8_t *file, size_t file_length, int32_t bound, const int32_t *reason, size_t reason_length,
                      uint8_t *line, size_t line_length, int32_t *answer, size_t answer_length);

/* Reads a line back: the one reason that stands at this bound and whose line these bytes are exactly. A line of any length may be
 * lent. Refusals, in the order in which they are told: 255, 12, 1 to 6, 13, 7, 8.
 * answer[0] to answer[18] the reason, as hbr_reason has them; HBR_NONE and zeros for any other line. */
#define HBR_PARSE_ANSWER 19
uint32_t hbr_parse(const uint8_t *file, size_t file_length, int32_t bound, const uint8_t *line, size_t line_length,
                   int32_t *answer, size_t answer_length);

/* Whether rows, made by anybody and in any order, are a right plan that meets the bound: each job gets its full time, on
 * processors whose memory suffices, by its end, and no job and no processor is used twice at a time.
 * rows_length counts numbers, not rows: it is 4 * rows. Numbers left over after the last whole row make the plan wrong, and count
 * as a row for 11. Refusals, in the order in which they are told: 255, 12, 1 to 6, 13, 7, 8, 11.
 * answer[0] 1 for yes, 0 for no. */
#define HBR_CHECK_ANSWER 1
uint32_t hbr_check(const uint8_t *file, size_t file_length, int32_t bound, const uint32_t *rows, size_t rows_length,
                   int32_t *answer, size_t answer_length);

/* How many rows hbr_timed_plan asks to be lent at a bound: E * (jobs + processors - 1), where E counts the distinct whole numbers
 * among the ready minutes, the jobs' ends at that bound, negative ones too, the openings and the closings. Refusals, in the order in
 * which they are told: 255, 12, 253, 1 to 6, 13, 7, 15, 16, 8.
 * answer[0] the rows, 2 to HBR_MOST_TIMED_ROWS: lend hbr_timed_plan 4 * answer[0] numbers. */
#define HBR_TIMED_ROWS_ANSWER 1
uint32_t hbr_timed_rows(const uint8_t *file, size_t file_length, int32_t bound, const uint32_t *ready, size_t ready_length,
                        const uint32_t *windows, size_t windows_length, int32_t *answer, size_t answer_length);

/* A plan as hbr_plan has it in which, too, no row begins before its job's ready minute or its processor's opening, nor has a `to`
 * above that processor's closing; written from rows[0] on. rows_length counts numbers, not rows: it is 4 * rows. Refusals, in the
 * order in which they are told: 255, 12, 253, 1 to 6, 13, 7, 15, 16, 8 to 10; 10 where there is no such plan whatever.
 * answer[0] the number of rows written. */
#define HBR_TIMED_PLAN_ANSWER 1
uint32_t hbr_timed_plan(const uint8_t *file, size_t file_length, int32_t bound, const uint32_t *ready, size_t ready_length,
                        const uint32_t *windows, size_t windows_length, uint32_t *rows, size_t rows_length, int32_t *answer,
                        size_t answer_length);

/* Whether rows, made by anybody and in any order, are a right plan as hbr_check has it and keep the ready minutes and windows.
 * rows_length counts numbers, not rows: it is 4 * rows. Numbers left over after the last whole row make the plan wrong, and count
 * as a row for 11, which here is over HBR_MOST_TIMED_ROWS rows. Refusals, in the order in which they are told: 255, 12, 253, 1 to 6,
 * 13, 7, 15, 16, 8, 11. answer[0] 1 for yes, 0 for no. */
#define HBR_TIMED_CHECK_ANSWER 1
uint32_t hbr_timed_check(const uint8_t *file, size_t file_length, int32_t bound, const uint32_t *ready, size_t ready_length,
                         const uint32_t *windows, size_t windows_length, const uint32_t *rows, size_t rows_length, int32_t *answer,
                         size_t answer_length);

/* The least lateness of an order whose times are known only between lows and highs: at the lows, which are the file's times, and at
 * the highs, one to a job. Whatever the times, each from its low to its high, both included, the least lateness lies between these
 * two. A low that equals its high is a time that is known. Refusals, in the order in which they are told: 255, 12, 253, 1 to 4, 5 (the
 * first job whose low or whose high is not 1 to 100000), 6, 13, 19, 7.
 * answer[0] the least lateness at the lows, answer[1] that at the highs. */
#define HBR_BETWEEN_ANSWER 2
uint32_t hbr_between(const uint8_t *file, size_t file_length, const uint32_t *highs, size_t highs_length, int32_t *answer,
                     size_t answer_length);

/* An order between these lows and highs whose least lateness is a number. Job 1, then job 2 and so on, goes minute by minute from its
 * low to its high, the others staying; the first order met with that least lateness, the lows themselves being the first of all, is
 * written from order[0] on, as hbr_write writes it: the processors first, all but the times as in the file lent. There is one for each
 * number from answer[0] to answer[1] of hbr_between, both included. For any other number there is none: the call succeeds, answer[0]
 * is 0 and order is left as it was. As many bytes as the file has, or HBR_MOST_BYTES, are always enough. Refusals, in the order in
 * which they are told: 255, 12, 253, 1 to 6, 13, 19, 7 as of hbr_between, 9 (only where there is an order to write).
 * answer[0] the length of the order's file, 0 where there is no such order. */
#define HBR_BETWEEN_ORDER_ANSWER 1
uint32_t hbr_between_order(const uint8_t *file, size_t file_length, const uint32_t *highs, size_t highs_length, int32_t number,
                           uint8_t *order, size_t order_length, int32_t *answer, size_t answer_length);

/* The needs of listed lengths, from a table that you edit: three numbers to a line, from length, to length, need. A line meets each
 * length from the one to the other, both included; one whose from or to is not 1 to HBR_LONGEST_LENGTH, or whose from is above its
 * to, meets none. The first HBR_TABLE_LINES lines count, in any order; further ones are passed over, and one or two numbers left over
 * are no line. Each length from 1 to HBR_LONGEST_LENGTH must be met by exactly one line. From needs[0] on each listed length has the
 * need of its line; there may be up to HBR_MOST_LENGTHS lengths, or none. Refusals, in the order in which they are told: 255, 253, 17
 * (no line meets a length) and 18 (two or more meet one), each carrying the smallest such length, 5 (a listed length is not 1 to
 * HBR_LONGEST_LENGTH: the first such place in the list, counted from 1), 9 (needs has fewer numbers than lengths).
 * answer[0] the number of needs filled in. */
#define HBR_NEEDS_ANSWER 1
uint32_t hbr_needs(const uint32_t *table, size_t table_length, const uint32_t *lengths, size_t lengths_length, uint32_t *needs,
                   size_t needs_length, int32_t *answer, size_t answer_length);

/* Writes the order file of an order: memories, one number to a processor; jobs, four to a job: time, due time (a negative one
 * converted to uint32_t), need, maker. jobs_length counts numbers, not jobs: it is 4 * jobs. HBR_MOST_BYTES bytes are always enough
 * for the file. Refusals, in the order in which they are told: 255, 254, 1 to 6, 13, 7, 9.
 * answer[0] the length of the file. */
#define HBR_WRITE_ANSWER 1
uint32_t hbr_write(const uint32_t *memories, size_t memories_length, const uint32_t *jobs, size_t jobs_length, uint8_t *file,
                   size_t file_length, int32_t *answer, size_t answer_length);

/* From a screen: hbr_judge, hbr_least, hbr_plan, hbr_reason, hbr_sentence and hbr_check with the screen's limits. Parameters and
 * answers are those of the dock's calls: HBR_JUDGE_ANSWER and so on serve both. Within HBR_SCREEN_PROCESSORS and HBR_SCREEN_JOBS the
 * result and every lent buffer are those of the dock's call, refused or not. An order over them is refused, also where the dock takes
 * it: 21 stands where 2 stands and 20 where 4 stands, and neither carries a job. Refusals, in the order in which they are told: 255,
 * 253 of hbr_screen_sentence, 12, 1, 21, 3, 20, 5, 6, 13, 7, .. as of the dock's call. A file is 12 where it is 12 at the dock, so
 * that one of 13 jobs is 20. 4 * HBR_SCREEN_ROWS numbers are enough for rows; hbr_screen_check takes up to HBR_MOST_ROWS rows. */
uint32_t hbr_screen_judge(const uint8_t *file, size_t file_length, int32_t *answer, size_t answer_length);
uint32_t hbr_screen_least(const uint8_t *file, size_t file_length, uint32_t *rows, size_t rows_length, int32_t *answer,
                          size_t answer_length);
uint32_t hbr_screen_plan(const uint8_t *file, size_t file_length, int32_t bound, uint32_t *rows, size_t rows_length, int32_t *answer,
                         size_t answer_length);
uint32_t hbr_screen_reason(const uint8_t *file, size_t file_length, int32_t bound, int32_t *answer, size_t answer_length);
uint32_t hbr_screen_sentence(const uint8_t *file, size_t file_length, int32_t bound, const int32_t *reason, size_t reason_length,
                             uint8_t *line, size_t line_length, int32_t *answer, size_t answer_length);
uint32_t hbr_screen_check(const uint8_t *file, size_t file_length, int32_t bound, const uint32_t *rows, size_t rows_length,
                          int32_t *answer, size_t answer_length);

/* A register block. Numbers of several bytes are little-endian, bound and lateness two's complement.
 *
 *   byte        reads as                                            a write to it
 *   0           0                                                   runs a command: 1 plans at the bound, 2 at the least lateness,
 *                                                                   3 clears; any other is refused with number 0
 *   1           flags: bit 0 done, bit 1 refused, bit 2 interrupt   each 1 clears that flag
 *   2           the number of the refusal, 0 where there is none    changes nothing
 *   3           1 where the interrupt is allowed, else 0            keeps bit 0
 *   4 to 7      the bound                                           is kept
 *   8, 9        the length of the order file                        is kept
 *   10, 11      a row number, from 1                                is kept
 *   12 to 15    the lateness used, 0 after a refusal                changes nothing
 *   16 to 31    that row: job, processor, from, to, or zeros        changes nothing
 *   32 to 251   the order file                                      is kept
 *   252 to 255  0                                                   changes nothing
 *
 * Every command first clears the flags done and refused, bytes 2 and 12 to 15 and the rows held. A command but 3 then sets one of these
 * two flags, and the flag interrupt where that is allowed, which falls by a write to byte 1 or by 3 alone. Commands 1 and 2 plan the
 * file as hbr_screen_plan and hbr_screen_least do, with the same rows, which stay until the next command. Refusals of a command, in the
 * order in which they are told, in byte 2: 12, also where the length is over HBR_SCREEN_BYTES, 1, 21, 3, 5, 6, 13, 7, of command 1
 * then 8, 10. Command 2 does not look at the bound. Nothing is booked.
 *
 * A byte that is kept, or is set by a command, lies in the block at its address; the rows held lie in rows, four numbers to a row, and
 * zeros behind them. Lengths may be more than HBR_BLOCK_BYTES and HBR_BLOCK_ROWS. */

/* Clears a block, as command 3 does: all of its bytes and numbers are 0. Refusal: 253. */
uint32_t hbr_block_clear(uint8_t *block, size_t block_length, uint32_t *rows, size_t rows_length);

/* Writes a byte of a block, and runs the command where that is byte 0. Refusal: 253. A refused command is no refusal of the call. */
uint32_t hbr_block_write(uint8_t *block, size_t block_length, uint32_t *rows, size_t rows_length, uint8_t address, uint8_t value);

/* Reads a byte of a block, and changes nothing there. Refusals, in the order in which they are told: 255, 253.
 * answer[0] the byte, 0 to 255. */
#define HBR_BLOCK_READ_ANSWER 1
uint32_t hbr_block_read(const uint8_t *block, size_t block_length, const uint32_t *rows, size_t rows_length, uint8_t address,
                        int32_t *answer, size_t answer_length);

#ifdef __cplusplus
}
#endif

#endif
