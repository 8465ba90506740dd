/* A register block from C: what a maker does on a bus, byte by byte. Order C is written and planned at its least lateness, its rows
 * are read and the interrupt is answered; then a bound that no plan can meet is refused, and the block is cleared. */
#include "highboyrobin.h"
#include <stdio.h>

/* the block is these two */
static uint8_t block[HBR_BLOCK_BYTES];
static uint32_t held[HBR_BLOCK_ROWS];

/* a write on the bus; both buffers are long enough, so the call is never refused, and a refused command is told by bytes 1 and 2 */
static void put(uint8_t address, uint8_t value) { hbr_block_write(block, HBR_BLOCK_BYTES, held, HBR_BLOCK_ROWS, address, value); }

/* a read on the bus, which is never refused either */
static uint8_t get(uint8_t address) {
  int32_t byte[HBR_BLOCK_READ_ANSWER] = {0};
  hbr_block_read(block, HBR_BLOCK_BYTES, held, HBR_BLOCK_ROWS, address, byte, HBR_BLOCK_READ_ANSWER);
  return (uint8_t)byte[0];
}

/* numbers are little-endian */
static void put_number(uint8_t first, int size, uint32_t number) {
  for (int i = 0; i < size; i++)
    put((uint8_t)(first + i), (uint8_t)(number >> 8 * i));
}

static uint32_t get_number(uint8_t first) {
  uint32_t number = 0;
  for (int i = 0; i < 4; i++)
    number |= (uint32_t)get((uint8_t)(first + i)) << 8 * i;
  return number;
}

/* what the last command left: rows from 1 on until the job is 0 */
static void show(const char *command) {
  printf("%s: flags %u, refusal %u, lateness %d\n", command, get(1), get(2), (int)(int32_t)get_number(12));
  for (uint32_t row = 1;; row++) {
    put_number(10, 2, row);
    if (get_number(16) == 0)
      break;
    printf("row %u: job %u on processor %u from %u to %u\n", (unsigned)row, (unsigned)get_number(16), (unsigned)get_number(20),
           (unsigned)get_number(24), (unsigned)get_number(28));
  }
}

/* an interrupt: read the flags, and write back what was read; a flag that is set in between is not lost */
static void answer(void) {
  uint8_t flags = get(1);
  put(1, flags);
  printf("flags %u answered: flags %u, refusal %u\n", flags, get(1), get(2));
}

int main(void) {
  /* memory 4; time 3, due 10, need 4, maker 1; processors at 0, jobs at 4, one each */
  const uint8_t file[] = {4, 0, 0, 0, 3, 0, 0, 0, 10, 0, 0, 0, 4, 0, 0, 0, 1, 0, 0, 0, 0, 0, 0, 0, 4, 0, 0, 0, 1, 0, 1, 0};
  if (hbr_block_clear(block, HBR_BLOCK_BYTES, held, HBR_BLOCK_ROWS) != 0)
    return 1;
  for (size_t i = 0; i < sizeof file; i++)
    put((uint8_t)(32 + i), file[i]);
  put_number(8, 2, sizeof file);
  put(3, 1); /* the interrupt is allowed */
  put(0, 2); /* the command comes last */
  show("plan at the least lateness");
  answer();
  put_number(4, 4, (uint32_t)-9);
  put(0, 1);
  show("plan at -9");
  answer();
  put(0, 3);
  int zeros = 0;
  for (int address = 0; address < HBR_BLOCK_BYTES; address++)
    zeros += get((uint8_t)address) == 0;
  printf("cleared: %d bytes read 0\n", zeros);
  return 0;
}
