/* scan [RECORDS]: a flat scan, the peer of a question over many records. It holds RECORDS (20,000,000) random records as
   columns of 12 bytes each: x and y of depth 16, a bin of 32 bits and four categories of a byte. It takes five rounds of
   three questions, and prints of each the total and the least processor time.

   gcc -O3 -o scan bench/scan.c && ./scan */
#include <stdint.h>
#include <stdio.h>
#include <stdlib.h>
#include <time.h>

enum { ROUNDS = 5, BINS = 8760, VALUES = 32, SIDE = 512 };

static uint64_t state = 1;

static uint32_t draw(void) {
  state = state * 6364136223846793005u + 1442695040888963407u;
  return state >> 33;
}

struct columns {
  size_t count;
  uint16_t *x, *y;
  uint32_t *bin;
  uint8_t *category[4];
};

static struct columns make(size_t count) {
  struct columns made = {.count = count, .x = malloc(2 * count), .y = malloc(2 * count), .bin = malloc(4 * count)};
  for (int c = 0; c < 4; c++)
    made.category[c] = malloc(count);
  for (size_t i = 0; i < count; i++) {
    made.x[i] = draw();
    made.y[i] = draw();
    made.bin[i] = draw() % BINS;
    for (int c = 0; c < 4; c++)
      made.category[c][i] = draw() % VALUES;
  }
  return made;
}

/* Half of the values of a category. */
static int chosen(uint8_t value) { return value & 1; }

/* A rectangle, an interval of bins and three sets of values. */
static int passes(const struct columns *of, size_t i, uint16_t least, uint16_t most) {
  return (of->x[i] >= least) & (of->x[i] < most) & (of->y[i] >= least) & (of->y[i] < most) & (of->bin[i] >= 1000) &
         (of->bin[i] < 7000) & chosen(of->category[0][i]) & chosen(of->category[1][i]) & chosen(of->category[2][i]);
}

static uint64_t count_all(const struct columns *of) {
  uint64_t total = 0;
  for (size_t i = 0; i < of->count; i++)
    total += passes(of, i, 0, 65535);
  return total;
}

static uint64_t count_window(const struct columns *of) {
  uint64_t total = 0;
  for (size_t i = 0; i < of->count; i++)
    total += passes(of, i, 10000, 50000);
  return total;
}

/* The sum of the cells of a map of 512 by 512, so that all of them are made. */
static uint64_t map(const struct columns *of) {
  static uint32_t cells[SIDE * SIDE];
  uint64_t total = 0;
  for (size_t i = 0; i < SIDE * SIDE; i++)
    cells[i] = 0;
  for (size_t i = 0; i < of->count; i++)
    cells[(of->y[i] >> 7) * SIDE + (of->x[i] >> 7)] += passes(of, i, 0, 65535);
  for (size_t i = 0; i < SIDE * SIDE; i++)
    total += cells[i];
  return total;
}

static void take(const char *name, uint64_t (*question)(const struct columns *), const struct columns *of) {
  double least = 1e9;
  uint64_t total = 0;
  for (int round = 0; round < ROUNDS; round++) {
    clock_t began = clock();
    total = question(of);
    double took = (double)(clock() - began) / CLOCKS_PER_SEC;
    least = took < least ? took : least;
  }
  printf("%s: %llu, %.0f ms\n", name, (unsigned long long)total, 1000 * least);
}

int main(int count, char **words) {
  struct columns of = make(count > 1 ? strtoull(words[1], NULL, 10) : 20000000);
  take("count with an interval and three sets", count_all, &of);
  take("count with a window besides", count_window, &of);
  take("map of 512 by 512", map, &of);
}
