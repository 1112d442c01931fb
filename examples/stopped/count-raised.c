/* Raises the count of a buffer: the two halves of a block belong to two rings, and the first would reach into the second. */
struct ring {
  int size;
  unsigned char *count(size) bytes;
};

static struct ring low;
static struct ring high;

static void fill(struct ring *ring, int value) {
  int i;
  i = 0;
  while (i < ring->size) {
    ring->bytes[i] = value;
    i = i + 1;
  }
}

int init(void) {
  unsigned char *block;
  unsigned char *count(16) half;
  block = kalloc(unsigned char, 32);
  if (block == 0) return -12;
  half = block;
  low.size = 16;
  low.bytes = half;
  half = block + 16;
  high.size = 16;
  high.bytes = half;
  fill(&high, 1);
  low.size = 24;
  fill(&low, 2);
  printd(high.bytes[0]);
  return 0;
}
