/* A device of blocks of 64 bytes that copies a block into its caller's buffer. It shows a `count` among parameters and `bound`: the
   pointer that walks a block keeps between the two that hold its ends. */
struct device {
  int blocks;
  int bytes;
  char *count(bytes) data;
};

struct device disk;

/* Whether the device has this block. */
int has_block(int block) {
  return 0 <= block && block < disk.blocks;
}

/* Copies a block into a buffer of n bytes: 0, or -1 where there is no such block. */
int read_block(int block, char *count(n) to, int n) {
  int i;
  int found;
  found = has_block(block);
  if (!found) return -1;
  i = 0;
  while (i < n && i < 64) {
    to[i] = disk.data[64 * block + i];
    i = i + 1;
  }
  return 0;
}

/* The sum of the bytes of a buffer. */
int sum(char *count(n) buffer, int n) {
  char *low;
  char *high;
  char *bound(low, high) at;
  int total;
  low = buffer;
  high = buffer + n;
  at = low;
  total = 0;
  while (at < high) {
    total = total + *at;
    at = at + 1;
  }
  return total;
}

int init(void) {
  char *data;
  char *buffer;
  int done;
  data = kalloc(char, 8 * 64);
  buffer = kalloc(char, 64);
  if (data == 0 || buffer == 0) return -1;
  disk.blocks = 8;
  disk.bytes = 8 * 64;
  disk.data = data;
  disk.data[64 * 3] = 7;
  done = read_block(3, buffer, 64);
  printd(done);
  done = sum(buffer, 64);
  printd(done);
  return 0;
}
