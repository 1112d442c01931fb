/* A ring of bytes. It shows `count`: the bytes that `bytes` points to are as many as `size` says, and each index and each change of either field is checked as it runs. */
struct ring {
  int size;
  char *count(size) bytes;
  int first;
  int used;
};

struct ring input;

/* Puts a byte at the end of the ring: 1 where there was room. */
int put(int byte) {
  if (input.used == input.size) return 0;
  input.bytes[(input.first + input.used) % input.size] = byte;
  input.used = input.used + 1;
  return 1;
}

/* Takes the first byte of the ring, or -1 where it is empty. */
int take(void) {
  int byte;
  if (input.used == 0) return -1;
  byte = input.bytes[input.first];
  input.first = (input.first + 1) % input.size;
  input.used = input.used - 1;
  return byte;
}

int init(void) {
  char *bytes;
  int done;
  bytes = kalloc(char, 4);
  if (bytes == 0) return -1;
  input.size = 4;
  input.bytes = bytes;
  done = put('a');
  done = put('b');
  done = take();
  printd(done);
  done = take();
  printd(done);
  done = take();
  printd(done);
  return 0;
}
