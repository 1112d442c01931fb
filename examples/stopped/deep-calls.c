/* Goes down a list by calling itself: 64 calls deep is the end of the kernel's stack. */
static int depth(int n) {
  int deeper;
  if (n == 0) return 0;
  deeper = depth(n - 1);
  return 1 + deeper;
}

int init(void) {
  int n;
  n = depth(20);
  printd(n);
  n = depth(100);
  printd(n);
  return 0;
}
