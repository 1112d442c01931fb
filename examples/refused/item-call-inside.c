int twice(int n) {
  return 2 * n;
}

/* A call is a statement of its own: `n = twice(3); return n + 1;`. */
int init(void) {
  return twice(3) + 1;
}
