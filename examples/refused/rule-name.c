int init(void) {
  int n;
  n = limit + 1; /* no such name */
  return n;
}
