int total;

/* There is no `for`: the loop is a `while`. */
int init(void) {
  int i;
  for (i = 0; i < 4; i = i + 1) total = total + i;
  return 0;
}
