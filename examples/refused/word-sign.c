/* `@` is no sign of C. */
int init(void) {
  return 1 @ 2;
}
