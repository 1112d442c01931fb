/* A handler has one parameter `int` and no result. */
int tick(int n) {
  return n;
}

int init(void) {
  int error;
  error = set_timer(1, 10, tick, 0);
  return error;
}
