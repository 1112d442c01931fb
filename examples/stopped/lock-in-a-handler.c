/* Takes a lock in a handler, which cannot wait. */
static int level;

void tick(int by) {
  lock(2);
  level = level + by;
  unlock(2);
}

int init(void) {
  int error;
  error = set_timer(1, 5, tick, 1);
  return error;
}
