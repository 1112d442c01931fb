/* Returns by the way of an error and still holds the lock. */
static int level;

static int raise(int by) {
  lock(2);
  if (by < 0) return -22;
  level = level + by;
  unlock(2);
  return 0;
}

int init(void) {
  int error;
  error = raise(1);
  if (error == 0) error = raise(-1);
  return error;
}
