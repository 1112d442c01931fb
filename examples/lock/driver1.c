/* A driver that fails while it holds a lock: the lock is handed on to the task that waits for it. */
static int level;

/* Sets the level to a share of 100. */
int set_share(int of) {
  lock(3);
  level = 100 / of;
  unlock(3);
  return level;
}

int init(void) {
  return 0;
}
