/* Takes a lock that it holds, by a function that takes it too: without an end to it the task would wait for itself. */
static int level;

static void raise(void) {
  lock(2);
  level = level + 1;
  unlock(2);
}

int init(void) {
  lock(2);
  if (level == 0) raise();
  unlock(2);
  return 0;
}
