/* A driver that fails while it holds all interrupts off: a line of another driver waits meanwhile, and is served then. */
static int values[4];

/* Changes a value that a handler might read. */
int change(int place, int value) {
  mask();
  values[place] = value;
  unmask();
  return 0;
}

int init(void) {
  return 0;
}
