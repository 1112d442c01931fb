/* Reads the number of a message that holds a pointer, and so tells an address to whoever asks. */
struct message {
  int kind;
  union {
    int number when (kind == 1);
    int *counter when (kind == 2);
  } body;
};

static struct message last;
static int counters[4];

static int number_of(struct message *m) {
  return m->body.number;
}

int init(void) {
  int number;
  last.kind = 2;
  last.body.counter = &counters[1];
  number = number_of(&last);
  printd(number != 0);
  return 0;
}
