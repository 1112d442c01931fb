/* Changes what a union is taken for while it holds a number: the number would be followed as a pointer. */
struct message {
  int kind;
  union {
    int number when (kind == 1);
    int *counter when (kind == 2);
  } body;
};

static struct message last;

int init(void) {
  last.kind = 1;
  last.body.number = 753664;
  last.kind = 2;
  if (last.body.counter != 0) printd(1);
  return 0;
}
