struct message {
  int kind;
  union {
    int number when (kind == 1);
    char *nullterm text when (kind == 2);
  } body;
};

struct message last;

void set(int *to, int value) {
  *to = value;
}

int init(void) {
  set(&last.kind, 2); /* a tag has no address: it could be changed unseen */
  return 0;
}
