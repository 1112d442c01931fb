/* Messages of two kinds. It shows a union: which arm holds is told by the field `kind`, each use of an arm tests it, and the kind changes only over a union that is all 0. */
struct message {
  int kind;
  union {
    int number when (kind == 1);
    char *nullterm text when (kind == 2);
  } body;
};

struct message last;

/* Makes the last message a number. */
void keep_number(int number) {
  zero(last.body);
  last.kind = 1;
  last.body.number = number;
}

/* Makes the last message a text. */
void keep_text(char *nullterm text) {
  zero(last.body);
  last.kind = 2;
  last.body.text = text;
}

/* Prints a message. */
void print(struct message *m) {
  if (m->kind == 1) printd(m->body.number);
  if (m->kind == 2) prints(m->body.text);
}

int init(void) {
  keep_number(7);
  print(&last);
  keep_text("ready");
  print(&last);
  return 0;
}
