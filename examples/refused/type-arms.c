struct message {
  int kind;
  union {
    int number when (kind == 1);
    char *nullterm text when (kind == 1); /* each arm has a value of its own */
  } body;
};
