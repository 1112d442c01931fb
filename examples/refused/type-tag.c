struct message {
  union {
    int number when (kind == 1);
    char *nullterm text when (kind == 2);
  } body;
  int kind; /* the tag stands before its union */
};
