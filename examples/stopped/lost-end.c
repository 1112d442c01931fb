/* Goes on behind the end of a text, since it looks for a blank and not for the end. */
static int first_blank(char *nullterm text) {
  int n;
  n = 0;
  while (*text != ' ') {
    text = text + 1;
    n = n + 1;
  }
  return n;
}

int init(void) {
  int n;
  n = first_blank("one word");
  printd(n);
  n = first_blank("word");
  printd(n);
  return 0;
}
