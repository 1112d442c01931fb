/* Words of a text. It shows `nullterm`: a text is read byte by byte up to its 0, and no step passes it. A timer prints one word after the other. */
char *nullterm rest;

/* How many bytes stand before the next blank or the end. */
int word_length(char *nullterm text) {
  int n;
  n = 0;
  while (*text != 0 && *text != ' ') {
    text = text + 1;
    n = n + 1;
  }
  return n;
}

/* Steps over one byte, where there is one. */
void step(void) {
  if (*rest != 0) rest = rest + 1;
}

/* The handler of the timer: prints the length of the next word and goes to the one behind it. */
void next_word(int timer) {
  int n;
  int i;
  n = word_length(rest);
  printd(n);
  i = 0;
  while (i <= n) {
    step();
    i = i + 1;
  }
  if (*rest != 0) set_timer(timer, 10, next_word, timer);
}

int init(void) {
  int set;
  rest = "one after the other";
  set = set_timer(1, 10, next_word, 1);
  return set;
}
