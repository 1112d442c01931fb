/* Copies a name that is longer than the field that it goes into: the ninth byte would be written into `level`. */
struct card {
  char name[8];
  int level;
};

static struct card card;

static void copy(char *count(n) to, char *count(n) from, int n) {
  int i;
  i = 0;
  while (i < n) {
    to[i] = from[i];
    i = i + 1;
  }
}

int init(void) {
  char *from;
  from = kalloc(char, 12);
  if (from == 0) return -12;
  from[11] = 9;
  card.level = 1;
  copy(card.name, from, 12);
  printd(card.level);
  return 0;
}
