/* Follows the pointer of a list that has come to its end. */
struct entry {
  int key;
  struct entry *next;
};

static struct entry *first;

static int find(int key) {
  struct entry *at;
  at = first;
  while (at->key != key) at = at->next;
  return at->key;
}

int init(void) {
  struct entry *entry;
  int key;
  entry = kalloc(struct entry, 1);
  if (entry == 0) return -12;
  entry->key = 3;
  first = entry;
  key = find(3);
  printd(key);
  key = find(4);
  printd(key);
  return 0;
}
