/* Sets a cursor whose low end was never set. Counted from null, three elements are an address that happens to lie in the table, but in the
   middle of an element. */
struct triple {
  int x;
  int y;
  int z;
};

struct cursor {
  struct triple *sentinel low;
  int before;
  int behind;
  struct triple *bound(low + before, low + behind) at;
};

static struct triple table[8];
static struct cursor cursor;

int init(void) {
  cursor.before = 3;
  cursor.behind = 7;
  cursor.at = table + 2;
  printd(cursor.at->x);
  return 0;
}
