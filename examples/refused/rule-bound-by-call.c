int init(void) {
  int *low;
  int *high;
  int *bound(low, high) at;
  low = kalloc(int, 4); /* `at` names `low`: take the block by another local, and assign that */
  at = low;
  high = low + 4;
  return *at;
}
