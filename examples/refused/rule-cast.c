int *place;

/* No number becomes a pointer. */
int init(void) {
  place = (int *)753664;
  return 0;
}
