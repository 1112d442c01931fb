/* A driver that is refused: it takes the address of a field that a `count` names. Through `length` the count could be raised over a short buffer with no check. */
struct packet {
  int length;
  char *count(length) bytes;
};

struct packet last;

int grow(void) {
  int *length;
  length = &last.length;
  *length = 1500;
  return 0;
}
