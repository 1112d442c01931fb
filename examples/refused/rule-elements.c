/* A pointer to `char` is no pointer to `int`, and there is no cast between them. */
int first_word(char *count(n) bytes, int n) {
  int *count(1) word;
  word = bytes;
  return *word;
}
