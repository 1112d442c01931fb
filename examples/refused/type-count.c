/* A `count` of a field names fields of the same struct. */
struct ring {
  char *count(size) bytes;
};
