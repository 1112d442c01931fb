struct big {
  char head[16];
  char rest[65536]; /* a struct has at most 65,536 bytes */
};
