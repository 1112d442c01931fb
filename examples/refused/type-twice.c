int level;

int read_level(void) {
  return level;
}

char level; /* the name is taken */
