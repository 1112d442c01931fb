struct ring {
  int size;
};

typedef struct ring ring;
