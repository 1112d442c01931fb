struct names {
  int number;
  int *nullterm of_each; /* a text that a 0 ends is made of `char` */
};
