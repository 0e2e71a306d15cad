/* The other file of one.c. */
int twice(int n);

int twice(int n) { return 2 * n; }
