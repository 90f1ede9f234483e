int f(void) { return 3; }
int g(void) { return 6 / 4 * 2; }
