#define TWO 1 2
int x = TWO;
