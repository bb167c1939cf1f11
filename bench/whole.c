/* A file with every kind of declaration, statement and expression, for bench/mutants. */
#define LIMIT 3
#if LIMIT > 2 && !defined OTHER
typedef unsigned char Byte;
#else
typedef int Byte;
#endif
enum Colour { RED, GREEN = 5, BLUE };
struct Node { Byte value; struct Node *next; };
union Either { int whole; char *text; };
_Static_assert(sizeof(Byte) == 1, "a byte");
int putchar(int c);
static const int table[2][2] = { { 1, 2 }, { 3, 4, }, };
struct Node first = { 1, 0 }, *last = &first;
int (*handlers[2])(int, char);
extern volatile long counter;

int length(const struct Node *at)
{
    int count = 0;
    while (at) { count++; at = at->next; }
    do count += 1; while (count < 0);
    for (int i = 0, j; i < LIMIT; i++) continue;
    for (;;) break;
    if (count > 2) if (count) ; else return -1;
    switch (count & 3) {
    case 0: case RED + 1: putchar('a'); break;
    default: { Byte Byte = 2; count = Byte * 2; }
    }
    return count ? (int)count : (count, 0);
}

int main(void)
{
    int x = 3, *p = &x, a[3] = { 1, 2, 3 };
    _Atomic(int) n;
    x = a[1] = *p << 2 | ~x ^ !x;
    x -= (sizeof x, sizeof(int *[2]));
    (void)length(last);
    { ; }
    char *text = "one" " two\n";
    n = text[0] == 'o' && first.value != 1 || x >= 2 && x % 2 == 1;
    return handlers[0] ? handlers[0](n, 'b') : -n;
}
