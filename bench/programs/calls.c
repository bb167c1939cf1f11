// Calls by name and through pointers: a recursion with two calls, and a table of functions.
int putchar(int c);

void put(int n) {
    if (n >= 10)
        put(n / 10);
    putchar('0' + n % 10);
}

int fibonacci(int n) {
    if (n < 2)
        return n;
    return fibonacci(n - 1) + fibonacci(n - 2);
}

int add(int a, int b) { return a + b; }

int subtract(int a, int b) { return a - b; }

int greatest(int a, int b) { return a > b ? a : b; }

int (*const table[3])(int, int) = {add, subtract, greatest};

int main(void) {
    int x = 0;
    for (int i = 0; i < 30000; i++)
        x = table[i % 3](x, i & 255);
    put(fibonacci(20));
    putchar('\n');
    put(x);
    putchar('\n');
    return 0;
}
