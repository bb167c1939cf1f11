// Integers of several types: a generator of numbers, its bits counted, and products modulo a prime.
int putchar(int c);

void put(unsigned long n) {
    if (n >= 10)
        put(n / 10);
    putchar('0' + (int)(n % 10));
}

unsigned long next(unsigned long x) {
    x ^= x << 13;
    x ^= x >> 7;
    x ^= x << 17;
    return x;
}

int bits(unsigned long x) {
    int n = 0;
    while (x != 0) {
        x &= x - 1;
        n++;
    }
    return n;
}

int main(void) {
    unsigned long x = 88172645463325252UL, product = 1;
    int sum = 0;
    for (int i = 0; i < 10000; i++) {
        x = next(x);
        sum += bits(x);
        product = product * (x % 1000003 + 1) % 1000003;
    }
    put((unsigned long)sum);
    putchar('\n');
    put(product);
    putchar('\n');
    return 0;
}
