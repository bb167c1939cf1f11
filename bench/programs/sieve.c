// A sieve over a static array of characters, and how many numbers are left.
int putchar(int c);

char crossed[20001];

void put(int n) {
    if (n >= 10)
        put(n / 10);
    putchar('0' + n % 10);
}

int main(void) {
    int left = 0;
    for (int i = 2; i <= 20000; i++) {
        if (crossed[i])
            continue;
        left++;
        for (int j = i + i; j <= 20000; j += i)
            crossed[j] = 1;
    }
    put(left);
    putchar('\n');
    return 0;
}
