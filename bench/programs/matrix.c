// Products of matrices of int, in static arrays of arrays.
int putchar(int c);

int a[24][24], b[24][24], c[24][24];

void put(unsigned n) {
    if (n >= 10)
        put(n / 10);
    putchar('0' + (int)(n % 10));
}

void multiply(void) {
    for (int i = 0; i < 24; i++)
        for (int j = 0; j < 24; j++) {
            int sum = 0;
            for (int k = 0; k < 24; k++)
                sum += a[i][k] * b[k][j];
            c[i][j] = sum;
        }
}

int main(void) {
    for (int i = 0; i < 24; i++)
        for (int j = 0; j < 24; j++) {
            a[i][j] = i + j;
            b[i][j] = i - j;
        }
    for (int round = 0; round < 10; round++) {
        multiply();
        for (int i = 0; i < 24; i++)
            for (int j = 0; j < 24; j++)
                a[i][j] = c[i][j] % 1009 + 1;
    }
    unsigned sum = 0;
    for (int i = 0; i < 24; i++)
        for (int j = 0; j < 24; j++)
            sum = sum * 31 + (unsigned)c[i][j];
    put(sum);
    putchar('\n');
    return 0;
}
