int putchar(int c);
int main(void) {
    int digit;
    digit = 9;
    while (0 - 1 < digit) {
        putchar(48 + digit);
        digit = digit - 1;
    }
    putchar(10);
    return 0;
}
