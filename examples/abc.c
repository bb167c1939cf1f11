int putchar(int c);
int main(void) {
    int i;
    i = 0;
    while (i < 3) {
        putchar(65 + i);
        i = i + 1;
    }
    return i;
}
