int putchar(int c);
int main(void) {
    while (1)
        putchar(46);
}
