int putchar(int c);
int main(void) {
    int number;
    int divisor;
    int rest;
    int prime;
    int tens;
    number = 2;
    while (number < 100) {
        prime = 1;
        divisor = 2;
        while (divisor * divisor < number + 1) {
            rest = number;
            while (divisor - 1 < rest) rest = rest - divisor;
            while (rest < 1) {
                prime = 0;
                rest = 1;
            }
            divisor = divisor + 1;
        }
        while (0 < prime) {
            tens = 0;
            while (tens * 10 + 9 < number) tens = tens + 1;
            putchar(48 + tens);
            putchar(48 + number - tens * 10);
            putchar(32);
            prime = 0;
        }
        number = number + 1;
    }
    putchar(10);
    return 0;
}
