// Quicksort by pointers, of numbers that a generator gives.
int putchar(int c);

unsigned numbers[4000];

void put(unsigned n) {
    if (n >= 10)
        put(n / 10);
    putchar('0' + (int)(n % 10));
}

void sort(unsigned *first, unsigned *last) {
    while (first < last) {
        unsigned *low = first, *high = last;
        unsigned middle = first[(last - first) / 2];
        while (low <= high) {
            while (*low < middle)
                low++;
            while (middle < *high)
                high--;
            if (low <= high) {
                unsigned t = *low;
                *low++ = *high;
                *high-- = t;
            }
        }
        sort(first, high);
        first = low;
    }
}

int main(void) {
    unsigned x = 1;
    for (int i = 0; i < 4000; i++) {
        x = x * 1664525u + 1013904223u;
        numbers[i] = x >> 8;
    }
    sort(numbers, numbers + 3999);
    unsigned sum = 0;
    for (int i = 1; i < 4000; i++) {
        if (numbers[i] < numbers[i - 1])
            return 1;
        sum = sum * 7 + numbers[i];
    }
    put(sum);
    putchar('\n');
    return 0;
}
