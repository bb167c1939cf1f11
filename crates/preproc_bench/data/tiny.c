#define ZERO 0
#define DONE return ZERO;
int main(void) {
#ifdef DONE
    DONE
#endif
}
