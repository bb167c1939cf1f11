int putchar(int c);
int main(void){int i;while(i<11300000)i=i+1;putchar(65);putchar(66);putchar(67);return 42;}
