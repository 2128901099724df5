#include <stdio.h>

unsigned long long wide_digest(unsigned long long pairs);

int main(void) {
    printf("%llu\n", wide_digest(1000000));
    return 0;
}
