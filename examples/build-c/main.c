/* Prints the sum of its words. */
#include <stdio.h>
#include <stdlib.h>
#include "sum.h"

int main(int count, char *words[]) {
    long numbers[64];
    if (count > 65) return 20;
    for (int place = 1; place < count; place++) numbers[place - 1] = atol(words[place]);
    printf("%ld\n", sum(numbers, count - 1));
    return 0;
}
