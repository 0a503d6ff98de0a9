#include "sum.h"

long sum(const long *numbers, int count) {
    long total = 0;
    for (int place = 0; place < count; place++) total += numbers[place];
    return total;
}
