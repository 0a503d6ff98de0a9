/* The sum of so many numbers. */
long sum(const long *numbers, int count);
