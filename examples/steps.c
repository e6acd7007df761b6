/* Loops over integers with functions and an object of the file: how often each number from 1 to 10 is halved, or tripled with one more,
   until it is 1. The status is the greatest of these. */
#include <stdio.h>

static unsigned most;

static unsigned steps(unsigned long n)
{
	unsigned k = 0;
	for (; n != 1; k++) n = n % 2 ? 3 * n + 1 : n / 2;
	if (k > most) most = k;
	return k;
}

static void put_number(unsigned n)
{
	if (n > 9) put_number(n / 10);
	putchar('0' + n % 10);
}

int main(void)
{
	for (unsigned long n = 1; n <= 10; n++) {
		put_number(steps(n));
		putchar(n < 10 ? ' ' : '\n');
	}
	return most;
}
