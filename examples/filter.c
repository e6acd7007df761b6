/* A filter: its input with a capital at the start of each word. The status is the number of words. */
#include <stdio.h>

static int is_small(int c)
{
	return c >= 'a' && c <= 'z';
}

int main(void)
{
	int c, inside = 0, words = 0;
	while ((c = getchar()) != EOF) {
		if (is_small(c) && !inside) c += 'A' - 'a';
		if (c == ' ' || c == '\n') {
			inside = 0;
		} else {
			words += !inside;
			inside = 1;
		}
		putchar(c);
	}
	return words;
}
