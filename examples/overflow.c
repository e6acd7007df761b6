/* An overflow into the next variable. `name` has room for eight bytes, and "anonymous" takes ten. `copy` does not ask, so without tags
   the ninth byte lands in what stands behind `name`, which may be `rights`. `mtcc mean` ends at that write: the step is `to[i]`. */
#include <stdio.h>

static void copy(char *to, char *from)
{
	int i = 0;
	while (from[i]) {
		to[i] = from[i];
		i++;
	}
	to[i] = 0;
}

static void put_line(char *text)
{
	while (*text) {
		putchar(*text);
		text++;
	}
	putchar('\n');
}

int main(void)
{
	char name[8];
	char rights[8];
	copy(rights, "guest");
	put_line(rights);
	copy(name, "anonymous");
	put_line(rights);
	return 0;
}
