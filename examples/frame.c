/* `plan` tells where its locals stand, and which have a tag. */
int main(void)
{
	char a[16];
	int i;
	i = 0;
	a[i] = 1;
	return 0;
}
