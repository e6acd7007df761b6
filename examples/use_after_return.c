/* A use after return: `n` lives until the call of `first` ends, and the pointer to it is kept. `mtcc mean` ends at the read: the step is
   `*p`. */
static int *first(void)
{
	int n = 1;
	return &n;
}

int main(void)
{
	int *p = first();
	return *p;
}
