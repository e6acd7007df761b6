/* A use after scope: each turn of the loop has a `square` of its own, and none is left after the loop. `mtcc mean` ends at the read: the
   step is `*last`. */
int main(void)
{
	int *last = 0;
	for (int i = 0; i < 3; i++) {
		int square = i * i;
		last = &square;
	}
	return *last;
}
