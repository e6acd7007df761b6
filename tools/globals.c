/* Globals of several sizes: one granule, some, eight and more of them, far from the one before, and without an initial. */
int small = 1;
char text[100] = "seven granules";
long table[16] = {1, 2, 3};
char aligned[64] __attribute__((aligned(512))) = {1};
static int counter[300];
const int untagged = 5;
int *end = &small + 1;
int *next(int i) { return &counter[i]; }
