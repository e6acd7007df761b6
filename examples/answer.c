/* Its status is the answer. */
int main(void)
{
	return 0x2A; // 42
}
