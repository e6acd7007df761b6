/* A list in order of its counts, over structs in an array of the file. It puts the list and the negative sum; the status is the sum
   modulo 100. */
#include <stdio.h>
struct item { char name[8]; int count; struct item *next; };
static struct item pool[4];
static int used;
static void put_text(char *s) { while (*s) { putchar(*s); s++; } }
static void put_number(int n) {
  char digits[12]; int i = 0;
  if (n < 0) { putchar('-'); n = -n; }
  do { digits[i] = '0' + n % 10; i++; n = n / 10; } while (n);
  while (i > 0) { i--; putchar(digits[i]); }
}
static struct item *add(struct item *head, char *name, int count) {
  struct item *n = &pool[used];
  struct item **at = &head;
  int i = 0;
  used++;
  while (name[i]) { n->name[i] = name[i]; i++; }
  n->name[i] = 0;
  n->count = count;
  while (*at && (*at)->count < count) at = &(*at)->next;
  n->next = *at;
  *at = n;
  return head;
}
int main(void) {
  struct item *head = 0, *p;
  int sum = 0;
  head = add(head, "pear", 30);
  head = add(head, "fig", 7);
  head = add(head, "plum", 112);
  for (p = head; p; p = p->next) {
    put_text(p->name); putchar(' '); put_number(p->count); putchar('\n');
    sum += p->count;
  }
  put_number(-sum); putchar('\n');
  return sum % 100;
}
