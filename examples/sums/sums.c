// A list of the numbers 1 to 10. For each count in the input it prints the sum of that many numbers, from the first on. It does
// not look whether the list is so long: docs/DEBUGGING.md shows what becomes of that.
#include <stdio.h>
#include <stdlib.h>

struct node {
    long number;
    struct node *next;
};

static struct node *pushed(struct node *list, long number) {
    struct node *made = malloc(sizeof *made);
    made->number = number;
    made->next = list;
    return made;
}

__attribute__((noinline)) static long sum_of(const struct node *list, long count) {
    long sum = 0;
    for (long i = 0; i < count; i++) {
        sum += list->number;
        list = list->next;
    }
    return sum;
}

int main(void) {
    struct node *list = NULL;
    for (long number = 10; number > 0; number--) {
        list = pushed(list, number);
    }
    long count;
    while (scanf("%ld", &count) == 1) {
        printf("%ld\n", sum_of(list, count));
    }
}
