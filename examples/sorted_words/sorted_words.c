// Reads words from the input, one a line, keeps them on the heap and prints them sorted, each with how often it
// came. The exit code is 1 where the heap or the console is too small. Built against picolibc.
#include <stdio.h>
#include <stdlib.h>
#include <string.h>

struct word {
    struct word *next;
    unsigned times;
    char text[];
};

static struct word *words;

static struct word *find(const char *text) {
    for (struct word *word = words; word != NULL; word = word->next) {
        if (strcmp(word->text, text) == 0) {
            return word;
        }
    }
    return NULL;
}

static int by_text(const void *a, const void *b) {
    const struct word *const *x = a;
    const struct word *const *y = b;
    return strcmp((*x)->text, (*y)->text);
}

int main(void) {
    char line[100];
    size_t count = 0;
    while (fgets(line, sizeof line, stdin) != NULL) {
        line[strcspn(line, "\n")] = 0;
        struct word *word = find(line);
        if (word == NULL) {
            word = malloc(sizeof *word + strlen(line) + 1);
            if (word == NULL) {
                return 1;
            }
            strcpy(word->text, line);
            word->times = 0;
            word->next = words;
            words = word;
            count++;
        }
        word->times++;
    }
    struct word **sorted = malloc(count * sizeof *sorted);
    if (sorted == NULL && count > 0) {
        return 1;
    }
    size_t i = 0;
    for (struct word *word = words; word != NULL; word = word->next) {
        sorted[i++] = word;
    }
    qsort(sorted, count, sizeof *sorted, by_text);
    for (i = 0; i < count; i++) {
        printf("%4u %s\n", sorted[i]->times, sorted[i]->text);
    }
    printf("%lu words\n", (unsigned long)count);
    return fflush(stdout) == 0 && !ferror(stdout) ? 0 : 1;
}
