/* A program to debug: some points, their sum, and a loop that waits until it is told to go on. */
#include <stdio.h>
#include <string.h>
#include <unistd.h>

struct point {
    int x, y;
};

struct shape {
    const char *name;
    struct point corners[3];
    struct point *first;
};

static int sum_of(const struct shape *shape, int count) {
    int sum = 0;
    for (int i = 0; i < count; i++) {
        sum += shape->corners[i].x;
    }
    return sum;
}

int main(int argc, char **argv) {
    struct shape shape = {"triangle", {{1, 2}, {3, 4}, {5, 6}}, NULL};
    volatile int waits = argc > 1 && strcmp(argv[1], "wait") == 0;
    shape.first = &shape.corners[1];
    printf("begin %s\n", shape.name);
    int sum = sum_of(&shape, 3);
    printf("sum %d\n", sum);
    while (waits) {
        usleep(1000);
    }
    fprintf(stderr, "end\n");
    return 3;
}
