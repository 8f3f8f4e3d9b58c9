// A C++ program to debug: references, values that are known by two names, a long array, output without end.
#include <cstdio>
#include <cstring>
#include <vector>

struct Point {
    int x, y;
};

struct Named : Point {
    const char *name;
    Point &other;
};

static int change(Point &point, int &count, const Point &constant) {
    point.x += count;
    return point.x + constant.y;
}

int main(int argc, char **argv) {
    Point point = {1, 2};
    Named named = {{3, 4}, "named", point};
    int many[5000], count = 10;
    for (int i = 0; i < 5000; i++) {
        many[i] = i;
    }
    std::vector<int> list(many, many + 2500);
    // No code is in this line,
    // and none in this one.
    int sum = change(point, count, named);
    if (argc > 1 && strcmp(argv[1], "flood") == 0) {
        for (int i = 0; i < 200000; i++) {
            printf("line %d of the flood\n", i);
        }
    }
    printf("sum %d\n", sum + int(list.size()));
    return 0;
}

// Nothing comes after the end.
