/* A program that loads a library as it runs, and the library itself, where LIBRARY is defined. */
#ifdef LIBRARY
int twice(int number) {
    int result = number + number;
    return result;
}
#else
#include <dlfcn.h>
#include <signal.h>
#include <stdio.h>
#include <stdlib.h>
#include <unistd.h>

int main(int argc, char **argv) {
    int (*twice)(int) = (int (*)(int)) dlsym(dlopen(argv[1], RTLD_NOW), "twice");
    const char *word = getenv("WORD");
    printf("%s %d\n", word ? word : "none", twice(21));
    signal(SIGUSR1, SIG_IGN);
    raise(SIGUSR1);
    return 0;
}
#endif
