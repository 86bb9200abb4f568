// A program for a C library.
#include <stdio.h>
#include <stdlib.h>

static int calls = 7;
static char text[5000];

int main(int argc, char **argv)
{
    calls++;
    int length = snprintf(text, sizeof text, "%d words, the first is %s", argc, argc > 0 ? argv[0] : "none");
    return calls == 8 && length > 0 ? EXIT_SUCCESS : EXIT_FAILURE;
}
