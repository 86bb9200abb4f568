/* Runs a program, and prints its wall time in microseconds and its peak resident set in KiB to standard error:
 * resident PROGRAM [WORD..]
 *
 * The operating system keeps the peak resident set over exec, so a program that a large one starts seems to be as large. This
 * one is small.
 */
#include <stdio.h>
#include <sys/resource.h>
#include <sys/wait.h>
#include <time.h>
#include <unistd.h>

int main(int count, char **words) {
    if (count < 2)
        return 2;
    struct timespec start, end;
    clock_gettime(CLOCK_MONOTONIC, &start);
    pid_t child = fork();
    if (child < 0)
        return 2;
    if (child == 0) {
        execv(words[1], words + 1);
        _exit(2);
    }
    int status;
    struct rusage usage;
    if (wait4(child, &status, 0, &usage) < 0)
        return 2;
    clock_gettime(CLOCK_MONOTONIC, &end);
    long wall = (end.tv_sec - start.tv_sec) * 1000000L + (end.tv_nsec - start.tv_nsec) / 1000;
    fprintf(stderr, "%ld %ld\n", wall, usage.ru_maxrss);
    return WIFEXITED(status) ? WEXITSTATUS(status) : 2;
}
