/*
 * measure INPUT OUTPUT PROGRAM
 *
 * Runs PROGRAM once with standard input from INPUT and standard output to
 * OUTPUT, and prints its wall-clock seconds and its peak resident memory in
 * kilobytes. A process inherits the peak of the one that started it up to the
 * moment it is replaced, so the starter has to be this small program and not
 * a large interpreter.
 */
#define _DEFAULT_SOURCE
#include <fcntl.h>
#include <stdio.h>
#include <stdlib.h>
#include <sys/resource.h>
#include <sys/types.h>
#include <sys/wait.h>
#include <time.h>
#include <unistd.h>

static double now(void)
{
    struct timespec t;

    clock_gettime(CLOCK_MONOTONIC, &t);
    return (double)t.tv_sec + 1e-9 * (double)t.tv_nsec;
}

int main(int argc, char **argv)
{
    struct rusage used;
    int status;

    if (argc != 4) {
        fprintf(stderr, "usage: measure INPUT OUTPUT PROGRAM\n");
        return 2;
    }
    int in = open(argv[1], O_RDONLY);
    int out = open(argv[2], O_WRONLY | O_CREAT | O_TRUNC, 0644);
    if (in < 0 || out < 0) {
        perror("measure");
        return 2;
    }
    double start = now();
    pid_t child = fork();
    if (child == 0) {
        dup2(in, STDIN_FILENO);
        dup2(out, STDOUT_FILENO);
        execl(argv[3], argv[3], (char *)NULL);
        perror(argv[3]);
        _exit(127);
    }
    if (child < 0 || wait4(child, &status, 0, &used) != child) {
        perror("measure");
        return 2;
    }
    double seconds = now() - start;
    if (!WIFEXITED(status) || WEXITSTATUS(status) == 127)
        return 1;
    printf("%.6f %ld\n", seconds, used.ru_maxrss);
    return 0;
}
