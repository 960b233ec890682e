/* Runs a command and prints the most memory it had, in KiB, and its time from start to end, in ns, as the
 * last line on standard error: `peak KIB time NS`. The exit status is the command's.
 *
 * A small program of its own does this, since a process counts the memory of the one that started it
 * until it runs its own program: started by Python, each would have Python's. */
#define _DEFAULT_SOURCE

#include <inttypes.h>
#include <stdio.h>
#include <sys/resource.h>
#include <sys/wait.h>
#include <time.h>
#include <unistd.h>

static int64_t now(void)
{
    struct timespec time;
    clock_gettime(CLOCK_MONOTONIC, &time);
    return (int64_t)time.tv_sec * 1000000000 + time.tv_nsec;
}

int main(int argc, char **argv)
{
    if (argc < 2) {
        fprintf(stderr, "usage: peak COMMAND ARGUMENT..\n");
        return 2;
    }
    int64_t start = now();
    pid_t child = fork();
    if (child == 0) {
        execv(argv[1], argv + 1);
        _exit(127);
    }
    int status;
    struct rusage usage;
    if (child < 0 || wait4(child, &status, 0, &usage) < 0) {
        perror("peak");
        return 2;
    }
    int64_t time = now() - start;
    fprintf(stderr, "peak %ld time %" PRId64 "\n", usage.ru_maxrss, time);
    return WIFEXITED(status) ? WEXITSTATUS(status) : 128;
}
