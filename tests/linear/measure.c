/* measure OUT PROGRAM ARGUMENTS..: runs PROGRAM and writes to OUT its status, its processor time in microseconds
   and its peak memory in kilobytes. A child of a large process, as Python is, has that one's peak until it is
   larger itself; a child of this small one has its own. */
#include <stdio.h>
#include <stdlib.h>
#include <sys/resource.h>
#include <sys/wait.h>
#include <unistd.h>

static long micros(struct timeval time) { return time.tv_sec * 1000000L + time.tv_usec; }

int main(int count, char **args) {
    struct rlimit seconds = {120, 121};
    struct rusage used;
    int status;
    if (count < 3) return 2;
    pid_t child = fork();
    if (child < 0) return 3;
    if (child == 0) {
        setrlimit(RLIMIT_CPU, &seconds);
        execv(args[2], args + 2);
        _exit(127);
    }
    if (wait4(child, &status, 0, &used) < 0) return 3;
    FILE *out = fopen(args[1], "w");
    if (!out) return 3;
    fprintf(out, "%d %ld %ld\n", WIFEXITED(status) ? WEXITSTATUS(status) : -WTERMSIG(status),
            micros(used.ru_utime) + micros(used.ru_stime), used.ru_maxrss);
    return fclose(out) ? 3 : 0;
}
