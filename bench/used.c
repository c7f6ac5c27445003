// used REPEATS PROGRAM ARG..: runs a program that often, and prints the least processor time in seconds and the peak of its memory in KiB.
#include <stdio.h>
#include <stdlib.h>
#include <sys/resource.h>
#include <sys/wait.h>
#include <unistd.h>

static double seconds(struct timeval t)
{
    return (double)t.tv_sec + (double)t.tv_usec / 1e6;
}

static struct rusage run(char **program)
{
    struct rusage used;
    int status;
    pid_t child = fork();
    if (child == 0) {
        execvp(program[0], program);
        _exit(127);
    }
    if (child < 0 || wait4(child, &status, 0, &used) != child || status != 0) {
        fprintf(stderr, "used: %s failed\n", program[0]);
        exit(1);
    }
    return used;
}

int main(int argc, char **argv)
{
    double least = 0;
    long peak = 0;
    int repeats = argc > 2 ? atoi(argv[1]) : 0;
    for (int i = 0; i < repeats; i++) {
        struct rusage used = run(argv + 2);
        double time = seconds(used.ru_utime) + seconds(used.ru_stime);
        if (i == 0 || time < least)
            least = time;
        if (used.ru_maxrss > peak)
            peak = used.ru_maxrss;
    }
    printf("%.3f %ld\n", least, peak);
    return repeats < 1;
}
