// measure SECONDS RESULT COMMAND..: runs the command, for so many seconds at most, and writes into the file RESULT its
// processor seconds, its peak memory in KiB and its wait status. Its own few pages are all that the command's peak begins with;
// started by a large process, a command would be told that one's.
#define _GNU_SOURCE
#include <signal.h>
#include <stdio.h>
#include <stdlib.h>
#include <sys/resource.h>
#include <sys/wait.h>
#include <unistd.h>

static pid_t child;

static void end(int signal) {
    (void)signal;
    kill(child, SIGKILL);
}

int main(int words, char **word) {
    if (words < 4) return 2;
    signal(SIGALRM, end);
    child = fork();
    if (child == 0) {
        execvp(word[3], word + 3);
        _exit(127);
    }
    alarm((unsigned)atoi(word[1]));
    int status;
    struct rusage used;
    while (wait4(child, &status, 0, &used) < 0) {}
    FILE *result = fopen(word[2], "w");
    if (!result) return 2;
    fprintf(result, "%.6f %ld %d\n",
            (double)(used.ru_utime.tv_sec + used.ru_stime.tv_sec) + (double)(used.ru_utime.tv_usec + used.ru_stime.tv_usec) * 1e-6,
            used.ru_maxrss, status);
    return fclose(result) != 0;
}
