/* launch REPORT PROGRAM [ARGUMENT..]: runs a program and writes to REPORT its user time in seconds and its largest
 * resident set in KiB.  It is small itself, since a process's set counts what its parent held when it was started.
 * cc -O2 -o launch launch.c */
#include <stdio.h>
#include <sys/resource.h>
#include <sys/wait.h>
#include <unistd.h>

int main(int count, char **words) {
    if (count < 3) return 2;
    pid_t child = fork();
    if (child == 0) { execvp(words[2], words + 2); _exit(127); }
    int status;
    struct rusage used;
    if (child < 0 || wait4(child, &status, 0, &used) < 0) return 2;
    FILE *report = fopen(words[1], "w");
    if (!report) return 2;
    fprintf(report, "%ld.%06ld %ld\n", (long)used.ru_utime.tv_sec, (long)used.ru_utime.tv_usec, used.ru_maxrss);
    fclose(report);
    return WIFEXITED(status) ? WEXITSTATUS(status) : 128;
}
