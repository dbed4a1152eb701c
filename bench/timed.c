/* timed RUNS PROGRAM INPUT OUTPUT: the least processor time of some runs, in microseconds, and the most memory of any, in KiB. */
#define _DEFAULT_SOURCE
#include <fcntl.h>
#include <stdio.h>
#include <stdlib.h>
#include <sys/resource.h>
#include <sys/time.h>
#include <sys/wait.h>
#include <unistd.h>

int main(int argc, char **argv)
{
    long least = -1, most = 0;

    if (argc != 5)
        return 2;
    for (int i = 0; i < atoi(argv[1]); i++) {
        struct rusage usage;
        int status;
        pid_t child = fork();

        if (child == 0) {
            int in = open(argv[3], O_RDONLY), out = open(argv[4], O_WRONLY | O_CREAT | O_TRUNC, 0666);
            if (in < 0 || out < 0 || dup2(in, 0) < 0 || dup2(out, 1) < 0)
                _exit(127);
            execl(argv[2], argv[2], (char *)NULL);
            _exit(127);
        }
        if (child < 0 || wait4(child, &status, 0, &usage) != child || !WIFEXITED(status) || WEXITSTATUS(status) != 0)
            return 1;
        long time = (usage.ru_utime.tv_sec + usage.ru_stime.tv_sec) * 1000000L + usage.ru_utime.tv_usec + usage.ru_stime.tv_usec;
        if (least < 0 || time < least)
            least = time;
        if (usage.ru_maxrss > most)
            most = usage.ru_maxrss;
    }
    printf("%ld %ld\n", least, most);
    return 0;
}
