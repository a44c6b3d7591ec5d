/* Runs a command several times and prints its least processor time in nanoseconds, the peak of its resident memory in
 * bytes, and its exit status (128 and the number of the signal that ended it): measure TIMES INPUT COMMAND WORD..
 * It is small itself, so that what a command inherits before its start does not count. Output is thrown away. */
#define _GNU_SOURCE
#include <limits.h>
#include <stdio.h>
#include <stdlib.h>
#include <sys/resource.h>
#include <sys/wait.h>
#include <unistd.h>

static long long nanoseconds(struct timeval time) { return time.tv_sec * 1000000000LL + time.tv_usec * 1000LL; }

int main(int count, char **words) {
    long long least = LLONG_MAX, peak = 0;
    int status = 0;
    for (int left = atoi(words[1]); left > 0; left--) {
        struct rusage used;
        pid_t child = fork();
        if (child == 0) {
            if (freopen(words[2], "r", stdin) && freopen("/dev/null", "w", stdout) && dup2(1, 2) == 2)
                execv(words[3], words + 3);
            _exit(127);
        }
        if (child < 0 || wait4(child, &status, 0, &used) < 0) {
            perror("measure");
            return 2;
        }
        long long took = nanoseconds(used.ru_utime) + nanoseconds(used.ru_stime), memory = used.ru_maxrss * 1024LL;
        least = took < least ? took : least;
        peak = memory > peak ? memory : peak;
    }
    printf("%lld %lld %d\n", least, peak, WIFEXITED(status) ? WEXITSTATUS(status) : 128 + WTERMSIG(status));
    return 0;
}
