/* peak_memory PROGRAM WORD..: runs a program on empty streams, and prints its exit status and the most memory that it had, in KiB.
   A process that is made by a large one counts the memory of that one, so this small one makes it. */
#include <fcntl.h>
#include <stdio.h>
#include <sys/resource.h>
#include <sys/wait.h>
#include <unistd.h>

int main(int count, char **words) {
    if (count < 2) return 2;
    pid_t child = fork();
    if (child == 0) {
        int null = open("/dev/null", O_RDWR);
        for (int stream = 0; stream < 3; stream++) dup2(null, stream);
        execv(words[1], words + 1);
        _exit(127);
    }
    int status = 0;
    struct rusage used;
    if (child < 0 || wait4(child, &status, 0, &used) != child) return 1;
    printf("%d %ld\n", WIFEXITED(status) ? WEXITSTATUS(status) : -1, used.ru_maxrss);
    return 0;
}
