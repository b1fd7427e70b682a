/* peak PROGRAM ARGUMENTS: runs a program and then says on standard error how many kilobytes of memory it held at most
 * (ru_maxrss). What a process held before it became the program counts too, so what starts it must be small. */
#include <stdio.h>
#include <sys/resource.h>
#include <sys/wait.h>
#include <unistd.h>

int main(int argc, char **argv)
{
    struct rusage used;
    int status;
    pid_t child = argc > 1 ? fork() : -1;
    if (child == 0) {
        execv(argv[1], argv + 1);
        _exit(127);
    }
    if (child < 0 || wait4(child, &status, 0, &used) != child || status != 0)
        return 1;
    fprintf(stderr, "%ld\n", used.ru_maxrss);
    return 0;
}
