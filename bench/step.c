/* step FILE PROGRAM [ARGS]: runs the program one instruction at a time and puts the number of them into FILE. */
#include <errno.h>
#include <stdio.h>
#include <stdlib.h>
#include <sys/ptrace.h>
#include <sys/wait.h>
#include <unistd.h>

int main(int argc, char **argv)
{
    unsigned long long count = 0;
    int status, code;

    if (argc < 3)
        return 2;
    pid_t child = fork();
    if (child == 0) {
        ptrace(PTRACE_TRACEME, 0, NULL, NULL);
        execv(argv[2], argv + 2);
        _exit(127);
    }
    if (child < 0 || waitpid(child, &status, 0) < 0)
        return 2;
    while (WIFSTOPPED(status)) { /* the first stop is the exec itself */
        int signal = count == 0 || WSTOPSIG(status) == 5 ? 0 : WSTOPSIG(status);
        if (ptrace(PTRACE_SINGLESTEP, child, NULL, (void *)(long)signal) < 0 || waitpid(child, &status, 0) < 0)
            return 2;
        count++;
    }
    code = WIFEXITED(status) ? WEXITSTATUS(status) : 128 + WTERMSIG(status);
    FILE *f = fopen(argv[1], "w");
    if (!f || fprintf(f, "%llu\n", count) < 0 || fclose(f))
        return 2;
    return code;
}
