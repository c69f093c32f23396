/* steps PROGRAM [ARGS]: runs a program of this machine one instruction at a time and says on standard error how many it took.
   For an x86-64 machine that has no emulator. */
#define _DEFAULT_SOURCE
#include <stdio.h>
#include <sys/ptrace.h>
#include <sys/wait.h>
#include <unistd.h>

int main(int argc, char **argv)
{
    int status;
    unsigned long long count = 0;
    if (argc < 2) return 2;
    pid_t child = fork();
    if (child == 0) {
        ptrace(PTRACE_TRACEME, 0, NULL, NULL);
        execv(argv[1], argv + 1);
        _exit(127);
    }
    if (child < 0 || waitpid(child, &status, 0) < 0) return 2;
    while (WIFSTOPPED(status)) {
        int signal = WSTOPSIG(status) == 5 ? 0 : WSTOPSIG(status);
        if (ptrace(PTRACE_SINGLESTEP, child, NULL, (void *)(long)signal) < 0) return 2;
        count++;
        if (waitpid(child, &status, 0) < 0) return 2;
    }
    fprintf(stderr, "instructions: %llu\n", count);
    return WIFEXITED(status) ? WEXITSTATUS(status) : 2;
}
