/* step.c: `step FILE PROGRAM WORDS...` runs the program on the processor itself, x86-64 Linux, from its first call of
 * sched_yield on one instruction at a time, and writes to FILE how many those were. Ends with the program's status. */
#include <stddef.h>
#include <stdio.h>
#include <stdlib.h>
#include <sys/personality.h>
#include <sys/ptrace.h>
#include <sys/syscall.h>
#include <sys/user.h>
#include <sys/wait.h>
#include <unistd.h>

static pid_t program;
static int status;

static void fail(const char *what) {
    perror(what);
    exit(125);
}

static void go_on(enum __ptrace_request how) {
    if (ptrace(how, program, NULL, NULL) < 0) fail("ptrace");
    if (waitpid(program, &status, 0) < 0) fail("waitpid");
}

/* Stopped at the start or the end of that system call. */
static int in_yield(void) {
    return ptrace(PTRACE_PEEKUSER, program, offsetof(struct user, regs.orig_rax), NULL) == SYS_sched_yield;
}

int main(int argc, char **argv) {
    if (argc < 3) return 125;
    program = fork();
    if (program < 0) fail("fork");
    if (program == 0) {
        /* The same addresses in every run. */
        personality(ADDR_NO_RANDOMIZE);
        ptrace(PTRACE_TRACEME, 0, NULL, NULL);
        execv(argv[2], argv + 2);
        fail(argv[2]);
    }
    if (waitpid(program, &status, 0) < 0) fail("waitpid");
    do go_on(PTRACE_SYSCALL);
    while (WIFSTOPPED(status) && !in_yield());

    long executed = 0;
    for (; WIFSTOPPED(status); executed++) go_on(PTRACE_SINGLESTEP);

    FILE *file = fopen(argv[1], "w");
    if (file == NULL) fail(argv[1]);
    fprintf(file, "%ld\n", executed);
    fclose(file);
    return WIFEXITED(status) ? WEXITSTATUS(status) : 125;
}
