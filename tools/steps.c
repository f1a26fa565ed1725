/* usage: steps PROGRAM [WORDS..]
 * Runs a program on x86-64 and writes a line '=N' for each of its stretches (tools/steps.h): N instructions, stepped over one by one. A repeated
 * string instruction stops once a round at the same place and counts once, as a processor counts it. Exit status: the program's, or 2.
 */
#include <signal.h>
#include <stdbool.h>
#include <stddef.h>
#include <stdio.h>
#include <sys/ptrace.h>
#include <sys/wait.h>
#include <unistd.h>

#define RDI 112 /* the places of two registers in the kernel's struct user */
#define RIP 128

static int child, status;

static bool runs(int request) /* until it stops again; false where it has ended */
{
    return ptrace(request, child, NULL, NULL) == 0 && waitpid(child, &status, 0) == child && (status & 0xff) == 0x7f;
}

static long reg(long place)
{
    return ptrace(PTRACE_PEEKUSER, child, (void *)place, NULL);
}

int main(int words, char **word)
{
    if (words < 2)
        return 2;
    child = fork();
    if (child == 0) {
        ptrace(PTRACE_TRACEME, 0, NULL, NULL);
        execv(word[1], word + 1);
        return 2;
    }
    if (child < 0 || waitpid(child, &status, 0) != child)
        return 2;
    while (runs(PTRACE_CONT)) {
        if (status >> 8 != SIGTRAP)
            return 2; /* it is about to die of a signal */
        long end = reg(RDI), at = 0, n = 0;
        for (long next = reg(RIP); next != end; next = reg(RIP)) {
            n += next != at;
            at = next;
            if (!runs(PTRACE_SINGLESTEP))
                return 2;
        }
        char line[32];
        write(1, line, (size_t)snprintf(line, sizeof line, "=%ld\n", n));
    }
    return (status & 0x7f) == 0 ? status >> 8 & 0xff : 2;
}
