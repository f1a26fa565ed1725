#define PTRACE_TRACEME 0
#define PTRACE_PEEKUSER 3
#define PTRACE_CONT 7
#define PTRACE_SINGLESTEP 9
long ptrace(int, ...);
