#define SIGTRAP 5
