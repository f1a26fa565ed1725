int waitpid(int, int *, int);
