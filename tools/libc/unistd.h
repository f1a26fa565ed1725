int execv(const char *, char **);
int fork(void);
long read(int, void *, __SIZE_TYPE__);
long write(int, const void *, __SIZE_TYPE__);
