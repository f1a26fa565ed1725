int atoi(const char *);
void exit(int) __attribute__((noreturn));
void *realloc(void *, __SIZE_TYPE__);
