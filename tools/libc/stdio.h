int printf(const char *, ...);
int snprintf(char *, __SIZE_TYPE__, const char *, ...);
