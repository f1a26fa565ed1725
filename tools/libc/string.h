int memcmp(const void *, const void *, __SIZE_TYPE__);
void *memcpy(void *, const void *, __SIZE_TYPE__);
void *memset(void *, int, __SIZE_TYPE__);
int strcmp(const char *, const char *);
__SIZE_TYPE__ strlen(const char *);
