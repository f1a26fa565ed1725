/* A stretch of a program whose instructions tools/steps.c counts: from begun() to ended(). */
static __attribute__((noinline)) void ended(void)
{
    __asm__ volatile("");
}

static inline void begun(void)
{
    __asm__ volatile("int3" : : "D"(ended));
}
