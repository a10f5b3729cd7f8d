/*
 * The way in and out of a program that has no libc: it ends with what `run` tells, on Linux of x86-64 and of aarch64. A boot loader has its
 * own.
 */
long run(void);
void begin(void);

void begin(void)
{
	long told = run();

#if defined __x86_64__
	__asm__ volatile("syscall" : : "a"(231L), "D"(told));
#elif defined __aarch64__
	register long number __asm__("x8") = 94;
	register long status __asm__("x0") = told;

	__asm__ volatile("svc 0" : : "r"(number), "r"(status));
#endif
	__builtin_unreachable();
}

/* The stack is aligned as a call wants it. */
#if defined __x86_64__
__asm__(".globl _start\n_start: andq $-16, %rsp\ncall begin");
#elif defined __aarch64__
__asm__(".globl _start\n_start: bl begin");
#endif
