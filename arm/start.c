/*
 * What the program needs of a C library, for Arm Linux: the start, read, write,
 * the error of the last of these, that a broken pipe is an error and no signal,
 * and the two functions that the compiler calls to fill and to copy memory. So
 * the program needs nothing of the machine but its kernel, and its bytes come
 * from the Rattle toolchain alone. Not proved; tested by rust/tests/tests/arm.rs.
 */
typedef unsigned long size;

enum { READ = 63, WRITE = 64, EXIT = 94, ACTION = 134 }; /* the kernel's numbers */

static int error;

static long call(long number, long a, long b, long c, long d)
{
    register long x8 __asm__("x8") = number;
    register long x0 __asm__("x0") = a;
    register long x1 __asm__("x1") = b;
    register long x2 __asm__("x2") = c;
    register long x3 __asm__("x3") = d;
    __asm__ volatile("svc 0" : "+r"(x0) : "r"(x8), "r"(x1), "r"(x2), "r"(x3) : "memory");
    return x0;
}

/* What the kernel answers: below 0 it is an error's number. */
static long answered(long answer)
{
    if (answer >= 0)
        return answer;
    error = (int)-answer;
    return -1;
}

long read(int file, void *bytes, size count)
{
    return answered(call(READ, file, (long)bytes, (long)count, 0));
}

long write(int file, const void *bytes, size count)
{
    return answered(call(WRITE, file, (long)bytes, (long)count, 0));
}

int rattle_errno(void)
{
    return error;
}

/* The start asks for one thing, that a signal is passed over; the kernel takes a handler, flags and a mask. */
long __sysv_signal(long signal, long handler)
{
    unsigned long action[4] = {(unsigned long)handler, 0, 0, 0};
    return answered(call(ACTION, signal, (long)action, 0, sizeof(unsigned long)));
}

void *memset(void *to, int byte, size count)
{
    unsigned char *t = to;
    while (count-- > 0)
        *t++ = (unsigned char)byte;
    return to;
}

void *memmove(void *to, const void *from, size count)
{
    unsigned char *t = to;
    const unsigned char *f = from;
    if ((size)to - (size)from >= count) {
        while (count-- > 0)
            *t++ = *f++;
    } else {
        while (count-- > 0)
            t[count] = f[count];
    }
    return to;
}

void *memcpy(void *to, const void *from, size count)
{
    return memmove(to, from, count);
}

int main(void);

void started(void)
{
    call(EXIT, main(), 0, 0, 0);
    __builtin_trap();
}

/* The kernel enters here, with the stack aligned and no frame above. */
__asm__(".globl _start\n"
        "_start:\n"
        "    mov x29, xzr\n"
        "    mov x30, xzr\n"
        "    bl started\n");
