/* An allocator, devices and a clock that fail, to be loaded before the C library's own. What they do stands in the environment, and where nothing does
   they are the C library's. Calls are counted from 1.

   REFUSE=N              the Nth allocation is refused; with REFUSE_ON those after it too
   READ_MOST=N           a read takes N bytes at most
   READ_FAILS=N          the Nth read fails
   WRITE_TO=D            what stands below is of writes to the descriptor D alone: 1, where nothing is said
   WRITE_MOST=N          a write takes N bytes at most
   WRITE_FAILS=N         the Nth write fails
   WRITE_TAKES_NONE=N    the Nth write takes no byte
   CLOCK_STEP=N          each look at the clock finds it N milliseconds further than the one before, and no other time passes
   CLOCK_FAILS           no look at the clock tells a time
   REFUSE_TELL=D         a byte is written to the descriptor D where the Nth allocation, read or write of these was met

   It takes no header, so that a compiler alone can build it. */

typedef __SIZE_TYPE__ size;
typedef __INTPTR_TYPE__ count_or_fault;

struct timespec {
    long seconds, nanoseconds;
};

extern void *__libc_malloc(size);
extern void *__libc_calloc(size, size);
extern void *__libc_realloc(void *, size);
extern void *__libc_memalign(size, size);
extern count_or_fault __read(int, void *, size);
extern count_or_fault __write(int, const void *, size);
extern long syscall(long, ...);
extern char *getenv(const char *);
extern int *__errno_location(void);

#if defined(__x86_64__)
enum { CLOCK_GETTIME = 228 };
#else
enum { CLOCK_GETTIME = 113 };
#endif

enum { IO_ERROR = 5, NO_MEMORY = 12, INVALID = 22 };

/* Calls of one kind: how many there were, which of them fails, and how many bytes one takes at most. */
struct calls {
    unsigned long count, fails_at, most;
};

static struct calls allocations, reads, writes;
static unsigned long writes_none_at, writes_to, tells_to, clock_step, looks;
static int is_set_up, refuses_on, clock_fails, clock_steps;

static unsigned long number(const char *name)
{
    const char *text = getenv(name);
    unsigned long value = 0;
    while (text && *text >= '0' && *text <= '9')
        value = value * 10 + (unsigned long)(*text++ - '0');
    return value;
}

static void set_up(void)
{
    if (is_set_up)
        return;
    is_set_up = 1;
    allocations.fails_at = number("REFUSE");
    refuses_on = getenv("REFUSE_ON") != 0;
    reads.most = number("READ_MOST");
    reads.fails_at = number("READ_FAILS");
    writes_to = getenv("WRITE_TO") ? number("WRITE_TO") : 1;
    writes.most = number("WRITE_MOST");
    writes.fails_at = number("WRITE_FAILS");
    writes_none_at = number("WRITE_TAKES_NONE");
    clock_steps = getenv("CLOCK_STEP") != 0;
    clock_step = number("CLOCK_STEP");
    clock_fails = getenv("CLOCK_FAILS") != 0;
    tells_to = number("REFUSE_TELL");
}

/* Tells that the call was met that was to fail, and answers 1. */
static int met(int fault)
{
    if (tells_to != 0)
        __write((int)tells_to, "r", 1);
    *__errno_location() = fault;
    return 1;
}

/* Whether this call, the next of its kind, fails. */
static int fails(struct calls *calls, int fault)
{
    return ++calls->count == calls->fails_at && met(fault);
}

static size at_most(const struct calls *calls, size bytes)
{
    return calls->most != 0 && bytes > calls->most ? calls->most : bytes;
}

static int is_refused(void)
{
    set_up();
    if (fails(&allocations, NO_MEMORY))
        return 1;
    if (!refuses_on || allocations.fails_at == 0 || allocations.count < allocations.fails_at)
        return 0;
    *__errno_location() = NO_MEMORY;
    return 1;
}

void *malloc(size bytes)
{
    return is_refused() ? 0 : __libc_malloc(bytes);
}

void *calloc(size items, size bytes)
{
    return is_refused() ? 0 : __libc_calloc(items, bytes);
}

void *realloc(void *old, size bytes)
{
    return is_refused() ? 0 : __libc_realloc(old, bytes);
}

void *memalign(size alignment, size bytes)
{
    return is_refused() ? 0 : __libc_memalign(alignment, bytes);
}

void *aligned_alloc(size alignment, size bytes)
{
    return is_refused() ? 0 : __libc_memalign(alignment, bytes);
}

int posix_memalign(void **made, size alignment, size bytes)
{
    void *block = is_refused() ? 0 : __libc_memalign(alignment, bytes);
    if (!block)
        return NO_MEMORY;
    *made = block;
    return 0;
}

count_or_fault read(int descriptor, void *bytes, size count)
{
    set_up();
    if (fails(&reads, IO_ERROR))
        return -1;
    return __read(descriptor, bytes, at_most(&reads, count));
}

count_or_fault write(int descriptor, const void *bytes, size count)
{
    set_up();
    if ((unsigned long)descriptor != writes_to)
        return __write(descriptor, bytes, count);
    if (fails(&writes, IO_ERROR))
        return -1;
    if (writes.count == writes_none_at && met(0))
        return 0;
    return __write(descriptor, bytes, at_most(&writes, count));
}

int clock_gettime(int clock, struct timespec *time)
{
    set_up();
    if (clock_fails) {
        *__errno_location() = INVALID;
        return -1;
    }
    if (!clock_steps)
        return (int)syscall(CLOCK_GETTIME, (long)clock, time);
    looks++;
    time->seconds = 1000000 + (long)(looks * clock_step / 1000);
    time->nanoseconds = (long)(looks * clock_step % 1000 * 1000000);
    return 0;
}
