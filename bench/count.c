// Counts the instructions that a program executes, by the processor's own counter or, where there is none, by stepping
// through it one instruction at a time. It needs Linux on x86-64, and no right that a user has not over his own processes.
//   count marks|whole step|counter PROGRAM WORDS..
// `marks` counts between the first and the second time that the program comes to its one int3, `whole` from its start to its end.
// The count is the last line on standard error. A repeated string instruction is one instruction, as processors count it.
typedef __UINT32_TYPE__ uint32_t;
typedef __UINT64_TYPE__ uint64_t;
typedef __SIZE_TYPE__ size_t;

int fork(void);
int execve(const char *path, char *const words[], char *const environment[]);
int waitpid(int child, int *status, int options);
long ptrace(int request, ...);
int personality(unsigned long persona);
long syscall(long number, ...);
long read(int file, void *bytes, size_t size);
long write(int file, const void *bytes, size_t size);
int strcmp(const char *a, const char *b);
int ioctl(int file, unsigned long request, ...);
void _exit(int status);
int sched_getcpu(void);
int sched_setaffinity(int process, size_t size, const void *processors);

enum { TRACEME = 0, PEEKUSER = 3, CONT = 7, SINGLESTEP = 9, RIP = 16 * 8, SIGTRAP = 5, PTRACE = 101 };
enum { NO_RANDOM_ADDRESSES = 0x0040000, PERF_EVENT_OPEN = 298, RESET = 0x2403, ENABLE = 0x2400, DISABLE = 0x2401 };

static void tell(const char *words)
{
    size_t n = 0;
    while (words[n])
        n++;
    write(2, words, n);
}

static void fail(const char *words)
{
    tell(words);
    _exit(3);
}

static void tell_number(uint64_t number)
{
    char digits[22];
    size_t n = sizeof digits;

    digits[--n] = 0;
    digits[--n] = '\n';
    do
        digits[--n] = '0' + number % 10;
    while (number /= 10);
    tell(digits + n);
}

// The first fields of perf_event_attr: instructions of the child, in user mode alone.
static int open_counter(int child)
{
    struct {
        uint32_t type, size;
        uint64_t config, period, sample, read, flags, rest[9];
    } what = {.type = 0, .size = 120, .config = 1, .flags = 1 | 1 << 5 | 1 << 6}; // disabled, no kernel, no hypervisor

    return syscall(PERF_EVENT_OPEN, &what, child, -1, -1, 0);
}

static bool stopped(int status)
{
    return (status & 0xFF) == 0x7F;
}

// To the next int3 or the end. True at an int3.
static bool go_on(int child)
{
    int status;

    ptrace(CONT, child, 0, 0);
    waitpid(child, &status, 0);
    if (stopped(status) && status >> 8 == SIGTRAP)
        return true;
    if (stopped(status))
        fail("count: the program was stopped by a signal\n");
    if (status)
        fail("count: the program failed\n");
    return false;
}

static uint64_t count_by_counter(int child, int counter, bool whole)
{
    uint64_t count = 0;

    if (!whole && !go_on(child))
        fail("count: the program has no mark\n");
    ioctl(counter, RESET, 0);
    ioctl(counter, ENABLE, 0);
    if (go_on(child) == whole)
        fail("count: the program has one mark, or some where none may be\n");
    ioctl(counter, DISABLE, 0);
    if (read(counter, &count, sizeof count) != sizeof count)
        fail("count: the counter cannot be read\n");
    return count;
}

// Where the program stands: the address of the instruction that is next.
static long stands_at(int child)
{
    long at = 0;

    if (syscall(PTRACE, PEEKUSER, child, RIP, &at) < 0) // the system call itself stores what it read
        fail("count: where the program stands cannot be read\n");
    return at;
}

// Both marks are the one int3 of the program, so the second is known by its place before it is executed.
static uint64_t count_by_steps(int child, bool whole)
{
    uint64_t count = 0;
    long last = 0, before = 0;
    int status;

    if (!whole) {
        if (!go_on(child))
            fail("count: the program has no mark\n");
        last = stands_at(child) - 1;
    }
    for (;;) {
        ptrace(SINGLESTEP, child, 0, 0);
        waitpid(child, &status, 0);
        if (!stopped(status))
            break;
        if (status >> 8 != SIGTRAP)
            fail("count: the program was stopped by a signal\n");
        long at = stands_at(child);
        count += at != before;
        before = at;
        if (at == last) {
            if (go_on(child) && go_on(child))
                fail("count: the program has more than two marks\n");
            return count;
        }
    }
    if (status || !whole)
        fail("count: the program failed, or has one mark\n");
    return count;
}

int main(int amount, char **words)
{
    static char *const no_environment[] = {nullptr};
    int status;

    if (amount < 4)
        fail("usage: count marks|whole step|counter PROGRAM WORDS..\n");
    bool whole = strcmp(words[1], "whole") == 0, step = strcmp(words[2], "step") == 0;
    // one processor for both: a step is a change from one to the other, and dear from one processor to another
    uint64_t processors[16] = {0};
    int own = sched_getcpu();
    if (own >= 0 && own < 1024) {
        processors[own / 64] = 1ull << own % 64;
        sched_setaffinity(0, sizeof processors, processors);
    }
    int child = fork();
    if (child < 0)
        fail("count: no process can be made\n");
    if (child == 0) {
        personality(NO_RANDOM_ADDRESSES); // so that every run has the same addresses
        ptrace(TRACEME, 0, 0, 0);
        execve(words[3], words + 3, no_environment);
        fail("count: the program cannot be started\n");
    }
    waitpid(child, &status, 0); // it stops at its first instruction
    if (!stopped(status))
        fail("count: the program cannot be traced\n");
    if (step) {
        tell_number(count_by_steps(child, whole));
        return 0;
    }
    int counter = open_counter(child);
    if (counter < 0)
        fail("count: this machine has no counter of instructions\n");
    uint64_t count = count_by_counter(child, counter, whole);
    if (!whole)
        go_on(child);
    tell_number(count);
    return 0;
}
