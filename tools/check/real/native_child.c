/* What real_native.py has processes die in, and wait in: built by gcc -O2. */
#include <alloca.h>
#include <signal.h>
#include <stdlib.h>
#include <string.h>
#include <sys/mman.h>
#include <sys/syscall.h>
#include <unistd.h>

typedef int (*callback)(int);

__attribute__((noinline)) static int read_at(volatile int *place, int size) {
    volatile char *room = alloca(size);
    memset((void *)room, 1, size);
    return *place + room[size / 2];
}

__attribute__((noinline)) int crash(int size) { return read_at((volatile int *)8, size) + size; }

__attribute__((noinline)) int call_null(int number) {
    callback volatile called = 0;
    return called(number) + 1;
}

__attribute__((noinline)) int call_wild(int number) {
    callback volatile called = (callback)8;
    return called(number) + 1;
}

__attribute__((noinline)) int call_back(callback called, int number) { return called(number) + 1; }

__attribute__((noinline)) static void handle(int number) { abort(); }

__attribute__((noinline)) int in_handler(int number) {
    signal(SIGUSR1, handle);
    return raise(SIGUSR1) + number;
}

__attribute__((noinline)) int aborted(int number) {
    if (number)
        abort();
    return number;
}

__attribute__((noinline)) int overflow(int number) {
    volatile char room[256];
    room[number & 255] = 1;
    return overflow(number + 1) + room[(number + 1) & 255];
}

__attribute__((noinline)) int waits(int number) {
    pause();
    return number;
}

/* ---- code that no table covers: a page of instructions, as those of perf's trampolines and of musl's signals */

static void *page_of(const void *code, int size) {
    void *page = mmap(0, 4096, PROT_READ | PROT_WRITE | PROT_EXEC, MAP_PRIVATE | MAP_ANONYMOUS, -1, 0);
    if (page == MAP_FAILED)
        abort();
    memcpy(page, code, size);
    return page;
}

__attribute__((noinline)) static int ends(int number) { return crash(number) + 1; }

/* sub $8, %rsp; mov %rsi, %rax; call *%rax; add $8, %rsp; ret */
__attribute__((noinline)) int through(int number) {
    static const unsigned char code[] = {0x48, 0x83, 0xec, 8, 0x48, 0x89, 0xf0, 0xff, 0xd0, 0x48, 0x83, 0xc4, 8, 0xc3};
    int (*page)(int, callback) = page_of(code, sizeof code);
    return page(number, ends) + 1;
}

struct kernel_action {
    void (*handler)(int);
    unsigned long flags;
    void *restorer;
    unsigned long mask;
};

/* mov $15, %rax; syscall */
__attribute__((noinline)) int in_plain_handler(int number) {
    static const unsigned char code[] = {0x48, 0xc7, 0xc0, 15, 0, 0, 0, 0x0f, 5};
    struct kernel_action action = {handle, 0x04000000, page_of(code, sizeof code), 0};
    if (syscall(SYS_rt_sigaction, SIGUSR1, &action, 0, 8))
        abort();
    return raise(SIGUSR1) + number;
}
