/* The little that newlib asks of a board, by semihosting: the emulator, or a debugger, takes what is written and the exit status.
   There are no files, and nothing can be read. A program whose stack has met its heap fails, whatever it answers. */
#include <errno.h>
#include <stdint.h>
#include <stdlib.h>
#include <sys/stat.h>

extern char free_first[];           /* of the linker script */
extern const uint32_t stack_paint; /* of start.c */

void finish(int status);
void _exit(int status);
int _write(int file, const char *bytes, int length);

enum { OPERATION_OPEN = 0x01, OPERATION_WRITE = 0x05, OPERATION_EXIT = 0x20, APPLICATION_EXIT = 0x20026 };

static int ask(int operation, const void *words) {
    register int result __asm__("r0") = operation;
    register const void *argument __asm__("r1") = words;
    __asm__ volatile("bkpt 0xab" : "+r"(result) : "r"(argument) : "memory");
    return result;
}

static char *heap_end = free_first;

void finish(int status) {
    const uint32_t *word = (const uint32_t *)(((uintptr_t)heap_end + 3) & ~(uintptr_t)3);
    if (*word != stack_paint) {
        static const char words[] = "BAD: the stack has met the heap\n";
        _write(1, words, sizeof words - 1);
        _exit(99);
    }
    exit(status);
}

void _exit(int status) {
    const uint32_t words[2] = {APPLICATION_EXIT, (uint32_t)status};
    ask(OPERATION_EXIT, words);
    for (;;) {
    }
}

int _write(int file, const char *bytes, int length) {
    static int console = -1;
    if (console < 0) { /* ":tt" for writing is the emulator's standard output */
        const uint32_t words[3] = {(uint32_t)(uintptr_t) ":tt", 4, 3};
        console = ask(OPERATION_OPEN, words);
    }
    const uint32_t words[3] = {(uint32_t)console, (uint32_t)(uintptr_t)bytes, (uint32_t)length};
    (void)file;
    return length - ask(OPERATION_WRITE, words); /* which says how many were left */
}

/* What is free lies behind the variables; the stack comes down to it from the other end. */
void *_sbrk(int bytes) {
    char here;
    if (heap_end + bytes > &here) {
        errno = ENOMEM;
        return (void *)-1;
    }
    heap_end += bytes;
    return heap_end - bytes;
}

int _fstat(int file, struct stat *about) {
    (void)file;
    about->st_mode = S_IFCHR;
    return 0;
}

int _isatty(int file) {
    (void)file;
    return 1;
}

int _close(int file) {
    (void)file;
    return -1;
}

int _lseek(int file, int offset, int from) {
    (void)file;
    (void)offset;
    (void)from;
    return 0;
}

int _read(int file, char *bytes, int length) {
    (void)file;
    (void)bytes;
    (void)length;
    return 0;
}

int _getpid(void) { return 1; }

int _kill(int process, int number) {
    (void)process;
    (void)number;
    errno = EINVAL;
    return -1;
}
