// The environment calls of thynvm (docs/MACHINE.md has what each answers, and in which order it checks).
#ifndef THYNVM_CALLS_H
#define THYNVM_CALLS_H

#ifdef __cplusplus
extern "C" {
#endif

// At most 64 bytes of the run's input from where the last call stopped: how many were read, 0 at the end, or a
// negative number (-9: the descriptor isn't 0; -14: the bytes aren't all in memory).
long read_some(long descriptor, void *to, unsigned long length);

// At most 64 bytes to the console: how many were taken, or a negative number (-9: the descriptor is neither 1
// nor 2; -28: the console is full; -14: the bytes aren't all in memory).
long write_some(long descriptor, const void *from, unsigned long length);

// Moves the end of the heap where the machine allows it; the end afterwards.
unsigned long move_break(unsigned long to);

// Ends the program at once; its exit code is the low byte of the number.
void _exit(int code) __attribute__((noreturn));

// The C library's, which first calls what `atexit` was given and flushes the streams. Without a C library it is
// `_exit`: the linker script says so.
void exit(int code) __attribute__((noreturn));

#ifdef __cplusplus
}
#endif

#endif
