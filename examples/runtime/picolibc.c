// What picolibc asks of a system, over the calls of thynvm: the standard streams, the heap, and the functions of
// POSIX that its library refers to. Link this file with each program that uses picolibc.
//
// A program has its input as descriptor 0 and its console as 1 and 2. There are no files, no other processes, no
// signals from outside and no clock: these calls fail, with the reason in errno.
#include <errno.h>
#include <fcntl.h>
#include <signal.h>
#include <stdio-bufio.h>
#include <stdio.h>
#include <sys/stat.h>
#include <sys/time.h>
#include <sys/times.h>
#include <unistd.h>
#include "calls.h"

// ---- the input, the console and the heap

static int fail(int reason) {
    errno = reason;
    return -1;
}

static int is_open(int descriptor) {
    return descriptor >= STDIN_FILENO && descriptor <= STDERR_FILENO;
}

// The numbers of the machine's errors are those of errno, with a minus sign. A call moves at most 64 bytes.
ssize_t read(int descriptor, void *to, size_t length) {
    size_t done = 0;
    do {
        long got = read_some(descriptor, (char *)to + done, length - done);
        if (got < 0) {
            return done > 0 ? (ssize_t)done : fail((int)-got);
        }
        if (got == 0) {
            break;
        }
        done += (size_t)got;
    } while (done < length);
    return (ssize_t)done;
}

// If the console has room for a part only, it takes that part, and the call fails. So a program that looks at what its calls
// return learns of each byte that was lost.
ssize_t write(int descriptor, const void *from, size_t length) {
    size_t done = 0;
    do {
        long taken = write_some(descriptor, (const char *)from + done, length - done);
        if (taken < 0) {
            return fail((int)-taken);
        }
        done += (size_t)taken;
    } while (done < length);
    return (ssize_t)done;
}

// Neither the input nor the console can be sought in.
off_t lseek(int descriptor, off_t offset, int whence) {
    (void)offset;
    (void)whence;
    return fail(is_open(descriptor) ? ESPIPE : EBADF);
}

// The three descriptors stay open: a program that closes a stream can still report an error.
int close(int descriptor) {
    return is_open(descriptor) ? 0 : fail(EBADF);
}

// The end of memory, or 0 where the stack is at the end of memory: crt0.s has it.
extern unsigned long __memory_end;

// The machine's break ends 65536 bytes below the first stack pointer. If the stack is below the program, the heap goes on
// behind the greatest break, up to the end of memory.
void *sbrk(ptrdiff_t more) {
    static unsigned long last;
    unsigned long break_now = move_break(0);
    unsigned long end = last > break_now ? last : break_now;
    unsigned long wanted = end + (unsigned long)more;
    if (move_break(wanted) != wanted && (wanted < break_now || wanted > __memory_end)) {
        errno = ENOMEM;
        return (void *)-1;
    }
    last = wanted;
    return (void *)end;
}

// ---- the standard streams

// As many bytes as one call moves. What goes to stdout is written at line feeds, where the buffer is full and at the
// end; what goes to stderr is written at once.
static char in[64];
static char out[64];
static char err[1];

static ssize_t put(int descriptor, const void *from, size_t length);

static struct __file_bufio input = FDEV_SETUP_BUFIO(0, in, sizeof in, read, write, lseek, close, __SRD, 0);
static struct __file_bufio output = FDEV_SETUP_BUFIO(1, out, sizeof out, read, put, lseek, close, __SWR, __BLBF);
static struct __file_bufio errors = FDEV_SETUP_BUFIO(2, err, sizeof err, read, put, lseek, close, __SWR, 0);

// picolibc leaves it to the stream to note an error for `ferror`: a console that is full stays so.
static ssize_t put(int descriptor, const void *from, size_t length) {
    ssize_t taken = write(descriptor, from, length);
    if (taken < 0) {
        (descriptor == output.fd ? &output : &errors)->xfile.cfile.file.flags |= __SERR;
    }
    return taken;
}

FILE *const stdin = &input.xfile.cfile.file;
FILE *const stdout = &output.xfile.cfile.file;
FILE *const stderr = &errors.xfile.cfile.file;

// `exit` calls this after the functions that the program gave to `atexit`, and after all other destructors.
__attribute__((destructor(101))) static void flush_output(void) {
    fflush(stdout);
}

// ---- files, of which there are none

int open(const char *name, int flags, ...) {
    (void)name;
    (void)flags;
    return fail(ENOENT);
}

int stat(const char *restrict name, struct stat *restrict to) {
    (void)name;
    (void)to;
    return fail(ENOENT);
}

int access(const char *name, int mode) {
    (void)name;
    (void)mode;
    return fail(ENOENT);
}

int unlink(const char *name) {
    (void)name;
    return fail(ENOENT);
}

int rename(const char *from, const char *to) {
    (void)from;
    (void)to;
    return fail(ENOENT);
}

// Each of the three descriptors is a stream of bytes.
int fstat(int descriptor, struct stat *to) {
    if (!is_open(descriptor)) {
        return fail(EBADF);
    }
    *to = (struct stat){.st_mode = S_IFIFO, .st_nlink = 1};
    return 0;
}

int isatty(int descriptor) {
    fail(is_open(descriptor) ? ENOTTY : EBADF);
    return 0;
}

// ---- processes, of which there is one, and clocks, of which there is none

pid_t getpid(void) {
    return 1;
}

// A signal that `raise` or `abort` sends has no handler: it ends the program, with what a shell says of such an end.
int kill(pid_t process, int signal) {
    if (process != getpid()) {
        return fail(ESRCH);
    }
    if (signal != 0) {
        _exit(128 + signal);
    }
    return 0;
}

int sigprocmask(int how, const sigset_t *set, sigset_t *old) {
    (void)how;
    (void)set;
    (void)old;
    return fail(ENOSYS);
}

int gettimeofday(struct timeval *restrict to, void *restrict zone) {
    (void)to;
    (void)zone;
    return fail(ENOSYS);
}

clock_t times(struct tms *to) {
    (void)to;
    return (clock_t)fail(ENOSYS);
}

int getentropy(void *to, size_t length) {
    (void)to;
    (void)length;
    return fail(ENOSYS);
}
