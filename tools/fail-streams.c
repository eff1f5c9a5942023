// Makes the standard streams of a program that it is loaded before (LD_PRELOAD) fail once, or go in pieces, and counts what the
// program asks of them. FAILED_STREAMS names a file of three `struct stream`, for the descriptors 0, 1 and 2: it says how each
// shall fail, and is told what came of it. Each stream is used by one thread at a time.
#include <errno.h>
#include <fcntl.h>
#include <stdint.h>
#include <stdlib.h>
#include <sys/mman.h>
#include <sys/syscall.h>
#include <unistd.h>

struct stream {
    // The most bytes that a call gives or takes, or 0 if that is up to the system.
    int64_t piece;
    // After how many bytes a call fails, or -1 if none does.
    int64_t before;
    // The error number of this call. If it is 0, the call gives or takes nothing.
    int64_t fault;
    // The bytes given or taken, also after the fault.
    int64_t bytes;
    // Whether the fault came.
    int64_t failed;
    // Whether the input ended.
    int64_t ended;
    // The calls after the fault, or after the end of the input.
    int64_t after;
};

static struct stream *streams;

// Ends the program if there is no such file, since nothing would fail then, and a test might pass for that.
__attribute__((constructor)) static void begin(void) {
    const char *name = getenv("FAILED_STREAMS");
    if (name == NULL) {
        return;
    }
    int file = open(name, O_RDWR);
    void *kept = mmap(NULL, 3 * sizeof(struct stream), PROT_READ | PROT_WRITE, MAP_SHARED, file, 0);
    if (file < 0 || kept == MAP_FAILED) {
        _exit(125);
    }
    close(file);
    streams = kept;
}

// Does a call of the system on a stream, or fails in its place.
static ssize_t call(long number, int descriptor, void *bytes, size_t count) {
    if (streams == NULL || descriptor < 0 || descriptor > 2) {
        return syscall(number, descriptor, bytes, count);
    }
    struct stream *it = &streams[descriptor];
    it->after += it->failed || it->ended;
    if (!it->failed && it->before >= 0) {
        size_t left = it->before - it->bytes;
        if (left == 0) {
            it->failed = 1;
            errno = it->fault;
            return it->fault == 0 ? 0 : -1;
        }
        count = count < left ? count : left;
    }
    if (it->piece > 0 && count > (size_t)it->piece) {
        count = it->piece;
    }
    ssize_t done = syscall(number, descriptor, bytes, count);
    it->bytes += done > 0 ? done : 0;
    it->ended |= number == SYS_read && done == 0 && count > 0;
    return done;
}

ssize_t read(int descriptor, void *bytes, size_t count) { return call(SYS_read, descriptor, bytes, count); }

ssize_t write(int descriptor, const void *bytes, size_t count) { return call(SYS_write, descriptor, (void *)bytes, count); }
