// Preloaded into a program, it makes standard input and output move little at a time, be interrupted, or
// fail. READ_MOST and WRITE_MOST say how many bytes a call moves at most, READ_INTERRUPTED and
// WRITE_INTERRUPTED how many calls are interrupted first, and READ_FAILS and WRITE_FAILS from which call on,
// counted from 1, each fails, by EIO and by ENOSPC. What is not set changes nothing.
#include <errno.h>
#include <limits.h>
#include <stdlib.h>
#include <sys/syscall.h>
#include <unistd.h>

struct device {
    unsigned long most, interrupted, fails, calls;
    int reason;
};

static struct device input = {.reason = EIO}, output = {.reason = ENOSPC};

static unsigned long number_of(const char *name, unsigned long otherwise) {
    const char *text = getenv(name);
    return text ? strtoul(text, NULL, 10) : otherwise;
}

__attribute__((constructor)) static void begin(void) {
    input.most = number_of("READ_MOST", SSIZE_MAX);
    input.interrupted = number_of("READ_INTERRUPTED", 0);
    input.fails = number_of("READ_FAILS", 0);
    output.most = number_of("WRITE_MOST", SSIZE_MAX);
    output.interrupted = number_of("WRITE_INTERRUPTED", 0);
    output.fails = number_of("WRITE_FAILS", 0);
}

static ssize_t moved(long number, int file, struct device *device, const void *bytes, size_t count) {
    device->calls++;
    if (device->calls <= device->interrupted) {
        errno = EINTR;
        return -1;
    }
    if (device->fails && device->calls >= device->fails) {
        errno = device->reason;
        return -1;
    }
    return syscall(number, file, bytes, count < device->most ? count : device->most);
}

ssize_t read(int file, void *bytes, size_t count) {
    return file == 0 ? moved(SYS_read, file, &input, bytes, count) : syscall(SYS_read, file, bytes, count);
}

ssize_t write(int file, const void *bytes, size_t count) {
    return file == 1 ? moved(SYS_write, file, &output, bytes, count) : syscall(SYS_write, file, bytes, count);
}
