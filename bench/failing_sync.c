/* Has one sync of a program fail at its device, a loop device that LOOP names: FAIL=N has the device end at byte CUT while the Nth call of
 * fsync or fdatasync is made, counted from 1, so that what that call writes behind it is lost, and the system says so this once. STOP=N ends the program at once before the Nth call, with status 99. At its end the number of calls that were made is printed on standard
 * error. Built as a shared object and put before the C library by LD_PRELOAD; see failing_disk.py. */
#define _GNU_SOURCE
#include <dlfcn.h>
#include <errno.h>
#include <fcntl.h>
#include <linux/loop.h>
#include <stdio.h>
#include <stdlib.h>
#include <sys/ioctl.h>
#include <sys/syscall.h>
#include <unistd.h>

static unsigned long calls, fail, stop;

static unsigned long number(const char *name) {
    const char *word = getenv(name);
    return word ? strtoul(word, NULL, 10) : 0;
}

__attribute__((constructor)) static void begin(void) {
    fail = number("FAIL");
    stop = number("STOP");
}

__attribute__((destructor)) static void end(void) {
    dprintf(2, "%lu\n", calls);
}

/* A program may end by this, and then nothing is called at its end. */
__attribute__((noreturn)) void _exit(int status) {
    end();
    syscall(SYS_exit_group, status);
    __builtin_unreachable();
}

/* Has the device end behind so many bytes; with 0 where it did at first. */
static void end_device(unsigned long bytes) {
    struct loop_info64 info;
    int device = open(getenv("LOOP"), O_RDWR);
    if (device < 0 || ioctl(device, LOOP_GET_STATUS64, &info) < 0)
        abort();
    info.lo_sizelimit = bytes;
    if (ioctl(device, LOOP_SET_STATUS64, &info) < 0)
        abort();
    close(device);
}

static int sync_by(const char *name, int file) {
    int (*next)(int) = (int (*)(int))dlsym(RTLD_NEXT, name);
    calls++;
    if (calls == stop)
        syscall(SYS_exit_group, 99);
    if (calls != fail)
        return next(file);
    end_device(number("CUT"));
    int answer = next(file), cause = errno;
    end_device(0);
    errno = cause;
    return answer;
}

int fsync(int file) {
    return sync_by("fsync", file);
}

int fdatasync(int file) {
    return sync_by("fdatasync", file);
}
