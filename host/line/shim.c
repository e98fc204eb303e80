/* Put between a tool and the C library by the tests (LD_PRELOAD). By the environment:
 *   SHIM_CALLS=FILE    the calls that bring something to the disk or the port are written there, a line each, before they are made
 *   SHIM_KILL=N        before the Nth of them the process is killed
 *   SHIM_SLOW=N        a file is on the disk N milliseconds later
 *   SHIM_FAULTY=N      the Nth byte that a port gives is marked as one with a parity fault, as the kernel marks it
 *   SHIM_SERIAL=1      a pseudo terminal passes for a serial port: it has no name among them, and takes even parity */
#define _GNU_SOURCE
#include <dlfcn.h>
#include <fcntl.h>
#include <signal.h>
#include <stdbool.h>
#include <stdio.h>
#include <stdlib.h>
#include <string.h>
#include <sys/stat.h>
#include <termios.h>
#include <unistd.h>

#define THE_REAL(name) ((__typeof__(&name))dlsym(RTLD_NEXT, #name))

static void call(const char *what) {
    static int calls;
    const char *file = getenv("SHIM_CALLS"), *kill_at = getenv("SHIM_KILL");
    calls++;
    if (kill_at != NULL && calls == atoi(kill_at))
        raise(SIGKILL);
    if (file == NULL)
        return;
    int fd = open(file, O_WRONLY | O_CREAT | O_APPEND, 0666);
    if (THE_REAL(write)(fd, what, strlen(what)) < 0 || THE_REAL(write)(fd, "\n", 1) < 0)
        abort();
    close(fd);
}

static int is_kind(int fd, mode_t kind) {
    struct stat about;
    return fstat(fd, &about) == 0 && (about.st_mode & S_IFMT) == kind;
}

ssize_t write(int fd, const void *bytes, size_t length) {
    if (isatty(fd))
        call("send");
    else if (is_kind(fd, S_IFREG))
        call("write");
    return THE_REAL(write)(fd, bytes, length);
}

int fsync(int fd) {
    bool is_folder = is_kind(fd, S_IFDIR);
    const char *slow = getenv("SHIM_SLOW");
    call(is_folder ? "fsync folder" : "fsync");
    if (slow != NULL && !is_folder)
        (void)usleep((useconds_t)atoi(slow) * 1000);
    return THE_REAL(fsync)(fd);
}

int rename(const char *from, const char *to) {
    call("rename");
    return THE_REAL(rename)(from, to);
}

int link(const char *from, const char *to) {
    call("link");
    return THE_REAL(link)(from, to);
}

int unlink(const char *name) {
    call("unlink");
    return THE_REAL(unlink)(name);
}

ssize_t read(int fd, void *bytes, size_t length) {
    static long passed;
    const char *faulty = getenv("SHIM_FAULTY");
    if (faulty == NULL || !isatty(fd))
        return THE_REAL(read)(fd, bytes, length);
    ssize_t came = THE_REAL(read)(fd, bytes, length - 2);
    long place = atol(faulty) - 1 - passed;
    passed += came > 0 ? came : 0;
    if (came <= 0 || place < 0 || place >= came)
        return came;
    unsigned char *at = (unsigned char *)bytes + place;
    memmove(at + 2, at, (size_t)(came - place));
    at[0] = 0xFF;
    at[1] = 0x00;
    return came + 2;
}

/* ---- a serial port -------------------------------------------------------------------------------------------------------------------------------------- */

static tcflag_t parity;

char *ttyname(int fd) {
    return getenv("SHIM_SERIAL") != NULL ? NULL : THE_REAL(ttyname)(fd);
}

int tcsetattr(int fd, int when, const struct termios *wanted) {
    struct termios possible = *wanted;
    if (getenv("SHIM_SERIAL") != NULL) {
        parity = wanted->c_cflag & PARENB;
        possible.c_cflag &= ~(tcflag_t)PARENB;
    }
    return THE_REAL(tcsetattr)(fd, when, &possible);
}

int tcgetattr(int fd, struct termios *taken) {
    int result = THE_REAL(tcgetattr)(fd, taken);
    taken->c_cflag |= parity;
    return result;
}
