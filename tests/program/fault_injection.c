/* Loaded in front of the C library, it says on the descriptor 3 each call of a program that has to do with sockets,
   copies a descriptor, reads, writes or reads the clock, of a wait that is set its microseconds, and whether
   receives are set to answer at once (1) or not (0). The call with the number FAILED, from 1, fails by the error
   ERRNO. Where SHORT is set, a send that fails sends all, and says that it sent an octet less. Where ONE_OCTET is
   set, a read gives at most one octet. The request for memory with the number REFUSED fails, and is said. By the
   clock only waits take time: each receive that does not fail takes what was set, unless it answers at once. A call
   of the system that is not on the list ALLOWED is said with its number, and ends the program: the kernel itself
   looks for them, so none is made past this library. */
#define _GNU_SOURCE
#include <asm/ioctls.h>
#include <dlfcn.h>
#include <errno.h>
#include <linux/filter.h>
#include <linux/seccomp.h>
#include <signal.h>
#include <stddef.h>
#include <stdio.h>
#include <stdlib.h>
#include <string.h>
#include <sys/prctl.h>
#include <sys/socket.h>
#include <sys/syscall.h>
#include <sys/time.h>
#include <time.h>
#include <unistd.h>

static int sees_clock, at_once;
static long wait_set, waited; /* in microseconds */

static long setting(const char *name) {
    const char *number = getenv(name);
    return number ? atol(number) : 0;
}

/* Not by dprintf, which makes a request for memory of its own. */
static void say(const char *word) {
    (void)!syscall(SYS_write, 3, word, strlen(word));
    (void)!syscall(SYS_write, 3, " ", 1);
}

static int fails(const char *name) {
    static long calls;
    say(name);
    if (++calls != setting("FAILED"))
        return 0;
    errno = setting("ERRNO");
    return 1;
}

/* Says a number in this form, which is no failure. */
static int told(const char *form, long number) {
    char text[40];
    snprintf(text, sizeof text, form, number);
    say(text);
    return 0;
}

static long micros_of(const struct timeval *wait) {
    return wait->tv_sec * 1000000 + wait->tv_usec;
}

static int is_refused(void) {
    static long requests;
    if (++requests != setting("REFUSED"))
        return 0;
    say("memory");
    errno = ENOMEM;
    return 1;
}

/* A call with these parameters: where it fails it answers this, and else it hands these words to the C library. The
   program takes no other call of this kind from there (tests/package/imports.txt). */
#define CALL(type, name, parameters, fails, failed, words) \
    type name parameters { \
        static type (*next) parameters; \
        if (!next) \
            next = (type (*) parameters)dlsym(RTLD_NEXT, #name); \
        return fails ? failed : next words; \
    }

CALL(int, socket, (int domain, int type, int protocol), (sees_clock = 1, fails("socket")), -1, (domain, type, protocol))
CALL(int, bind, (int fd, const struct sockaddr *at, socklen_t length), fails("bind"), -1, (fd, at, length))
CALL(int, fcntl, (int fd, int command, long with), fails("fcntl"), -1, (fd, command, with))
CALL(int, ioctl, (int fd, unsigned long request, const int *with),
     fails("ioctl") || (request == FIONBIO && told("%ld", at_once = *with)), -1, (fd, request, with))
CALL(int, setsockopt, (int fd, int level, int name, const void *value, socklen_t length),
     fails("setsockopt") || (level == SOL_SOCKET && name == SO_RCVTIMEO && told("%ld", wait_set = micros_of(value))),
     -1, (fd, level, name, value, length))
CALL(ssize_t, sendto,
     (int fd, const void *octets, size_t count, int flags, const struct sockaddr *to, socklen_t length),
     fails("sendto"), getenv("SHORT") ? next(fd, octets, count, flags, to, length) - 1 : -1,
     (fd, octets, count, flags, to, length))
CALL(ssize_t, recvfrom, (int fd, void *octets, size_t count, int flags, struct sockaddr *from, socklen_t *length),
     fails("recvfrom") || (waited += at_once ? 0 : wait_set, 0), -1, (fd, octets, count, flags, from, length))
CALL(ssize_t, read, (int fd, void *octets, size_t count), fails("read"), -1,
     (fd, octets, count > 1 && getenv("ONE_OCTET") ? 1 : count))
CALL(ssize_t, write, (int fd, const void *octets, size_t count), fails(fd == 2 ? "tell" : "write"), -1,
     (fd, octets, count))
CALL(void *, malloc, (size_t size), is_refused(), NULL, (size))
CALL(void *, realloc, (void *old, size_t size), is_refused(), NULL, (old, size))

/* What a program may ask of the system once it has begun: the calls that are said above, to let a descriptor go,
   memory, how a signal is taken, and the end. The kernel stops each other call by a signal. */
#define MAY(call) BPF_JUMP(BPF_JMP | BPF_JEQ | BPF_K, SYS_##call, 0, 1), BPF_STMT(BPF_RET | BPF_K, SECCOMP_RET_ALLOW)

static struct sock_filter ALLOWED[] = {
    BPF_STMT(BPF_LD | BPF_W | BPF_ABS, offsetof(struct seccomp_data, nr)),
    MAY(read), MAY(write), MAY(socket), MAY(bind), MAY(fcntl), MAY(setsockopt), MAY(ioctl), MAY(sendto), MAY(recvfrom),
    MAY(clock_gettime), MAY(close), MAY(brk), MAY(mmap), MAY(munmap), MAY(mremap), MAY(mprotect), MAY(madvise),
    MAY(getrandom), MAY(rt_sigaction), MAY(rt_sigprocmask), MAY(rt_sigreturn), MAY(exit_group),
    BPF_STMT(BPF_RET | BPF_K, SECCOMP_RET_TRAP),
};

static void not_allowed(int number, siginfo_t *call, void *where) {
    (void)number, (void)where;
    told("call-%ld", call->si_syscall);
    _exit(99);
}

__attribute__((constructor)) static void begin(void) {
    struct sigaction action = {.sa_sigaction = not_allowed, .sa_flags = SA_SIGINFO};
    struct sock_fprog program = {.len = sizeof ALLOWED / sizeof *ALLOWED, .filter = ALLOWED};
    sees_clock = !getenv("TRIED");
    if (sigaction(SIGSYS, &action, NULL) || prctl(PR_SET_NO_NEW_PRIVS, 1, 0, 0, 0) ||
        prctl(PR_SET_SECCOMP, SECCOMP_MODE_FILTER, &program))
        say("unwatched");
}

/* Not by dlsym: what watches the memory of a program reads the clock before this library can be asked. It does so for
   requests for memory, too, so of a program with TRIED the clock is seen once it has opened a socket. */
int clock_gettime(clockid_t clock, struct timespec *now) {
    if (!sees_clock)
        return (int)syscall(SYS_clock_gettime, clock, now);
    *now = (struct timespec){waited / 1000000, waited % 1000000 * 1000};
    return fails("clock_gettime") ? -1 : 0;
}
