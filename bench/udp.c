/* The yardsticks of the device and of its clients, as measure.py calls them.
 * udp bacdev 1234 --port PORT: sends each datagram back to where it came from, with bacdev's words and addresses.
 * udp load PORT OUTSTANDING COUNT: asks a server for one property, COUNT times, OUTSTANDING at a time, and prints how
 *     many requests it answers a second.
 * udp batch PORT OUTSTANDING COUNT: the same by the calls that bacrun's contract wants. The socket has no peer, the
 *     time is read before each look for a datagram, and the journal, of as many octets as bacrun's, is written before
 *     each wait and when 16 KiB are held. It goes to standard output, and the number to standard error. */
#include <arpa/inet.h>
#include <err.h>
#include <stdio.h>
#include <stdlib.h>
#include <string.h>
#include <sys/ioctl.h>
#include <sys/socket.h>
#include <time.h>
#include <unistd.h>

/* ReadProperty: the present value of analog input 5. The invoke id stands here, and in the answer an octet before. */
static unsigned char request[] = { 0x81, 0x0a, 0x00, 0x11, 0x01, 0x04, 0x00, 0x05, 0x00, 0x0c,
                                   0x0c, 0x00, 0x00, 0x00, 0x05, 0x19, 0x55 };
enum { INVOKE_ID = 8, ANSWER = 23, ASKED_TEXT = 90, ANSWERED_TEXT = 89, MOST_HELD = 16384 };

/* The last datagram that was received. */
static unsigned char octets[2048];
static struct sockaddr_in from;

static double seconds_now(void) {
    struct timespec now;
    clock_gettime(CLOCK_MONOTONIC, &now);
    return now.tv_sec + now.tv_nsec / 1e9;
}

static size_t written(size_t held) {
    static char journal[MOST_HELD + 64 * ASKED_TEXT];
    memset(journal, 'x', held);
    if (write(1, journal, held) < 0)
        err(1, "write");
    return 0;
}

/* The next datagram, at once or after a wait; the system is asked only if the last one was received in another way. */
static ssize_t received(int client, int at_once) {
    static int was_at_once;
    socklen_t size = sizeof from;
    if (at_once != was_at_once && ioctl(client, FIONBIO, &at_once) != 0)
        err(1, "ioctl");
    was_at_once = at_once;
    return recvfrom(client, octets, sizeof octets, 0, (struct sockaddr *)&from, &size);
}

static void echo(int server) {
    for (;;) {
        ssize_t length = received(server, 0);
        if (length < 0 || sendto(server, octets, length, 0, (struct sockaddr *)&from, sizeof from) != length)
            err(1, "echo");
    }
}

/* The next datagram, by the calls that bacrun's contract wants. */
static ssize_t looked(int client, size_t *held) {
    seconds_now();
    ssize_t length = received(client, 1);
    if (length < 0 || *held > MOST_HELD)
        *held = written(*held);
    return length < 0 ? received(client, 0) : length;
}

/* How many requests are answered a second: by a socket that has its peer, or, with an address, by bacrun's calls. */
static double rate(int client, const struct sockaddr_in *to, long outstanding, long count) {
    double begun = seconds_now();
    socklen_t size = to ? sizeof *to : 0;
    long asked = 0;
    size_t held = 0;
    for (long answered = 0; answered < count; answered++) {
        for (; asked < count && asked < answered + outstanding; asked++, held += ASKED_TEXT) {
            request[INVOKE_ID] = asked;
            if (sendto(client, request, sizeof request, 0, (struct sockaddr *)to, size) != sizeof request)
                err(1, "send");
        }
        ssize_t length = to ? looked(client, &held) : recv(client, octets, sizeof octets, 0);
        int at = length == sizeof request ? INVOKE_ID : INVOKE_ID - 1;
        if ((length != sizeof request && length != ANSWER) || octets[at] != answered % 256)
            errx(1, "not the answer to request %ld, but %zd octets", answered, length);
        held += ANSWERED_TEXT;
    }
    if (to)
        written(held);
    return count / (seconds_now() - begun);
}

int main(int count, char **words) {
    if (count != 5)
        errx(2, "usage: udp bacdev 1234 --port PORT, or udp load|batch PORT OUTSTANDING COUNT");
    int is_echo = strcmp(words[1], "bacdev") == 0, is_batch = strcmp(words[1], "batch") == 0;
    int made = socket(AF_INET, SOCK_DGRAM, 0);
    struct sockaddr_in place = { .sin_family = AF_INET, .sin_port = htons(atoi(words[is_echo ? 4 : 2])) };
    struct timeval wait = { .tv_sec = 10 };
    place.sin_addr.s_addr = htonl(is_echo ? INADDR_ANY : INADDR_LOOPBACK);
    if (setsockopt(made, SOL_SOCKET, SO_RCVTIMEO, &wait, sizeof wait) != 0
        || (!is_batch && (is_echo ? bind : connect)(made, (struct sockaddr *)&place, sizeof place) != 0))
        err(1, "socket");
    if (is_echo)
        echo(made);
    fprintf(is_batch ? stderr : stdout, "%.0f\n", rate(made, is_batch ? &place : NULL, atol(words[3]), atol(words[4])));
}
