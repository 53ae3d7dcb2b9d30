/* A status packet of the hut's own: UDP over IPv4 or IPv6, printed in hex or sent.
 *
 *     cc status.c -I../../include libhifrostum.a -o status
 *     ./status 192.168.0.1 5000 192.168.0.199 5001 64 'altitude 1200 metres'
 *     ./status --send 192.168.0.1 5000 192.168.0.199 5001 64 'altitude 1200 metres'
 */
#include <arpa/inet.h>
#include <errno.h>
#include <netinet/in.h>
#include <stdio.h>
#include <string.h>
#include <sys/socket.h>
#include <unistd.h>

#include "hifrostum.h"

enum { ON_A_LINE = 30 };

static const char usage[] =
    "usage: status [--send] SOURCE PORT DESTINATION PORT LIFETIME TEXT\n"
    "Builds one UDP packet whose body is TEXT, from SOURCE and its port to DESTINATION and its\n"
    "port, and prints it from the IP header on: in hex, 30 bytes on a line, as `xxd -r -p` reads\n"
    "it. With --send it is sent by a raw socket instead, which needs root or CAP_NET_RAW.\n"
    "Both addresses are IPv4 or both IPv6, a port is 0 to 65535, LIFETIME 1 to 255, and TEXT has\n"
    "at most 1400 bytes. Exit status: 0 printed or sent, 1 a failed write or send, 2 wrong\n"
    "usage.\n";

/* What the packet is built of. An address has 4 bytes or 16. */
struct status {
    uint8_t source[16], destination[16];
    size_t source_len, destination_len;
    unsigned source_port, destination_port, lifetime;
    const char *text;
};

/* Reads an address as people write it. Answers 0, and says so, if it is none. */
static int read_address(const char *text, uint8_t address[16], size_t *len)
{
    *len = inet_pton(AF_INET, text, address) == 1 ? 4 : 16;
    if (*len == 4 || inet_pton(AF_INET6, text, address) == 1)
        return 1;
    fprintf(stderr, "status: %s is no address, such as 192.168.0.1 or 2001:db8::1\n", text);
    return 0;
}

/* Reads a number in decimal digits. Answers 0, and says so, if it is none or too great. */
static int read_number(const char *text, const char *what, unsigned most, unsigned *number)
{
    size_t digits = strspn(text, "0123456789");
    *number = 0;
    for (size_t i = 0; i < digits && *number <= most; i++)
        *number = 10 * *number + (unsigned)(text[i] - '0');
    if (digits > 0 && text[digits] == '\0' && *number <= most)
        return 1;
    fprintf(stderr, "status: %s is no %s, which is a number up to %u\n", text, what, most);
    return 0;
}

/* Reads the six words. Answers 0 at the first that is wrong. */
static int read_words(char **words, struct status *s)
{
    s->text = words[5];
    return read_address(words[0], s->source, &s->source_len) &&
           read_number(words[1], "port", 65535, &s->source_port) &&
           read_address(words[2], s->destination, &s->destination_len) &&
           read_number(words[3], "port", 65535, &s->destination_port) &&
           read_number(words[4], "lifetime", 255, &s->lifetime);
}

/* Why the library refused. */
static const char *reason(const struct status *s, uint8_t verdict)
{
    if (verdict == HIFROSTUM_PLACE && s->source_len != s->destination_len)
        return "one address is IPv4 and the other IPv6";
    if (verdict == HIFROSTUM_PLACE)
        return "the text has more than 1400 bytes";
    return verdict == HIFROSTUM_SPENT ? "a lifetime of 0 is spent" : "the buffer is too short";
}

/* Builds the packet. Answers its length, or 0, and says why, where the library refuses. */
static size_t build(const struct status *s, uint8_t packet[HIFROSTUM_PACKET_MOST])
{
    size_t length;
    uint8_t verdict = hifrostum_build_udp(
        s->source, s->source_len, s->destination, s->destination_len, (uint16_t)s->source_port,
        (uint16_t)s->destination_port, (uint8_t)s->lifetime, (const uint8_t *)s->text,
        strlen(s->text), packet, HIFROSTUM_PACKET_MOST, &length);
    if (verdict != HIFROSTUM_GOOD)
        fprintf(stderr, "status: refused: %s\n", reason(s, verdict));
    return length;
}

/* Prints bytes in hex. Answers 0, and says so, if that failed. */
static int print(const uint8_t *packet, size_t len)
{
    for (size_t i = 1; i <= len; i++)
        printf("%02x%s", packet[i - 1], i % ON_A_LINE == 0 || i == len ? "\n" : "");
    if (fflush(stdout) == 0 && !ferror(stdout))
        return 1;
    fprintf(stderr, "status: writing failed: %s\n", strerror(errno));
    return 0;
}

/* Sends a packet that has its IP header: that is what IPPROTO_RAW means, over both families. The
 * address handed to the socket says which way it goes, and its port must be 0. Answers 0, and says
 * so, if that failed. */
static int send_raw(const struct status *s, const uint8_t *packet, size_t len)
{
    struct sockaddr_in four = {.sin_family = AF_INET};
    struct sockaddr_in6 six = {.sin6_family = AF_INET6};
    const void *to = s->destination_len == 4 ? (void *)&four : (void *)&six;
    socklen_t to_len = s->destination_len == 4 ? sizeof four : sizeof six;
    void *address = s->destination_len == 4 ? (void *)&four.sin_addr : (void *)&six.sin6_addr;
    memcpy(address, s->destination, s->destination_len);

    int raw = socket(s->destination_len == 4 ? AF_INET : AF_INET6, SOCK_RAW, IPPROTO_RAW);
    if (raw < 0) {
        fprintf(stderr, "status: no raw socket, which needs root or CAP_NET_RAW: %s\n",
                strerror(errno));
        return 0;
    }
    int sent = sendto(raw, packet, len, 0, to, to_len) == (ssize_t)len;
    if (sent)
        fprintf(stderr, "status: sent %zu bytes\n", len);
    else
        fprintf(stderr, "status: sending failed: %s\n", strerror(errno));
    close(raw);
    return sent;
}

int main(int argc, char **argv)
{
    struct status s;
    uint8_t packet[HIFROSTUM_PACKET_MOST];
    int sends = argc > 1 && strcmp(argv[1], "--send") == 0;
    if (argc == 2 && strcmp(argv[1], "--help") == 0)
        return fputs(usage, stdout) < 0 || fflush(stdout) != 0;
    if (argc != 7 + sends) {
        fputs(usage, stderr);
        return 2;
    }
    size_t len = read_words(argv + 1 + sends, &s) ? build(&s, packet) : 0;
    if (len == 0)
        return 2;
    int done = sends ? send_raw(&s, packet, len) : print(packet, len);
    return done ? 0 : 1;
}
