// Sends a text so often to a port of the loopback, and prints the seconds until so many answers came back for each.
//
//   client PORT single|bulk TIMES ANSWERS FILE [FIRST BYTES]
//
// single: the next one is sent when the answers to the last have come; bulk: all are sent while answers are read. ANSWERS is how
// many bytes come back for each text; FIRST is a file that is sent before the clock starts, and answered by BYTES bytes.
#include <arpa/inet.h>
#include <netinet/tcp.h>
#include <poll.h>
#include <stdio.h>
#include <stdlib.h>
#include <string.h>
#include <time.h>
#include <unistd.h>
#include <fcntl.h>

static char text[1 << 22], block[1 << 16];

static long read_file(const char *name) {
    FILE *file = fopen(name, "rb");
    long size = file ? (long)fread(text, 1, sizeof text, file) : -1;
    if (file)
        fclose(file);
    return size;
}

static void send_all(int link, const char *from, long size) {
    for (long done = 0, n; done < size; done += n)
        if ((n = write(link, from + done, size - done)) <= 0)
            exit(2);
}

static void hear(int link, long bytes) {
    for (long n; bytes > 0; bytes -= n)
        if ((n = read(link, block, bytes < (long)sizeof block ? bytes : (long)sizeof block)) <= 0)
            exit(3);
}

static double now(void) {
    struct timespec t;
    clock_gettime(CLOCK_MONOTONIC, &t);
    return t.tv_sec + t.tv_nsec / 1e9;
}

static void bulk(int link, long times, long size, long answers) {
    long sent = 0, to_send = times * size, to_hear = times * answers;
    fcntl(link, F_SETFL, O_NONBLOCK);
    while (to_hear > 0) {
        struct pollfd look = {link, POLLIN | (sent < to_send ? POLLOUT : 0), 0};
        poll(&look, 1, -1);
        if (look.revents & POLLIN) {
            long n = read(link, block, sizeof block);
            if (n <= 0)
                exit(4);
            to_hear -= n;
        }
        if (look.revents & POLLOUT) {
            long at = sent % size, n = write(link, text + at, size - at);
            if (n > 0)
                sent += n;
        }
    }
}

int main(int count, char **words) {
    struct sockaddr_in at = {.sin_family = AF_INET, .sin_addr.s_addr = htonl(INADDR_LOOPBACK), .sin_port = htons(atoi(words[1]))};
    int one = 1, link = socket(AF_INET, SOCK_STREAM, 0);
    long times = atol(words[3]), answers = atol(words[4]);
    if (connect(link, (struct sockaddr *)&at, sizeof at))
        return 1;
    setsockopt(link, IPPROTO_TCP, TCP_NODELAY, &one, sizeof one);
    if (count > 6) {
        long first = read_file(words[6]);
        send_all(link, text, first);
        hear(link, atol(words[7]));
    }
    long size = read_file(words[5]);
    double start = now();
    if (strcmp(words[2], "bulk"))
        for (long i = 0; i < times; i++) {
            send_all(link, text, size);
            hear(link, answers);
        }
    else
        bulk(link, times, size, answers);
    printf("%.6f\n", now() - start);
    close(link);
    return 0;
}
