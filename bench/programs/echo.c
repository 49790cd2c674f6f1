// Serves two peers of the loopback, one after the other, until each sends no more. Prints the port first.
//
//   echo blocks|lines      gives back what was read; or answers each line by one write of three bytes
#include <arpa/inet.h>
#include <netinet/tcp.h>
#include <stdio.h>
#include <unistd.h>

static int send_all(int link, const char *from, ssize_t size) {
    for (ssize_t done = 0, n; done < size; done += n)
        if ((n = write(link, from + done, size - done)) <= 0)
            return 1;
    return 0;
}

int main(int count, char **words) {
    int lines = count > 1 && words[1][0] == 'l';
    struct sockaddr_in at = {.sin_family = AF_INET, .sin_addr.s_addr = htonl(INADDR_LOOPBACK)};
    socklen_t size = sizeof at;
    int listener = socket(AF_INET, SOCK_STREAM, 0);
    if (listener < 0 || bind(listener, (struct sockaddr *)&at, size) || listen(listener, 8)
        || getsockname(listener, (struct sockaddr *)&at, &size))
        return 1;
    printf("%d\n", ntohs(at.sin_port));
    fflush(stdout);
    for (int links = 0; links < 2; links++) {
        int one = 1, link = accept(listener, 0, 0);
        static char block[65536];
        ssize_t n;
        setsockopt(link, IPPROTO_TCP, TCP_NODELAY, &one, sizeof one);
        while ((n = read(link, block, sizeof block)) > 0) {
            if (!lines && send_all(link, block, n))
                return 1;
            for (ssize_t i = 0; lines && i < n; i++)
                if (block[i] == '\n' && send_all(link, "OK\n", 3))
                    return 1;
        }
        close(link);
    }
    return 0;
}
