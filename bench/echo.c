/* The floor that bench/serve.py measures beside a server: each of some threads takes one connection after another from a port, reads
 * and writes without blocking, and waits with epoll, 10 milliseconds at most. Each record of ONC RPC is answered with its own first
 * 36 bytes. usage: echo PORT THREADS */
#include <arpa/inet.h>
#include <errno.h>
#include <fcntl.h>
#include <netinet/tcp.h>
#include <pthread.h>
#include <stdint.h>
#include <stdio.h>
#include <stdlib.h>
#include <string.h>
#include <sys/epoll.h>
#include <sys/socket.h>
#include <unistd.h>

enum { REPLY = 36, MOST = 8192 };

static int listener;

static int attend(int poll, int socket)
{
    struct epoll_event event = {.events = EPOLLIN | EPOLLET};
    return epoll_ctl(poll, EPOLL_CTL_ADD, socket, &event);
}

static void wait_a_while(int poll)
{
    struct epoll_event event;
    epoll_wait(poll, &event, 1, 10);
}

/* Answers the records of a connection until it ends. */
static void serve(int socket)
{
    unsigned char bytes[2 * MOST];
    size_t count = 0;
    int poll = epoll_create1(0);
    attend(poll, socket);
    for (;;) {
        ssize_t got = read(socket, bytes + count, MOST);
        if (got == 0 || (got < 0 && errno != EAGAIN))
            break;
        if (got < 0) {
            wait_a_while(poll);
            continue;
        }
        count += got;
        while (count >= 4) {
            uint32_t length = (bytes[1] << 16 | bytes[2] << 8 | bytes[3]) + 4;
            if (length < REPLY || length > MOST || count < length)
                break;
            if (write(socket, bytes, REPLY) != REPLY)
                goto end;
            count -= length;
            memmove(bytes, bytes + length, count);
        }
    }
end:
    close(poll);
    close(socket);
}

static void *work(void *none)
{
    int poll = epoll_create1(0);
    attend(poll, listener);
    for (;;) {
        int one = 1;
        int socket = accept(listener, NULL, NULL);
        if (socket < 0) {
            wait_a_while(poll);
            continue;
        }
        fcntl(socket, F_SETFL, O_NONBLOCK);
        setsockopt(socket, IPPROTO_TCP, TCP_NODELAY, &one, sizeof one);
        serve(socket);
    }
    return none;
}

int main(int count, char **words)
{
    struct sockaddr_in address = {.sin_family = AF_INET};
    pthread_t thread;
    int one = 1;
    if (count != 3)
        return 2;
    address.sin_port = htons(atoi(words[1]));
    address.sin_addr.s_addr = htonl(INADDR_LOOPBACK);
    listener = socket(AF_INET, SOCK_STREAM | SOCK_NONBLOCK, 0);
    setsockopt(listener, SOL_SOCKET, SO_REUSEADDR, &one, sizeof one);
    if (bind(listener, (struct sockaddr *)&address, sizeof address) != 0 || listen(listener, 64) != 0)
        return 1;
    for (int i = 1; i < atoi(words[2]); i++)
        pthread_create(&thread, NULL, work, NULL);
    work(NULL);
    return 0;
}
