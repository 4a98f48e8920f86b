/* Clients of `tgdoc serve`, as redis-benchmark's are of Redis: each sends so many commands at once, waits for all of
 * their answers, and sends the next. One thread.
 *
 * load PORT CLIENTS OUTSTANDING COMMANDS: reads of a document of 8 bytes, a document for each client. Prints the commands
 * a second, without what comes before them; stops with status 1 if an answer is another one.
 */

#include <arpa/inet.h>
#include <errno.h>
#include <netinet/tcp.h>
#include <stdio.h>
#include <stdlib.h>
#include <string.h>
#include <sys/epoll.h>
#include <sys/socket.h>
#include <time.h>
#include <unistd.h>

static const char ANSWER[] = "{\"ok\":\"text\",\"text\":\"12345678\"}\n";
enum { ANSWER_BYTES = sizeof ANSWER - 1, MOST_OUTSTANDING = 1024, LINE_BYTES = 64 };

struct client {
    int socket;
    char line[LINE_BYTES];
    size_t line_bytes;
    long received; /* bytes of the answers to the commands that are outstanding */
};

static void stop(const char *why)
{
    perror(why);
    exit(1);
}

static double now(void)
{
    struct timespec time;
    clock_gettime(CLOCK_MONOTONIC, &time);
    return time.tv_sec + time.tv_nsec / 1e9;
}

static void send_all(int socket, const char *bytes, size_t count)
{
    while (count > 0) {
        ssize_t sent = send(socket, bytes, count, MSG_NOSIGNAL);
        if (sent < 0)
            stop("send");
        bytes += sent;
        count -= sent;
    }
}

/* Sends a line and takes its answer, one byte at a time. */
static void ask(int socket, const char *line, char *answer, size_t room)
{
    size_t at = 0;
    send_all(socket, line, strlen(line));
    do {
        if (at + 1 == room || recv(socket, answer + at, 1, 0) != 1)
            stop("recv");
    } while (answer[at++] != '\n');
    answer[at] = 0;
}

/* A connection with a document of its own. */
static void begin(struct client *client, int port)
{
    char line[256], answer[256];
    long serial;
    int one = 1;
    struct sockaddr_in address = {.sin_family = AF_INET, .sin_port = htons(port)};
    address.sin_addr.s_addr = htonl(INADDR_LOOPBACK);
    client->socket = socket(AF_INET, SOCK_STREAM, 0);
    if (client->socket < 0 || connect(client->socket, (struct sockaddr *)&address, sizeof address) != 0)
        stop("connect");
    setsockopt(client->socket, IPPROTO_TCP, TCP_NODELAY, &one, sizeof one);
    ask(client->socket, "{\"op\":\"hello\",\"name\":\"alice\"}\n", answer, sizeof answer);
    ask(client->socket, "{\"op\":\"create\",\"kind\":\"document\",\"rights\":\"rw\"}\n", answer, sizeof answer);
    if (sscanf(answer, "{\"ok\":\"created\",\"vertex\":%ld}", &serial) != 1)
        stop(answer);
    snprintf(line, sizeof line, "{\"op\":\"write\",\"over\":%ld,\"text\":\"12345678\"}\n", serial);
    ask(client->socket, line, answer, sizeof answer);
    client->line_bytes = snprintf(client->line, LINE_BYTES, "{\"op\":\"read\",\"over\":%ld}\n", serial);
    client->received = 0;
}

static void send_commands(struct client *client, int count)
{
    static char bytes[MOST_OUTSTANDING * LINE_BYTES];
    for (int i = 0; i < count; i++)
        memcpy(bytes + i * client->line_bytes, client->line, client->line_bytes);
    client->received = 0;
    send_all(client->socket, bytes, count * client->line_bytes);
}

/* Takes what is there; whether it was the last of what is outstanding. */
static int take_answers(struct client *client, int count)
{
    static char bytes[MOST_OUTSTANDING * ANSWER_BYTES];
    ssize_t got = recv(client->socket, bytes, sizeof bytes, 0);
    if (got <= 0)
        stop("recv");
    for (ssize_t i = 0; i < got; i++)
        if (bytes[i] != ANSWER[(client->received + i) % ANSWER_BYTES]) {
            fprintf(stderr, "another answer: %.*s\n", (int)got, bytes);
            exit(1);
        }
    client->received += got;
    return client->received == (long)count * ANSWER_BYTES;
}

/* Plays the commands; how many a second were answered. */
static double play(struct client *clients, int count, int outstanding, long commands)
{
    struct epoll_event events[64];
    int poll = epoll_create1(0);
    long sent = 0, answered = 0;
    for (int i = 0; i < count; i++) {
        struct epoll_event event = {.events = EPOLLIN, .data.ptr = &clients[i]};
        if (epoll_ctl(poll, EPOLL_CTL_ADD, clients[i].socket, &event) != 0)
            stop("epoll_ctl");
    }
    double start = now();
    for (int i = 0; i < count; i++, sent += outstanding)
        send_commands(&clients[i], outstanding);
    while (answered < sent) {
        int ready = epoll_wait(poll, events, 64, -1);
        if (ready < 0 && errno != EINTR)
            stop("epoll_wait");
        for (int i = 0; i < ready; i++) {
            struct client *client = events[i].data.ptr;
            if (!take_answers(client, outstanding))
                continue;
            answered += outstanding;
            if (sent < commands) {
                sent += outstanding;
                send_commands(client, outstanding);
            }
        }
    }
    return answered / (now() - start);
}

int main(int count, char **words)
{
    if (count != 5)
        return 2;
    int clients = atoi(words[2]), outstanding = atoi(words[3]);
    if (clients < 1 || clients > 63 || outstanding < 1 || outstanding > MOST_OUTSTANDING)
        return 2;
    struct client *all = calloc(clients, sizeof *all);
    for (int i = 0; i < clients; i++)
        begin(&all[i], atoi(words[1]));
    printf("%.0f\n", play(all, clients, outstanding, atol(words[4])));
    return 0;
}
