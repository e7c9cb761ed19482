// Sends a generated script's requests to two servers of the network block device protocol, one for each partition: a
// connection for each session, and as many requests in flight as the script has before each `wait`. Prints how many requests
// were answered well.
// load_nbd SCRIPT SOCKET1 SOCKET2
#include <endian.h>
#include <pthread.h>
#include <stdint.h>
#include <stdio.h>
#include <stdlib.h>
#include <string.h>
#include <sys/socket.h>
#include <sys/un.h>
#include <unistd.h>

enum { BLOCK = 512, PAGES = 8, SESSIONS = 16, IN_FLIGHT = 16, LONGEST = 4 * BLOCK };
enum { READ = 0, WRITE = 1, FLUSH = 3, TRIM = 4 };

struct request {
    int command;
    unsigned buffer, block, count;
};

struct session {
    unsigned part, fill, count, answered;
    struct request requests[2048];
};

struct __attribute__((packed)) head {
    uint32_t magic;
    uint16_t flags, command;
    uint64_t cookie, offset;
    uint32_t length;
};

struct __attribute__((packed)) reply {
    uint32_t magic, error;
    uint64_t cookie;
};

static struct session sessions[SESSIONS];
static unsigned session_count;
static const char *sockets[2];

static void need(int is_so, const char *what)
{
    if (!is_so) {
        fprintf(stderr, "load_nbd: %s\n", what);
        exit(1);
    }
}

static void get(int server, void *bytes, size_t size)
{
    need(size == 0 || recv(server, bytes, size, MSG_WAITALL) == (ssize_t)size, "the server sent too little");
}

static void put(int server, const void *bytes, size_t size)
{
    need(send(server, bytes, size, MSG_NOSIGNAL) == (ssize_t)size, "the server took too little");
}

// Connects, and asks for the default export without options.
static int reach(const char *path)
{
    struct sockaddr_un name = {.sun_family = AF_UNIX};
    struct __attribute__((packed)) { uint64_t magic, version; uint16_t flags; } hello;
    struct __attribute__((packed)) { uint32_t flags; uint64_t version; uint32_t option, length; } ask;
    struct __attribute__((packed)) { uint64_t size; uint16_t flags; } export;
    int server = socket(AF_UNIX, SOCK_STREAM, 0);
    strncpy(name.sun_path, path, sizeof name.sun_path - 1);
    need(server >= 0 && connect(server, (struct sockaddr *)&name, sizeof name) == 0, "no server");
    get(server, &hello, sizeof hello);
    need(be16toh(hello.flags) & 2, "the server doesn't leave out zeroes");
    ask.flags = htobe32(3);
    ask.version = hello.version;
    ask.option = htobe32(1);
    ask.length = 0;
    put(server, &ask, sizeof ask);
    get(server, &export, sizeof export);
    return server;
}

static void ask_for(int server, const struct request *request, unsigned index, const unsigned char *buffer)
{
    unsigned char bytes[sizeof(struct head) + LONGEST];
    unsigned length = request->count * BLOCK;
    unsigned sent = request->command == WRITE ? length : 0;
    struct head head = {htobe32(0x25609513), 0, htobe16(request->command), index,
                        htobe64((uint64_t)request->block * BLOCK), htobe32(length)};
    memcpy(bytes, &head, sizeof head);
    memcpy(bytes + sizeof head, buffer + request->buffer * BLOCK, sent);
    put(server, bytes, sizeof head + sent);
}

static void *play(void *given)
{
    struct session *session = given;
    unsigned char buffer[PAGES * BLOCK];
    int server = reach(sockets[session->part - 1]);
    memset(buffer, session->fill, sizeof buffer);
    for (unsigned index = 0; index < session->count; index += IN_FLIGHT) {
        unsigned end = index + IN_FLIGHT < session->count ? index + IN_FLIGHT : session->count;
        for (unsigned i = index; i < end; i++)
            ask_for(server, &session->requests[i], i, buffer);
        for (unsigned i = index; i < end; i++) {
            struct reply reply;
            get(server, &reply, sizeof reply);
            need(be32toh(reply.magic) == 0x67446698 && reply.cookie < session->count, "no reply");
            const struct request *request = &session->requests[reply.cookie];
            if (request->command == READ && !reply.error)
                get(server, buffer + request->buffer * BLOCK, request->count * BLOCK);
            session->answered += !reply.error;
        }
    }
    close(server);
    return NULL;
}

static void read_script(FILE *script)
{
    char line[128];
    struct session *session = NULL;
    while (fgets(line, sizeof line, script)) {
        struct request request = {FLUSH, 0, 0, 0};
        unsigned number, part;
        if (sscanf(line, "session %u", &part) == 1) {
            session = &sessions[session_count++];
            session->part = part;
        } else if (sscanf(line, "fill 1 0 8 %x", &number) == 1)
            session->fill = number;
        else {
            if (sscanf(line, "read %u 1 %u %u %u", &number, &request.buffer, &request.block, &request.count) == 4)
                request.command = READ;
            else if (sscanf(line, "write %u 1 %u %u %u", &number, &request.buffer, &request.block, &request.count) == 4)
                request.command = WRITE;
            else if (sscanf(line, "trim %u %u %u", &number, &request.block, &request.count) == 3)
                request.command = TRIM;
            else if (sscanf(line, "flush %u", &number) != 1)
                continue;
            session->requests[session->count++] = request;
        }
    }
}

int main(int count, char **words)
{
    FILE *script = count == 4 ? fopen(words[1], "r") : NULL;
    pthread_t thread[SESSIONS];
    unsigned answered = 0;
    need(script != NULL, "load_nbd SCRIPT SOCKET1 SOCKET2");
    sockets[0] = words[2];
    sockets[1] = words[3];
    read_script(script);
    for (unsigned s = 0; s < session_count; s++)
        need(pthread_create(&thread[s], NULL, play, &sessions[s]) == 0, "no thread");
    for (unsigned s = 0; s < session_count; s++) {
        pthread_join(thread[s], NULL);
        answered += sessions[s].answered;
    }
    printf("%u\n", answered);
    return 0;
}
