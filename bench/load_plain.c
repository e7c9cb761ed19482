// Plays a generated script as a plain program would: the disk in memory behind one mutex, the bytes of each step kept, and so
// many threads, each of which takes the next session. Prints the summary that `load` prints.
// load_plain IMAGE SCRIPT THREADS
#include <pthread.h>
#include <stdio.h>
#include <stdlib.h>
#include <string.h>

enum { BLOCK = 512, PAGES = 8, SESSIONS = 16 };

struct request {
    char op;
    unsigned buffer, block, count;
};

struct session {
    unsigned part, fill, count;
    struct request requests[2048];
};

struct step {
    struct step *next;
    char op;
    unsigned session, index, block;
    unsigned char bytes[];
};

static struct session sessions[SESSIONS];
static unsigned session_count, next_session;
static unsigned char *disk;
static pthread_mutex_t disk_lock = PTHREAD_MUTEX_INITIALIZER;
static pthread_mutex_t next_lock = PTHREAD_MUTEX_INITIALIZER;
static struct step *steps, **last_step = &steps;
static unsigned long step_count;

static void *memory(size_t size)
{
    void *taken = malloc(size);
    if (!taken)
        exit(8);
    return taken;
}

// Keeps a step, under the disk's lock.
static void keep(char op, unsigned session, unsigned index, unsigned block, const unsigned char *bytes)
{
    struct step *step = memory(sizeof *step + (bytes ? BLOCK : 0));
    *step = (struct step){NULL, op, session, index, block};
    if (bytes)
        memcpy(step->bytes, bytes, BLOCK);
    *last_step = step;
    last_step = &step->next;
    step_count++;
}

static void carry_out(unsigned number, unsigned index, unsigned first, unsigned char *buffer)
{
    const struct request *request = &sessions[number].requests[index];
    pthread_mutex_lock(&disk_lock);
    if (request->op == 'f')
        keep('f', number, index, 0, NULL);
    for (unsigned k = 0; k < request->count; k++) {
        unsigned block = first + request->block + k;
        unsigned char *on_disk = disk + (size_t)block * BLOCK;
        unsigned char *page = buffer + (size_t)(request->buffer + k) * BLOCK;
        if (request->op == 'r')
            memcpy(page, on_disk, BLOCK);
        else if (request->op == 'w')
            memcpy(on_disk, page, BLOCK);
        else
            memset(on_disk, 0, BLOCK);
        keep(request->op, number, index, block, request->op == 't' ? NULL : on_disk);
    }
    pthread_mutex_unlock(&disk_lock);
}

static void *play(void *unused)
{
    unsigned char buffer[PAGES * BLOCK];
    (void)unused;
    for (;;) {
        pthread_mutex_lock(&next_lock);
        unsigned number = next_session++;
        pthread_mutex_unlock(&next_lock);
        if (number >= session_count)
            return NULL;
        const struct session *session = &sessions[number];
        // The first block of the partition, from the primary table.
        unsigned first;
        memcpy(&first, disk + 2 * BLOCK + (session->part - 1) * 128 + 32, sizeof first);
        memset(buffer, session->fill, sizeof buffer);
        for (unsigned index = 0; index < session->count; index++)
            carry_out(number, index, first, buffer);
    }
}

static void read_script(FILE *script)
{
    char line[128];
    struct session *session = NULL;
    while (fgets(line, sizeof line, script)) {
        struct request request = {line[0], 0, 0, 0};
        unsigned number, part;
        if (sscanf(line, "session %u", &part) == 1) {
            session = &sessions[session_count++];
            session->part = part;
        } else if (sscanf(line, "fill 1 0 8 %x", &number) == 1)
            session->fill = number;
        else if (sscanf(line, "read %u 1 %u %u %u", &number, &request.buffer, &request.block, &request.count) == 4
                 || sscanf(line, "write %u 1 %u %u %u", &number, &request.buffer, &request.block, &request.count) == 4
                 || sscanf(line, "trim %u %u %u", &number, &request.block, &request.count) == 3
                 || sscanf(line, "flush %u", &number) == 1)
            session->requests[session->count++] = request;
    }
}

int main(int count, char **words)
{
    FILE *image = count == 4 ? fopen(words[1], "rb") : NULL;
    FILE *script = image ? fopen(words[2], "r") : NULL;
    unsigned threads = script ? atoi(words[3]) : 0;
    pthread_t thread[SESSIONS];
    if (threads < 1 || threads > SESSIONS)
        return 2;
    disk = memory(128 * BLOCK);
    if (fread(disk, BLOCK, 128, image) != 128)
        return 5;
    read_script(script);
    for (unsigned i = 0; i < threads; i++)
        if (pthread_create(&thread[i], NULL, play, NULL))
            return 8;
    for (unsigned i = 0; i < threads; i++)
        pthread_join(thread[i], NULL);
    keep('f', 0, 0, 0, NULL);
    unsigned records = 0;
    for (unsigned s = 0; s < session_count; s++)
        records += sessions[s].count;
    printf("load %u sessions %u records\nanswers %u ok %u failed 0\nsteps %lu\nclosing ok\nend\n",
           session_count, records, records, records, step_count);
    return 0;
}
