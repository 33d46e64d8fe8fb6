/* Scans a file by a table file with so many threads, and writes to standard output what the rules write for the whole. The rules have to
   be such that `lexlook lines` says nothing of them.

       threads TABLE INPUT THREADS > OUTPUT

   The table is loaded once. The input is mapped and cut behind newlines into blocks of some 4 MiB. Each thread takes the next block, scans
   it into a buffer of its own, and writes when the blocks before it are written. The status is 0, or 1 where something failed. */
#include <fcntl.h>
#include <lex.h>
#include <pthread.h>
#include <stdio.h>
#include <stdlib.h>
#include <string.h>
#include <sys/mman.h>
#include <sys/stat.h>
#include <unistd.h>

enum { BLOCK = 4 << 20, MOST = 64 };

struct bytes {
    const uint8_t *at;
    size_t len;
};

static struct bytes input;
static pthread_mutex_t lock = PTHREAD_MUTEX_INITIALIZER;
static pthread_cond_t written = PTHREAD_COND_INITIALIZER;
/* Where the next block begins, its number, and how many are written. */
static size_t next_start, next_number, done;
static int failed;

static struct bytes map_file(const char *name)
{
    struct stat found;
    int file = open(name, O_RDONLY);
    void *at = MAP_FAILED;
    if (file >= 0 && fstat(file, &found) == 0 && found.st_size > 0)
        at = mmap(NULL, found.st_size, PROT_READ, MAP_PRIVATE, file, 0);
    if (at == MAP_FAILED) {
        perror(name);
        exit(1);
    }
    close(file);
    return (struct bytes){at, found.st_size};
}

/* Takes the next block and its number; one without a byte at the end of the input, or after a fault. */
static struct bytes take_block(size_t *number)
{
    pthread_mutex_lock(&lock);
    size_t from = next_start, to = input.len;
    if (!failed && to - from > BLOCK) {
        const uint8_t *newline = memchr(input.at + from + BLOCK, '\n', to - from - BLOCK);
        to = newline ? (size_t)(newline - input.at) + 1 : to;
    }
    next_start = failed ? from : to;
    *number = next_number++;
    pthread_mutex_unlock(&lock);
    return (struct bytes){input.at + from, next_start > from ? to - from : 0};
}

/* Scans a block into the buffer, which grows where it has no room. Tells how many bytes are written, and whether all went well. */
static int scan_block(struct lex_tables *tables, struct bytes block, uint8_t **out, size_t *room, size_t *count)
{
    uint8_t status;
    int answer = lex_scan_loaded(tables, block.at, block.len, *out, *room, count, &status);
    if (answer != LEX_TOO_SMALL)
        return answer == LEX_OK;
    uint8_t *larger = realloc(*out, *count);
    if (!larger)
        return 0;
    *out = larger;
    *room = *count;
    return lex_scan_loaded(tables, block.at, block.len, *out, *room, count, &status) == LEX_OK;
}

static int write_all(const uint8_t *from, size_t count)
{
    while (count > 0) {
        ssize_t some = write(1, from, count);
        if (some < 0)
            return 0;
        from += some;
        count -= some;
    }
    return 1;
}

static void *scan_blocks(void *tables)
{
    size_t room = BLOCK, count, number;
    uint8_t *out = malloc(room);
    for (struct bytes block = take_block(&number); block.len > 0; block = take_block(&number)) {
        int went = out && scan_block(tables, block, &out, &room, &count);
        pthread_mutex_lock(&lock);
        while (done < number && !failed)
            pthread_cond_wait(&written, &lock);
        if (!went || failed || !write_all(out, count))
            failed = 1;
        done++;
        pthread_cond_broadcast(&written);
        pthread_mutex_unlock(&lock);
    }
    free(out);
    return NULL;
}

int main(int count, char **words)
{
    int threads = count == 4 ? atoi(words[3]) : 0;
    if (threads < 1 || threads > MOST) {
        fprintf(stderr, "usage: threads TABLE INPUT THREADS\n");
        return 1;
    }
    static struct lex_tables tables[MOST];
    pthread_t made[MOST];
    struct bytes table = map_file(words[1]);
    input = map_file(words[2]);
    if (lex_load(&tables[0], table.at, table.len) != LEX_OK)
        return 1;
    for (int i = 1; i < threads; i++)
        if (lex_share(&tables[0], &tables[i]) != LEX_OK)
            return 1;
    for (int i = 0; i < threads; i++)
        if (pthread_create(&made[i], NULL, scan_blocks, &tables[i]) != 0)
            return 1;
    for (int i = 0; i < threads; i++)
        pthread_join(made[i], NULL);
    for (int i = 0; i < threads; i++)
        lex_unload(&tables[i]);
    return failed;
}
