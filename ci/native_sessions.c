/* Calls the sessions of the library of C.
 *
 *     native_sessions lines SCRIPT FILE..      carries a script out line by line, and writes the answers; the status is 1 where
 *                                              a line was refused
 *     native_sessions states                   each status, with what belongs to it
 *     native_sessions refuse SCRIPT FILE..     each request for memory of a session is refused in turn
 *     native_sessions threads COUNT SCRIPT FILE..    two threads carry the script out at once, COUNT times each
 *
 * The first promise of include/vindaesk.h that is broken ends it with status 99, and so does a block that is not freed once
 * a session is closed. It is linked with `-Wl,--wrap=malloc,--wrap=realloc,--wrap=free`.
 */
#include <pthread.h>
#include <stdbool.h>
#include <stdio.h>
#include <stdlib.h>
#include <string.h>
#include <vindaesk.h>

enum { ROOM = 1 << 20, FILLER = 0xa5, BROKEN = 99 };

struct text {
    uint8_t *bytes;
    size_t size;
};

/* What a script wrote, and what its last call returned. */
struct ended {
    struct text answers;
    unsigned status;
    bool is_refused;
};

static struct text script, files;
/* of the thread that counts */
static long requests, blocks, refused_request, refused_from;
static bool is_counting;

void *__real_malloc(size_t size);
void *__real_realloc(void *block, size_t size);
void __real_free(void *block);

static bool is_refused(void)
{
    requests++;
    return requests == refused_request || (refused_from != 0 && requests >= refused_from);
}

void *__wrap_malloc(size_t size)
{
    if (!is_counting)
        return __real_malloc(size);
    void *block = is_refused() ? NULL : __real_malloc(size);
    blocks += block != NULL;
    return block;
}

void *__wrap_realloc(void *block, size_t size)
{
    if (!is_counting)
        return __real_realloc(block, size);
    void *now = is_refused() ? NULL : __real_realloc(block, size);
    blocks += block == NULL && now != NULL;
    return now;
}

void __wrap_free(void *block)
{
    blocks -= is_counting && block != NULL;
    __real_free(block);
}

static void must(bool holds, const char *promise, unsigned status)
{
    if (!holds) {
        fprintf(stderr, "native_sessions: not so: %s (status %u)\n", promise, status);
        exit(BROKEN);
    }
}

static struct text read_file(const char *path)
{
    FILE *file = fopen(path, "rb");
    struct text it = {__real_malloc(ROOM), 0};
    must(file != NULL && it.bytes != NULL, path, 0);
    it.size = fread(it.bytes, 1, ROOM, file);
    fclose(file);
    return it;
}

static void read_files(int count, char **paths)
{
    script = read_file(paths[0]);
    files = (struct text){__real_malloc(4 * ROOM), 0};
    uint8_t *end = files.bytes;
    for (int i = 1; i < count; i++) {
        struct text it = read_file(paths[i]);
        const char *slash = strrchr(paths[i], '/'), *name = slash ? slash + 1 : paths[i];
        must((size_t)(end - files.bytes) + vindaesk_file_size(strlen(name), it.size) <= 4 * ROOM, "room for the files", 0);
        end = vindaesk_put_file(end, name, strlen(name), it.bytes, it.size);
    }
    files.size = (size_t)(end - files.bytes);
}

/* Carries out a line with a buffer of this room, whose bytes behind the answer have to stay. */
static unsigned line(vindaesk_session *session, const uint8_t *bytes, size_t count, uint8_t *at, size_t room, size_t *size)
{
    memset(at, FILLER, room);
    *size = (size_t)-1;
    unsigned status = vindaesk_line(session, bytes, count, at, room, size);
    size_t written = status <= VINDAESK_REFUSED ? *size : 0;
    must(status == VINDAESK_SMALL ? *size > room : status <= VINDAESK_REFUSED ? *size <= room : *size == 0, "the size", status);
    for (size_t i = written; i < room; i++)
        must(at[i] == FILLER, "the rest of the buffer stays", status);
    return status;
}

/* Carries out the script in a session of its own, until a status is no status of a line that was carried out. Every third
 * line has too small a buffer at first. */
static struct ended carried_out(uint8_t *room)
{
    vindaesk_session session = VINDAESK_CLOSED;
    struct ended ended = {{room, 0}, vindaesk_open(files.bytes, files.size, &session), false};
    size_t at = 0;
    for (long number = 1; ended.status == VINDAESK_ACCEPTED && at < script.size; number++) {
        const uint8_t *feed = memchr(script.bytes + at, '\n', script.size - at);
        size_t count = feed ? (size_t)(feed - script.bytes) - at : script.size - at, size;
        uint8_t *answer = room + ended.answers.size;
        size_t left = ROOM - ended.answers.size;
        unsigned status = line(&session, script.bytes + at, count, answer, number % 3 ? left : 0, &size);
        if (status == VINDAESK_SMALL) {
            must(vindaesk_answer(&session, answer, left, &size) == VINDAESK_ACCEPTED, "the answer is kept", status);
            status = memcmp(answer, "line ", 5) == 0 ? VINDAESK_REFUSED : VINDAESK_ACCEPTED;
        }
        ended.is_refused |= status == VINDAESK_REFUSED;
        ended.status = status == VINDAESK_REFUSED ? VINDAESK_ACCEPTED : status;
        ended.answers.size += size;
        at += count + 1;
    }
    bool was_open = session.open != NULL;
    must(was_open == (ended.status == VINDAESK_ACCEPTED), "a session is closed by running out of memory alone", ended.status);
    must(vindaesk_close(&session) == (was_open ? VINDAESK_ACCEPTED : VINDAESK_STATE), "it is closed", ended.status);
    must(vindaesk_close(&session) == VINDAESK_STATE && session.open == NULL, "it is closed once", ended.status);
    return ended;
}

static int lines(void)
{
    static uint8_t room[ROOM];
    struct ended ended = carried_out(room);
    must(ended.status == VINDAESK_ACCEPTED, "the script is carried out", ended.status);
    fwrite(ended.answers.bytes, 1, ended.answers.size, stdout);
    return ended.is_refused;
}

static unsigned line_of(vindaesk_session *session, const char *text, const char *wanted)
{
    static uint8_t room[4096];
    size_t size;
    unsigned status = line(session, (const uint8_t *)text, strlen(text), room, sizeof room, &size);
    must(size == strlen(wanted) && memcmp(room, wanted, size) == 0, text, status);
    return status;
}

static int states(void)
{
    static const uint8_t broken[1] = {0};
    uint8_t room[8];
    size_t size = 77;
    vindaesk_session session = VINDAESK_CLOSED, other = VINDAESK_CLOSED;
    must(vindaesk_close(&session) == VINDAESK_STATE, "a session that was never opened is closed", 0);
    must(line_of(&session, "window 9 9", "") == VINDAESK_STATE, "a closed one takes no line", 0);
    must(line_of(&session, "a\nb", "") == VINDAESK_STATE, "it does not look at the line", 0);
    must(vindaesk_answer(&session, room, sizeof room, &size) == VINDAESK_STATE && size == 0, "nor has an answer", 0);
    must(vindaesk_open(broken, 1, &session) == VINDAESK_FILES && session.open == NULL, "broken files", 0);
    must(vindaesk_open(broken, 0, &session) == VINDAESK_ACCEPTED && session.open != NULL, "no files", 0);
    void *open = session.open;
    must(vindaesk_open(broken, 0, &session) == VINDAESK_STATE && session.open == open, "it is open", 0);
    must(vindaesk_open(broken, 1, &session) == VINDAESK_STATE && session.open == open, "that is said before all else", 0);
    must(vindaesk_answer(&session, room, 0, &size) == VINDAESK_ACCEPTED && size == 0, "there is no answer yet", 0);
    must(line_of(&session, "", "") == VINDAESK_ACCEPTED, "an empty line", 0);
    must(line_of(&session, "# ?", "") == VINDAESK_ACCEPTED, "a comment", 0);
    must(line_of(&session, "?", "line 3: refused 31 Syntax\n") == VINDAESK_REFUSED, "the lines before are counted", 0);
    must(line_of(&session, "?\n", "") == VINDAESK_USAGE, "a line feed", 0);
    must(line_of(&session, "window 100 50\r", "") == VINDAESK_ACCEPTED, "a carriage return is dropped", 0);
    must(vindaesk_open(broken, 0, &other) == VINDAESK_ACCEPTED, "another one", 0);
    must(line_of(&session, "add root View 10 20", "v1\n") == VINDAESK_ACCEPTED, "a view", 0);
    must(line_of(&other, "frame", "line 1: refused 33 NoWindow\n") == VINDAESK_REFUSED, "the other one has lines of its own", 0);
    must(line_of(&session, "frame", "settled 0\n") == VINDAESK_ACCEPTED, "a frame", 0);
    must(line(&session, (const uint8_t *)"bounds", 6, room, 4, &size) == VINDAESK_SMALL && size == 13, "a small buffer", 0);
    must(vindaesk_answer(&session, room, 4, &size) == VINDAESK_SMALL && size == 13, "it stays small", 0);
    must(line_of(&session, "?", "line 8: refused 31 Syntax\n") == VINDAESK_REFUSED, "a line without its feed counts once", 0);
    must(vindaesk_close(&other) == VINDAESK_ACCEPTED && vindaesk_close(&session) == VINDAESK_ACCEPTED, "both are closed", 0);
    must(vindaesk_close(&session) == VINDAESK_STATE, "a session is closed once", 0);
    return 0;
}

static int refuse(void)
{
    static uint8_t wanted[ROOM], room[ROOM];
    is_counting = true;
    struct ended whole = carried_out(wanted);
    long all = requests, without = 0;
    must(whole.status == VINDAESK_ACCEPTED && all > 8 && blocks == 0, "all is freed at the end", whole.status);
    for (long number = 1; number <= 2 * all; number++) {
        requests = 0;
        refused_request = number <= all ? number : 0;
        refused_from = number <= all ? 0 : number - all;
        struct ended it = carried_out(room);
        bool is_same = it.status == VINDAESK_ACCEPTED && it.answers.size == whole.answers.size;
        must(is_same || it.status == VINDAESK_NO_MEMORY, "there is no memory", it.status);
        must(memcmp(room, wanted, it.answers.size) == 0, "the answers before are the same", it.status);
        must(number <= all || it.status == VINDAESK_NO_MEMORY, "there is none from then on", it.status);
        must(blocks == 0, "all is freed", it.status);
        without += number <= all && it.status == VINDAESK_NO_MEMORY;
    }
    printf("%ld requests, %ld of them needed\n", all, without);
    return 0;
}

static struct ended first;
static long turns;

static void *work(void *room)
{
    for (long turn = 0; turn < turns; turn++) {
        struct ended it = carried_out(room);
        must(it.status == first.status && it.answers.size == first.answers.size, "as many answers", it.status);
        must(memcmp(room, first.answers.bytes, it.answers.size) == 0, "the same answers", it.status);
    }
    return NULL;
}

static int threads(void)
{
    static uint8_t rooms[3][ROOM];
    pthread_t other;
    first = carried_out(rooms[0]);
    must(pthread_create(&other, NULL, work, rooms[1]) == 0, "a thread begins", 0);
    work(rooms[2]);
    pthread_join(other, NULL);
    return 0;
}

int main(int count, char **words)
{
    const char *form = count > 1 ? words[1] : "";
    bool is_threads = strcmp(form, "threads") == 0;
    int from = is_threads ? 3 : 2;
    if (strcmp(form, "states") == 0)
        return states();
    if (count <= from)
        return 2;
    turns = is_threads ? atol(words[2]) : 0;
    read_files(count - from, words + from);
    return is_threads ? threads() : strcmp(form, "refuse") == 0 ? refuse() : lines();
}
