/* Calls the library of C: with random scripts and files, and with each request for memory refused in turn.
 *
 *     native_calls fuzz COUNT SEED FILE..      COUNT calls over scripts and files that are made of these by random changes
 *     native_calls refuse SCRIPT FILE..        each request for memory of a call is refused in turn
 *     native_calls repeat COUNT SCRIPT FILE..  COUNT calls, and then how many kB of memory the process has, after a tenth of
 *                                              them and at the end
 *
 * Each argument of a call ends where a page of memory ends that may not be read, and what include/vindaesk.h promises is
 * checked after each call. The first promise that is broken ends it with status 1. It is linked with
 * `-Wl,--wrap=malloc,--wrap=realloc`.
 */
#include <stdbool.h>
#include <stdio.h>
#include <stdlib.h>
#include <string.h>
#include <sys/mman.h>
#include <unistd.h>
#include <vindaesk.h>

enum { MOST_INPUTS = 512, ROOM = 1 << 20, FILLER = 0xa5 };

typedef uint8_t function(const uint8_t *, size_t, const uint8_t *, size_t, uint8_t *, size_t, size_t *);

/* Bytes whose end is the end of a page, after which none may be read. */
struct guarded {
    uint8_t *start, *end;
};

struct input {
    const char *name;
    uint8_t *bytes;
    size_t size;
};

static struct input inputs[MOST_INPUTS];
static int input_count;
static uint64_t seed;
static long requests, refused_request, refused_from;

void *__real_malloc(size_t size);
void *__real_realloc(void *block, size_t size);

static bool is_refused(void)
{
    requests++;
    return requests == refused_request || (refused_from != 0 && requests >= refused_from);
}

void *__wrap_malloc(size_t size)
{
    return is_refused() ? NULL : __real_malloc(size);
}

void *__wrap_realloc(void *block, size_t size)
{
    return is_refused() ? NULL : __real_realloc(block, size);
}

static void fail(const char *promise, unsigned status)
{
    fprintf(stderr, "native_calls: %s (status %u)\n", promise, status);
    exit(1);
}

static uint64_t next(void)
{
    seed ^= seed << 13;
    seed ^= seed >> 7;
    seed ^= seed << 17;
    return seed;
}

static size_t below(size_t bound)
{
    return bound == 0 ? 0 : (size_t)(next() % bound);
}

static struct guarded guarded_new(void)
{
    size_t page = (size_t)sysconf(_SC_PAGESIZE), room = 2 * ROOM;
    uint8_t *start = mmap(NULL, room + page, PROT_READ | PROT_WRITE, MAP_PRIVATE | MAP_ANONYMOUS, -1, 0);
    if (start == MAP_FAILED || mprotect(start + room, page, PROT_NONE) != 0)
        fail("no memory to begin with", 0);
    return (struct guarded){start, start + room};
}

/* Puts bytes at the end of a guarded place. */
static uint8_t *at_end(const struct guarded *place, const void *bytes, size_t size)
{
    uint8_t *at = place->end - size;
    memcpy(at, bytes, size);
    return at;
}

static void read_input(const char *path)
{
    FILE *file = fopen(path, "rb");
    uint8_t *bytes = __real_malloc(ROOM);
    if (file == NULL || bytes == NULL || input_count == MOST_INPUTS)
        fail(path, 0);
    const char *slash = strrchr(path, '/');
    inputs[input_count++] = (struct input){slash ? slash + 1 : path, bytes, fread(bytes, 1, ROOM / 4, file)};
    fclose(file);
}

static bool is_complete(unsigned status)
{
    return status == VINDAESK_ACCEPTED || status == VINDAESK_REFUSED;
}

static struct guarded script_place, files_place, answer_place;

/* A call whose promises are checked; *size is the size that it returns. */
static unsigned called(function *call, const uint8_t *given, size_t given_size, const uint8_t *files, size_t files_size,
                       size_t room, size_t *size)
{
    uint8_t *answer = answer_place.end - room;
    memset(answer, FILLER, room);
    *size = (size_t)-1;
    unsigned status = call(at_end(&script_place, given, given_size), given_size,
                           at_end(&files_place, files, files_size), files_size, answer, room, size);
    size_t written = is_complete(status) ? *size : 0;
    if (status > 9 || status == 3 || status == 4 || status == 6)
        fail("an unknown status", status);
    if (status == VINDAESK_SMALL ? *size <= room : is_complete(status) ? *size > room : *size != 0)
        fail("a wrong size", status);
    for (size_t i = written; i < room; i++)
        if (answer[i] != FILLER)
            fail("the rest of the buffer has changed", status);
    return status;
}

static uint32_t ids[80];
static size_t id_count;

/* A look-up of the ids above. */
static uint8_t look_up(const uint8_t *name, size_t name_size, const uint8_t *files, size_t files_size, uint8_t *answer,
                       size_t answer_size, size_t *size)
{
    return vindaesk_lookup(name, name_size, ids, id_count, files, files_size, answer, answer_size, size);
}

static const char *side, *view;

/* The question above, after a script. */
static uint8_t ask(const uint8_t *script, size_t script_size, const uint8_t *files, size_t files_size, uint8_t *answer,
                   size_t answer_size, size_t *size)
{
    return vindaesk_focus(script, script_size, (const uint8_t *)side, strlen(side), (const uint8_t *)view, strlen(view),
                          files, files_size, answer, answer_size, size);
}

/* Some of the inputs as files, and sometimes bytes that are no files. */
static size_t put_random_files(uint8_t *at)
{
    uint8_t *end = at;
    for (size_t count = below(4); count > 0; count--) {
        const struct input *it = &inputs[below((size_t)input_count)];
        if ((size_t)(end - at) + it->size + 128 < ROOM)
            end = vindaesk_put_file(end, it->name, strlen(it->name), it->bytes, it->size);
    }
    size_t size = (size_t)(end - at);
    if (below(8) == 0)
        size = below(size + 1);
    for (size_t changes = below(4) == 0 ? below(8) : 0; changes > 0 && size > 0; changes--)
        at[below(size > 16 && below(2) ? 16 : size)] = (uint8_t)next();
    return size;
}

/* Lines of the inputs, some of which are changed. */
static size_t put_random_script(uint8_t *at)
{
    size_t size = 0;
    for (size_t parts = 1 + below(3); parts > 0; parts--) {
        const struct input *it = &inputs[below((size_t)input_count)];
        size_t from = below(it->size + 1), count = below(it->size - from + 1);
        count = count > 3000 ? 3000 : count;
        memcpy(at + size, it->bytes + (below(2) ? 0 : from), count);
        size += count;
    }
    for (size_t changes = below(2) ? below(6) : 0; changes > 0 && size > 0; changes--)
        at[below(size)] = below(4) ? (uint8_t)" \n0123456789v@-#"[below(16)] : (uint8_t)next();
    return size;
}

/* Chooses the ids of a look-up, and a question. */
static void choose(void)
{
    static const char *const sides[] = {"left", "right", "up", "down", "", "Up"};
    static const char *const views[] = {"v1", "v2", "v3", "v9", "@1", "@7f010001", "", "v", "v01", "@g", "\xff", "v99999999999"};
    id_count = below(8) ? 1 + below(4) : below(80);
    for (size_t i = 0; i < id_count; i++)
        ids[i] = (uint32_t)(below(4) ? 0x7f000000 + (below(8) << 16) + below(8) : next());
    side = sides[below(8) ? below(4) : below(6)];
    view = views[below(4) ? below(6) : below(12)];
}

static int fuzz(long count)
{
    static uint8_t script[ROOM], files[ROOM];
    function *const calls[] = {vindaesk_run, vindaesk_stack, vindaesk_dump, look_up, ask};
    long ended[10] = {0};
    for (long done = 0; done < count; done++) {
        size_t script_size = put_random_script(script), files_size = put_random_files(files), size, again;
        size_t which = below(9);
        function *call = calls[which < 5 ? 0 : which - 4];
        choose();
        if (call == vindaesk_dump || call == look_up) {
            const char *name = below(4) ? inputs[below((size_t)input_count)].name : (const char *)script;
            script_size = name == (const char *)script ? script_size % 80 : strlen(name);
            memmove(script, name, script_size);
        }
        size_t room = below(4) == 0 ? below(4096) : ROOM;
        unsigned status = called(call, script, script_size, files, files_size, room, &size);
        ended[status]++;
        if (status == VINDAESK_SMALL && size <= ROOM) {
            unsigned second = called(call, script, script_size, files, files_size, size, &again);
            if (!is_complete(second) || again != size)
                fail("a buffer of the size that was returned is not enough", second);
        }
    }
    for (unsigned status = 0; status < 10; status++)
        printf("status %u: %ld calls\n", status, ended[status]);
    return 0;
}

static uint8_t all_files[ROOM];

static size_t put_all_files(void)
{
    uint8_t *end = all_files;
    for (int i = 1; i < input_count; i++)
        end = vindaesk_put_file(end, inputs[i].name, strlen(inputs[i].name), inputs[i].bytes, inputs[i].size);
    return (size_t)(end - all_files);
}

static int refuse(void)
{
    size_t files_size = put_all_files(), size, whole;
    requests = 0;
    unsigned status = called(vindaesk_run, inputs[0].bytes, inputs[0].size, all_files, files_size, ROOM, &whole);
    long all = requests;
    if (!is_complete(status) || all < 8)
        fail("the script is not carried out", status);
    long without = 0;
    for (long number = 1; number <= all; number++) {
        requests = 0;
        refused_request = number;
        unsigned alone = called(vindaesk_run, inputs[0].bytes, inputs[0].size, all_files, files_size, ROOM, &size);
        if (alone != VINDAESK_NO_MEMORY && (alone != status || size != whole))
            fail("a request was refused, and the answer is another one", alone);
        without += alone == VINDAESK_NO_MEMORY;
        refused_request = 0;
        requests = 0;
        refused_from = number;
        unsigned from = called(vindaesk_run, inputs[0].bytes, inputs[0].size, all_files, files_size, ROOM, &size);
        if (from != VINDAESK_NO_MEMORY)
            fail("requests were refused, and the status is another one", from);
        refused_from = 0;
    }
    printf("%ld requests, %ld of them needed\n", all, without);
    return 0;
}

static long resident(void)
{
    FILE *file = fopen("/proc/self/statm", "r");
    long pages = 0, all = 0;
    if (file == NULL || fscanf(file, "%ld %ld", &all, &pages) != 2)
        fail("no /proc/self/statm", 0);
    fclose(file);
    return pages * (sysconf(_SC_PAGESIZE) / 1024);
}

static int repeat(long count)
{
    size_t files_size = put_all_files(), size;
    long before = 0;
    for (long done = 1; done <= count; done++) {
        if (!is_complete(called(vindaesk_run, inputs[0].bytes, inputs[0].size, all_files, files_size, 65536, &size)))
            fail("the script is not carried out", 0);
        if (done == count / 10)
            before = resident();
    }
    printf("%ld kB, %ld kB\n", before, resident());
    return 0;
}

int main(int count, char **words)
{
    if (count < 3)
        return 2;
    script_place = guarded_new();
    files_place = guarded_new();
    answer_place = guarded_new();
    bool is_fuzz = strcmp(words[1], "fuzz") == 0, is_refuse = strcmp(words[1], "refuse") == 0;
    long calls = is_refuse ? 0 : atol(words[2]);
    if (is_fuzz && count > 4)
        seed = (uint64_t)atol(words[3]) * 2654435769u + 1;
    for (int i = is_fuzz ? 4 : is_refuse ? 2 : 3; i < count; i++)
        read_input(words[i]);
    if (input_count == 0)
        return 2;
    return is_fuzz ? fuzz(calls) : is_refuse ? refuse() : repeat(calls);
}
