/* What the class vindaesk.Vindaesk calls: it passes bytes on to the library, and gives the page as an array.
 *
 * The arrays of Java are copied before a call and the page after it, so that no call stops the collection of garbage. */
#include <jni.h>
#include <stdint.h>
#include <stdlib.h>
#include <vindaesk.h>

/* The calls, in the order in which the class has them. */
enum call { RUN, STACK, FOCUS, DUMP, LOOKUP };

/* How many bytes the first buffer for an answer has. */
static const size_t ROOM = 65536;

/* The bytes of an array. */
struct bytes {
    uint8_t *at;
    size_t size;
};

/* What a call is given: the script or the name of a file, the two words of a question, ids, and files. */
struct given {
    struct bytes first, side, view, files;
    uint32_t *ids;
    size_t id_count;
};

/* Copies an array. At least one byte is allocated; `at` is NULL where there is no memory. */
static struct bytes bytes_of(JNIEnv *env, jbyteArray array)
{
    jsize size = (*env)->GetArrayLength(env, array);
    struct bytes found = {malloc((size_t)size + 1), (size_t)size};
    if (found.at != NULL)
        (*env)->GetByteArrayRegion(env, array, 0, size, (jbyte *)found.at);
    return found;
}

static uint8_t called(enum call call, const struct given *it, uint8_t *page, size_t room, size_t *size)
{
    const struct bytes *first = &it->first, *files = &it->files;
    switch (call) {
    case RUN:
        return vindaesk_run(first->at, first->size, files->at, files->size, page, room, size);
    case STACK:
        return vindaesk_stack(first->at, first->size, files->at, files->size, page, room, size);
    case FOCUS:
        return vindaesk_focus(first->at, first->size, it->side.at, it->side.size, it->view.at, it->view.size, files->at,
                              files->size, page, room, size);
    case DUMP:
        return vindaesk_dump(first->at, first->size, files->at, files->size, page, room, size);
    case LOOKUP:
        return vindaesk_lookup(first->at, first->size, it->ids, it->id_count, files->at, files->size, page, room, size);
    }
    return VINDAESK_USAGE;
}

/* Calls with a buffer that grows until the page fits. The page is *page, which the caller frees. */
static uint8_t answered(enum call call, const struct given *it, uint8_t **page, size_t *size)
{
    size_t room = ROOM;
    for (;;) {
        *page = malloc(room);
        if (*page == NULL)
            return VINDAESK_NO_MEMORY;
        uint8_t status = called(call, it, *page, room, size);
        if (status != VINDAESK_SMALL)
            return status;
        free(*page);
        room = *size;
    }
}

/* Copies what a call is given; false where there is no memory. */
static int take(JNIEnv *env, struct given *it, jobjectArray given, jintArray ids)
{
    struct bytes *parts[] = {&it->first, &it->side, &it->view, &it->files};
    int is_whole = 1;
    for (jsize i = 0; i < 4; i++) {
        jbyteArray array = (*env)->GetObjectArrayElement(env, given, i);
        *parts[i] = bytes_of(env, array);
        is_whole = is_whole && parts[i]->at != NULL;
    }
    it->id_count = (size_t)(*env)->GetArrayLength(env, ids);
    it->ids = malloc((it->id_count + 1) * sizeof *it->ids);
    if (it->ids != NULL)
        (*env)->GetIntArrayRegion(env, ids, 0, (jsize)it->id_count, (jint *)it->ids);
    return is_whole && it->ids != NULL;
}

static void give_back(struct given *it)
{
    free(it->first.at);
    free(it->side.at);
    free(it->view.at);
    free(it->files.at);
    free(it->ids);
}

/* A page as an array; NULL where there is no memory. */
static jbyteArray array_of(JNIEnv *env, const uint8_t *page, size_t size)
{
    jbyteArray result = size <= INT32_MAX ? (*env)->NewByteArray(env, (jsize)size) : NULL;
    if (result != NULL)
        (*env)->SetByteArrayRegion(env, result, 0, (jsize)size, (const jbyte *)page);
    return result;
}

JNIEXPORT jbyteArray JNICALL Java_vindaesk_Vindaesk_call(JNIEnv *env, jclass class, jint number, jobjectArray given,
                                                        jintArray ids, jintArray statuses)
{
    (void)class;
    struct given it;
    uint8_t *page = NULL;
    size_t size = 0;
    jbyteArray result = NULL;
    jint status = VINDAESK_NO_MEMORY;
    if (take(env, &it, given, ids))
        status = answered((enum call)number, &it, &page, &size);
    give_back(&it);
    if (status == VINDAESK_ACCEPTED || status == VINDAESK_REFUSED) {
        result = array_of(env, page, size);
        status = result == NULL ? VINDAESK_NO_MEMORY : status;
    }
    free(page);
    if (!(*env)->ExceptionCheck(env))
        (*env)->SetIntArrayRegion(env, statuses, 0, 1, &status);
    return result;
}
