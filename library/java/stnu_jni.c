/* What stnu/Run.java calls, by the C interface. */
#include <jni.h>
#include <stdlib.h>

#include "stnu.h"

/* Has the words opened that were copied so far; where there is no memory for one, Java throws. */
static stnu open_words(JNIEnv *env, jobjectArray words, jsize count, const char **texts) {
    jsize copied = 0;
    stnu run = 0;
    for (; copied < count; copied++) {
        jstring word = (*env)->GetObjectArrayElement(env, words, copied);
        texts[copied] = word ? (*env)->GetStringUTFChars(env, word, NULL) : NULL;
        if (!texts[copied])
            break;
    }
    if (copied == count)
        run = stnu_open(texts);
    while (copied-- > 0)
        (*env)->ReleaseStringUTFChars(env, (*env)->GetObjectArrayElement(env, words, copied), texts[copied]);
    return run;
}

JNIEXPORT jlong JNICALL Java_stnu_Run_open(JNIEnv *env, jclass of, jobjectArray words) {
    (void)of;
    jsize count = (*env)->GetArrayLength(env, words);
    const char **texts = calloc((size_t)count + 1, sizeof *texts);
    stnu run = texts && !(*env)->EnsureLocalCapacity(env, 2 * count + 2) ? open_words(env, words, count, texts) : 0;
    free(texts);
    return (jlong)run;
}

JNIEXPORT jint JNICALL Java_stnu_Run_feed(JNIEnv *env, jclass of, jlong run, jbyteArray lines, jint size) {
    (void)of;
    jbyte *bytes = (*env)->GetByteArrayElements(env, lines, NULL);
    if (!bytes)
        return STNU_MISUSE;
    jint status = stnu_feed((stnu)run, bytes, (size_t)size);
    (*env)->ReleaseByteArrayElements(env, lines, bytes, JNI_ABORT);
    return status;
}

JNIEXPORT jint JNICALL Java_stnu_Run_end(JNIEnv *env, jclass of, jlong run) {
    (void)env, (void)of;
    return stnu_end((stnu)run);
}

JNIEXPORT jbyteArray JNICALL Java_stnu_Run_answer(JNIEnv *env, jclass of, jlong run) {
    (void)of;
    size_t size;
    const char *bytes = stnu_answer((stnu)run, &size);
    jbyteArray made = bytes ? (*env)->NewByteArray(env, (jsize)size) : NULL;
    if (made)
        (*env)->SetByteArrayRegion(env, made, 0, (jsize)size, (const jbyte *)bytes);
    return made;
}

JNIEXPORT jint JNICALL Java_stnu_Run_stop(JNIEnv *env, jclass of, jlong run) {
    (void)env, (void)of;
    return stnu_stop((stnu)run);
}

JNIEXPORT jint JNICALL Java_stnu_Run_close(JNIEnv *env, jclass of, jlong run) {
    (void)env, (void)of;
    return stnu_close((stnu)run);
}

JNIEXPORT jstring JNICALL Java_stnu_Run_version(JNIEnv *env, jclass of) {
    (void)of;
    return (*env)->NewStringUTF(env, stnu_made());
}
