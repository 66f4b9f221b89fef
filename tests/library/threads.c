// Checks modules by one grammar from eight threads at the same time: the verdicts are those of one thread. Some of the
// calls explain, show and assemble in between.
//
// usage: threads GRAMMAR COUNT MODULE..       COUNT checks in all
#define _POSIX_C_SOURCE 200809L
#include "spvk.h"

#include "files.h"

#include <pthread.h>
#include <string.h>

enum { THREADS = 8, MOST_MODULES = 64, OTHERS = 16 };

static spvk_grammar grammar = SPVK_GRAMMAR_NONE;
static file modules[MOST_MODULES];
static spvk_verdict verdicts[MOST_MODULES];
static int module_count;
static long each;

// A thread: the module that it begins with, and how many calls were answered otherwise.
typedef struct worker {
    pthread_t thread;
    int first;
    long wrong;
} worker;

static bool is_same(spvk_verdict one, spvk_verdict other) {
    return one.code == other.code && one.inst == other.inst && one.word == other.word;
}

// Whether the module is explained by the same verdict, and its text, if it has one, gives its words again.
static bool is_fine(int at) {
    spvk_verdict verdict = {0, 0, 0};
    spvk_fault fault = {0, 0};
    spvk_buffer lines, text, bytes;
    const file it = modules[at];
    if (spvk_explain(&grammar, it.bytes, it.size, &verdict, &lines) != SPVK_OK) return false;
    bool fine = is_same(verdict, verdicts[at]) && lines.size > 0;
    spvk_buffer_delete(&lines);
    if (spvk_explain_json(&grammar, it.bytes, it.size, &verdict, &lines) != SPVK_OK) return false;
    fine = fine && is_same(verdict, verdicts[at]) && lines.size > 0 && lines.data[0] == '{';
    spvk_buffer_delete(&lines);
    if (spvk_show(&grammar, it.bytes, it.size, &verdict, &text) != SPVK_OK) return false;
    if (verdict.code != SPVK_VALID) return fine && is_same(verdict, verdicts[at]);
    const bool big = it.bytes[0] == 7;
    if (spvk_assemble(&grammar, text.data, text.size, big, &fault, &bytes) != SPVK_OK) return false;
    fine = fine && fault.code == SPVK_ASSEMBLED && bytes.size == it.size && memcmp(bytes.data, it.bytes, it.size) == 0;
    spvk_buffer_delete(&text);
    spvk_buffer_delete(&bytes);
    return fine;
}

static void *run(void *given) {
    worker *own = (worker *)given;
    for (long number = 0; number < each; number++) {
        const int at = (int)((number + own->first) % module_count);
        spvk_verdict verdict = {7, 8, 9};
        const spvk_status status = spvk_check(&grammar, modules[at].bytes, modules[at].size, &verdict);
        own->wrong += status != SPVK_OK || !is_same(verdict, verdicts[at]);
        if (number % OTHERS == 0) own->wrong += !is_fine(at);
    }
    return NULL;
}

int main(int count, char **words) {
    worker workers[THREADS];
    if (count < 4) return 2;
    file text = read_file(words[1]);
    if (spvk_grammar_new(text.bytes, text.size, &grammar) != SPVK_OK) return 2;
    free(text.bytes);
    each = atol(words[2]) / THREADS;
    for (int at = 3; at < count && module_count < MOST_MODULES; at++, module_count++) {
        modules[module_count] = read_file(words[at]);
        const file it = modules[module_count];
        if (spvk_check(&grammar, it.bytes, it.size, &verdicts[module_count]) != SPVK_OK) return 2;
    }
    long wrong = 0;
    for (int at = 0; at < THREADS; at++) {
        workers[at].first = at;
        workers[at].wrong = 0;
        if (pthread_create(&workers[at].thread, NULL, run, &workers[at]) != 0) return 2;
    }
    for (int at = 0; at < THREADS; at++) {
        if (pthread_join(workers[at].thread, NULL) != 0) return 2;
        wrong += workers[at].wrong;
    }
    for (int at = 0; at < module_count; at++) free(modules[at].bytes);
    spvk_grammar_delete(&grammar);
    if (wrong) printf("%ld calls were answered otherwise\n", wrong);
    return wrong != 0;
}
