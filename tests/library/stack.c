// Makes each call on a thread with little stack, and prints how much of it they used at most.
//
// usage: stack GRAMMAR MODULE STACK
//
// STACK is how many bytes the thread has. They are filled before, and looked at afterwards. Exit status 0, or 1.
#define _DEFAULT_SOURCE
#include "spvk.h"

#include "files.h"

#include <pthread.h>
#include <string.h>
#include <sys/mman.h>

static file grammar_text, module;

// Checks, explains, shows and assembles the module by these flags, and it without its last four bytes: null, or what
// failed.
static const char *read_all(const spvk_grammar *grammar, uint32_t flags) {
    spvk_verdict verdict;
    spvk_fault fault;
    spvk_buffer text = SPVK_BUFFER_NONE, bytes = SPVK_BUFFER_NONE;
    for (size_t cut = 0; cut <= 4; cut += 4) {
        const uint8_t *start = module.bytes;
        size_t len = module.size - cut;
        if (spvk_check_with(grammar, start, len, flags, &verdict) != SPVK_OK) return "spvk_check_with";
        if (spvk_explain_with(grammar, start, len, flags, &verdict, &text) != SPVK_OK) return "spvk_explain_with";
        spvk_buffer_delete(&text);
        if (spvk_explain_json_with(grammar, start, len, flags, &verdict, &text) != SPVK_OK)
            return "spvk_explain_json_with";
        spvk_buffer_delete(&text);
    }
    if (spvk_show_with(grammar, module.bytes, module.size, flags & SPVK_AS_1_6, &verdict, &text) != SPVK_OK)
        return "spvk_show_with";
    if (text.size > 0 && spvk_assemble(grammar, text.data, text.size, flags == 0, &fault, &bytes) != SPVK_OK)
        return "spvk_assemble";
    spvk_buffer_delete(&text);
    spvk_buffer_delete(&bytes);
    return NULL;
}

// Makes each call: null, or what failed.
static void *call_all(void *unused) {
    spvk_grammar grammar = SPVK_GRAMMAR_NONE;
    spvk_buffer text = SPVK_BUFFER_NONE;
    const char *wrong = NULL;
    for (size_t part = 1; part <= 2; part++) {
        if (spvk_grammar_explain(grammar_text.bytes, grammar_text.size / part, &text) != SPVK_OK)
            return "spvk_grammar_explain";
        spvk_buffer_delete(&text);
    }
    for (int built_in = 0; built_in <= 1 && wrong == NULL; built_in++) {
        spvk_status status = built_in ? spvk_grammar_default(&grammar)
                                      : spvk_grammar_new(grammar_text.bytes, grammar_text.size, &grammar);
        if (status != SPVK_OK) return built_in ? "spvk_grammar_default" : "spvk_grammar_new";
        wrong = read_all(&grammar, 0);
        if (wrong == NULL) wrong = read_all(&grammar, SPVK_AS_1_6 | SPVK_EXTENDED);
        spvk_grammar_delete(&grammar);
    }
    if (spvk_rule_name(SPVK_L2) == NULL || spvk_rule_sentence(SPVK_L2) == NULL) return unused;
    if (spvk_status_text(SPVK_NULL) == NULL || spvk_version() == NULL) return unused;
    return (void *)wrong;
}

int main(int count, char **words) {
    pthread_attr_t how;
    pthread_t thread;
    void *wrong = NULL;
    if (count != 4) return 1;
    grammar_text = read_file(words[1]);
    module = read_file(words[2]);
    size_t size = strtoul(words[3], NULL, 10), unused = 0;
    uint8_t *stack = mmap(NULL, size, PROT_READ | PROT_WRITE, MAP_PRIVATE | MAP_ANONYMOUS, -1, 0);
    if (stack == MAP_FAILED) return 1;
    memset(stack, 0xA5, size);
    if (pthread_attr_init(&how) != 0 || pthread_attr_setstack(&how, stack, size) != 0) return 1;
    if (pthread_create(&thread, &how, call_all, "the texts") != 0 || pthread_join(thread, &wrong) != 0) return 1;
    while (unused < size && stack[unused] == 0xA5) unused++;
    printf("%zu\n", size - unused);
    if (wrong != NULL) fprintf(stderr, "%s failed\n", (const char *)wrong);
    return wrong != NULL || unused == 0;
}
