// A library of its own that has libspvk.a inside, for a check of what it shows. C99.
#include "spvk.h"

uint32_t own_code(const uint8_t *grammar_text, size_t text_len, const uint8_t *bytes, size_t len) {
    spvk_grammar grammar = SPVK_GRAMMAR_NONE;
    spvk_verdict verdict = {1, 0, 0};
    if (spvk_grammar_new(grammar_text, text_len, &grammar) == SPVK_OK) spvk_check(&grammar, bytes, len, &verdict);
    spvk_grammar_delete(&grammar);
    return verdict.code;
}

// Another archive's: the toolchain calls malloc by this name in each library that it makes.
void *rattle_alloc(size_t size, size_t align);
void *rattle_alloc(size_t size, size_t align) { return size + align == 0 ? NULL : NULL; }
