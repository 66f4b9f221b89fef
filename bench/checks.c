// Checks a module so many times by one grammar, for the count of a check: checks GRAMMAR MODULE TIMES
#include "spvk.h"

#include "../tests/library/files.h"

int main(int count, char **words) {
    spvk_grammar grammar = SPVK_GRAMMAR_NONE;
    spvk_verdict verdict = {0, 0, 0};
    if (count != 4) return 2;
    file text = read_file(words[1]), module = read_file(words[2]);
    if (spvk_grammar_new(text.bytes, text.size, &grammar) != SPVK_OK) return 2;
    for (long left = atol(words[3]); left > 0; left--) {
        if (spvk_check(&grammar, module.bytes, module.size, &verdict) != SPVK_OK) return 2;
    }
    spvk_grammar_delete(&grammar);
    free(text.bytes);
    free(module.bytes);
    return verdict.code != SPVK_VALID;
}
