// Answers as the program `spv` does, by the library: the commands check, explain, show and asm, with their words in
// the order that tests/cases has them, check and explain with --extended, explain with --json (without the member
// `file`), and of `rules` the first line of each code. What the library has no call for (faults of the command line,
// files that do not open) is not told apart: exit status 3.
#include "spvk.h"

#include "files.h"

#include <string.h>

typedef struct task {
    const char *command, *grammar, *file, *out;
    bool big, json;
    uint32_t flags;
} task;

// The words of the command line.
static task task_of(int count, char **words) {
    task it = {count > 1 ? words[1] : "", NULL, NULL, NULL, false, false, 0};
    for (int at = 2; at < count; at++) {
        if (strcmp(words[at], "--grammar") == 0 && at + 1 < count) {
            it.grammar = words[++at];
        } else if (strcmp(words[at], "--out") == 0 && at + 1 < count) {
            it.out = words[++at];
        } else if (strcmp(words[at], "--big") == 0) {
            it.big = true;
        } else if (strcmp(words[at], "--json") == 0) {
            it.json = true;
        } else if (strcmp(words[at], "--extended") == 0) {
            it.flags |= SPVK_EXTENDED;
        } else {
            it.file = words[at];
        }
    }
    if (it.grammar == NULL || it.file == NULL) exit(3);
    return it;
}

// Ends with the line of an error.
static int error_of(spvk_status status) {
    if (status >= SPVK_J1 && status <= SPVK_J7) {
        fprintf(stderr, "error J%d\n", (int)status - SPVK_J1 + 1);
    } else {
        fprintf(stderr, "error %s\n", status == SPVK_MEMORY ? "memory" : status == SPVK_NOT_TEXT ? "file" : "?");
    }
    return 2;
}

// Writes the line of a verdict, and answers the exit status.
static int verdict_of(spvk_verdict verdict) {
    if (verdict.code == SPVK_VALID) {
        puts("valid");
        return 0;
    }
    printf("fault %s", spvk_rule_name(verdict.code));
    if (verdict.inst != SPVK_NOWHERE) printf(" inst %u word %u", (unsigned)verdict.inst, (unsigned)verdict.word);
    puts("");
    return 1;
}

static int check(const spvk_grammar *grammar, file in, uint32_t flags) {
    spvk_verdict verdict = {0, 0, 0};
    spvk_status status = spvk_check_with(grammar, in.bytes, in.size, flags, &verdict);
    return status == SPVK_OK ? verdict_of(verdict) : error_of(status);
}

static int explain(const spvk_grammar *grammar, file in, const task *it) {
    spvk_verdict verdict = {0, 0, 0};
    spvk_buffer lines;
    spvk_status status = (it->json ? spvk_explain_json_with : spvk_explain_with)(grammar, in.bytes, in.size, it->flags,
                                                                                &verdict, &lines);
    if (status != SPVK_OK) return error_of(status);
    fwrite(lines.data, 1, lines.size, stdout);
    spvk_buffer_delete(&lines);
    return verdict.code != SPVK_VALID;
}

static int show(const spvk_grammar *grammar, file in) {
    spvk_verdict verdict = {0, 0, 0};
    spvk_buffer text;
    spvk_status status = spvk_show(grammar, in.bytes, in.size, &verdict, &text);
    if (status != SPVK_OK) return error_of(status);
    if (verdict.code != SPVK_VALID) return verdict_of(verdict);
    fwrite(text.data, 1, text.size, stdout);
    spvk_buffer_delete(&text);
    return 0;
}

static int assemble(const spvk_grammar *grammar, file in, const task *it) {
    spvk_fault fault = {0, 0};
    spvk_buffer bytes;
    spvk_status status = spvk_assemble(grammar, in.bytes, in.size, it->big, &fault, &bytes);
    FILE *out = it->out == NULL ? NULL : fopen(it->out, "wb");
    if (out == NULL) exit(3);
    if (status == SPVK_OK && fault.code == SPVK_ASSEMBLED) fwrite(bytes.data, 1, bytes.size, out);
    fclose(out);
    if (status != SPVK_OK) return error_of(status);
    if (fault.code == SPVK_ASSEMBLED) {
        spvk_buffer_delete(&bytes);
        return 0;
    }
    printf("fault S%u line %u\n", (unsigned)fault.code - SPVK_S1 + 1, (unsigned)fault.line);
    return 1;
}

static int rules(void) {
    for (uint32_t code = 0; code < 10000; code++) {
        if (spvk_rule_name(code) != NULL) printf("%s: %s\n", spvk_rule_name(code), spvk_rule_sentence(code));
    }
    return 0;
}

int main(int count, char **words) {
    if (count == 2 && strcmp(words[1], "rules") == 0) return rules();
    task it = task_of(count, words);
    file text = read_file(it.grammar), in = read_file(it.file);
    spvk_grammar grammar = SPVK_GRAMMAR_NONE;
    spvk_status made = spvk_grammar_new(text.bytes, text.size, &grammar);
    int status = 3;
    if (made != SPVK_OK) {
        if (it.out != NULL) fclose(fopen(it.out, "wb"));
        status = error_of(made);
    } else if (strcmp(it.command, "check") == 0) {
        status = check(&grammar, in, it.flags);
    } else if (strcmp(it.command, "explain") == 0) {
        status = explain(&grammar, in, &it);
    } else if (strcmp(it.command, "show") == 0) {
        status = show(&grammar, in);
    } else if (strcmp(it.command, "asm") == 0) {
        status = assemble(&grammar, in, &it);
    }
    spvk_grammar_delete(&grammar);
    free(text.bytes);
    free(in.bytes);
    return status;
}
