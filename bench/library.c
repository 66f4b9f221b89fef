// Times the calls of the library beside those of SPIRV-Tools, in one process, by the time of its processor.
//
// usage: library GRAMMAR ROUNDS [opencl] [cold] FILE..
//
// Reads the grammar once and makes one context of SPIRV-Tools, and then for each module: checks it, shows it, and
// assembles what was shown, by each of the two in turn. A round runs a call again and again for some milliseconds.
// Prints for each module its bytes and six times in nanoseconds, the least of the rounds: check, show and assemble,
// of the library and then of SPIRV-Tools each. At last prints three times more: to make the grammar of the file, to
// make the built-in one, and to make a context of SPIRV-Tools. What a call made is let go within its time. With
// `opencl` the library checks each module as a kernel of OpenCL. With `cold` a round is one call, and before each the
// caches are emptied, by work on more memory than they hold. Ends with status 1 where a call does not succeed.
#define _POSIX_C_SOURCE 200809L
#include "spvk.h"

#include "../tests/library/files.h"

#include <spirv-tools/libspirv.h>
#include <string.h>
#include <time.h>

enum { TASKS = 6, MAKERS = 3 };

static const double NANOSECONDS_OF_A_ROUND = 3e6;

// More than the caches of a processor hold together, and how many bytes lie in a line of theirs.
enum { OTHER_BYTES = 64 << 20, LINE = 64 };
static unsigned char *other;

static spvk_grammar grammar = SPVK_GRAMMAR_NONE;
static uint32_t flags;
static spv_context context;
static spv_validator_options options;
static file text, module;
static spvk_buffer own_text;
static spv_text their_text;

// Ends the program where a call was refused.
static void expect(bool it, const char *what) {
    if (it) return;
    fprintf(stderr, "%s failed\n", what);
    exit(1);
}

static void own_check(void) {
    spvk_verdict verdict = {0, 0, 0};
    const spvk_status status = spvk_check_with(&grammar, module.bytes, module.size, flags, &verdict);
    expect(status == SPVK_OK && verdict.code == SPVK_VALID, "spvk_check_with");
}

static void their_check(void) {
    struct spv_const_binary_t binary = {(const uint32_t *)(const void *)module.bytes, module.size / 4};
    spv_diagnostic diagnostic = NULL;
    expect(spvValidateWithOptions(context, options, &binary, &diagnostic) == SPV_SUCCESS, "spvValidateWithOptions");
    spvDiagnosticDestroy(diagnostic);
}

static void own_show(void) {
    spvk_verdict verdict = {0, 0, 0};
    spvk_buffer text;
    const spvk_status status = spvk_show(&grammar, module.bytes, module.size, &verdict, &text);
    expect(status == SPVK_OK && verdict.code == SPVK_VALID, "spvk_show");
    spvk_buffer_delete(&text);
}

static spv_text shown_by_them(void) {
    const uint32_t *words = (const uint32_t *)(const void *)module.bytes;
    const uint32_t how = SPV_BINARY_TO_TEXT_OPTION_NONE;
    spv_diagnostic diagnostic = NULL;
    spv_text text = NULL;
    expect(spvBinaryToText(context, words, module.size / 4, how, &text, &diagnostic) == SPV_SUCCESS, "spvBinaryToText");
    spvDiagnosticDestroy(diagnostic);
    return text;
}

static void their_show(void) { spvTextDestroy(shown_by_them()); }

static void own_assemble(void) {
    spvk_fault fault = {0, 0};
    spvk_buffer bytes;
    const spvk_status status = spvk_assemble(&grammar, own_text.data, own_text.size, false, &fault, &bytes);
    expect(status == SPVK_OK && fault.code == SPVK_ASSEMBLED && bytes.size == module.size, "spvk_assemble");
    spvk_buffer_delete(&bytes);
}

static void their_assemble(void) {
    const uint32_t how = SPV_TEXT_TO_BINARY_OPTION_PRESERVE_NUMERIC_IDS;
    spv_diagnostic diagnostic = NULL;
    spv_binary binary = NULL;
    const spv_result_t status =
        spvTextToBinaryWithOptions(context, their_text->str, their_text->length, how, &binary, &diagnostic);
    expect(status == SPV_SUCCESS && binary->wordCount == module.size / 4, "spvTextToBinaryWithOptions");
    spvBinaryDestroy(binary);
    spvDiagnosticDestroy(diagnostic);
}

static void own_grammar(void) {
    spvk_grammar made = SPVK_GRAMMAR_NONE;
    expect(spvk_grammar_new(text.bytes, text.size, &made) == SPVK_OK, "spvk_grammar_new");
    spvk_grammar_delete(&made);
}

static void own_default(void) {
    spvk_grammar made = SPVK_GRAMMAR_NONE;
    expect(spvk_grammar_default(&made) == SPVK_OK, "spvk_grammar_default");
    spvk_grammar_delete(&made);
}

static void their_context(void) { spvContextDestroy(spvContextCreate(SPV_ENV_UNIVERSAL_1_6)); }

typedef void call(void);

static call *const CALLS[TASKS] = {own_check, their_check, own_show, their_show, own_assemble, their_assemble};

static call *const MAKING[MAKERS] = {own_grammar, own_default, their_context};

// Nanoseconds that the process has taken of a processor, which what else runs does not move much.
static double now(void) {
    struct timespec it;
    clock_gettime(CLOCK_PROCESS_CPUTIME_ID, &it);
    return (double)it.tv_sec * 1e9 + (double)it.tv_nsec;
}

// Nanoseconds for each of so many calls.
static double timed(call *made, long times) {
    const double start = now();
    for (long it = 0; it < times; it++) made();
    return (now() - start) / (double)times;
}

// Work on other memory, where there is any: nothing of what was used before is left in the caches.
static void work_elsewhere(void) {
    if (!other) return;
    for (long it = 0; it < OTHER_BYTES; it += LINE) other[it]++;
}

// Prints the least time of each of some calls, which take turns.
static void time_in_turn(call *const *calls, int count, long rounds) {
    double least[TASKS];
    long times[TASKS];
    for (int it = 0; it < count; it++) {
        work_elsewhere();
        least[it] = timed(calls[it], other ? 1 : 3);
        times[it] = other ? 1 : 1 + (long)(NANOSECONDS_OF_A_ROUND / least[it]);
    }
    for (long round = 0; round < rounds; round++) {
        for (int it = 0; it < count; it++) {
            work_elsewhere();
            const double taken = timed(calls[it], times[it]);
            if (taken < least[it]) least[it] = taken;
        }
    }
    for (int it = 0; it < count; it++) printf(" %.0f", least[it]);
    puts("");
}

// Prints the times of the module.
static void measure(const char *name, long rounds) {
    spvk_verdict verdict = {0, 0, 0};
    expect(spvk_show(&grammar, module.bytes, module.size, &verdict, &own_text) == SPVK_OK, "spvk_show");
    their_text = shown_by_them();
    printf("%s %lu", name, (unsigned long)module.size);
    time_in_turn(CALLS, TASKS, rounds);
    spvk_buffer_delete(&own_text);
    spvTextDestroy(their_text);
}

int main(int count, char **words) {
    if (count < 4) return 2;
    text = read_file(words[1]);
    expect(spvk_grammar_new(text.bytes, text.size, &grammar) == SPVK_OK, "spvk_grammar_new");
    context = spvContextCreate(SPV_ENV_UNIVERSAL_1_6);
    options = spvValidatorOptionsCreate();
    int first = 3;
    if (strcmp(words[first], "opencl") == 0 && ++first < count) flags = SPVK_OPENCL;
    if (strcmp(words[first], "cold") == 0 && ++first < count) other = calloc(OTHER_BYTES, 1);
    for (int it = first; it < count; it++) {
        module = read_file(words[it]);
        measure(words[it], atol(words[2]));
        free(module.bytes);
    }
    printf("making");
    time_in_turn(MAKING, MAKERS, atol(words[2]));
    spvValidatorOptionsDestroy(options);
    spvContextDestroy(context);
    spvk_grammar_delete(&grammar);
    free(text.bytes);
    free(other);
    return 0;
}
