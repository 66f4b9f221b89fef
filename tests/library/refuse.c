// Refuses each growth of memory of each call in turn: first the first, in the next call the second, and so on until a
// call is refused none; then the same with all growths after it refused too.
//
// usage: refuse GRAMMAR MODULE
//
// MODULE is a valid module. A call that was refused a growth must answer SPVK_MEMORY, leave its places for answers as
// they were, hold no memory, and answer rightly when it is made again. A call that can do without a growth may answer
// rightly at once; how often is told. Linked with -Wl,--wrap=malloc,--wrap=realloc,--wrap=free. Exit status 0, or 1
// with what is wrong.
#include "spvk.h"

#include "files.h"

#include <string.h>

void *__real_malloc(size_t size);
void *__real_realloc(void *old, size_t size);
void __real_free(void *block);

// Growths up to the refused one, or -1 for none; whether all after it are refused; how many were; and how many blocks
// live.
static long left = -1, refused, blocks;
static bool all_later;

static bool is_refused(void) {
    if (left < 0 || left-- > 0) return false;
    left = all_later ? 0 : -1;
    refused++;
    return true;
}

void *__wrap_malloc(size_t size) {
    void *block = is_refused() ? NULL : __real_malloc(size);
    blocks += block != NULL;
    return block;
}

void *__wrap_realloc(void *old, size_t size) {
    void *block = is_refused() ? NULL : __real_realloc(old, size);
    blocks += old == NULL && block != NULL;
    return block;
}

void __wrap_free(void *block) {
    blocks -= block != NULL;
    __real_free(block);
}

// What the calls are made with.
static file text, module, shown;
static size_t faulty_size;
static spvk_grammar grammar = SPVK_GRAMMAR_NONE;

// What a call answered: its status, two numbers of its verdict or fault, and how many bytes it made.
typedef struct answer {
    spvk_status status;
    uint32_t code, place;
    size_t size;
} answer;

static const answer NOTHING = {SPVK_MEMORY, 7, 8, 0};

static answer by_new(void) {
    spvk_grammar made = SPVK_GRAMMAR_NONE;
    answer it = {spvk_grammar_new(text.bytes, text.size, &made), 7, 8, 0};
    it.size = made.held != NULL;
    spvk_grammar_delete(&made);
    return it;
}

static answer by_default(void) {
    spvk_grammar made = SPVK_GRAMMAR_NONE;
    answer it = {spvk_grammar_default(&made), 7, 8, 0};
    it.size = made.held != NULL;
    spvk_grammar_delete(&made);
    return it;
}

// A text that is no JSON, and one that breaks J4.
#define NO_JSON "{\"instructions\":[1,\n"
#define NO_KIND                                                                                \
    "{\"instructions\":[{\"opname\":\"OpA\",\"opcode\":1,\"operands\":[{\"kind\":\"X\"}]}]," \
    "\"operand_kinds\":[]}"

static answer by_grammar_explain_of(const char *bytes, size_t size) {
    spvk_buffer buffer = SPVK_BUFFER_NONE;
    answer it = {spvk_grammar_explain((const uint8_t *)bytes, size, &buffer), 7, 8, 0};
    it.size = buffer.size;
    spvk_buffer_delete(&buffer);
    return it;
}

static answer by_grammar_explain(void) { return by_grammar_explain_of((const char *)text.bytes, text.size); }

static answer by_grammar_explain_of_no_json(void) { return by_grammar_explain_of(NO_JSON, sizeof NO_JSON - 1); }

static answer by_grammar_explain_of_no_kind(void) { return by_grammar_explain_of(NO_KIND, sizeof NO_KIND - 1); }

static answer by_check_of(size_t size) {
    spvk_verdict verdict = {7, 8, 9};
    answer it = {spvk_check(&grammar, module.bytes, size, &verdict), 0, 0, 0};
    it.code = verdict.code;
    it.place = verdict.inst;
    return it;
}

static answer by_check(void) { return by_check_of(module.size); }

static answer by_check_of_fault(void) { return by_check_of(faulty_size); }

static answer by_check_as_1_6(void) {
    spvk_verdict verdict = {7, 8, 9};
    answer it = {spvk_check_with(&grammar, module.bytes, module.size, SPVK_AS_1_6, &verdict), 0, 0, 0};
    it.code = verdict.code;
    it.place = verdict.inst;
    return it;
}

// A module with an extended instruction, and the same where it breaks Y9.
#define CALLING(call)                                                                                \
    "; SPIR-V\n; Version: 1.6\n; Generator: 0\n; Bound: 12\n; Schema: 0\n"                           \
    "OpCapability Addresses\nOpCapability Kernel\n%9 = OpExtInstImport \"OpenCL.std\"\n"             \
    "OpMemoryModel Physical64 OpenCL\nOpEntryPoint Kernel %3 \"k\"\n%1 = OpTypeVoid\n"             \
    "%5 = OpTypeFloat 32\n%6 = OpConstant %5 0x3f800000\n%2 = OpTypeFunction %1\n"                  \
    "%3 = OpFunction %1 None %2\n%4 = OpLabel\n%7 = OpExtInst %5 %9 61 " call "\nOpReturn\n"        \
    "OpFunctionEnd\n"

static const char *const CALLING_TEXTS[2] = {CALLING("%6"), CALLING("%6 %6")};
static spvk_buffer calling[2];

static answer by_check_extended_of(spvk_buffer it) {
    spvk_verdict verdict = {7, 8, 9};
    answer got = {spvk_check_with(&grammar, it.data, it.size, SPVK_EXTENDED | SPVK_AS_1_6, &verdict), 0, 0, 0};
    got.code = verdict.code;
    got.place = verdict.inst;
    return got;
}

static answer by_check_extended(void) { return by_check_extended_of(calling[0]); }

static answer by_check_extended_of_fault(void) { return by_check_extended_of(calling[1]); }

// What `spvk_explain_with` or `spvk_explain_json_with` answers of a module.
typedef spvk_status telling_with(const spvk_grammar *, const uint8_t *, size_t, uint32_t, spvk_verdict *,
                                 spvk_buffer *);

static answer by_extended_text_of(telling_with *call, spvk_buffer module) {
    spvk_verdict verdict = {7, 8, 9};
    spvk_buffer buffer = SPVK_BUFFER_NONE;
    spvk_status status = call(&grammar, module.data, module.size, SPVK_EXTENDED, &verdict, &buffer);
    answer it = {status, verdict.code, verdict.inst, buffer.size};
    spvk_buffer_delete(&buffer);
    return it;
}

static answer by_explain_extended(void) { return by_extended_text_of(spvk_explain_with, calling[1]); }

static answer by_explain_json_extended(void) { return by_extended_text_of(spvk_explain_json_with, calling[1]); }

// What `spvk_explain`, `spvk_explain_json` or `spvk_show` answers of the first bytes of the module.
typedef spvk_status telling(const spvk_grammar *, const uint8_t *, size_t, spvk_verdict *, spvk_buffer *);

static answer by_text_of(telling *call, size_t size) {
    spvk_verdict verdict = {7, 8, 9};
    spvk_buffer buffer = SPVK_BUFFER_NONE;
    spvk_status status = call(&grammar, module.bytes, size, &verdict, &buffer);
    answer it = {status, verdict.code, verdict.inst, buffer.size};
    spvk_buffer_delete(&buffer);
    return it;
}

static answer by_explain(void) { return by_text_of(spvk_explain, module.size); }

static answer by_explain_of_fault(void) { return by_text_of(spvk_explain, faulty_size); }

static answer by_explain_json(void) { return by_text_of(spvk_explain_json, module.size); }

static answer by_explain_json_of_fault(void) { return by_text_of(spvk_explain_json, faulty_size); }

static answer by_show(void) { return by_text_of(spvk_show, module.size); }

static answer by_show_of_fault(void) { return by_text_of(spvk_show, module.size - 2); }

static spvk_status explain_as_1_6(const spvk_grammar *by, const uint8_t *bytes, size_t size, spvk_verdict *verdict,
                                  spvk_buffer *buffer) {
    return spvk_explain_with(by, bytes, size, SPVK_AS_1_6, verdict, buffer);
}

static answer by_explain_as_1_6(void) { return by_text_of(explain_as_1_6, faulty_size); }

static spvk_status explain_json_as_1_6(const spvk_grammar *by, const uint8_t *bytes, size_t size,
                                       spvk_verdict *verdict, spvk_buffer *buffer) {
    return spvk_explain_json_with(by, bytes, size, SPVK_AS_1_6, verdict, buffer);
}

static answer by_explain_json_as_1_6(void) { return by_text_of(explain_json_as_1_6, faulty_size); }

static spvk_status show_as_1_6(const spvk_grammar *by, const uint8_t *bytes, size_t size, spvk_verdict *verdict,
                               spvk_buffer *buffer) {
    return spvk_show_with(by, bytes, size, SPVK_AS_1_6, verdict, buffer);
}

static answer by_show_as_1_6(void) { return by_text_of(show_as_1_6, module.size); }

static answer by_assemble_of(size_t size) {
    spvk_fault fault = {7, 8};
    spvk_buffer buffer = SPVK_BUFFER_NONE;
    answer it = {spvk_assemble(&grammar, shown.bytes, size, true, &fault, &buffer), 0, 0, 0};
    it.code = fault.code;
    it.place = fault.line;
    it.size = buffer.size;
    spvk_buffer_delete(&buffer);
    return it;
}

static answer by_assemble(void) { return by_assemble_of(shown.size); }

static answer by_assemble_of_fault(void) { return by_assemble_of(shown.size - 2); }

typedef struct call {
    const char *name;
    answer (*make)(void);
} call;

static const call CALLS[] = {
    {"grammar_new", by_new},
    {"grammar_default", by_default},
    {"grammar_explain", by_grammar_explain},
    {"grammar_explain of no JSON", by_grammar_explain_of_no_json},
    {"grammar_explain of no kind", by_grammar_explain_of_no_kind},
    {"check", by_check},
    {"check of a fault", by_check_of_fault},
    {"explain", by_explain},
    {"explain of a fault", by_explain_of_fault},
    {"explain_json", by_explain_json},
    {"explain_json of a fault", by_explain_json_of_fault},
    {"show", by_show},
    {"show of a fault", by_show_of_fault},
    {"check as 1.6", by_check_as_1_6},
    {"explain as 1.6", by_explain_as_1_6},
    {"explain_json as 1.6", by_explain_json_as_1_6},
    {"show as 1.6", by_show_as_1_6},
    {"check extended", by_check_extended},
    {"check extended of a fault", by_check_extended_of_fault},
    {"explain extended of a fault", by_explain_extended},
    {"explain_json extended of a fault", by_explain_json_extended},
    {"assemble", by_assemble},
    {"assemble of a fault", by_assemble_of_fault},
};

static bool are_equal(answer one, answer other) {
    return one.status == other.status && one.code == other.code && one.place == other.place && one.size == other.size;
}

static int wrong(call it, long number, const char *what, answer got) {
    printf("%s, growth %ld refused%s: %s: status %d, code %u, place %u, %lu bytes\n", it.name, number,
           all_later ? " and all later" : "", what, (int)got.status, (unsigned)got.code, (unsigned)got.place,
           (unsigned long)got.size);
    return 1;
}

static int each_refused(call it) {
    const answer wanted = it.make();
    long number = 1, without = 0;
    if (wanted.status != SPVK_OK) return wrong(it, 0, "no answer", wanted);
    for (;; number++) {
        const long before = blocks;
        refused = 0;
        left = number - 1;
        const answer got = it.make();
        left = -1;
        if (blocks != before) return wrong(it, number, "memory is lost", got);
        if (refused == 0 && !are_equal(got, wanted)) return wrong(it, number, "not reached, and another answer", got);
        if (refused == 0) break;
        if (are_equal(got, wanted)) {
            without++;
        } else if (!are_equal(got, NOTHING) && !(it.make == by_new && got.status == SPVK_MEMORY && got.size == 0)) {
            return wrong(it, number, "another answer", got);
        }
        const answer again = it.make();
        if (!are_equal(again, wanted)) return wrong(it, number, "made again, another answer", again);
    }
    printf("%s: %ld growths refused in turn%s, %ld of them done without\n", it.name, number - 1,
           all_later ? " with all later" : "", without);
    return 0;
}

int main(int count, char **words) {
    spvk_verdict verdict = {0, 0, 0};
    spvk_buffer buffer;
    if (count != 3) return 2;
    text = read_file(words[1]);
    module = read_file(words[2]);
    faulty_size = module.size - 4;
    const long before = blocks;
    if (spvk_grammar_new(text.bytes, text.size, &grammar) != SPVK_OK) return 2;
    if (spvk_show(&grammar, module.bytes, module.size, &verdict, &buffer) != SPVK_OK) return 2;
    shown.size = buffer.size;
    shown.bytes = (uint8_t *)buffer.data;
    for (int it = 0; it < 2; it++) {
        const uint8_t *bytes = (const uint8_t *)CALLING_TEXTS[it];
        spvk_fault fault = {0, 0};
        if (spvk_assemble(&grammar, bytes, strlen(CALLING_TEXTS[it]), false, &fault, &calling[it]) != SPVK_OK) return 2;
    }
    if (by_check_extended().code != SPVK_VALID || by_check_extended_of_fault().code != SPVK_Y9) return 2;
    for (int later = 0; later < 2; later++) {
        all_later = later;
        for (size_t at = 0; at < sizeof CALLS / sizeof *CALLS; at++) {
            if (each_refused(CALLS[at])) return 1;
        }
    }
    spvk_buffer_delete(&buffer);
    for (int it = 0; it < 2; it++) spvk_buffer_delete(&calling[it]);
    spvk_grammar_delete(&grammar);
    if (blocks != before) printf("%ld blocks are lost\n", blocks - before);
    return blocks != before;
}
