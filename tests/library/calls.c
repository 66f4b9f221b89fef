// Makes each call of the library, on good arguments and on all kinds of bad ones, and looks at each status.
//
// usage: calls GRAMMAR MODULE LINES TEXT
//
// MODULE is a valid module in little byte order, LINES what `spv explain` says of it without its last four bytes,
// TEXT what `spv show` writes of it. Exit status 0, or 1 with the line of the first check that fails. C99 and C++17.
#include "spvk.h"

#include "files.h"

#include <errno.h>
#include <string.h>

#define CHECK(it)                                          \
    do {                                                   \
        if (!(it)) {                                       \
            printf("calls.c:%d: %s\n", __LINE__, #it);     \
            return 1;                                      \
        }                                                  \
    } while (0)

// What a place for an answer holds before a call, to see that it is left alone.
static const spvk_verdict UNTOUCHED = {7, 8, 9};
static const spvk_fault UNTOUCHED_FAULT = {7, 8};

static bool is_verdict(spvk_verdict it, uint32_t code, uint32_t inst, uint32_t word) {
    return it.code == code && it.inst == inst && it.word == word;
}

static bool is_untouched(spvk_verdict it) { return is_verdict(it, 7, 8, 9); }

static bool is_fault(spvk_fault it, uint32_t code, uint32_t line) { return it.code == code && it.line == line; }

static bool is_empty(spvk_buffer it) { return it.data == NULL && it.size == 0 && it.held == NULL; }

static bool has(spvk_buffer it, file wanted) {
    return it.size == wanted.size && memcmp(it.data, wanted.bytes, wanted.size) == 0;
}

// A buffer with something in it that is not the library's: a call must not look at it.
static spvk_buffer unread(void) {
    spvk_buffer it = SPVK_BUFFER_NONE;
    it.data = (const uint8_t *)"x";
    it.size = 1;
    it.held = (void *)1;
    return it;
}

typedef struct refused {
    spvk_status status;
    const char *text;
} refused;

// One text for each code of a grammar file. (tests/cases/grammar-files.cases)
static const refused REFUSED[] = {
    {SPVK_J1, ""},
    {SPVK_J1, "{\"instructions\":["},
    {SPVK_J2, "{}"},
    {SPVK_J3, "{\"instructions\":[{\"opname\":\"OpA\",\"opcode\":-0,\"operands\":[]}],\"operand_kinds\":[]}"},
    {SPVK_J4, "{\"instructions\":[{\"opname\":\"OpA\",\"opcode\":1,\"operands\":[{\"kind\":\"X\"}]}],"
              "\"operand_kinds\":[]}"},
    {SPVK_J5, "{\"instructions\":[{\"opname\":\"OpA\",\"opcode\":1,"
              "\"operands\":[{\"kind\":\"IdRef\",\"quantifier\":\"\"}]}],"
              "\"operand_kinds\":[{\"kind\":\"IdRef\",\"category\":\"Id\"}]}"},
    {SPVK_J6, "{\"instructions\":[],\"operand_kinds\":[{\"kind\":\"IdResult\",\"category\":\"Id\"},"
              "{\"kind\":\"X\",\"category\":\"ValueEnum\",\"enumerants\":"
              "[{\"enumerant\":\"A\",\"value\":0,\"parameters\":[{\"kind\":\"IdResult\"}]}]}]}"},
    {SPVK_J7, "{\"instructions\":[],\"operand_kinds\":[{\"kind\":\"IdRef\",\"category\":\"Id\"},"
              "{\"kind\":\"IdRef\",\"category\":\"Composite\",\"bases\":[]}]}"},
};

// What is said of the text above that breaks J4.
#define NO_KIND_LINES                              \
    "at: instructions[0].operands[0].kind\n"       \
    "found: \"X\"\n"                               \
    "wanted: the name of a kind of operand_kinds\n"
static const file NO_KIND = {(uint8_t *)NO_KIND_LINES, sizeof NO_KIND_LINES - 1};

// What gives no grammar.
static int no_grammars(file text) {
    spvk_grammar grammar;
    for (size_t at = 0; at < sizeof REFUSED / sizeof *REFUSED; at++) {
        grammar.held = (void *)1; // it is not looked at
        const uint8_t *bytes = (const uint8_t *)REFUSED[at].text;
        spvk_status status = spvk_grammar_new(bytes, strlen(REFUSED[at].text), &grammar);
        if (status != REFUSED[at].status) printf("%s: status %d\n", REFUSED[at].text, (int)status);
        CHECK(status == REFUSED[at].status);
        CHECK(grammar.held == NULL);
    }
    CHECK(spvk_grammar_new(NULL, 0, &grammar) == SPVK_J1 && grammar.held == NULL);
    grammar.held = (void *)1;
    CHECK(spvk_grammar_new(NULL, 5, &grammar) == SPVK_NULL && grammar.held == NULL);
    CHECK(spvk_grammar_new(text.bytes, text.size, NULL) == SPVK_NULL);
    CHECK(spvk_grammar_new(NULL, 5, NULL) == SPVK_NULL);
    CHECK(spvk_grammar_new(text.bytes, text.size / 2, &grammar) == SPVK_J1 && grammar.held == NULL);
    spvk_grammar_delete(NULL);
    spvk_grammar_delete(&grammar);
    spvk_grammar_delete(&grammar);
    CHECK(grammar.held == NULL);
    return 0;
}

// The lines that say why a text gives no grammar; none where it gives one.
static int grammar_reasons(file text) {
    spvk_buffer buffer;
    for (size_t at = 0; at < sizeof REFUSED / sizeof *REFUSED; at++) {
        const uint8_t *bytes = (const uint8_t *)REFUSED[at].text;
        buffer = unread();
        CHECK(spvk_grammar_explain(bytes, strlen(REFUSED[at].text), &buffer) == SPVK_OK);
        CHECK(buffer.size > 0 && buffer.data[buffer.size - 1] == '\n');
        if (REFUSED[at].status == SPVK_J4) CHECK(has(buffer, NO_KIND));
        spvk_buffer_delete(&buffer);
        CHECK(is_empty(buffer));
    }
    buffer = unread();
    CHECK(spvk_grammar_explain(text.bytes, text.size, &buffer) == SPVK_OK && buffer.size == 0);
    spvk_buffer_delete(&buffer);
    CHECK(is_empty(buffer));
    buffer = unread();
    CHECK(spvk_grammar_explain(NULL, 5, &buffer) == SPVK_NULL && is_empty(buffer));
    CHECK(spvk_grammar_explain(text.bytes, text.size, NULL) == SPVK_NULL);
    CHECK(spvk_grammar_explain(NULL, 5, NULL) == SPVK_NULL);
    CHECK(spvk_grammar_explain(NULL, 0, &buffer) == SPVK_OK && buffer.size > 0);
    spvk_buffer_delete(&buffer);
    return 0;
}

// No call answers by a grammar that is none: a null pointer, one that was never made, one that was deleted.
static int without_grammar(const spvk_grammar *grammar, file module, file text) {
    spvk_verdict verdict = UNTOUCHED;
    spvk_fault fault = UNTOUCHED_FAULT;
    spvk_buffer buffer = unread();
    CHECK(spvk_check(grammar, module.bytes, module.size, &verdict) == SPVK_NO_GRAMMAR);
    CHECK(spvk_check(grammar, NULL, 9, NULL) == SPVK_NO_GRAMMAR);
    CHECK(spvk_check_with(grammar, NULL, 9, 4, NULL) == SPVK_NO_GRAMMAR);
    CHECK(spvk_explain_with(grammar, NULL, 9, 4, NULL, NULL) == SPVK_NO_GRAMMAR);
    CHECK(spvk_show_with(grammar, NULL, 9, 4, NULL, NULL) == SPVK_NO_GRAMMAR);
    CHECK(spvk_explain(grammar, module.bytes, module.size, &verdict, &buffer) == SPVK_NO_GRAMMAR && is_empty(buffer));
    CHECK(spvk_explain(grammar, NULL, 9, NULL, NULL) == SPVK_NO_GRAMMAR);
    buffer = unread();
    CHECK(spvk_explain_json(grammar, module.bytes, module.size, &verdict, &buffer) == SPVK_NO_GRAMMAR);
    CHECK(is_empty(buffer));
    CHECK(spvk_explain_json_with(grammar, NULL, 9, 4, NULL, NULL) == SPVK_NO_GRAMMAR);
    buffer = unread();
    CHECK(spvk_show(grammar, module.bytes, module.size, &verdict, &buffer) == SPVK_NO_GRAMMAR && is_empty(buffer));
    CHECK(spvk_show(grammar, NULL, 9, NULL, NULL) == SPVK_NO_GRAMMAR);
    buffer = unread();
    CHECK(spvk_assemble(grammar, text.bytes, text.size, false, &fault, &buffer) == SPVK_NO_GRAMMAR && is_empty(buffer));
    CHECK(spvk_assemble(grammar, NULL, 9, true, NULL, NULL) == SPVK_NO_GRAMMAR);
    CHECK(is_untouched(verdict) && is_fault(fault, 7, 8));
    return 0;
}

static int checks(const spvk_grammar *grammar, file module) {
    spvk_verdict verdict = UNTOUCHED;
    CHECK(spvk_check(grammar, NULL, 9, &verdict) == SPVK_NULL);
    CHECK(spvk_check(grammar, module.bytes, module.size, NULL) == SPVK_NULL);
    CHECK(is_untouched(verdict));
    CHECK(spvk_check(grammar, module.bytes, module.size, &verdict) == SPVK_OK);
    CHECK(is_verdict(verdict, SPVK_VALID, SPVK_NOWHERE, SPVK_NOWHERE));
    CHECK(spvk_check(grammar, NULL, 0, &verdict) == SPVK_OK);
    CHECK(is_verdict(verdict, SPVK_W2, SPVK_NOWHERE, SPVK_NOWHERE));
    verdict = UNTOUCHED;
    CHECK(spvk_check(grammar, module.bytes, 0, &verdict) == SPVK_OK && verdict.code == SPVK_W2);
    CHECK(spvk_check(grammar, module.bytes, module.size - 1, &verdict) == SPVK_OK && verdict.code == SPVK_W3);
    CHECK(spvk_check(grammar, module.bytes, module.size - 4, &verdict) == SPVK_OK);
    CHECK(verdict.code == SPVK_L2 && verdict.word == module.size / 4 - 1);
    return 0;
}

// The longest module there can be, and one byte more.
static int longest(const spvk_grammar *grammar) {
    const size_t most = 16777216;
    spvk_verdict verdict = UNTOUCHED;
    uint8_t *zeros = (uint8_t *)calloc(1, most + 1);
    CHECK(zeros != NULL);
    CHECK(spvk_check(grammar, zeros, most, &verdict) == SPVK_OK && verdict.code == SPVK_W4);
    CHECK(spvk_check(grammar, zeros, most + 1, &verdict) == SPVK_OK && verdict.code == SPVK_W8);
    free(zeros);
    return 0;
}

// What `spvk_explain`, `spvk_explain_json` or `spvk_show` answers where a pointer is null.
typedef spvk_status telling(const spvk_grammar *, const uint8_t *, size_t, spvk_verdict *, spvk_buffer *);

static int nulls(telling *call, const spvk_grammar *grammar, file module) {
    spvk_verdict verdict = UNTOUCHED;
    spvk_buffer buffer = unread();
    CHECK(call(grammar, NULL, 9, &verdict, &buffer) == SPVK_NULL && is_empty(buffer));
    buffer = unread();
    CHECK(call(grammar, module.bytes, module.size, NULL, &buffer) == SPVK_NULL && is_empty(buffer));
    CHECK(call(grammar, module.bytes, module.size, &verdict, NULL) == SPVK_NULL);
    CHECK(is_untouched(verdict));
    return 0;
}

static int explanations(const spvk_grammar *grammar, file module, file lines) {
    spvk_verdict verdict = UNTOUCHED;
    spvk_buffer buffer = unread();
    const file valid = {(uint8_t *)"valid\n", 6}, empty = {(uint8_t *)"fault W2\n", 9};
    CHECK(nulls(spvk_explain, grammar, module) == 0);
    CHECK(spvk_explain(grammar, module.bytes, module.size, &verdict, &buffer) == SPVK_OK);
    CHECK(verdict.code == SPVK_VALID && has(buffer, valid));
    spvk_buffer_delete(&buffer);
    CHECK(is_empty(buffer));
    spvk_buffer_delete(&buffer);
    CHECK(spvk_explain(grammar, module.bytes, module.size - 4, &verdict, &buffer) == SPVK_OK);
    CHECK(verdict.code == SPVK_L2 && has(buffer, lines));
    spvk_buffer_delete(&buffer);
    CHECK(spvk_explain(grammar, NULL, 0, &verdict, &buffer) == SPVK_OK);
    CHECK(is_verdict(verdict, SPVK_W2, SPVK_NOWHERE, SPVK_NOWHERE));
    CHECK(buffer.size >= empty.size && memcmp(buffer.data, empty.bytes, empty.size) == 0);
    spvk_buffer_delete(&buffer);
    return 0;
}

// Whether the bytes begin with a text, and end with a line feed.
static bool begins(spvk_buffer it, const char *text) {
    const size_t size = strlen(text);
    return it.size > size && memcmp(it.data, text, size) == 0 && it.data[it.size - 1] == '\n';
}

static int objects(const spvk_grammar *grammar, file module) {
    spvk_verdict verdict = UNTOUCHED;
    spvk_buffer buffer = unread();
    const file valid = {(uint8_t *)"{\"verdict\":\"valid\",\"profile\":\"own\"}\n", 36};
    CHECK(nulls(spvk_explain_json, grammar, module) == 0);
    CHECK(spvk_explain_json(grammar, module.bytes, module.size, &verdict, &buffer) == SPVK_OK);
    CHECK(verdict.code == SPVK_VALID && has(buffer, valid));
    spvk_buffer_delete(&buffer);
    CHECK(is_empty(buffer));
    CHECK(spvk_explain_json(grammar, module.bytes, module.size - 4, &verdict, &buffer) == SPVK_OK);
    CHECK(verdict.code == SPVK_L2 && begins(buffer, "{\"verdict\":\"fault\",\"code\":\"L2\",\"inst\":"));
    spvk_buffer_delete(&buffer);
    CHECK(spvk_explain_json(grammar, NULL, 0, &verdict, &buffer) == SPVK_OK);
    CHECK(is_verdict(verdict, SPVK_W2, SPVK_NOWHERE, SPVK_NOWHERE));
    CHECK(begins(buffer, "{\"verdict\":\"fault\",\"code\":\"W2\",\"rule\":"));
    spvk_buffer_delete(&buffer);
    return 0;
}

static int texts(const spvk_grammar *grammar, file module, file text) {
    spvk_verdict verdict = UNTOUCHED;
    spvk_buffer buffer = unread();
    CHECK(nulls(spvk_show, grammar, module) == 0);
    CHECK(spvk_show(grammar, module.bytes, module.size, &verdict, &buffer) == SPVK_OK);
    CHECK(verdict.code == SPVK_VALID && has(buffer, text));
    spvk_buffer_delete(&buffer);
    buffer = unread();
    CHECK(spvk_show(grammar, NULL, 0, &verdict, &buffer) == SPVK_OK);
    CHECK(is_verdict(verdict, SPVK_W2, SPVK_NOWHERE, SPVK_NOWHERE) && is_empty(buffer));
    // Whether the module is valid is not asked: without its last instruction it has a text.
    CHECK(spvk_show(grammar, module.bytes, module.size - 4, &verdict, &buffer) == SPVK_OK);
    CHECK(verdict.code == SPVK_VALID && buffer.size < text.size && memcmp(buffer.data, text.bytes, buffer.size) == 0);
    spvk_buffer_delete(&buffer);
    return 0;
}

// The module with another version, the highest byte of each word first where `big`. It is let go by free.
static file other_version(file module, bool big, uint8_t major, uint8_t minor) {
    file it = {(uint8_t *)malloc(module.size), module.size};
    if (it.bytes == NULL) exit(2);
    for (size_t at = 0; at < it.size; at++) it.bytes[at] = module.bytes[big ? at ^ 3 : at];
    it.bytes[big ? 5 : 6] = major;
    it.bytes[big ? 6 : 5] = minor;
    return it;
}

// A module of version 1.0 to 1.5 breaks W5, unless it is read as one of version 1.6.
static int older(const spvk_grammar *grammar, file module, file text, bool big, uint8_t minor) {
    spvk_verdict verdict = UNTOUCHED;
    spvk_buffer buffer;
    const file valid = {(uint8_t *)"valid\n", 6};
    file it = other_version(module, big, 1, minor);
    CHECK(spvk_check_with(grammar, it.bytes, it.size, 0, &verdict) == SPVK_OK && verdict.code == SPVK_W5);
    CHECK(spvk_check(grammar, it.bytes, it.size, &verdict) == SPVK_OK && verdict.code == SPVK_W5);
    CHECK(spvk_check_with(grammar, it.bytes, it.size, SPVK_AS_1_6, &verdict) == SPVK_OK);
    CHECK(is_verdict(verdict, SPVK_VALID, SPVK_NOWHERE, SPVK_NOWHERE));
    CHECK(spvk_check_with(grammar, it.bytes, it.size - 4, SPVK_AS_1_6, &verdict) == SPVK_OK);
    CHECK(verdict.code == SPVK_L2 && verdict.word == module.size / 4 - 1);
    CHECK(spvk_explain_with(grammar, it.bytes, it.size, SPVK_AS_1_6, &verdict, &buffer) == SPVK_OK);
    CHECK(verdict.code == SPVK_VALID && has(buffer, valid));
    spvk_buffer_delete(&buffer);
    CHECK(spvk_explain_json_with(grammar, it.bytes, it.size - 4, SPVK_AS_1_6, &verdict, &buffer) == SPVK_OK);
    CHECK(verdict.code == SPVK_L2 && begins(buffer, "{\"verdict\":\"fault\",\"code\":\"L2\","));
    spvk_buffer_delete(&buffer);
    CHECK(spvk_show_with(grammar, it.bytes, it.size, SPVK_AS_1_6, &verdict, &buffer) == SPVK_OK);
    CHECK(verdict.code == SPVK_VALID && has(buffer, text));
    spvk_buffer_delete(&buffer);
    CHECK(spvk_check_with(grammar, it.bytes, it.size, SPVK_OPENCL, &verdict) == SPVK_OK);
    CHECK(is_verdict(verdict, SPVK_VALID, SPVK_NOWHERE, SPVK_NOWHERE));
    CHECK(spvk_check_with(grammar, it.bytes, it.size, SPVK_OPENCL | SPVK_EXTENDED, &verdict) == SPVK_OK);
    CHECK(verdict.code == SPVK_VALID);
    CHECK(spvk_explain_json_with(grammar, it.bytes, it.size, SPVK_OPENCL, &verdict, &buffer) == SPVK_OK);
    CHECK(begins(buffer, "{\"verdict\":\"valid\",\"profile\":\"opencl\"}"));
    spvk_buffer_delete(&buffer);
    CHECK(spvk_show_with(grammar, it.bytes, it.size, SPVK_OPENCL, &verdict, &buffer) == SPVK_OK);
    CHECK(verdict.code == SPVK_VALID && buffer.size == text.size && buffer.data[22] == '0' + minor);
    CHECK(memcmp(buffer.data, text.bytes, 22) == 0 && memcmp(buffer.data + 23, text.bytes + 23, text.size - 23) == 0);
    spvk_buffer_delete(&buffer);
    CHECK(it.bytes[big ? 6 : 5] == minor); // what was given is not changed
    free(it.bytes);
    return 0;
}

// A module of which the instruction 11, at word 40, is such a call of a set.
#define CALLING(set, call)                                                                        \
    "; SPIR-V\n; Version: 1.6\n; Generator: 0\n; Bound: 12\n; Schema: 0\n"                        \
    "OpCapability Addresses\nOpCapability Kernel\n%9 = OpExtInstImport \"" set "\"\n"            \
    "OpMemoryModel Physical64 OpenCL\nOpEntryPoint Kernel %3 \"k\"\n%1 = OpTypeVoid\n"          \
    "%5 = OpTypeFloat 32\n%6 = OpConstant %5 0x3f800000\n%2 = OpTypeFunction %1\n"               \
    "%3 = OpFunction %1 None %2\n%4 = OpLabel\n%7 = OpExtInst %5 %9 " call "\nOpReturn\nOpFunctionEnd\n"

// A module whose extended instruction is looked at, or not, as the flags say: its text, the code and its name.
typedef struct calling {
    const char *text;
    uint32_t code;
    const char *name;
} calling;

static const calling CALLS_OF_SETS[] = {
    {CALLING("OpenCL.std", "61 %6"), SPVK_VALID, NULL},    // sqrt of a value
    {CALLING("OpenCL.std", "61 %11"), SPVK_D3, "D3"},      // of what nothing defines
    {CALLING("OpenCL.std", "61 %400"), SPVK_D1, "D1"},     // of an id over the bound
    {CALLING("OpenCL.std", "61 %5"), SPVK_Y1, "Y1"},       // of a type
    {CALLING("OpenCL.std", "61 %7"), SPVK_A1, "A1"},       // of itself
    {CALLING("OpenCL.std", "61 %6 %6"), SPVK_Y9, "Y9"},    // of two values
    {CALLING("OpenCL.std", "9999 %6"), SPVK_Y9, "Y9"},     // no instruction of the set
    {CALLING("DebugInfo", "0 %11"), SPVK_D3, "D3"},        // another set
    {CALLING("DebugInfo", "9999 %5"), SPVK_VALID, NULL},   // of which no more is asked
};

// The same of modules whose types are looked at, or not.
static const calling CALLS_OF_TYPES[] = {
    {CALLING("OpenCL.std", "61 %6"), SPVK_VALID, NULL},    // sqrt of a float
    {CALLING("OpenCL.std", "141 %6"), SPVK_Y10, "Y10"},    // s_abs of a float
    {CALLING("OpenCL.std", "61 %6 %6"), SPVK_Y9, "Y9"},    // sqrt of two
    {CALLING("DebugInfo", "141 %6"), SPVK_VALID, NULL},    // another set
};

// What the calls by a flag say of a module: the code, at the place of its extended instruction.
static int looked_at(const spvk_grammar *grammar, file module, uint32_t flags, uint32_t code, const char *name) {
    spvk_verdict verdict = UNTOUCHED;
    spvk_buffer buffer = unread();
    char line[60] = "valid", member[60] = "{\"verdict\":\"valid\",\"profile\":\"";
    const bool valid = code == SPVK_VALID;
    const uint32_t inst = valid ? SPVK_NOWHERE : 11, word = valid ? SPVK_NOWHERE : 40;
    if (!valid) {
        snprintf(line, sizeof line, "fault %s inst 11 word 40\nrule: ", name);
        snprintf(member, sizeof member, "{\"verdict\":\"fault\",\"code\":\"%s\",\"inst\":11,", name);
    }
    CHECK(spvk_check_with(grammar, module.bytes, module.size, flags, &verdict) == SPVK_OK);
    CHECK(is_verdict(verdict, code, inst, word));
    verdict = UNTOUCHED;
    CHECK(spvk_explain_with(grammar, module.bytes, module.size, flags, &verdict, &buffer) == SPVK_OK);
    CHECK(is_verdict(verdict, code, inst, word) && begins(buffer, line));
    spvk_buffer_delete(&buffer);
    verdict = UNTOUCHED;
    CHECK(spvk_explain_json_with(grammar, module.bytes, module.size, flags, &verdict, &buffer) == SPVK_OK);
    CHECK(is_verdict(verdict, code, inst, word) && begins(buffer, member));
    spvk_buffer_delete(&buffer);
    return 0;
}

// Types of extended instructions are looked at by the flag for OpenCL alone.
static int typed(const spvk_grammar *grammar) {
    for (size_t at = 0; at < sizeof CALLS_OF_TYPES / sizeof *CALLS_OF_TYPES; at++) {
        const calling it = CALLS_OF_TYPES[at];
        const uint32_t otherwise = it.code == SPVK_Y10 ? (uint32_t)SPVK_VALID : it.code;
        spvk_fault fault = UNTOUCHED_FAULT;
        spvk_buffer made = unread();
        CHECK(spvk_assemble(grammar, (const uint8_t *)it.text, strlen(it.text), false, &fault, &made) == SPVK_OK);
        const file module = {(uint8_t *)made.data, made.size};
        CHECK(looked_at(grammar, module, SPVK_OPENCL, it.code, it.name) == 0);
        CHECK(looked_at(grammar, module, SPVK_OPENCL | SPVK_EXTENDED, it.code, it.name) == 0);
        CHECK(looked_at(grammar, module, SPVK_EXTENDED, otherwise, it.name) == 0);
        spvk_buffer_delete(&made);
    }
    return 0;
}

// Extended instructions are looked at whole by their flag, alone and with the other one, and not without.
static int extended(const spvk_grammar *grammar) {
    for (size_t at = 0; at < sizeof CALLS_OF_SETS / sizeof *CALLS_OF_SETS; at++) {
        const calling it = CALLS_OF_SETS[at];
        spvk_fault fault = UNTOUCHED_FAULT;
        spvk_buffer made = unread();
        const uint8_t *text = (const uint8_t *)it.text;
        CHECK(spvk_assemble(grammar, text, strlen(it.text), false, &fault, &made) == SPVK_OK);
        CHECK(is_fault(fault, SPVK_ASSEMBLED, 0));
        const file module = {(uint8_t *)made.data, made.size};
        CHECK(looked_at(grammar, module, 0, SPVK_VALID, NULL) == 0);
        CHECK(looked_at(grammar, module, SPVK_AS_1_6, SPVK_VALID, NULL) == 0);
        CHECK(looked_at(grammar, module, SPVK_EXTENDED, it.code, it.name) == 0);
        file older = other_version(module, true, 1, 3);
        CHECK(looked_at(grammar, older, SPVK_AS_1_6 | SPVK_EXTENDED, it.code, it.name) == 0);
        free(older.bytes);
        spvk_buffer_delete(&made);
    }
    return 0;
}

// Whether two answers are the same.
static bool are_equal(spvk_answer one, spvk_answer other) {
    return one.status == other.status && one.code == other.code && one.inst == other.inst && one.word == other.word;
}

typedef uint32_t raw_telling(const void *, const uint8_t *, size_t, spvk_text *);
typedef uint32_t raw_telling_with(const void *, const uint8_t *, size_t, uint32_t, spvk_text *);

// A call of the archive that makes a text answers what the one with flags answers.
static int raw_texts(raw_telling *call, raw_telling_with *with, uint32_t flags, const void *held, file module) {
    spvk_text one = {{7, 8, 9}, SPVK_BUFFER_NONE}, other = {{7, 8, 9}, SPVK_BUFFER_NONE};
    CHECK(with(held, module.bytes, module.size, flags | 8, &other) == SPVK_NO_FLAG);
    CHECK(with(NULL, module.bytes, module.size, flags | 8, &other) == SPVK_NO_GRAMMAR);
    CHECK(is_untouched(other.verdict) && is_empty(other.buffer));
    CHECK(call(held, module.bytes, module.size, &one) == SPVK_OK);
    CHECK(with(held, module.bytes, module.size, flags, &other) == SPVK_OK);
    CHECK(is_verdict(one.verdict, other.verdict.code, other.verdict.inst, other.verdict.word));
    const file told = {(uint8_t *)other.buffer.data, other.buffer.size};
    CHECK(has(one.buffer, told));
    spvk_buffer_delete(&one.buffer);
    spvk_buffer_delete(&other.buffer);
    return 0;
}

// The archive's calls without flags answer what those with them answer.
static int raw_calls(const spvk_grammar *grammar, file module) {
    const void *held = grammar->held;
    file older = other_version(module, false, 1, 0);
    const spvk_answer none = spvk_raw_check_with(held, module.bytes, module.size, 8);
    CHECK(none.status == SPVK_NO_FLAG && none.code == SPVK_NOWHERE);
    CHECK(spvk_raw_check_with(NULL, module.bytes, module.size, 8).status == SPVK_NO_GRAMMAR);
    for (size_t cut = 0; cut <= 4; cut += 4) {
        const file it = {older.bytes, older.size - cut};
        CHECK(are_equal(spvk_raw_check(held, it.bytes, it.size), spvk_raw_check_with(held, it.bytes, it.size, 0)));
        CHECK(are_equal(spvk_raw_check_as_1_6(held, it.bytes, it.size),
                        spvk_raw_check_with(held, it.bytes, it.size, SPVK_AS_1_6)));
        CHECK(raw_texts(spvk_raw_explain, spvk_raw_explain_with, 0, held, it) == 0);
        CHECK(raw_texts(spvk_raw_explain_as_1_6, spvk_raw_explain_with, SPVK_AS_1_6, held, it) == 0);
        CHECK(raw_texts(spvk_raw_explain_json, spvk_raw_explain_json_with, 0, held, it) == 0);
        CHECK(raw_texts(spvk_raw_explain_json_as_1_6, spvk_raw_explain_json_with, SPVK_AS_1_6, held, it) == 0);
    }
    free(older.bytes);
    return 0;
}

// What the flags of a call ask for.
static int flags(const spvk_grammar *grammar, file module, file text) {
    const struct { uint8_t major, minor; } none[] = {{1, 7}, {2, 0}, {0, 6}};
    spvk_verdict verdict = UNTOUCHED;
    spvk_buffer buffer = unread();
    CHECK(spvk_check_with(grammar, module.bytes, module.size, 8, &verdict) == SPVK_NO_FLAG);
    CHECK(spvk_check_with(grammar, module.bytes, module.size, 7, &verdict) == SPVK_NO_FLAG);
    CHECK(spvk_check_with(grammar, module.bytes, module.size, SPVK_OPENCL | SPVK_AS_1_6, &verdict) == SPVK_NO_FLAG);
    CHECK(spvk_explain_with(grammar, module.bytes, module.size, 8, &verdict, &buffer) == SPVK_NO_FLAG);
    CHECK(is_empty(buffer));
    buffer = unread();
    CHECK(spvk_explain_json_with(grammar, module.bytes, module.size, SPVK_OPENCL | SPVK_AS_1_6, &verdict, &buffer)
          == SPVK_NO_FLAG);
    CHECK(is_empty(buffer));
    buffer = unread();
    CHECK(spvk_show_with(grammar, module.bytes, module.size, SPVK_EXTENDED, &verdict, &buffer) == SPVK_NO_FLAG);
    CHECK(is_empty(buffer));
    buffer = unread();
    CHECK(spvk_show_with(grammar, module.bytes, module.size, SPVK_AS_1_6 | 4, &verdict, &buffer) == SPVK_NO_FLAG);
    CHECK(is_empty(buffer) && is_untouched(verdict));
    CHECK(spvk_show_with(grammar, module.bytes, module.size, SPVK_OPENCL | SPVK_EXTENDED, &verdict, &buffer)
          == SPVK_NO_FLAG);
    CHECK(spvk_check_with(grammar, NULL, 9, SPVK_AS_1_6, &verdict) == SPVK_NULL);
    CHECK(spvk_check_with(grammar, module.bytes, module.size, SPVK_AS_1_6, NULL) == SPVK_NULL);
    CHECK(spvk_check_with(grammar, NULL, 0, SPVK_AS_1_6, &verdict) == SPVK_OK && verdict.code == SPVK_W2);
    for (int at = 0; at < 3; at++) {
        for (int big = 0; big < 2; big++) {
            file it = other_version(module, big, none[at].major, none[at].minor);
            CHECK(spvk_check_with(grammar, it.bytes, it.size, SPVK_AS_1_6, &verdict) == SPVK_OK);
            CHECK(verdict.code == SPVK_W5);
            CHECK(spvk_check_with(grammar, it.bytes, it.size, SPVK_OPENCL, &verdict) == SPVK_OK);
            CHECK(verdict.code == SPVK_W5);
            free(it.bytes);
        }
    }
    for (uint8_t minor = 0; minor < 6; minor++) {
        CHECK(older(grammar, module, text, false, minor) == 0 && older(grammar, module, text, true, minor) == 0);
    }
    CHECK(spvk_check_with(grammar, module.bytes, module.size, SPVK_AS_1_6, &verdict) == SPVK_OK);
    CHECK(verdict.code == SPVK_VALID);
    return 0;
}

// The grammar that needs no file.
static int built_in(file module, file text) {
    spvk_verdict verdict = UNTOUCHED;
    spvk_grammar grammar;
    CHECK(spvk_grammar_default(NULL) == SPVK_NULL);
    grammar.held = (void *)1; // it is not looked at
    CHECK(spvk_grammar_default(&grammar) == SPVK_OK && grammar.held != NULL);
    CHECK(spvk_check(&grammar, module.bytes, module.size, &verdict) == SPVK_OK);
    CHECK(is_verdict(verdict, SPVK_VALID, SPVK_NOWHERE, SPVK_NOWHERE));
    CHECK(flags(&grammar, module, text) == 0);
    spvk_grammar_delete(&grammar);
    CHECK(grammar.held == NULL);
    return 0;
}

// What each status says, and that no other number says anything.
static int statuses(void) {
    int count = 0;
    for (uint32_t status = 0; status < 1300; status++) {
        const bool is_one = status <= SPVK_NO_FLAG || (status >= SPVK_J1 && status <= SPVK_J7);
        const char *said = spvk_status_text(status);
        CHECK((said != NULL) == is_one);
        if (said == NULL) continue;
        CHECK(strlen(said) >= strlen("success") && spvk_status_text(status) == said);
        count++;
    }
    CHECK(count == 13 && strcmp(spvk_status_text(SPVK_OK), "success") == 0);
    CHECK(strcmp(spvk_status_text(SPVK_MEMORY), "out of memory") == 0);
    CHECK(spvk_status_text(UINT32_MAX) == NULL);
    return 0;
}

static int modules(const spvk_grammar *grammar, file module, file text) {
    spvk_fault fault = UNTOUCHED_FAULT;
    spvk_buffer buffer = unread();
    const uint8_t no_text[] = {';', 0xff};
    CHECK(spvk_assemble(grammar, NULL, 9, false, &fault, &buffer) == SPVK_NULL && is_empty(buffer));
    buffer = unread();
    CHECK(spvk_assemble(grammar, text.bytes, text.size, false, NULL, &buffer) == SPVK_NULL && is_empty(buffer));
    CHECK(spvk_assemble(grammar, text.bytes, text.size, false, &fault, NULL) == SPVK_NULL);
    buffer = unread();
    CHECK(spvk_assemble(grammar, no_text, sizeof no_text, false, &fault, &buffer) == SPVK_NOT_TEXT && is_empty(buffer));
    CHECK(is_fault(fault, 7, 8));
    buffer = unread();
    CHECK(spvk_assemble(grammar, text.bytes, text.size, false, &fault, &buffer) == SPVK_OK);
    CHECK(is_fault(fault, SPVK_ASSEMBLED, 0) && has(buffer, module));
    spvk_buffer_delete(&buffer);
    CHECK(spvk_assemble(grammar, text.bytes, text.size, true, &fault, &buffer) == SPVK_OK);
    CHECK(is_fault(fault, SPVK_ASSEMBLED, 0) && buffer.size == module.size);
    for (size_t at = 0; at < module.size; at++) CHECK(buffer.data[at] == module.bytes[at ^ 3]);
    spvk_buffer_delete(&buffer);
    buffer = unread();
    CHECK(spvk_assemble(grammar, NULL, 0, false, &fault, &buffer) == SPVK_OK);
    CHECK(is_fault(fault, SPVK_S1, 1) && is_empty(buffer));
    spvk_buffer_delete(NULL);
    return 0;
}

// Names and sentences: of each code of a verdict, and of no other number.
static int rules(void) {
    const char letters[] = "WIPLDYCMEFAG?O";
    int count = 0;
    for (uint32_t code = 0; code < 1400; code++) {
        const char *name = spvk_rule_name(code), *sentence = spvk_rule_sentence(code);
        CHECK((name == NULL) == (sentence == NULL));
        if (name == NULL) continue;
        CHECK(name[0] == letters[code / 100] && (uint32_t)atoi(name + 1) == code % 100 && strlen(sentence) > 9);
        CHECK(spvk_rule_name(code) == name);
        count++;
    }
    CHECK(count > 0);
    CHECK(spvk_rule_name(SPVK_VALID) == NULL && spvk_rule_name(SPVK_NOWHERE) == NULL);
    CHECK(strcmp(spvk_rule_name(SPVK_I12), "I12") == 0 && strcmp(spvk_rule_name(SPVK_O21), "O21") == 0);
    CHECK(strcmp(spvk_version(), SPVK_VERSION) == 0);
    return 0;
}

int main(int count, char **words) {
    if (count != 5) return 2;
    file text = read_file(words[1]), module = read_file(words[2]);
    file lines = read_file(words[3]), shown = read_file(words[4]);
    spvk_grammar grammar = SPVK_GRAMMAR_NONE;
    int failed = without_grammar(NULL, module, shown) || without_grammar(&grammar, module, shown) || no_grammars(text);
    failed = failed || grammar_reasons(text);
    CHECK(!failed);
    CHECK(spvk_grammar_new(text.bytes, text.size, &grammar) == SPVK_OK && grammar.held != NULL);
    free(text.bytes);
    errno = 0;
    failed = checks(&grammar, module) || longest(&grammar) || explanations(&grammar, module, lines);
    failed = failed || objects(&grammar, module);
    failed = failed || texts(&grammar, module, shown) || modules(&grammar, module, shown) || rules();
    failed = failed || flags(&grammar, module, shown) || extended(&grammar) || typed(&grammar) || raw_calls(&grammar, module);
    failed = failed || built_in(module, shown) || statuses();
    CHECK(!failed);
    CHECK(errno == 0);
    spvk_grammar_delete(&grammar);
    CHECK(grammar.held == NULL);
    CHECK(without_grammar(&grammar, module, shown) == 0);
    spvk_grammar_delete(&grammar);
    free(module.bytes);
    free(lines.bytes);
    free(shown.bytes);
    return 0;
}
