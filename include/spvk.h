/* spvk.h: checks, explains, shows and assembles SPIR-V 1.6 kernel modules, in process.
 *
 *     spvk_grammar grammar = SPVK_GRAMMAR_NONE;
 *     spvk_verdict verdict;
 *     if (spvk_grammar_default(&grammar) == SPVK_OK) {
 *         if (spvk_check_with(&grammar, bytes, len, SPVK_OPENCL, &verdict) == SPVK_OK
 *             && verdict.code == SPVK_VALID) { .. }
 *         spvk_grammar_delete(&grammar);
 *     }
 *
 * C99 or later, C++17 or later. Link libspvk.a or libspvk.so.
 *
 * What is proved. The archive's functions, `spvk_raw_..` below, are proved: each returns, touches no memory but
 * what it is handed and what it allocates, and answers what the definitions of the library give, or that it is
 * out of memory. That the built-in grammar, and what is known of extended instructions, agree with Khronos' files is
 * tested. Nothing checks what a C caller owes; it is said here. The functions `spvk_..` are written in this
 * header, and do nothing but test pointers for null and call those; they are tested and not proved.
 *
 * What a valid module may still hold. No rule of the profile looks at the operands of OpExtInst after its number: there
 * a valid module may name ids that are over the bound or defined nowhere. With the flag SPVK_EXTENDED these ids are
 * looked at, and what is asked of them is said there. A loader that follows them sets it, or tests them itself; and so
 * does SPVK_OPENCL, for what compilers make of OpenCL C, which looks at the types of OpenCL.std too. A check says nothing
 * of what the module computes, nor of the types that instructions of other sets take.
 *
 * Memory. All of it comes from malloc, realloc and free, which must be one allocator. No call keeps a pointer that
 * it is given after it has returned. Nothing is kept between calls but what grammars and buffers hold.
 *
 * How much. As measured on hostile shapes (docs/PERFORMANCE.md), and not proved: `spvk_grammar_new` takes time
 * nearly linear in the text, at most 170 instructions of the processor a byte, and memory of at most 13 times its
 * size.
 * `spvk_check` and `spvk_explain` take time nearly linear in the module, at most 800 instructions for each word, and
 * may look at all that the module's capabilities imply in the grammar; their memory is at most 14 times the module.
 * With SPVK_AS_1_6 or SPVK_OPENCL a call copies the bytes of the module once more, and frees the copy before it returns.
 * With SPVK_EXTENDED or SPVK_OPENCL a module with a fault that is explained is decoded once more, in memory of at most 17
 * times the module.
 * A text that `spvk_show` or `spvk_explain` makes may be as long as the longest names of the grammar times the number
 * of instructions: if the grammar or the module is untrusted, limit what malloc gives, and the call answers
 * SPVK_MEMORY. A module that `spvk_assemble` makes has at most 16,777,216 bytes; its time and memory go with the
 * text.
 *
 * Threads. Any number of threads may use one grammar at the same time, to check, explain, show and assemble; a
 * grammar is made and deleted while no other thread uses it. A buffer, and each place for an answer, belongs to
 * one call at a time. No call prints, exits, opens a file, takes a lock, starts a thread or sets errno but as
 * malloc does. No call may come from a signal handler.
 *
 * Other languages bind the symbols `spvk_raw_..`: they are the same calls, but take no null pointers and no length
 * over PTRDIFF_MAX.
 */
#ifndef SPVK_H
#define SPVK_H

#include <stdbool.h>
#include <stddef.h>
#include <stdint.h>

#ifdef __cplusplus
extern "C" {
#endif

/** The version of the library. */
#define SPVK_VERSION "1.2.0"

/** What a call comes to.
 *
 *  SPVK_OK: the call succeeded; a verdict that tells a fault is an answer too. After any other status nothing was
 *  answered: verdicts and faults are unchanged, and a grammar or a buffer that was to be made holds nothing. */
typedef enum spvk_status {
    SPVK_OK = 0,
    SPVK_MEMORY = 1,     /**< malloc or realloc refused; the same call may succeed later */
    SPVK_NO_GRAMMAR = 2, /**< the grammar is a null pointer, was never made, or was deleted */
    SPVK_NULL = 3,       /**< a null pointer with a length that is not 0, or a null pointer to where the answer goes */
    SPVK_NOT_TEXT = 4,   /**< the text that is to be assembled is not UTF-8 */
    SPVK_NO_FLAG = 5,    /**< a bit of the flags is set that is no flag of this header, or two that do not go together */
    SPVK_J1 = 101,       /**< the grammar file is not JSON, or nests deeper than 127 levels */
    SPVK_J2 = 102,       /**< a key of it is missing, or something is of another sort than it must be */
    SPVK_J3 = 103,       /**< an opcode or a value is out of its range or form */
    SPVK_J4 = 104,       /**< it names a kind that it does not have */
    SPVK_J5 = 105,       /**< it has an unknown category or quantifier */
    SPVK_J6 = 106,       /**< a result kind stands twice in an instruction, is quantified, or is a parameter or base */
    SPVK_J7 = 107        /**< a composite has no bases, or one that is neither of category Id nor Literal */
} spvk_status;

/** The rule that a module breaks first, or that it breaks none: the number of its letter times a hundred, and then
 *  the rule's own number, so that I7 is 107; W2 is 2. What each says: `spvk_rule_sentence`, and docs/PROFILE.md.
 *  SPVK_W1 and SPVK_W9 (a failed read, out of memory) are never in a verdict. */
typedef enum spvk_code {
    SPVK_VALID = 0,
    SPVK_W1 = 1, SPVK_W2 = 2, SPVK_W3 = 3, SPVK_W4 = 4, SPVK_W5 = 5, SPVK_W6 = 6, SPVK_W7 = 7, SPVK_W8 = 8, SPVK_W9 = 9,
    SPVK_I1 = 101, SPVK_I2 = 102, SPVK_I3 = 103, SPVK_I4 = 104,
    SPVK_I5 = 105, SPVK_I6 = 106, SPVK_I7 = 107, SPVK_I8 = 108,
    SPVK_I9 = 109, SPVK_I10 = 110, SPVK_I11 = 111, SPVK_I12 = 112,
    SPVK_P1 = 201,
    SPVK_L1 = 301, SPVK_L2 = 302,
    SPVK_D1 = 401, SPVK_D2 = 402, SPVK_D3 = 403, SPVK_D4 = 404, SPVK_D5 = 405,
    SPVK_Y1 = 501, SPVK_Y2 = 502, SPVK_Y3 = 503, SPVK_Y4 = 504,
    SPVK_Y5 = 505, SPVK_Y6 = 506, SPVK_Y7 = 507, SPVK_Y8 = 508,
    SPVK_Y9 = 509, /* with SPVK_EXTENDED or SPVK_OPENCL alone */
    SPVK_Y10 = 510, /* with SPVK_OPENCL alone */
    SPVK_C1 = 601, SPVK_C2 = 602,
    SPVK_M1 = 701,
    SPVK_E1 = 801, SPVK_E2 = 802,
    SPVK_F1 = 901, SPVK_F2 = 902, SPVK_F3 = 903, SPVK_F4 = 904,
    SPVK_A1 = 1001, SPVK_A2 = 1002,
    SPVK_G1 = 1101,
    /* with SPVK_OPENCL alone; the hundred before is that of texts */
    SPVK_O1 = 1301, SPVK_O2 = 1302, SPVK_O3 = 1303, SPVK_O4 = 1304,
    SPVK_O5 = 1305, SPVK_O6 = 1306, SPVK_O7 = 1307, SPVK_O8 = 1308,
    SPVK_O9 = 1309, SPVK_O10 = 1310, SPVK_O11 = 1311, SPVK_O12 = 1312,
    SPVK_O13 = 1313, SPVK_O14 = 1314, SPVK_O15 = 1315, SPVK_O16 = 1316,
    SPVK_O17 = 1317, SPVK_O18 = 1318, SPVK_O19 = 1319, SPVK_O20 = 1320,
    SPVK_O21 = 1321, SPVK_O22 = 1322, SPVK_O23 = 1323
} spvk_code;

/** Why a text was not assembled. */
typedef enum spvk_text_code {
    SPVK_ASSEMBLED = 0,
    SPVK_S1 = 1201, /**< a line of the header is missing or ill-formed */
    SPVK_S2 = 1202, /**< no known name of an instruction stands at its place */
    SPVK_S3 = 1203, /**< an operand or a result is missing, one too many, ill-formed or unknown */
    SPVK_S4 = 1204, /**< a number is too large for its place */
    SPVK_S5 = 1205  /**< the instruction, or with it the module, has too many words */
} spvk_text_code;

/** A flag of the calls `.._with`: the module is read as one of version 1.6. Where its bytes begin with the magic
 *  number, in either byte order, and a version from 1.0 to 1.6, the version is taken to be 1.6, and the module is
 *  judged by the rules of 1.6. A module of any other version still breaks W5. The bytes that are given are not
 *  changed. */
#define SPVK_AS_1_6 UINT32_C(1)

/** A flag of `spvk_check_with`, `spvk_explain_with` and `spvk_explain_json_with`: extended instructions are looked at
 *  whole, also behind their number. Of the set `OpenCL.std` an id there is used as a value: it breaks SPVK_D1, SPVK_D3,
 *  SPVK_D5, SPVK_Y1 or SPVK_A1 where any other use of it would; and SPVK_Y9 is broken where that set has no instruction
 *  of that number, or has one that takes fewer or more operands. Of any other set, as of debug information, each id is
 *  below the bound and defined (SPVK_D1, SPVK_D3), and nothing else is asked, not even whether the set has the
 *  instruction. No type is looked at without SPVK_OPENCL. Loaders that follow the ids of extended instructions should
 *  set it. */
#define SPVK_EXTENDED UINT32_C(2)

/** A flag of the calls `.._with`: the module is taken for what a kernel of OpenCL can be, of version 1.0 to 1.6. Beside
 *  the instructions of the profile there are more, as those of images, events, pipes and groups, and OpExtInst may stand
 *  outside blocks, as debug information does (docs/PROFILE.md, "OpenCL"); extended instructions are looked at as with
 *  SPVK_EXTENDED, which may be set beside it and then changes nothing; and SPVK_Y10 is broken where an instruction of
 *  `OpenCL.std` has a result type, an operand of a type or a number among its operands that it does not take. SPVK_O1 to
 *  SPVK_O23 are what the standard asks of a kernel besides. A module of any other version still breaks W5. The rules are
 *  those of 1.6, whatever the version is, but for SPVK_F4, SPVK_O4 and SPVK_O21. It does not go with SPVK_AS_1_6. */
#define SPVK_OPENCL UINT32_C(4)

/** Stands for no instruction and no word: in the verdict on a valid module, and in one of W2 to W8. */
#define SPVK_NOWHERE UINT32_MAX

/** The verdict on a module: the first rule that it breaks, and where. */
typedef struct spvk_verdict {
    uint32_t code; /**< an spvk_code: SPVK_VALID, or the rule */
    uint32_t inst; /**< the number of the instruction, from 0, or SPVK_NOWHERE */
    uint32_t word; /**< the number of the word in the module, from 0, or SPVK_NOWHERE; it is at byte 4 * word */
} spvk_verdict;

/** Where a text fails. */
typedef struct spvk_fault {
    uint32_t code; /**< an spvk_text_code: SPVK_ASSEMBLED, or the first fault */
    uint32_t line; /**< the number of its line, from 1; 0 with SPVK_ASSEMBLED */
} spvk_fault;

/** A grammar, made by `spvk_grammar_default` or `spvk_grammar_new` and freed by `spvk_grammar_delete`. Initialize it
 *  with SPVK_GRAMMAR_NONE. A copy of it is the same grammar; delete only one of them. */
typedef struct spvk_grammar {
    void *held; /**< the library's own; null: no grammar */
} spvk_grammar;

#define SPVK_GRAMMAR_NONE {NULL}

/** Bytes that a call made, freed by `spvk_buffer_delete`. Initialize it with SPVK_BUFFER_NONE. They are the
 *  library's: to be read, not written. A text is UTF-8, with a line feed at the end of each line and no zero byte
 *  after it. A copy is the same bytes; delete only one of them. */
typedef struct spvk_buffer {
    const uint8_t *data; /**< the first byte; null where there are none */
    size_t size;         /**< how many bytes */
    void *held;          /**< the library's own; null: nothing to free */
} spvk_buffer;

#define SPVK_BUFFER_NONE {NULL, 0, NULL}

/* ---- The archive's functions. ----
 *
 * No pointer may be null here, also with a length of 0, but `held` and what lies in a grammar or a buffer. `held`
 * is that of a grammar: it is null, or what `spvk_raw_grammar_new` or `spvk_raw_grammar_default` made and
 * `spvk_raw_grammar_delete` did not take away.
 */

/** What `spvk_raw_check` answers. */
typedef struct spvk_answer {
    uint32_t status; /**< an spvk_status */
    uint32_t code;   /**< as in a verdict; SPVK_NOWHERE with another status than SPVK_OK */
    uint32_t inst;   /**< likewise */
    uint32_t word;   /**< likewise */
} spvk_answer;

/** A verdict and a text. */
typedef struct spvk_text {
    spvk_verdict verdict;
    spvk_buffer buffer; /**< at first SPVK_BUFFER_NONE, or a buffer to be freed when it is overwritten */
} spvk_text;

/** The fault of a text, and the bytes of a module. */
typedef struct spvk_image {
    spvk_fault fault;
    spvk_buffer buffer; /**< as in an spvk_text */
} spvk_image;

/** As `spvk_grammar_new`, but a grammar that `grammar` holds is freed first. */
uint32_t spvk_raw_grammar_new(const uint8_t *text, size_t len, spvk_grammar *grammar);
/** As `spvk_grammar_default`, but a grammar that `grammar` holds is freed first. */
uint32_t spvk_raw_grammar_default(spvk_grammar *grammar);
/** As `spvk_grammar_delete`. */
void spvk_raw_grammar_delete(spvk_grammar *grammar);
/** As `spvk_grammar_explain`, but bytes that `buffer` holds are freed first. After any status but SPVK_OK `buffer` is
 *  as it was. */
uint32_t spvk_raw_grammar_explain(const uint8_t *text, size_t len, spvk_buffer *buffer);
/** As `spvk_check`. */
spvk_answer spvk_raw_check(const void *held, const uint8_t *bytes, size_t len);
/** As `spvk_check_with` by SPVK_AS_1_6. */
spvk_answer spvk_raw_check_as_1_6(const void *held, const uint8_t *bytes, size_t len);
/** As `spvk_check_with`. */
spvk_answer spvk_raw_check_with(const void *held, const uint8_t *bytes, size_t len, uint32_t flags);
/** As `spvk_explain`. After any status but SPVK_OK `text` is as it was. */
uint32_t spvk_raw_explain(const void *held, const uint8_t *bytes, size_t len, spvk_text *text);
/** As `spvk_explain_with` by SPVK_AS_1_6. After any status but SPVK_OK `text` is as it was. */
uint32_t spvk_raw_explain_as_1_6(const void *held, const uint8_t *bytes, size_t len, spvk_text *text);
/** As `spvk_explain_with`. After any status but SPVK_OK `text` is as it was. */
uint32_t spvk_raw_explain_with(const void *held, const uint8_t *bytes, size_t len, uint32_t flags, spvk_text *text);
/** As `spvk_explain_json`. After any status but SPVK_OK `text` is as it was. */
uint32_t spvk_raw_explain_json(const void *held, const uint8_t *bytes, size_t len, spvk_text *text);
/** As `spvk_explain_json_with` by SPVK_AS_1_6. After any status but SPVK_OK `text` is as it was. */
uint32_t spvk_raw_explain_json_as_1_6(const void *held, const uint8_t *bytes, size_t len, spvk_text *text);
/** As `spvk_explain_json_with`. After any status but SPVK_OK `text` is as it was. */
uint32_t spvk_raw_explain_json_with(const void *held, const uint8_t *bytes, size_t len, uint32_t flags,
                                    spvk_text *text);
/** As `spvk_show`. After any status but SPVK_OK `text` is as it was. */
uint32_t spvk_raw_show(const void *held, const uint8_t *bytes, size_t len, spvk_text *text);
/** As `spvk_show_with` by SPVK_AS_1_6. After any status but SPVK_OK `text` is as it was. */
uint32_t spvk_raw_show_as_1_6(const void *held, const uint8_t *bytes, size_t len, spvk_text *text);
/** As `spvk_show_with` by SPVK_OPENCL. After any status but SPVK_OK `text` is as it was. */
uint32_t spvk_raw_show_opencl(const void *held, const uint8_t *bytes, size_t len, spvk_text *text);
/** As `spvk_assemble`, with the lowest byte of each word first. After any status but SPVK_OK `image` is as it was. */
uint32_t spvk_raw_assemble_little(const void *held, const uint8_t *text, size_t len, spvk_image *image);
/** As `spvk_assemble`, with the highest byte of each word first. After any status but SPVK_OK `image` is as it was.
 */
uint32_t spvk_raw_assemble_big(const void *held, const uint8_t *text, size_t len, spvk_image *image);
/** As `spvk_buffer_delete`. */
void spvk_raw_buffer_delete(spvk_buffer *buffer);
/** Puts where the text of `spvk_rule_name` begins to `text`, and answers whether there is one; else `text` is as it
 *  was. What `text` leads to is null at first, or was put there by this call or one of the three below. */
bool spvk_raw_rule_name(uint32_t code, const uint8_t **text);
/** Puts where the text of `spvk_rule_sentence` begins to `text`, and answers whether there is one; else `text` is
 *  as it was. */
bool spvk_raw_rule_sentence(uint32_t code, const uint8_t **text);
/** Puts where the text of `spvk_status_text` begins to `text`, and answers whether there is one; else `text` is as it
 *  was. */
bool spvk_raw_status_text(uint32_t status, const uint8_t **text);
/** Puts where the text of `spvk_version` begins to `text`. */
void spvk_raw_version(const uint8_t **text);

/* ---- What C calls. ---- */

/** A pointer to these bytes that is not null. (For this header.) */
static inline const uint8_t *spvk_some_bytes(const uint8_t *bytes) {
    return bytes != NULL ? bytes : (const uint8_t *)"";
}

/** Makes a grammar of the `len` bytes of a file in the form of Khronos' spirv.core.grammar.json. The text may be
 *  freed afterwards. What `grammar` held is ignored: it must not hold a grammar that is still to be deleted.
 *
 *  SPVK_OK: `grammar` holds it, until `spvk_grammar_delete`. SPVK_J1 to SPVK_J7: the text is none; the first code
 *  that it breaks. SPVK_MEMORY. SPVK_NULL: `grammar` is null, or `text` is with a `len` that is not 0. After any
 *  status but SPVK_OK `grammar` holds none. */
static inline spvk_status spvk_grammar_new(const uint8_t *text, size_t len, spvk_grammar *grammar) {
    if (grammar == NULL) return SPVK_NULL;
    grammar->held = NULL;
    if (text == NULL && len != 0) return SPVK_NULL;
    return (spvk_status)spvk_raw_grammar_new(spvk_some_bytes(text), len, grammar);
}

/** Makes the built-in grammar, of SPIR-V 1.6, which needs no file. What `grammar` held is ignored: it must not hold
 *  a grammar that is still to be deleted.
 *
 *  SPVK_OK: `grammar` holds it, until `spvk_grammar_delete`. SPVK_MEMORY. SPVK_NULL: `grammar` is null. SPVK_J2: the
 *  library was damaged. After any status but SPVK_OK `grammar` holds none. */
static inline spvk_status spvk_grammar_default(spvk_grammar *grammar) {
    if (grammar == NULL) return SPVK_NULL;
    grammar->held = NULL;
    return (spvk_status)spvk_raw_grammar_default(grammar);
}

/** Why `spvk_grammar_new` refuses the `len` bytes of a text, in the lines that `spv --verbose` writes after the code:
 *  `at:` and the path to a place that breaks the code, as `instructions[12].operands[0].kind`, unless that is the whole
 *  file or the code is J1; `found:` and what is there, or for J1 the line and the column at which reading stopped;
 *  `wanted:` and what is wanted there. It is proved that the path leads to what was found; that the code is broken
 *  there, and what is wanted, is tested. Octets of control characters, and those that are none of ASCII, are written as
 *  `\xNN`. The text is read once more for it.
 *
 *  SPVK_OK: `buffer` holds the lines, until `spvk_buffer_delete`; no bytes where the text gives a grammar. SPVK_MEMORY.
 *  SPVK_NULL: `buffer` is null, or `text` is with a `len` that is not 0. After any status but SPVK_OK `buffer` holds
 *  nothing. What `buffer` held is not looked at. */
static inline spvk_status spvk_grammar_explain(const uint8_t *text, size_t len, spvk_buffer *buffer) {
    spvk_buffer none = SPVK_BUFFER_NONE;
    if (buffer == NULL) return SPVK_NULL;
    *buffer = none;
    if (text == NULL && len != 0) return SPVK_NULL;
    return (spvk_status)spvk_raw_grammar_explain(spvk_some_bytes(text), len, buffer);
}

/** Frees a grammar. It does nothing with a null pointer, nor with one that holds none or was deleted. */
static inline void spvk_grammar_delete(spvk_grammar *grammar) {
    if (grammar != NULL) spvk_raw_grammar_delete(grammar);
}

/** As `spvk_check`, by flags: SPVK_AS_1_6, SPVK_EXTENDED, or both by `|`, or SPVK_OPENCL; 0 for none.
 *
 *  Also SPVK_NO_FLAG: `flags` has another bit, or both SPVK_AS_1_6 and SPVK_OPENCL. */
static inline spvk_status spvk_check_with(const spvk_grammar *grammar, const uint8_t *bytes, size_t len,
                                          uint32_t flags, spvk_verdict *verdict) {
    spvk_answer answer;
    if (grammar == NULL || grammar->held == NULL) return SPVK_NO_GRAMMAR;
    if (verdict == NULL || (bytes == NULL && len != 0)) return SPVK_NULL;
    answer = spvk_raw_check_with(grammar->held, spvk_some_bytes(bytes), len, flags);
    if (answer.status == SPVK_OK) {
        verdict->code = answer.code;
        verdict->inst = answer.inst;
        verdict->word = answer.word;
    }
    return (spvk_status)answer.status;
}

/** The verdict on the `len` bytes of a module, in either byte order, just as `spv check` gives it.
 *
 *  SPVK_OK: `verdict` holds it. No bytes at all are a module that breaks W2. SPVK_MEMORY. SPVK_NO_GRAMMAR.
 *  SPVK_NULL: `verdict` is null, or `bytes` is with a `len` that is not 0. After any status but SPVK_OK `verdict`
 *  is as it was. */
static inline spvk_status spvk_check(const spvk_grammar *grammar, const uint8_t *bytes, size_t len,
                                     spvk_verdict *verdict) {
    return spvk_check_with(grammar, bytes, len, 0, verdict);
}

/** What `spvk_explain`, `spvk_explain_json` and `spvk_show` answer, by a call of the library. (For this header.) */
static inline spvk_status spvk_told_by(uint32_t (*raw)(const void *, const uint8_t *, size_t, uint32_t, spvk_text *),
                                       const spvk_grammar *grammar, const uint8_t *bytes, size_t len,
                                       uint32_t flags, spvk_verdict *verdict, spvk_buffer *buffer) {
    spvk_text text = {{0, 0, 0}, SPVK_BUFFER_NONE};
    uint32_t status;
    if (buffer != NULL) *buffer = text.buffer;
    if (grammar == NULL || grammar->held == NULL) return SPVK_NO_GRAMMAR;
    if (verdict == NULL || buffer == NULL || (bytes == NULL && len != 0)) return SPVK_NULL;
    status = raw(grammar->held, spvk_some_bytes(bytes), len, flags, &text);
    if (status == SPVK_OK) {
        *verdict = text.verdict;
        *buffer = text.buffer;
    }
    return (spvk_status)status;
}

/** As `spvk_explain`, by flags: SPVK_AS_1_6, SPVK_EXTENDED, or both by `|`, or SPVK_OPENCL; 0 for none. The lines speak
 *  of the module as it was read.
 *
 *  Also SPVK_NO_FLAG, as of `spvk_check_with`. */
static inline spvk_status spvk_explain_with(const spvk_grammar *grammar, const uint8_t *bytes, size_t len,
                                            uint32_t flags, spvk_verdict *verdict, spvk_buffer *buffer) {
    return spvk_told_by(spvk_raw_explain_with, grammar, bytes, len, flags, verdict, buffer);
}

/** The verdict on the bytes of a module, and the lines of `spv explain`: that of the verdict, and after that of a
 *  fault lines that explain it.
 *
 *  SPVK_OK: `verdict` and `buffer` hold them, `buffer` until `spvk_buffer_delete`. The other statuses as of
 *  `spvk_check`; also SPVK_NULL where `buffer` is null. After any status but SPVK_OK `verdict` is as it was, and
 *  `buffer` holds nothing. What `buffer` held is not looked at. */
static inline spvk_status spvk_explain(const spvk_grammar *grammar, const uint8_t *bytes, size_t len,
                                       spvk_verdict *verdict, spvk_buffer *buffer) {
    return spvk_explain_with(grammar, bytes, len, 0, verdict, buffer);
}

/** As `spvk_explain_json`, by flags: SPVK_AS_1_6, SPVK_EXTENDED, or both by `|`, or SPVK_OPENCL; 0 for none. The object
 *  speaks of the module as it was read; its member `profile` tells by which flag.
 *
 *  Also SPVK_NO_FLAG, as of `spvk_check_with`. */
static inline spvk_status spvk_explain_json_with(const spvk_grammar *grammar, const uint8_t *bytes, size_t len,
                                                 uint32_t flags, spvk_verdict *verdict, spvk_buffer *buffer) {
    return spvk_told_by(spvk_raw_explain_json_with, grammar, bytes, len, flags, verdict, buffer);
}

/** The verdict on the bytes of a module, and what `spv explain --json` writes of it: a JSON object with a line feed
 *  after it, which says what the lines of `spvk_explain` say, with numbers as numbers. It has no member `file`. Its
 *  members are described in docs/explain.schema.json, a JSON Schema.
 *
 *  SPVK_OK: `verdict` and `buffer` hold them, `buffer` until `spvk_buffer_delete`. The other statuses, and what is left
 *  after them, as of `spvk_explain`. */
static inline spvk_status spvk_explain_json(const spvk_grammar *grammar, const uint8_t *bytes, size_t len,
                                            spvk_verdict *verdict, spvk_buffer *buffer) {
    return spvk_explain_json_with(grammar, bytes, len, 0, verdict, buffer);
}

/** What the archive shows by flags. (For this header.) */
static inline uint32_t spvk_shown_by(const void *held, const uint8_t *bytes, size_t len, uint32_t flags,
                                     spvk_text *text) {
    switch (flags) {
    case 0: return spvk_raw_show(held, bytes, len, text);
    case SPVK_AS_1_6: return spvk_raw_show_as_1_6(held, bytes, len, text);
    case SPVK_OPENCL: return spvk_raw_show_opencl(held, bytes, len, text);
    default: return SPVK_NO_FLAG;
    }
}

/** As `spvk_show`, by a flag: SPVK_AS_1_6, by which the text tells version 1.6, or SPVK_OPENCL, by which it tells that of
 *  the module, of 1.0 to 1.6; 0 for none.
 *
 *  Also SPVK_NO_FLAG: `flags` has another bit, as SPVK_EXTENDED is, or both: no rule but of W or I is asked here. */
static inline spvk_status spvk_show_with(const spvk_grammar *grammar, const uint8_t *bytes, size_t len,
                                         uint32_t flags, spvk_verdict *verdict, spvk_buffer *buffer) {
    return spvk_told_by(spvk_shown_by, grammar, bytes, len, flags, verdict, buffer);
}

/** The text of a module, as `spv show` writes it, or the rule of W or I by which its bytes are no list of
 *  instructions.
 *
 *  SPVK_OK, and the code of `verdict` is SPVK_VALID: `buffer` holds the text, until `spvk_buffer_delete`; that the
 *  module is valid is not said by that, which is for `spvk_check`. SPVK_OK and another code, of W or I: there is no
 *  text, and `buffer` holds nothing. The other statuses, and what is left after them, as of `spvk_explain`. */
static inline spvk_status spvk_show(const spvk_grammar *grammar, const uint8_t *bytes, size_t len,
                                       spvk_verdict *verdict, spvk_buffer *buffer) {
    return spvk_show_with(grammar, bytes, len, 0, verdict, buffer);
}

/** The bytes of the module that the `len` bytes of a text stand for, as `spv asm` makes them: each word with its
 *  highest byte first where `big`, else with its lowest.
 *
 *  SPVK_OK, and the code of `fault` is SPVK_ASSEMBLED: `buffer` holds the bytes, until `spvk_buffer_delete`.
 *  SPVK_OK and another code: the first fault of the text and its line; `buffer` holds nothing. SPVK_NOT_TEXT: the
 *  text is not UTF-8. SPVK_MEMORY. SPVK_NO_GRAMMAR. SPVK_NULL: `fault` or `buffer` is null, or `text` is with a
 *  `len` that is not 0. After any status but SPVK_OK `fault` is as it was, and `buffer` holds nothing. What
 *  `buffer` held is not looked at. */
static inline spvk_status spvk_assemble(const spvk_grammar *grammar, const uint8_t *text, size_t len, bool big,
                                        spvk_fault *fault, spvk_buffer *buffer) {
    spvk_image image = {{0, 0}, SPVK_BUFFER_NONE};
    uint32_t status;
    if (buffer != NULL) *buffer = image.buffer;
    if (grammar == NULL || grammar->held == NULL) return SPVK_NO_GRAMMAR;
    if (fault == NULL || buffer == NULL || (text == NULL && len != 0)) return SPVK_NULL;
    status = big ? spvk_raw_assemble_big(grammar->held, spvk_some_bytes(text), len, &image)
                 : spvk_raw_assemble_little(grammar->held, spvk_some_bytes(text), len, &image);
    if (status == SPVK_OK) {
        *fault = image.fault;
        *buffer = image.buffer;
    }
    return (spvk_status)status;
}

/** Frees the bytes of a buffer. It does nothing with a null pointer, nor with one that holds nothing or was
 *  deleted. */
static inline void spvk_buffer_delete(spvk_buffer *buffer) {
    if (buffer != NULL) spvk_raw_buffer_delete(buffer);
}

/** The name of a code of a verdict, as "I7", with a zero at its end; null for no code, as SPVK_VALID. It is never
 *  freed. */
static inline const char *spvk_rule_name(uint32_t code) {
    const uint8_t *text = NULL;
    return spvk_raw_rule_name(code, &text) ? (const char *)text : NULL;
}

/** What a code of a verdict says, in a sentence of ASCII with a zero at its end, as `spv rules` writes it; null for
 *  no code. It is never freed. */
static inline const char *spvk_rule_sentence(uint32_t code) {
    const uint8_t *text = NULL;
    return spvk_raw_rule_sentence(code, &text) ? (const char *)text : NULL;
}

/** What a status says, in a few words of ASCII with a zero at its end, as "out of memory"; null for what is no status.
 *  It is never freed. */
static inline const char *spvk_status_text(uint32_t status) {
    const uint8_t *text = NULL;
    return spvk_raw_status_text(status, &text) ? (const char *)text : NULL;
}

/** The version of the library, as "1.2.0", with a zero at its end. It is never freed. */
static inline const char *spvk_version(void) {
    const uint8_t *text = NULL;
    spvk_raw_version(&text);
    return (const char *)text;
}

#ifdef __cplusplus
}
#endif

#endif
