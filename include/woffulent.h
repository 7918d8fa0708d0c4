/* woffulent.h: a proved checker for EXPRESS schemas, to be linked with libwoffulent.a.
 *
 * A call takes the bytes of a file, and tables and a room for strings lent by the caller, and fills these. What is promised of both
 * calls, for all bytes and all lengths (docs/LANGUAGE.md has the rules, by the numbers given here):
 *
 *   - It ends, reads the bytes, the tables and the room alone, and writes the tables, the room and the four places behind them alone
 *     (R1, R16).
 *   - It accepts a file exactly where the rules do, and the tables then hold its tokens, its tree and the answers of its constants, and
 *     the room their strings, with zeros behind them (R7, R17). After a refusal the reply and the number beside it say what is wrong and
 *     where, and every entry of every table and every byte of the room is 0.
 *   - Each answer is the one that the rules of evaluation give, and there is no other (R18).
 *
 * They keep no state and allocate nothing: any number of threads may call them at the same time, each with tables and a room of its own.
 * woffulent_check needs less than 1.5 MiB of stack, woffulent_check_records less than 1.75 MiB. They call `memset` of the C library and
 * nothing else. They are compiled for x86-64 Linux.
 *
 * Neither two tables nor a table and the room may overlap, nor may one of them overlap the bytes. A table, room or text of length 0 may
 * have any pointer. The places for number, tokens, nodes and constants must not be null, must be different places, and must lie neither
 * in a table or the room nor in the bytes.
 */
#ifndef WOFFULENT_H
#define WOFFULENT_H

#include <stddef.h>
#include <stdint.h>

#ifdef __cplusplus
extern "C" {
#endif

/* Limits (R20). A file of n bytes, at most WOFFULENT_BYTES, has at most n tokens, n nodes and n / 6 constants: tables of so many
 * entries are never too short. Neither is a room of WOFFULENT_STRING_BYTES for each constant, so of n / 6 * WOFFULENT_STRING_BYTES. */
#define WOFFULENT_BYTES 65536
#define WOFFULENT_BITS 63
#define WOFFULENT_STRING_BYTES 255

/* The reply (R2): 0 accepts. The number beside it is 0 for 0, 65536 for 1, the entries needed for 6, 7 and 8, the bytes of the room as it
 * was lent for 20, and otherwise the place of the first byte of what is at fault, counted from 0. */
enum woffulent_reply {
    WOFFULENT_ACCEPTED = 0,       /* no fault */
    WOFFULENT_TOO_LONG = 1,       /* more than 65,536 bytes */
    WOFFULENT_NO_TOKEN = 2,       /* a byte that begins no token; a remark, string or binary without an end */
    WOFFULENT_TOO_LARGE = 3,      /* an integer above 9223372036854775807, a binary of more than 63 bits, a string of more than 255
                                     bytes, two quotes inside it being one */
    WOFFULENT_UNEXPECTED = 4,     /* a token that cannot stand there; the file ends too early (number: its length) */
    WOFFULENT_TOO_DEEP = 5,       /* the 65th parenthesis or interval that is open at once */
    WOFFULENT_TOKENS_SHORT = 6,   /* the token table has too few entries */
    WOFFULENT_NODES_SHORT = 7,    /* the node table has too few entries */
    WOFFULENT_ANSWERS_SHORT = 8,  /* the answer table has too few entries */
    WOFFULENT_REPEATED = 9,       /* declared twice in one scope */
    WOFFULENT_NOT_FOUND = 10,     /* a name that is not found */
    WOFFULENT_WRONG_SORT = 11,    /* a name that means what may not stand there; SELF in a constant */
    WOFFULENT_AMBIGUOUS = 12,     /* a name with two meanings; an own name that is that of an inherited attribute */
    WOFFULENT_CYCLE = 13,         /* a declaration that depends on itself */
    WOFFULENT_NOT_EVALUATED = 14, /* a constant that has or uses a REAL, a NUMBER, a select or an entity, or uses PI, CONST_E or `/` */
    WOFFULENT_MISFIT = 15,        /* operands, or an expression and its declared type, that do not fit */
    WOFFULENT_ROOM_SHORT = 20     /* the room has fewer bytes than all string answers together */
};

/* The kind of an answer (K35); an end (R4) is a kind too. */
enum woffulent_answer {
    WOFFULENT_ANSWER_INDETERMINATE = 0, /* ?; number and length are 0 */
    WOFFULENT_ANSWER_INTEGER = 1,       /* number: its value */
    WOFFULENT_ANSWER_LOGICAL = 2,       /* number: one of enum woffulent_logical */
    WOFFULENT_ANSWER_BINARY = 3,        /* number: what its bits stand for, the leftmost weighing most; length: how many bits */
    WOFFULENT_ANSWER_ITEM = 4,          /* number: the node of the enumeration item */
    WOFFULENT_ANSWER_STRING = 5,        /* number: where its bytes begin in the room; length: how many bytes, from 0 to 255 */
    WOFFULENT_END_OUTSIDE = 16,         /* a result that 64 signed bits do not hold, or one of more than 63 bits or 255 bytes joined */
    WOFFULENT_END_ZERO_DIVISOR = 17,    /* DIV or MOD by 0 */
    WOFFULENT_END_NEGATIVE_POWER = 18,  /* ** with a negative right operand */
    WOFFULENT_END_UNKNOWN_BOOLEAN = 19  /* a BOOLEAN that comes to UNKNOWN */
};

/* The number of a logical answer. */
enum woffulent_logical {
    WOFFULENT_LOGICAL_FALSE = 0,
    WOFFULENT_LOGICAL_UNKNOWN = 1,
    WOFFULENT_LOGICAL_TRUE = 2
};

/* The kind of a token (T18). */
enum woffulent_token {
    WOFFULENT_TOKEN_NONE = 0, /* behind the last token */
    WOFFULENT_TOKEN_WORD = 1,
    WOFFULENT_TOKEN_INTEGER = 2,
    WOFFULENT_TOKEN_REAL = 3,
    WOFFULENT_TOKEN_STRING = 4,
    WOFFULENT_TOKEN_BINARY = 5,
    WOFFULENT_TOKEN_SYMBOL = 6
};

/* The kind of a node (G32). */
enum woffulent_node {
    WOFFULENT_NODE_INTEGER = 1,
    WOFFULENT_NODE_BINARY = 2,
    WOFFULENT_NODE_LOGICAL = 3,
    WOFFULENT_NODE_INDETERMINATE = 4,
    WOFFULENT_NODE_OTHER = 5,          /* a string, or what is not evaluated: a real, PI or CONST_E; the kind of its token tells */
    WOFFULENT_NODE_NAME = 6,
    WOFFULENT_NODE_QUALIFIED_ITEM = 7, /* type.item, named by the item */
    WOFFULENT_NODE_SELF_REFERENCE = 8,
    WOFFULENT_NODE_UNARY = 9,
    WOFFULENT_NODE_TWO_OPERAND = 10,
    WOFFULENT_NODE_INTERVAL = 11,
    WOFFULENT_NODE_INTERVAL_OPERATOR = 12,
    WOFFULENT_NODE_SIMPLE_TYPE = 13,
    WOFFULENT_NODE_ITEM = 14,
    WOFFULENT_NODE_ENUMERATION = 15,
    WOFFULENT_NODE_SELECT = 16,
    WOFFULENT_NODE_CONSTANT = 17,
    WOFFULENT_NODE_TYPE = 18,
    WOFFULENT_NODE_ATTRIBUTE_NAME = 19,
    WOFFULENT_NODE_ATTRIBUTE_GROUP = 20,
    WOFFULENT_NODE_OPTIONAL_GROUP = 21,
    WOFFULENT_NODE_DERIVED_ATTRIBUTE = 22,
    WOFFULENT_NODE_RULE = 23,
    WOFFULENT_NODE_ENTITY = 24,
    WOFFULENT_NODE_SCHEMA = 25,
    WOFFULENT_NODE_FILE = 26
};

/* Checks a file. Gives the reply, and writes the number beside it and the numbers of tokens, nodes and constants, which are 0 after a
 * refusal. Each column is a pointer and how many entries it has; a table has as many as its shortest column (R9). */
uint8_t woffulent_check(
    const uint8_t *src, size_t src_length,                       /* the bytes of the file */
    uint8_t *token_kinds, size_t token_kinds_length,             /* enum woffulent_token */
    uint32_t *token_starts, size_t token_starts_length,          /* the place of the first byte */
    uint32_t *token_lengths, size_t token_lengths_length,        /* how many bytes */
    uint8_t *node_kinds, size_t node_kinds_length,               /* enum woffulent_node; children before parents, the file last */
    uint32_t *node_tokens, size_t node_tokens_length,            /* the number of the naming token */
    uint32_t *node_sizes, size_t node_sizes_length,              /* how many nodes, itself and all below it */
    uint32_t *node_bindings, size_t node_bindings_length,        /* of a name, one more than the node that it means; else 0 */
    uint8_t *answer_kinds, size_t answer_kinds_length,           /* enum woffulent_answer; one row for each constant, in text order */
    int64_t *answer_numbers, size_t answer_numbers_length,       /* by the kind */
    uint8_t *answer_lengths, size_t answer_lengths_length,       /* the bits of a binary, the bytes of a string, else 0 */
    uint8_t *room, size_t room_length,                           /* the bytes of all string answers, row after row, without gaps */
    uint32_t *number, uint32_t *tokens, uint32_t *nodes, uint32_t *constants);

/* An answer as a record. */
struct woffulent_record {
    uint8_t kind;   /* enum woffulent_answer */
    int64_t number; /* by the kind */
    uint8_t length; /* the bits of a binary, the bytes of a string, else 0 */
};

/* The same with records in place of the three answer columns; the answer table has as many entries as there are records (R11). */
uint8_t woffulent_check_records(
    const uint8_t *src, size_t src_length,
    uint8_t *token_kinds, size_t token_kinds_length,
    uint32_t *token_starts, size_t token_starts_length,
    uint32_t *token_lengths, size_t token_lengths_length,
    uint8_t *node_kinds, size_t node_kinds_length,
    uint32_t *node_tokens, size_t node_tokens_length,
    uint32_t *node_sizes, size_t node_sizes_length,
    uint32_t *node_bindings, size_t node_bindings_length,
    struct woffulent_record *records, size_t records_length,
    uint8_t *room, size_t room_length,
    uint32_t *number, uint32_t *tokens, uint32_t *nodes, uint32_t *constants);

#ifdef __cplusplus
}
#endif

#endif
