/* The verified model builder: `build` turns a tree file and a root name into an answer area.
 *
 * Link target/staticlib/libbuilder.a, which `./prove builder` writes once everything in it is proved.
 *
 * Words are 32 bits, unsigned, little-endian; a float is two words, low first. Names, nodes, statements, variables and
 * dependents are numbered from 0; a name's number is its place in the tree file, in the area too. A field "plus 1" is 0
 * where there is none. */
#ifndef BUILDER_H
#define BUILDER_H

#include <stddef.h>
#include <stdint.h>

#define BUILDER_VERSION "1.0.0"

#ifdef __cplusplus
extern "C" {
#endif

/* Builds the first model that bears the root name.
 *
 * Returns the number in the low 32 bits, 0 where the build is accepted, else the refusal's, and the bytes used in the
 * high 32 bits, 0 where it is refused. Afterwards the area holds, whatever it held before, the answer with zeros behind
 * it, or zeros only. It keeps nothing between calls and may be called from several threads at once. A stack of 2 MB is
 * enough; that is tested and not proved.
 *
 * Every file, root name and length is allowed. What C cannot say and the caller owes: each pointer is valid for its
 * length in bytes and not null even where the length is 0; nothing else writes to these bytes during the call; and the
 * area overlaps neither the file nor the root name. */
uint64_t build(const uint8_t *file, size_t file_length,
               const uint8_t *root, size_t root_length,
               uint8_t *area, size_t area_length);

#define BUILDER_NUMBER(told) ((uint32_t)(told))
#define BUILDER_USED(told) ((uint32_t)((told) >> 32))

/* ---- refusals ---- */

/* To be mended by the caller. */
#define BUILDER_SHORT_AREA 1          /* the area is shorter than the answer */
#define BUILDER_NO_ROOT 5             /* no model has the root name */
/* By the maker of the file. */
#define BUILDER_NO_FORM 2             /* under 32 bytes, or the form is not 1 */
#define BUILDER_OVER_MOST 3           /* a count is over its most */
#define BUILDER_BROKEN_LAYOUT 4       /* the length or a record breaks the layout */
/* By the model's author. */
#define BUILDER_MODEL_CYCLE 6         /* a model is reached from itself */
#define BUILDER_SELF_LISTED_UNKNOWN 7 /* an unknown that is t or unreserved lists itself among its dependents */
#define BUILDER_ARGUMENT_BEYOND 8     /* a submodel statement has a positional argument whose number, keywords counted, is not
                                       * below its model's count of unknowns */
#define BUILDER_TOO_BIG 9             /* over 1,024 instances, 1,024 flattened nodes or 256 flattened statements */
#define BUILDER_SHORT_LEFT_SIDE 10    /* a left side with too few arguments to reach its time index */

/* ---- the tree file: text, names, nodes, dependents, unknowns, statements, models, without gaps, then a trailer of eight
 * words: those seven counts, text in bytes, and the form ---- */

#define BUILDER_FILE_FORM 1
#define BUILDER_FILE_TRAILER_WORDS 8

/* Words of each record. */
#define BUILDER_FILE_NAME_WORDS 2      /* start in text, length */
#define BUILDER_FILE_NODE_WORDS 8      /* as a node of the area */
#define BUILDER_FILE_DEPENDENT_WORDS 1 /* a name */
#define BUILDER_FILE_UNKNOWN_WORDS 10  /* name, first dependent, count, domain, lower (2), upper (2), span (2) */
#define BUILDER_FILE_STATEMENT_WORDS 6 /* kind, name, left, right, span (2) */
#define BUILDER_FILE_MODEL_WORDS 7     /* name, first unknown, count, first statement, count, span (2) */

#define BUILDER_FILE_MOST_TEXT 4096    /* in bytes */
#define BUILDER_FILE_MOST_NAMES 256
#define BUILDER_FILE_MOST_NODES 1024
#define BUILDER_FILE_MOST_DEPENDENTS 1024
#define BUILDER_FILE_MOST_UNKNOWNS 128
#define BUILDER_FILE_MOST_STATEMENTS 256
#define BUILDER_FILE_MOST_MODELS 32
#define BUILDER_FILE_MOST_BYTES 55200  /* no tree file is longer */

/* Domains of an unknown. */
#define BUILDER_DOMAIN_NONE 0
#define BUILDER_DOMAIN_RANGE 1         /* lower and upper are the bounds */
#define BUILDER_DOMAIN_NAMED 2         /* the name's number is in lower's low word */

/* Kinds of statements. The area has no submodel statements. */
#define BUILDER_EQUATION 1
#define BUILDER_RATE_EQUATION 2
#define BUILDER_SUBMODEL 3

/* ---- the answer area: header, nodes, statements, variables, dependents, errors, without gaps ---- */

/* An area of this length is never too short. */
#define BUILDER_MOST_BYTES 55384

/* Words of the header and of each record. */
#define BUILDER_HEADER_WORDS 10
#define BUILDER_NODE_WORDS 8
#define BUILDER_STATEMENT_WORDS 8
#define BUILDER_VARIABLE_WORDS 12
#define BUILDER_DEPENDENT_WORDS 1
#define BUILDER_ERROR_WORDS 4

#define BUILDER_MOST_NODES 1024
#define BUILDER_MOST_STATEMENTS 256
#define BUILDER_MOST_VARIABLES 129
#define BUILDER_MOST_DEPENDENTS 1024
#define BUILDER_MOST_LISTED_ERRORS 256 /* all are counted, so many are listed */
#define BUILDER_MOST_INSTANCES 1024

/* Both words of a span that is missing. */
#define BUILDER_MISSING 4294967295u

/* Places in the header, in words. */
#define BUILDER_HEADER_NODES 0
#define BUILDER_HEADER_STATEMENTS 1
#define BUILDER_HEADER_VARIABLES 2
#define BUILDER_HEADER_DEPENDENTS 3
#define BUILDER_HEADER_ERRORS 4
#define BUILDER_HEADER_INSTANCES 5
#define BUILDER_HEADER_TIME_LOWER 6
#define BUILDER_HEADER_TIME_UPPER 8

/* A node. Children stand directly before their parent, in order. */
#define BUILDER_NODE_KIND 0
#define BUILDER_NODE_NAME 1       /* of an argument: its keyword plus 1 */
#define BUILDER_NODE_OP_OR_COUNT 2 /* the operator's byte, or a call's count of arguments */
#define BUILDER_NODE_SIZE 3       /* the node and all below it */
#define BUILDER_NODE_SPAN 4
#define BUILDER_NODE_NUMBER 6

#define BUILDER_NAME 1
#define BUILDER_NUMBER_NODE 2
#define BUILDER_BINARY 3
#define BUILDER_UNARY 4
#define BUILDER_CALL 5
#define BUILDER_ARGUMENT 6

/* A flattened statement. */
#define BUILDER_STATEMENT_KIND 0
#define BUILDER_STATEMENT_NAME 1  /* the state of a rate equation */
#define BUILDER_STATEMENT_LEFT 2  /* the top node of the left side; 0 in a rate equation */
#define BUILDER_STATEMENT_RIGHT 3
#define BUILDER_STATEMENT_SPAN 4
#define BUILDER_STATEMENT_FATE 6
#define BUILDER_STATEMENT_VARIABLE 7

#define BUILDER_FATE_INITIAL_CONDITION 1
#define BUILDER_FATE_HELD 2
#define BUILDER_FATE_REPLACED 3
#define BUILDER_FATE_LEFT_OVER 4

/* A variable. Variable 0 is time. */
#define BUILDER_VARIABLE_NAME 0   /* plus 1; 0 for time where the file does not name it */
#define BUILDER_VARIABLE_STATE 1  /* 0 or 1 */
#define BUILDER_VARIABLE_TIME_INDEX 2 /* plus 1 */
#define BUILDER_VARIABLE_FIRST_DEPENDENT 3
#define BUILDER_VARIABLE_DEPENDENT_COUNT 4
#define BUILDER_VARIABLE_HELD 5   /* the statement plus 1 */
#define BUILDER_VARIABLE_INITIAL_CONDITIONS 6
#define BUILDER_VARIABLE_TIME_DEPENDENT 7 /* 0 or 1 */
#define BUILDER_VARIABLE_LOWER 8
#define BUILDER_VARIABLE_UPPER 10

/* A listed error. Its span is in bytes of the model's source; the program `lines` prints the line and the column. */
#define BUILDER_ERROR_KIND 0
#define BUILDER_ERROR_SPAN 1
#define BUILDER_ERROR_NAME 3      /* plus 1 */

/* ---- errors, with the span and the name that each bears ---- */

#define BUILDER_ERROR_UNKNOWN_DOMAIN 1           /* unknown; the domain */
#define BUILDER_ERROR_RESERVED_NAME 2            /* unknown; its name */
#define BUILDER_ERROR_SUBMODEL_MISSING 3         /* statement; the model */
#define BUILDER_ERROR_POSITIONAL_AFTER_KEYWORD 4 /* argument of a submodel statement; none */
#define BUILDER_ERROR_NAME_NOT_FOUND 5           /* expression or rate statement; the name */
#define BUILDER_ERROR_COUNT_AGAINST_TABLE 6      /* call; its name */
#define BUILDER_ERROR_KEYWORD_IN_BUILT_IN 7      /* argument; the keyword */
#define BUILDER_ERROR_COUNT_AGAINST_VARIABLE 8   /* call; its name */
#define BUILDER_ERROR_NO_SUCH_DEPENDENT 9        /* argument; the keyword */
#define BUILDER_ERROR_POSITIONAL_AFTER_NAMED 10  /* argument of a variable's call; none */
#define BUILDER_ERROR_CALL_NOT_FOUND 11          /* call; its name */
#define BUILDER_ERROR_WRONG_START 12             /* argument; the call's name */
#define BUILDER_ERROR_RATE_INVALID 13            /* statement; the variable */
#define BUILDER_ERROR_UNDERDETERMINED 14         /* model; none */
#define BUILDER_ERROR_OVERDETERMINED 15          /* model; none */
#define BUILDER_ERROR_NO_INITIAL_CONDITION 16    /* model; the variable */
#define BUILDER_ERROR_ALGEBRAIC_INITIAL_CONDITION 17 /* first condition's right side; the variable */

#ifdef __cplusplus
}
#endif

#endif
