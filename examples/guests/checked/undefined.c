/*
 * Undefined behaviour that is none of memory: the function that the compiler calls for each kind is a label with an EBREAK. In a0 is the compiler's record of the
 * place, which begins with the file, the line and the column.
 */
#include "checked.h"

#define UNDEFINED(kind) LABEL("__ubsan_handle_" kind, " ")
/* A kind after which the program could go on, and the same kind where it may not. */
#define EITHER(kind) \
    UNDEFINED(kind); \
    UNDEFINED(kind "_abort")

SECTION("undefined");
EITHER("add_overflow");
EITHER("sub_overflow");
EITHER("mul_overflow");
EITHER("negate_overflow");
EITHER("divrem_overflow");
EITHER("shift_out_of_bounds");
EITHER("out_of_bounds");
EITHER("pointer_overflow");
EITHER("type_mismatch_v1");
EITHER("nonnull_arg");
EITHER("nonnull_return_v1");
EITHER("load_invalid_value");
EITHER("vla_bound_not_positive");
EITHER("float_cast_overflow");
EITHER("invalid_builtin");
UNDEFINED("builtin_unreachable");
UNDEFINED("missing_return");
SECTION_END;
