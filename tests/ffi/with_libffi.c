/* A program that links the system's libffi too, and makes a call of ours through it. Built and run by tests/ffi/run. */
#include <ffi.h>
#include <stdio.h>

#include "u32_table.h"

int main(void) {
    uint64_t words[6] = {4, 9, 9, 6, 0, 0}, found[1] = {77}, *answers = found;
    size_t answer_words = 1;
    ffi_type *types[8] = {&ffi_type_uint64, &ffi_type_uint64, &ffi_type_uint64,  &ffi_type_uint64,
                          &ffi_type_uint64, &ffi_type_uint64, &ffi_type_pointer, &ffi_type_uint64};
    void *values[8] = {words, words + 1, words + 2, words + 3, words + 4, words + 5, &answers, &answer_words};
    ffi_cif call;
    ffi_arg number = 77;
    if (ffi_prep_cif(&call, FFI_DEFAULT_ABI, 8, &ffi_type_uint64, types) != FFI_OK) return 2;
    ffi_call(&call, FFI_FN(u32_table_compare), &number, values);
    int right = number == U32_TABLE_DONE && found[0] == U32_TABLE_LESS;
    puts(right ? "with libffi: as without" : "with libffi: DIFFERENT");
    return !right;
}
