# The one name that an archive for Linux wants.
.globl __x86_return_thunk
__x86_return_thunk:
    ret
.section .note.GNU-stack, "", @progbits
