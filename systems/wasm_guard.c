/* The compiler's functions on whole numbers of 128 bits were built with a guard of the stack: where it is broken, the
   module stops. */
unsigned long __stack_chk_guard = 0x9e3779b97f4a7c15ul;

void __stack_chk_fail(void) {
    __builtin_trap();
}
