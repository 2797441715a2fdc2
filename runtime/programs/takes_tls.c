/* A library with a variable of each thread that has to lie in what the C library has for such ones. */
__thread char taken[48] __attribute__((tls_model("initial-exec")));

char *place_of(void) {
    return taken;
}
