unsigned step_a(unsigned x) { return x * 3 + 1; }
unsigned step_b(unsigned x) { return x ^ 5; }
