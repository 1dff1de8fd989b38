/* refused at line 2: attribute no_instrument_function */
void __attribute__((no_instrument_function)) enter(void *function, void *site) {}
int main(void) { return 0; }
