/* refused at line 4: compilers use their own */
long long llabs(long long);
int main(void) { return llabs(-1) != 1; }
long long llabs(long long n) { return n; }
