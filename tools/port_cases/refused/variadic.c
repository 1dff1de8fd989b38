/* refused at line 3: variable number */
int sum(int n, ...);
int main(void) { return sum(2, 3, 4); }
int sum(int n, ...) { return n; }
