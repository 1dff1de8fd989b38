/* refused at line 3: which no file defines */
int elsewhere(int n);
int main(void) { return elsewhere(1); }
