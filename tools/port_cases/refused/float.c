/* refused at line 2: no floating point */
float f;
int main(void) { return f > 1; }
