/* refused at line 3: a union whose members i and c */
union u { int i; char c[4]; } u;
int main(void) { u.i = 1; return u.c[0]; }
