/* refused at line 3: printf */
#include <stdio.h>
int main(void) { return printf("hello") != 5; }
