/* refused at line 2: the preprocessor says */
#include <no_such_header.h>
int main(void) { return 0; }
