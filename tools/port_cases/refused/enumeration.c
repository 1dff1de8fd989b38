/* refused at line 2: an enumeration of more than 32 bits */
enum wide { BELOW = -1, ABOVE = 0xffffffff };
int main(void) { return BELOW > ABOVE; }
