/* refused at line 2: an object of 1700000 cells */
struct large { char first[800000], second[900000]; };
struct large *at;
int main(void) { return at != 0; }
