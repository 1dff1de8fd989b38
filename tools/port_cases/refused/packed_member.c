/* refused at line 2: attribute packed */
struct header { char kind; int length __attribute__((packed)); };
int main(void) { return sizeof(struct header) == 5; }
