/* refused at line 2: #pragma pack(2) */
#pragma pack(2)
struct header { char kind; int length; };
int main(void) { return sizeof(struct header) == 6; }
