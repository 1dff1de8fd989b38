/* refused at line 2: a wide string */
static const int text[] = L"abc";
int main(void) { return text[0] - 97; }
