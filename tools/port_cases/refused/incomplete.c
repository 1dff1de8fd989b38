/* refused at line 4: no known member x */
struct hidden;
static struct hidden *h;
int main(void) { return h->x; }
