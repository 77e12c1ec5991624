/* The bytes of the input in their order, by linked nodes. */
void line(int n);
struct node { unsigned char byte; struct node *next; };
static struct node nodes[1000];
static struct node *first = 0;
static int used = 0;

void insert(int byte) {
    struct node *fresh; struct node **link;
    fresh = &nodes[used];
    used = used + 1;
    fresh->byte = byte;
    link = &first;
    while (*link != 0 && (*link)->byte <= byte) { link = &(*link)->next; }
    fresh->next = *link;
    *link = fresh;
}

int main(void) {
    register int c; struct node *at;
    c = getbyte();
    while (c != -1) { insert(c); c = getbyte(); }
    for (at = first; at != 0; at = at->next) { putbyte(at->byte); }
    putbyte('\n');
    line(used);
    return used & 255;
}
