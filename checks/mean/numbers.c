/* Conversions, shifts, quotients and comparisons at the edges. */
void line(int n);
struct pair { signed char low; unsigned char high; int both[2]; };
struct pair table[3] = { { 200, 200, { 1, -1 } }, { 127, 255 } };
const int edges[6] = { 0, 1, -1, 2147483647, -2147483647 - 1, 65535 };
int main(void) {
    int i; int j; unsigned u; struct pair *p;
    for (i = 0; i < 6; i = i + 1) {
        for (j = 0; j < 6; j = j + 1) {
            line(edges[i] + edges[j]); line(edges[i] - edges[j]); line(edges[i] * edges[j]);
            line(edges[i] & ~edges[j] | edges[i] ^ edges[j]);
            line((edges[i] < edges[j]) + 2 * (edges[i] >= edges[j]) + 4 * (edges[i] == edges[j]));
            u = edges[i];
            line((u < (unsigned) edges[j]) + 2 * (u > (unsigned) edges[j]));
            if (edges[j] != 0 && !(edges[i] == -2147483647 - 1 && edges[j] == -1)) { line(edges[i] / edges[j]); line(edges[i] % edges[j]); }
            if (edges[j] != 0) { line(u / (unsigned) edges[j]); line(u % (unsigned) edges[j]); }
            line(edges[i] >> (j * 5)); line(u >> (j * 5)); line(edges[i] << (j * 5));
            line((signed char) edges[i]); line((unsigned char) edges[i]); line((char) (edges[i] + edges[j]));
        }
    }
    for (p = table; p < table + 3; p = p + 1) { line(p->low); line(p->high); line(p->both[0]); line(p->both[1]); line(p - table); }
    table[2].low = table[0].high;
    return table[2].low == -56 && !table[2].both[1];
}
