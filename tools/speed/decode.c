/* A plain C program that reads standard input in pieces, splits it into lines and decodes each line's hexadecimal into a frame, by a
   table, as the order program does; it judges nothing. Needs no header, so that the kit's own compiler builds it. */
long read(int, void *, unsigned long);
long write(int, const void *, unsigned long);

static unsigned char digit[256], frame[1486], piece[65536];

int main(void) {
    for (int c = 0; c < 256; c++) digit[c] = 16;
    for (int c = 0; c < 10; c++) digit['0' + c] = c;
    for (int c = 0; c < 6; c++) digit['a' + c] = 10 + c;
    unsigned long lines = 0, count = 0;
    unsigned half = 16, sum = 0;
    long got;
    while ((got = read(0, piece, sizeof piece)) > 0) {
        for (long i = 0; i < got;) {
            while (half == 16 && i + 1 < got && count < sizeof frame) {
                unsigned high = digit[piece[i]], low = digit[piece[i + 1]];
                if ((high | low) > 15) break;
                frame[count++] = 16 * high + low;
                i += 2;
            }
            if (i == got) break;
            unsigned char c = piece[i++];
            if (c == '\n') {
                if (half != 16) goto bad;
                sum += frame[0] + frame[count ? count - 1 : 0];
                lines++;
                count = 0;
                continue;
            }
            if (digit[c] > 15 || (half == 16 && count == sizeof frame)) goto bad;
            if (half == 16) half = digit[c];
            else { frame[count++] = 16 * half + digit[c]; half = 16; }
        }
    }
    return write(1, &sum, sizeof sum) != sizeof sum || lines == 0;
bad:
    return write(1, "ff\n", 3) != 3;
}
