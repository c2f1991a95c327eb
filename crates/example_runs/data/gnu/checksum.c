/* Writes the CRC-32 of the console input as eight hexadecimal digits and a line feed. */

typedef unsigned int word;

/* The console, in start.s. */
word get(unsigned char *place, word room);            /* how many bytes were read; 0 at the end */
void put(const unsigned char *place, word count);

static unsigned char input[64];

/* The sum with one byte more, whose rightmost bit comes first. */
static word with_byte(word sum, unsigned char byte)
{
    sum ^= byte;
    for (int bit = 0; bit < 8; bit++)
        sum = sum & 1 ? sum >> 1 ^ 0xEDB88320 : sum >> 1;
    return sum;
}

static void put_word(word value)
{
    unsigned char text[9];

    for (int at = 0; at < 8; at++) {
        text[at] = "0123456789abcdef"[value >> 28];
        value <<= 4;
    }
    text[8] = '\n';
    put(text, sizeof text);
}

int main(void)
{
    word sum = 0xFFFFFFFF;
    word count;

    while ((count = get(input, sizeof input)) != 0)
        for (word at = 0; at < count; at++)
            sum = with_byte(sum, input[at]);
    put_word(~sum);
    return 0;
}
