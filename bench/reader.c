/* What any program for sessions has to do at least: read the lines, split the fields, convert numbers and hex, print a reply.
   It keeps no tables and answers every line alike. For timing beside the session program. */
#include <stdio.h>
#include <string.h>
#include <unistd.h>

static char input[65536 + 1024];
static char output[65536];
static size_t written;
static unsigned long line_number;
static unsigned long sum;

static void flush(void)
{
    size_t done = 0;
    while (done < written) {
        ssize_t n = write(1, output + done, written - done);
        if (n <= 0)
            return;
        done += (size_t)n;
    }
    written = 0;
}

static void put_decimal(unsigned long n)
{
    char digits[20];
    int k = 0;
    do {
        digits[k++] = (char)('0' + n % 10);
        n /= 10;
    } while (n);
    while (k)
        output[written++] = digits[--k];
}

static void reply(void)
{
    if (sizeof output - written < 64)
        flush();
    put_decimal(++line_number);
    memcpy(output + written, " 0 -\n", 5);
    written += 5;
}

static int hex_digit(char c)
{
    if (c >= '0' && c <= '9')
        return c - '0';
    if (c >= 'A' && c <= 'F')
        return c - 'A' + 10;
    return -1;
}

/* a field is a number, hex, or a word */
static void convert(const char *field, size_t length, int hex)
{
    unsigned long value = 0;
    if (hex) {
        unsigned char bytes[257];
        size_t n = 0;
        for (size_t i = 0; i + 1 < length && n < sizeof bytes; i += 2) {
            int high = hex_digit(field[i]), low = hex_digit(field[i + 1]);
            if (high < 0 || low < 0)
                return;
            bytes[n++] = (unsigned char)(high * 16 + low);
        }
        for (size_t i = 0; i < n; i++)
            sum += bytes[i];
        return;
    }
    for (size_t i = 0; i < length; i++) {
        if (field[i] < '0' || field[i] > '9')
            return;
        value = value * 10 + (unsigned long)(field[i] - '0');
    }
    sum += value;
}

static void line(const char *text, size_t length)
{
    size_t start = 0;
    int field = 0;
    int store = length > 6 && memcmp(text, "STORE\t", 6) == 0;
    for (size_t i = 0; i <= length; i++) {
        if (i < length && text[i] != '\t')
            continue;
        if (field > 0)
            convert(text + start, i - start, store && field == 4);
        field++;
        start = i + 1;
    }
    reply();
}

int main(void)
{
    size_t held = 0;
    for (;;) {
        ssize_t got = read(0, input + held, 65536);
        if (got <= 0)
            break;
        size_t end = held + (size_t)got, start = 0;
        for (size_t i = held; i < end; i++) {
            if (input[i] != '\n')
                continue;
            line(input + start, i - start);
            start = i + 1;
        }
        held = end - start;
        if (held > 1000)
            held = 0;
        memmove(input, input + start, held);
    }
    flush();
    fprintf(stderr, "%lu\n", sum);
    return 0;
}
