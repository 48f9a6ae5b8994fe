/* Reads at most 11,265 bytes and writes as many as `sheets` does on the worked day: what `sheets` is timed against. */
#include <string.h>
#include <unistd.h>

int main(void) {
    static char bytes[11265], text[544];
    size_t n = 0;
    ssize_t got;
    while (n < sizeof bytes && (got = read(0, bytes + n, sizeof bytes - n)) > 0)
        n += (size_t)got;
    memset(text, '.', sizeof text);
    return write(1, text, sizeof text) < 0;
}
