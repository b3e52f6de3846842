/* Reads standard input to its end and writes as many bytes as its argument says: the least that a program with the text
   program's input and output can do. The text program is measured beside it. */
#include <stdlib.h>
#include <unistd.h>

static char bytes[1 << 20];

int main(int count, char **words) {
    size_t have = 0, sent = 0, wanted = count > 1 ? strtoul(words[1], NULL, 10) : 0;
    ssize_t got;
    while (have < sizeof bytes && (got = read(0, bytes + have, sizeof bytes - have)) > 0)
        have += (size_t)got;
    if (wanted > sizeof bytes)
        return 1;
    for (; sent < wanted; sent += (size_t)got)
        if ((got = write(1, bytes + sent, wanted - sent)) <= 0)
            return 1;
    return 0;
}
