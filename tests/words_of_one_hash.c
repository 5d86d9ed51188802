/* Prints so many words of 32 characters, a line each, that all have one hash in the hash maps of std.

   The hasher takes sixteen bytes at a time. Each word has eight letters of its own, and after them eight characters that
   take back what these did to the hash; the others are the same in all. Both ends are letters, so a trimmer leaves all of
   it. About one of 60,000 choices of the letters needs only characters that may stand in a word here: ASCII, and no
   capital letter, quote, backslash or hyphen. */
#include <stdint.h>
#include <stdio.h>
#include <stdlib.h>
#include <string.h>

static const uint64_t MULTIPLIER = 0x9e3779b97f4a7c15, INITIAL = 0x243f6a8885a308d3;
static const uint64_t HIGH_BITS = 0x8080808080808080;
static char stands_in_words[256];

static uint64_t folded(uint64_t a, uint64_t b)
{
    unsigned __int128 product = (unsigned __int128)a * b;
    return (uint64_t)product ^ (uint64_t)(product >> 64);
}

/* Eight letters from a to p, one for each four bits. */
static uint64_t letters_of(uint32_t number)
{
    uint64_t bits = number;
    bits = (bits | bits << 16) & 0x0000ffff0000ffff;
    bits = (bits | bits << 8) & 0x00ff00ff00ff00ff;
    bits = (bits | bits << 4) & 0x0f0f0f0f0f0f0f0f;
    return bits + 0x6161616161616161;
}

static int all_stand(uint64_t bytes)
{
    for (int at = 0; at < 8; at++, bytes >>= 8)
        if (!stands_in_words[bytes & 255])
            return 0;
    return 1;
}

int main(int count, char **words)
{
    long left = count > 1 ? atol(words[1]) : 0;
    char word[34] = "........aaaaaaaa........aaaaaaaa\n";
    for (int c = 0x21; c < 0x7f; c++)
        stands_in_words[c] = !(c >= 'A' && c <= 'Z') && !strchr("\"\\-", c);
    for (uint32_t number = 0; left > 0; number++) {
        uint64_t first = letters_of(number), taken = folded(first ^ (INITIAL + 32), letters_of(0) ^ MULTIPLIER);
        if (taken & HIGH_BITS || !all_stand(taken))
            continue;
        memcpy(word, &first, 8);
        memcpy(word + 16, &taken, 8);
        left--;
        if (fwrite(word, 1, 33, stdout) != 33)
            return 1;
    }
    return 0;
}
