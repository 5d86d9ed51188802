/* Reads a job from standard input, and prints its index: cc index.c $(pkg-config --cflags --libs elasticlunr) */
#include <elasticlunr.h>
#include <stdio.h>

int main(void)
{
    static uint8_t job[1 << 20];
    size_t job_length = fread(job, 1, sizeof job, stdin), length;
    uint8_t *text;
    uint32_t status = elasticlunr_answer(job, job_length, &text, &length);
    if (status == ELASTICLUNR_MEMORY) {
        fprintf(stderr, "out of memory\n");
        return 1;
    }
    fwrite(text, 1, length, status == ELASTICLUNR_DONE ? stdout : stderr);
    elasticlunr_free(text);
    return (int)status;
}
