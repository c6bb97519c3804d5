/*
 * Prints the page of one node of a wall.
 *
 *     print_page FILE NODE
 *
 * Where there is no page it writes REFUSED and the refusal's number to standard error, and its status is 1.
 * Its status is 2 where it is called wrongly or FILE cannot be read.
 */
#include "wall_page.h"

#include <stdio.h>
#include <stdlib.h>

/* A number of at most 32 bits in decimal digits. */
static int read_node(const char *text, uint32_t *node)
{
    uint64_t value = 0;
    size_t i;

    for (i = 0; text[i] != '\0'; i++) {
        if (text[i] < '0' || text[i] > '9')
            return 0;
        value = 10 * value + (uint64_t)(text[i] - '0');
        if (value > UINT32_MAX)
            return 0;
    }
    *node = (uint32_t)value;
    return i > 0;
}

int main(int argc, char **argv)
{
    static uint8_t file[WALL_FILE_MAX + 1];
    static uint8_t page[WALL_PAGE_MAX];
    size_t file_len;
    uint32_t node;
    int32_t answer;
    FILE *in;

    if (argc != 3 || !read_node(argv[2], &node)) {
        fprintf(stderr, "usage: print_page FILE NODE\n");
        return 2;
    }
    in = fopen(argv[1], "rb");
    if (in == NULL) {
        fprintf(stderr, "print_page: cannot open %s\n", argv[1]);
        return 2;
    }
    file_len = fread(file, 1, sizeof file, in);
    if (ferror(in)) {
        fprintf(stderr, "print_page: cannot read %s\n", argv[1]);
        return 2;
    }
    fclose(in);

    answer = wall_page(file, file_len, node, page, sizeof page);
    if (answer < 0) {
        fprintf(stderr, "REFUSED %d\n", (int)-answer);
        return 1;
    }
    if (fwrite(page, 1, (size_t)answer, stdout) != (size_t)answer || fflush(stdout) != 0) {
        fprintf(stderr, "print_page: cannot write\n");
        return 2;
    }
    return 0;
}
