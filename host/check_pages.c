/*
 * Holds the call wall_page against stored pages.
 *
 *     check_pages [--ends] [WALL PAGES]..
 *
 * WALL is a wall file, and PAGES what the page program prints of it. Every node is asked with just enough room,
 * with the most room and with a byte too little, and so are numbers that are no node. After each call the whole
 * memory in and round the place for the page is looked at. With --ends, for slow machines and tools, only the
 * first and the last node of each wall are asked.
 *
 * A line is printed for each failure, and last 'N passed, M failed'. The status is 0 only if nothing failed.
 */
#include "wall_page.h"

#include <stdio.h>
#include <stdlib.h>
#include <string.h>

/* Round the place for a page stand so many bytes, and all of them are this one before the call. */
enum { GUARD = 64, FILL = 0xA5 };

/* No file of stored pages has so many bytes. */
enum { STORED_MAX = 1 << 20 };

static unsigned long passed, failed;

/* The wall that is checked, in memory of just its length, so that a reading past its end can be seen. */
static const char *wall_name;
static uint8_t *wall;
static size_t wall_len;

static void give_up(const char *what, const char *name)
{
    fprintf(stderr, "check_pages: %s %s\n", what, name);
    exit(2);
}

static void *memory_of(size_t bytes)
{
    void *memory = malloc(bytes > 0 ? bytes : 1);

    if (memory == NULL)
        give_up("no memory for", wall_name);
    return memory;
}

/* A whole file, with a zero byte behind it. */
static char *read_whole(const char *name, size_t *length)
{
    char *bytes = memory_of(STORED_MAX);
    FILE *in = fopen(name, "rb");

    if (in == NULL)
        give_up("cannot open", name);
    *length = fread(bytes, 1, STORED_MAX, in);
    if (ferror(in) || *length == STORED_MAX)
        give_up("cannot read", name);
    fclose(in);
    bytes[*length] = '\0';
    return bytes;
}

/* Whether the page stands at its place, and FILL at every other. */
static int left_as_wanted(const uint8_t *memory, size_t size, const char *page, size_t page_len)
{
    size_t i;

    for (i = 0; i < size; i++) {
        int in_page = i >= GUARD && i - GUARD < page_len;

        if (memory[i] != (in_page ? (uint8_t)page[i - GUARD] : FILL))
            return 0;
    }
    return 1;
}

/* One call: its answer, and what it leaves in memory. */
static void expect(uint32_t node, size_t room, int32_t wanted, const char *page)
{
    size_t size = GUARD + room + GUARD;
    uint8_t *memory = memory_of(size);
    int32_t answer;
    int as_wanted;

    memset(memory, FILL, size);
    answer = wall_page(wall, wall_len, node, memory + GUARD, room);
    as_wanted = left_as_wanted(memory, size, page, wanted > 0 ? (size_t)wanted : 0);
    free(memory);
    if (answer == wanted && as_wanted) {
        passed++;
        return;
    }
    failed++;
    printf("%s, node %lu, room %lu: answered %ld, and %ld is wanted%s\n", wall_name, (unsigned long)node,
           (unsigned long)room, (long)answer, (long)wanted, as_wanted ? "" : "; the bytes are not as they should be");
}

/* The file's own refusal comes first, whatever else is wrong. */
static void expect_refused(int32_t number)
{
    expect(0, WALL_PAGE_MAX, -number, "");
    expect(UINT32_MAX, 0, -number, "");
}

/* Numbers that are no node, some with a node's number in their low bits. They are refused before the room is. */
static void expect_no_node(uint32_t nodes)
{
    expect(nodes, WALL_PAGE_MAX, -12, "");
    expect(nodes, 0, -12, "");
    expect(255, WALL_PAGE_MAX, -12, "");
    expect(256, WALL_PAGE_MAX, -12, "");
    expect(65536, WALL_PAGE_MAX, -12, "");
    expect(UINT32_MAX, WALL_PAGE_MAX, -12, "");
}

/* A page ends where the next line begins that begins with NODE. */
static const char *end_of(const char *page)
{
    const char *next = strstr(page, "\nNODE ");

    return next != NULL ? next + 1 : page + strlen(page);
}

static void expect_pages(uint32_t nodes, const char *page, int ends_only)
{
    uint32_t node;

    for (node = 0; node < nodes; node++) {
        size_t length = (size_t)(end_of(page) - page);

        if (!ends_only || node == 0 || node == nodes - 1) {
            expect(node, length, (int32_t)length, page);
            expect(node, WALL_PAGE_MAX, (int32_t)length, page);
            expect(node, length - 1, -15, "");
        }
        page += length;
    }
    if (*page != '\0')
        give_up("more pages than nodes are stored for", wall_name);
    expect(0, 0, -15, "");
    expect_no_node(nodes);
}

static void check(const char *pages_name, int ends_only)
{
    size_t pages_len;
    char *bytes = read_whole(wall_name, &wall_len);
    char *pages = read_whole(pages_name, &pages_len);

    wall = memory_of(wall_len);
    memcpy(wall, bytes, wall_len);
    if (strncmp(pages, "REFUSED ", 8) == 0)
        expect_refused((int32_t)strtol(pages + 8, NULL, 10));
    else if (strncmp(pages, "WALL ", 5) == 0 && strchr(pages, '\n') != NULL)
        expect_pages((uint32_t)strtol(pages + 5, NULL, 10), strchr(pages, '\n') + 1, ends_only);
    else
        give_up("no pages are stored in", pages_name);
    free(wall);
    free(pages);
    free(bytes);
}

int main(int argc, char **argv)
{
    int ends_only = argc > 1 && strcmp(argv[1], "--ends") == 0;
    int i;

    for (i = 1 + ends_only; i + 1 < argc; i += 2) {
        wall_name = argv[i];
        check(argv[i + 1], ends_only);
    }
    printf("%lu passed, %lu failed\n", passed, failed);
    return passed > 0 && failed == 0 ? 0 : 1;
}
