/* Counts the compares of calls on an ordered bag, or the heads that calls on a best region read, by a simulation of its tree:
   bench/compares.sh says of what. Each node is a number, and stands in the tree in order of it; a compare, or a head, is a
   node that a call reads on its way down. A link splays the new leaf, but of a gap only where more than 8 were read. A
   search splays the deepest node that it read, one for a gap only where more than 24 were. An unlink joins the node's
   subtrees in its place, for which it splays the last one of the left subtree to the top of that. */
#include <stdint.h>
#include <stdio.h>
#include <stdlib.h>
#include <string.h>

/* the links of the node of each number from 1 on; 0 is none */
static uint32_t *kid[2], *parent, root;
static uint64_t compares, greatest, sum;

static void rotate(uint32_t at)
{
    uint32_t above = parent[at], top = parent[above];
    int right = kid[1][above] == at;
    uint32_t inner = kid[!right][at];
    kid[right][above] = inner;
    if (inner)
        parent[inner] = above;
    kid[!right][at] = above;
    parent[above] = at;
    parent[at] = top;
    if (top)
        kid[kid[1][top] == above][top] = at;
}

/* makes a node the top of the tree that it is in */
static void splay(uint32_t at)
{
    while (parent[at]) {
        uint32_t above = parent[at], top = parent[above];
        if (top)
            rotate((kid[1][above] == at) == (kid[1][top] == above) ? above : at);
        rotate(at);
    }
}

static void count(void)
{
    sum += compares;
    if (compares > greatest)
        greatest = compares;
}

/* splays where more nodes were read than that */
static void link_number(uint32_t number, uint32_t short_way)
{
    uint32_t above = 0, read = 0;
    for (uint32_t at = root; at; at = kid[number > at][at]) {
        above = at;
        read++;
    }
    compares += read;
    kid[0][number] = kid[1][number] = 0;
    parent[number] = above;
    if (above)
        kid[number > above][above] = number;
    if (above && read <= short_way)
        return;
    splay(number);
    root = number;
}

/* reads on to the left of what is sought, so that the first of equal ones is found */
static void find(uint32_t number, uint32_t short_way)
{
    uint32_t deepest = root, read = 0;
    for (uint32_t at = root; at; at = kid[at < number][at]) {
        deepest = at;
        read++;
    }
    compares += read;
    if (read <= short_way)
        return;
    splay(deepest);
    root = deepest;
}

static void unlink_number(uint32_t number)
{
    uint32_t left = kid[0][number], right = kid[1][number], above = parent[number], top = left ? left : right;
    if (left && right) {
        parent[left] = 0;
        for (top = left; kid[1][top];)
            top = kid[1][top];
        splay(top);
        kid[1][top] = right;
        parent[right] = top;
    }
    if (top)
        parent[top] = above;
    if (above)
        kid[kid[1][above] == number][above] = top;
    else
        root = top;
}

/* a compare for each node that is read */
static void link_call(uint32_t number)
{
    compares = 0;
    link_number(number, 0);
    count();
}

static void find_call(uint32_t number)
{
    compares = 0;
    find(number, 0);
    count();
}

/* a free of a block between two others reads the head of the gap that it becomes, and those on the way down to its place */
static void free_call(uint32_t number)
{
    compares = 1;
    link_number(number, 8);
    count();
}

/* an alloc that fills a gap reads those on the way down to the gap, and that one twice: whether what is left holds another
   such block, and when it cuts it */
static void alloc_call(uint32_t number)
{
    compares = 2;
    find(number, 24);
    unlink_number(number);
    count();
}

static uint32_t deepest(uint32_t *left, uint32_t *depths)
{
    uint32_t best = root, most = 0, size = 0;
    left[size] = root;
    depths[size++] = 0;
    while (size) {
        uint32_t at = left[--size], depth = depths[size];
        if (depth > most) {
            most = depth;
            best = at;
        }
        for (int k = 0; k < 2; k++)
            if (kid[k][at]) {
                left[size] = kid[k][at];
                depths[size++] = depth + 1;
            }
    }
    return best;
}

/* the numbers from 1 on in mixed order, by a seed */
static void mix(uint32_t *numbers, uint32_t n, uint64_t state)
{
    for (uint32_t i = 0; i < n; i++)
        numbers[i] = i + 1;
    for (uint32_t last = 0; last < n; last++) {
        state = state * 6364136223846793005u + 1442695040888963407u;
        uint32_t other = (state >> 33) % (last + 1), number = numbers[last];
        numbers[last] = numbers[other];
        numbers[other] = number;
    }
}

static uint32_t in_turn(const char *order, const uint32_t *mixed, uint32_t n, uint32_t j)
{
    return !strcmp(order, "descending") ? n - j : !strcmp(order, "random") ? mixed[j] : j + 1;
}

static void row(int heads, const char *order, uint32_t n)
{
    uint32_t *links = calloc(n, 4), *finds = calloc(n, 4), *left = calloc(n, 4), *depths = calloc(n, 4);
    int adverse = !strcmp(order, "deepest");
    uint32_t searches = adverse && n > 1000000000 / n ? 1000000000 / n : n, digits = 0;
    kid[0] = calloc(n + 1, 4);
    kid[1] = calloc(n + 1, 4);
    parent = calloc(n + 1, 4);
    if (!links || !finds || !left || !depths || !kid[0] || !kid[1] || !parent)
        exit(1);
    mix(links, n, 1);
    mix(finds, n, 2);
    root = 0;
    sum = greatest = 0;
    for (uint32_t j = 0; j < n; j++)
        (heads ? free_call : link_call)(in_turn(order, links, n, j));
    uint64_t linked = greatest, found = 0, calls = n + (heads ? 2ull : 1ull) * searches;
    for (uint32_t j = 0; j < searches; j++) {
        uint32_t number = adverse ? deepest(left, depths) : in_turn(order, finds, n, j);
        greatest = found;
        (heads ? alloc_call : find_call)(number);
        found = greatest;
        greatest = linked;
        if (heads)
            free_call(number);
        linked = greatest;
    }
    while (n >> digits)
        digits++;
    printf("| %s | %u | %u | %llu | %llu | %llu | %llu |\n", order, n, searches, (unsigned long long)linked,
           (unsigned long long)found, (unsigned long long)sum, (unsigned long long)calls * (heads ? 240 * digits + 260 : 30 * digits + 30));
    free(links), free(finds), free(left), free(depths), free(kid[0]), free(kid[1]), free(parent);
}

int main(int argc, char **argv)
{
    int heads = argc > 1 && !strcmp(argv[1], "heads");
    for (int i = 1 + heads; i < argc; i++) {
        uint32_t n = strtoul(argv[i], 0, 10);
        if (!n)
            return 2;
        row(heads, "ascending", n);
        row(heads, "descending", n);
        row(heads, "random", n);
        row(heads, "deepest", n);
    }
    return 0;
}
