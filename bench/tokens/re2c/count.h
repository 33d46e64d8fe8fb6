/* Counts the tokens, their bytes, and their numbers. */
int main(void) {
    static Scan scan;
    unsigned long tokens = 0, bytes = 0, numbers = 0;
    int number;
    scan.token = scan.cursor = scan.marker = scan.limit = scan.buffer;
    while ((number = next(&scan)) != 0) {
        tokens++;
        bytes += scan.length;
        numbers += (unsigned long)number;
    }
    printf("%lu %lu %lu\n", tokens, bytes, numbers);
    return 0;
}
