/* Calls the Rust loop: plain_loop COUNT AMONG. Writes the same line as dock_bench. */
typedef unsigned long long number;
extern int printf(const char *, ...);
extern number strtoull(const char *, char **, int);
extern number plain_loop(number count, number among, number *answers);

int main(int argc, char **argv) {
    number answers = 0;
    if (argc != 3) return 2;
    number word = plain_loop(strtoull(argv[1], 0, 10), strtoull(argv[2], 0, 10), &answers);
    printf("answers %llu word %016llx\n", answers, word);
    return 0;
}
