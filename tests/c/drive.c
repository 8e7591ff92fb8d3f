/* The C interface from C: the header compiles by itself, its sizes suffice, and the drive net of document 01 comes out as
 * printed there, its pairs counted by 2026-04, and a read arc, both line ends and energies as written out here. Exits 0 if
 * all is so; else it says what is not. */
#include "pti.h"
#include <stdio.h>
#include <string.h>

#define TEXT(words) (const uint8_t *)(words), sizeof(words) - 1

static const char net[] = "P,1\nP,0\nP,1\nP,0\nP,0\nT\nT\nT\nI,0,0\nO,0,1\nI,1,1\nO,1,4\nI,2,2\nO,2,3\nH,1,2\n";
static const char record[] = "E,0\nE,2\nC,0,-,0\nC,2,-,1\nC,1,0,-\nC,3,1,-\nB,2,1\n";
static const char printed[] = "E,0\nE,1\nE,2\nC,0,-,0\nC,2,-,2\nC,1,0,1\nC,4,1,-\nC,3,2,-\nA,2,2\nZ,3,5,0,3\n";

static uint8_t out[PTI_PROGRAM_BYTES];
static uint16_t rows[PTI_ROW_COUNTS];
static int wrong;

static void expect(const char *what, pti_answer x, uint64_t number, uint64_t spot, uint64_t a, uint64_t b, uint64_t c)
{
    if (x.number == number && x.spot == spot && x.a == a && x.b == b && x.c == c)
        return;
    printf("%s: %llu,%llu gives %llu,%llu,%llu\n", what, (unsigned long long)x.number, (unsigned long long)x.spot,
           (unsigned long long)x.a, (unsigned long long)x.b, (unsigned long long)x.c);
    wrong = 1;
}

static void holds(const char *what, int so)
{
    if (!so) {
        printf("not so: %s\n", what);
        wrong = 1;
    }
}

static void build_and_check(void)
{
    expect("net", pti_read_net(TEXT(net)), 0, 0, 5, 3, 0);
    expect("build", pti_build(TEXT(net), TEXT("S,0,2\n"), out, PTI_RECORD_BYTES), 0, 0, sizeof(record) - 1, 0, 0);
    holds("case b's record", memcmp(out, record, sizeof(record) - 1) == 0);
    expect("c", pti_build(TEXT(net), TEXT("S,0\nS,2\n"), out, PTI_RECORD_BYTES), 25, 2, 0, 0, 0);
    expect("short", pti_build(TEXT(net), TEXT("S,0\n"), out, PTI_RECORD_BYTES - 1), 20, 0, 0, 0, 0);
    expect("check", pti_check(TEXT(net), TEXT(record), out, PTI_TABLE_BYTES), 0, 0, 2, 4, 0);
    holds("1 at (1,0), and no other of the two events", out[128] == 1 && out[0] == 0 && out[1] == 0 && out[129] == 0);
}

static void replay_and_arrange(void)
{
    static const uint16_t last[5] = {0, 1, 0, 1, 0};
    expect("i", pti_replay(TEXT(net), TEXT(record), TEXT("G,0\nG,1\n"), rows, PTI_ROW_COUNTS), 44, 1, 0, 0, 0);
    expect("j", pti_replay(TEXT(net), TEXT(record), TEXT("G,1\nG,0\n"), rows, PTI_ROW_COUNTS), 0, 0, 2, 0, 0);
    holds("j's last row", memcmp(rows + 64, last, sizeof last) == 0);
    expect("arrange", pti_arrange(TEXT(net), TEXT(record), out, PTI_ARRANGEMENT_BYTES), 0, 0, 6, 1, 0);
    holds("one line", memcmp(out, "G,0,1\n", 6) == 0);
}

static void lines_and_program(void)
{
    char input[512];
    expect("line 2", pti_refused_line(TEXT(net), TEXT("S,0\nS,2\n"), 1, 2), 0, 0, 4, 3, 0);
    expect("no line", pti_refused_line(TEXT(net), TEXT("S,0\n"), 2, 1), 46, 1, 0, 0, 0);
    sprintf(input, "%s=\nS,0\nS,1\nS,2\n", net);
    expect("a", pti_program((const uint8_t *)input, strlen(input), out), 0, 0, sizeof(printed) - 1, 0, 0);
    holds("what a prints", memcmp(out, printed, sizeof(printed) - 1) == 0);
}

/* A read arc: the flush reads a token that the warm up takes in the same step. */
static void readers(void)
{
    static const char warm[] = "P,1\nP,0\nP,1\nP,0\nT\nT\nI,0,0\nO,0,1\nR,2,0\nI,2,1\nO,1,3\n";
    static const char read[] = "E,0\nE,1\nC,0,-,0\nC,2,-,1\nC,1,0,-\nC,3,1,-\nR,1,0\n";
    expect("read and taken", pti_build(TEXT(warm), TEXT("S,0,1\n"), out, PTI_RECORD_BYTES), 0, 0, sizeof(read) - 1, 0, 0);
    holds("an R mark", memcmp(out, read, sizeof(read) - 1) == 0);
    expect("no token to read", pti_build(TEXT(warm), TEXT("S,1\nS,0\n"), out, PTI_RECORD_BYTES), 24, 2, 0, 0, 0);
    expect("a reader checked", pti_check(TEXT(warm), TEXT(read), out, PTI_TABLE_BYTES), 0, 0, 2, 4, 0);
    holds("the reader not later than the taker", out[1] == 1 && out[128] == 0);
    expect("51", pti_read_net(TEXT("P,1\nT\nO,0,0\nR,0,0\nI,0,0\n")), 51, 5, 0, 0, 0);
}

/* Weights: two blocks are flushed together. */
static void weights(void)
{
    static const char pair[] = "P,2\nP,0\nP,0\nT\nT\nI,0,0\nO,0,1\nI,1,1,2\nO,1,2,3\n";
    static const char built[] = "E,0\nE,0\nE,1\nC,0,-,0\nC,0,-,1\nC,1,0,2\nC,1,1,2\nC,2,2,-\nC,2,2,-\nC,2,2,-\n";
    static const char one[] = "E,0\nE,0\nE,1\nC,0,-,0\nC,0,-,1\nC,1,0,2\nC,1,1,-\nC,2,2,-\nC,2,2,-\nC,2,2,-\n";
    static const uint16_t last[] = {0, 0, 3};
    expect("a net with weights", pti_read_net(TEXT(pair)), 0, 0, 3, 2, 0);
    expect("two flushed together", pti_build(TEXT(pair), TEXT("S,0\nS,0\nS,1\n"), out, PTI_RECORD_BYTES), 0, 0, sizeof(built) - 1, 0, 0);
    holds("two taken and three made", memcmp(out, built, sizeof(built) - 1) == 0);
    expect("one dirty", pti_build(TEXT(pair), TEXT("S,0\nS,1\n"), out, PTI_RECORD_BYTES), 24, 2, 0, 0, 0);
    expect("weights checked", pti_check(TEXT(pair), TEXT(built), out, PTI_TABLE_BYTES), 0, 0, 3, 7, 1);
    holds("both writes before the flush", out[2] == 2 && out[130] == 2 && out[1] == 0 && out[128] == 0);
    expect("one flushed", pti_check(TEXT(pair), TEXT(one), out, PTI_TABLE_BYTES), 36, 2, 0, 0, 0);
    expect("weights replayed", pti_replay(TEXT(pair), TEXT(built), TEXT("G,1\nG,0\nG,2\n"), rows, PTI_ROW_COUNTS), 0, 0, 3, 0, 0);
    holds("the last row", memcmp(rows + 96, last, sizeof last) == 0);
    expect("weights arranged", pti_arrange(TEXT(pair), TEXT(built), out, PTI_ARRANGEMENT_BYTES), 0, 0, 10, 2, 0);
    expect("54", pti_read_net(TEXT("P,1\nT\nO,0,0,16\nI,0,0,17\n")), 54, 4, 0, 0, 0);
    expect("54's line", pti_refused_line(TEXT("P,1\nT\nI,0,0,17\n"), TEXT(""), 0, 3), 0, 0, 6, 8, 0);
    expect("13 before 54", pti_read_net(TEXT("P,1\nT\nI,0,9,0\n")), 13, 3, 0, 0, 0);
    expect("54 before 14", pti_read_net(TEXT("P,1\nT\nI,0,0\nI,0,0,0\n")), 54, 4, 0, 0, 0);
    expect("14 with another weight", pti_read_net(TEXT("P,1\nT\nI,0,0\nI,0,0,2\n")), 14, 4, 0, 0, 0);
}

/* Lines that end in 13 and 10, or in 10; what is written has 10 alone. */
static void returns(void)
{
    static const char mixed[] = "P,1\r\nP,0\nT\r\nI,0,0\nO,0,1\r\n";
    static const char built[] = "E,0\nC,0,-,0\nC,1,0,-\n";
    char input[512];
    expect("both endings", pti_read_net(TEXT(mixed)), 0, 0, 2, 1, 0);
    expect("13 13 10", pti_read_net(TEXT("P,1\r\nP,1\r\r\n")), 11, 2, 0, 0, 0);
    expect("cut behind 13", pti_read_net(TEXT("P,1\r\nP,1\r")), 11, 2, 0, 0, 0);
    expect("13 10 in a log", pti_build(TEXT(mixed), TEXT("S,0\r\n"), out, PTI_RECORD_BYTES), 0, 0, sizeof(built) - 1, 0, 0);
    holds("byte 10 alone is written", memcmp(out, built, sizeof(built) - 1) == 0);
    expect("13 10 in a record", pti_check(TEXT(mixed), TEXT("E,0\r\nC,0,-,0\nC,1,0,-\r\n"), out, PTI_TABLE_BYTES), 0, 0, 1, 2, 0);
    expect("13 10 in an arrangement", pti_replay(TEXT(mixed), TEXT(built), TEXT("G,0\r\n"), rows, PTI_ROW_COUNTS), 0, 0, 1, 0, 0);
    expect("shown without 13 10", pti_refused_line(TEXT(mixed), TEXT("S,0\r\nS,12\r\n"), 1, 2), 0, 0, 5, 4, 0);
    expect("shown with a 13 that ends nothing", pti_refused_line(TEXT(mixed), TEXT("S,0\r\nS,1\r"), 1, 2), 0, 0, 5, 4, 0);
    sprintf(input, "%s=\r\nS,0\r\n", mixed);
    expect("= 13 10", pti_program((const uint8_t *)input, strlen(input), out), 0, 0, sizeof(built) - 1 + 10, 0, 0);
}

/* Bit for bit, so that minus zero is not zero. */
static int same(double one, double other)
{
    return memcmp(&one, &other, sizeof one) == 0;
}

static void expect_energies(const char *what, pti_energy_answer x, uint64_t number, uint64_t spot, double usable, double draw, double left)
{
    if (x.number == number && x.spot == spot && same(x.usable, usable) && same(x.draw, draw) && same(x.left, left))
        return;
    printf("%s: %llu,%llu gives %.17g,%.17g,%.17g\n", what, (unsigned long long)x.number, (unsigned long long)x.spot, x.usable, x.draw, x.left);
    wrong = 1;
}

/* What the write and the park of case b draw from the hold-up capacitor; the flush's line counts for no event. */
static void energies(void)
{
    static const char wrong_line[] = "K,3300,12000,5000\nW,2500,8\nW,4500\nJ,52000\n";
    expect_energies("energy", pti_energy(TEXT(net), TEXT(record), TEXT("K,3300,12000,5000\nW,2500,8\nW,4500,24\nJ,52000\n")), 0, 0, 196350.0, 72000.0, 124350.0);
    expect_energies("energy that lacks", pti_energy(TEXT(net), TEXT(record), TEXT("K,1000,12000,5000\r\nW,2500,8\nW,4500,24\r\nJ,52000\n")), 0, 0, 59500.0, 72000.0, -12500.0);
    expect_energies("rounded once", pti_energy(TEXT(net), TEXT(record), TEXT("K,24,325,75\nJ,1\nJ,9\nJ,0\n")), 0, 0, 1.2, 1.0, 0.19999999999999996);
    expect_energies("no minus zero", pti_energy(TEXT(net), TEXT(record), TEXT("K,1,5,5\nJ,0\nJ,0\nJ,0\n")), 0, 0, 0.0, 0.0, 0.0);
    expect_energies("52", pti_energy(TEXT(net), TEXT(record), TEXT(wrong_line)), 52, 3, 0.0, 0.0, 0.0);
    expect("52's line", pti_refused_line(TEXT(net), TEXT(wrong_line), 1, 3), 0, 0, 27, 6, 0);
    expect_energies("53", pti_energy(TEXT(net), TEXT(record), TEXT("")), 53, 0, 0.0, 0.0, 0.0);
    expect_energies("31 before 52", pti_energy(TEXT(net), TEXT("x\n"), TEXT("x\n")), 31, 1, 0.0, 0.0, 0.0);
    expect_energies("11 before 31", pti_energy(TEXT("x\n"), TEXT("x\n"), TEXT("x\n")), 11, 1, 0.0, 0.0, 0.0);
}

int main(void)
{
    build_and_check();
    replay_and_arrange();
    lines_and_program();
    readers();
    weights();
    returns();
    energies();
    if (!wrong)
        puts("c: the drive net comes out as printed");
    return wrong;
}
