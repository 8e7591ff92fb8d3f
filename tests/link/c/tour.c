/* A tour of the library from C: builds the record of a net and a step log, checks it, writes its shortest arrangement and
 * replays that, or an arrangement of your own. With an energy text it says what the events draw from the hold-up capacitor and
 * what is left. Where a text is refused, it shows the refused line.
 *
 *   gcc -Iinclude tests/link/c/tour.c target/staticlib/libpti.a -o target/tour
 *   target/tour NET LOG [ARRANGEMENT] [--energy FILE]
 */
#include "pti.h"

#include <inttypes.h>
#include <stdio.h>
#include <stdlib.h>
#include <string.h>

typedef struct {
    const char *name;
    uint8_t *bytes;
    size_t len;
} text;

/* Lent to the library for the length of a call. */
static uint8_t record_bytes[PTI_RECORD_BYTES];
static uint8_t table[PTI_TABLE_BYTES];
static uint8_t arrangement_bytes[PTI_ARRANGEMENT_BYTES];
static uint16_t rows[PTI_ROW_COUNTS];

static void give_up(const char *what)
{
    perror(what);
    exit(2);
}

/* The whole file. An empty one has a pointer too: the library takes none that is null. */
static text read_file(const char *name, const char *path)
{
    text file = {name, NULL, 0};
    size_t room = 4096, got = 0;
    FILE *from = fopen(path, "rb");
    if (from == NULL)
        give_up(path);
    do {
        file.len += got;
        if (file.bytes == NULL || file.len == room)
            file.bytes = realloc(file.bytes, room *= 2);
        if (file.bytes == NULL)
            give_up(path);
        got = fread(file.bytes + file.len, 1, room - file.len, from);
    } while (got > 0);
    if (ferror(from))
        give_up(path);
    fclose(from);
    return file;
}

static void show_text(text t)
{
    fwrite(t.bytes, 1, t.len, stdout);
}

/* The text of which a refusal's spot is a line: 0 the net, 1 the second text (the log, the arrangement or the energy text), 2
 * neither. Lines of the record, 31 to 34, are never refused here: it was built. */
static uint8_t choice_of(uint64_t number)
{
    if ((number >= 11 && number <= 14) || number == 51 || number == 54)
        return 0;
    return (number >= 21 && number <= 27) || (number >= 41 && number <= 44) || number == 52 ? 1 : 2;
}

/* Goes on only if the call was accepted. */
static void must_accept(text net, text second, pti_answer answer)
{
    if (answer.number == 0)
        return;
    uint8_t choice = choice_of(answer.number);
    text refused = choice == 0 ? net : second;
    pti_answer line = pti_refused_line(net.bytes, net.len, second.bytes, second.len, choice, (size_t)answer.spot);
    printf("refused: %" PRIu64 ", spot %" PRIu64 "\n", answer.number, answer.spot);
    if (line.number == 0) {
        printf("line %" PRIu64 " of the %s: ", answer.spot, refused.name);
        show_text((text){refused.name, refused.bytes + line.a, (size_t)line.b});
        printf("\n");
    }
    exit(1);
}

static void show_order(uint64_t events)
{
    static const char *const words[] = {"", "not later than", "strictly before"};
    for (uint64_t e = 0; e < events; e++)
        for (uint64_t f = 0; f < events; f++)
            if (table[128 * e + f] != 0)
                printf("%" PRIu64 " %s %" PRIu64 "\n", e, words[table[128 * e + f]], f);
}

static void show_rows(uint64_t lines, uint64_t places)
{
    for (uint64_t k = 0; k <= lines; k++) {
        printf("%" PRIu64 ":", k);
        for (uint64_t p = 0; p < places; p++)
            printf(" %u", (unsigned)rows[32 * k + p]);
        printf("\n");
    }
}

/* What is left is below 0 where the capacitor gives less than the events draw. */
static void show_energies(pti_energy_answer energies)
{
    printf("energy: the capacitor gives %.1f µJ between full and cutoff, the events draw %.1f µJ, ", energies.usable, energies.draw);
    if (energies.left < 0)
        printf("and it falls short by %.1f µJ\n", -energies.left);
    else
        printf("%.1f µJ are left\n", energies.left);
}

int main(int argc, char **argv)
{
    const char *energy_path = NULL;
    if (argc > 3 && strcmp(argv[argc - 2], "--energy") == 0) {
        energy_path = argv[argc - 1];
        argc -= 2;
    }
    if (argc != 3 && argc != 4) {
        fprintf(stderr, "usage: tour NET LOG [ARRANGEMENT] [--energy FILE]\n");
        return 2;
    }
    text net = read_file("net", argv[1]), log = read_file("log", argv[2]);
    text record = {"record", record_bytes, 0}, arrangement = {"arrangement", arrangement_bytes, 0};

    pti_answer answer = pti_build(net.bytes, net.len, log.bytes, log.len, record_bytes, sizeof record_bytes);
    must_accept(net, log, answer);
    record.len = (size_t)answer.a;
    printf("record: bytes %zu\n", record.len);
    show_text(record);

    answer = pti_check(net.bytes, net.len, record.bytes, record.len, table, sizeof table);
    must_accept(net, record, answer);
    printf("check: events %" PRIu64 ", conditions %" PRIu64 ", independent pairs %" PRIu64 "\n", answer.a, answer.b, answer.c);
    show_order(answer.a);

    answer = pti_arrange(net.bytes, net.len, record.bytes, record.len, arrangement_bytes, sizeof arrangement_bytes);
    must_accept(net, record, answer);
    arrangement.len = (size_t)answer.a;
    printf("arrangement: lines %" PRIu64 "\n", answer.b);
    show_text(arrangement);

    if (argc == 4)
        arrangement = read_file("arrangement", argv[3]);
    answer = pti_replay(net.bytes, net.len, record.bytes, record.len, arrangement.bytes, arrangement.len, rows, PTI_ROW_COUNTS);
    must_accept(net, arrangement, answer);
    printf("replay: lines %" PRIu64 ", and the marking after each\n", answer.a);
    show_rows(answer.a, pti_read_net(net.bytes, net.len).a);

    if (energy_path != NULL) {
        text energy = read_file("energy text", energy_path);
        pti_energy_answer energies = pti_energy(net.bytes, net.len, record.bytes, record.len, energy.bytes, energy.len);
        must_accept(net, energy, (pti_answer){energies.number, energies.spot, 0, 0, 0});
        show_energies(energies);
        free(energy.bytes);
    }

    free(net.bytes);
    free(log.bytes);
    if (argc == 4)
        free(arrangement.bytes);
    return 0;
}
