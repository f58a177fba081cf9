/*
 * Runs the example in edd_desk.h. host/install_test compiles it far from the repository, against an installed header and library,
 * as C11 and as C++17.
 */
#include <edd_desk.h>

#include <stdio.h>
#include <string.h>

int read_first_block(uint8_t *desk, const uint8_t *table, size_t table_len, uint8_t *arena, size_t arena_len, uint8_t *store,
                     size_t store_len);

/* one drive of 32 blocks, 2 cylinders of 1 head and 16 sectors, and the end record */
static uint8_t desk[EDD_DESK_SIZE], table[72], arena[8 * 2048], store[32 * EDD_BLOCK_SIZE];

int main(void)
{
    table[0] = 68, table[2] = 1, table[16] = 32, table[34] = 2, table[36] = 1, table[38] = 16;
    memcpy(table + 40, "PCI", 3);
    memcpy(table + 44, "ATA", 3);
    table[68] = 4;
    memset(store, 0x5a, EDD_BLOCK_SIZE);
    int answer = read_first_block(desk, table, sizeof table, arena, sizeof arena, store, sizeof store);
    int same = memcmp(arena + 2 * 2048 + 0x200, store, EDD_BLOCK_SIZE) == 0;
    printf("version %u, answer %d, %s\n", (unsigned)edd_version(), answer, same ? "the block was read" : "WRONG BLOCK");
    return edd_version() != EDD_VERSION || answer != 0 || !same;
}
