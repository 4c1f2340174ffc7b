/* Prints what the function `shuffle` finds of a table of 16 bytes, for each of the 256 places in each of the 16 lanes. */
#include <stdio.h>

void shuffle(const unsigned char *table, const unsigned char *places, unsigned char *found);

int main(void) {
  unsigned char table[16], places[16], found[16];
  for (int k = 0; k < 16; k++) table[k] = (unsigned char)(17 * k + 100);
  for (int place = 0; place < 256; place++) {
    for (int lane = 0; lane < 16; lane++) places[lane] = (unsigned char)(place + 37 * lane);
    shuffle(table, places, found);
    fwrite(found, 1, sizeof found, stdout);
  }
  return 0;
}
