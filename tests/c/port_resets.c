/* A module that comes up as it is wanted has no apply stored to lanes that are up, wherever it resets itself, and whichever operation the
   bus refuses after it has taken effect: each pair of the two is tried. */
#include "one_port.h"

#include <stdlib.h>

/* A module that resets itself amid its reading may be left alone for what it seems to lack, until somebody asks for it to be read anew. */
static int comes_up_in_the_end(void) {
    if (comes_up()) return 1;
    expect("it is left alone", DOVECOUNTER_PORT_LEFT, port.stage);
    expect("it is read anew", 0, dovecounter_port_reconsider(&port));
    return comes_up();
}

/* How many transactions the port needs for the module to come up. */
static unsigned come_up(unsigned reset, unsigned late) {
    begin();
    reset_at = reset;
    late_at = late;
    plug_in();
    expect("the module comes up", 1, (unsigned long)comes_up_in_the_end());
    expect("all its lanes", ALL_LANES, lanes_up());
    expect("no apply was needless", 0, needless);
    return transactions;
}

/* Of the resets each one, or one of so many. */
int main(int count, char **words) {
    unsigned of = count > 1 ? (unsigned)atoi(words[1]) : 1;
    make_halves();
    unsigned most = come_up(0, 0), pairs = 0;
    for (unsigned reset = 1; reset <= most; reset += of)
        for (unsigned late = 1; late <= 2 * most; late++) {
            come_up(reset, late);
            pairs++;
        }
    expect("many pairs", 1, pairs > 500);
    return judged("port_resets");
}
