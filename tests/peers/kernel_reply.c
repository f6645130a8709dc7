/* ethtool's decoders, which print what a module says of itself, on halves from standard input instead of the kernel's replies: of each
 * its I2C address, 0 for a lower half or 1 for an upper one, its bank, its page, and its 128 bytes. tests/slow/peers builds this with
 * the sources of ethtool. */
#include <errno.h>
#include <stdio.h>

#include "internal.h"

#include "cmis.h"
#include "netlink/extapi.h"
#include "qsfp.h"
#include "sff-common.h"

enum { HALVES = 16, LENGTH = 128 };

static struct half { unsigned char address, upper, bank, page, bytes[LENGTH]; } halves[HALVES];
static size_t half_count;

int nl_get_eeprom_page(struct cmd_context *context, struct ethtool_module_eeprom *request) {
    (void)context;
    for (size_t i = 0; i < half_count; i++) {
        struct half *half = &halves[i];
        int wanted = half->upper ? request->page == half->page && request->bank == half->bank : 1;
        if (half->address != request->i2c_address || half->upper != request->offset / LENGTH || !wanted) continue;
        request->data = half->bytes + request->offset % LENGTH;
        return 0;
    }
    return -ENOENT;
}

/* By the first byte, as ethtool's command does. */
static int show(unsigned char identifier) {
    switch (identifier) {
    case SFF8024_ID_SFP: return sff8079_show_all_nl(NULL);
    case SFF8024_ID_QSFP:
    case SFF8024_ID_QSFP_PLUS:
    case SFF8024_ID_QSFP28: return sff8636_show_all_nl(NULL);
    case SFF8024_ID_QSFP_DD:
    case SFF8024_ID_OSFP: return cmis_show_all_nl(NULL);
    default: return -EINVAL;
    }
}

int main(void) {
    half_count = fread(halves, sizeof *halves, HALVES, stdin);
    return half_count > 0 && show(halves[0].bytes[0]) == 0 ? 0 : 1;
}
