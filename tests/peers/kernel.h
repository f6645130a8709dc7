/* What Linux's sources of a firmware update need of the kernel, as far as they need it, over time and a module of ours. Written from the
   names that they use; tests/slow/kernel_firmware puts it before them. */
#ifndef KERNEL_H
#define KERNEL_H

#include <errno.h>
#include <stdbool.h>
#include <stddef.h>
#include <stdint.h>
#include <stdlib.h>
#include <string.h>

typedef uint8_t u8;
typedef uint16_t u16, __be16;
typedef uint32_t u32, __u32, __be32;
typedef uint64_t u64;
#define U16_MAX UINT16_MAX
#define BIT(number) (1UL << (number))
#define min_t(type, one, other) ((type)(one) < (type)(other) ? (type)(one) : (type)(other))
#define cpu_to_be16(number) __builtin_bswap16((u16)(number)) /* on a little-endian machine */
#define cpu_to_be32(number) __builtin_bswap32((u32)(number))
#define be16_to_cpu(number) __builtin_bswap16(number)

/* ---- structures: the same members by themselves, and as one of this name */

#define __struct_group(tag, name, attributes, ...)                                                                     \
    union {                                                                                                            \
        struct {                                                                                                       \
            __VA_ARGS__                                                                                                \
        };                                                                                                             \
        struct tag {                                                                                                   \
            __VA_ARGS__                                                                                                \
        } name;                                                                                                        \
    }
#define struct_group(name, ...) __struct_group(, name, , __VA_ARGS__)
#define sizeof_field(type, field) sizeof(((type *)0)->field)

/* ---- memory */

enum { GFP_KERNEL };
#define kmalloc(size, flags) malloc(size)
#define kzalloc(size, flags) calloc(1, size)
#define kmalloc_array(count, size, flags) calloc(count, size)
#define kfree free

static inline void *kmemdup(const void *bytes, size_t size, int flags) {
    void *copy = malloc(size);
    (void)flags;
    return copy == NULL ? NULL : memcpy(copy, bytes, size);
}

/* An error as a pointer: one of the last addresses. */
#define ERR_PTR(error) ((void *)(intptr_t)(error))
#define IS_ERR(pointer) ((uintptr_t)(pointer) > UINTPTR_MAX - 4096)

/* ---- time: a jiffy is a millisecond */

unsigned long kernel_time(void);
void msleep(unsigned milliseconds);
#define jiffies kernel_time()
#define msecs_to_jiffies(milliseconds) ((unsigned long)(milliseconds))
#define time_before(one, other) ((long)((one) - (other)) < 0)

/* ---- the device */

struct net_device {
    const struct ethtool_ops *ethtool_ops;
};

struct netlink_ext_ack {
    const char *_msg;
};

struct ethtool_module_eeprom {
    u32 offset, length;
    u8 page, bank, i2c_address, *data;
};

struct ethtool_ops {
    int (*get_module_eeprom_by_page)(struct net_device *, const struct ethtool_module_eeprom *,
                                     struct netlink_ext_ack *);
    int (*set_module_eeprom_by_page)(struct net_device *, const struct ethtool_module_eeprom *,
                                     struct netlink_ext_ack *);
    int (*reset)(struct net_device *, u32 *);
};

enum { ETH_RESET_PHY = 1 << 6 };
#define netdev_err(...) ((void)0)
#define netdev_err_once(...) ((void)0)
#define netdev_warn(...) ((void)0)

struct firmware {
    size_t size;
    const u8 *data;
};

/* ---- what only stands in structures that nobody looks at here */

struct list_head {
    void *next;
};
struct work_struct {
    void *next;
};
typedef void *netdevice_tracker;
struct ethnl_sock_priv;

#endif
