// SPDX-License-Identifier: GPL-2.0
/* A module of the kernel: as many adapters for I2C as its parameter `adapters` says (one without it), from bus 40 on, each with an emulator
   behind it. What is written to /sys/kernel/debug/optic0 is said to the owner of bus 40, line by line; what is read there describes its
   module. The others have optic1 and so on. */
#include <linux/debugfs.h>
#include <linux/i2c.h>
#include <linux/ktime.h>
#include <linux/module.h>
#include <linux/mutex.h>
#include <linux/platform_device.h>
#include <linux/slab.h>
#include "owner.h"

enum { FIRST_BUS = 40, MOST = 8 };

static unsigned adapters = 1;
module_param(adapters, uint, 0444);

static struct bus {
    struct mutex lock;
    struct owner owner;
    bool gone; /* taken off, though somebody may have it open still */
    struct i2c_adapter_quirks limits;
    struct i2c_adapter adapter;
    struct platform_device *device;
    struct dentry *file;
} * buses;

static void catch_up(struct bus *bus) { live_until(&bus->owner, ktime_get_ns() / NSEC_PER_MSEC); }

static int transfer(struct i2c_adapter *adapter, struct i2c_msg *messages, int count) {
    struct bus *bus = i2c_get_adapdata(adapter);
    struct owner *owner = &bus->owner;
    bool carried = true;
    int error;
    if (READ_ONCE(bus->gone)) return -ENODEV;
    mutex_lock(&bus->lock);
    catch_up(bus);
    begin_transaction(owner);
    for (int i = 0; i < count && carried; i++)
        carried =
            carry_message(owner, messages[i].addr, messages[i].flags & I2C_M_RD, messages[i].buf, messages[i].len);
    error = owner->plugged && owner->refused ? (int)owner->error : ENXIO;
    mutex_unlock(&bus->lock);
    return carried ? count : -error;
}

static u32 functions(struct i2c_adapter *adapter) { return I2C_FUNC_I2C | I2C_FUNC_SMBUS_EMUL; }

static const struct i2c_algorithm algorithm = {.master_xfer = transfer, .functionality = functions};

static ssize_t take_lines(struct file *from, const char __user *bytes, size_t count, loff_t *at) {
    struct bus *bus = file_inode(from)->i_private;
    char *text = memdup_user_nul(bytes, count), *rest = text, *line;
    if (IS_ERR(text)) return PTR_ERR(text);
    mutex_lock(&bus->lock);
    catch_up(bus);
    while ((line = strsep(&rest, "\n")) != NULL) obey(&bus->owner, line);
    bus->limits.max_read_len = bus->limits.max_write_len = bus->owner.longest;
    mutex_unlock(&bus->lock);
    kfree(text);
    return count;
}

static ssize_t give_description(struct file *to, char __user *bytes, size_t count, loff_t *at) {
    struct bus *bus = file_inode(to)->i_private;
    char text[256];
    size_t length;
    mutex_lock(&bus->lock);
    catch_up(bus);
    length = describe(&bus->owner.module, text, sizeof text);
    mutex_unlock(&bus->lock);
    return simple_read_from_buffer(bytes, count, at, text, length);
}

static const struct file_operations operations = {
    .owner = THIS_MODULE, .read = give_description, .write = take_lines, .llseek = default_llseek};

/* The adapter is made anew each time that the driver gets the device: one that is gone can't be registered again. */
static int attach(struct platform_device *to) {
    struct bus *bus = &buses[to->id];
    struct i2c_adapter *adapter = &bus->adapter;
    memset(adapter, 0, sizeof *adapter);
    WRITE_ONCE(bus->gone, false);
    adapter->owner = THIS_MODULE;
    adapter->algo = &algorithm;
    adapter->quirks = &bus->limits;
    adapter->nr = FIRST_BUS + to->id;
    adapter->dev.parent = &to->dev;
    snprintf(adapter->name, sizeof adapter->name, "emulated optical module %d", to->id);
    i2c_set_adapdata(adapter, bus);
    return i2c_add_numbered_adapter(adapter);
}

/* It waits until nobody has the bus open. */
static int detach(struct platform_device *from) {
    WRITE_ONCE(buses[from->id].gone, true);
    i2c_del_adapter(&buses[from->id].adapter);
    return 0;
}

static struct platform_driver driver = {.probe = attach, .remove = detach, .driver = {.name = "optic"}};

static void remove_all(void) {
    for (unsigned i = 0; i < adapters; i++) {
        debugfs_remove(buses[i].file);
        if (!IS_ERR_OR_NULL(buses[i].device)) platform_device_unregister(buses[i].device);
    }
    platform_driver_unregister(&driver);
    kvfree(buses);
}

static int __init begin(void) {
    int error;
    if (adapters < 1 || adapters > MOST) return -EINVAL;
    buses = kvcalloc(adapters, sizeof *buses, GFP_KERNEL);
    if (!buses) return -ENOMEM;
    error = platform_driver_register(&driver);
    if (error) {
        kvfree(buses);
        return error;
    }
    for (unsigned i = 0; i < adapters; i++) {
        char name[16];
        mutex_init(&buses[i].lock);
        buses[i].owner.error = EREMOTEIO;
        buses[i].device = platform_device_register_simple("optic", (int)i, NULL, 0);
        if (IS_ERR(buses[i].device)) {
            error = (int)PTR_ERR(buses[i].device);
            remove_all();
            return error;
        }
        snprintf(name, sizeof name, "optic%u", i);
        buses[i].file = debugfs_create_file(name, 0600, NULL, &buses[i], &operations);
    }
    return 0;
}

static void __exit end(void) { remove_all(); }

module_init(begin);
module_exit(end);
MODULE_LICENSE("GPL");
MODULE_DESCRIPTION("I2C adapters with emulated optical modules");
