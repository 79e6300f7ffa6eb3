/*
 * Starts a kernel in the place of the running one, with the same device tree, and a file system where the tree has the
 * first one's: Debian's kernels for arm64 have kexec_load, and busybox has no kexec.
 *
 *   kexec IMAGE CPIO
 */
#include <endian.h>
#include <fcntl.h>
#include <linux/kexec.h>
#include <linux/reboot.h>
#include <stdint.h>
#include <stdio.h>
#include <stdlib.h>
#include <string.h>
#include <sys/mman.h>
#include <sys/reboot.h>
#include <sys/stat.h>
#include <sys/syscall.h>
#include <unistd.h>

/* As in the device tree (build), and where the first kernel is (bare/start.S); tree and entry are beyond the file system. */
#define KERNEL 0x40600000
#define ROOT 0x48000000
#define TREE 0x4e000000
#define ENTRY 0x4e100000
#define TEXT_OF(number) #number
#define TEXT(number) TEXT_OF(number)

/* Of a page, of a file of the kernel's own at most, and where an image has its size. */
enum { PAGE = 4096, ROOM = 1 << 20, IMAGE_SIZE = 16 };

/* A kernel is started with its tree in x0. */
extern const char entry[], entry_end[];
__asm__(".pushsection .rodata\n\t.balign 8\n"
        ".global entry, entry_end\nentry:\tldr x0, 1f\n\tldr x4, 2f\n"
        "\tmov x1, xzr\n\tmov x2, xzr\n\tmov x3, xzr\n\tbr x4\n"
        "1:\t.quad " TEXT(TREE) "\n2:\t.quad " TEXT(KERNEL) "\nentry_end:\n\t.popsection");

struct bytes {
    char *at;
    size_t count;
};

static void fail(const char *what)
{
    perror(what);
    exit(1);
}

/* A file, which is mapped, so that it is in memory once; one of the kernel's own, which can't be, is read. */
static struct bytes file(const char *name)
{
    struct bytes bytes;
    ssize_t got = 1;
    int from = open(name, O_RDONLY);
    struct stat of;

    if (from < 0 || fstat(from, &of) != 0)
        fail(name);
    bytes.count = (size_t)of.st_size;
    bytes.at = mmap(NULL, bytes.count ? bytes.count : 1, PROT_READ, MAP_PRIVATE, from, 0);
    if (bytes.at != MAP_FAILED)
        return bytes;
    bytes = (struct bytes){ malloc(ROOM), 0 };
    while (bytes.at && got > 0 && bytes.count < ROOM) {
        got = read(from, bytes.at + bytes.count, ROOM - bytes.count);
        bytes.count += got > 0 ? (size_t)got : 0;
    }
    if (!bytes.at || got != 0)
        fail(name);
    return bytes;
}

/* The tree says where the file system ends: of the second one that is sooner. */
static void end_at(struct bytes tree, uint32_t was, uint32_t is)
{
    for (size_t at = 0; at + sizeof(was) <= tree.count; at += sizeof(was))
        if (memcmp(tree.at + at, &was, sizeof(was)) == 0)
            memcpy(tree.at + at, &is, sizeof(is));
}

static struct kexec_segment segment(struct bytes bytes, uintptr_t to, size_t room)
{
    size_t wanted = bytes.count > room ? bytes.count : room;

    return (struct kexec_segment){ bytes.at, bytes.count, (void *)to, (wanted + PAGE - 1) & -(size_t)PAGE };
}

int main(int count, char **words)
{
    struct bytes image, root, tree, end, code = { (char *)entry, (size_t)(entry_end - entry) };
    struct kexec_segment segments[4];

    if (count != 3)
        return 64;
    image = file(words[1]);
    root = file(words[2]);
    tree = file("/sys/firmware/fdt");
    end = file("/proc/device-tree/chosen/linux,initrd-end");
    segments[0] = segment(image, KERNEL, le64toh(*(uint64_t *)(void *)(image.at + IMAGE_SIZE)));
    end_at(tree, *(uint32_t *)(void *)end.at, htobe32((uint32_t)(ROOT + root.count)));
    segments[1] = segment(root, ROOT, 0);
    segments[2] = segment(tree, TREE, 0);
    segments[3] = segment(code, ENTRY, 0);
    if (syscall(SYS_kexec_load, ENTRY, 4, segments, KEXEC_ARCH_AARCH64) != 0)
        fail("kexec_load");
    reboot(LINUX_REBOOT_CMD_KEXEC);
    fail("reboot");
    return 1;
}
