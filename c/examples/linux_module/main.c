// SPDX-License-Identifier: MIT OR GPL-2.0
/*
 * Reads a memory map and an event log in the kernel: insmod uefi_boot.ko map=FILE log=FILE bank=11
 *
 * It prints each range of the map, and what the PCRs of a bank (of the TPM's algorithm, 11 for SHA-256) hold after the
 * events of the log. If the map or the log is damaged, insmod fails with EBADMSG.
 */
#define pr_fmt(fmt) KBUILD_MODNAME ": " fmt

#include <linux/kernel_read_file.h>
#include <linux/module.h>
#include <linux/slab.h>
#include <linux/vmalloc.h>

#include <uefi_formats.h>

static char *map;
module_param(map, charp, 0444);
MODULE_PARM_DESC(map, "file with a memory map");
static ulong stride = 48;
module_param(stride, ulong, 0444);
MODULE_PARM_DESC(stride, "bytes from one descriptor to the next, 48 by default");
static char *log;
module_param(log, charp, 0444);
MODULE_PARM_DESC(log, "file with an event log");
static ushort bank = UEFI_TPM_ALG_SHA256;
module_param(bank, ushort, 0444);
MODULE_PARM_DESC(bank, "the TPM's number of the PCRs' algorithm, 11 by default");

/* Prints a range of a memory map, with the name of its type. */
static void print_range(const UefiDescriptor *range)
{
	UefiBytes name;

	if (uefi_memory_type_name(range->memory_type, &name) != UEFI_OK)
		name = uefi_bytes("unknown", 7);
	pr_info("range %llx pages %llu type %u %.*s\n", range->phys_start, range->page_count, range->memory_type,
		UEFI_TEXT(name));
}

/* Prints the ranges of a memory map. */
static int read_map(UefiBytes bytes)
{
	UefiDescriptor range;
	size_t i;

	if (uefi_map_check(bytes, stride) != UEFI_OK)
		return -EBADMSG;
	for (i = 0; uefi_map_entry(bytes, stride, i, &range) == UEFI_OK; i++)
		print_range(&range);
	return 0;
}

/* What is wrong with a log, and from which offset on. Whole events, and padding, fill the bytes of a whole one. */
static UefiStatus fault_of(UefiBytes bytes, size_t *offset)
{
	UefiLogHeader header;

	/* A table of many rows makes a log slow to read. That of a real log has one to five. */
	if (uefi_log2_header(bytes, bytes.n, &header) == UEFI_OK && header.rows.n / 4 > 8)
		return UEFI_TOO_MANY_ALGORITHMS;
	return uefi_log_read(bytes, bytes.n, offset);
}

/* What doesn't fit on the kernel's stack. */
struct replay {
	UefiWorkspace workspace;
	UefiPcr pcrs[24];
};

/* Prints what each PCR holds. */
static void print_pcrs(const UefiPcr *pcrs)
{
	UefiBytes text;
	int i;

	for (i = 0; i < 24; i++) {
		uefi_status_text(pcrs[i].status, &text);
		if (pcrs[i].status == UEFI_OK)
			pr_info("pcr %d %*phN\n", i, (int)pcrs[i].size, pcrs[i].value);
		else
			pr_info("pcr %d undetermined by event %zu: %.*s\n", i, pcrs[i].index, UEFI_TEXT(text));
	}
}

/* Prints the PCRs that a whole log leads to. */
static int read_log(UefiBytes bytes)
{
	struct replay *replay;
	UefiBytes text;
	size_t offset = 0;
	UefiStatus status = fault_of(bytes, &offset);

	if (status != UEFI_OK) {
		uefi_status_text(status, &text);
		pr_err("the log is damaged at %zu: %.*s\n", offset, UEFI_TEXT(text));
		return -EBADMSG;
	}
	replay = kmalloc(sizeof(*replay), GFP_KERNEL);
	if (!replay)
		return -ENOMEM;
	status = uefi_replay(bytes, bytes.n, bank, UEFI_LOCALITY_OF_LOG, &replay->workspace, replay->pcrs);
	if (status == UEFI_OK)
		print_pcrs(replay->pcrs);
	kfree(replay);
	return status == UEFI_OK ? 0 : -EINVAL;
}

/* Reads a file, if it is named, by a function over its bytes. */
static int read_file(const char *name, int (*read)(UefiBytes bytes))
{
	void *content = NULL;
	ssize_t n;
	int error;

	if (!name)
		return 0;
	n = kernel_read_file_from_path(name, 0, &content, INT_MAX, NULL, READING_FIRMWARE);
	if (n < 0)
		return n;
	error = read(uefi_bytes(content, n));
	vfree(content);
	return error;
}

/* Reads what the parameters name. */
static int __init uefi_boot_init(void)
{
	int error = read_file(map, read_map);

	return error ? error : read_file(log, read_log);
}

/* Nothing is kept: with this function the module can be removed. */
static void __exit uefi_boot_exit(void)
{
}

module_init(uefi_boot_init);
module_exit(uefi_boot_exit);
MODULE_DESCRIPTION("Reads a memory map and an event log of UEFI firmware");
MODULE_LICENSE("Dual MIT/GPL");
