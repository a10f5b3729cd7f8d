/*
 * The step of boot.c by libfdt, for comparison: boot_libfdt BLOB BYTES ARGUMENTS START SIZE OUT
 */
#include <libfdt.h>
#include <stdio.h>
#include <stdlib.h>
#include <string.h>

#define ROOM (1 << 20)

static uint8_t file_bytes[ROOM], buffer[ROOM];

static int checked(const char *what, int result)
{
	if (result >= 0)
		return result;
	fprintf(stderr, "%s: %s\n", what, fdt_strerror(result));
	exit(1);
}

static void read_blob(const char *path)
{
	FILE *file = fopen(path, "rb");

	if (!file || !fread(file_bytes, 1, sizeof file_bytes, file)) {
		perror(path);
		exit(1);
	}
	fclose(file);
	checked(path, fdt_open_into(file_bytes, buffer, sizeof buffer));
}

static void write_blob(const char *path)
{
	FILE *file = fopen(path, "wb");

	checked("pack", fdt_pack(buffer));
	if (!file || fwrite(buffer, 1, fdt_totalsize(buffer), file) != fdt_totalsize(buffer) || fclose(file)) {
		perror(path);
		exit(1);
	}
}

static int find_memory(void)
{
	return checked("memory", fdt_node_offset_by_prop_value(buffer, -1, "device_type", "memory", 7));
}

static uint64_t number_at(const fdt32_t *cells, int count)
{
	uint64_t number = 0;

	while (count--)
		number = number << 32 | fdt32_ld(cells++);
	return number;
}

static void print_memory(void)
{
	int addresses = checked("cells", fdt_address_cells(buffer, 0)), sizes = checked("cells", fdt_size_cells(buffer, 0)), length;
	const fdt32_t *reg = fdt_getprop(buffer, find_memory(), "reg", &length);

	checked("reg", length);
	for (int i = 0; i + addresses + sizes <= length / 4; i += addresses + sizes)
		printf("memory: %#llx bytes at %#llx\n", (unsigned long long)number_at(reg + i + addresses, sizes),
			(unsigned long long)number_at(reg + i, addresses));
	for (int i = 0; i < fdt_num_mem_rsv(buffer); i++) {
		uint64_t address, size;

		checked("reservation", fdt_get_mem_rsv(buffer, i, &address, &size));
		printf("reserved: %#llx bytes at %#llx\n", (unsigned long long)size, (unsigned long long)address);
	}
}

static void set_memory(uint64_t size)
{
	int memory = find_memory(), addresses = fdt_address_cells(buffer, 0), length;
	uint64_t address = number_at(fdt_getprop(buffer, memory, "reg", &length), addresses);

	checked("reg", fdt_delprop(buffer, memory, "reg"));
	checked("reg", fdt_appendprop_addrrange(buffer, 0, memory, "reg", address, size));
}

static void set_initial_files(int chosen, uint64_t start, uint64_t size)
{
	checked("start", fdt_setprop_u64(buffer, chosen, "linux,initrd-start", start));
	checked("end", fdt_setprop_u64(buffer, chosen, "linux,initrd-end", start + size));
	checked("reserve", fdt_add_mem_rsv(buffer, start, size));
}

int main(int count, char **words)
{
	int chosen;

	if (count != 7) {
		fprintf(stderr, "usage: boot_libfdt BLOB BYTES ARGUMENTS START SIZE OUT\n");
		return 2;
	}
	read_blob(words[1]);
	print_memory();
	set_memory(strtoull(words[2], NULL, 0));
	chosen = checked("/chosen", fdt_path_offset(buffer, "/chosen"));
	checked("bootargs", fdt_setprop_string(buffer, chosen, "bootargs", words[3]));
	set_initial_files(chosen, strtoull(words[4], NULL, 0), strtoull(words[5], NULL, 0));
	print_memory();
	printf("arguments: %s\n", (const char *)fdt_getprop(buffer, chosen, "bootargs", NULL));
	write_blob(words[6]);
	return 0;
}
