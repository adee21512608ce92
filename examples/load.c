/*
 * Loads the object of examples/hits.job into the running kernel, runs its program once on a test packet and looks for the
 * count 1 in its map. The script tools-test compiles and runs it:
 *
 *     cc -o load examples/load.c -lbpf && ./load hits.o
 *
 * The exit status is 0 when the count was found, 1 when the object did not do what it declares, 2 when the command was wrong,
 * and 77 when this kernel does not let us load and run any BPF program, whatever the object holds. It wants libbpf 1.0 or later.
 */
#include <errno.h>
#include <stdarg.h>
#include <stdint.h>
#include <stdio.h>
#include <unistd.h>

#include <bpf/bpf.h>
#include <bpf/libbpf.h>
#include <linux/bpf.h>

enum { FOUND = 0, FAILED = 1, WRONG_COMMAND = 2, NOT_POSSIBLE = 77 };

/* What examples/hits.job declares. */
static const char map_name[] = "hits";
static const char program_name[] = "count_faults";
enum { ENTRIES = 1024 };

static int answer(int status, const char *format, ...)
{
	va_list values;

	va_start(values, format);
	vprintf(format, values);
	va_end(values);
	putchar('\n');
	return status;
}

/* An error number in words. libbpf has numbers of its own beside those of the kernel, and takes either sign. */
static const char *in_words(int error)
{
	static char words[128];

	libbpf_strerror(error, words, sizeof(words));
	return words;
}

/* Runs a program once on a packet of zeros. It gives 0 and the program's answer, or a negative error number. */
static int run_once(int program, uint32_t *verdict)
{
	/* An Ethernet frame of the least length. */
	unsigned char packet[64] = { 0 };
	LIBBPF_OPTS(bpf_test_run_opts, options,
		.data_in = packet,
		.data_size_in = sizeof(packet),
		.repeat = 1);
	int error = bpf_prog_test_run_opts(program, &options);

	*verdict = options.retval;
	return error;
}

/*
 * Tries a map and a program of two instructions that have nothing to do with the object. What fails here is a matter of the
 * kernel and of our rights. It gives NULL when all is well, or else the step that failed, with its error number in errno.
 */
static const char *step_that_is_not_possible(void)
{
	const struct bpf_insn pass[] = {
		{ .code = BPF_ALU64 | BPF_MOV | BPF_K, .dst_reg = BPF_REG_0, .imm = XDP_PASS },
		{ .code = BPF_JMP | BPF_EXIT },
	};
	const char *step = NULL;
	uint32_t verdict;
	int map, program, error;

	map = bpf_map_create(BPF_MAP_TYPE_ARRAY, "probe", sizeof(uint32_t), sizeof(uint64_t), 1, NULL);
	if (map < 0) {
		errno = -map;
		return "making a map";
	}
	close(map);
	program = bpf_prog_load(BPF_PROG_TYPE_XDP, "probe", "GPL", pass, sizeof(pass) / sizeof(pass[0]), NULL);
	if (program < 0) {
		errno = -program;
		return "loading a program";
	}
	error = run_once(program, &verdict);
	if (error < 0)
		step = "running a program on a test packet";
	close(program);
	errno = -error;
	return step;
}

/* The element of the map at a key. It gives 0, or a negative error number where the map has no such element. */
static int count_at(int map, uint32_t key, uint64_t *count)
{
	return bpf_map_lookup_elem(map, &key, count);
}

static int check_loaded(struct bpf_object *object)
{
	struct bpf_map *map = bpf_object__find_map_by_name(object, map_name);
	struct bpf_program *program = bpf_object__find_program_by_name(object, program_name);
	uint64_t count;
	uint32_t verdict, key;
	int error;

	if (!map)
		return answer(FAILED, "the loaded object has no map %s", map_name);
	if (!program)
		return answer(FAILED, "the loaded object has no program %s", program_name);
	if (bpf_map__type(map) != BPF_MAP_TYPE_ARRAY || bpf_map__key_size(map) != sizeof(key) ||
	    bpf_map__value_size(map) != sizeof(count) || bpf_map__max_entries(map) != ENTRIES)
		return answer(FAILED, "the map %s does not have the attributes that the job declares", map_name);

	error = count_at(bpf_map__fd(map), 0, &count);
	if (error < 0)
		return answer(FAILED, "the count can not be read before the run: %s", in_words(error));
	if (count != 0)
		return answer(FAILED, "the count is %llu before the run, and 0 was expected", (unsigned long long)count);

	error = run_once(bpf_program__fd(program), &verdict);
	if (error < 0)
		return answer(FAILED, "the program %s does not run: %s", program_name, in_words(error));
	if (verdict != XDP_PASS)
		return answer(FAILED, "the program answers %u, and XDP_PASS (%u) was expected", verdict, (unsigned)XDP_PASS);

	error = count_at(bpf_map__fd(map), 0, &count);
	if (error < 0)
		return answer(FAILED, "the count can not be read after the run: %s", in_words(error));
	if (count != 1)
		return answer(FAILED, "the count is %llu after one run, and 1 was expected", (unsigned long long)count);

	/* The other elements have to be as they were. */
	for (key = 1; key < ENTRIES; key++) {
		error = count_at(bpf_map__fd(map), key, &count);
		if (error < 0 || count != 0)
			return answer(FAILED, "the element %u of the map is not there or not 0 after the run", key);
	}
	return answer(FOUND, "the kernel loaded the object, the program ran once and answered XDP_PASS, and the count is 1");
}

int main(int argc, char **argv)
{
	struct bpf_object *object;
	const char *step;
	int status, error;

	if (argc != 2)
		return answer(WRONG_COMMAND, "usage: load OBJECT");
	step = step_that_is_not_possible();
	if (step)
		return answer(NOT_POSSIBLE, "%s is not possible here: %s", step, in_words(errno));

	object = bpf_object__open_file(argv[1], NULL);
	if (!object)
		return answer(FAILED, "libbpf does not open the object: %s", in_words(errno));
	error = bpf_object__load(object);
	if (error < 0)
		status = answer(FAILED, "the kernel does not load the object: %s", in_words(error));
	else
		status = check_loaded(object);
	bpf_object__close(object);
	return status;
}
