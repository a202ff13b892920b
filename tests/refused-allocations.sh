#!/usr/bin/env bash
# Refuses each allocation of one run of the built program (its path is the first argument; without one it is that which `rt ci` leaves), one
# at a time: `serve` on the sample volume and a request that its driver's handler is denied a port for. A shared object, written and compiled
# here and preloaded, answers null to the n-th call of malloc, calloc, realloc, aligned_alloc or posix_memalign: first to that and all later
# ones, where each run must end with status 7, write nothing to standard output and say just that memory was refused. Then to that one alone,
# where a run may also end with 0 and the whole report: std's `extend` asks for room by a hint, and where that is refused, for one element.
# It prints how many did which, and fails where one did neither, or where none ended with 7.
set -u
top=$(cd "$(dirname "$0")/.." && pwd)
program=${1:-$top/crates/mm_main/out/mm_main}
if [ ! -x "$program" ]; then
    echo "refused-allocations.sh: $program is not there: run rt ci first" >&2
    exit 1
fi
program=$(realpath "$program")
folder=$(mktemp -d)
trap 'rm -rf "$folder"' EXIT
cd "$folder" || exit 1

# The object counts the calls. It refuses the one with the number FAIL_AT, where FAIL_ON is set the later ones too, and makes the file that
# MARK names then.
cat > refusing.c << 'END'
#include <errno.h>
#include <fcntl.h>
#include <stdlib.h>
#include <unistd.h>

extern void *__libc_malloc(size_t);
extern void *__libc_calloc(size_t, size_t);
extern void *__libc_realloc(void *, size_t);
extern void *__libc_memalign(size_t, size_t);

static unsigned long calls;

static int is_refused(void) {
    const char *fail_at = getenv("FAIL_AT");
    unsigned long call = __atomic_add_fetch(&calls, 1, __ATOMIC_SEQ_CST);
    unsigned long first = fail_at == NULL ? 0 : strtoul(fail_at, NULL, 10);
    if (first == 0 || call < first || (call > first && getenv("FAIL_ON") == NULL)) return 0;
    const char *mark = getenv("MARK");
    if (mark != NULL) close(open(mark, O_CREAT | O_WRONLY, 0600));
    errno = ENOMEM;
    return 1;
}

void *malloc(size_t size) { return is_refused() ? NULL : __libc_malloc(size); }
void *calloc(size_t count, size_t size) { return is_refused() ? NULL : __libc_calloc(count, size); }
void *realloc(void *old, size_t size) { return is_refused() ? NULL : __libc_realloc(old, size); }
void *aligned_alloc(size_t align, size_t size) { return is_refused() ? NULL : __libc_memalign(align, size); }

int posix_memalign(void **out, size_t align, size_t size) {
    if (is_refused()) return ENOMEM;
    void *memory = __libc_memalign(align, size);
    if (memory == NULL) return ENOMEM;
    *out = memory;
    return 0;
}
END
cc -O1 -fno-builtin -shared -fPIC -o refusing.so refusing.c || exit 1

"$top/tests/sample-volume.sh" sample.fd
message=1111111122223333444455555555555508000000000000000000000000000000
printf '%s\n' 'lanes 1 4' "fill 0 $message" 'ring 0' 'run 0' > denied.script
printf '%s\n' \
    'volume 000001c0 ffs2 files 1' \
    'file 00000048 aaaaaaaa-0000-0000-0000-000000000001 type 0e size 00000174 driver' \
    'policy none fuel 65536' \
    'start aaaaaaaa-0000-0000-0000-000000000001 round 1 returned 0000000000000000' \
    'locked images 1 handlers 1 protocols 0' \
    'image 0 aaaaaaaa-0000-0000-0000-000000000001 closed' \
    'entry 0 lane 0 loads 5 status 800000000000000e' \
    "  request 0000000000000020 $message" \
    '  dispatched 11111111-2222-3333-4444-555555555555' \
    '  handler 0 returned 800000000000000f' \
    '    deny io read 0000000000000070 1 norule' \
    "  reply $message" \
    "lane 0 length 0000000000000020 status 800000000000000e data $message" > denied.report

# run N: the run whose N-th call is refused; its status is in `status`.
run() {
    rm -f mark
    FAIL_AT=$1 MARK=mark LD_PRELOAD=$folder/refusing.so "$program" serve sample.fd denied.script > said.out 2> said.err
    status=$?
}

# refuse_all: makes the run with each call refused, and counts the ends.
refuse_all() {
    refused=0
    whole=0
    call=1
    while run "$call"; [ -e mark ]; do
        if [ "$status" = 7 ] && [ ! -s said.out ] && [ "$(cat said.err)" = 'mm_main: memory was refused' ]; then
            refused=$((refused + 1))
        elif [ "$status" = 0 ] && cmp -s said.out denied.report && [ ! -s said.err ]; then
            whole=$((whole + 1))
        else
            failed=1
            echo "refused-allocations.sh: with call $call refused it ended with $status, $(wc -c < said.out) bytes, and '$(cat said.err)'" >&2
        fi
        call=$((call + 1))
    done
    [ "$refused" != 0 ] || failed=1
}

failed=0
run 0
if [ "$status" != 0 ] || ! cmp -s said.out denied.report; then
    echo "refused-allocations.sh: without a refusal the run ended with $status" >&2
    exit 1
fi
export FAIL_ON=1
refuse_all
[ "$whole" = 0 ] || failed=1
echo "refused-allocations.sh: refused from one on, of $((call - 1)) calls, $refused ended with status 7 and nothing written, $whole with 0"
unset FAIL_ON
refuse_all
echo "refused-allocations.sh: refused alone, of $((call - 1)) calls, $refused ended with status 7 and nothing written, $whole with 0 and the whole report"
exit "$failed"
