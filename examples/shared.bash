# What the scripts of the examples have in common.

root=$(cd "$(dirname "${BASH_SOURCE[0]}")/.." && pwd)
relink=$root/build/relink

fail() {
    printf 'examples/%s/run: %s\n' "$example" "$*" >&2
    exit 1
}

# Each of the tools must be there.
need() {
    local tool
    for tool in "$@"; do
        command -v "$tool" >/dev/null && continue
        case $tool in
        as | objcopy | readelf) fail "$tool is missing: install the GNU binutils" ;;
        rt) fail "rt is missing: install the Rattle toolchain, which proves and builds relink" ;;
        *) fail "$tool is missing: install it" ;;
        esac
    done
}

# is_built PROGRAM: whether it was built, and no source is newer than it.
is_built() {
    local built=$root/crates/$1/out/$1
    [ -x "$built" ] || return 1
    [ -z "$(find "$root/crates.txt" "$root/crates" -path '*/out' -prune -o \
        -type f \( -name '*.rt' -o -name '*.antt' -o -name crates.txt \) -newer "$built" -print -quit)" ]
}

# Passes on what the prover says of each crate that it has to prove.
progress() {
    awk '
        /^rt: chose --jobs [0-9]+ for / { print "proving " $NF; fflush() }
        /^so far: [1-9]/ { print "    " $3, $4, $5, $6, $7; fflush() }
    '
}

# build_program PROGRAM: proves and builds it where that is needed, and copies it to build/PROGRAM. `rt run` also runs it, here
# without words.
build_program() {
    local program=$1 built=$root/crates/$1/out/$1 log=$root/build/rt.log
    mkdir -p "$root/build"
    if ! is_built "$program"; then
        need rt
        echo "proving and building $program, which takes about ten minutes the first time"
        rm -f "$built"
        (cd "$root/crates/$program" && rt run --) 2>&1 </dev/null | tee "$log" | progress || true
        if [ ! -x "$built" ]; then
            tail -n 20 "$log" >&2
            fail "$program was not built: build/rt.log, which ends with the lines above, says why"
        fi
    fi
    cp "$built" "$root/build/$program"
}

# set_up NAME TOOL..: with these tools there, builds the program and makes build/NAME/kit anew, with the text of the kit. To a
# program that is started in build/NAME that folder is /kit.
set_up() {
    example=$1
    shift
    need "$@"
    build_program relink
    folder=$root/build/$example
    kit=$folder/kit
    rm -rf "$folder"
    mkdir -p "$kit"
    cp "$root/examples/$example/link.conf" "$kit/link.conf"
}

# Links the kit under a seed, and shows the object, the image and the map. The object's code stands in the image from 4,096 on.
link_and_show() {
    local status=0 code=$folder/code seed=0123456789abcdef0123456789abcdef0123456789abcdef0123456789abcdef
    echo
    echo "== the object"
    readelf -SsW "$kit/kernel.o"
    echo
    echo "== relink link /kit --seed $seed"
    (cd "$folder" && "$relink" link /kit --seed "$seed") || status=$?
    echo "status $status"
    case $status in
    0) ;;
    *) fail "relink ended with status $status: docs/formats.md says what it means" ;;
    esac
    echo
    echo "== the image: build/$example/kit/linked.relink"
    readelf -hlW "$kit/linked.relink"
    objcopy -O binary -j .text "$kit/kernel.o" "$code"
    tail -c +4097 "$kit/linked.relink" | head -c "$(stat -c %s "$code")" | cmp - "$code" || fail "the code in the image is not the object's"
    echo
    echo "== the map: build/$example/kit/linked.map.relink"
    cat "$kit/linked.map.relink"
}

# allocated INPUT FILE: the sections of a file with the flag A, as the map names them.
allocated() {
    readelf -SW "$2" | sed -n 's/^ *\[ *\([0-9]*\)\] *[^ ]* *[A-Z_]* *[0-9a-f]* [0-9a-f]* [0-9a-f]* [0-9a-f]* *\([A-Z]*\) .*/\1 \2/p' |
        awk -v input="$1" '$2 ~ /A/ { print "piece", input, $1 }'
}

# boots IMAGE: boots the kernel of examples/boot in qemu, which must print its lines on the serial line.
boots() {
    local status=0 printed known
    printed=$(timeout 120 qemu-system-x86_64 -kernel "$1" -m 128 -display none -serial stdio -monitor none -no-reboot \
        -device isa-debug-exit,iobase=0xf4,iosize=4 </dev/null | tr -d '\r') || status=$?
    known=$(printf '%s\n' 'linked by relink' text rodata data bss 'all is right')
    [ "$printed" = "$known" ] || fail "the kernel printed '$printed', and not '$known' (status $status)"
}

# compile FILE OBJECT: compiles a file of a kernel.
compile() {
    gcc -O2 -ffreestanding -fno-pic -mcmodel=kernel -mno-red-zone -fno-stack-protector -fcf-protection=none -fno-asynchronous-unwind-tables \
        -mgeneral-regs-only -c -o "$2" "$1"
}

# A machine is a folder that looks like the root of one. These are names below it: the folder of the kernel's kit, the files that
# reorder_kernel replaces, and the slots of the two jobs.
kernel_kit=usr/share/relink/kernel
kernel_files=(bsd var/db/kernel.SHA256 var/db/kernel.map)
kernel_slot=var/db/relink.kernel.intent
libs_slot=var/db/relink.libs.intent

# Two seeds that draw small gaps, so that the images are small: of 1424, 4240, 4592 and 153296 bytes, and of 9424, 1216, 3344 and
# 45552, as examples/order/order.py tells.
first_seed=0000000000000000000000000000000000000000000000000000000000000923
second_seed=000000000000000000000000000000000000000000000000000000000000392a

# digest FILE: its SHA-256 digest.
digest() {
    sha256sum <"$1" | cut -d ' ' -f 1
}

# record FILE: the record of a kernel.
record() {
    printf 'SHA256 (/bsd) = %s\n' "$(digest "$1")"
}

# first_kernel MACHINE WORD..: links the kit of the machine, and puts the image and its record in place.
first_kernel() {
    local machine=$1
    shift
    (cd "$machine" && "$relink" link "/$kernel_kit" "$@" >/dev/null) || fail "relink link ended with status $?"
    cp "$machine/$kernel_kit/linked.relink" "$machine/bsd"
    mkdir -p "$machine/var/db"
    record "$machine/bsd" >"$machine/var/db/kernel.SHA256"
}

# keep_kernel MACHINE KEPT: keeps the kernel, its record and its map in a folder.
keep_kernel() {
    mkdir -p "$2"
    (cd "$1" && cp "${kernel_files[@]}" "$2/")
}

# has_kernel MACHINE KEPT: whether the machine has the kernel, the record and the map that were kept.
has_kernel() {
    local file
    for file in "${kernel_files[@]}"; do
        cmp -s "$1/$file" "$2/${file##*/}" || return 1
    done
}

# intent JOB TARGET OLD NEW: the intent of a job to replace one file, by the digests of what it holds and of what it is to hold.
intent() {
    printf '%s\n' 'relink intent 1' "batch $1" "entry $2 $3 $4" end
}

# The calls on the host that change or sync files.
changing=open,openat,creat,write,pwrite64,rename,renameat,renameat2,unlink,unlinkat,mkdir,mkdirat,fsync,fdatasync

# watch LOG WORD..: runs the program, and notes these calls.
watch() {
    local log=$1
    shift
    strace -y -qq -e trace=$changing -e signal=none -o "$log" "$relink" "$@" >/dev/null || fail "relink $* ended with status $?"
}

# changes MACHINE LOG: of the calls that were noted, those that change or sync something of the machine, each as its name, its number
# among the calls of that name, and the last path in it.
changes() {
    awk -v top="$1" '
        { name = $0; sub(/\(.*/, "", name); number[name]++ }
        name ~ /^open/ && !/O_CREAT/ { next }
        name ~ /sync|write/ {
            path = $0
            sub(/^[^<]*</, "", path)
            sub(/>.*/, "", path)
            if (path != top && index(path, top "/") != 1) next
            path = path == top ? "." : substr(path, length(top) + 2)
        }
        name !~ /sync|write/ { count = split($0, part, "\""); path = part[count - 1] }
        { print name, number[name], path }
    ' "$2"
}

# stop_at CALL NUMBER WORD..: runs the program, and kills it when it comes to that call, which isn't made.
stop_at() {
    local call=$1 number=$2 printed status=0
    shift 2
    printed=$(strace -qq -o /dev/null -e "trace=$call" -e "inject=$call:signal=KILL:when=$number" "$relink" "$@") || status=$?
    [ "$status" -eq 137 ] || fail "relink $*: status $status at call $number of $call, where it was to be killed: $printed"
}
